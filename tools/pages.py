#!/usr/bin/env python3
"""Opens pages of `auditorium_view` in headless Chromium and compares what the browser shows with the report.

usage: python3 tools/pages.py PROGRAMS [--random COUNT] [--seed SEED] [--shots FOLDER]

PROGRAMS is a folder with the built `auditorium` and `auditorium_view`. Chromium is Debian's package `chromium`. Six
places are made (whole, a log missing, cut, forged, forked, with a stray), and COUNT random ones, 100 if it isn't said,
some by rules of one's own, some with names of files that try to break out of the text. Of each page the tree that the
browser made (`--dump-dom`) is compared with the lines of `audit`: the verdict, whether the rules are the standard ones,
the rules by their answers, the lines that accuse and those that may be loss alone, the gaps, the machines without a
log, the number of rows of the table of entries and the links into it, and the report itself, to the byte; and the
digests with those of the files. Nothing of a name may have become an element. With --shots the six pages are drawn into
FOLDER, 1,280 and 390 pixels wide, light and dark. The exit status is 1 if something differs. No proof speaks of
browsers, and this is no part of the tests.
"""
import argparse
import hashlib
import html.parser
import pathlib
import random
import re
import shutil
import subprocess
import sys
import tempfile

ROOT = pathlib.Path(__file__).resolve().parent.parent
SCRIPTS = {"three": ROOT / "crates/auditorium_cli/data/three.script", "second": ROOT / "examples/second.script"}
STRAY = ROOT / "examples/stray.log"
NAMES = ["<script>document.title=1<script>", "\"onload=\"x='1'", "]]>&amp;<!--", "&lt;b&gt;<b>", "'><svg"]
VOID = {"meta", "br", "wbr"}
ACCUSING = ("refused", "malformed", "break", "stray", "fork", "broken")
LOSS = ("torn", "gap", "unsettled")
VERDICTS = {"Kept": "kept", "Findings": "findings", "Unsettled": "unsettled", "Broken": "broken"}


class Tree(html.parser.HTMLParser):
    """A document's elements, each a list: the name, the attributes, and what is in it."""

    def __init__(self, text):
        super().__init__(convert_charrefs=True)
        self.root = ["", {}, []]
        self.open = [self.root]
        self.feed(text)

    def handle_starttag(self, tag, attrs):
        node = [tag, dict(attrs), []]
        self.open[-1][2].append(node)
        if tag not in VOID:
            self.open.append(node)

    def handle_startendtag(self, tag, attrs):
        self.open[-1][2].append([tag, dict(attrs), []])

    def handle_endtag(self, tag):
        assert self.open.pop()[0] == tag, f"</{tag}> closes another element"

    def handle_data(self, data):
        self.open[-1][2].append(data)


def text(node):
    """All text in a node."""
    return node if isinstance(node, str) else "".join(text(child) for child in node[2])


def all_of(node, tag):
    """The elements of this name in a node, in order."""
    for child in node[2]:
        if not isinstance(child, str):
            if child[0] == tag:
                yield child
            yield from all_of(child, tag)


def rows_of(table):
    """The texts of a table's cells, row by row, without its titles."""
    return [[text(cell).strip() for cell in all_of(row, "td")] for row in all_of(table, "tr") if list(all_of(row, "td"))]


def parts(section):
    """The rows of the table after each title within a section, and before the first under no title."""
    found, title = {"": []}, ""
    for child in section[2]:
        if isinstance(child, str):
            continue
        if child[0] == "h3":
            title = text(child)
            found[title] = []
        for table in all_of(["", {}, [child]], "table"):
            found[title] += rows_of(table)
    return found


def shown(browser, page):
    """The sections of the page as the browser shows them, by their names, and all elements' names."""
    run = subprocess.run(browser + ["--dump-dom", page.as_uri()], capture_output=True, timeout=120)
    tree = Tree(run.stdout.decode()).root
    sections = {section[1].get("id"): section for section in all_of(tree, "section")}
    names = {node[0] for node in every(tree)}
    return sections, names, tree


def every(node):
    for child in node[2]:
        if not isinstance(child, str):
            yield child
            yield from every(child)


def names_in(rows):
    return [row[0] for row in rows]


def differences(browser, page, report, machines, inputs, standard):
    """What the page shows otherwise than the report says."""
    lines = report.decode().splitlines()
    by = lambda *words: [line for line in lines if line.split(" ")[0] in words]
    sections, names, tree = shown(browser, page)
    rules, findings = parts(sections["rules"]), parts(sections["findings"])
    accuses, loss = list(findings.values())[1:3]
    first = lambda line: " ".join(line.split(" ")[:2]) if line.startswith("broken ") else line
    said = text(next(all_of(sections["verdict"], "strong")))
    yield "the verdict", VERDICTS[said.partition(":")[0]], lines[-1].split(" ")[1]
    yield "whether the rules are the standard ones", "are the 22 standard" in text(sections["audited"]), standard
    for title, word in (("Broken", "broken"), ("Unsettled", "unsettled"), ("Kept", "kept")):
        yield f"the rules that are {word}", names_in(rules[title]), [line.split(" ")[1] for line in by(word)]
    yield "what accuses", [first(row[0]) for row in accuses], [first(line) for line in by(*ACCUSING)]
    yield "what may be loss", names_in(loss), by(*LOSS)
    gap_rows = [row for row in parts(sections["gaps"])[""] if re.fullmatch("[0-9a-f]{64}", row[0])]
    yield "the gaps", [f"gap {row[0]}" for row in gap_rows], by("gap")
    yield "gaps without an entry that names them", [row for row in gap_rows if not row[1]], []
    owned = {int(line.split(" owner ")[1].split(" ")[0]) for line in by("log")}
    lacking = [name for place, name in enumerate(machines) if place not in owned]
    audited = parts(sections["audited"])[""]
    yield "the inputs", [row[1] for row in audited], inputs
    yield "the digests", [row[2] for row in audited], [
        hashlib.sha256((page.parent / name).read_bytes()).hexdigest() for name in inputs]
    listed = parts(sections["machines"])[""]
    yield "machines without a log", [row[0] for row in listed if row[2:] == ["none was given"]], lacking
    yield "the logs", sorted(row[2] for row in listed if len(row) > 3), sorted(
        line[4:line.rindex(" owner ")] for line in by("log"))
    entries = list(all_of(next(all_of(sections["entries"], "tbody")), "tr"))
    yield "the number of rows", len(entries), int(by("entries")[0].split(" ")[1])
    ids = {row[1]["id"] for row in entries}
    links = [link[1]["href"] for link in all_of(tree, "a")]
    yield "links that lead nowhere", [link for link in links if link[1:] not in ids], []
    yield "the report", text(next(all_of(sections["report"], "pre"))), report.decode()
    yield "elements that no page has", sorted(names & {"script", "b", "img", "iframe"}), []


def made(programs, here):
    """The logs of two runs under one roster, some of them damaged."""
    for name, script in SCRIPTS.items():
        subprocess.run([programs / "auditorium", "play", script, here / name], check=True, capture_output=True)
    read = lambda name: (here / name).read_bytes()
    (here / "cut.log").write_bytes(read("three.b2.log")[:12000])
    changed = bytearray(read("three.b2.log"))
    changed[7000] ^= 4
    (here / "changed.log").write_bytes(changed)
    (here / "more.log").write_bytes(read("second.sv.log") + b"x")
    shutil.copy(STRAY, here / "stray.log")
    names = re.findall(r"\(rule (\w+) ", (ROOT / "crates/rule_language/src/standard_text.rt").read_text())
    (here / "true.rules").write_text("".join(f"(rule {name} true)\n" for name in names))
    standard = (ROOT / "crates/rule_language/src/standard_text.rt").read_text().split('= "\\\n')[1].split('";')[0]
    (here / "same.rules").write_text(standard)
    return re.findall(r"^machine (\w+)", SCRIPTS["three"].read_text(), re.M)


def random_place(draw, here, number):
    """The rules and logs of a random place; some logs are cut, changed or named otherwise."""
    logs = []
    base = ["three.sv.log", "three.b1.log", "three.b2.log", "second.sv.log", "changed.log", "more.log", "stray.log"]
    for log in draw.sample(base, draw.randint(1, 5)):
        data = bytearray((here / log).read_bytes())
        kind = draw.choice(["whole", "whole", "cut", "changed"])
        if kind == "cut":
            data = data[:draw.randint(100, len(data))]
        if kind == "changed":
            data[draw.randint(200, len(data) - 1)] ^= 1 << draw.randint(0, 7)
        name = f"{number}.{len(logs)}.{log}" if draw.random() < 0.7 else f"{number}{draw.choice(NAMES)}{len(logs)}"
        (here / name).write_bytes(data)
        logs.append(name)
    return draw.choice(["standard", "standard", "true.rules", "same.rules"]), logs


def main():
    words = argparse.ArgumentParser()
    words.add_argument("programs", type=pathlib.Path)
    words.add_argument("--random", type=int, default=100)
    words.add_argument("--seed", type=int, default=1)
    words.add_argument("--shots", type=pathlib.Path)
    given = words.parse_args()
    programs = given.programs.resolve()
    with tempfile.TemporaryDirectory() as folder:
        here = pathlib.Path(folder)
        browser = ["chromium", "--headless", "--no-sandbox", "--disable-gpu", f"--user-data-dir={here / 'profile'}"]
        machines = made(programs, here)
        honest = ["three.sv.log", "three.b1.log", "three.b2.log"]
        places = {
            "whole": ("standard", honest),
            "missing": ("standard", ["three.sv.log", "three.b2.log"]),
            "cut": ("standard", ["three.sv.log", "three.b1.log", "cut.log"]),
            "forged": ("standard", ["three.sv.log", "three.b1.log", "changed.log"]),
            "forked": ("standard", ["three.sv.log", "more.log", "three.b1.log", "three.b2.log"]),
            "stray": ("standard", honest + ["stray.log"]),
        }
        draw = random.Random(given.seed)
        for number in range(given.random):
            places[f"random {number}"] = random_place(draw, here, number)
        bad = 0
        for name, (rules, logs) in places.items():
            asked = ["three.roster", rules, *logs]
            audit = subprocess.run([programs / "auditorium", "audit", *asked], cwd=here, capture_output=True)
            view = subprocess.run([programs / "auditorium_view", *asked], cwd=here, capture_output=True)
            if audit.returncode != view.returncode:
                print(f"{name}: status {view.returncode}, not {audit.returncode}")
                bad += 1
            if audit.returncode > 3:
                continue
            page = here / "page.html"
            page.write_bytes(view.stdout)
            inputs = [word for word in asked if word != "standard"]
            for what, is_, wanted in differences(
                    browser, page, audit.stdout, machines, inputs, rules != "true.rules"):
                if is_ != wanted:
                    print(f"{name}: {what}: {is_!r}, not {wanted!r}")
                    bad += 1
            if given.shots and not name.startswith("random"):
                given.shots.mkdir(exist_ok=True)
                drawn(browser, page, given.shots.resolve(), name)
        print(f"{len(places)} places, {bad} differences")
    sys.exit(1 if bad else 0)


def drawn(browser, page, shots, name):
    """Draws the page at two widths, light and dark."""
    for width, height in ((1280, 4200), (390, 6400)):
        for dark in (False, True):
            file = shots / f"{name}-{width}-{'dark' if dark else 'light'}.png"
            scheme = ["--blink-settings=preferredColorScheme=0"] if dark else []
            subprocess.run(browser + scheme + [f"--screenshot={file}", f"--window-size={width},{height}", page.as_uri()],
                           capture_output=True, timeout=120, check=True)


if __name__ == "__main__":
    main()
