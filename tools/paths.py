#!/usr/bin/env python3
"""Checks the documents: each path and link that they name exists, and the README has at most 950 words.

Run from anywhere: python3 tools/paths.py

Read are the Markdown files of the repository. A link is looked for from the document's folder. A word in
backticks that begins with a folder of the top is looked for from the top, and one that begins with `src/`,
`specs/`, `proofs/` or `must-fail/` from the folder of the crate that the section or the row is on; the README
at the top means `auditorium_core`. Words with capitals in their second part, as `crates/NAME`, and what lies
in an `out` are passed over. Each fault is printed; the exit status is 1 if there is one.
"""
import pathlib
import re
import subprocess
import sys

ROOT = pathlib.Path(__file__).resolve().parent.parent
MOST_WORDS = 950
TOP = ("crates/", "docs/", "bench/", "tools/", "examples/", ".ci/")
OWN = ("src/", "specs/", "proofs/", "must-fail/")


def documents():
    listed = subprocess.run(["git", "ls-files", "-co", "--exclude-standard", "*.md"], cwd=ROOT, check=True,
                            capture_output=True, text=True)
    return [ROOT / name for name in listed.stdout.split() if (ROOT / name).is_file()]


def anchor(heading):
    """The anchor that a viewer gives to a heading."""
    return re.sub(r"[^\w\- ]", "", heading.lower()).strip().replace(" ", "-")


def link_fault(document, link):
    path, _, fragment = link.partition("#")
    aim = (document.parent / path).resolve() if path else document
    if not aim.exists():
        return f"no {link}"
    if fragment and aim.suffix == ".md":
        anchors = {anchor(line.lstrip("# ")) for line in aim.read_text().splitlines() if line.startswith("#")}
        if fragment not in anchors:
            return f"no heading {link}"
    return None


def word_fault(word, crate):
    if re.search(r"[A-Z*{]", pathlib.PurePath(word).parts[1]) or "/out/" in word or word.endswith("/out"):
        return None
    if word.startswith(TOP):
        return None if (ROOT / word).exists() else f"no {word}"
    if word.startswith(OWN) and len(word) > word.index("/") + 1:
        if crate is None:
            return f"{word} is of no crate"
        return None if (ROOT / "crates" / crate / word).exists() else f"no {word} in {crate}"
    return None


def faults(document):
    parts = document.relative_to(ROOT).parts
    home = {"crates": parts[1] if len(parts) > 1 else None, "README.md": "auditorium_core"}.get(parts[0])
    crate, fenced = home, False
    for number, line in enumerate(document.read_text().splitlines(), 1):
        if line.startswith("```"):
            fenced = not fenced
        if fenced:
            continue
        named = re.match(r"(?:#+|\|) `(\w+)`", line)
        if named and (ROOT / "crates" / named.group(1)).is_dir():
            crate = named.group(1)
        elif line.startswith("#"):
            crate = home
        found = [link_fault(document, link) for link in re.findall(r"\]\(([^):]+)\)", line)]
        words = [word for word in re.findall(r"`([^` ]+)`", line) if "/" in word[:-1]]
        found += [word_fault(word, crate) for word in words]
        yield from (f"{'/'.join(parts)}:{number}: {fault}" for fault in found if fault)


def main():
    found = [fault for document in documents() for fault in faults(document)]
    words = len((ROOT / "README.md").read_text().split())
    if words > MOST_WORDS:
        found.append(f"README.md has {words} words")
    for fault in found:
        print(fault)
    return 1 if found else 0


if __name__ == "__main__":
    sys.exit(main())
