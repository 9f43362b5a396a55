#!/usr/bin/env python3
"""Checks what docs/PROMISES.md and the crates' READMEs name, and that each law has a caller or a reader.

Run from anywhere: python3 tools/promises.py

In docs/PROMISES.md each crate of crates.txt must have one row, but those that only test, measure or compare:
their names end in `_tests` or `_orders`, or begin with `bench_`, or only such crates use them. In a row's third
column `NAME`, clause `CLAUSE`, in `PATH` means that PATH is a file of the crate and that NAME and CLAUSE are words of it, NAME of a function
or of a definition. In crates/NAME/README.md the names in the column "Kept by" must be words of the crate's
sources, or of those of a crate that the cell names too.

A law is a public function without arguments and result: all that it has is its contract. One that no function
calls is a promise to readers, so a row of its crate must name it, in the table of crates or in that of laws.
A row of laws names nothing else. Each fault is printed; the exit status is 1 if there is one.
"""
import pathlib
import re
import sys

ROOT = pathlib.Path(__file__).resolve().parent.parent
PROMISES = ROOT / "docs" / "PROMISES.md"
NAME = re.compile(r"`([^`]+)`")
WITHOUT_ROW = re.compile(r"bench_\w+|\w+_(?:tests|orders)")
LAW = re.compile(r"^pub fn (\w+)(?:<[^(]*>)?\(\)\s*\n(?=\s*(?:requires|ensures))", re.M)
CALL = re.compile(r"(?<![.\w])(?<!fn )(?:(\w+)::)?(\w+)(?:::<[^>]*>)?\(\)")
USE = re.compile(r"^use (\w+)::(?:\{(.*?)\}|(\w+));", re.S | re.M)


def crates():
    """The crates of crates.txt."""
    lines = (ROOT / "crates.txt").read_text().splitlines()
    return [line.split(":")[0] for line in lines if ":" in line and not line.startswith("#")]


def crates_without_row():
    """The crates that only test, measure or compare."""
    users = {crate: [] for crate in crates()}
    for line in (ROOT / "crates.txt").read_text().splitlines():
        if ":" in line and not line.startswith("#"):
            crate, _, used = line.partition(":")
            for name in used.split():
                users.get(name, []).append(crate)
    found = set()
    for crate in reversed(crates()):
        if WITHOUT_ROW.fullmatch(crate) or users[crate] and found.issuperset(users[crate]):
            found.add(crate)
    return found


def rows(text, heading):
    """The rows of the tables whose first line has this heading, as lists of cells."""
    found, inside = [], False
    for line in text.splitlines():
        cells = [cell.strip() for cell in line.strip().strip("|").split("|")]
        if not line.startswith("|"):
            inside = False
        elif heading in cells:
            inside = True
        elif inside and not set(line) <= set("|- "):
            found.append(cells)
    return found


def words_of(path):
    return set(re.findall(r"\w+", path.read_text()))


def source_words(crate):
    """The words of a crate's sources and definitions."""
    folder = ROOT / "crates" / crate
    return set().union(*(words_of(path) for kind in ("src/**/*.rt", "specs/**/*.antt") for path in folder.glob(kind)))


def row_faults(crate, cell):
    """What the third cell of a crate's row names in vain."""
    pending = []
    for name in NAME.findall(cell):
        if "/" not in name:
            pending += name.split("::")
            continue
        path = ROOT / "crates" / crate / name
        if not path.is_file():
            yield f"{crate}: no file {name}"
            continue
        known = words_of(path)
        yield from (f"{crate}: {name} has no {part}" for part in pending if part not in known)
        pending = []
    if cell.endswith(")"):
        # A definition in parentheses after the last file is named by that file's contracts.
        pending = [name for name in pending if name not in known]
    yield from (f"{crate}: no file is named for {name}" for name in pending)


def readme_faults(crate):
    """What the crate's own README names in vain."""
    path = ROOT / "crates" / crate / "README.md"
    if not path.is_file():
        yield f"{crate}: no README.md"
        return
    own = source_words(crate)
    for cells in rows(path.read_text(), "Kept by"):
        names = NAME.findall(cells[1])
        known = own.union(*(source_words(name) for name in names if name in crates()))
        for name in names:
            if "/" not in name and name not in crates():
                parts = re.findall(r"\w+", name)
                yield from (f"{crate}/README.md: no {part}" for part in parts if part != "for" and part not in known)


def sources(crate):
    return [path.read_text() for path in sorted((ROOT / "crates" / crate / "src").rglob("*.rt"))]


def laws():
    """The laws, each with its crate."""
    return {(crate, name) for crate in crates() for text in sources(crate) for name in LAW.findall(text)}


def called():
    """What is called without arguments, with the crate that it is of."""
    for crate in crates():
        for text in sources(crate):
            imported = {}
            for other, names, name in USE.findall(text):
                imported.update(dict.fromkeys(re.findall(r"\w+", names or name), other))
            for other, name in CALL.findall(re.sub(r"//.*", "", text)):
                yield other or imported.get(name, crate), name


def law_faults(text, listed):
    """The laws that have neither a caller nor a row, and what rows of laws name in vain."""
    known = laws()
    shown = {(crate, name) for crate, cells in listed for name in NAME.findall(cells[2])}
    for cells in rows(text, "Law"):
        names = {(crate, name) for crate in NAME.findall(cells[0]) for name in NAME.findall(cells[1])}
        yield from (f"{crate}: {name} isn't a law of it" for crate, name in sorted(names - known))
        shown |= names
    for crate, name in sorted(known - shown - set(called())):
        yield f"{crate}: the law {name} has neither a caller nor a row"


def main():
    faults = []
    text = PROMISES.read_text()
    listed = [(NAME.findall(cells[0])[0], cells) for cells in rows(text, "Its promise")]
    names = [crate for crate, _ in listed]
    passed = crates_without_row()
    wanted = [crate for crate in crates() if crate not in passed]
    faults += [f"no row of {crate}" for crate in wanted if names.count(crate) != 1]
    faults += [f"a row of {crate}, which isn't in crates.txt" for crate in names if crate not in crates()]
    for crate, cells in listed:
        faults += row_faults(crate, cells[2])
    for crate in crates():
        faults += readme_faults(crate)
    faults += law_faults(text, listed)
    for fault in faults:
        print(fault)
    return 1 if faults else 0


if __name__ == "__main__":
    sys.exit(main())
