#!/usr/bin/env python3
"""Public names of the specs that stand in two crates.

usage: python3 tools/names.py

A name has one meaning. Two crates may use it where it says the same of two types, as a method of a trait would;
those names are listed here. Any other that stands in two crates is printed, and the status is then 1.
"""
import pathlib
import re
import sys
from collections import defaultdict

ROOT = pathlib.Path(__file__).resolve().parent.parent
DEFINED = re.compile(r"\s*(?:abbrev pub|unfoldable pub|pub record|pub data) ([A-Za-z_][\w'?-]*)(?: [:({]|$)")
# What a reader answers, a text's form and faults, the word of a fault or cause, and rows of trees.
READING = "Reads HasForm IsTextOf IsFault IsFirstFault HasNoFault fault_word why_word kind_word count_of in_front"
# The rules of a role: its causes, and what it keeps of them.
RULES = "causes_of Refuses causes_in_version_1 RefusesInVersion1 HasEndedInVersion1 Notes StandsFor"
# What is seen of a value, at its beginning and at its end.
VIEWS = "state_of whole spent"


def main():
    crates = defaultdict(set)
    for path in ROOT.glob("crates/*/specs/**/*.antt"):
        crate, _, *modules = path.relative_to(ROOT / "crates").parts
        if modules[0] not in ("inside", "declared"):
            for line in path.read_text(encoding="utf-8").splitlines():
                if found := DEFINED.match(line):
                    crates[found[1]].add(crate)
    same = set(f"{READING} {RULES} {VIEWS}".split())
    rows = [(name, sorted(found)) for name, found in sorted(crates.items()) if len(found) > 1 and name not in same]
    for name, found in rows:
        print(f"{name}: {', '.join(found)}")
    print(f"{len(crates)} names, {len(rows)} with two meanings")
    return 1 if rows else 0


if __name__ == "__main__":
    sys.exit(main())
