#!/usr/bin/env python3
"""The functions that are dear to prove, from what `rt check` leaves.

usage: python3 bench/dear_functions.py [CRATE ..]

`rt check` keeps in a crate's `out/incremental/` a file for each part of a function as it is done: the checker's
walk of the body, its goals, and others. Each row is a function whose walk is over 2 MB, or whose files took over
5 seconds: the crate, the function, the walk's size in MB and the seconds, the dearest first. The seconds are those
between one file and the next, so they mean something only after a whole check with `--jobs 1` from nothing. A
library's function is proved three times in a gate from nothing, and again with each refused edit in it.
"""
import pathlib
import re
import sys

ROOT = pathlib.Path(__file__).resolve().parent.parent
FILE = re.compile(r"Rattle-\w+-proofs\.(.+)\.([A-Z][A-Za-z]*)(?:[-.].*)?\.oantt")
# More than that between two files is the time between two checks.
PAUSE = 60


def functions(crate):
    """The walk's size and the seconds of each function of the crate, by its name."""
    found, before = {}, None
    files = [(file.stat(), file.name) for file in (ROOT / "crates" / crate / "out" / "incremental").rglob("*.oantt")]
    for status, name in sorted(files, key=lambda it: it[0].st_mtime):
        match = FILE.fullmatch(name)
        if match:
            function, part = match.groups()
            size, seconds = found.get(function, (0, 0))
            since = status.st_mtime - before if before else 0
            found[function] = (
                size + (status.st_size if name.endswith(".Lts.oantt") else 0),
                seconds + (since if since < PAUSE else 0),
            )
        before = status.st_mtime
    return found


def main():
    crates = sys.argv[1:] or sorted(it.name for it in (ROOT / "crates").iterdir())
    rows = [
        (seconds, size / 1e6, crate, function)
        for crate in crates
        for function, (size, seconds) in functions(crate).items()
        if size > 2e6 or seconds > 5
    ]
    for seconds, size, crate, function in sorted(rows, reverse=True):
        print(f"{crate:18} {function:44} {size:5.1f} MB {seconds:5.0f} s")


if __name__ == "__main__":
    main()
