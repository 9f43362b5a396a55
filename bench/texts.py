#!/usr/bin/env python3
"""Times and weighs the readers of canonical texts.

Run from the repository's top, after `rt run` in crates/bench_text has built the program:

    python3 bench/texts.py

It makes three texts and prints what a reading of each takes: as a tree (`read`), in place (`pass`),
in place with a walk of two levels (`walk`), and what a copy of its bytes takes. Each figure is the
median of nine differences of the CPU time of two counts, taken by turns. Where libgcrypt can be
loaded, its builder of such trees and its `gcry_sexp_canon_len` take the second text too. Then it
prints the peak memory of a fresh process that reads the file of a text that is hostile to readers,
and reads the text. It fails where a reading in place takes more than 1.3 times the file and 8 MB.
"""
import ctypes
import os
import pathlib
import statistics
import subprocess
import sys
import tempfile
import time

PROGRAM = pathlib.Path("crates/bench_text/out/bench_text")
ROUNDS = 9
# A small process that starts the program: one that is forked counts what its parent held.
WEIGH = """
import os, sys
child = os.fork()
if child == 0:
    os.dup2(os.open(os.devnull, os.O_WRONLY), 1)
    os.execv(sys.argv[1], sys.argv[1:])
_, status, used = os.wait4(child, 0)
print(status, used.ru_maxrss * 1024)
"""


def atom(octets):
    return str(len(octets)).encode() + b":" + octets


def long_text():
    """A list of 16,000 atoms, 40,000,000 bytes in all."""
    atoms = [atom(b"x" * 2_495)] * 15_998 + [atom(b"x" * 2_494)] * 2
    text = b"(" + b"".join(atoms) + b")"
    assert len(text) == 40_000_000, len(text)
    return text


def many_lists():
    """A list of 16,384 lists of two small atoms, 218,268 bytes in all."""
    lists = [b"(" + atom(str(n).encode()) + atom(b"abc") + b")" for n in range(16_384)]
    text = b"(" + b"".join(lists) + b")"
    assert len(text) == 218_268, len(text)
    return text


def entry():
    """An entry's signed text with three names, 2,408 bytes."""
    names = b"(" + b"".join(atom(bytes([n]) * 32) for n in range(3)) + b")"
    deed = b"(" + atom(b"commit") + atom(b"7") + atom(b"b" * 32) + b")"
    fields = [b"entry", b"1", b"e" * 32, b"3", b"17", b"40"]
    body = b"(" + b"".join(atom(field) for field in fields) + names + deed + b")"
    text = b"(" + atom(b"sealed") + body + atom(b"s" * 2_180) + b")"
    assert len(text) == 2_408, len(text)
    return text


def run(what, count, path):
    """The CPU seconds of a run, which other programs on the machine change little."""
    command = [PROGRAM, what, str(count), path]
    with subprocess.Popen(command, stdout=subprocess.DEVNULL) as program:
        _, status, used = os.wait4(program.pid, 0)
        program.returncode = os.waitstatus_to_exitcode(status)
    assert program.returncode == 0, command
    return used.ru_utime + used.ru_stime


def library():
    """libgcrypt, or None where it isn't there."""
    try:
        found = ctypes.CDLL("libgcrypt.so.20")
    except OSError:
        return None
    found.gcry_check_version.restype = ctypes.c_char_p
    found.gcry_check_version(None)
    found.gcry_sexp_canon_len.restype = ctypes.c_size_t
    return found


def built(other, text):
    """Seconds that libgcrypt's builder takes."""
    tree = ctypes.c_void_p()
    start = time.process_time()
    error = other.gcry_sexp_new(ctypes.byref(tree), text, ctypes.c_size_t(len(text)), 0)
    seconds = time.process_time() - start
    assert error == 0, error
    other.gcry_sexp_release(tree)
    return seconds


def measured(other, text):
    """Seconds that libgcrypt takes to find the length of a text."""
    start = time.process_time()
    length = other.gcry_sexp_canon_len(text, ctypes.c_size_t(len(text)), None, None)
    seconds = time.process_time() - start
    assert length == len(text), length
    return seconds


def timed(name, text, counts, other, folder):
    """Prints the median seconds of each reading of a text. `counts`: few and many of each kind."""
    path = pathlib.Path(folder, "text")
    path.write_bytes(text)
    figures = {what: [] for what in counts}
    for _ in range(ROUNDS):
        for what, (few, many) in counts.items():
            seconds = run(what, many, path) - run(what, few, path)
            figures[what].append(seconds / (many - few))
        if other is not None:
            figures.setdefault("gcry_sexp_new", []).append(built(other, text))
            figures.setdefault("gcry_sexp_canon_len", []).append(measured(other, text))
    print(f"{name}, {len(text):,} bytes:")
    for what, seconds in figures.items():
        print(f"  {what}: {statistics.median(seconds) * 1e6:,.2f} microseconds")


def hostile_texts():
    """Texts of few bytes a token."""
    short = b"(" + b"(1:a)" * 16_383 + b")"
    yield "lists of 16,383 lists of one atom", b"(" + short * 204 + b")"
    yield "256 lists of 16,384 lists of nothing", b"(" + (b"(" + b"()" * 16_384 + b")") * 256 + b")"
    yield "115 lists of 16,384 empty atoms", b"(" + (b"(" + b"0:" * 16_384 + b")") * 115 + b")"
    yield "819 lists of 16,383 lists of one atom", b"(" + short * 819 + b")"
    yield "parentheses alone", b"(" * 9
    yield "an announced length", b"(262144:"


def weighed(what, path):
    """The peak memory in bytes of a process that reads the file and does this once."""
    command = [sys.executable, "-S", "-c", WEIGH, PROGRAM, what, "1", path]
    output = subprocess.run(command, check=True, capture_output=True).stdout
    status, most = (int(word) for word in output.split())
    assert status == 0, status
    return most


def main():
    if not PROGRAM.exists():
        sys.exit(f"{PROGRAM} isn't there: run `rt run` in crates/bench_text first")
    other = library()
    if other is None:
        print("libgcrypt isn't there")
    with tempfile.TemporaryDirectory() as folder:
        tens = {"read": (2, 12), "pass": (2, 52), "walk": (2, 52), "copy": (2, 12)}
        timed("16,000 atoms", long_text(), tens, None, folder)
        hundreds = {"read": (10, 110), "pass": (10, 1_010), "walk": (10, 510)}
        timed("16,384 lists of two atoms", many_lists(), hundreds, other, folder)
        entries = {what: (10_000, 400_000) for what in ("read", "pass", "walk", "copy")}
        timed("an entry", entry(), entries, None, folder)
        path = pathlib.Path(folder, "hostile")
        for name, text in hostile_texts():
            path.write_bytes(text)
            most = {what: weighed(what, path) for what in ("pass", "walk", "copy")}
            for what in ("pass", "walk"):
                assert most[what] <= 1.3 * len(text) + 8e6, (name, what, most[what])
            figures = ", ".join(f"{what} {peak / 1e6:.1f} MB" for what, peak in most.items())
            print(f"{name}, {len(text) / 1e6:.1f} MB: {figures}")


if __name__ == "__main__":
    main()
