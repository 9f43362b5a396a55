#!/usr/bin/env python3
"""Weighs the peak memory of commands over files that were made to harm their reader.

usage: python3 bench/peaks.py PROGRAM

It is a script and no test, since it weighs the built program over files of the system, and each run apart: a test sees
the memory of its own process alone, with the files in it (`peak_tests.rt` of `command_tests` does that for some).
A command takes all its memory before it writes. So its output goes to a pipe that is full, and once the program waits
there, Linux tells its peak. The peak of a small run is taken off; what is left may be so many times the file, and
1,000,000 bytes. Each case prints a line; the exit status is 1 where an answer is wrong or a peak is over its bound."""
import fcntl
import os
import subprocess
import sys
import tempfile
import time

FREE = 1_000_000
HEADER = b"(3:log1:11:0)"
MACHINES = b"seed 0102\nkey w4 h5\nlog 64\nlink 64\nmachine sv supervisor\nmachine b1 booth\n"
# The greatest script, roster or file of rules, and the greatest log.
SMALL, LARGE = 4_194_304, 67_108_864
LISTS = b"(" + b"()" * 16_384 + b")"
ATOM = b"262144:" + b"a" * 262_144
FORMULAS = b" (or" + b" true" * 64 + b")"

# What a case is, its words, the file `x`, how many times the file may be taken, the exit status, and how the output
# begins.
CASES = [
    ("parentheses", "gaps x", lambda: HEADER + b"(" * 67_000_000, 0, 1, "malformed x 21 TooDeep\n"),
    ("ended parentheses", "gaps x", lambda: HEADER + b")" * 67_000_000, 0, 1, "malformed x 13 NotAToken\n"),
    ("no header", "gaps x", lambda: b"(" * 67_000_000, 0, 5, "refused x 0 Header\n"),
    ("newlines", "gaps x", lambda: HEADER + b"\n" * 67_000_000, 0, 1, "malformed x 13 NotAToken\n"),
    ("announced lengths", "gaps x", lambda: HEADER + b"(" + b"262144:" * 9_000_000, 1, 1, "malformed x 35524988 TooMany\n"),
    ("one record of lists", "gaps x", lambda: HEADER + b"(" + LISTS * 2047 + b")", 1, 1, "refused x 0 WrongShape\n"),
    ("one record without its end", "gaps x", lambda: HEADER + b"(" + ATOM * 255, 1, 1, "torn x 13\n"),
    ("records of one list", "gaps x", lambda: HEADER + (b"(" + LISTS * 255 + b")") * 8, 0.3, 1, "refused x 0 WrongShape\n"),
    # A line for each record goes out, of 28 bytes for two.
    ("records of two bytes", "gaps x", lambda: HEADER + b"()" * 1_000_000, 18, 1, "refused x 0 WrongShape\n"),
    ("parentheses", "audit p.roster own x", lambda: HEADER + b"(" * 67_000_000, 0, 1, "log x owner 0 kept 0 refused 0\nmalformed x 21"),
    ("one record of lists", "audit p.roster own x", lambda: HEADER + b"(" + LISTS * 2047 + b")", 1, 1, "log x owner 0 kept 0 refused 1\n"),
    ("records of two bytes", "audit p.roster own x", lambda: HEADER + b"()" * 1_000_000, 18, 1, "log x owner 0 kept 0 refused 1000000\n"),
    ("parentheses", "order p.roster sv.0 sv.0 x", lambda: HEADER + b"(" * 67_000_000, 0, 5, "refused sv.0 0 NoEntry\n"),
    ("a roster of parentheses", "audit x own x", lambda: b"(" * SMALL, 1, 5, "refused x 8 NotCanonical\n"),
    ("a roster of lists", "audit x own x", lambda: b"(6:roster1:1" + LISTS * 127 + b")", 1, 5, "refused x 0 WrongShape\n"),
    ("a roster of atoms", "audit x own x", lambda: b"(6:roster1:1" + ATOM * 15 + b")", 1, 5, "refused x 0 WrongShape\n"),
    ("rules of parentheses", "audit p.roster x x", lambda: b"(" * SMALL, 1, 5, "refused x 1 Shape\n"),
    ("rules of nothing", "audit p.roster x x", lambda: b" " * SMALL, 1, 5, "refused x 4194304 Shape\n"),
    ("a deep rule", "audit p.roster x x", lambda: b"(rule A " + b"(not " * 838_000, 1, 5, "refused x 163 TooDeep\n"),
    ("a wide rule", "audit p.roster x x", lambda: b"(rule A (and" + b" true" * 838_000, 1, 5, "refused x 333 Shape\n"),
    # Formulas are kept.
    ("rules of formulas", "audit p.roster x empty", lambda: rules_of(255, FORMULAS * 48), 8, 0, "log empty owner 0 kept 0"),
    ("a script of parentheses", "play x q", lambda: b"(" * SMALL, 1, 5, "refused x 1 UnknownWord\n"),
    ("a comment", "play x q", lambda: b"#" * SMALL, 1, 5, "refused x 2 OutOfOrder\n"),
    # The place of each line is kept, and that of each word of one line.
    ("a script of empty lines", "play x q", lambda: b"\n" * SMALL, 17, 5, "refused x 4194305 OutOfOrder\n"),
    ("a line of short words", "play x q", lambda: b"a " * (SMALL // 2), 9, 5, "refused x 1 UnknownWord\n"),
    ("a line of deeds", "play x q", lambda: MACHINES + b"do sv " * 690_000, 6.5, 5, "refused x 7 UnknownWord\n"),
    ("a long seed", "play x q", lambda: b"seed " + b"0" * (SMALL - 6), 2.5, 5, "refused x 1 OutOfRange\n"),
    # Steps and losses are kept.
    ("all steps", "play x q", lambda: MACHINES + b"step act sv\n" * 131_072, 4, 0, "machine sv sent 0 held 0\n"),
    ("one step more", "play x q", lambda: MACHINES + b"step act sv\n" * 131_073, 4, 5, "refused x 131079 OutOfRange\n"),
    ("all losses", "play x q", lambda: MACHINES + b"lose sv 0 b1\n" * 65_536, 4, 0, "machine sv sent 0 held 0\n"),
]


def rules_of(count, formulas):
    """So many rules, each of these formulas."""
    return b"\n".join(b"(rule A%d (and%s))" % (at, formulas) for at in range(count))


def full_pipe():
    """A pipe that takes no more, and how many bytes are in it."""
    reading, writing = os.pipe()
    fcntl.fcntl(writing, fcntl.F_SETPIPE_SZ, 4096)
    os.set_blocking(writing, False)
    count = 0
    try:
        while True:
            count += os.write(writing, b"." * 4096)
    except BlockingIOError:
        os.set_blocking(writing, True)
    return reading, writing, count


def state_of(stat):
    """The state of a thread, by its file: `Z` where it has ended."""
    try:
        with open(stat) as file:
            return file.read().rsplit(")", 1)[1].split()[0]
    except (FileNotFoundError, ProcessLookupError):
        return "Z"


def waits(process):
    """Whether all threads of the program wait, here for the one that writes, or have ended."""
    tasks = f"/proc/{process.pid}/task"
    return all(state_of(f"{tasks}/{task}/stat") in "SZ" for task in os.listdir(tasks))


def peak_of(process):
    """The most memory that the waiting program has had, in bytes."""
    # Threads may wait for one another between two looks.
    still = 0
    while still < 3:
        time.sleep(0.01)
        still = still + 1 if waits(process) else 0
    with open(f"/proc/{process.pid}/status") as file:
        peaks = [line.split()[1] for line in file if line.startswith("VmHWM:")]
    assert peaks, "the program has written nothing"
    return int(peaks[0]) * 1024


def run(program, words):
    """The program's exit status, how its output begins, its peak memory in bytes, and the seconds that it took."""
    reading, writing, filled = full_pipe()
    start = time.perf_counter()
    process = subprocess.Popen([program, *words.split(" ")], stdout=writing)
    os.close(writing)
    peak = peak_of(process)
    seconds = time.perf_counter() - start
    with open(reading, "rb") as pipe:
        pipe.read(filled)
        begin = pipe.read(100)
        while pipe.read(1_000_000):
            pass
    return process.wait(), begin.decode(), peak, seconds


def write(name, content):
    with open(name, "wb") as file:
        file.write(content)


def weigh(program, small, case):
    """Prints a case's line, and whether its answer and its peak are as they should be."""
    name, words, content, times, status, output = case
    write("x", content())
    length = os.path.getsize("x")
    ended, begin, peak, seconds = run(program, words)
    more = peak - small
    is_told = ended == status and begin.startswith(output)
    is_light = more <= times * length + FREE
    print(f"{name}: {words.split(' ')[0]}, {length} bytes, {seconds:.2f} s, {more} bytes more, {more / length:.2f} times"
          + ("" if is_told else f": WRONG ANSWER {ended} {begin!r}") + ("" if is_light else f": OVER {times} TIMES"), flush=True)
    return is_told and is_light


def main():
    program = os.path.abspath(sys.argv[1])
    with tempfile.TemporaryDirectory() as folder:
        os.chdir(folder)
        write("empty", HEADER)
        write("torn", HEADER + b"(")
        write("own", b"(rule A true)")
        write("script", MACHINES)
        run(program, "play script p")
        small = run(program, "gaps torn")[2]
        print(f"a small run: {small} bytes")
        good = [weigh(program, small, case) for case in CASES]
        os.chdir("/")
    return 0 if all(good) else 1


if __name__ == "__main__":
    sys.exit(main())
