"""Times `demo` of 200, 400 and 800 sessions beside the hashing that it can't do without.

usage: python3 bench/demo.py PROGRAM SPEED [RUNS]

PROGRAM is the built `auditorium_cli`, SPEED the built `bench_signatures` (`rt run` in its crate builds each).
The hashes are those of making four keys, signing each entry and hashing its text, and of verifying each entry
that survives and hashing its text; what as many hashes take is measured by SPEED, by turns with the
demonstrations. The least times of RUNS turns are printed, and the greatest peak of memory.
"""

import os
import subprocess
import sys
import time

from play import MACHINES, TEXT_BYTES, seconds_of_hashes
from signatures import SIGNATURES, blocks, hash_counts


def hashes_of(entries, survivors):
    """About how many hashes keys, signatures, verifications and digests take."""
    making, signing, verifying = hash_counts("w4", 10)
    text = blocks(TEXT_BYTES)
    return (
        MACHINES * making
        + entries * (signing // SIGNATURES + text)
        + survivors * (verifying // SIGNATURES + text)
    )


def demonstrated(program, sessions):
    """The seconds of a demonstration, its peak of memory in bytes, and the numbers that it prints."""
    start = time.perf_counter()
    process = subprocess.Popen([program, "demo", str(sessions)], stdout=subprocess.PIPE, text=True)
    lines = process.stdout.read().split()
    _, status, usage = os.wait4(process.pid, 0)
    assert os.waitstatus_to_exitcode(status) == 2, "some rules are unsettled"
    return time.perf_counter() - start, usage.ru_maxrss * 1024, dict(zip(lines[::2], map(int, lines[1::2])))


def main():
    program, speed = (os.path.abspath(word) for word in sys.argv[1:3])
    runs = int(sys.argv[3]) if len(sys.argv) > 3 else 5
    for sessions in (200, 400, 800):
        numbers = demonstrated(program, sessions)[2]
        count = hashes_of(numbers["entries"], numbers["survivors"])
        turns = [(seconds_of_hashes(speed, count), *demonstrated(program, sessions)) for _ in range(runs)]
        hashing, least = min(turn[0] for turn in turns), min(turn[1] for turn in turns)
        peak = max(turn[2] for turn in turns)
        print(
            f"{sessions} sessions, {numbers['entries']} entries, {numbers['survivors']} survivors: {least:.2f} s,"
            f" of which hashing {hashing:.2f} s ({least / hashing:.2f}); {peak / 1e6:.0f} MB"
        )


if __name__ == "__main__":
    main()
