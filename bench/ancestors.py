"""Times rows of ancestors beside the same loop in C.

usage: python3 bench/ancestors.py [PROGRAM]

PROGRAM is the built `bench_order` (`rt run` in its crate builds it), and `bench/ancestors.c` is
compiled by `cc -O3 -march=native`. Both make the rows of one random graph of 16,384 nodes, four
parents each, by turns, a fresh process each time. The least and the median of their processor times
are printed, with the ratios, and the most memory that the program took in all. It fails where two
checksums of the rows differ.
"""

import os
import statistics
import subprocess
import sys
import tempfile
import time

NODES = 16384
TURNS = 15
HERE = os.path.dirname(os.path.abspath(__file__))
BUILT = os.path.join(HERE, "..", "crates", "bench_order", "out", "bench_order")


def run(program):
    """The milliseconds and the checksum of one making."""
    answer = subprocess.run([program, str(NODES), "1"], check=True, capture_output=True, text=True)
    nanoseconds, checksum = answer.stdout.split()
    return int(nanoseconds) / 1e6, checksum


def peak_memory(program):
    """The most memory of a fresh process in bytes, read while it takes its checksum."""
    process = subprocess.Popen([program, str(NODES), "1"], stdout=subprocess.DEVNULL)
    most = 0
    while process.poll() is None:
        try:
            with open(f"/proc/{process.pid}/status") as status:
                lines = [line.split() for line in status if line.startswith("VmHWM:")]
        except OSError:
            break
        most = max([most] + [int(words[1]) * 1024 for words in lines])
        time.sleep(0.002)
    process.wait()
    return most


def main():
    program = sys.argv[1] if len(sys.argv) > 1 else BUILT
    with tempfile.TemporaryDirectory() as folder:
        plain = os.path.join(folder, "ancestors")
        source = os.path.join(HERE, "ancestors.c")
        subprocess.run(["cc", "-O3", "-march=native", "-o", plain, source], check=True)
        turns = [(run(program), run(plain)) for _ in range(TURNS)]
    checksums = {checksum for turn in turns for _, checksum in turn}
    if len(checksums) != 1:
        print("the checksums differ:", " ".join(sorted(checksums)))
        return 1
    ours, theirs = zip(*((a[0], b[0]) for a, b in turns))
    for name, value in (("least", min), ("median", statistics.median)):
        a, b = value(ours), value(theirs)
        print(f"{name}: {a:.1f} ms, C {b:.1f} ms, {a / b:.2f} of C")
    print(f"memory: {peak_memory(program) / 1e6:.1f} MB; checksum {checksums.pop()}")
    return 0


if __name__ == "__main__":
    sys.exit(main())
