"""Times signatures against a plain loop of hashes.

usage: python3 bench/signatures.py [PROGRAM]

PROGRAM is the built `bench_signatures` (`rt run` in its crate builds it). For each kind at height 5,
and for w4 at height 10, the program hashes as many messages of 55 bytes as making the key takes, makes
the key, signs 32 messages and verifies the signatures, all in one run and in processor time. Each
ratio is that of the time of one hash there to the time of one in the plain loop; a message of several
blocks counts as that many hashes. The median of five runs is printed.

For w4 at heights 5 and 10 the rate of unsealing an entry is given as a part of the rate of verifying
its signature, both in one run of the program; the median of nine runs is printed.
"""

import os
import statistics
import subprocess
import sys
from hashlib import sha256

WIDTHS = {"w1": (1, 265, 7), "w2": (2, 133, 6), "w4": (4, 67, 4), "w8": (8, 34, 0)}
IDENTIFIER = bytes(range(16))
SEED = bytes([7] * 32)
SIGNATURES = 32
RUNS = 5
UNSEALINGS = 1000
UNSEALING_RUNS = 9


def blocks(length):
    """The blocks of a padded message."""
    return (length + 9 + 63) // 64


def digit_sum(kind, index):
    """The sum of the digits that signature `index` of its own number signs."""
    w, count, shift = WIDTHS[kind]
    q = index.to_bytes(4, "big")
    c = sha256(b"auditorium C" + IDENTIFIER + q + SEED).digest()
    digest = sha256(IDENTIFIER + q + b"\x81\x81" + c + q).digest()
    number = int.from_bytes(digest, "big")
    digits = [number >> (256 - w * (i + 1)) & (2 ** w - 1) for i in range(256 // w)]
    checksum = sum(2 ** w - 1 - d for d in digits) << shift
    rest = [checksum >> (16 - w * (i + 1)) & (2 ** w - 1) for i in range(count - 256 // w)]
    return sum(digits) + sum(rest)


def hash_counts(kind, height):
    """The hashes of making a key, and of 32 times signing and verifying."""
    w, count, _ = WIDTHS[kind]
    key = blocks(22 + 32 * count)
    chains = count * (2 ** w - 1)
    interior = blocks(86)
    making = 2 ** height * (count + chains + key + 1) + (2 ** height - 1) * interior
    signing = verifying = 0
    for index in range(SIGNATURES):
        steps = digit_sum(kind, index)
        signing += count + steps + blocks(64) + blocks(58)
        verifying += chains - steps + key + 1 + blocks(58) + height * interior
    return making, signing, verifying


def measure(program, kind, height):
    making, signing, verifying = hash_counts(kind, height)
    answer = subprocess.run(
        [program, "time", kind, str(height), str(making)], check=True, capture_output=True, text=True
    ).stdout.split()
    times = {answer[i]: int(answer[i + 1]) for i in range(0, 10, 2)}
    assert times["accepted"] == SIGNATURES, "a signature was refused"
    each = times["plain"] / making
    return (
        times["making"] / making / each,
        times["signing"] / signing / each,
        times["verifying"] / verifying / each,
    )


def unsealing_rate(program, kind, height):
    """The rate of unsealing over that of verifying."""
    answer = subprocess.run(
        [program, "unseal", kind, str(height), str(UNSEALINGS)], check=True, capture_output=True, text=True
    ).stdout.split()
    told = {answer[i]: int(answer[i + 1]) for i in range(0, 8, 2)}
    assert told["accepted"] == told["valid"] == UNSEALINGS, "a signature or an entry was refused"
    return told["verifying"] / told["unsealing"]


def main():
    here = os.path.dirname(os.path.abspath(__file__))
    built = os.path.join(here, "..", "crates", "bench_signatures", "out", "bench_signatures")
    program = sys.argv[1] if len(sys.argv) > 1 else built
    for kind, height in [("w1", 5), ("w2", 5), ("w4", 5), ("w8", 5), ("w4", 10)]:
        runs = [measure(program, kind, height) for _ in range(RUNS)]
        making, signing, verifying = (statistics.median(column) for column in zip(*runs))
        counts = hash_counts(kind, height)
        print(
            f"{kind} h{height}: making {making:.2f} of {counts[0]} hashes,"
            f" signing {signing:.2f} of {counts[1] / SIGNATURES:.0f},"
            f" verifying {verifying:.2f} of {counts[2] / SIGNATURES:.0f}"
        )
    for height in [5, 10]:
        rates = [unsealing_rate(program, "w4", height) for _ in range(UNSEALING_RUNS)]
        print(f"w4 h{height}: unsealing at {statistics.median(rates):.2f} of the rate of verifying")


if __name__ == "__main__":
    main()
