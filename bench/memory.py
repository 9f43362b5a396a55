#!/usr/bin/env python3
"""Weighs the peak memory of `audit` of many logs with the same entries, and of `repair`.

usage: python3 bench/memory.py PROGRAM

PROGRAM is the built `auditorium_cli`. The logs of one play, in which each machine hears each entry, all have the same
entries: `audit` may take 1.3 times one of them and 4,000,000 bytes, however many are given. A script of 30 KB, in which
15 booths have heard but the last of 1,024 entries, is mended: `repair` may take 1.5 times the files that it writes, and
`audit` of all 16 logs that it wrote as much as above. Each case prints a line; the script fails where an answer is
wrong or a peak is above its bound.
"""

import os
import subprocess
import sys
import tempfile

from peaks import run

FREE = 4_000_000
SESSIONS = 100
BOOTHS = 15
ENTRIES = 1024


def mended_script():
    """A script in which each booth lacks all entries of the supervisor but the last."""
    booths = [f"b{k + 1}" for k in range(BOOTHS)]
    lines = ["seed 0102", "key w1 h10", f"log {ENTRIES}", "link 1", "machine sv supervisor"]
    lines += [f"machine {booth} booth" for booth in booths]
    lines += ["do sv open", "do sv authorise b1 1"] + ["do sv override 1"] * (ENTRIES - 2)
    lines += ["step act sv"] * ENTRIES + [f"step hear {booth} sv {ENTRIES - 1}" for booth in booths]
    return "\n".join(lines) + "\n"


def weigh(program, name, words, status, times, length, free):
    """Prints a case's line, and whether its answer and its peak are as they should be."""
    ended, _, peak, seconds = run(program, words)
    bound = int(times * length) + free
    is_told, is_light = ended == status, peak <= bound
    print(f"{name:32} {seconds:6.2f} s, {peak:11} bytes, {peak / length:5.2f} of {length}, wanted {bound}"
          + ("" if is_told else f": WRONG STATUS {ended}") + ("" if is_light else ": TOO MUCH"), flush=True)
    return is_told and is_light


def weigh_audits(program, prefix, logs, counts, status):
    """Weighs `audit` of so many of the logs, which all have the same entries, and are given again from the first on."""
    length = max(os.path.getsize(log) for log in logs)
    good = True
    for count in counts:
        given = [logs[k % len(logs)] for k in range(count)]
        words = " ".join(["audit", f"{prefix}.roster", "standard", *given])
        good &= weigh(program, f"audit, {count} logs of one play", words, status, 1.3, length, FREE)
    return good


def main():
    if len(sys.argv) != 2:
        sys.exit(__doc__)
    program = os.path.abspath(sys.argv[1])
    with tempfile.TemporaryDirectory() as folder:
        os.chdir(folder)
        with open("day", "wb") as file:
            subprocess.run([program, "make", str(SESSIONS)], stdout=file, check=True)
        subprocess.run([program, "play", "day", "p"], stdout=subprocess.DEVNULL, check=True)
        logs = [f"p.{name}.log" for name in ("sv", "b1", "b2", "b3")]
        good = weigh_audits(program, "p", logs, (1, 2, 3, 4, 16), 0)
        with open("script", "w") as file:
            file.write(mended_script())
        subprocess.run([program, "repair", "script", "q"], stdout=subprocess.DEVNULL, check=True)
        files = [name for name in os.listdir() if name.startswith("q.")]
        length = sum(os.path.getsize(name) for name in files)
        good &= weigh(program, f"repair, {os.path.getsize('script')} bytes", "repair script q", 0, 1.5, length, 0)
        logs = ["q.sv.log"] + [f"q.b{k + 1}.log" for k in range(BOOTHS)]
        good &= weigh_audits(program, "q", logs, (1, 16), 0)
        os.chdir("/")
    return 0 if good else 1


if __name__ == "__main__":
    sys.exit(main())
