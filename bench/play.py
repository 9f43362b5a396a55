"""Times `play` on scripts of 200, 400 and 800 sessions beside the hashing that it can't do without.

usage: python3 bench/play.py PROGRAM SPEED [RUNS]

PROGRAM is the built `auditorium_cli`, SPEED the built `bench_signatures` (`rt run` in its crate builds
each). A script has one supervisor and three booths with keys of kind w4 and height 10, and each entry
is heard by every machine. The hashes are those of making four keys, signing each entry and hashing its
text; what as many hashes take is measured by SPEED, by turns with the plays. The least times of RUNS turns
are printed, and the greatest peak of memory.
"""

import os
import subprocess
import sys
import tempfile
import time

from signatures import SIGNATURES, blocks, hash_counts

BOOTHS = 3
MACHINES = BOOTHS + 1
TEXT_BYTES = 2500


def deeds_of(session):
    """What the session's booth does."""
    if session % 10 == 0:
        return [f"activate {session}", f"cancel {session}"]
    ballot = session.to_bytes(4, "big").hex() * 8
    return [f"activate {session}", f"commit {session} {ballot}", f"cast {session} {ballot}"]


def script_of(sessions):
    """The script of so many sessions, which the booths take in turn, and the number of its entries."""
    booths = {f"b{k + 1}": [] for k in range(BOOTHS)}
    actions = ["do sv open"]
    steps = ["act sv"] + [f"hear {booth} sv 0" for booth in booths]
    for session in range(1, sessions + 1):
        own = f"b{1 + (session - 1) % BOOTHS}"
        actions.append(f"do sv authorise {own} {session}")
        steps += ["act sv"] + [f"hear {booth} sv {session}" for booth in booths]
        first = len(booths[own])
        booths[own] += deeds_of(session)
        numbers = range(first, len(booths[own]))
        steps += [f"act {own}" for _ in numbers]
        steps += [f"hear sv {own} {number}" for number in reversed(numbers)]
        others = [booth for booth in booths if booth != own]
        steps += [f"hear {booth} {own} {number}" for booth in others for number in numbers]
    actions.append("do sv close")
    steps += ["act sv"] + [f"hear {booth} sv {sessions + 1}" for booth in booths]
    actions += [f"do {booth} {deed}" for booth, deeds in booths.items() for deed in deeds]
    lines = ["seed 61756469746f7269756d", "key w4 h10", f"log {len(actions)}", f"link {sessions + 2}"]
    lines += ["machine sv supervisor"] + [f"machine {booth} booth" for booth in booths]
    return "\n".join(lines + actions + [f"step {step}" for step in steps]) + "\n", len(actions)


def hashes_of(entries):
    """About how many hashes keys, signatures and digests take."""
    making, signing, _ = hash_counts("w4", 10)
    return MACHINES * making + entries * (signing // SIGNATURES + blocks(TEXT_BYTES))


def seconds_of_hashes(speed, count):
    """What so many hashes take, each of one message of 55 bytes."""
    words = [speed, "time", "w4", "5", str(count)]
    answer = subprocess.run(words, check=True, capture_output=True, text=True).stdout.split()
    return int(answer[answer.index("plain") + 1]) / 1e9


def played(program, folder):
    """The seconds of a play, and its peak of memory in bytes."""
    start = time.perf_counter()
    process = subprocess.Popen([program, "play", "script", "p"], cwd=folder, stdout=subprocess.DEVNULL)
    _, status, usage = os.wait4(process.pid, 0)
    assert status == 0, "an action was left"
    return time.perf_counter() - start, usage.ru_maxrss * 1024


def main():
    program, speed = (os.path.abspath(word) for word in sys.argv[1:3])
    runs = int(sys.argv[3]) if len(sys.argv) > 3 else 5
    for sessions in (200, 400, 800):
        text, entries = script_of(sessions)
        with tempfile.TemporaryDirectory() as folder:
            with open(os.path.join(folder, "script"), "w") as file:
                file.write(text)
            count = hashes_of(entries)
            turns = [(seconds_of_hashes(speed, count), *played(program, folder)) for _ in range(runs)]
        hashing, least, _ = (min(column) for column in zip(*turns))
        peak = max(memory for _, _, memory in turns)
        print(
            f"{sessions} sessions, {entries} entries: {least:.2f} s, of which hashing {hashing:.2f} s"
            f" ({count / hashing / 1e6:.2f} million hashes a second); {peak / 1e6:.0f} MB"
        )


if __name__ == "__main__":
    main()
