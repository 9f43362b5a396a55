"""Runs commands on the same files at once, and looks at what they leave and what readers are told.

usage: python3 bench/folder_races.py PROGRAM [PAIRS SIGNERS AUDITS]

PROGRAM is the built `auditorium_cli`. By turns in fresh folders:
- PAIRS (200) pairs of `play` write one set at once, each from a script of its own. In the end the set is one of the
  two, whole; where both were refused it is as before. Who was refused says so.
- SIGNERS (200) pairs of `endorse` of one office sign two files at once. No number signs two messages, each signature
  is good under the office's key, and the office's number is above all of them.
- AUDITS (500) audits read a set while plays of two scripts replace it by turns. None accuses an honest machine: it
  gives the report of either play, or says that a file is absent, or to try again.

A row is printed for each, and the first faults with a line each.
"""

import os
import random
import subprocess
import sys
import tempfile
import threading
import time
from collections import Counter

from folder_faults import SCRIPT, SEED, SET, SIGNATURE_BYTES, files_of, number_of, office_number, put, run

REFUSED = b"another program"


def both(program, folder, words):
    """The status, output and error of two commands that are begun at once, or nearly so."""
    begun = []
    for one in words:
        begun.append(subprocess.Popen([program, *one.split()], cwd=folder, stdout=subprocess.PIPE, stderr=subprocess.PIPE))
        time.sleep(random.choice([0, 0, 0.0005, 0.001, 0.002, 0.004]))
    ends = [process.communicate() for process in begun]
    return [(process.returncode, *end) for process, end in zip(begun, ends)]


def played(program, folder, name):
    """The set that the script of this name leaves."""
    run(program, folder, f"play {name} {name}")
    return {part: files_of(folder)[part.replace("p.", f"{name}.", 1)] for part in SET}


def write_scripts(program, folder):
    """The sets of two scripts, which are in the folder."""
    for name, seed in (("a", "0102"), ("b", "0103")):
        put(folder, name, (SCRIPT % seed).encode())
    return {name: played(program, folder, name) for name in "ab"}


def faults_of_pair(sets, before, found, ends):
    """What is wrong after two plays, by what was there before."""
    wrong = []
    now = {name: found.get(name) for name in SET}
    done = [name for name, end in zip("ab", ends) if end[0] == 0]
    allowed = [sets[name] for name in done] or [before]
    if now not in allowed:
        wrong.append(f"{' and '.join(done) or 'no play'} done, and another set" if now in sets.values() else "a mixed set")
    for status, output, said in ends:
        if status not in (0, 9) or status == 9 and (REFUSED not in said or output):
            wrong.append(f"status {status}: {said.decode().strip()}")
    others = [name for name in found if name.startswith(".")]
    return wrong + [f"{name} left" for name in others]


def race_writers(program, folder, count):
    """How the pairs of plays ended, and what was wrong."""
    sets, ended, wrong = write_scripts(program, folder), Counter(), []
    before = dict.fromkeys(SET)
    for _ in range(count):
        ends = both(program, folder, ["play a p", "play b p"])
        found = files_of(folder)
        wrong += faults_of_pair(sets, before, found, ends)
        before = {name: found.get(name) for name in SET}
        ended[("neither done", "one done", "both done")[sum(end[0] == 0 for end in ends)]] += 1
    return ended, wrong


def faults_of_signing(program, folder, turn, messages, ends):
    """What is wrong after two endorsements, by the message that each number has signed."""
    wrong = []
    found = files_of(folder)
    for name, (status, output, said) in zip("fg", ends):
        if status == 9 and (REFUSED not in said or output) or status not in (0, 9):
            wrong.append(f"status {status}: {said.decode().strip()}")
        signature = found.get(f"{name}.sig")
        if status != 0:
            continue
        number = number_of(signature)
        if output != b"endorsed %s %d\n" % (name.encode(), number):
            wrong.append(f"{output.decode().strip()}, and the signature has {number}")
        if run(program, folder, f"endorsed o.key {name} {name}.sig")[0] != 0:
            wrong.append(f"the signature of {name} isn't good")
    for name, content in found.items():
        if len(content) == SIGNATURE_BYTES:
            number = number_of(content)
            signed = messages.setdefault(number, content)
            if signed != content:
                wrong.append(f"turn {turn}: {number} signs twice, last in {name}")
            if number >= office_number(found["o.office"]):
                wrong.append(f"turn {turn}: {number} is in {name}, and is the office's next number")
    return wrong + [f"{name} left" for name in found if name.startswith(".")]


def race_signers(program, folder, count):
    """How the pairs of endorsements ended, and what was wrong."""
    run(program, folder, f"office o {SEED}")
    ended, wrong, messages = Counter(), [], {}
    for turn in range(count):
        for name in "fg":
            put(folder, name, f"{name} of turn {turn}".encode())
        ends = both(program, folder, ["endorse o f", "endorse o g"])
        wrong += faults_of_signing(program, folder, turn, messages, ends)
        ended[("neither done", "one done", "both done")[sum(end[0] == 0 for end in ends)]] += 1
    return ended, wrong


def replace_on(program, folder, stopped, ended):
    """Plays the two scripts by turns until it is stopped."""
    while not stopped.is_set():
        for name in "ab":
            status, _, said = run(program, folder, f"play {name} p")
            ended[f"play {status}"] += 1


def answer_of(reports, status, output, said):
    """In a word what a reader was told, or `None` where it accuses."""
    if status == 0 and output in reports:
        return "right"
    if status == 6 and output.startswith(b"absent p."):
        return "absent"
    if status == 8 and not output and b"try again" in said:
        return "try again"
    return None


def race_readers(program, folder, count):
    """What the audits said beside plays, and what was wrong."""
    write_scripts(program, folder)
    ended, wrong, words = Counter(), [], "audit p.roster standard p.sv.log p.b1.log"
    reports = set()
    for name in "ab":
        run(program, folder, f"play {name} p")
        status, output, _ = run(program, folder, words)
        assert status == 0, output
        reports.add(output)
    stopped = threading.Event()
    player = threading.Thread(target=replace_on, args=(program, folder, stopped, ended))
    player.start()
    for _ in range(count):
        status, output, said = run(program, folder, words)
        told = answer_of(reports, status, output, said)
        ended[told or "another answer"] += 1
        if told is None:
            wrong.append(f"status {status}: {output.decode()[:300]!r} {said.decode().strip()}")
    stopped.set()
    player.join()
    if any(ended[f"play {status}"] for status in range(1, 11)):
        wrong.append("a play that nobody disturbs wasn't done")
    return ended, wrong


def main():
    program = os.path.abspath(sys.argv[1])
    counts = [int(word) for word in sys.argv[2:]] or [200, 200, 500]
    random.seed(1)
    print("| Race | How often | How it ended | Bad |\n|---|---|---|---|", flush=True)
    bad = 0
    for name, race, count in zip(("two plays", "two endorsements", "an audit beside plays"),
                                 (race_writers, race_signers, race_readers), counts):
        with tempfile.TemporaryDirectory() as folder:
            ended, wrong = race(program, folder, count)
        told = ", ".join(f"{how} {number}" for how, number in sorted(ended.items()))
        print(f"| {name} | {count} | {told} | {len(wrong)} |", flush=True)
        for fault in wrong[:8]:
            print(f"  {fault}", flush=True)
        bad += len(wrong)
    return 1 if bad else 0


if __name__ == "__main__":
    sys.exit(main())
