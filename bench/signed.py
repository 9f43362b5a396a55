"""Logs of chosen entries for the scripts here, signed by the second program's modules, and the time of a command."""

import pathlib
import resource
import subprocess
import sys

sys.path.insert(0, str(pathlib.Path(__file__).resolve().parent.parent / "second"))

from entries import Machine, Roster, read_entry, write_body, write_entry  # noqa: E402
from signatures import SigningKey  # noqa: E402
from texts import read_text, write_text  # noqa: E402

HEIGHTS = {"h5": 5, "h10": 6}
KINDS = {"w1": 1, "w2": 2, "w4": 3, "w8": 4}


class Place:
    """A roster of supervisor and booths with keys of one kind, in a folder."""

    def __init__(self, folder, makers=1, kind="w4", height="h10"):
        self.folder = pathlib.Path(folder)
        self.keys = [SigningKey((HEIGHTS[height], KINDS[kind]), bytes([m] * 16), bytes([m + 1] * 32))
                     for m in range(makers)]
        names = ["sv", *(f"b{m}" for m in range(1, makers))]
        roles = ["supervisor"] + ["booth"] * (makers - 1)
        self.roster = Roster([Machine(*machine) for machine in
                              zip(names, roles, (key.public_key() for key in self.keys))])
        self.write("roster", self.roster.text)

    def write(self, name, octets):
        (self.folder / name).write_bytes(octets)
        return name

    def entry(self, maker, number, stamp, names=(), deed=("opened",)):
        """An entry with its signature. The names are digests."""
        body = write_body(1, self.roster.election, maker, number, stamp, sorted(set(names)), list(deed))
        return read_entry(read_text(write_entry(body, self.keys[maker].sign(number, body)))[0])

    def log(self, name, entries, owner=0):
        """A log in which each entry is one that was sent."""
        sent = [b"(4:sent" + entry.text + b")" for entry in entries]
        return self.write(name, write_text(["log", 1, owner]) + b"".join(sent))


def seconds(program, folder, *words):
    """The least processor time of two runs, and the status."""
    least = None
    for _ in range(2):
        before = resource.getrusage(resource.RUSAGE_CHILDREN)
        status = subprocess.run([program, *words], cwd=folder, stdout=subprocess.DEVNULL,
                                stderr=subprocess.DEVNULL).returncode
        after = resource.getrusage(resource.RUSAGE_CHILDREN)
        spent = after.ru_utime + after.ru_stime - before.ru_utime - before.ru_stime
        least = spent if least is None else min(least, spent)
    return least, status


class Ratios:
    """What was measured, and whether each ratio is at most what is wanted."""

    def __init__(self):
        self.is_good = True

    def add(self, name, spent, measure, wanted):
        ratio = spent / measure
        is_good = ratio <= wanted
        self.is_good = self.is_good and is_good
        print(f"{name:52} {spent:8.3f} s, {ratio:7.2f} of {measure:.3f} s, wanted {wanted}"
              f"{'' if is_good else ': TOO MUCH'}", flush=True)
