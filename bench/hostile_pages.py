"""Times `auditorium_view` beside `audit`, on honest logs and on logs that are made to cost a page the most.

usage: python3 bench/hostile_pages.py PROGRAMS [FOLDER]

PROGRAMS is a folder with the built `auditorium` and `auditorium_view`. On honest logs a page, and a picture alone, are
each to cost at most 1.1 of `audit`, and 1.5 on the others: one entry that names 16,000 gaps, 30 entries with 533
each, 8,000 forks, the same in four logs, and 800 entries of which each names all before and the first is lost. The
logs are made in FOLDER, if it is said; those that are there already are taken. The script fails where a ratio is
above what is wanted.
"""

import hashlib
import os
import subprocess
import sys
import tempfile

from signed import Place, Ratios, seconds

HONEST_SESSIONS = 200
GAPS = 16000
NAMERS = 30
FORKS = 8000
MAKERS = 16
LOGS = 4
NAMING = 800


def digest_of(number):
    """One of any number of digests that no entry has."""
    return hashlib.sha256(b"gap %d" % number).digest()


def honest(program, folder):
    """The words that name the logs of an honest election, by the script of play.py."""
    said = f"from play import script_of; print(script_of({HONEST_SESSIONS})[0], end='')"
    with open(os.path.join(folder, "script"), "w", encoding="ascii") as file:
        subprocess.run([sys.executable, "-c", said], cwd=os.path.dirname(__file__), stdout=file, check=True)
    subprocess.run([program, "play", "script", "p"], cwd=folder, check=True, stdout=subprocess.DEVNULL)
    return ["p.roster", "standard", *(f"p.{name}.log" for name in ("sv", "b1", "b2", "b3"))]


def with_gaps(folder, entries):
    """The words that name a log in which this number of entries name gaps."""
    place = Place(folder)
    each = GAPS // entries
    deeds = [place.entry(0, i, i + 1, [digest_of(i * each + k) for k in range(each)]) for i in range(entries)]
    place.log("log", deeds)
    return ["roster", "standard", "log"]


def with_forks(folder):
    """The words that name a log of forks."""
    place = Place(folder, makers=MAKERS)
    deeds = [("opened",), ("closed",)]
    place.log("log", [place.entry(maker, i, i + 1, deed=deed)
                      for i in range(FORKS // MAKERS) for maker in range(MAKERS) for deed in deeds])
    return ["roster", "standard", "log"]


def with_names(folder):
    """The words that name a log whose entries name all before, of which the first is lost."""
    place = Place(folder)
    entries = []
    for i in range(NAMING):
        entries.append(place.entry(0, i, i + 1, [entry.digest for entry in entries]))
    place.log("log", entries[1:])
    return ["roster", "standard", "log"]


def measure(ratios, name, programs, folder, words, wanted):
    """Adds what the page and the picture cost beside `audit`."""
    audit, _ = seconds(os.path.join(programs, "auditorium"), folder, "audit", *words)
    view = os.path.join(programs, "auditorium_view")
    for what, first in (("picture", ["picture"]), ("page", [])):
        spent, _ = seconds(view, folder, *first, *words)
        ratios.add(f"{name}: {what}", spent, audit, wanted)


def made(folder, name, make):
    """The folder of this name and the words, made unless they stand there."""
    path = os.path.join(folder, name)
    kept = os.path.join(path, "words")
    if not os.path.exists(kept):
        os.makedirs(path, exist_ok=True)
        words = make(path)
        with open(kept, "w", encoding="ascii") as file:
            file.write(" ".join(words))
    with open(kept, encoding="ascii") as file:
        return path, file.read().split()


def main():
    if len(sys.argv) not in (2, 3):
        sys.exit(__doc__)
    programs = os.path.abspath(sys.argv[1])
    places = (
        ("honest", "honest", lambda path: honest(os.path.join(programs, "auditorium"), path), 1, 1.1),
        ("one entry with 16,000 gaps", "one", lambda path: with_gaps(path, 1), 1, 1.5),
        ("30 entries with 15,990 gaps", "thirty", lambda path: with_gaps(path, NAMERS), 1, 1.5),
        ("8,000 forks", "forks", with_forks, 1, 1.5),
        ("8,000 forks in each of four logs", "forks", with_forks, LOGS, 1.5),
        ("800 entries that name all before", "naming", with_names, 1, 1.5),
    )
    ratios = Ratios()
    with tempfile.TemporaryDirectory() as passing:
        folder = sys.argv[2] if len(sys.argv) == 3 else passing
        for name, short, make, times, wanted in places:
            path, words = made(folder, short, make)
            measure(ratios, name, programs, path, words + words[-1:] * (times - 1), wanted)
    return 0 if ratios.is_good else 1


if __name__ == "__main__":
    sys.exit(main())
