"""Times `audit` of logs in which signed texts come again, beside logs in which they come once.

usage: python3 bench/repeated.py PROGRAM

PROGRAM is the built `auditorium_cli`. One entry of kind w8 stands 4,000 times in a log, and so does one whose
signature isn't valid; each of these is to cost no more than 50 different entries. A log of forks, 400 entries of
one maker and number, is given sixteen times, which is to cost 1.2 of giving it once. The script fails where a
ratio is above what is wanted.
"""

import os
import sys
import tempfile

from signed import Place, Ratios, seconds

REPEATS = 4000
DISTINCT = 50
FORKS = 400
LOGS = 16


def forged(entry):
    """The signed text with another last byte of the signature."""
    text = entry.text
    return entry._replace(text=text[:-2] + bytes([text[-2] ^ 1]) + text[-1:])


def main():
    if len(sys.argv) != 2:
        sys.exit(__doc__)
    program = os.path.abspath(sys.argv[1])
    ratios = Ratios()
    with tempfile.TemporaryDirectory() as folder:
        place = Place(folder, kind="w8", height="h5")
        forks = [place.entry(0, 0, 1, deed=("authorise", 1, k)) for k in range(FORKS)]
        audit = ["audit", "roster", "standard"]
        few, _ = seconds(program, folder, *audit, place.log("few", forks[:DISTINCT]))
        for name, entry in (("valid", forks[0]), ("forged", forged(forks[0]))):
            spent, _ = seconds(program, folder, *audit, place.log(name, [entry] * REPEATS))
            ratios.add(f"{REPEATS} times one {name} entry, to {DISTINCT} entries", spent, few, 1.0)
        once, _ = seconds(program, folder, *audit, place.log("forks", forks))
        spent, _ = seconds(program, folder, *audit, *["forks"] * LOGS)
        ratios.add(f"{LOGS} times a log of {FORKS} forks, to once", spent, once, 1.2)
    return 0 if ratios.is_good else 1


if __name__ == "__main__":
    sys.exit(main())
