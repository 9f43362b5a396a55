"""Times `watch` beside `audit` of the same logs, where the entries or the rules are chosen to be dear.

usage: python3 bench/hostile_watch.py PROGRAM

PROGRAM is the built `auditorium_cli`. The script fails where a ratio is above what is wanted: 1.1 for rules that are
too wide, which are refused before anything is judged; for 1,024 entries in one log 1.5 in the order of their stamps,
and 2 as the machines got them and in the reversed order. Of hostile entries, 256 and 512, what is wanted is that
twice as many cost at most four times as much, with some slack.
"""

import os
import sys
import tempfile

from signed import Place, Ratios, seconds

WIDE = "(rule A true)(rule B (every a entry (every b entry (every c entry (every d entry (same a b))))))"
P3 = ("(rule P3 (every x authorise (every y closed (implies (before x y) (or (some z cast before y "
      "(= z.session x.session)) (some z cancel before y (= z.session x.session)))))))")
GROWTH = 4.6


def stamped(place, count):
    """Entries of makers in turn, each of which names the one before, in the order of their stamps."""
    entries = []
    for k in range(count):
        names = [entries[-1].digest] if entries else []
        deed = ("authorise", 1, k) if k % 3 else ("cast", k, bytes(32))
        entries.append(place.entry(k % len(place.keys), k // len(place.keys), k + 1, names, deed))
    return entries


def as_got(entries, makers):
    """The entries as one of several machines would get them: some late, by as many places as there are machines."""
    return [entry for _, entry in sorted(enumerate(entries), key=lambda at: at[0] + 5 * (at[0] % makers))]


def hostile_rows(place, count):
    """Half authorise, half close, none names another."""
    deeds = [("authorise", 1, k) if k % 2 else ("closed",) for k in range(count)]
    return [place.entry(0, k, k + 1, (), deed) for k, deed in enumerate(deeds)]


def hostile_names(place, count):
    """Each names all before it."""
    entries = []
    for k in range(count):
        entries.append(place.entry(0, k, k + 1, [entry.digest for entry in entries], ("authorise", 1, k)))
    return entries


def main():
    if len(sys.argv) != 2:
        sys.exit(__doc__)
    program = os.path.abspath(sys.argv[1])
    ratios = Ratios()
    with tempfile.TemporaryDirectory() as folder:
        place = Place(folder, makers=4)
        place.write("wide", WIDE.encode())
        place.write("p3", P3.encode())

        def both(name, entries, rules="standard"):
            words = ["roster", rules, place.log(name, entries)]
            audit, _ = seconds(program, folder, "audit", *words)
            return seconds(program, folder, "watch", *words)[0], audit

        entries = stamped(place, 1024)
        ratios.add("too wide, 140 entries", *both("wide.log", entries[:140], "wide"), 1.1)
        ratios.add("too wide, 140 entries reversed", *both("wide.log", entries[139::-1], "wide"), 1.1)
        ratios.add("1,024 entries by stamps", *both("order.log", entries), 1.5)
        ratios.add("1,024 entries as got", *both("order.log", as_got(entries, 4)), 2)
        ratios.add("1,024 entries reversed", *both("order.log", entries[::-1]), 2)
        for name, make, rules, turned in (("a rule of P3's shape, reversed", hostile_rows, "p3", True),
                                          ("each names all before", hostile_names, "standard", False)):
            made = make(place, 512)
            few, many = ((part[::-1] if turned else part) for part in (made[:256], made))
            spent = [both("hostile.log", part, rules)[0] for part in (few, many)]
            ratios.add(f"{name}, 512 entries to 256", spent[1], spent[0], GROWTH)
    return 0 if ratios.is_good else 1


if __name__ == "__main__":
    sys.exit(main())
