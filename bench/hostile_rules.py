"""Times rules over logs whose makers chose their entries so that judging is dear.

usage: python3 bench/hostile_rules.py [--limits] [PROGRAM]

PROGRAM is the built `bench_rules` (`rt run` in its crate builds it). It is asked for each case over N and over
2N entries, and the script fails where its processor time grows by more than 1.6 times what the width does: the
number of rows that the quantifiers of the rule go over, one in another. With `--limits` each standard rule, and
some others, are judged over the dearest log of 16,384 entries that is known, which takes some minutes.
"""

import pathlib
import re
import subprocess
import sys

HERE = pathlib.Path(__file__).resolve().parent
BUILT = HERE.parent / "crates" / "bench_rules" / "out" / "bench_rules"
TEXT = HERE.parent / "crates" / "rule_language" / "src" / "standard_text.rt"
SLACK = 1.6
ROUNDS = 3
N = 800

STANDARD = dict(re.findall(r"^(?=\(rule (\w+) )(.*\))", TEXT.read_text(), re.M))
EACH_TWO = "(every a authorise (every b authorise {}))"
BY_SESSION = EACH_TWO.format("(every c cast (not (= c.session a.session)))")
BY_ENTRY = EACH_TWO.format("(every c cast (not (and (= c.maker a.maker) (= c.number a.number))))")
ONE_FORM = EACH_TWO.format("(= a.session b.session)")
EIGHT_FORMS = EACH_TWO.format("(or " + " ".join(f"(= b.number {n})" for n in (9, 2, 3, 4, 5, 6, 7, 1)) + ")")


def rows(text):
    """Of `2 cast 5 1, ..` so many rows of the kind in the session, with the number."""
    words = [part.split() for part in text.split(",")]
    return [word for count, kind, session, number in words for word in (kind, count, session, number)]


# The rule, its rows for some n, and its width for it.
GROWING = {
    "P3": (STANDARD["P3"], "{n} authorise 0 1, {n} closed 0 2", lambda n: n * n),
    "P3 with casts": (STANDARD["P3"], "{n} authorise 0 1, {n} closed 0 2, 5 cast 0 1", lambda n: 5 * n * n),
    "C2": (STANDARD["C2"], "{n} commit 0 1, {n} cast 0 2", lambda n: n * n),
    "by session": (f"(rule S {BY_SESSION})", "{n} authorise 0 1, 1 cast 1 1", lambda n: n * n),
    "by entry": (f"(rule E {BY_ENTRY})", "{n} authorise 0 1, 5 cast 0 2", lambda n: 5 * n * n),
}
HALVES = "8190 {} 0 1, 8190 {} 0 2"
LIMITS = [
    ("O1", "16380 opened 0 1"), ("O2", HALVES.format("authorise", "opened")),
    ("A1", HALVES.format("authorise", "activate")), ("A2", "16380 authorise 0 1"),
    ("C1", HALVES.format("commit", "activate")), ("C2", HALVES.format("commit", "cast")),
    ("C3", "16380 cast 0 1"), ("C4", HALVES.format("cast", "cancel")),
    ("C5", HALVES.format("authorise", "cancel")), ("V1", HALVES.format("override", "authorise")),
    ("V2", HALVES.format("cast", "override")), ("P1", "16380 closed 0 1"),
    ("P2", HALVES.format("authorise", "closed")),
    ("P3", "7320 authorise 0 1, 7320 closed 0 2, 5 cast 0 1, 5 cancel 0 1, 5 challenge 0 1"),
    ("P4", HALVES.format("cast", "closed")), ("M1", "16380 commit 0 1"), ("K1", "16380 commit 0 1"),
    ("K2", "8190 commit 0 1, 8190 commit 0 0"), ("C6", HALVES.format("commit", "challenge")),
    ("C7", "16380 challenge 0 1"),
    ("V3", "5460 challenge 0 1, 5460 override 0 2, 5460 forced 0 3"),
    ("V4", HALVES.format("forced", "authorise")),
    (f"(rule S {BY_SESSION})", "16382 authorise 0 1, 1 cast 1 1"),
    (f"(rule F {ONE_FORM})", "16383 authorise 0 1"),
    (f"(rule G {EIGHT_FORMS})", "16383 authorise 0 1"),
]


def spent(program, rule, rows_text):
    """The processor time in nanoseconds and the verdict."""
    answer = subprocess.run([program, rule, *rows(rows_text)], check=True, capture_output=True, text=True)
    time, _, verdict = answer.stdout.split()
    return int(time), verdict


def grow(program):
    """Whether no case grows by more than its width does."""
    is_good = True
    for name, (rule, text, width) in GROWING.items():
        few, many = (min(spent(program, rule, text.format(n=n))[0] for _ in range(ROUNDS)) for n in (N, 2 * N))
        wider = width(2 * N) / width(N)
        is_linear = many <= SLACK * wider * few
        is_good = is_good and is_linear
        print(f"{name:14} {few / 1e6:9.1f} ms, {many / 1e6:9.1f} ms: {many / few:5.2f} times by {wider:.2f} times"
              f" the width{'' if is_linear else ', which is more'}")
    return is_good


def main():
    words = [word for word in sys.argv[1:] if word != "--limits"]
    program = words[0] if words else str(BUILT)
    if not pathlib.Path(program).is_file():
        print(f"{program} isn't there: run `rt run` in crates/bench_rules first")
        return 2
    if "--limits" not in sys.argv:
        return 0 if grow(program) else 1
    for name, text in LIMITS:
        time, verdict = spent(program, STANDARD.get(name, name), text)
        print(f"{time / 1e9:8.3f} s {verdict:10} {name}: {text}", flush=True)
    return 0


if __name__ == "__main__":
    sys.exit(main())
