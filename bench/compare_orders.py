"""Compares the orders of small random worlds with those of another program, which isn't part of the repository.

    compare_orders.py PROGRAM OTHER [--seed N] [--count N]
    compare_orders.py --answer OTHER < WORLD

PROGRAM is the built `world_orders`. OTHER is a folder with two Python modules:

    world   History(), with the list `events`, the number `greatest` (the greatest stamp held, or 0) and the
            calls `sent()` (its own entries in order), `frontier()` (digests, ascending), `holds(digest)` and
            `append(kind, entry)` with the kind "sent" or "got";
            hear_answer(at, history, log, entry), which appends the entry as got if it can be heard;
            held_before(world, (maker, number), (maker, number)) of a world with the list `histories`
    graph   Graph(entries), with the lists `strays`, `survivors` and `gaps` (digests, ascending) and the call
            precedes(place, place) of places among the survivors

An entry has `maker`, `number`, `stamp`, `names`, `digest` and `text`. Each world is asked twice, for the answers by
the definitions and for the order by rows of ancestors. The first form prints how many worlds agreed, and shows the
first that doesn't. The second prints the answer to the world on standard input.
"""

import argparse
import importlib
import random
import subprocess
import sys
from types import SimpleNamespace

LOG = 64


def digest_of(maker, number):
    return bytes([maker, number]) + bytes(30)


def entry_of(maker, number, stamp, names):
    names = tuple(names)
    return SimpleNamespace(maker=maker, number=number, stamp=stamp, names=names,
                           digest=digest_of(maker, number),
                           text=(maker, number, stamp, names))


class Other:
    """The orders of a world by the modules of the other program."""

    def __init__(self, folder):
        sys.path.insert(0, folder)
        self.worlds = importlib.import_module("world")
        self.graphs = importlib.import_module("graph")

    def act(self, world, m):
        history = world.histories[m]
        if world.stopped[m] or len(history.events) >= LOG:
            return
        entry = entry_of(m, len(history.sent()), history.greatest + 1, history.frontier())
        if not history.holds(entry.digest):
            history.append("sent", entry)

    def hear(self, world, at, source, number):
        count = len(world.histories)
        if at == source or at >= count or source >= count or world.stopped[at]:
            return
        sent = world.histories[source].sent()
        if number < len(sent):
            self.worlds.hear_answer(at, world.histories[at], LOG, sent[number])

    def play(self, lines):
        """The world after its steps, what was sent, and what is given."""
        world = SimpleNamespace(histories=[], stopped=[])
        lost, forged = set(), []
        for line in lines:
            kind, *words = line.split()
            numbers = [int(word) for word in words]
            if kind == "machines":
                world.histories = [self.worlds.History() for _ in range(numbers[0])]
                world.stopped = [False] * numbers[0]
            elif kind == "act" and numbers[0] < len(world.histories):
                self.act(world, numbers[0])
            elif kind == "hear":
                self.hear(world, *numbers)
            elif kind == "stop" and numbers[0] < len(world.histories):
                world.stopped[numbers[0]] = True
            elif kind == "lose":
                lost.add(tuple(numbers))
            elif kind == "forge":
                pairs = zip(numbers[3::2], numbers[4::2])
                forged.append(entry_of(*numbers[:3], (digest_of(*pair) for pair in pairs)))
        sent = [e for history in world.histories for e in history.sent()]
        given = [e for e in sent if (e.maker, e.number) not in lost] + forged
        return world, sent, given

    def answer(self, lines):
        return "".join(line + "\n" for line in self.orders(*self.play(lines)))

    def answer_by_rows(self, lines):
        """The order of each two survivors, where it isn't false, in any order."""
        _, _, given = self.play(lines)
        graph = self.graphs.Graph(given)
        words = {True: "precedes", None: "unknown"}
        return sorted(f"{words[before]} {f.maker} {f.number} {e.maker} {e.number}"
                      for x, e in enumerate(graph.survivors)
                      for y, f in enumerate(graph.survivors)
                      if (before := graph.before(y, x)) is not False)

    def orders(self, world, sent, given):
        for m, history in enumerate(world.histories):
            for digest in history.frontier():
                yield f"frontier {m} {digest[0]} {digest[1]}"
        for e in sent:
            for f in sent:
                first, second = (f.maker, f.number), (e.maker, e.number)
                if self.worlds.held_before(world, first, second):
                    yield f"held {f.maker} {f.number} {e.maker} {e.number}"
        graph = self.graphs.Graph(given)
        strays = set(graph.strays)
        for e in given:
            if e.digest in strays:
                yield f"stray {e.maker} {e.number}"
        for digest in graph.gaps:
            yield f"gap {digest[0]} {digest[1]}"
        places = {e.digest: i for i, e in enumerate(graph.survivors)}
        kept = [e for e in given if e.digest in places]
        for e in kept:
            for f in kept:
                if graph.precedes(places[f.digest], places[e.digest]):
                    yield f"precedes {f.maker} {f.number} {e.maker} {e.number}"


def random_world(rng):
    """The lines of a world: steps, some losses, and some entries that no machine sent."""
    machines = rng.randrange(1, 5)
    lines = [f"machines {machines}"]
    acted = [0] * machines
    for _ in range(rng.randrange(1, 40)):
        m = rng.randrange(machines)
        choice = rng.random()
        if choice < 0.3 and sum(acted) < 14:
            lines.append(f"act {m}")
            acted[m] += 1
        elif choice < 0.97:
            source = rng.randrange(machines)
            lines.append(f"hear {m} {source} {rng.randrange(acted[source] + 1)}")
        else:
            lines.append(f"stop {m}")
    sent = [(m, k) for m in range(machines) for k in range(acted[m])]
    lost = [pair for pair in sent if rng.random() < rng.choice([0, 0.2, 0.5])]
    lines += [f"lose {m} {k}" for m, k in lost]
    forged = [(rng.randrange(machines), 100 + i) for i in range(rng.choice([0, 0, 1, 2, 4]))]
    for m, k in forged:
        named = [p for p in sent + forged if rng.random() < 0.25]
        words = " ".join(f"{a} {b}" for a, b in named)
        lines.append(f"forge {m} {k} {rng.randrange(1, 9)} {words}".rstrip())
    return lines


def ask(command, lines):
    return subprocess.run(command, input="".join(line + "\n" for line in lines),
                          capture_output=True, text=True, timeout=120)


def main():
    parser = argparse.ArgumentParser(description=__doc__.splitlines()[0])
    parser.add_argument("paths", nargs="+", help="PROGRAM OTHER, or OTHER after --answer")
    parser.add_argument("--answer", action="store_true", help="answer the world on standard input")
    parser.add_argument("--seed", type=int, default=1)
    parser.add_argument("--count", type=int, default=300)
    args = parser.parse_args()
    other = Other(args.paths[-1])
    if args.answer:
        sys.stdout.write(other.answer(sys.stdin.read().splitlines()))
        return 0
    agreed = 0
    seen = {"frontier": 0, "held": 0, "stray": 0, "gap": 0, "precedes": 0, "unknown": 0}
    for turn in range(args.count):
        lines = random_world(random.Random(f"{args.seed} {turn}"))
        wanted = other.answer(lines)
        by_rows = other.answer_by_rows(lines)
        told = ask([args.paths[0]], lines)
        told_by_rows = ask([args.paths[0], "rows"], lines)
        if (told.returncode == told_by_rows.returncode == 0 and told.stdout == wanted
                and sorted(told_by_rows.stdout.splitlines()) == by_rows):
            agreed += 1
            unknown = [line for line in by_rows if line.startswith("unknown")]
            for line in wanted.splitlines() + unknown:
                seen[line.split()[0]] += 1
        elif agreed == turn:
            print("\n".join(lines))
            print("--- the program answers", told.returncode)
            print(told.stdout)
            print("--- wanted")
            print(wanted)
            print("--- by rows", told_by_rows.returncode)
            print(told_by_rows.stdout)
            print("--- wanted by rows")
            print("\n".join(by_rows))
    print(f"{agreed} of {args.count} worlds agreed;",
          ", ".join(f"{count} {kind}" for kind, count in seen.items()))
    return 0 if agreed == args.count else 1


if __name__ == "__main__":
    sys.exit(main())
