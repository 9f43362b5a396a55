"""Compare PROGRAM with this implementation on random and fixed cases.

compare.py PROGRAM SEED COUNT [--kinds a,b,..] [--only KIND:INDEX] [--keep FOLDER] [--seconds N]
compare.py PROGRAM 1 0 --kinds tables
compare.py PROGRAM --misread [--only TITLE|TITLE..]

COUNT is how many random commands there are. The kinds are those of this file, by their names
after `case_`, and the tables of `tables.py`, whose fixed cases are not counted in COUNT.
"""
import argparse
import collections
import importlib
import itertools
import os
import random
import resource
import shutil
import stat
import subprocess
import sys
import tempfile
import time
import types

HERE = os.path.dirname(os.path.abspath(__file__))
sys.path.insert(0, HERE)
MODULES = ["texts", "signatures", "entries", "logs", "verdicts", "rules", "proofs", "reports",
           "scripts", "playing", "files", "auditorium", "check_run", "tables"]
for module in MODULES:
    globals()[module] = importlib.import_module(module)

# How long a command of the program may take, and how long where its case is run again.
TIMEOUT, LATE_TIMEOUT = 20, 300
Case = collections.namedtuple("Case", "files commands")


# Worlds: a script's machines, and entries that they made or that are forged.

NAMES = ["sv", "b1", "b2", "b3", "a", "zz", "machine9", "0123456789abcdef", "do"]
SEEDS = ["00", "61756469746f7269756d", "ff" * 32]
KEYS = [("w1", "h5")] * 8 + [("w2", "h5")] * 2 + [("w4", "h5")]


def random_machines(chance, most=4):
    booths = chance.choice([0, 1, 1, 2, 2, 2, 3, most])
    names = NAMES[1:1 + booths] if chance.random() < 0.7 else chance.sample(NAMES[1:], booths)
    machines = [("sv", "supervisor")] + [(name, "booth") for name in names]
    if chance.random() < 0.3:
        chance.shuffle(machines)
    return machines


def ballot(chance):
    return chance.choice(["07", "a0", "00"]) * 32


def booth_deeds(chance, session, version):
    deeds = ["activate %d" % session]
    one, other = ballot(chance), ballot(chance)
    end = chance.choice(["cast", "cast", "cast", "cancel"] + ["challenge"] * (version == 2))
    if end != "cancel" or chance.random() < 0.5:
        deeds.append("commit %d %s" % (session, one))
    word = other if chance.random() < 0.1 else one
    deeds.append("cancel %d" % session if end == "cancel" else "%s %d %s" % (end, session, word))
    if chance.random() < 0.15:
        deeds.insert(chance.randrange(len(deeds) + 1), chance.choice(deeds))
    if chance.random() < 0.1:
        deeds.append(any_booth_deed(chance, session, version))
    if chance.random() < 0.1:
        chance.shuffle(deeds)
    return deeds


def any_booth_deed(chance, session, version):
    word = chance.choice(["activate", "commit", "cast", "cancel"] + ["challenge"] * (version == 2))
    tail = "" if word in ("activate", "cancel") else " " + ballot(chance)
    return "%s %d%s" % (word, session, tail)


def override(chance, session, version):
    return "override %d" % session + (chance.choice([" cast", " cancel"]) if version == 2 else "")


def random_actions(chance, machines, version, sessions):
    """The actions of each machine, mostly sensible."""
    booths = [name for name, role in machines if role == "booth"]
    actions = {name: [] for name, _ in machines}
    supervisor = ["open"] if chance.random() < 0.95 else []
    for session in sessions:
        if not booths:
            break
        booth = chance.choice(booths)
        supervisor.append("authorise %s %d" % (booth, session))
        while chance.random() < 0.25:
            supervisor.append(override(chance, chance.choice(sessions), version))
        actions[booth] += booth_deeds(chance, session, version)
    if chance.random() < 0.6:
        supervisor.insert(len(supervisor) - (chance.random() < 0.1), "close")
    if chance.random() < 0.15 and supervisor:
        supervisor.insert(chance.randrange(len(supervisor) + 1), chance.choice(supervisor))
    if chance.random() < 0.1:
        chance.shuffle(supervisor)
    actions[[name for name, role in machines if role == "supervisor"][0]] = supervisor
    return actions


def random_steps(chance, machines, actions):
    names = [name for name, _ in machines]
    total = sum(map(len, actions.values()))
    steps, sent = [], dict.fromkeys(names, 0)
    heard = chance.choice([1.0, 0.95, 0.9, 0.7, 0.3])
    busy = [name for name in names for _ in actions[name]] or names
    for _ in range(int(total * chance.choice([0.5, 1, 2, 3]))):
        name = chance.choice(busy)
        steps.append("step act " + name)
        for other in names:
            if other != name and chance.random() < heard:
                back = chance.choice([0, 0, 0, 0, 1, 2])
                steps += ["step hear %s %s %d" % (other, name, max(0, number))
                          for number in range(sent[name] - back, sent[name] + 1)]
        sent[name] = min(sent[name] + 1, len(actions[name]))
        if chance.random() < 0.1:
            steps.append("step hear %s %s %d" % (chance.choice(names), chance.choice(names),
                                                 chance.randrange(8)))
        if chance.random() < 0.01:
            steps.append("step stop " + chance.choice(names))
    return steps


def random_script(chance, running=False, most=4):
    """The text of a script."""
    version = chance.choice([1, 2, 2])
    machines = random_machines(chance, most)
    names = [name for name, _ in machines]
    sessions = chance.sample(range(1, 9), chance.randrange(1, 6))
    if chance.random() < 0.1:
        sessions[0] = chance.choice([4294967295, 4294967294, 256, 10])
    actions = random_actions(chance, machines, version, sessions)
    total = sum(map(len, actions.values()))
    kind, height = chance.choice(KEYS)
    log = total if chance.random() < 0.7 else chance.randrange(1, total + 3)
    link = 100 if chance.random() < 0.7 else chance.randrange(1, 8)
    lines = ["version %d" % version] if version == 2 or chance.random() < 0.1 else []
    lines += ["seed " + chance.choice(SEEDS), "key %s %s" % (kind, height), "log %d" % max(1, log),
              "link %d" % link]
    lines += ["machine %s %s" % machine for machine in machines]
    lines += ["do %s %s" % (name, deed) for name in names for deed in actions[name]]
    if len(names) > 1 and (running or chance.random() < 0.1):
        for _ in range(chance.choice([0, 0, 1, 2, 5, 12])):
            sender, receiver = chance.sample(names, 2)
            lines.append("lose %s %d %s" % (sender, chance.randrange(6), receiver))
        for name in names:
            if chance.random() < (0.25 if running else 0.1):
                lines.append("stop %s %d" % (name, chance.randrange(total + 2)))
    lines += random_steps(chance, machines, actions)
    return ("\n".join(lines) + "\n").encode()


class World:
    """A played script, and what is needed to forge entries of its machines."""

    def __init__(self, chance):
        self.chance = chance
        while True:
            self.script = scripts.read_script(random_script(chance))
            self.play = playing.Play(self.script)
            self.play.take_steps(self.script.steps)
            if any(player.events for player in self.play.players):
                break
        self.roster = self.play.roster
        self.entries = [entry for player in self.play.players for entry in player.sent]
        self.others = []

    def deed(self):
        chance = self.chance
        session = chance.choice([1, 1, 2, 2, 3, 4294967295, 0])
        word = chance.choice(["opened", "authorise", "override", "forced", "closed", "activate",
                              "activate",
                              "commit", "commit", "cast", "cast", "cancel", "challenge"])
        if word in ("opened", "closed"):
            return (word,), chance.choice([1, 2])
        if word == "authorise":
            return (word, chance.randrange(len(self.roster.machines) + 1),
                    session), chance.choice([1, 2])
        if word in ("override", "forced"):
            if word == "override" and chance.random() < 0.5:
                return (word, session), 1
            return ("override", session, "cast" if word == "forced" else "cancel"), 2
        if word in ("activate", "cancel"):
            return (word, session), chance.choice([1, 2])
        version = 2 if word == "challenge" else chance.choice([1, 2])
        return (word, session, bytes.fromhex(ballot(chance))), version

    def names(self, entries):
        chance = self.chance
        count = chance.choice([0, 1, 1, 2, 2, 3])
        names = {entry.digest for entry in chance.sample(entries, min(count, len(entries)))}
        if chance.random() < 0.12:
            names.add(bytes([chance.randrange(256)]) * 32)
        return sorted(names)

    def forge(self, entries):
        """A signed entry which no machine made, and which is mostly a good one."""
        chance = self.chance
        names = self.names(entries)
        stamps = [entry.stamp for entry in entries if entry.digest in names]
        stamp = max(stamps + [0]) + 1
        if chance.random() < 0.2:
            stamp = chance.choice([0, 1, stamp - 1, stamp + 3, 4294967295, max(0, stamp - 2)])
        maker = chance.randrange(len(self.roster.machines))
        number = len([entry for entry in entries if entry.maker == maker])
        if chance.random() < 0.3:
            number = chance.randrange(6)
        deed, version = self.deed()
        return self.sign(version, self.roster.election, maker, number % 32, min(stamp, 4294967295),
                         names, deed)

    def sign(self, version, election, maker, number, stamp, names, deed):
        body = entries.write_body(version, election, maker, number, stamp, names,
                                  tables.deed_value(*deed))
        key = self.play.players[maker].key
        return tables.entry_of(entries.write_entry(body, key.sign(number, body)))

    def bad_text(self, entry):
        """The text of an entry with one or two faults."""
        chance = self.chance
        values = dict(version=entry.version, election=entry.election, maker=entry.maker,
                      number=entry.number,
                      stamp=entry.stamp, names=entry.names, deed=entries.write_deed(entry.deed,
                                                                                    entry.version))
        index, signer, damage = entry.number, entry.maker, None
        for _ in range(chance.choice([1, 1, 2, 2, 3])):
            fault = chance.choice(["election", "maker", "number", "index", "signer", "damage",
                                   "names", "deed",
                                   "body", "version", "short", "types", "long", "same"])
            if fault == "election":
                values["election"] = b"x" * 32
            elif fault == "maker":
                values["maker"] = chance.choice([len(self.roster.machines), 4294967295, 16,
                                                 len(self.roster.machines) - 1])
            elif fault == "number":
                values["number"] = chance.choice([entry.number + 1, 32, 4294967295])
            elif fault == "index":
                index = (index + 1) % 32
            elif fault == "signer":
                signer = (signer + 1) % len(self.roster.machines)
            elif fault == "names":
                values["names"] = chance.choice([[b"b" * 32, b"a" * 32], [b"a" * 32] * 2,
                                                 [b"a" * 31], [b""]])
            elif fault == "deed":
                values["deed"] = tables.deed_value(*chance.choice([
                    ("override", 1, "cast"), ("override", 1), ("challenge", 1, b"q" * 32),
                                                                   ("opened", 1), ("cast", 1),
                    ("cast", 1, b"q" * 31), ("open",), ("cancel", 4294967295), ("cancel", "x"),
                                                                   ("override", 1, "no")]))
            elif fault == "version":
                values["version"] = 3 - entry.version
            else:
                damage = fault
        body = entries.write_body(*[values[name] for name in
                                    ("version", "election", "maker", "number", "stamp", "names",
                                     "deed")])
        if chance.random() < 0.2:
            body = self.odd_body(body)
        signature = self.damaged(self.play.players[signer].key.sign(index, body), damage)
        if damage == "body":
            body = body.replace(b"5:entry1:",
                                b"5:entrz1:") if chance.random() < 0.3 else flip(chance, body)
        return entries.write_entry(body, signature)

    def odd_body(self, body):
        chance = self.chance
        return chance.choice([
            body.replace(b"5:entry1:1", b"5:entry1:3").replace(b"5:entry1:2", b"5:entry2:02"),
            body[:-1] + b"0:)", body[:-1] + b"())", body.replace(b"(6:opened)", b"(6:opened0:)"),
            body.replace(b"1:1", b"2:01"), body.replace(b"1:1", b"11:42949672961"), b"0:", b"("
                              + body + b")"])

    def damaged(self, signature, damage):
        chance = self.chance
        if damage == "damage":
            return flip(chance, signature)
        if damage == "short":
            return signature[:chance.choice([0, 3, 4, len(signature) - 1, len(signature) - 32, 8])]
        if damage == "long":
            return signature + b"\0" * chance.choice([1, 32])
        if damage == "types":
            place = chance.choice([4, len(signature) - 4 - 160, len(signature) - 4 - 160])
            value = chance.choice([0, 1, 2, 4, 5, 6, 7])
            return signature[:place] + value.to_bytes(4, "big") + signature[place + 4:]
        return signature

    def all_entries(self):
        return self.entries + self.others

    def add_forged(self, count):
        chance = self.chance
        base = list(self.entries) if chance.random() < 0.5 else []
        for _ in range(count):
            base.append(self.forge(base))
        count = len(self.entries)
        self.others += base[count:] if base[:count] == self.entries else base
        if chance.random() < 0.2 and self.others:
            again = chance.choice(self.others)
            self.others.append(self.resigned(again))

    def resigned(self, entry):
        """The same body with another good signature."""
        key = self.play.players[entry.maker].key
        signature = key.sign(entry.number, entry.body, signatures.H(b"another", entry.body))
        return tables.entry_of(entries.write_entry(entry.body, signature))

    def log(self):
        """A log's file: one of the play, or one of any entries."""
        chance = self.chance
        if not self.others or chance.random() < 0.5:
            player = chance.choice(self.play.players)
            texts_ = [b"(%d:%s%s)" % (len(word), word.encode(), entry.text) for word,
                      entry in player.events]
            owner = player.owner
        else:
            pool = self.all_entries()
            chosen = chance.sample(pool, chance.randrange(len(pool) + 1))
            if chance.random() < 0.7:
                chosen.sort(key=lambda entry: entry.stamp)
            owner = chance.choice(list(range(len(self.roster.machines))) + [99, 4294967295])
            owner = chance.choice([owner, chosen[0].maker if chosen else 0])
            texts_ = []
            for entry in chosen:
                word = b"4:sent" if (entry.maker == owner) ^ (chance.random() < 0.05) else b"3:got"
                texts_.append(b"(" + word + entry.text + b")")
        return self.damaged_log(owner, texts_)

    def damaged_log(self, owner, records):
        chance, damages = self.chance, 0
        while chance.random() < 0.35 and damages < 4:
            damages += 1
            place = chance.randrange(len(records) + 1)
            kind = chance.randrange(9)
            if kind == 0 and records:
                del records[place % len(records)]
            elif kind == 1 and records:
                records.insert(place, chance.choice(records))
            elif kind in (2, 3, 4) and self.all_entries():
                word = chance.choice([b"4:sent", b"3:got"])
                records.insert(place, b"(" + word
                               + self.bad_text(chance.choice(self.all_entries())) + b")")
            elif kind == 5 and records:
                chosen = place % len(records)
                records[chosen] = flip(chance, records[chosen])
            elif kind == 6:
                records.insert(place, odd_text(chance))
            elif kind == 7 and len(records) > 1:
                first = chance.randrange(len(records) - 1)
                records[first:first + 2] = records[first + 1], records[first]
            elif kind == 8 and records:
                chosen = place % len(records)
                old, new = b"(4:sent", b"(3:got"
                if not records[chosen].startswith(old):
                    old, new = new, old
                records[chosen] = records[chosen].replace(old, new, 1)
        header = b"(3:log1:1%d:%d)" % (len(str(owner)), owner)
        if chance.random() < 0.03:
            header = chance.choice([b"", b"(3:log1:11:0", b"(3:log1:12:00)", b"(3:log1:21:0)",
                                    b"3:log", b"(3:log1:1)",
                                    b"(3:log1:110:4294967296)", b"(3:log1:11:00:)", b"[",
                                    b"(3:log1:1())"])
        octets = header + b"".join(records)
        if chance.random() < 0.15:
            octets = octets[:chance.randrange(len(octets) + 1)]
        return octets


def flip(chance, octets):
    if not octets:
        return b"x"
    place = chance.randrange(len(octets))
    kind = chance.randrange(4)
    if kind == 0:
        return octets[:place] + bytes([chance.randrange(256)]) + octets[place + 1:]
    if kind == 1:
        return octets[:place] + octets[place + 1:]
    if kind == 2:
        return octets[:place] + chance.choice([b"(", b")", b"[", b"0", b"1", b":", b"9",
                                               b" "]) + octets[place:]
    return octets[:place] + bytes([octets[place] ^ 1 << chance.randrange(8)]) + octets[place + 1:]


def odd_text(chance):
    return chance.choice([
        b"0:", b"()", b"(4:sent)", b"(4:sent0:)", b"(3:got())", b"(4:sent()())", b"(3:gotx",
                          b"(03:abc)", b"[", b")",
        b"7", b"12:abc", b"262144:", b"262145:", b"999999999999:", b"00:", b"0",
                          b"((((((((0:))))))))",
        b"(((((((((0:)))))))))", b"(((((((( ", b"(((((((([", b" ", b"\n", b"(4:sent(6:sealed()0:))",
                          b"(4:Sent())",
        b"(3:got(6:sealed(5:entry1:1)0:))", b"(" + b"0:" * 16384 + b")", b"(" + b"0:" * 16385
                          + b")",
        b"(" + b"0:" * 16384 + b"(", b"(" + b"0:" * 16384 + b"x", b"(((((((" + b"(" + b"0:" * 16384
                          + b"(",
        b"1:", b"-1:a", b"1a:b", b"(4:sent(", b"262144:" + b"a" * 262144, b"(4:sent262144:"
                          + b"a" * 262144 + b")"])


def world_logs(chance, world, count=None):
    count = count or chance.choice([1, 1, 2, 2, 3, 4])
    return {"l%d.log" % place: world.log() for place in range(count)}


def random_world(chance):
    world = World(chance)
    if chance.random() < 0.6:
        world.add_forged(chance.randrange(1, 14))
    return world


def roster_text(chance, world):
    """The roster, seldom a damaged one."""
    text = world.roster.text
    if chance.random() < 0.97:
        return text
    return damaged_roster(chance, world)


def damaged_roster(chance, world):
    machines = [[machine.name.encode(), machine.role.encode(), machine.key]
                for machine in world.roster.machines]
    text = world.roster.text
    for _ in range(chance.choice([1, 1, 2])):
        kind = chance.randrange(10)
        machine = chance.choice(machines)
        if kind == 0:
            text = flip(chance, text)
            continue
        if kind == 1:
            machine[0] = chance.choice([b"", b"A", b"a" * 17, b"sv", b"b 1", b"\xff", b"a" * 16,
                                        b"b1\n"])
        elif kind == 2:
            machine[1] = chance.choice([b"supervisor", b"booth", b"Booth", b""])
        elif kind == 3:
            machine[2] = chance.choice([machine[2][:55], machine[2] + b"x", b"\0\0\0\7"
                                        + machine[2][4:],
                                        machine[2][:4] + b"\0\0\0\5" + machine[2][8:], b"\0\0\0\6"
                                        + machine[2][4:]])
        elif kind == 4:
            machines += [[b"n%d" % place, b"booth", machine[2]]
                         for place in range(chance.choice([10, 15, 16]))]
        elif kind == 5:
            machines.append(list(machine))
        elif kind == 6:
            machines.pop()
            machines = machines or [[b"a", b"booth", b"k" * 56]]
        elif kind == 7:
            machine.append(b"")
        elif kind == 8:
            chance.shuffle(machines)
        else:
            machines = [[b"a", b"booth", b"k" * 56]]
        text = texts.write_text([b"roster", b"1"] + machines)
    return text + chance.choice([b"", b"", b"", b"", b"\n",
                                 b"0:"]) if chance.random() < 0.5 else text


# Rules.

KINDS_OF_RULES = list(rules.FIELDS)


class RuleMaker:
    def __init__(self, chance):
        self.chance = chance

    def formula(self, bound, quantifiers, depth):
        chance = self.chance
        heads = ["true", "and", "or", "not", "implies"]
        if quantifiers < 3:
            heads += ["every", "some"] * 3
        if bound:
            heads += ["same", "before", "next", "is", "kind", "=", "=", "<", "before", "everyb",
                      "someb", "someb"]
        if depth > 5:
            heads = ["true"] + (["same", "before", "next", "is", "kind", "=", "<"] if bound else [])
        head = chance.choice(heads)
        if head == "true":
            return "true"
        if head in ("and", "or"):
            return "(%s %s)" % (head, " ".join(self.formula(bound, quantifiers, depth + 1)
                                                for _ in range(chance.choice([1, 2, 2, 3]))))
        if head == "not":
            return "(not %s)" % self.formula(bound, quantifiers, depth + 1)
        if head == "implies":
            return "(implies %s %s)" % tuple(self.formula(bound, quantifiers, depth + 1)
                                             for _ in "12")
        if head[:4] in ("ever", "some"):
            return self.quantifier(head, bound, quantifiers, depth)
        if head in ("same", "before", "next"):
            return "(%s %s %s)" % (head, chance.choice(list(bound)), chance.choice(list(bound)))
        if head == "is":
            return "(is %s %s)" % (chance.choice(list(bound)),
                                   chance.choice(["supervisor", "booth"]))
        if head == "kind":
            return "(kind %s %s)" % (chance.choice(list(bound)), chance.choice(KINDS_OF_RULES))
        return self.comparison(head, bound)

    def quantifier(self, head, bound, quantifiers, depth):
        chance = self.chance
        free = [letter for letter in "xyzabu" if letter not in bound]
        variable, kind = chance.choice(free), chance.choice(KINDS_OF_RULES + ["entry"] * 4
                                                            + ["cast", "commit"])
        before = " before " + chance.choice(list(bound)) if head.endswith("b") and bound else ""
        head = head[:5] if head.startswith("every") else "some"
        inner = self.formula({**bound, variable: kind}, quantifiers + 1, depth + 1)
        return "(%s %s %s%s %s)" % (head, variable, kind, before, inner)

    def comparison(self, head, bound):
        chance = self.chance
        terms = [(variable + "." + field, rules.SORTS[field]) for variable, kind in bound.items()
                 for field in rules.FIELDS[kind]]
        terms += [(str(number), "count") for number in (0, 1, 2, chance.randrange(8))]
        if head == "<":
            terms = [term for term in terms if term[1] in ("count", "session")]
        first, sort = chance.choice(terms)
        second = chance.choice([term for term, other in terms if other == sort])
        return "(%s %s %s)" % (head, first, second)

    def text(self):
        chance = self.chance
        count = chance.choice([1, 2, 4, 8])
        lines = ["(rule R%d %s)" % (place, self.leading()) for place in range(count)]
        return chance.choice(["\n", " ", "\r\n",
                              "\t"]).join(lines).encode() + chance.choice([b"", b"\n"])

    def leading(self):
        if self.chance.random() < 0.7:
            return self.quantifier(self.chance.choice(["every", "every", "some"]), {}, 0, 0)
        return self.formula({}, 0, 0)


def damaged_rules(chance, octets):
    """A text of rules with a token or a byte that is another."""
    if chance.random() < 0.3:
        return flip(chance, octets)
    tokens = octets.decode("latin-1").replace("(", " ( ").replace(")", " ) ").split()
    for _ in range(chance.choice([1, 1, 2])):
        place = chance.randrange(len(tokens))
        new = chance.choice(["(", ")", "x", "y", "z", "true", "every", "some", "before", "and",
                             "or", "entry", "cast",
                             "x.maker", "y.number", "x.session", "x.ballot", "x.", "x.Maker",
                             "xy.maker", "7", "07",
                             "4294967295", "4294967296", "unknown", "=", "<", "rule", "R0", "not",
                             "is", "booth",
                             "q", "Q", "same", "kind", "y.booth", "q.x", "1.maker", "x.maker.x",
                             "\x01", "é", ".", "-1"])
        kind = chance.randrange(4)
        if kind == 0:
            tokens[place] = new
        elif kind == 1:
            tokens.insert(place, new)
        elif kind == 2 and len(tokens) > 1:
            del tokens[place]
        else:
            tokens[place] = chance.choice(tokens)
    joined = " ".join(tokens)
    if chance.random() < 0.5:
        joined = joined.replace("( ", "(").replace(" )", ")")
    return joined.encode("latin-1")[:chance.choice([None, None, None,
                                                    chance.randrange(len(joined) + 1)])]


# Kinds of cases.

def case_usage(chance):
    words = ["gaps", "play", "run", "repair", "order", "audit", "watch", "prove", "check", "make",
             "demo", "office",
             "endorse", "endorsed", "", "x", "-x", "--help", "p.log", "standard", "1", "0", "01",
             "801", "1000", "a.0",
             "sv.0", "sv.00", "sv.", ".1", "sv.4294967295", "sv.4294967296", "SV.1", "a" * 16
             + ".1", "a" * 17 + ".1",
             "0" * 64, "F" * 64, "f" * 63, "a b", "\x7f", "é", "none", "w" * 1024, "w" * 1025, "~",
             "!", "a-b", "sv.1.2",
             "+1", "1e2", " 1", "sv.-1", "9" * 12, "sv.42949672950"]
    commands = []
    for _ in range(12):
        command = chance.choice(words[:14] * 3 + words)
        form = auditorium.COMMANDS.get(command, (None, "name name"))[1].split(" ")
        count = len(form) + chance.choice([0, 0, 0, -1, 1, 14, 15, 16])
        chosen = [chance.choice(words[14:]) for _ in range(max(0, count))]
        if command == "order" and len(chosen) > 2 and chance.random() < 0.7:
            chosen[1:3] = chance.choice(words[21:]), chance.choice(words[21:])
        if command in ("demo", "make") and chosen and chosen[0] == "1":
            command = "make"
        if command == "run":
            command = "play"
        commands.append([command] + chosen)
    return Case({}, commands)


def damaged_script(chance, octets):
    lines = octets.split(b"\n")
    for _ in range(chance.choice([1, 1, 1, 2])):
        place = chance.randrange(len(lines))
        words = lines[place].split(b" ")
        new = chance.choice([b"", b"0", b"1", b"00", b"4096", b"4097", b"4095", b"4294967295",
                             b"4294967296", b"-1", b"sv",
                             b"b1", b"b9", b"SV", b"a" * 17, b"a" * 16, b"open", b"close",
                             b"authorise", b"activate",
                             b"commit", b"cast", b"cancel", b"challenge", b"override", b"act",
                             b"hear", b"stop", b"do",
                             b"step", b"lose", b"version", b"seed", b"key", b"log", b"link",
                             b"machine", b"w1", b"w3",
                             b"h5", b"h6", b"2", b"3", b"booth", b"supervisor", b"07" * 32,
                             b"07" * 31, b"0", b"0g",
                             b"AB", b"ff" * 33, b"#", b"\t", b"\xc3\xa9", b"1.", b"do\r", b"7" * 64,
                             b"7" * 65])
        kind = chance.randrange(9)
        if kind == 0:
            words[chance.randrange(len(words))] = new
        elif kind == 1:
            words.insert(chance.randrange(len(words) + 1), new)
        elif kind == 2:
            del words[chance.randrange(len(words))]
        if kind < 3:
            lines[place] = b" ".join(words)
        elif kind == 3:
            del lines[place]
        elif kind == 4:
            lines.insert(chance.randrange(len(lines) + 1), lines[place])
        elif kind == 5:
            lines.insert(place, chance.choice([b"", b"# a comment", b"#\xff\x00", b" ", b"# ",
                                               b" #", new]))
        elif kind == 6:
            lines[place] = flip(chance, lines[place])
        elif kind == 7:
            other = chance.randrange(len(lines))
            lines[place], lines[other] = lines[other], lines[place]
        else:
            lines[place] = lines[place] + chance.choice([b" ", b"\r", b"x", b"0"])
        lines = lines or [b""]
    octets = b"\n".join(lines)
    return octets[:chance.randrange(len(octets) + 1)] if chance.random() < 0.1 else octets


def case_play(chance):
    files, commands = {}, []
    for place in range(3):
        name = "s%d.script" % place
        files[name] = random_script(chance)
        commands.append([chance.choice(["play", "repair"]), name, "p%d" % place])
        if chance.random() < 0.3:
            commands.append(["repair", name, "p%d" % place])
    return Case(files, commands)


def case_script(chance):
    files, commands = {}, []
    for place in range(6):
        name = "s%d.script" % place
        files[name] = damaged_script(chance, random_script(chance, running=chance.random() < 0.3))
        commands.append([chance.choice(["play", "repair"]), name, "p"])
    return Case(files, commands)


def case_run(chance):
    files, commands = {}, []
    for place in range(3):
        name = "s%d.script" % place
        files[name] = random_script(chance, running=True)
        if chance.random() < 0.1:
            files[name] = damaged_script(chance, files[name])
        commands.append(["run", name, "p%d" % place])
    return Case(files, commands)


def case_gaps(chance):
    world = random_world(chance)
    files = world_logs(chance, world, 8)
    return Case(files, [["gaps", name] for name in files])


def audit_words(chance, files, head):
    names = [name for name in files if name.endswith(".log")]
    chosen = chance.sample(names, chance.randrange(1, len(names) + 1))
    while chance.random() < 0.15 and len(chosen) < 16:
        chosen.append(chance.choice(names + ["none.log"] if chance.random() < 0.1 else names))
    return head + chosen


def case_audit(chance):
    world = random_world(chance)
    files = {"r": roster_text(chance, world), **world_logs(chance, world,
                                                           chance.choice([3, 4, 5, 6]))}
    return Case(files, [audit_words(chance, files, ["audit", "r", "standard"]) for _ in range(12)])


def case_rosters(chance):
    world = random_world(chance)
    files = world_logs(chance, world)
    commands = []
    for place in range(6):
        files["r%d" % place] = damaged_roster(chance, world)
        commands.append(audit_words(chance, files, ["audit", "r%d" % place, "standard"]))
    return Case(files, commands)


def case_watch(chance):
    world = random_world(chance)
    files = {"r": roster_text(chance, world), "u": RuleMaker(chance).text(),
             **world_logs(chance, world)}
    return Case(files, [audit_words(chance, files, ["watch", "r",
                                                    chance.choice(["standard", "u"])])
                        for _ in range(8)])


def entry_word(chance, world):
    every = world.all_entries()
    entry = chance.choice(every) if every else None
    if entry is None or chance.random() < 0.08:
        return chance.choice(["sv.0", "b1.0", "b9.1", "sv.31", "0" * 64, "sv.4294967295"])
    if chance.random() < 0.5:
        return entry.digest.hex()
    return "%s.%d" % (world.roster.names[entry.maker], entry.number)


def case_order(chance):
    world = random_world(chance)
    files = {"r": roster_text(chance, world), **world_logs(chance, world)}
    commands = []
    for _ in range(16):
        first = entry_word(chance, world)
        second = first if chance.random() < 0.05 else entry_word(chance, world)
        commands.append(audit_words(chance, files, ["order", "r", first, second]))
    return Case(files, commands)


def case_rules(chance):
    world = random_world(chance)
    files = {"r": roster_text(chance, world), **world_logs(chance, world)}
    commands = []
    for place in range(12):
        name = "u%d" % place
        files[name] = RuleMaker(chance).text()
        if chance.random() < 0.1:
            files[name] = damaged_rules(chance, files[name])
        commands.append(audit_words(chance, files, ["audit", "r", name]))
    return Case(files, commands)


def case_rulestext(chance):
    world = World(chance)
    files, commands = {"r": world.roster.text, "l.log": b"(3:log1:11:0)"}, []
    for place in range(12):
        name = "u%d" % place
        octets = RuleMaker(chance).text()
        if chance.random() < 0.2:
            octets = rules.STANDARD_TEXT
        files[name] = damaged_rules(chance, octets)
        commands.append(["audit", "r", name, "l.log"])
    return Case(files, commands)


def damaged_proof(chance, proof):
    lines = proof.decode().split("\n")
    kind = chance.randrange(10)
    if kind < 4:
        lines = [line for line in lines if not line.startswith("past") or chance.random() < 0.7]
        if kind < 3:
            return "\n".join(lines).encode()
    place = chance.randrange(len(lines))
    words = lines[place].split(" ")
    new = chance.choice(["0", "1", "2", "3:2", "0:1", "1:0", "0:0", "00", "4294967295",
                         "4294967296", "x", "", "past",
                         "1:", ":1", "1:2:3", "1-2", "past 0", "-1", "99:1", "1:99", "entries",
                         "proof", "01:2"])
    if kind == 4:
        words[chance.randrange(len(words))] = new
    elif kind == 5:
        words.insert(chance.randrange(len(words) + 1), new)
    elif kind == 6 and len(words) > 1:
        del words[chance.randrange(len(words))]
    elif kind == 7 and len(words) > 2:
        first = chance.randrange(1, len(words) - 1)
        words[first:first + 2] = words[first + 1], words[first]
    lines[place] = " ".join(words)
    if kind == 8:
        lines.insert(chance.randrange(len(lines) + 1), lines[place])
    elif kind == 9:
        return flip(chance, proof) if chance.random() < 0.7 else proof[:chance.randrange(len(proof)
                                                                                         + 1)]
    return "\n".join(lines).encode()


def other_vias(chance, survivors):
    """A proof with other V than the canonical one has."""
    lines = ["proof 1", "entries %d" % len(survivors.entries)]
    for place in range(len(survivors.entries)):
        if chance.random() < 0.2:
            continue
        words, ticked = ["past %d" % place], [place]
        for ancestor in sorted(survivors.ancestors[place], reverse=True):
            vias = [one for one in ticked if ancestor in survivors.parents[one]]
            words.append("%d:%d" % (ancestor, chance.choice(vias)))
            ticked.append(ancestor)
        if chance.random() < 0.02:
            words.pop()
        lines.append(" ".join(words) or "past")
    return ("\n".join(lines) + "\n").encode()


def case_proofs(chance):
    world = random_world(chance)
    files = {"r": world.roster.text, "u": RuleMaker(chance).text(), **world_logs(chance, world)}
    names = [name for name in files if name.endswith(".log")]
    commands = [["prove", "r", "made"] + names, ["check", "r", "standard", "made"] + names]
    try:
        survivors = survivors_of(world, [files[name] for name in names])
    except texts.Refused:
        return Case(files, commands)
    proof = proofs.canonical_proof(survivors)
    for place in range(14):
        name = "p%d" % place
        files[name] = other_vias(chance, survivors) if chance.random() < 0.3 else proof
        if chance.random() < 0.75:
            files[name] = damaged_proof(chance, files[name])
        commands.append(["check", "r", chance.choice(["standard", "u"]), name] + names)
    return Case(files, commands)


def survivors_of(world, log_files):
    return verdicts.gather([logs.read_log(octets, world.roster) for octets in log_files])


def case_make(chance):
    return Case({}, [["make", str(chance.choice([1, 2, 3, 9, 10, 11, 800,
                                                 chance.randrange(1, 801)]))]
                     for _ in range(3)])


def case_demo(chance):
    return Case({}, [["demo", str(chance.randrange(1, 40))]])


OFFICE_SEED = bytes(range(32))


def office_signature(chance, key_types, low_types, message):
    top = signatures.SigningKey(key_types, b"i" * 16, b"s" * 32)
    number = chance.choice([0, 1, 31, 32, 33, 40])
    signature = signatures.sign_two_levels(top, low_types, number, message)
    return signatures.two_level_key(top), signature


def case_endorsed(chance):
    files, commands = {}, []
    for place in range(6):
        types = [(5, chance.choice([1, 1, 1, 2])) for _ in "12"]
        message = bytes(chance.randrange(256) for _ in range(chance.choice([0, 1, 50])))
        key, signature = office_signature(chance, types[0], types[1], message)
        kind = chance.randrange(8)
        if kind == 0:
            key = flip(chance, key)
        elif kind == 1:
            signature = flip(chance, signature)
        elif kind == 2:
            message = flip(chance, message)
        elif kind == 3:
            signature = chance.choice([signature[:-1], signature + b"\0", b"", signature[4:],
                                       b"\0\0\0\0" + signature[4:]])
        elif kind == 4:
            place_ = chance.choice([4, 8, 12, len(signature) - 164])
            number = bytes([0, 0, 0, chance.randrange(8)])
            signature = signature[:place_] + number + signature[place_ + 4:]
        elif kind == 5:
            place_ = chance.choice([0, 4, 8])
            key = key[:place_] + bytes([0, 0, 0, chance.randrange(8)]) + key[place_ + 4:]
        files.update({"k%d" % place: key, "m%d" % place: message, "s%d" % place: signature})
        words = ["k%d" % place, "m%d" % place, "s%d" % place]
        if chance.random() < 0.1:
            words[chance.randrange(3)] = "none"
        commands.append(["endorsed"] + words)
    return Case(files, commands)


def case_office(chance):
    files = {"f": b"text", "o.office": signatures.write_office(OFFICE_SEED,
                                                           chance.choice([0, 1, 31, 1023, 500]))}
    commands = [["endorse", "o", "f"], ["endorse", "o", "f"], ["endorse", "o", "none"],
                ["endorse", "none", "f"],
                ["office", "o", "00" * 32], ["endorse", "o", "o.office"], ["endorse", "bad", "f"],
                ["endorse", "spent", "none"], ["office", "o2", OFFICE_SEED.hex().upper()]]
    files["spent.office"] = signatures.write_office(OFFICE_SEED, 32768)
    good = signatures.write_office(OFFICE_SEED, 7)
    files["bad.office"] = chance.choice([good + b"\n", good[:-1], b"",
                                         good.replace(b"1:7", b"2:07"), flip(chance, good),
                                         good.replace(b"1:7", b"5:32769"),
                                         good.replace(b"1:7", b"0:")])
    if chance.random() < 0.5:
        commands.insert(0, ["office", "n", OFFICE_SEED.hex()])
    return Case(files, commands)


def case_other_files(chance):
    """Files that are absent, folders, or read in another order."""
    world = random_world(chance)
    files = {"r": world.roster.text, "badr": b"x", "u": RuleMaker(chance).text(), "badu": b"(rule",
             "l.log": world.log(), "badl": b"(3:log", "badp": b"proof 2\n", "empty": b"",
             "s": random_script(chance)}
    names = list(files) + ["none", "standard", "folder", "no/file", "r/x"]
    commands = []
    for _ in range(10):
        command = chance.choice(["gaps", "play", "repair", "order", "audit", "watch", "check",
                                 "prove", "endorsed"])
        form = auditorium.COMMANDS[command][1].split(" ")
        if form[-1] == "logs":
            form[-1:] = ["name"] * chance.choice([1, 2, 3])
        words = ["sv.0" if one == "entry" else chance.choice(names) for one in form]
        if command in ("play", "repair"):
            words[1] = chance.choice(["p", "new/p"])
        if command == "prove":
            words[1] = chance.choice(["proof", "new/p"])
        commands.append([command] + words)
    return Case({**files, "folder/": b""}, commands)


KINDS = {name[5:]: value for name, value in list(globals().items()) if name.startswith("case_")}
WEIGHTS = {"make": 0.2, "demo": 0.01, "office": 0.02, "endorsed": 1, "play": 1, "run": 0.7,
           "script": 1, "usage": 0.7,
           "rulestext": 1.5, "other_files": 0.7, "rosters": 0.7, "gaps": 0.7}


# Running and comparing.

def write_case(folder, files):
    os.makedirs(folder)
    for name, octets in files.items():
        path = os.path.join(folder, name)
        if name.endswith("/"):
            os.makedirs(path)
        elif isinstance(octets, tables.Special):
            octets.make(path)
        else:
            octets, size = octets if isinstance(octets, tuple) else (octets, len(octets))
            with open(path, "wb") as file:
                file.write(octets)
                file.truncate(size)


def snapshot(folder, keeping=None):
    """The modes and the octets of all files; `keeping` has the octets that are kept once."""
    found = {}
    for base, folders, names in os.walk(folder):
        for name in names + folders:
            path = os.path.join(base, name)
            state = os.lstat(path)
            octets = octets_of(path, state) if stat.S_ISREG(state.st_mode) else None
            if keeping is not None:
                octets = keeping.setdefault(octets, octets)
            found[os.path.relpath(path, folder)] = (state.st_mode, octets)
    return found


OCTETS = {}
LARGE = 8 * 1024 * 1024


def octets_of(path, state):
    """The octets of a file, or their digest if they are many; none is read twice as it is."""
    known = (path, state.st_ino, state.st_mtime_ns, state.st_size)
    if known not in OCTETS:
        with open(path, "rb") as file:
            octets = file.read()
        OCTETS[known] = octets if len(octets) < LARGE else signatures.H(octets)
    return OCTETS[known]


def run_program(program, folder, words, seconds):
    done = subprocess.run([program] + words, cwd=folder, capture_output=True, timeout=seconds,
                          stdin=subprocess.DEVNULL)
    return done.stdout, done.returncode


def run_second(folder, words):
    home = os.getcwd()
    os.chdir(folder)
    try:
        output, status = auditorium.answer(words)
        return output.encode(), status
    except Exception as error:
        return ("%s: %s" % (type(error).__name__, error)).encode(), "exception"
    finally:
        os.chdir(home)


def check_of_run(expected, second_folder, words):
    """Faults of a run, or the difference of its refusal from that of a play."""
    output, status, written = expected
    script, prefix = words[1:]
    if status in (0, 7):
        try:
            read = scripts.read_script(open(os.path.join(second_folder, script), "rb").read())
            names = [prefix + ".roster"] + ["%s.%s.log" % (prefix, machine.name)
                                            for machine in read.machines]
            faults = check_run.faults_of(read, {name: written[name][1] for name in names}, prefix,
                                         output.decode())
        except Exception as error:
            faults = ["%s: %s" % (type(error).__name__, error)]
        if status != (7 if b"\nundone " in output else 0):
            faults.append("status %s" % status)
        return "; ".join(faults)
    other = run_second(second_folder, ["play"] + words[1:])
    return "" if (output, status) == other else "%r against %r" % ((output, status), other)


def short(octets):
    text = octets.decode(errors="replace")
    return text if len(text) < 600 else text[:600] + ".."


def expected_of(program, folder, words, seconds, keeping=None):
    """What the program prints, its status, and all files afterwards."""
    output, status = run_program(program, folder, words, seconds)
    return output, status, snapshot(folder, keeping)


def compare_command(expected, folder, words):
    """A text that says how this implementation differs in a folder, empty if it agrees."""
    if words[:1] == ["run"] and len(words) == 3:
        return check_of_run(expected, folder, words)
    output, status, files_ = expected
    second_output, second_status = run_second(folder, words)
    if (output, status) != (second_output, second_status):
        return "status %s against %s\n%s\nagainst\n%s" % (
            status, second_status, *first_difference(short(output), short(second_output)))
    second_files = snapshot(folder)
    if files_ != second_files:
        names = [name for name in sorted(set(files_) | set(second_files))
                 if files_.get(name) != second_files.get(name)]
        return "files differ: " + " ".join(names)
    return ""


def first_difference(first, second):
    if first == second:
        return first[:80], second[:80]
    lines, others = first.split("\n"), second.split("\n")
    place = next((place for place, pair in enumerate(zip(lines, others)) if pair[0] != pair[1]),
                 min(len(lines), len(others)))
    return "\n".join(lines[place:place + 3]), "\n".join(others[place:place + 3])


def case_of(kind, seed, index):
    if kind in tables.TABLES:
        return Case(*tables.TABLES[kind]())
    return KINDS[kind](random.Random("%s:%s:%s" % (seed, kind, index)))


def run_case(task, limit):
    """Run one case: the number of its commands, its differences, and the time.

    There is no number where a command of the program takes longer than the limit.
    """
    program, seed, kind, index, keep = task
    begun = time.process_time()
    OCTETS.clear()
    case = case_of(kind, seed, index)
    root = tempfile.mkdtemp(prefix="compare-", dir=os.environ.get("COMPARE_SCRATCH"))
    count, differences = len(case.commands), []
    try:
        folders = [os.path.join(root, "program"), os.path.join(root, "second")]
        for folder in folders:
            write_case(folder, case.files)
        for words in case.commands:
            expected = expected_of(program, folders[0], words, limit)
            difference = compare_command(expected, folders[1], words)
            if difference:
                differences.append((words, difference))
        if differences and keep:
            target = os.path.join(keep, "%s-%s-%s" % (kind, seed, index))
            shutil.rmtree(target, ignore_errors=True)
            write_case(target, case.files)
    except subprocess.TimeoutExpired:
        count, differences = None, []
    finally:
        shutil.rmtree(root, ignore_errors=True)
    return count, differences, time.process_time() - begun


def tasks_of(program, seed, kinds, keep):
    """The tables that are asked for, and then endless tasks of random kinds by their weights."""
    for kind in kinds:
        if kind in tables.TABLES:
            yield program, seed, kind, 0, keep
    chosen = [kind for kind in kinds if kind in KINDS]
    chance, weights = random.Random(seed), [WEIGHTS.get(kind, 2) for kind in chosen]
    for index in itertools.count() if chosen else ():
        yield program, seed, chance.choices(chosen, weights)[0], index, keep


# Misreadings: what PROGRAM does is kept, and compared with this implementation after a small edit.

MISREAD_CASES = 9
MISREAD_COMMANDS = 250
MISREAD_SECONDS = 200


def keep_expected(program, seed, kind, keeping):
    """Of a kind some cases, and what the program does with their commands."""
    kept = []
    for index in range(1 if kind in tables.TABLES else MISREAD_CASES):
        case = case_of(kind, seed, index)
        case = Case(case.files, case.commands[:MISREAD_COMMANDS])
        with tempfile.TemporaryDirectory(dir=os.environ.get("COMPARE_SCRATCH")) as root:
            folder = os.path.join(root, "program")
            write_case(folder, case.files)
            expected = [expected_of(program, folder, words, LATE_TIMEOUT, keeping)
                        for words in case.commands]
            kept.append((case, expected))
    return kept


def apply_edit(module, old, new):
    """Load the modules of this implementation anew, one of them edited."""
    for name in MODULES[:-1]:
        path = os.path.join(HERE, name + ".py")
        with open(path) as file:
            text = file.read()
        if name + ".py" == module:
            text = text.replace(old, new)
        loaded = types.ModuleType(name)
        loaded.__file__ = path
        sys.modules[name] = globals()[name] = loaded
        exec(compile(text, path, "exec"), loaded.__dict__)


def replay(kept, kind):
    """The first kept command that differs, or how many there are."""
    count = 0
    for (files_, commands), expected in kept[kind]:
        with tempfile.TemporaryDirectory(dir=os.environ.get("COMPARE_SCRATCH")) as root:
            folder = os.path.join(root, "second")
            write_case(folder, files_)
            for words, one in zip(commands, expected):
                count += 1
                if compare_command(one, folder, words):
                    return "found", "%s, %s, command %d" % (kind, " ".join(words)[:60], count)
    return "not found", "%s, %d commands" % (kind, count)


def try_misreading(kept, title, module, old, new, kind):
    """Is it found? It is tried in a process of its own, where it may use a limited time."""
    child = os.fork()
    if child == 0:
        resource.setrlimit(resource.RLIMIT_CPU, (MISREAD_SECONDS, MISREAD_SECONDS))
        word, what = "failed", ""
        try:
            apply_edit(module, old, new)
            word, what = replay(kept, kind)
        finally:
            print("%s: %s (%s)" % (word, title, what), flush=True)
            os._exit(0 if word == "not found" else 1)
    status = os.waitpid(child, 0)[1]
    if os.WIFSIGNALED(status):
        print("found: %s (it didn't end)" % title, flush=True)
    return status != 0


def misread(program, seed, some):
    """Apply each misreading in turn, or those whose titles begin with one of some words."""
    sys.path.insert(0, os.path.join(HERE, "misread"))
    misreadings = [one for one in importlib.import_module("misreadings").MISREADINGS
                   if not some or one[0].startswith(tuple(some.split("|")))]
    for title, module, old, _, _ in misreadings:
        with open(os.path.join(HERE, module)) as file:
            if file.read().count(old) != 1:
                raise SystemExit("the old text isn't there once: " + title)
    kept, keeping, found, differing = {}, {}, 0, []
    for title, module, old, new, kinds in misreadings:
        for kind in kinds.split(","):
            if kind not in kept:
                kept[kind] = keep_expected(program, seed, kind, keeping)
                if try_misreading(kept, "no misreading", "", "", "", kind):
                    differing.append(kind)
            if try_misreading(kept, title, module, old, new, kind):
                found += 1
                break
    print("without a misreading: differences in %s" % (", ".join(differing) or "none"))
    print("found: %d of %d" % (found, len(misreadings)))
    return 0 if found == len(misreadings) and not differing else 1


def main():
    parser = argparse.ArgumentParser()
    parser.add_argument("program")
    parser.add_argument("seed", nargs="?", default="1")
    parser.add_argument("count", nargs="?", type=int, default=1000)
    parser.add_argument("--misread", action="store_true",
                        help="compare misreadings in place of random cases")
    parser.add_argument("--kinds")
    parser.add_argument("--only")
    parser.add_argument("--keep", default="differences")
    parser.add_argument("--seconds", type=int, default=10 ** 9, help="end after this time")
    options = parser.parse_args()
    if options.misread:
        return misread(os.path.abspath(options.program), options.seed, options.only)
    program = os.path.abspath(options.program)
    keep = os.path.abspath(options.keep)
    kinds = options.kinds.split(",") if options.kinds else list(KINDS)
    if kinds == ["tables"]:
        kinds = list(tables.TABLES)
    if options.only:
        kind, index = options.only.split(":")
        tasks = [(program, options.seed, kind, int(index), keep)]
    else:
        tasks = tasks_of(program, options.seed, kinds, keep)
    return Report(options, keep).run(tasks)


class Report:
    """Runs cases and counts; a case that takes too long is run again at the end, with more time."""

    def __init__(self, options, keep):
        self.options, self.keep = options, keep
        self.commands, self.differing = collections.Counter(), collections.Counter()
        self.spent, self.late, self.timed_out = collections.Counter(), [], 0

    def run(self, tasks):
        ends = time.time() + self.options.seconds
        for task in tasks:
            self.run_one(task, TIMEOUT)
            random_commands = sum(self.commands[kind] for kind in KINDS)
            enough = task[2] in KINDS and random_commands >= self.options.count
            if enough or time.time() > ends:
                break
        for task in self.late:
            self.run_one(task, LATE_TIMEOUT)
        for kind in sorted(self.commands):
            print("%s: %d commands, %d differ (%.1f s)" % (
                kind, self.commands[kind], self.differing[kind], self.spent[kind]))
        print("all: %d commands, %d differ, %d time-outs" % (
            self.commands.total(), self.differing.total(), self.timed_out))
        return 1 if self.differing.total() + self.timed_out else 0

    def run_one(self, task, limit):
        kind, index = task[2:4]
        again = "compare.py PROGRAM %s 1 --only %s:%s" % (self.options.seed, kind, index)
        count, differences, seconds = run_case(task, limit)
        if count is None and limit == TIMEOUT:
            self.late.append(task)
        elif count is None:
            self.timed_out += 1
            print("time-out: " + again, flush=True)
        else:
            self.commands[kind] += count
            self.differing[kind] += len(differences)
            self.spent[kind] += seconds
        for words, difference in differences:
            print("difference: " + again)
            print("  files in %s/%s-%s-%s, words %s" % (self.keep, kind, self.options.seed, index,
                                                        " ".join(words)[:300]))
            print("  " + difference.replace("\n", "\n  "), flush=True)


if __name__ == "__main__":
    sys.exit(main())
