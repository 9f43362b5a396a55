"""Fixed cases for compare.py: limits, and orders of causes."""
import itertools
import os

import entries
import playing
import scripts
import signatures
import texts

HEAD = ["seed 00", "key w1 h5", "log 40", "link 9"]
MACHINES = ["machine sv supervisor", "machine b1 booth"]
BALLOT = "07" * 32


def script(*lines, head=None, machines=None):
    return "\n".join((HEAD if head is None else head) + (MACHINES if machines is None else machines)
                     + list(lines)).encode() + b"\n"


def script_case(name_texts, command="play"):
    """A case that plays each of some scripts."""
    files = {"s%d" % place: text for place, text in enumerate(name_texts)}
    return files, [[command, name, "p"] for name in files]


def numbers_of(form, *values):
    return [form % value for value in values]


def table_script_limits():
    found = []
    for line in (numbers_of("log %s", 0, 1, 4096, 4097, "01", 4294967296)
                 + numbers_of("link %s", 0, 1, 4096, 4097)
                 + ["seed", "seed ", "seed 0", "seed " + "0" * 64, "seed " + "0" * 65, "seed "
                    + "0" * 66, "seed 0G",
                    "key w1 h5 ", "key w3 h5", "key w1 h6", "key h5 w1"]):
        kind = line.split(" ")[0]
        found.append(script(head=[line if old.startswith(kind) else old for old in HEAD]))
    for line in (numbers_of("do sv authorise b1 %s", 0, 1, 4294967295, 4294967296, "")
                 + numbers_of("stop sv %s", 0, 4096, 4097)
                 + numbers_of("lose sv %s b1", 0, 4095, 4096)
                 + numbers_of("step hear b1 sv %s", 0, 4095, 4096)):
        found.append(script(line))
    for version in (0, 1, 2, 3):
        found.append(script(head=["version %d" % version] + HEAD))
    for count in (16, 17):
        found.append(script(machines=["machine sv supervisor"]
                            + ["machine b%d booth" % i for i in range(count - 1)]))
    sixteen = ["machine sv supervisor"] + ["machine b%d booth" % i for i in range(15)]
    for line in ("machine BAD booth", "machine b1 booth", "machine c both", "machine c"):
        found.append(script(machines=sixteen + [line]))
    for length in (16, 17):
        found.append(script(machines=["machine %s supervisor" % ("a" * length)]))
    return script_case(found)


def table_script_counts():
    found = []
    for line, most in (("do sv open", 4096), ("lose sv 1 b1", 65536), ("step act b1", 131072)):
        found += [script(*[line] * most), script(*[line] * (most + 1)),
                  script(*[line] * (most + 1), "x")]
        found.append(script(*[line] * most, line + " "))
    return script_case(found)


def table_script_sizes():
    found = []
    for size in (4194303, 4194304, 4194305):
        text = script()
        found.append(text + b"#" * (size - len(text)))
    return script_case(found)


LINES = [("version 1", 0), ("seed 00", 0), ("key w1 h5", 0), ("log 9", 0), ("link 9", 0),
         ("machine b2 booth", 6),
         ("do sv open", 8), ("do sv authorise b1 1", 8), ("do sv override 1 cast", 8),
         ("do b1 activate 1", 8),
         ("do b1 commit 1 " + BALLOT, 8), ("do b1 challenge 1 " + BALLOT, 8), ("lose sv 1 b1", 8),
         ("stop sv 1", 8),
         ("step act sv", 8), ("step hear b1 sv 1", 8), ("step stop b1", 8)]
WORDS = ["", "x", "b1", "sv", "B1", "7", "07", "4294967296", "5000", "0", "open", "cast", "booth"]


def table_script_words():
    """Each word of each kind of line in place of another, and each two of them."""
    found = []
    for line, _ in LINES:
        words = line.split(" ")
        for place in range(1, len(words)):
            for word in WORDS:
                found.append(with_line(" ".join(words[:place] + [word] + words[place + 1:])))
        for first, second in itertools.combinations(range(1, len(words)), 2):
            for pair in itertools.product(["", "B1", "b9", "5000000000", "70000", "x"], repeat=2):
                changed = list(words)
                changed[first], changed[second] = pair
                found.append(with_line(" ".join(changed)))
    return script_case(found)


def with_line(line):
    kinds = ["version", "seed", "key", "log", "link", "machine"]
    kind = line.split(" ")[0]
    lines = ["version 2"] + HEAD + MACHINES
    if kind not in kinds:
        return "\n".join(lines + [line]).encode()
    if kind == "machine":
        return "\n".join(lines + [line]).encode()
    return "\n".join([line if old.split(" ")[0] == kind else old for old in lines]).encode()


def table_script_orders():
    """Lines of all kinds in all places, and supervisors of other numbers."""
    lines = ["version 1"] + HEAD + MACHINES + ["do sv open", "lose sv 0 b1", "stop sv 9",
                                               "step act sv"]
    found = []
    for place in range(len(lines)):
        found.append("\n".join(lines[:place] + lines[place + 1:]).encode())
        found.append("\n".join(lines[:place]).encode())
        found.append("\n".join(lines[:place]).encode() + b"\n")
        for other in range(len(lines)):
            found.append("\n".join(lines[:place] + [lines[other]] + lines[place:]).encode())
    for roles in ("", "b", "bb", "ss", "sbs", "s"):
        machines = ["machine m%d %s" % (i, {"s": "supervisor", "b": "booth"}[role]) for i,
                    role in enumerate(roles)]
        for tail in ([], ["# x"], ["x"], ["do x"], ["do m0 what"], ["log 3"], ["machine m0 booth"],
                     ["\t"]):
            found.append(script(*tail, machines=machines))
    found += [script("step act sv", "do sv what"), script("step act sv", "do sv"),
              script("do sv what", "log 1")]
    found += [b"", b"\n", b"\n\n", b"#", b"# \xff\n" + script(), script() + b"#\xff", b" "
              + script()]
    found += [script("do"), script("do "), script("do sv"), script("do sv "), script("step"),
              script("step "),
              script("step x"), script("do sv x y z"), script("stop sv 1", "stop sv 2"),
              script("stop sv 1", "stop sv x"),
              script("lose sv 0 sv"), script("lose sv 9999 sv"), script("lose b9 9999 b9"),
              script("lose sv x sv")]
    return script_case(found)


def table_play_causes():
    """Each cause against a deed before the next ones."""
    b1 = ["activate 1", "activate 1", "commit 1 " + BALLOT, "commit 1 " + BALLOT, "cast 1 "
          + BALLOT,
          "challenge 1 " + BALLOT, "cancel 1", "activate 2"]
    found = []
    for says in ("cast", "cancel"):
        for last in ("close", "authorise b1 2", "override 1 cast", "override 1 cancel",
                     "authorise b1 1"):
            found.append(full_script(["open", "authorise b1 1", "override 1 " + says, last], []))
            found.append(full_script(["open", "authorise b1 1", "override 1 " + says, last],
                                     ["activate 1"]))
    for last in b1:
        for middle in (["cancel 1"], ["cancel 1", "activate 1"]):
            found.append(full_script(["open", "authorise b1 1"], middle + [last]))
    for last in b1[1:]:
        for middle in (["activate 1"], ["activate 1", "commit 1 " + BALLOT],
                       ["activate 1", "commit 1 " + BALLOT, "cast 1 " + BALLOT],
                       ["activate 1", "cancel 1"], ["activate 1", "commit 1 " + BALLOT,
                                                    "challenge 1 " + BALLOT]):
            found.append(full_script(["open", "authorise b1 1"], middle + [last]))
            for late in (["override 1 cast"], ["override 1 cancel"], ["close"], ["authorise b1 2"],
                         ["authorise b2 1"]):
                found.append(full_script(["open", "authorise b1 1"] + late, middle + [last],
                                         late=True))
    for first in itertools.permutations(["open", "authorise b1 1", "override 1 cast",
                                         "override 1 cancel", "close"], 3):
        for deeds in (b1[:1], b1[2:3], b1[4:5], b1[5:6], b1[6:7]):
            found.append(full_script(first, deeds))
    return script_case(found)


def table_overrides():
    """What comes after an override, of either kind, and after a session that has ended."""
    commit = "commit 1 " + BALLOT
    ends = ["cast 1 " + BALLOT, "challenge 1 " + BALLOT, "cancel 1"]
    found = []
    for says in ("cast", "cancel"):
        overridden = ["open", "authorise b1 1", "override 1 " + says]
        for deed in ends:
            found.append(full_script(overridden, ["activate 1", commit, deed], late=True))
        for deed in ("activate 1", commit):
            found.append(full_script(overridden, ["activate 1", deed], late=True))
        for last in ("close", "override 1 cast", "override 1 cancel"):
            found.append(full_script(overridden + [last], ["activate 1", commit]))
            found.append(full_script(overridden + [last], []))
    for last in (commit, ends[0], "activate 1"):
        found.append(full_script(["open", "authorise b1 1"], ["cancel 1", last]))
    found.append(full_script(["open", "authorise b1 1", "authorise b1 1"], []))
    for end in ends:
        for last in ("close", "override 1 cancel", "authorise b1 2"):
            booth = ["activate 1", commit, end]
            found.append(full_script(["open", "authorise b1 1", last], booth))
    return script_case(found)


def full_script(supervisor, booth, late=False):
    lines = ["do sv " + deed for deed in supervisor] + ["do b1 " + deed for deed in booth]
    lines += ["step act sv", "step hear b1 sv 0", "step act sv", "step hear b1 sv 1"]
    for number in range(len(booth) - late):
        lines += ["step act b1", "step hear sv b1 %d" % number]
    lines += ["step act sv", "step hear b1 sv 2", "step act b1", "step act sv"]
    second = ["machine b2 booth"] if "authorise b2 1" in supervisor else []
    return script(*lines, head=["version 2"] + HEAD, machines=MACHINES + second)


def table_play_limits():
    """Full, Spent, and stopped machines."""
    many = ["do sv open", "do sv authorise b1 1"] + ["do sv override 1"] * 40
    found = []
    for deed in ("open", "authorise b1 1", "close", "override 9"):
        head = HEAD[:2] + ["log 1"] + HEAD[3:]
        found.append(script("do sv open", "do sv " + deed, "step act sv", "step act sv", head=head))
    for log in (1, 2, 31, 32, 33, 40):
        head = HEAD[:2] + ["log %d" % log] + HEAD[3:]
        found.append(script(*many, *["step act sv"] * 45, *["step hear b1 sv %d" % i
                                                            for i in range(40)], head=head))
        found.append(script(*many, *["step act sv"] * 9, "step stop sv", "step act sv",
                            "step hear b1 sv 3", head=head))
    return script_case(found)


def repair_script(*steps):
    deeds = ["do sv open", "do sv authorise b1 1", "do sv authorise b2 2", "do sv close",
             "do b1 activate 1",
             "do b1 commit 1 " + BALLOT, "do b1 cast 1 " + BALLOT, "do b2 activate 2",
             "do b2 cancel 2"]
    return script(*deeds, *steps, machines=MACHINES + ["machine b2 booth"])


def table_repairs():
    acts = ["step act sv"] * 3
    tails = [[], ["step stop sv"], ["step stop b1"], ["step stop b2"],
             ["step stop sv", "step stop b1"]]
    found = []
    for tail in tails:
        found.append(repair_script(*acts, "step hear b1 sv 2", *tail))
        found.append(repair_script(*acts, "step hear b1 sv 2", "step hear b2 sv 2", *tail))
        found.append(repair_script(*acts, "step hear b1 sv 1", "step act b1", "step hear b2 b1 0",
                                   *tail))
        found.append(repair_script(*acts, "step hear b1 sv 1", "step act b1", "step act b1",
                                   "step hear b2 b1 1", *tail))
        found.append(repair_script(*acts, "step hear b1 sv 1", "step act b1", "step act b1",
                                   "step hear sv b1 1",
                                   "step hear b2 b1 1", *tail, "step act sv"))
    return script_case(found, "repair")


ODD = [b"", b"(", b")", b"[", b" ", b"0", b"0:", b"00", b"01:", b"9", b"1:", b"262144:", b"262145",
       b"262145:", b"999999:",
       b"1234567:", b"2621440", b"(" * 8, b"(" * 9, b"(" * 8 + b"[", b"(" * 8 + b")" * 8, b"(" * 8
       + b"0:" + b")" * 9,
       b"(" + b"0:" * 16384, b"(" + b"0:" * 16384 + b")", b"(" + b"0:" * 16384 + b"0", b"("
       + b"0:" * 16384 + b"(",
       b"(" + b"0:" * 16384 + b"[", b"(" + b"0:" * 16384 + b"x", b"(" * 8 + b"0:" * 16384 + b"(",
       b"(" * 8 + b"0:" * 16384 + b"7", b"(7" * 7 + b"(", b"1a", b"1]", b"1(", b"1)", b"0)", b"0[",
       b"0x", b"a:", b":", b"-1:",
       b"+1:", b"\x00", b"\xff", b"262144:" + b"x" * 262144, b"262144:" + b"x" * 262143, b"(()",
       b"()()", b"({)", b"\n"]


def table_canonical():
    files, commands = {"r": ROSTER[0].text}, []
    for place, text in enumerate(ODD):
        files["h%d" % place] = text
        files["l%d" % place] = b"(3:log1:11:0)" + text
        files["m%d" % place] = b"(3:log1:11:0)(4:sent" + text
        commands += [["gaps", "h%d" % place], ["gaps", "l%d" % place], ["gaps", "m%d" % place]]
        commands.append(["audit", "h%d" % place, "standard", "l0"])
    return files, commands


def example_roster():
    play = playing.Play(scripts.read_script(script(machines=MACHINES + ["machine b2 booth"])))
    return play.roster, [player.key for player in play.players]


ROSTER = example_roster()


def deed_value(*words):
    """The value of a deed's text, or of one that is none."""
    return [word if isinstance(word, bytes) else str(word).encode() for word in words]


def entry_of(text):
    return entries.read_entry(texts.read_text(text)[0])


def sealed(maker=1, number=0, stamp=1, names=(), deed=("opened",), version=1, election=None,
           signer=None, index=None):
    roster, keys = ROSTER
    body = entries.write_body(version, election or roster.election, maker, number, stamp,
                              list(names), deed_value(*deed))
    signature = keys[maker % 3 if signer is None else signer].sign((number if index is None
                                                                    else index) % 32, body)
    return entries.write_entry(body, signature)


FAULTS = {"shape": {"version": 3}, "names": {"names": [b"b" * 32, b"a" * 32]},
          "election": {"election": b"e" * 32},
          "maker": {"maker": 3}, "index": {"index": 5}, "signature": {"signer": 2},
          "number": {"number": 32},
          "same": {"names": [b"a" * 32, b"a" * 32]}, "deed": {"deed": ("challenge", 1, b"b" * 32)},
          "how": {"deed": ("override", 1), "version": 2}}


def log_of(*texts_, owner=1):
    return b"(3:log1:11:%d)" % owner + b"".join(b"(3:got" + text + b")" for text in texts_)


def table_entry_causes():
    """Each set of one, two or three faults in an entry."""
    records = []
    for count in (1, 2, 3):
        for chosen in itertools.combinations(FAULTS, count):
            words = {}
            for fault in chosen:
                words.update(FAULTS[fault])
            records.append(sealed(**words))
    good = sealed()
    signature = entry_of(good).signature
    for bad in (b"", signature[:3], signature[:4], signature[:-1], signature + b"x"):
        records.append(entries.write_entry(entry_of(good).body, bad))
    for place in (4, len(signature) - 164):
        for value in range(8):
            changed = signature[:place] + value.to_bytes(4, "big") + signature[place + 4:]
            records.append(entries.write_entry(entry_of(good).body, changed))
    files = {"r": ROSTER[0].text, "l": log_of(*records), "g": log_of(good, good)}
    return files, [["audit", "r", "standard", "l"], ["gaps", "l"],
                   ["audit", "r", "standard", "g", "l"],
                   ["watch", "r", "standard", "l", "g"]]


def table_roster_causes():
    machines = [[machine.name.encode(), machine.role.encode(), machine.key]
                for machine in ROSTER[0].machines]
    many = [[b"n%d" % place, b"booth", b"k" * 56] for place in range(14)]
    edits = {"plain": machines, "many": machines + many, "sixteen": machines + many[:13],
             "none": [], "role": [[b"a", b"both", b"k" * 56]]}
    files, commands = {"l": log_of()}, []
    for edit, members in edits.items():
        for extra in itertools.product((0, 1), repeat=5):
            chosen = [list(member) for member in members]
            if extra[0]:
                chosen.append([b"BAD", b"booth", b"k" * 56])
            if extra[1]:
                chosen.append([b"sv", b"booth", b"k" * 56])
            if extra[2]:
                chosen.append([b"tt", b"supervisor", b"k" * 56])
            if extra[3]:
                chosen.append([b"uu", b"booth", b"k" * 55])
            name = "%s%s" % (edit, "".join(map(str, extra)))
            files[name] = texts.write_text([b"roster", b"1"] + chosen) + b"x" * extra[4]
            commands.append(["audit", name, "standard", "l"])
    text = ROSTER[0].text
    for place, cut in enumerate((0, 1, 2, 9, 10, 40, len(text) - 1)):
        files["cut%d" % place] = text[:cut]
        commands.append(["audit", "cut%d" % place, "standard", "l"])
    return files, commands


RULES = [
    "(rule R true)" * 2, "", " ", "(rule " + "a" * 16 + " true)", "(rule " + "a" * 17 + " true)",
         "(rule R true",
    "".join("(rule R%d true)" % i for i in range(256)), "".join("(rule R%d true)" % i
                                                                for i in range(257)),
    "".join("(rule R%d true)" % i for i in range(256)) + "x",
         "".join("(rule R%d true)" % i for i in range(256)) + "\x01",
    "(rule R (and %s))" % " ".join(["true"] * 64), "(rule R (or %s))" % " ".join(["true"] * 65),
         "(rule R (and))",
    "(rule R %strue%s)" % ("(not " * 31, ")" * 31), "(rule R %strue%s)" % ("(not " * 32, ")" * 32),
    "(rule R %s(unknown" % ("(not " * 31), "(rule R %s) " % ("(not " * 31),
         "(rule R %s(and %s" % ("(not " * 30, "true " * 64 + "("),
    "(rule R (every a entry (every b entry (every c entry (every d entry true)))))",
    "(rule R (every a entry (every b entry (every c entry (every d entry (some e entry true))))))",
    "(rule R (every a entry (every b entry (every c entry (every d entry (some a unknown true))))))",
    "(rule R (every a entry (every a entry true)))",
         "(rule R (every a entry (every a unknown true)))",
    "(rule R (every a unknown true))", "(rule R (every a ( true))", "(rule R (every a ) true))",
         "(rule R (every A entry true))",
    "(rule R (every ab entry true))", "(rule R (every a entry before a true))",
         "(rule R (every a entry before b true))",
    "(rule R (every a entry (some b entry before b true)))",
         "(rule R (every a entry (some b entry before a true)))",
    "(rule R (every a entry (some b entry after a true)))", "(rule R (every a entry (same a b)))",
    "(rule R (every a entry (same b B)))", "(rule R (every a entry (kind a unknown)))",
         "(rule R (every a entry (is a cast)))",
    "(rule R (every a entry (= a.number 4294967295)))",
         "(rule R (every a entry (= a.number 4294967296)))",
    "(rule R (every a entry (= a.number 00)))", "(rule R (every a entry (= a.session 1)))",
         "(rule R (every a cast (= a.session 1)))",
    "(rule R (every a cast (= a.maker a.session)))", "(rule R (every a cast (< a.maker a.maker)))",
    "(rule R (every a cast (< a.ballot b.maker)))", "(rule R (every a cast (< a.number b.maker)))",
    "(rule R (every a cast (< a.number a.maker)))",
         "(rule R (every a cast (< a.session a.session)))",
    "(rule R (every a authorise (= a.booth a.maker)))",
         "(rule R (every a cast (= a.booth a.maker)))",
    "(rule R (every a cast (= a. a.)))", "(rule R (every a cast (= b. a.)))",
         "(rule R (every a cast (= A.maker a.maker)))",
    "(rule R (every a cast (= 1 a)))", "(rule R (every a cast (= 1 1)))",
         "(rule R (every a cast (= 1 1 1)))", "(rule R (= 1 2))",
    "(rule true true)", "(rule R_ true)", "(rule \u00e9 true)", "(rule R \u00e9)",
         "(rule R true)\u00e9", "(rule\nR\ttrue\r)", "(Rule R true)",
    "rule R true", "((rule R true))", "(rule R (true))", "(rule R (not true true))",
         "(rule R (implies true))", "(rule R tru)",
    "(rule R (xor true true))", "(rule R (every a entry))", "(rule R (every a entry before))",
         "(rule R (every", "(rule R (every a",
    "(rule R (every a entry (next a a)))", "(rule R true)(rule S x)", "(rule S true)(rule S x)",
         "(rule S true)(rule \x02"]


def table_rules():
    files, commands = {"r": ROSTER[0].text, "l": log_of(sealed())}, []
    for place, text in enumerate(RULES):
        files["u%d" % place] = text.encode("latin-1")
        commands.append(["audit", "r", "u%d" % place, "l"])
    return files, commands


def forked(count, **words):
    """Entries that have the same number, by another session each."""
    return [sealed(deed=("activate", session), **words) for session in range(1, count + 1)]


def table_widths():
    """Rules that are just not, and just, too wide."""
    quick = "(rule A true)(rule R (some x %s (some y %s (some z %s (some u %s true)))))"
    files = {"r": ROSTER[0].text, "l128": log_of(*forked(128)), "l129": log_of(*forked(129)),
             "opened": log_of(sealed(), sealed(stamp=2))}
    commands = []
    for place, kinds in enumerate([("entry",) * 4, ("activate",) * 4,
                                   ("entry", "activate", "entry", "activate"),
                                   ("opened", "entry", "entry", "entry"),
                                   ("entry", "entry", "entry", "opened"),
                                   ("cast", "entry", "entry", "entry")]):
        files["u%d" % place] = (quick % kinds).encode()
        some = [["l128", "opened"], ["l129", "opened"]]
        for logs in some if kinds[3] == "opened" else [["l128"], ["l129"]] + some:
            commands += [["audit", "r", "u%d" % place] + logs,
                         ["check", "r", "u%d" % place, "proof"] + logs]
    files["proof"] = b"proof 1\nentries 129\n"
    files["b"] = (b"(rule R (some x entry (some y entry before x (some z entry before y"
                  b" (some u entry before x true)))))")
    files["n"] = (b"(rule R (and (some x entry (some y entry (some z entry true)))"
                  b" (some u entry true)))")
    commands += [["audit", "r", name, log] for name in "bn" for log in ("l128", "l129")]
    commands += [["watch", "r", "u0", "l128"], ["watch", "r", "u0", "l129"],
                 ["watch", "r", "u3", "l129", "opened"]]
    return files, commands


def table_watch_limit():
    many = forked(1025)
    files = {"r": ROSTER[0].text, "u": b"(rule R true)", "a": log_of(*many[:1024]),
             "b": log_of(*many[1000:]),
             "c": log_of(*many[:512], *many[:600])}
    return files, [["watch", "r", "u", "a"], ["watch", "r", "u", "a", "b"],
                   ["watch", "r", "u", "c", "c"]]


def table_strays():
    """Strays that name strays, themselves, and lost entries."""
    one = entry_of(sealed(stamp=5))
    two = entry_of(sealed(stamp=5, number=1, names=[one.digest]))
    three = entry_of(sealed(stamp=6, number=2, names=[two.digest]))
    four = entry_of(sealed(stamp=6, number=3, names=[three.digest]))
    five = entry_of(sealed(stamp=9, number=3, names=sorted([four.digest, b"x" * 32])))
    six = entry_of(sealed(maker=0, stamp=9, number=3, names=[]))
    seven = entry_of(sealed(maker=0, stamp=8, number=3, names=[], deed=("closed",)))
    eight = entry_of(sealed(maker=2, stamp=5, names=[two.digest]))
    nine = entry_of(sealed(maker=2, stamp=4, names=[eight.digest], deed=("closed",)))
    every = [one, two, three, four, five, six, seven, eight, nine]
    files, commands = {"r": ROSTER[0].text}, []
    for count in (1, 2, 3, 9):
        for chosen in itertools.combinations(every, count):
            name = "l%d" % len(files)
            files[name] = log_of(*[entry.text for entry in chosen])
            commands += [["audit", "r", "standard", name], ["prove", "r", "p", name],
                         ["gaps", name]]
        commands.append(["order", "r", "sv.3", "b1.3", name])
        commands.append(["order", "r", "b1.3", "b1.1", name])
    return files, commands


def table_findings():
    """Forks of several machines, one finding each, and the entries of broken rules."""
    forks = [sealed(maker=maker, number=number, deed=("activate", session))
             for maker, number in ((0, 5), (1, 3), (2, 1), (1, 0)) for session in (1, 2)]
    first = entry_of(sealed())
    second = entry_of(sealed(maker=2, stamp=2, names=[first.digest], deed=("closed",)))
    lost = sealed(maker=2, stamp=2, names=[b"x" * 32])
    files = {"r": ROSTER[0].text, "u": b"(rule R true)", "forks": log_of(*forks),
             "clean": log_of(owner=0),
             "break": log_of(first.text), "got": log_of(first.text, owner=0),
             "torn": log_of(owner=0) + b"(",
             "malformed": log_of(owner=0) + b"x", "refused": log_of(owner=0) + b"0:",
             "gap": log_of(lost, owner=0),
             "two": log_of(first.text, second.text, owner=0),
             "stray": log_of(sealed(maker=2, names=[first.digest]), first.text, owner=0),
             "skips": log_of(first.text, sealed(maker=2, number=1, stamp=2, names=[first.digest])),
             "mixed": log_of(sealed(maker=2, names=[b"x" * 32]), sealed(stamp=2), owner=0),
             "forced": log_of(sealed(maker=0, version=2, deed=("override", 1, "cast")), owner=2),
             "v": b"(rule G (every x entry (some y closed before x true)))"
                  b"(rule A (every x entry (every y entry before x (same x y))))"
                  b"(rule B (every x entry (every y entry (same x y))))"
                  b"(rule C (every x closed (some y entry before x (same x y))))"
                  b"(rule D (not (every x entry true)))"
                  b"(rule E (every x entry (not (every y entry (same x y)))))"
                  b"(rule F (every x entry (every y entry (every z entry"
                  b" before y (before y x)))))"
                  b"(rule H (every x entry (not (some y cast before x true))))"
                  b"(rule I (some x entry (some y entry (before x y))))"}
    logs = ["forks", "clean", "break", "got", "torn", "malformed", "refused", "gap", "two", "stray",
            "mixed", "skips", "forced"]
    return files, [[command, "r", rule, log] for command in ("audit", "watch") for log in logs
                   for rule in ("u", "v", "standard")]


def table_proofs():
    """Proofs of a chain of three entries, with one or two faults."""
    first = entry_of(sealed())
    second = entry_of(sealed(number=1, stamp=2, names=[first.digest]))
    third = entry_of(sealed(number=2, stamp=3, names=[second.digest]))
    texts_ = ["past 2 1:2 0:1\n", "past 2 1:2 0:1", "past 2 1:2\n", "past 2 1:2", "past 2\n",
              "past 2", "past 2 1:2 1:0\n",
              "past 2 0:1 1:2\n", "past 2 0:2 1:2\n", "past 2 1:2 0:2\n", "past 2 1:2 2:0\n",
              "past 2 1:2 3:0\n", "past 2 1:2 0:3\n",
              "past 2 1:2 0:1 \n", "past 2  1:2\n", "past 1 2:1\n", "past 2 2:2\n", "past 1 1:1\n",
              "past 3\n", "past 2 1:2 0:1\npast 1 0:1\n", "past 0\npast 0\n", "past 1 0:1\n\n"]
    files = {"r": ROSTER[0].text, "l": log_of(first.text, second.text, third.text)}
    files.update({"p%d" % place: b"proof 1\nentries 3\n" + text.encode() for place,
                  text in enumerate(texts_)})
    heads = [b"", b"\n", b"proof 1", b"proof 1\n", b"proof 1\nentries 3", b"proof 1 \nentries 3\n",
             b"proof 1\nentries 4 x\n",
             b"proof 1\nentries 3 x\n", b"proof 1\nentries 4", b"proof 01\n", b"proof 1\nentries\n",
             b"proof 1\nentries x x\n"]
    files.update({"h%d" % place: head for place, head in enumerate(heads)})
    return files, [["check", "r", "standard", name, "l"] for name in files if name[0] in "ph"]


def table_orders():
    """Words that mean several entries, and entries of which one is whole, or none."""
    twins = [entry_of(sealed(deed=("activate", session))) for session in (1, 2)]
    after = [entry_of(sealed(maker=2, number=place, stamp=2, names=[twin.digest])) for place,
             twin in enumerate(twins)]
    lost = [entry_of(sealed(maker=0, number=place, stamp=2, names=[bytes([place]) * 32]))
            for place in (0, 1)]
    child = entry_of(sealed(maker=0, number=2, stamp=3, names=[lost[0].digest]))
    files = {"r": ROSTER[0].text, "l": log_of(*[entry.text for entry in twins + after + lost
                                                + [child]])}
    words = ["b1.0", "b2.0", "b2.1", "sv.0", "sv.1", "sv.2", "sv.3", twins[0].digest.hex(),
             twins[1].digest.hex(), "0" * 64]
    return files, [["order", "r", first, second, "l"] for first in words for second in words]


def beyond_leaves(message):
    """A key and a signature that would verify if q might be the number of leaves."""
    identifier, c, path = b"j" * 16, b"c" * 32, [bytes(32)] * 5
    prefix = identifier + signatures.u32(32)
    digits = signatures.message_digits(1, prefix, c, message)
    elements = [signatures.chain(prefix, i, b"e" * 32, 0, digit) for i, digit in enumerate(digits)]
    ends = [signatures.chain(prefix, i, b"e" * 32, 0, 1) for i in range(len(digits))]
    node = signatures.leaf(identifier, 64, prefix, ends)
    for r in (32, 16, 8, 4, 2):
        node = signatures.parent(identifier, r, node, bytes(32))
    one_time = signatures.u32(1) + c + b"".join(elements)
    signature = signatures.u32(32) + one_time + signatures.u32(5) + b"".join(path)
    return signatures.u32(5) + signatures.u32(1) + identifier + node, signature


def table_breaks():
    """Logs that stop being a legal history, each for one reason."""
    first = entry_of(sealed())
    other = entry_of(sealed(maker=2, stamp=7))
    good = dict(number=1, stamp=8, names=sorted([first.digest, other.digest]))
    edits = [{}, {"number": 0}, {"number": 2}, {"stamp": 7}, {"stamp": 9}, {"stamp": 2},
             {"names": []}, {"names": [first.digest]},
             {"names": [other.digest]}, {"names": sorted([first.digest, other.digest, b"x" * 32])},
             {"maker": 2}, {"maker": 0}]
    files, commands = {"r": ROSTER[0].text, "u": b"(rule R true)"}, []
    starts = [b"(4:sent" + first.text + b")(3:got" + other.text + b")", b"(3:got" + other.text
              + b")(4:sent" + first.text + b")",
              b"(4:sent" + first.text + b")0:(3:got" + other.text + b")()"]
    for number, start in enumerate(starts):
        files["twice%d" % number] = b"(3:log1:11:1)" + start + b"(3:got" + other.text + b")"
        commands.append(["audit", "r", "u", "twice%d" % number])
    for start, edit, word in itertools.product(starts, edits, (b"4:sent", b"3:got")):
        name = "l%d" % len(files)
        middle = b"(" + word + sealed(**{**good, **edit}) + b")"
        files[name] = b"(3:log1:11:1)" + start + middle + b"(4:sent" + first.text + b")"
        commands.append(["audit", "r", "u", name])
    return files, commands


def table_endorsed():
    """Signatures of two levels under keys of all small types, and types that are others."""
    files, commands = {"m": b"message"}, []
    for top_type, low_type in itertools.product((1, 2, 3), repeat=2):
        top = signatures.SigningKey((5, top_type), b"i" * 16, b"s" * 32)
        name = "%d%d" % (top_type, low_type)
        files["k" + name] = signatures.two_level_key(top)
        files["s" + name] = signatures.sign_two_levels(top, (5, low_type), 33, b"message")
        commands.append(["endorsed", "k" + name, "m", "s" + name])
    key, signature = files["k11"], files["s12"]
    commands.append(["endorsed", "k11", "m", "s12"])
    for place, value in itertools.product((0, 4, 8), range(9)):
        name = "k%dx%d" % (place, value)
        files[name] = key[:place] + value.to_bytes(4, "big") + key[place + 4:]
        commands.append(["endorsed", name, "m", "s12"])
    for size in (65536, 65537):
        files["z%d" % size] = b"\0" * size
        commands += [["endorsed", "z%d" % size, "m", "s12"], ["endorsed", "k11", "m", "z%d" % size],
                     ["endorse", "z", "none"], ["endorse", "y%d" % size, "none"]]
        files["y%d.office" % size] = b"(" + b"\0" * (size - 1)
    for first in (0, 2):
        files["s%d" % first] = bytes([0, 0, 0, first]) + signature[4:]
        commands.append(["endorsed", "k11", "m", "s%d" % first])
    low_key, low_signature = beyond_leaves(b"message")
    top = signatures.SigningKey((5, 1), b"i" * 16, b"s" * 32)
    files["kbeyond"] = signatures.u32(2) + top.public_key()
    files["sbeyond"] = signatures.u32(1) + top.sign(0, low_key) + low_key + low_signature
    commands.append(["endorsed", "kbeyond", "m", "sbeyond"])
    for cut in (0, 3, 4, 8, 59, 61):
        files["c%d" % cut] = (key + b"x")[:cut]
        commands.append(["endorsed", "c%d" % cut, "m", "s12"])
    commands += [["endorsed", *words] for words in itertools.product(("k11", "none", "z65537"),
                                                                     ("m", "none"),
                                                                      ("s11", "none", "z65537"))]
    return files, commands


class Special:
    """A file with permission bits, or something at a file's place that is no plain file."""

    def __init__(self, kind, value=None, mode=None):
        self.kind, self.value, self.mode = kind, value, mode

    def make(self, path):
        if self.kind == "link":
            os.link(os.path.join(os.path.dirname(path), self.value), path)
        elif self.kind == "symlink":
            os.symlink(self.value, path)
        elif self.kind == "pipe":
            os.mkfifo(path)
        else:
            with open(path, "wb") as file:
                file.write(self.value)
            os.chmod(path, self.mode)


def olds():
    """What can be at the place of a file that is to be written."""
    starts = [b"", b"abcd", b"(6:r", b"(6:", b"(6:roster1:1)", b"(3:log1:11:0)", b"(6:office1:1",
              b"(6:sealed", b"proof 1\n",
              b"proX", b"\0\0\0\1", b"\0\0\0\3" + b"k" * 56, b"PROO"]
    found = [Special("file", start, 0o644) for start in starts]
    found += [Special("file", b"abcd", mode) for mode in (0o600, 0o640, 0o755, 0o200, 0o266, 0o4755,
                                                          0o444, 0o400, 0o177)]
    return found + [Special("pipe"), Special("symlink", "l"), Special("symlink", "a"),
                    Special("symlink", "nowhere"), Special("link", "l"), Special("link", "f"),
                    Special("link", "s")]


def table_replacing():
    """Files that are there already, where a command is to write."""
    text = script("do sv open", "step act sv")
    files = {"s": text, "r": ROSTER[0].text, "l": log_of(sealed()), "f": b"file", "a": b"another",
             "folder/": b"", "folder.sig/": b"", "folder": None,
             "q.roster/": b""}
    files = {name: value for name, value in files.items() if value is not None}
    commands = [["prove", "r", name, "l"] for name in ("r", "l", "folder", "no/x", "r/x", "new",
                                                       "new")]
    commands += [["play", name, "t"] for name in ("s", "t.roster", "t.sv.log",
                                                  "s")] + [["play", "s", "q"],
                                                           ["play", "s", "no/q"]]
    for place, old in enumerate(olds()):
        files["x%d" % place] = old
        files["p%d.%s" % (place, ("sv.log", "b1.log", "roster")[place % 3])] = old
        commands += [["prove", "r", "x%d" % place, "l"], [("play", "repair")[place % 2], "s",
                                                          "p%d" % place]]
    for name in ("new", ".new", "\u00e9"):
        files[other_name("o" + name)] = b"left by a program that was ended"
        commands += [["prove", "r", "o" + name, "l"]]
    return files, commands


def other_name(name):
    """The other name of a file, by the document once more."""
    value = 14695981039346656037
    for byte in name.encode():
        value = ((value ^ byte) * 1099511628211) % 2 ** 64
    return ".auditorium-" + format(value, "016x")


def table_office_files():
    """Offices that are links, or that may not be replaced, and signatures over other files."""
    text = b"(6:office1:132:" + bytes(32) + b"1:0)"
    files = {"s": b"s", "r": ROSTER[0].text, "l": log_of(sealed()), "f": b"file", "a": b"another",
             "a.office": text, "link.office": Special("symlink", "a.office"),
             "dangling.office": Special("symlink", "nowhere"), "b.office": text,
             "b2.office": Special("link", "b.office"),
             "pipe.office": Special("pipe"), "folder.office/": b"",
             "open.office": Special("file", text, 0o644), "h": b"file", "h.sig": Special("link", "h"),
             "x.office": Special("file", text, 0o500), "w.office": Special("file", text, 0o700)}
    commands = [["endorse", name, "f"] for name in ("link", "dangling", "b", "b2", "pipe", "folder",
                                                    "open", "x", "w")]
    commands += [["office", name, "00" * 32] for name in ("a", "link", "dangling", "b", "pipe",
                                                          "folder", "no/o")]
    commands += [["gaps", "link.office"], ["gaps", "b.office"], ["endorsed", "f", "b2.office", "f"],
                 ["endorse", "a", "link.office"],
                 ["endorse", "a", "a.office"], ["endorse", "a", "folder"], ["endorse", "a", "h"],
                 ["prove", "r", "made.office", "l"], ["prove", "r", "a.office", "l"]]
    for place, old in enumerate(olds()):
        files.update({"f%d" % place: b"file", "f%d.sig" % place: old, "n%d.key" % place: old})
        commands.append(["office", "n%d" % place, "00" * 32])
        if place % 4 == 1:
            commands.append(["endorse", "a", "f%d" % place])
    return files, commands


def table_words():
    """Numbers of words, and words at their limits."""
    files = {"r": ROSTER[0].text, "l": log_of(sealed()), "s": script(),
             "p": b"proof 1\nentries 1\npast 0\n"}
    heads = [["audit", "r", "standard"], ["watch", "r", "standard"], ["order", "r", "b1.0", "b1.0"],
             ["prove", "r", "made"],
             ["check", "r", "standard", "p"]]
    commands = [head + ["l"] * count for head in heads for count in (0, 1, 15, 16, 17)]
    names = ["b1.00", "b1.01", "b1.000", "b1.", ".0", "b1", "b1.0.0", "b1.4294967295",
             "b1.4294967296", "b1.42949672950", "B1.0",
             "a" * 16 + ".0", "a" * 17 + ".0", "0" * 63, "0" * 64, "0" * 65, "A" * 64, "b1.-1",
             "b1.+0", "b1.1e0", "b-1.0"]
    commands += [["order", "r", *pair, "l"] for name in names
                 for pair in ((name, "b1.0"), ("b1.0", name))]
    commands += [["make", word] for word in ("0", "1", "01", "800", "801", "1000", "-1", "1.0",
                                             "+1", "x")]
    commands += [["demo", word] for word in ("0", "01", "801")]
    commands += [["office", "-o", "00" * 32], ["office", "o", "0" * 63], ["office", "o", "A0" * 32],
                 ["office", "o", "00" * 33]]
    for word in ("-", "-l", "l-", "--help", "a" * 1024, "a" * 1025, "~", "!", "\x7f", "a b",
                 "\u00e9", " l", "l ", ""):
        commands += [["gaps", word], [word, "l"]]
    for count in (0, 2, 3):
        commands += [[command] + ["l"] * count for command in ("gaps", "play", "repair", "endorse",
                                                               "endorsed", "make", "demo", "office")
                     if (command, count) not in (("play", 2), ("repair", 2), ("endorse", 2),
                                                 ("endorsed", 3))]
    return files, commands + [[], ["xyz"], ["GAPS", "l"]]


def table_reading():
    """Files that are absent, refused, or good, in each place of each command."""
    files = {"r": ROSTER[0].text, "badr": b"x", "u": b"(rule R true)", "badu": b"(rule",
             "l": log_of(sealed()), "badl": b"(3:log",
             "p": b"proof 1\nentries 1\npast 0\n", "badp": b"proof 2\n",
             "s.office": b"(6:office1:132:" + bytes(32) + b"5:32768)",
             "x.office": b"(6:office1:132:" + bytes(32) + b"5:32769)", "f": b"f"}
    places = [("r", "badr", "none"), ("u", "badu", "none"), ("l", "badl", "none"),
              ("p", "badp", "none")]
    commands = [["check", *words[:2], words[3], words[2]] for words in itertools.product(*places)]
    commands += [[command, *words] for words in itertools.product(*places[:3])
                 for command in ("audit", "watch")]
    for roster, log in itertools.product(places[0], places[2]):
        commands += [["prove", roster, "made", log], ["order", roster, "b1.1", "b1.0", log],
                     ["order", roster, "b1.1", "b1.2", log],
                     ["order", roster, "b1.0", "b1.2", log], ["audit", roster, "u", log, "badl"],
                     ["audit", roster, "u", "l", log]]
    commands += [["endorse", name, word] for name in ("s", "x", "none") for word in ("f", "none")]
    return files, commands


def table_headers():
    """Headers of logs, and what follows them."""
    owners = [b"1:0", b"1:9", b"2:00", b"2:01", b"10:4294967295", b"10:4294967296",
              b"11:42949672950", b"0:", b"1:x", b"()", b"1:00:"]
    texts_ = [b"(3:log1:1" + owner + b")" for owner in owners]
    texts_ += [b"", b"(", b"(3:log1:1", b"(3:log1:2" + b"1:0)", b"(3:Log1:11:0)", b"3:log",
               b"(3:log)", b"(3:log1:1)", b"[", b" (3:log1:11:0)"]
    files, commands = {"r": ROSTER[0].text}, []
    for place, text in enumerate(texts_):
        files["a%d" % place] = text + b"(4:sent" + sealed() + b")"
        files["b%d" % place] = text
        commands += [["audit", "r", "standard", "a%d" % place], ["gaps", "a%d" % place],
                     ["gaps", "b%d" % place]]
    return files, commands


def table_entry_limit():
    """As many entries as may be given, and one more."""
    lines = ["seed 00", "key w4 h5", "log 40", "link 9"]
    play = playing.Play(scripts.read_script(script(head=lines)))
    texts_ = []
    for session in range(16385):
        body = entries.write_body(1, play.roster.election, 1, 0, 1, [],
                                  deed_value("activate", session))
        texts_.append(entries.write_entry(body, play.players[1].key.sign(0, body)))
    files = {"r": play.roster.text, "u": b"(rule R true)", "a": log_of(*texts_[:16000]),
             "b": log_of(*texts_[15900:16384]),
             "c": log_of(texts_[16384])}
    return files, [["audit", "r", "u", "a", "b"], ["prove", "r", "p", "a", "b", "c"]]


def table_large():
    """Files of just the most bytes that they may have, and of one more."""
    files, commands = {"r": ROSTER[0].text, "l": log_of(sealed()), "u": b"(rule R true)"}, []
    for over in (0, 1):
        files["r%d" % over] = (ROSTER[0].text, 4194304 + over)
        files["u%d" % over] = b"(rule R true)" + b" " * (4194304 + over - 13)
        files["l%d" % over] = (log_of(sealed()), 67108864 + over)
        files["p%d" % over] = (b"proof 1\n", 67108864 + over)
        commands += [["audit", "r%d" % over, "none", "l"], ["audit", "r", "u%d" % over, "l"],
                     ["gaps", "l%d" % over],
                     ["order", "r", "b1.0", "b1.0", "l%d" % over, "none"],
                     ["check", "r", "u", "p%d" % over, "l"],
                     ["endorsed", "u", "p%d" % over, "none"]]
    return files, commands


TABLES = {name: value for name, value in list(globals().items()) if name.startswith("table_")}
