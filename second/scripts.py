"""Scripts: their reader, and the script of a day of N sessions, which `make` prints."""
from collections import namedtuple

from entries import DEEDS_OF, MACHINE_LIMIT, NAME, has_one_supervisor, make_deed
from texts import NUMBER_LIMIT, read_decimal, refused_as, require

# What the words of each kind of line are, the kinds that there have to be, and limits of lines.
LINES = {"version": ["version"], "seed": ["seed"], "key": ["set", "height"], "log": ["size"],
         "link": ["size"], "machine": ["new", "role"], "do": ["name", "deed"],
         "lose": ["name", "number", "other"], "stop": ["unstopped", "events"], "step": ["step"]}
STEPS = {"act": ["name"], "hear": ["name", "name", "number"], "stop": ["name"]}
KINDS = list(LINES)
NEEDED = ["seed", "key", "log", "link", "machine"]
LINE_LIMITS = {"do": 4096, "lose": 65536, "step": 131072}

# The words that a script has for the deeds of a supervisor and of a booth.
ROLE_DEEDS = {"supervisor": {"open": "opened", "authorise": "authorise", "override": "override",
                             "close": "closed"},
              "booth": {"activate": "activate", "commit": "commit", "cast": "cast",
                        "cancel": "cancel", "challenge": "challenge"}}
DEEDS = {**ROLE_DEEDS["supervisor"], **ROLE_DEEDS["booth"]}

RANGES = {"version": (1, 2), "size": (1, 4096), "number": (0, 4095), "events": (0, 4096),
          "session": (1, NUMBER_LIMIT)}
# The words that may be chosen from, and what they stand for.
CHOICES = {"set": {"w1": 1, "w2": 2, "w4": 3, "w8": 4}, "height": {"h5": 5, "h10": 6},
           "role": {role: role for role in ROLE_DEEDS}, "step": {word: word for word in STEPS},
           "how": {"cancel": "cancel", "cast": "cast"}}
DAY_BOOTHS = ["b1", "b2", "b3"]

Script = namedtuple("Script", "version seed key log link machines lost stops steps")
ScriptMachine = namedtuple("ScriptMachine", "name role actions")

class ScriptReader:
    """Reads line by line.

    `lines` has what the lines of each kind say, and `values` what the words at hand do, so far.
    """

    def __init__(self):
        self.lines, self.machines, self.values = {kind: [] for kind in KINDS}, [], []

    def version(self):
        return self.lines["version"][0][0] if self.lines["version"] else 1

    def read_line(self, line):
        require(all(32 <= byte <= 126 for byte in line), "NotPlain")
        kind, *words = line.decode().split(" ")
        require(kind in KINDS, "UnknownWord")
        require(self.is_in_order(kind), "OutOfOrder")
        if KINDS.index(kind) > KINDS.index("machine"):
            require(has_one_supervisor(self.machines), "NotOneSupervisor")
        forms = self.forms(kind, words)
        require(len(words) == len(forms), "WrongCount")
        self.values = []
        for form, word in zip(forms, words):
            self.values.append(self.read_word(form, word))
        self.lines[kind].append(tuple(self.values))
        require(len(self.lines[kind]) <= LINE_LIMITS.get(kind, MACHINE_LIMIT), "OutOfRange")
        if kind == "machine":
            self.machines.append(ScriptMachine(*self.values, []))
        if kind == "do":
            place, word, *fields = self.values
            self.machines[place].actions.append(make_deed(word, forms[2:], fields))

    def is_in_order(self, kind):
        place = KINDS.index(kind)
        again = place < KINDS.index("machine") and self.lines[kind]
        missing = [needed for needed in NEEDED if KINDS.index(needed) < place and not self.lines[needed]]
        return not again and not missing and not any(self.lines[one] for one in KINDS[place + 1:])

    def forms(self, kind, words):
        """What the words after the kind have to be."""
        if kind == "do" and len(words) > 1:
            fields = DEEDS_OF[self.version()].get(DEEDS.get(words[1]))
            require(fields is not None, "UnknownWord")
            return LINES[kind] + list(fields)
        if kind == "step" and words:
            require(words[0] in STEPS, "UnknownWord")
            return LINES[kind] + STEPS[words[0]]
        return LINES[kind]

    def read_word(self, form, word):
        """What a word says."""
        if form in RANGES:
            number, (low, high) = read_decimal(word), RANGES[form]
            require(number is not None, "BadNumber")
            require(low <= number <= high, "OutOfRange")
            return number
        if form in CHOICES:
            require(word in CHOICES[form], "UnknownWord")
            return CHOICES[form][word]
        if form in ("seed", "ballot"):
            good = len(word) % 2 == 0 and all(digit in "0123456789abcdef" for digit in word)
            require(good and (form == "seed" or len(word) == 64), "BadHex")
            require(1 <= len(word) // 2 <= 32, "OutOfRange")
            return bytes.fromhex(word)
        if form == "deed":
            deeds = ROLE_DEEDS[self.machines[self.values[0]].role]
            require(word in deeds, "WrongRole")
            return deeds[word]
        return self.read_name(form, word)

    def read_name(self, form, word):
        """A new machine's name, or the place of a machine."""
        require(NAME.fullmatch(word), "BadName")
        names = [machine.name for machine in self.machines]
        place = names.index(word) if word in names else None
        if form == "new":
            require(place is None, "SameName")
            return word
        require(form != "unstopped" or place not in dict(self.lines["stop"]), "SameName")
        require(form != "other" or place != self.values[0], "SameName")
        require(place is not None, "UnknownName")
        require(form != "booth" or self.machines[place].role == "booth", "WrongRole")
        return place

def read_script(octets):
    reader, texts = ScriptReader(), octets.split(b"\n")
    if texts[-1] == b"":
        texts.pop()
    for number, line in enumerate(texts, 1):
        with refused_as(number):
            if line and not line.startswith(b"#"):
                reader.read_line(line)
    lines = reader.lines
    with refused_as(len(texts) + 1):
        require(all(lines[kind] for kind in NEEDED), "OutOfOrder")
        require(has_one_supervisor(reader.machines), "NotOneSupervisor")
    (seed,), (set_type, height), (log,), (link,) = [lines[kind][0] for kind in NEEDED[:4]]
    return Script(reader.version(), seed, (height, set_type), log, link, reader.machines,
                  lines["lose"], dict(lines["stop"]), lines["step"])

def booth_actions(session):
    """The actions of a session's booth, as the words of its `do` lines."""
    if session % 10 == 0:
        return ["activate %d" % session, "cancel %d" % session]
    ending = "%d %s" % (session, "%08x" % session * 8)
    return ["activate %d" % session, "commit " + ending, "cast " + ending]

def sending_steps(maker, numbers):
    """Each other machine hears a maker's entries: `sv` the last first, the booths the first."""
    orders = {"sv": numbers[::-1], **dict.fromkeys(DAY_BOOTHS, numbers)}
    return ["step hear %s %s %d" % (name, maker, number)
            for name in orders if name != maker for number in orders[name]]

def made_script(count):
    """The script's lines."""
    deeds, steps = {name: [] for name in ["sv", *DAY_BOOTHS]}, []
    for number in range(count + 2):
        steps += ["step act sv"] + sending_steps("sv", [number])
        if 1 <= number <= count:
            booth, new = DAY_BOOTHS[(number - 1) % 3], booth_actions(number)
            deeds["sv"].append("authorise %s %d" % (booth, number))
            steps += ["step act " + booth] * len(new)
            steps += sending_steps(booth, range(len(deeds[booth]), len(deeds[booth] + new)))
            deeds[booth] += new
    deeds["sv"] = ["open", *deeds["sv"], "close"]
    actions = ["do %s %s" % (name, deed) for name in deeds for deed in deeds[name]]
    lines = ["seed 61756469746f7269756d", "key w4 h10", "log %d" % len(actions),
             "link %d" % (count + 2), "machine sv supervisor"]
    return lines + ["machine %s booth" % booth for booth in DAY_BOOTHS] + actions + steps
