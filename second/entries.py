"""Rosters, and Entries: their readers and writers."""
import re
from collections import namedtuple

from signatures import H, u32, verify
from texts import is_atom, is_list, read_number, read_text, refused_as, require, write_text

NAME = re.compile("[a-z0-9]{1,16}")
MACHINE_LIMIT = 16
Machine = namedtuple("Machine", "name role key")

class Roster:
    def __init__(self, machines):
        self.machines = machines
        self.names = [machine.name for machine in machines]
        self.text = write_text(["roster", 1] + [list(machine) for machine in machines])
        self.election = H(self.text)

def has_one_supervisor(machines):
    return [machine.role for machine in machines].count("supervisor") == 1

def read_roster(octets):
    with refused_as(cause="NotCanonical"):
        value, end = read_text(octets)
    require(end == len(octets), "NotCanonical", end)
    require(is_list(value) and value[:2] == [b"roster", b"1"], "WrongShape")
    for one in value[2:]:
        require(is_list(one, 3) and is_atom(one[0]) and is_atom(one[2], 56), "WrongShape")
        require(one[1] in (b"supervisor", b"booth"), "WrongShape")
    machines = [Machine(name.decode("latin-1"), role.decode(), key) for name, role, key in value[2:]]
    names = [machine.name for machine in machines]
    require(len(machines) <= MACHINE_LIMIT, "TooManyMachines")
    require(all(map(NAME.fullmatch, names)), "BadName")
    require(len(set(names)) == len(names), "SameName")
    require(has_one_supervisor(machines), "NotOneSupervisor")
    return Roster(machines)

# The table of deeds: the fields that follow the word, in version 1 and in version 2.
DEEDS = {"opened": (), "authorise": ("booth", "session"), "override": ("session",), "closed": (),
         "activate": ("session",), "commit": ("session", "ballot"), "cast": ("session", "ballot"),
         "cancel": ("session",)}
LATER_DEEDS = {**DEEDS, "override": ("session", "how"), "challenge": ("session", "ballot")}
DEEDS_OF = {1: DEEDS, 2: LATER_DEEDS}

# `text` is the signed text, and `deed` maps `word`, `kind` and the names of fields to what they
# are, the kind being that of rules.
Entry = namedtuple("Entry", "text digest body version election maker number stamp names deed signature")

def make_deed(word, fields, values):
    """A deed; `how` is for overrides, of which one of version 1 doesn't say it and says cancel."""
    deed = {"word": word, "how": "cancel", **dict(zip(fields, values))}
    return {**deed, "kind": "forced" if deed["how"] == "cast" else word}

def write_deed(deed, version):
    """The value of a deed's text."""
    return [deed["word"]] + [deed[field] for field in DEEDS_OF[version][deed["word"]]]

def read_field(field, atom):
    """What an atom says in the place of a field, or None."""
    if field == "ballot":
        return atom if is_atom(atom, 32) else None
    if field == "how":
        return atom.decode() if atom in (b"cancel", b"cast") else None
    return read_number(atom)

def read_deed(value, version):
    require(is_list(value) and value and is_atom(value[0]), "WrongShape")
    word = value[0].decode("latin-1")
    fields = DEEDS_OF[version].get(word)
    require(fields is not None and len(value) == len(fields) + 1, "WrongShape")
    values = [read_field(field, atom) for field, atom in zip(fields, value[1:])]
    require(None not in values, "WrongShape")
    return make_deed(word, fields, values)

def write_body(version, election, maker, number, stamp, names, deed):
    """The text of a body, of the value of the deed's text."""
    return write_text(["entry", version, election, maker, number, stamp, names, deed])

def write_entry(body, signature):
    """The signed text of a body's text and a signature."""
    return b"(6:sealed" + body + write_text(signature) + b")"

def read_entry(value, roster=None):
    """The entry that a text's value is; without a roster only the first causes are tried."""
    require(is_list(value, 3) and value[0] == b"sealed" and is_atom(value[2]), "WrongShape")
    body = value[1]
    require(is_list(body, 8) and body[0] == b"entry" and body[1] in (b"1", b"2"), "WrongShape")
    version, election, names = int(body[1]), body[2], body[6]
    numbers = [read_number(atom) for atom in body[3:6]]
    require(is_atom(election, 32) and None not in numbers, "WrongShape")
    require(is_list(names) and all(is_atom(name, 32) for name in names), "WrongShape")
    deed, text = read_deed(body[7], version), write_text(value)
    require(all(first < second for first, second in zip(names, names[1:])), "NamesNotRising")
    entry = Entry(text, H(text), write_text(body), version, election, *numbers, names, deed, value[2])
    if roster:
        require(entry.election == roster.election, "OtherElection")
        require(entry.maker < len(roster.machines), "UnknownMaker")
        require(entry.signature[:4] == u32(entry.number), "WrongIndex")
        key = roster.machines[entry.maker].key
        require(verify(key, entry.body, entry.signature), "BadSignature")
    return entry

def gaps_of(entries):
    """The digests that entries name and none of them has, ascending."""
    named = {name for entry in entries for name in entry.names}
    return sorted(named - {entry.digest for entry in entries})
