"""Canonical S-expressions: texts are read as atoms, which are bytes, and lists."""
import contextlib
import re

ATOM_LIMIT = 262144
MEMBER_LIMIT = 16384
DEPTH_LIMIT = 8
NUMBER_LIMIT = 4294967295
DECIMAL = re.compile("0|[1-9][0-9]{0,9}")

class Refused(Exception):
    """An input is refused; the arguments are a place and a cause."""

def require(good, cause, place=0):
    if not good:
        raise Refused(place, cause)

@contextlib.contextmanager
def refused_as(place=None, cause=None):
    """What is refused inside is refused at this place, or with this cause, or both."""
    try:
        yield
    except Refused as refusal:
        found_place, found_cause = refusal.args
        raise Refused(found_place if place is None else place, cause or found_cause) from None

def read_decimal(word):
    """The number that a word is, or None."""
    number = int(word) if DECIMAL.fullmatch(word) else None
    return number if number is not None and number <= NUMBER_LIMIT else None

def read_number(atom):
    """The number that a number atom says, or None."""
    return read_decimal(atom.decode("latin-1")) if is_atom(atom) else None

def is_atom(value, length=None):
    return isinstance(value, bytes) and length in (None, len(value))

def is_list(value, length=None):
    return isinstance(value, list) and length in (None, len(value))

def write_text(value):
    """The text of a value, in which numbers and words stand for their atoms."""
    if isinstance(value, list):
        return b"(" + b"".join(map(write_text, value)) + b")"
    atom = value if is_atom(value) else str(value).encode()
    return b"%d:%s" % (len(atom), atom)

def read_length(octets, start):
    """The length that begins at `start`, and the place after its colon."""
    length = 0
    for place in range(start, len(octets)):
        byte = octets[place:place + 1]
        if byte == b":":
            return length, place + 1
        require(byte.isdigit(), "NotAToken", place)
        require(place == start or length > 0, "LeadingZero", place)
        length = 10 * length + int(byte)
        require(length <= ATOM_LIMIT, "AtomTooLong", place)
    raise Refused(len(octets), "Cut")

def read_text(octets, place=0, depth=1, in_full_list=False):
    """The text that begins at `place`, and where it ends.

    If there is none, it is refused at the first invalid byte, or as `Cut` at the end of the bytes.
    """
    byte = octets[place:place + 1]
    require(byte, "Cut", place)
    require(byte != b"[", "Hint", place)
    require(byte == b"(" or byte.isdigit(), "NotAToken", place)
    require(not in_full_list, "TooMany", place)
    if byte == b"(":
        require(depth <= DEPTH_LIMIT, "TooDeep", place)
        members, place = [], place + 1
        while octets[place:place + 1] != b")":
            is_full = len(members) == MEMBER_LIMIT
            member, place = read_text(octets, place, depth + 1, is_full)
            members.append(member)
        return members, place + 1
    length, start = read_length(octets, place)
    require(start + length <= len(octets), "Cut", len(octets))
    return octets[start:start + length], start + length
