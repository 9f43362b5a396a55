"""Signatures (LM-OTS, LMS, and HSS of RFC 8554 with two levels), and Offices.

`prefix` is I || u32(q) throughout, with which all hashes of the one-time key q begin.
"""
import functools
import hashlib

from texts import read_decimal, require, write_text

# The sets by their types, with w, p and ls; and the heights of trees by their types.
SETS = {1: (1, 265, 7), 2: (2, 133, 6), 3: (4, 67, 4), 4: (8, 34, 0)}
HEIGHTS = {5: 5, 6: 10}
# The types of an office's trees, and the number with which its key is spent.
TOP_TYPES, LOW_TYPES, SPENT = (5, 3), (6, 3), 32768

def H(*parts):
    return hashlib.sha256(b"".join(parts)).digest()

def u32(number):
    return number.to_bytes(4, "big")

def u16(number):
    return number.to_bytes(2, "big")

def number_at(octets, place):
    return int.from_bytes(octets[place:place + 4], "big")

def digit_at(octets, i, w):
    """Digit i of w bits, the most significant first."""
    return octets[i * w // 8] >> (8 - w - i * w % 8) & ((1 << w) - 1)

def message_digits(set_type, prefix, c, message):
    w, p, ls = SETS[set_type]
    digest = H(prefix, b"\x81\x81", c, message)
    checksum = sum((1 << w) - 1 - digit_at(digest, i, w) for i in range(256 // w)) << ls
    return [digit_at(digest + u16(checksum), i, w) for i in range(p)]

def chain(prefix, i, element, first, end):
    """The element of chain i after the steps from `first` to `end` - 1."""
    head = prefix + u16(i)
    for j in range(first, end):
        element = hashlib.sha256(head + bytes([j]) + element).digest()
    return element

def leaf(identifier, r, prefix, ends):
    """T[r] of the one-time key whose chains have these ends."""
    return H(identifier, u32(r), b"\x82\x82", H(prefix, b"\x80\x80", *ends))

def parent(identifier, r, even, odd):
    """T[r] of its two children."""
    return H(identifier, u32(r), b"\x83\x83", even, odd)

@functools.lru_cache(maxsize=4096)
class SigningKey:
    """A key of one tree, of the types of the tree and of the set; `nodes` are by their numbers."""

    def __init__(self, types, identifier, seed):
        self.types, self.identifier, self.seed = types, identifier, seed
        self.size, (w, p, _) = 1 << HEIGHTS[types[0]], SETS[types[1]]
        self.nodes = [b""] * self.size
        for q in range(self.size):
            ends = self.elements(q, [(1 << w) - 1] * p)
            self.nodes.append(leaf(identifier, self.size + q, identifier + u32(q), ends))
        for r in range(self.size - 1, 0, -1):
            self.nodes[r] = parent(identifier, r, self.nodes[2 * r], self.nodes[2 * r + 1])

    def elements(self, q, digits):
        """The secret elements of index q, each after the steps below its digit."""
        prefix = self.identifier + u32(q)
        return [chain(prefix, i, H(prefix, u16(i), b"\xff", self.seed), 0, digit)
                for i, digit in enumerate(digits)]

    def public_key(self):
        return u32(self.types[0]) + u32(self.types[1]) + self.identifier + self.nodes[1]

    def sign(self, q, message, c=None):
        """The signature, with another C than the document's if one is given."""
        c = c or H(b"auditorium C", self.identifier, u32(q), self.seed)
        digits = message_digits(self.types[1], self.identifier + u32(q), c, message)
        path = [self.nodes[(self.size + q >> level) ^ 1] for level in range(HEIGHTS[self.types[0]])]
        one_time = u32(self.types[1]) + c + b"".join(self.elements(q, digits))
        return u32(q) + one_time + u32(self.types[0]) + b"".join(path)

def derived_key(types, owner, tail):
    """The key whose identifier and seed are hashes for a kind of owner."""
    return SigningKey(types, H(b"auditorium ", owner, b"id", tail)[:16],
                      H(b"auditorium ", owner, b"seed", tail))

def key_types(public_key):
    """The types of the tree and of the set of a key of one tree, or None."""
    types = number_at(public_key, 0), number_at(public_key, 4)
    known = len(public_key) == 56 and types[0] in HEIGHTS and types[1] in SETS
    return types if known else None

def signature_length(tree_type, set_type):
    return 4 + 4 + 32 * (1 + SETS[set_type][1]) + 4 + 32 * HEIGHTS[tree_type]

@functools.lru_cache(maxsize=32768)
def verify(public_key, message, signature):
    """Does the signature verify under a public key of one tree?"""
    types = key_types(public_key)
    if types is None or len(signature) != signature_length(*types):
        return False
    w, p, _ = SETS[types[1]]
    q, size, path = number_at(signature, 0), 1 << HEIGHTS[types[0]], 44 + 32 * p
    if (number_at(signature, path - 4), number_at(signature, 4)) != types or q >= size:
        return False
    identifier, r = public_key[8:24], size + q
    prefix = identifier + u32(q)
    digits = message_digits(types[1], prefix, signature[8:40], message)
    ends = [chain(prefix, i, signature[40 + 32 * i:72 + 32 * i], digits[i], (1 << w) - 1)
            for i in range(p)]
    node = leaf(identifier, r, prefix, ends)
    for place in range(path, len(signature), 32):
        sibling = signature[place:place + 32]
        pair = (sibling, node) if r % 2 else (node, sibling)
        r //= 2
        node = parent(identifier, r, *pair)
    return node == public_key[24:]

def two_level_key(top):
    """The public key of two levels (HSS with L = 2) of the key of the top tree."""
    return u32(2) + top.public_key()

def sign_two_levels(top, low_types, n, message):
    i, q = divmod(n, 1 << HEIGHTS[low_types[0]])
    low = derived_key(low_types, b"hss ", top.identifier + u32(i) + top.seed)
    key = low.public_key()
    return u32(1) + top.sign(i, key) + key + low.sign(q, message)

def verify_two_levels(public_key, message, signature):
    types = key_types(public_key[4:])
    if types is None or number_at(public_key, 0) != 2 or number_at(signature, 0) != 1:
        return False
    top_end = 4 + signature_length(*types)
    low_key = signature[top_end:top_end + 56]
    return (verify(public_key[4:], low_key, signature[4:top_end])
            and verify(low_key, message, signature[top_end + 56:]))

def write_office(seed, number):
    return write_text(["office", 1, seed, number])

def read_office(octets):
    """The seed and the number of an office's text."""
    seed, number = octets[15:47], read_decimal(octets[49:-1].decode("latin-1"))
    require(number in range(SPENT + 1) and octets == write_office(seed, number), "Office")
    return seed, number

def top_key(name, seed):
    """The key of an office's top tree."""
    return derived_key(TOP_TYPES, b"office ", seed + name.encode())

def sign_as_office(name, seed, number, octets):
    return sign_two_levels(top_key(name, seed), LOW_TYPES, number, octets)
