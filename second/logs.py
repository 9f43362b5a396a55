"""Logs: their reader, and legal histories."""
from collections import namedtuple

from entries import read_entry
from texts import Refused, is_list, read_number, read_text, refused_as, require, write_text

# `refused` has pairs of a place and a cause, and `ending` is a pair of what the words of a report's
# line are before and after the file's name, or None if the log ends clean.
Log = namedtuple("Log", "owner kept refused ending")
Record = namedtuple("Record", "place end word entry")

def read_header(octets):
    """The owner, and where the records begin."""
    with refused_as(0, "Header"):
        value, end = read_text(octets)
    require(is_list(value, 3) and value[:2] == [b"log", b"1"], "Header")
    require(read_number(value[2]) is not None, "Header")
    return read_number(value[2]), end

def read_log(octets, roster=None):
    """Read a log's file; without a roster no signature is verified."""
    owner, start = read_header(octets)
    kept, refused, ending = [], [], None
    while start < len(octets):
        try:
            value, start = read_text(octets, start)
        except Refused as refusal:
            place, cause = refusal.args
            ending = ("torn", start) if cause == "Cut" else ("malformed", "%d %s" % (place, cause))
            break
        place = len(kept) + len(refused)
        try:
            good = is_list(value, 2) and value[0] in (b"sent", b"got") and is_list(value[1])
            require(good, "WrongShape")
            entry = read_entry(value[1], roster)
            kept.append(Record(place, start, value[0].decode(), entry))
        except Refused as refusal:
            refused.append((place, refusal.args[1]))
    return Log(owner, kept, refused, ending)

class History:
    """The events of a log, pairs of a word and an entry, and what the next may be."""

    def __init__(self, owner):
        self.owner, self.events, self.sent = owner, [], []
        self.entries, self.named, self.greatest_stamp = {}, set(), 0

    def add(self, word, entry):
        """Add an event, unless an earlier one has its digest; was it added?"""
        if entry.digest in self.entries:
            return False
        self.events.append((word, entry))
        self.entries[entry.digest] = entry
        self.named.update(entry.names)
        self.greatest_stamp = max(self.greatest_stamp, entry.stamp)
        if word == "sent":
            self.sent.append(entry)
        return True

    def next_sent(self):
        """The number, the stamp and the names of the next sent entry, the frontier."""
        return len(self.sent), self.greatest_stamp + 1, sorted(self.entries.keys() - self.named)

    def follow(self, word, entry):
        """Add an event if it may follow in a legal history; was it added?"""
        own = entry.maker == self.owner
        as_next = own and (entry.number, entry.stamp, entry.names) == self.next_sent()
        return (as_next if word == "sent" else not own) and self.add(word, entry)

    def text(self):
        """The log's file."""
        return write_text(["log", 1, self.owner]) + b"".join(
            b"(%s%s)" % (write_text(word), entry.text) for word, entry in self.events)
