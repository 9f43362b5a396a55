"""Plays: machines, the causes against actions, and steps; and `repair` of Output lines."""
from entries import Machine, Roster, gaps_of, read_entry, write_body, write_deed, write_entry
from logs import History
from signatures import derived_key
from texts import NUMBER_LIMIT, read_text

# The causes of the roles' rules against each deed, in their order.
CAUSES = {"opened": "AlreadyOpened",
          "authorise": "NotOpened Closed SessionUsed BoothBusy",
          "override": "NoSession SessionEnded OtherOverride NothingCommitted",
          "closed": "NotOpened Closed SessionsLeft",
          "activate": "NotAuthorised Ended AlreadyActive Overridden Closed",
          "commit": "NotActive Ended AlreadyCommitted Overridden Closed",
          "cast": "NotCommitted Ended Overridden Closed LogNotWhole",
          "challenge": "NotCommitted Ended Overridden Closed LogNotWhole",
          "cancel": "NotAuthorised Ended CastForced"}

def has(entries, word, **fields):
    """Has some entry a deed of this word and with these fields?"""
    wanted = {"word": word, **fields}.items()
    return any(wanted <= entry.deed.items() for entry in entries)

def has_ended(entries, session):
    return any(has(entries, word, session=session) for word in ("cast", "cancel", "challenge"))

class Player(History):
    """A machine of a play: the history of its log, its actions and its key."""

    def __init__(self, place, machine, script):
        super().__init__(place)
        self.name, self.role, self.actions = machine
        self.log_limit, self.stopped = script.log, False
        self.key = derived_key(script.key, b"", script.seed + self.name.encode())

    def action(self):
        """The deed of the next action, or None."""
        return self.actions[len(self.sent)] if len(self.sent) < len(self.actions) else None

    def cause(self):
        """The first cause against the next action, or None."""
        deed = self.action()
        facts = {**self.rule_causes(**deed), "Stopped": self.stopped,
                 "Full": len(self.events) >= self.log_limit,
                 "StampSpent": self.greatest_stamp == NUMBER_LIMIT,
                 "Spent": len(self.sent) >= self.key.size}
        order = ["Stopped", *CAUSES[deed["word"]].split(" "), "Full", "StampSpent", "Spent"]
        return next((cause for cause in order if facts[cause]), None)

    def has_unended(self, **fields):
        """Has it authorised a session (with this booth) that hasn't ended?"""
        held = self.entries.values()
        return any(has([entry], "authorise", **fields) and not has_ended(held, entry.deed["session"])
                   for entry in self.sent)

    def rule_causes(self, word, kind, session=None, booth=None, ballot=None, how=None):
        """The causes of the roles' rules, and whether they apply to a deed."""
        own, held = self.sent, self.entries.values()
        other = "cancel" if how == "cast" else "cast"
        stopping = {"how": "cancel"} if word == "cast" else {}
        return {
            "AlreadyOpened": has(own, "opened"),
            "NotOpened": not has(own, "opened"),
            "Closed": has(held, "closed"),
            "SessionUsed": has(own, "authorise", session=session),
            "BoothBusy": self.has_unended(booth=booth),
            "SessionsLeft": self.has_unended(),
            "NoSession": not has(own, "authorise", session=session),
            "SessionEnded": has_ended(held, session),
            "OtherOverride": has(own, "override", session=session, how=other),
            "NothingCommitted": how == "cast" and not has(held, "commit", session=session),
            "NotAuthorised": not has(held, "authorise", booth=self.owner, session=session),
            "Ended": has_ended(own, session),
            "AlreadyActive": has(own, "activate", session=session),
            "Overridden": has(held, "override", session=session, **stopping),
            "NotActive": not has(own, "activate", session=session),
            "AlreadyCommitted": has(own, "commit", session=session),
            "NotCommitted": not has(own, "commit", session=session, ballot=ballot),
            "CastForced": has(held, "override", session=session, how="cast"),
            "LogNotWhole": bool(gaps_of(held))}

class Play:
    """The machines of a script, and what they do step by step."""

    def __init__(self, script):
        self.script, self.mended = script, []
        self.players = [Player(place, machine, script) for place, machine in enumerate(script.machines)]
        self.roster = Roster([Machine(player.name, player.role, player.key.public_key())
                              for player in self.players])

    def new_entry(self, player):
        version, deed = self.script.version, write_deed(player.action(), self.script.version)
        body = write_body(version, self.roster.election, player.owner, *player.next_sent(), deed)
        signature = player.key.sign(len(player.sent), body)
        return read_entry(read_text(write_entry(body, signature))[0])

    def act(self, place):
        """Do the machine's next action; was it done?"""
        player = self.players[place]
        if player.action() is None or player.cause():
            return False
        return player.add("sent", self.new_entry(player))

    def hear(self, at, sender, number):
        """Have a machine hear an entry; did its log get it?"""
        player, sent = self.players[at], self.players[sender].sent
        full = len(player.events) >= self.script.log
        if number >= len(sent) or at == sender or player.stopped or full:
            return False
        return player.add("got", sent[number])

    def stop(self, place):
        self.players[place].stopped = True

    def take_steps(self, steps):
        for word, *places in steps:
            getattr(self, word)(*places)

    def repair(self):
        while any([self.repair_turn(player) for player in self.players]):
            pass
        for player in self.players:
            while self.act(player.owner):
                pass

    def repair_turn(self, player):
        """A machine's turn in a round; did it get an entry?"""
        before = len(player.events)
        for digest in gaps_of(player.entries.values()):
            answers = [other.entries[digest] for other in self.players
                       if not other.stopped and digest in other.entries]
            for entry in answers[:1]:
                if self.hear(player.owner, entry.maker, entry.number):
                    words = player.name, self.players[entry.maker].name, entry.number
                    self.mended.append("mended %s %s.%d" % words)
        return len(player.events) > before

    def files(self, prefix):
        """The files, pairs of a name and octets, in the order in which they are put in place."""
        logs = [("%s.%s.log" % (prefix, player.name), player.text()) for player in self.players]
        return logs + [(prefix + ".roster", self.roster.text)]

    def machine_lines(self):
        return ["machine %s sent %d held %d" % (player.name, len(player.sent), len(player.events))
                for player in self.players]

    def undone_lines(self):
        return ["undone %s %d %s" % (player.name, len(player.sent), player.cause() or "Ready")
                for player in self.players if player.action() is not None]
