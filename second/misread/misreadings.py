"""Plausible misreadings of the document, each a small edit of the second program.

Each is a title, a module, the text that is replaced, the text in its place, and the kinds of cases
that may find it.
"""
MISREADINGS = [
    ("WrongIndex is tried before UnknownMaker", "entries.py",
     """        require(entry.maker < len(roster.machines), "UnknownMaker")
        require(entry.signature[:4] == u32(entry.number), "WrongIndex")
""",
     """        require(entry.signature[:4] == u32(entry.number), "WrongIndex")
        require(entry.maker < len(roster.machines), "UnknownMaker")
""",
     "table_entry_causes"),
    ("UnknownMaker is tried before OtherElection", "entries.py",
     """        require(entry.election == roster.election, "OtherElection")
        require(entry.maker < len(roster.machines), "UnknownMaker")
""",
     """        require(entry.maker < len(roster.machines), "UnknownMaker")
        require(entry.election == roster.election, "OtherElection")
""",
     "table_entry_causes"),
    ("BadSignature is tried before WrongIndex", "entries.py",
     """        require(entry.signature[:4] == u32(entry.number), "WrongIndex")
        key = roster.machines[entry.maker].key
        require(verify(key, entry.body, entry.signature), "BadSignature")
""",
     """        key = roster.machines[entry.maker].key
        require(verify(key, entry.body, entry.signature), "BadSignature")
        require(entry.signature[:4] == u32(entry.number), "WrongIndex")
""",
     "table_entry_causes"),
    ("Names may be equal", "entries.py",
     "all(first < second for first", "all(first <= second for first",
     "table_entry_causes"),
    ("NamesNotRising is tried before WrongShape of the deed", "entries.py",
     """    deed, text = read_deed(body[7], version), write_text(value)
    require(all(first < second for first, second in zip(names, names[1:])), "NamesNotRising")
""",
     """    require(all(first < second for first, second in zip(names, names[1:])), "NamesNotRising")
    deed, text = read_deed(body[7], version), write_text(value)
""",
     "table_entry_causes"),
    ("Deeds of version 2 are read in version 1", "entries.py",
     "DEEDS_OF = {1: DEEDS,", "DEEDS_OF = {1: {**LATER_DEEDS, **DEEDS},",
     "table_entry_causes"),
    ("An override of version 2 may lack how it is meant", "entries.py",
     'require(fields is not None and len(value) == len(fields) + 1, "WrongShape")',
     """require(fields is not None, "WrongShape")
    short = word == "override" and len(value) == 2
    require(short or len(value) == len(fields) + 1, "WrongShape")""",
     "table_entry_causes,audit"),
    ("A maker equal to the number of machines is known", "entries.py",
     "entry.maker < len(roster.machines)", "entry.maker <= len(roster.machines)",
     "table_entry_causes"),
    ("The digest is that of the body", "entries.py",
     "Entry(text, H(text),", "Entry(text, H(write_text(body)),",
     "table_strays"),
    ("A roster's SameName is tried before BadName", "entries.py",
     """    require(all(map(NAME.fullmatch, names)), "BadName")
    require(len(set(names)) == len(names), "SameName")
""",
     """    require(len(set(names)) == len(names), "SameName")
    require(all(map(NAME.fullmatch, names)), "BadName")
""",
     "table_roster_causes"),
    ("A roster's BadName is tried before TooManyMachines", "entries.py",
     """    require(len(machines) <= MACHINE_LIMIT, "TooManyMachines")
    require(all(map(NAME.fullmatch, names)), "BadName")
""",
     """    require(all(map(NAME.fullmatch, names)), "BadName")
    require(len(machines) <= MACHINE_LIMIT, "TooManyMachines")
""",
     "table_roster_causes"),
    ("A roster may have 15 machines", "entries.py",
     "MACHINE_LIMIT = 16", "MACHINE_LIMIT = 15",
     "table_roster_causes"),
    ("A roster without a machine is one", "entries.py",
     '.count("supervisor") == 1', '.count("supervisor") == bool(machines)',
     "table_roster_causes"),
    ("NotCanonical of a text that others follow is at its length", "entries.py",
     '"NotCanonical", end)', '"NotCanonical", len(octets))',
     "table_roster_causes"),
    ("A text that ends too early is NotCanonical at 0", "entries.py",
     """    with refused_as(cause="NotCanonical"):
        value, end = read_text(octets)
""",
     """    from texts import Refused
    try:
        value, end = read_text(octets)
    except Refused as refusal:
        place, cause = refusal.args
        raise Refused(0 if cause == "Cut" else place, "NotCanonical") from None
""",
     "table_roster_causes,rosters"),
    ("A set's type in a signature isn't compared", "signatures.py",
     "(number_at(signature, path - 4), number_at(signature, 4)) != types",
     "number_at(signature, path - 4) != types[0]",
     "table_entry_causes"),
    ("A tree's type in a signature isn't compared", "signatures.py",
     "(number_at(signature, path - 4), number_at(signature, 4)) != types",
     "number_at(signature, 4) != types[1]",
     "table_entry_causes"),
    ("Bytes after a signature are left out", "signatures.py",
     """    types = key_types(public_key)
    if types is None or len(signature)""",
     """    types = key_types(public_key)
    signature = signature[:signature_length(*types)] if types else signature
    if types is None or len(signature)""",
     "table_entry_causes"),
    ("The key's first number, of levels, isn't compared", "signatures.py",
     "or number_at(public_key, 0) != 2 or", "or",
     "table_endorsed"),
    ("The signature's first number isn't compared", "signatures.py",
     " or number_at(signature, 0) != 1:", ":",
     "table_endorsed,endorsed"),
    ("The lower key has the types of the upper one", "signatures.py",
     "    return (verify(public_key[4:], low_key,",
     "    return (low_key[:8] == public_key[4:12] and verify(public_key[4:], low_key,",
     "table_endorsed"),
    ("The checksum isn't shifted", "signatures.py",
     "for i in range(256 // w)) << ls", "for i in range(256 // w))",
     "table_play_limits"),
    ("q may be the number of leaves", "signatures.py",
     "!= types or q >= size:", "!= types or q > size:",
     "table_endorsed"),
    ("An atom may have 262,143 octets", "texts.py",
     "ATOM_LIMIT = 262144", "ATOM_LIMIT = 262143",
     "table_canonical"),
    ("Lists nest 9 deep", "texts.py", "DEPTH_LIMIT = 8", "DEPTH_LIMIT = 9", "table_canonical"),
    ("TooDeep is tried before TooMany", "texts.py",
     """    require(not in_full_list, "TooMany", place)
    if byte == b"(":
""",
     """    require(byte != b"(" or depth <= DEPTH_LIMIT, "TooDeep", place)
    require(not in_full_list, "TooMany", place)
    if byte == b"(":
""",
     "table_canonical"),
    ("TooMany is tried before NotAToken", "texts.py",
     """    require(byte == b"(" or byte.isdigit(), "NotAToken", place)
    require(not in_full_list, "TooMany", place)
""",
     """    require(not in_full_list, "TooMany", place)
    require(byte == b"(" or byte.isdigit(), "NotAToken", place)
""",
     "table_canonical"),
    ("A full list has no closing parenthesis", "texts.py",
     'while octets[place:place + 1] != b")":',
     'while octets[place:place + 1] != b")" or len(members) == MEMBER_LIMIT:',
     "table_canonical"),
    ("A digit after 0 is no token", "texts.py", '"LeadingZero"', '"NotAToken"', "table_canonical"),
    ("A list of 16,385 members is too long, not its last member", "texts.py",
     "MEMBER_LIMIT = 16384", "MEMBER_LIMIT = 16385",
     "table_canonical"),
    ("A torn file's offset is its length", "logs.py",
     '("torn", start)', '("torn", len(octets))',
     "table_canonical"),
    ("A malformed file's offset is its record's", "logs.py",
     '"%d %s" % (place, cause)', '"%d %s" % (start, cause)',
     "table_canonical"),
    ("Refused records aren't counted in places", "logs.py",
     "place = len(kept) + len(refused)", "place = len(kept)",
     "audit,gaps"),
    ("A header's owner may have leading zeros", "logs.py",
     """require(read_number(value[2]) is not None, "Header")
    return read_number(value[2]), end""",
     """require(value[2].isdigit() and int(value[2]) <= 4294967295, "Header")
    return int(value[2]), end""",
     "table_headers,audit"),
    ("A header with an owner that no machine has is refused", "logs.py",
     'require(read_number(value[2]) is not None, "Header")',
     'require((read_number(value[2]) or 0) < 4294967295 and read_number(value[2]) is not None, "Header")',
     "table_headers,audit"),
    ("Strays are judged in two passes", "verdicts.py",
     "        left = [distinct",
     """        for digest in list(self.strays):
            others = {one: distinct[one] for one in distinct.keys() - set(self.strays)}
            if not is_stray(distinct[digest], others):
                self.strays.remove(digest)
        left = [distinct""",
     "table_strays"),
    ("An entry with an equal stamp is no stray", "verdicts.py",
     ".stamp >= entry.stamp", ".stamp > entry.stamp",
     "table_strays"),
    ("A stray closes a gap", "reports.py",
     "for digest in gaps_of(survivors.entries)]",
     "for digest in gaps_of(survivors.entries) if digest not in survivors.strays]",
     "table_strays"),
    ("Whole means naming no gap oneself", "verdicts.py",
     "if names_gap.isdisjoint(found | {place})", "if place not in names_gap",
     "audit,order,rules"),
    ("Forks are listed by number first", "verdicts.py",
     "return sorted(pair for pair, count in counts.items() if count > 1)",
     """return sorted((pair for pair, count in counts.items() if count > 1),
                      key=lambda pair: (pair[1], pair[0]))""",
     "table_findings,audit"),
    ("Forks are listed by the machine's name", "reports.py",
     "for maker, number in survivors.forks()]",
     """for maker, number in sorted(survivors.forks(),
                       key=lambda pair: (roster.names[pair[0]], pair[1]))]""",
     "table_findings,audit"),
    ("Survivors of one stamp are in the order of the logs", "verdicts.py",
     """        left = [distinct[digest] for digest in distinct.keys() - set(self.strays)]
        self.entries = sorted(left, key=lambda entry: (entry.stamp, entry.digest))
""",
     """        left = [distinct[digest] for digest in distinct if digest not in self.strays]
        self.entries = sorted(left, key=lambda entry: entry.stamp)
""",
     "audit,proofs"),
    ("The limit of given entries is one less", "verdicts.py",
     "ENTRY_LIMIT = 16384", "ENTRY_LIMIT = 16383",
     "table_entry_limit"),
    ("The limit of given entries counts records", "verdicts.py",
     "len(distinct) <= limit",
     "len(given if limit == ENTRY_LIMIT else distinct) <= limit",
     "table_entry_limit"),
    ("A rule's width is counted by its own kind alone", "verdicts.py",
     "counted = around * len(self.of_kind(formula[2]))", "counted = len(self.of_kind(formula[2]))",
     "table_widths"),
    ("The limit of widths is one less", "verdicts.py",
     "WIDTH_LIMIT = 268435456", "WIDTH_LIMIT = 268435455",
     "table_widths"),
    ("A quantifier with before isn't counted in widths", "verdicts.py",
     "around * len(self.of_kind(formula[2]))",
     "around * (1 if formula[3] else len(self.of_kind(formula[2])))",
     "table_widths"),
    ("A width counts all survivors for each quantifier", "verdicts.py",
     "around * len(self.of_kind(formula[2]))", "around * len(self.entries)",
     "table_widths"),
    ("Quantifiers beside one another are multiplied", "verdicts.py",
     """        return max([self.width(part, around) for part in formula[1:] if nests], default=0)
""",
     """        product = around
        for part in formula[1:] if nests else []:
            product *= max(1, self.width(part))
        return product
""",
     "table_widths"),
    ("every before u is kept where u isn't whole", "verdicts.py",
     """        if before is not None and bound[before] not in self.whole:
            yield UNKNOWN
""",
     "",
     "audit,rules"),
    ("before is false where u isn't whole", "verdicts.py",
     "unless = FALSE if second in self.whole else UNKNOWN", "unless = FALSE",
     "table_findings,audit,rules"),
    ("before is unknown where u is whole", "verdicts.py",
     "unless = FALSE if second in self.whole else UNKNOWN", "unless = UNKNOWN",
     "audit,rules"),
    ("not of unknown is true", "verdicts.py",
     "return TRUE - self.value(parts[0], bound)",
     "return FALSE if self.value(parts[0], bound) == TRUE else TRUE",
     "table_findings,rules"),
    ("next takes its variables the other way round", "verdicts.py",
     "(entry.maker, entry.number + 1) == (other.maker, other.number)",
     "(entry.maker, entry.number) == (other.maker, other.number + 1)",
     "audit,rules"),
    ("next asks nothing of the maker", "verdicts.py",
     "(entry.maker, entry.number + 1) == (other.maker, other.number)",
     "entry.number + 1 == other.number",
     "table_findings,audit,rules"),
    ("same means one maker and number", "verdicts.py",
     "return entry is other", "return (entry.maker, entry.number) == (other.maker, other.number)",
     "table_findings,rules"),
    ("An override that says cast is of the kind override", "entries.py",
     '"forced" if deed["how"] == "cast" else word', "word",
     "table_findings,audit,rules"),
    ("An every with before shows its entry, too", "verdicts.py",
     'if formula[0] != "every" or formula[3] is not None:', 'if formula[0] != "every":',
     "table_findings,rules"),
    ("The entries of a broken rule are the last", "verdicts.py",
     "for place in self.of_kind(kind)]", "for place in reversed(self.of_kind(kind))]",
     "audit,rules"),
    ("An entry that leaves a rule unknown is shown, too", "verdicts.py",
     "if self.value(inside, one) == FALSE)", "if self.value(inside, one) != TRUE)",
     "table_findings,rules"),
    ("A verdict is broken only if no rule is unsettled", "reports.py",
     "    status = max(", """    status = 2 if "unsettled" in verdicts else max(""",
     "audit"),
    ("A break counts the kept records alone", "reports.py",
     '["break %s %d" % (name, record.place)', '["break %s %d" % (name, log.kept.index(record))',
     "table_breaks"),
    ("A break asks nothing of the stamp", "logs.py",
     "(entry.number, entry.stamp, entry.names) == self.next_sent()",
     "(entry.number, self.greatest_stamp + 1, entry.names) == self.next_sent()",
     "table_breaks"),
    ("A got entry may be the owner's", "logs.py",
     '(as_next if word == "sent" else not own)', '(as_next if word == "sent" else True)',
     "table_breaks"),
    ("A break is no finding", "reports.py",
     "len(lines) > len(logs) + 1",
     "len(lines) - sum(len(break_lines(*one)) for one in zip(names, logs)) > len(logs) + 1",
     "table_findings,audit"),
    ("An entry that is held twice is no break", "logs.py",
     "and self.add(word, entry)", "and (self.add(word, entry) or True)",
     "table_breaks"),
    ("watch prints no line for an entry that came before", "reports.py",
     """        lines.append(" ".join([str(len(lines) + 1)""",
     """        else:
            continue
        lines.append(" ".join([str(len(lines) + 1)""",
     "watch"),
    ("watch's limit is one less", "auditorium.py",
     "WATCH_LIMIT = 1024", "WATCH_LIMIT = 1023",
     "table_watch_limit"),
    ("watch's limit counts records", "verdicts.py",
     "len(distinct) <= limit",
     "len(distinct if limit == ENTRY_LIMIT else given) <= limit",
     "table_watch_limit"),
    ("watch's status goes by the rules alone", "auditorium.py",
     "return lines, audit_report(roster, rules, log_names, logs, survivors)[1]",
     "return lines, audit_report(roster, rules, [], [], survivors)[1]",
     "watch"),
    ("watch goes by the survivors of all records", "reports.py",
     "survivors = Survivors(given.values())",
     "survivors = Survivors([one.entry for log in logs for one in log.kept])",
     "watch"),
    ("Of several entries NAME.NUMBER means the greatest digest", "reports.py",
     "survivors.places[min(meant)]", "survivors.places[max(meant)]",
     "table_strays,table_orders,order"),
    ("apart needs only one whole entry", "reports.py",
     '"apart" if {first, second} <= whole', '"apart" if {first, second} & whole',
     "table_orders,order"),
    ("A stopped bearer answers in repair", "playing.py",
     "if not other.stopped and digest in other.entries]", "if digest in other.entries]",
     "table_repairs,play"),
    ("Entries are answered by their maker alone", "playing.py",
     "if not other.stopped and digest in other.entries]",
     "if not other.stopped and digest in [one.digest for one in other.sent]]",
     "table_repairs,play"),
    ("repair does no actions at its end", "playing.py",
     """            while self.act(player.owner):
""",
     """            while False:
""",
     "table_repairs"),
    ("repair ends after one round", "playing.py",
     """        while any([self.repair_turn(player) for player in self.players]):
            pass
""",
     """        any([self.repair_turn(player) for player in self.players])
""",
     "table_repairs,play"),
    ("A stopped machine hears", "playing.py",
     "or at == sender or player.stopped or", "or at == sender or",
     "table_repairs,play"),
    ("A stopped machine isn't heard", "playing.py",
     "or at == sender or player.stopped or",
     "or at == sender or self.players[sender].stopped or player.stopped or",
     "table_repairs,play"),
    ("An override ends its session", "playing.py",
     'for word in ("cast", "cancel", "challenge"))',
     'for word in ("cast", "cancel", "challenge", "override"))',
     "table_overrides,table_play_causes"),
    ("A challenge doesn't end its session", "playing.py",
     'for word in ("cast", "cancel", "challenge"))', 'for word in ("cast", "cancel"))',
     "table_overrides,table_play_causes"),
    ("Ended is tried before NotActive", "playing.py",
     '"NotActive Ended AlreadyCommitted', '"Ended NotActive AlreadyCommitted',
     "table_overrides,table_play_causes"),
    ("Ended is tried before NotCommitted", "playing.py",
     '"cast": "NotCommitted Ended', '"cast": "Ended NotCommitted',
     "table_overrides,table_play_causes"),
    ("Overridden is tried before AlreadyActive", "playing.py",
     "Ended AlreadyActive Overridden", "Ended Overridden AlreadyActive",
     "table_overrides,table_play_causes"),
    ("BoothBusy is tried before SessionUsed", "playing.py",
     "SessionUsed BoothBusy", "BoothBusy SessionUsed",
     "table_overrides,table_play_causes"),
    ("A challenge is stopped by an override that says cancel alone", "playing.py",
     'if word == "cast" else {}', 'if word in ("cast", "challenge") else {}',
     "table_overrides,table_play_causes"),
    ("A cast is stopped by any override", "playing.py",
     '{"how": "cancel"} if word == "cast" else {}', "{}",
     "table_overrides,table_play_causes"),
    ("NothingCommitted asks for the supervisor's own", "playing.py",
     'not has(held, "commit", session=session)', 'not has(own, "commit", session=session)',
     "table_overrides,table_play_causes,play"),
    ("A cast needs no whole log", "playing.py",
     '"cast": "NotCommitted Ended Overridden Closed LogNotWhole"',
     '"cast": "NotCommitted Ended Overridden Closed"',
     "table_repairs,play"),
    ("Full is tried before a role's causes", "playing.py",
     '["Stopped", *CAUSES[deed["word"]].split(" "), "Full", "StampSpent", "Spent"]',
     '["Stopped", "Full", *CAUSES[deed["word"]].split(" "), "StampSpent", "Spent"]',
     "table_play_limits,play"),
    ("Spent is tried before Full", "playing.py",
     '"Full", "StampSpent", "Spent"]', '"Spent", "Full", "StampSpent"]',
     "table_play_limits"),
    ("The first stamp is 0", "logs.py",
     "len(self.sent), self.greatest_stamp + 1,", "len(self.sent), self.greatest_stamp + bool(self.events),",
     "play"),
    ("An entry names all that is held", "logs.py",
     "sorted(self.entries.keys() - self.named)", "sorted(self.entries)",
     "play"),
    ("A comment is tried for NotPlain", "scripts.py",
     'if line and not line.startswith(b"#"):',
     'if line and (not line.startswith(b"#") or max(line) > 126):',
     "table_script_orders"),
    ("WrongCount is tried before a deed's UnknownWord", "scripts.py",
     """            require(fields is not None, "UnknownWord")
""",
     """            require(fields is not None, "UnknownWord" if len(words) == 3 else "WrongCount")
""",
     "table_script_orders,script"),
    ("A script's end is at its last line", "scripts.py",
     "with refused_as(len(texts) + 1):", "with refused_as(len(texts)):",
     "table_script_orders"),
    ("OutOfRange of a line's kind is tried before its words", "scripts.py",
     """        for form, word in zip(forms, words):
            self.values.append(self.read_word(form, word))
""",
     """        require(len(self.lines[kind]) < LINE_LIMITS.get(kind, MACHINE_LIMIT), "OutOfRange")
        for form, word in zip(forms, words):
            self.values.append(self.read_word(form, word))
""",
     "table_script_limits"),
    ("A session may be 0", "scripts.py",
     '"session": (1, NUMBER_LIMIT)', '"session": (0, NUMBER_LIMIT)',
     "table_script_limits"),
    ("A lost entry's number may be 4,096", "scripts.py",
     '"number": (0, 4095)', '"number": (0, 4096)',
     "table_script_limits"),
    ("UnknownWord of a deed is tried before OutOfOrder", "scripts.py",
     """        require(self.is_in_order(kind), "OutOfOrder")
""",
     """        self.forms(kind, words)
        require(self.is_in_order(kind), "OutOfOrder")
""",
     "table_script_orders"),
    ("An unknown field is Shape", "rules.py",
     'require(field in FIELDS[self.bound[variable]], "WrongField")',
     'require(field in FIELDS[self.bound[variable]], "WrongField" if field in SORTS else "Shape")',
     "table_rules,rulestext"),
    ("UnknownKind is tried before SameName", "rules.py",
     """        self.require(variable not in self.bound, "SameName")
        self.advance()
        kind, before = self.read_kind(), None
""",
     """        self.advance()
        kind, before = self.read_kind(), None
        self.require(variable not in self.bound, "SameName")
""",
     "table_rules,rulestext"),
    ("A rule's own parenthesis isn't counted", "rules.py",
     "self.open < PARENTHESIS_LIMIT", "self.open <= PARENTHESIS_LIMIT",
     "table_rules"),
    ("Machines have an order", "rules.py",
     '["count", "session"]', '["count", "session", "machine"]',
     "table_rules,rulestext"),
    ("An unbound variable after before may be bound by its own quantifier", "rules.py",
     """        if self.token == "before":
""",
     """        self.bound[variable] = kind
        if self.token == "before":
""",
     "table_rules"),
    ("A proof's NotReached is tried before NotFalling", "proofs.py",
     """        require(len(ticked) == 1 or ancestor < ticked[-1], "NotFalling")
        require(via in ticked, "NotReached")
""",
     """        require(via in ticked, "NotReached")
        require(len(ticked) == 1 or ancestor < ticked[-1], "NotFalling")
""",
     "table_proofs,proofs"),
    ("The first A of a line is compared with I", "proofs.py",
     "require(len(ticked) == 1 or ancestor < ticked[-1]", "require(ancestor < ticked[-1]",
     "table_proofs"),
    ("NotClosed is tried before an unended line's Form", "proofs.py",
     """    require(ended, "Form")
    found = set(ticked[1:])
    require(all(found.issuperset(survivors.parents[one]) for one in ticked), "NotClosed")
""",
     """    found = set(ticked[1:])
    require(all(found.issuperset(survivors.parents[one]) for one in ticked), "NotClosed")
    require(ended, "Form")
""",
     "table_proofs,proofs"),
    ("A second line's Form is tried before WrongCount", "proofs.py",
     """                require(read_word(words[1]) == len(survivors.entries), "WrongCount")
                require(len(words) == 2 and ended, "Form")
""",
     """                require(len(words) == 2 and ended, "Form")
                require(read_word(words[1]) == len(survivors.entries), "WrongCount")
""",
     "table_proofs"),
    ("A survivor without a line is whole", "verdicts.py",
     """        return {place for place, found in ancestors.items()
                if names_gap.isdisjoint(found | {place})}
""",
     """        return {place for place in range(len(self.entries))
                if names_gap.isdisjoint(ancestors.get(place, set()) | {place})}
""",
     "proofs"),
    ("The canonical V is the least that is allowed", "proofs.py",
     "vias.setdefault(ancestor, via)", "vias[ancestor] = via",
     "proofs"),
    ("A log with refused records has no gaps", "auditorium.py",
     "for digest in found]", "for digest in found if not log.refused]",
     "gaps"),
    ("A refused word of order is named X", "auditorium.py",
     "with refusing(word):", 'with refusing("X"):',
     "order"),
    ("check reads the proof before the logs", "auditorium.py",
     """    roster, rules, _, survivors = read_inputs(files, roster_name, rules_name, log_names)
    ancestors""",
     """    Files().read(proof_name, LARGE)
    roster, rules, _, survivors = read_inputs(files, roster_name, rules_name, log_names)
    ancestors""",
     "table_reading"),
    ("Rules are read before the roster", "auditorium.py",
     """    roster, rules = files.read(roster_name, MIDDLE, read_roster), STANDARD
""",
     """    if rules_name not in (None, "standard"):
        files.read(rules_name, MIDDLE, read_rules)
    roster, rules = files.read(roster_name, MIDDLE, read_roster), STANDARD
""",
     "table_reading"),
    ("A rule that is too wide is refused before the proof", "auditorium.py",
     """    ancestors = files.read(proof_name, LARGE, read_proof, survivors)
""",
     """    with refusing(rules_name):
        Judge(survivors, survivors.ancestors, roster).verdicts(rules)
    ancestors = files.read(proof_name, LARGE, read_proof, survivors)
""",
     "table_widths"),
    ("17 logs are allowed", "auditorium.py", "min(16, max(1,", "min(17, max(1,", "table_words"),
    ("15 logs are the most", "auditorium.py", "min(16, max(1,", "min(15, max(1,", "table_words"),
    ("A number of order may have leading zeros", "auditorium.py",
     "return NAME.fullmatch(name) and read_decimal(number) is not None",
     "return NAME.fullmatch(name) and number.isdigit() and int(number) <= 4294967295",
     "table_words"),
    ("N may be 801", "auditorium.py", "in range(1, 801)", "in range(1, 802)", "table_words"),
    ("A word may begin with -", "auditorium.py",
     '"[!-,.-~][!-~]{0,1023}"', '"[!-~][!-~]{0,1023}"',
     "table_words,usage"),
    ("A word may have 1,025 bytes", "auditorium.py", "{0,1023}", "{0,1024}", "table_words"),
    ("A file that was read may be replaced", "files.py",
     "any(os.path.samefile(name, other) for other in self.names_read)", "name in self.names_read",
     "table_replacing"),
    ("A symbolic link is replaced", "files.py",
     """mode = os.lstat(name).st_mode
        if not stat""",
     """mode = os.stat(name).st_mode
        if not stat""",
     "table_replacing"),
    ("A write-protected file is replaced", "files.py",
     " or not mode & stat.S_IWUSR:", ":",
     "table_replacing"),
    ("A replaced file has the permission bits of a new one", "files.py",
     """    elif mode:
""",
     """    elif False:
""",
     "table_replacing"),
    ("A file that begins with a proof's word isn't kept", "files.py",
     'b"(6:o", b"proo", b', 'b"(6:o", b',
     "table_office_files,table_replacing"),
    ("An office exists where its file can't be read", "auditorium.py",
     """    with refusing(name + ".office"):
        require(octets_of(name + ".office", SMALL) is None, "Exists")
""",
     """    import os
    with refusing(name + ".office"):
        require(not os.path.lexists(name + ".office"), "Exists")
""",
     "table_office_files"),
    ("A spent office is refused after FILE is read", "auditorium.py",
     """        require(number < SPENT, "Spent")
    signature = sign_as_office(name, seed, number, files.read(file_name, LARGE))
""",
     """        octets = files.read(file_name, LARGE)
        require(number < SPENT, "Spent")
    signature = sign_as_office(name, seed, number, octets)
""",
     "table_reading,office"),
]
