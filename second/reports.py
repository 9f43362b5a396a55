"""Output lines: what order, audit, watch and check print."""
import itertools

from entries import gaps_of
from logs import History
from texts import require
from verdicts import Judge, Survivors

# The verdicts over all, each at the place of its status.
OVERALL = ["kept", "findings", "unsettled", "broken"]

def name_of(entry, roster):
    return "%s.%d" % (roster.names[entry.maker], entry.number)

def record_lines(name, log):
    """The lines of refused records, and of an end that isn't clean."""
    lines = ["refused %s %d %s" % (name, *refused) for refused in log.refused]
    if log.ending:
        lines.append("%s %s %s" % (log.ending[0], name, log.ending[1]))
    return lines

def break_lines(name, log):
    """The line of the record at which the kept ones stop being a legal history."""
    history = History(log.owner)
    ends = (record for record in log.kept if not history.follow(record.word, record.entry))
    return ["break %s %d" % (name, record.place) for record in itertools.islice(ends, 1)]

def with_verdict(lines, verdicts, findings=False):
    """Lines with that of the verdict over all after them, and its status."""
    status = max(map(OVERALL.index, [*verdicts, "findings" if findings else "kept"]))
    return lines + ["verdict " + OVERALL[status]], status

def audit_report(roster, rules, names, logs, survivors):
    """The lines of a report, and its status."""
    judge = Judge(survivors, survivors.ancestors, roster)
    verdicts, lines = judge.verdicts(rules), []
    for name, log in zip(names, logs):
        counts = name, log.owner, len(log.kept), len(log.refused)
        lines.append("log %s owner %d kept %d refused %d" % counts)
        lines += record_lines(name, log) + break_lines(name, log)
    lines.append("entries %d" % len(survivors.entries))
    lines += ["stray " + digest.hex() for digest in survivors.strays]
    lines += ["fork %s %d" % (roster.names[maker], number) for maker, number in survivors.forks()]
    lines += ["gap " + digest.hex() for digest in gaps_of(survivors.entries)]
    # All lines so far but one for each log and the number of entries are findings.
    findings = len(lines) > len(logs) + 1
    for rule, verdict in zip(rules, verdicts):
        culprits = judge.culprits(rule.formula, {}) if verdict == "broken" else []
        words = ["%s:%s" % (name_of(entry, roster), entry.digest.hex()) for entry in culprits]
        lines.append(" ".join([verdict, rule.name, *words]))
    return with_verdict(lines, verdicts, findings)

def tally(roster, rules, survivors):
    """How many gaps and how many rules of each verdict there are, as words."""
    found = Judge(survivors, survivors.ancestors, roster).verdicts(rules)
    words = ["%s %d" % (one, found.count(one)) for one in ("kept", "broken", "unsettled")]
    return ["gaps %d" % len(gaps_of(survivors.entries)), *words]

def watch_lines(roster, rules, logs):
    """A line for each kept record."""
    given, lines = {}, []
    for entry in [record.entry for log in logs for record in log.kept]:
        if entry.digest not in given:
            given[entry.digest] = entry
            survivors = Survivors(given.values())
            words = [str(len(survivors.entries)), *tally(roster, rules, survivors)]
        lines.append(" ".join([str(len(lines) + 1), *words]))
    return lines

def find_survivor(word, survivors, roster):
    """The number of the survivor that a word of `order` means."""
    meant = [entry.digest for entry in survivors.entries
             if word in (entry.digest.hex(), name_of(entry, roster))]
    require(meant, "NoEntry")
    return survivors.places[min(meant)]

def order_line(survivors, first, second):
    if first == second:
        return "same"
    if first in survivors.ancestors[second]:
        return "before"
    if second in survivors.ancestors[first]:
        return "after"
    whole = survivors.whole(survivors.ancestors)
    return "apart" if {first, second} <= whole else "unknown"
