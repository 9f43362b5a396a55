"""Words of the command line, Output lines and Statuses: the commands."""
import functools
import re
import sys

from entries import NAME, gaps_of, read_roster
from files import LARGE, MIDDLE, SMALL, Answer, Files, octets_of, refusing
from logs import read_log
from playing import Play, has_ended
from proofs import canonical_proof, read_proof
from reports import audit_report, find_survivor, order_line, record_lines, tally, watch_lines, with_verdict
from rules import STANDARD, read_rules
from scripts import made_script, read_script
from signatures import (SPENT, read_office, sign_as_office, top_key, two_level_key,
                        verify_two_levels, write_office)
from texts import read_decimal, require
from verdicts import ENTRY_LIMIT, Judge, gather

WORD = re.compile("[!-,.-~][!-~]{0,1023}")
HEX64 = re.compile("[0-9a-f]{64}")
WATCH_LIMIT = 1024

def read_inputs(files, roster_name, rules_name, log_names, limit=ENTRY_LIMIT):
    """A roster, rules, of another file if one is named, logs, and the survivors of their entries."""
    roster, rules = files.read(roster_name, MIDDLE, read_roster), STANDARD
    if rules_name not in (None, "standard"):
        rules = files.read(rules_name, MIDDLE, read_rules)
    logs = [files.read(name, LARGE, read_log, roster) for name in log_names]
    with refusing("entries"):
        return roster, rules, logs, gather(logs, limit)

def gaps(files, name):
    log = files.read(name, LARGE, read_log)
    found = gaps_of([record.entry for record in log.kept])
    lines = record_lines(name, log) + ["gap " + digest.hex() for digest in found]
    return lines, 1 if lines else 0

def play(files, script_name, prefix, repairs=False):
    game = Play(files.read(script_name, MIDDLE, read_script))
    game.take_steps(game.script.steps)
    if repairs:
        game.repair()
    files.write(game.files(prefix))
    undone = game.undone_lines()
    return game.machine_lines() + game.mended + undone, 7 if undone else 0

def order(files, roster_name, first, second, *log_names):
    roster, _, _, survivors = read_inputs(files, roster_name, None, log_names)
    places = []
    for word in (first, second):
        with refusing(word):
            places.append(find_survivor(word, survivors, roster))
    return [order_line(survivors, *places)], 0

def audit(files, roster_name, rules_name, *log_names):
    roster, rules, logs, survivors = read_inputs(files, roster_name, rules_name, log_names)
    with refusing(rules_name):
        return audit_report(roster, rules, log_names, logs, survivors)

def watch(files, roster_name, rules_name, *log_names):
    inputs = read_inputs(files, roster_name, rules_name, log_names, WATCH_LIMIT)
    roster, rules, logs, survivors = inputs
    with refusing(rules_name):
        lines = watch_lines(roster, rules, logs)
        return lines, audit_report(roster, rules, log_names, logs, survivors)[1]

def prove(files, roster_name, proof_name, *log_names):
    survivors = read_inputs(files, roster_name, None, log_names)[3]
    proof, count = canonical_proof(survivors), len(survivors.entries)
    with refusing(proof_name):
        require(len(proof) <= LARGE, "TooLong")
    files.write([(proof_name, proof)])
    return ["proof %s entries %d bytes %d" % (proof_name, count, len(proof))], 0

def check(files, roster_name, rules_name, proof_name, *log_names):
    roster, rules, _, survivors = read_inputs(files, roster_name, rules_name, log_names)
    ancestors = files.read(proof_name, LARGE, read_proof, survivors)
    with refusing(rules_name):
        verdicts = Judge(survivors, ancestors, roster).verdicts(rules)
    lines = ["%s %s" % (verdict, rule.name) for verdict, rule in zip(verdicts, rules)]
    return with_verdict(lines, verdicts)

def make(_, count):
    return made_script(int(count)), 0

def demo(_, count):
    game = Play(read_script("\n".join(made_script(int(count))).encode()))
    game.take_steps(game.script.steps)
    octets, half = game.players[0].text(), (int(count) + 1) // 2
    end = [record.end for record in read_log(octets).kept if has_ended([record.entry], half)][0]
    logs = [read_log(octets[:end + 1], game.roster)]
    survivors, sent = gather(logs), sum(len(player.sent) for player in game.players)
    lines = ["sessions " + count, "entries %d" % sent, "survivors %d" % len(survivors.entries)]
    status = audit_report(game.roster, STANDARD, ["sv"], logs, survivors)[1]
    return lines + tally(game.roster, STANDARD, survivors), status

def office(files, name, seed):
    with refusing(name + ".office"):
        require(octets_of(name + ".office", SMALL) is None, "Exists")
    seed = bytes.fromhex(seed)
    files.write([(name + ".key", two_level_key(top_key(name, seed))),
                 (name + ".office", write_office(seed, 0))])
    return ["office " + name], 0

def endorse(files, name, file_name):
    seed, number = files.read(name + ".office", SMALL, read_office)
    with refusing(name + ".office"):
        require(number < SPENT, "Spent")
    signature = sign_as_office(name, seed, number, files.read(file_name, LARGE))
    # The number is used up, whatever becomes of the signature.
    files.write([(name + ".office", write_office(seed, number + 1))])
    files.write([(file_name + ".sig", signature)])
    return ["endorsed %s %d" % (file_name, number)], 0

def endorsed(files, key_name, file_name, signature_name):
    key, octets = files.read(key_name, SMALL), files.read(file_name, LARGE)
    good = verify_two_levels(key, octets, files.read(signature_name, SMALL))
    return (["good"], 0) if good else (["bad"], 1)

repair = functools.partial(play, repairs=True)
# The commands, and what the words after each are.
COMMANDS = {"gaps": (gaps, "name"), "play": (play, "name name"), "repair": (repair, "name name"),
            "order": (order, "name entry entry logs"), "audit": (audit, "name name logs"),
            "watch": (watch, "name name logs"), "prove": (prove, "name name logs"),
            "check": (check, "name name name logs"), "make": (make, "count"),
            "demo": (demo, "count"), "office": (office, "name seed"),
            "endorse": (endorse, "name name"), "endorsed": (endorsed, "name name name")}

def fits(form, word):
    if form == "count":
        return read_decimal(word) in range(1, 801)
    if form == "entry" and "." in word:
        name, number = word.split(".", 1)
        return NAME.fullmatch(name) and read_decimal(number) is not None
    return form == "name" or HEX64.fullmatch(word)

def is_valid(words):
    if not all(map(WORD.fullmatch, words)) or not words or words[0] not in COMMANDS:
        return False
    forms = COMMANDS[words[0]][1].split(" ")
    if forms[-1] == "logs":
        forms = forms[:-1] + ["name"] * min(16, max(1, len(words) - len(forms)))
    return len(words) - 1 == len(forms) and all(map(fits, forms, words[1:]))

def answer(words):
    """The standard output and the status of a command line."""
    if not is_valid(words):
        return "usage\n", 4
    try:
        lines, status = COMMANDS[words[0]][0](Files(), *words[1:])
        return "".join(line + "\n" for line in lines), status
    except Answer as early:
        return early.args

if __name__ == "__main__":
    output, status = answer(sys.argv[1:])
    sys.stdout.write(output)
    sys.exit(status)
