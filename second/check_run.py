"""Output lines, `run`: is what a run wrote and printed a legal outcome of its script?

check_run.py SCRIPT PREFIX OUTPUT prints each fault; the status is 1 if there is one, and else 0.
"""
import itertools
import sys

from files import LARGE, Files
from logs import read_log
from playing import Play
from scripts import read_script

def steps_of(logs):
    """The steps that make the events of all logs, in the order of a play that makes them."""
    steps = []
    for machine, log in enumerate(logs):
        stamp = 0
        for record in log.kept:
            got, entry = record.word == "got", record.entry
            stamp = max(stamp, entry.stamp)
            step = ("hear", machine, entry.maker, entry.number) if got else ("act", machine)
            steps.append((stamp, got, machine, record.place, step))
    return [step for *_, step in sorted(steps)]

def loss_causes(script, sender, receiver, number, put):
    """The causes that a loss can have, `put` entries with lower numbers being on the link."""
    if (sender.owner, number, receiver.owner) in script.lost:
        return ["Scripted"]
    events = len(receiver.events)
    stopped = events == script.stops.get(receiver.owner)
    causes = {"LinkFull": put >= script.link, "ToStopped": stopped, "LogFull": not stopped and events >= script.log}
    return [cause for cause, applies in causes.items() if applies]

def loss_faults(play, lines):
    """The faults of the `loss` lines, each of which is asked for in its place."""
    faults, left = [], list(lines)
    for sender, receiver in itertools.permutations(play.players, 2):
        put = 0
        for number, entry in enumerate(sender.sent):
            head, cause = "loss %s.%d %s " % (sender.name, number, receiver.name), None
            if left and left[0].startswith(head):
                cause = left.pop(0)[len(head):]
                if cause not in loss_causes(play.script, sender, receiver, number, put):
                    faults.append("not so: " + head + cause)
            if (cause is None) != (entry.digest in receiver.entries):
                faults.append("got and lost, or neither: " + head)
            put += cause not in ("Scripted", "LinkFull")
    return faults + left

def faults_of(script, files, prefix, output):
    """The faults of a run's files, a mapping of names to octets, and of its output."""
    play = Play(script)
    if files[prefix + ".roster"] != play.roster.text:
        return ["the roster isn't the script's"]
    names = ["%s.%s.log" % (prefix, name) for name in play.roster.names]
    logs = [read_log(files[name], play.roster) for name in names]
    if any(log.refused or log.ending for log in logs):
        return ["a log has a refused record, or doesn't end clean"]
    play.take_steps(steps_of(logs))
    faults = ["the log of " + name for name, octets in play.files(prefix) if files[name] != octets]
    for machine, most in script.stops.items():
        events = len(logs[machine].kept)
        play.players[machine].stopped = events == most
        faults += ["events after a stop: " + names[machine]] if events > most else []
    lines, machines, undone = output.splitlines(), play.machine_lines(), play.undone_lines()
    losses = lines[len(machines):len(lines) - len(undone)]
    faults += [line for line in undone if line.endswith(" Ready")] + loss_faults(play, losses)
    if lines != machines + losses + undone:
        faults.append("the output isn't that of the logs")
    counts = [len(machine.actions) for machine in script.machines]
    enough = script.link >= max(counts) and script.log >= sum(counts)
    if losses and enough and not script.lost and not script.stops:
        faults.append("a loss without a line that loses")
    return faults

def main(script_name, prefix, output_name):
    files = Files()
    script = files.read(script_name, LARGE, read_script)
    names = ["%s.%s.log" % (prefix, machine.name) for machine in script.machines]
    written = {name: files.read(name, LARGE) for name in names + [prefix + ".roster"]}
    faults = faults_of(script, written, prefix, files.read(output_name, LARGE).decode())
    sys.stdout.writelines(fault + "\n" for fault in faults)
    return 1 if faults else 0

if __name__ == "__main__":
    sys.exit(main(*sys.argv[1:]))
