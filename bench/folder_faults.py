"""Fails and ends each system call on files of the commands that write files, one at a time, and looks at what is left.

usage: python3 bench/folder_faults.py PROGRAM [ERROR..] [WORD..]

PROGRAM is the built `auditorium_cli`. It runs under `strace`, which has to be installed, in a fresh folder each time.
Each of the calls below fails at each of its places with EIO, ENOSPC, EINTR, EDQUOT, EROFS and EACCES, and the program
is killed before it. A program that is killed before each call and before its end has been killed after each call too,
for between them it changes nothing. With ERROR.. only these are tried, with WORD.. only cases whose name has one of
them.

Looked at after each run:
- the status and the output are those of docs/FORMATS.md, and a call that a signal interrupts is made again;
- each name has its old or its new bytes, whole, or is absent where it may be;
- a set (a roster with its logs) is old, or new, or has no roster;
- an office that is made has its key;
- the number of an office is above that of each signature of its, under whatever name;
- what gets its name is on the disk before, and what has to come first is so too: the logs of a set before its roster, a
  key before its office, an office's number before a signature is begun (by the trace of one run);
- no other name is left unless the program was killed or a removal failed;
- the same command is then done, its files are there, and none of another name.

Printed is a row for each case: runs that failed, runs that were killed, and how many of them left something else
(bad). The first of those have a line each, with the words to try it by.
"""

import os
import re
import shutil
import signal
import subprocess
import sys
import tempfile

ERRORS = ["EIO", "ENOSPC", "EINTR", "EDQUOT", "EROFS", "EACCES"]

CALLS = """open openat creat read pread64 readv write pwrite64 writev lseek fsync fdatasync rename renameat renameat2
unlink unlinkat truncate ftruncate flock fcntl chmod fchmod fchmodat chown fchown fchownat lchown stat lstat fstat
newfstatat statx close link linkat symlink mkdir""".split()

SEED = "00" * 32
OFFICE = b"(6:office1:132:"
SIGNATURE_BYTES = 4916
LOW_INDEX = 4 + 2348 + 56

BALLOT = "07" * 32

SCRIPT = f"""seed %s
key w4 h5
log 64
link 64
machine sv supervisor
machine b1 booth
do sv open
do sv authorise b1 1
do sv close
do b1 activate 1
do b1 commit 1 {BALLOT}
do b1 cast 1 {BALLOT}
step act sv
step act sv
step hear b1 sv 0
step hear b1 sv 1
step act b1
step act b1
step act b1
step hear sv b1 0
step hear sv b1 1
step hear sv b1 2
step act sv
step hear b1 sv 2
"""

SET = ["p.roster", "p.sv.log", "p.b1.log"]


def put(folder, name, content):
    with open(os.path.join(folder, name), "wb") as file:
        file.write(content)


def files_of(folder):
    """The bytes of each file by its name."""
    found = {}
    for name in sorted(os.listdir(folder)):
        with open(os.path.join(folder, name), "rb") as file:
            found[name] = file.read()
    return found


def run(program, folder, words, strace=()):
    """The status (below 0 where a signal ended it), the output, and what was said on standard error."""
    done = subprocess.run([*strace, program, *words.split()], cwd=folder, capture_output=True)
    status = done.returncode
    return (status if status < 128 else 128 - status), done.stdout, done.stderr


def number_of(signature):
    """The number of an office's signature: 1,024 for each tree before, and its place in its own."""
    high, low = (int.from_bytes(signature[at : at + 4], "big") for at in (4, LOW_INDEX))
    return high * 1024 + low


def office_number(text):
    """The next number of an office's text."""
    rest = text[len(OFFICE) + 32 : -1]
    return int(rest[rest.index(b":") + 1 :])


class Case:
    """A command over some files that are there before."""

    def __init__(self, program, name, words, old, written, may_be_absent=(), again=None):
        self.program, self.name, self.words = program, name, words
        self.old, self.written = old, written
        self.may_be_absent = may_be_absent
        self.again = again or (lambda found: (0, self.output))
        self.tried = {}
        with tempfile.TemporaryDirectory() as folder:
            self.fill(folder)
            status, self.output, _ = run(program, folder, words)
            assert status == 0, (name, words, status, self.output)
            self.new = files_of(folder)
        assert set(self.new) == set(old) | set(written), (name, sorted(self.new))
        with tempfile.TemporaryDirectory() as folder:
            self.fill(folder)
            assert run(program, folder, words)[:2] == (0, self.output) and files_of(folder) == self.new, name

    def fill(self, folder):
        for name, content in self.old.items():
            put(folder, name, content)

    def calls(self):
        """Each call with its place among those of its name, in their order. Those of the loader don't count."""
        with tempfile.TemporaryDirectory() as folder:
            self.fill(folder)
            with tempfile.NamedTemporaryFile("r") as trace:
                run(self.program, folder, self.words, ["strace", "-o", trace.name, "-e", "trace=" + ",".join("?" + c for c in CALLS)])
                lines = trace.read().splitlines()
        counts, found, started = {}, [], False
        for line in lines:
            matched = re.match(r"(\w+)\(", line)
            if not matched:
                continue
            call = matched.group(1)
            counts[call] = counts.get(call, 0) + 1
            started = started or is_own(line)
            if started:
                found.append((call, counts[call]))
        return found


    def faults_then(self, folder, found):
        """What is wrong of the same command over these files, which is tried once for each that are found."""
        state = tuple(sorted(found.items()))
        if state not in self.tried:
            expected = self.again(found)
            again = run(self.program, folder, self.words)[:2]
            if again != expected:
                self.tried[state] = [f"the same command then ends with {again[0]}: {again[1].decode()!r}"]
            elif again[0] != 0:
                self.tried[state] = []
            else:
                self.tried[state] = [f"then: {fault}" for fault in faults_of_next(self, found, files_of(folder))]
        return self.tried[state]


def is_own(line):
    """Whether the call names a file beside the program, as no call of the loader does."""
    names = re.findall(r'"([^"]*)"', line)
    return bool(names) and names[0] != "" and names[0][0] != "/" and not line.startswith(("read", "write", "pread"))


def is_mixed(case, found):
    """Whether a set has a roster of one run and a log of another."""
    if "p.roster" not in case.written or "p.roster" not in found:
        return False
    of = [files for files in (case.old, case.new) if files.get("p.roster") == found["p.roster"]]
    return not any(all(found.get(name) == files.get(name) for name in SET) for files in of)


def faults_of_files(case, found):
    """What is wrong of the names and bytes that are there."""
    wrong = []
    for name in set(case.old) | set(case.written):
        allowed = [files[name] for files in (case.old, case.new) if name in files]
        if name in found:
            if found[name] not in allowed:
                wrong.append(f"{name} is neither old nor new")
        elif name in case.old and name not in case.may_be_absent:
            wrong.append(f"{name} is gone")
    if is_mixed(case, found):
        wrong.append("a mixed set")
    if "o.office" in case.written and "o.office" in found:
        next_number = office_number(found["o.office"])
        for name, content in found.items():
            if len(content) == SIGNATURE_BYTES and number_of(content) >= next_number:
                wrong.append(f"{name} is signed with {number_of(content)}, and the next number is {next_number}")
    if case.words.startswith("office ") and "o.office" in found and "o.key" not in found:
        wrong.append("an office without its key")
    return wrong


def others_of(case, found):
    return sorted(set(found) - set(case.old) - set(case.written))


def faults_of_end(case, found, status, output, error):
    """What is wrong of the status and the output, for a call that failed with this error, or a killed program."""
    is_new = all(found.get(name) == case.new[name] for name in case.written)
    is_old = all(found.get(name) == case.old.get(name) for name in case.written)
    if error is None:
        return [] if case.output.startswith(output) else ["another output"]
    if error == "EINTR" and status != 0:
        return [f"not made again: status {status}"]
    if status == 0:
        return [] if is_new and output == case.output else ["status 0 without all files and the output"]
    if status == 8:
        return [] if is_old and not output else ["status 8 with a change"]
    if status == 9:
        if not case.output.startswith(output):
            return ["another output"]
        return [] if is_new or not output else ["an output before all files"]
    return [f"status {status}"]


def try_once(case, call, place, error):
    """What is wrong where this call, at this place, fails with the error, or the program is killed before it."""
    what = f"{call}:error={error}:when={place}" if error else f"{call}:signal=KILL:when={place}"
    strace = ["strace", "-qqq", "-o", "/dev/null", "-e", f"trace={call}", "-e", f"inject={what}"]
    with tempfile.TemporaryDirectory() as folder:
        case.fill(folder)
        status, output, said = run(case.program, folder, case.words, strace)
        found = files_of(folder)
        wrong = faults_of_files(case, found) + faults_of_end(case, found, status, output, error)
        if error and call not in ("unlink", "unlinkat") and others_of(case, found):
            wrong.append(f"{', '.join(others_of(case, found))} left")
        if not error and status != -signal.SIGKILL:
            wrong.append(f"not killed: status {status}")
        wrong += case.faults_then(folder, found)
    state = "no roster" if "p.roster" in case.old and "p.roster" not in found else ""
    return wrong, state, f"strace {' '.join(strace[1:])} {case.program} {case.words}", said


def order_faults(case):
    """What is wrong of the order of calls, by which a power cut could leave what no fault and no kill shows."""
    with tempfile.TemporaryDirectory() as folder:
        case.fill(folder)
        with tempfile.NamedTemporaryFile("r") as trace:
            calls = "trace=" + ",".join("?" + call for call in ORDERED)
            run(case.program, folder, case.words, ["strace", "-y", "-o", trace.name, "-e", calls])
            lines = trace.read().splitlines()
        return faults_of_order(case, os.path.realpath(folder), lines)


ORDERED = "open openat write writev pwrite64 fsync fdatasync rename renameat renameat2".split()


def faults_of_order(case, folder, lines):
    """The same of the lines of a trace, by which files and names aren't on the disk."""
    wrong, unflushed, renamed, placed, written = [], set(), [], [], None
    for line in lines:
        call = line.split("(")[0]
        names = re.findall(r'"([^"]*)"', line)
        opened = re.match(r"\w+\((\d+)<([^>]*)>", line)
        where = os.path.relpath(opened.group(2), folder) if opened else None
        if "O_CREAT" in line and case.words.startswith("endorse ") and written and renamed != []:
            wrong.append(f"{renamed} isn't on the disk when the next file is begun")
        if "O_CREAT" in line and case.words.startswith("endorse ") and written and written != "o.office":
            wrong.append("the next file is begun before the office's has its name")
        if "O_CREAT" in line:
            written = names[0]
        elif call.startswith(("write", "pwrite")) and opened.group(1) not in "12":
            unflushed.add(where)
        elif call.startswith(("write", "pwrite")) and opened.group(1) == "1" and renamed:
            wrong.append(f"{renamed} isn't on the disk when the output is written")
        elif "sync" in call and where == ".":
            renamed = []
        elif "sync" in call:
            unflushed.discard(where)
        elif call.startswith("rename"):
            old, new = names[:2]
            if old in unflushed:
                wrong.append(f"{new} gets its name before its bytes are on the disk")
            if renamed and ("p.roster" in (new, renamed[0]) or new == "o.office"):
                wrong.append(f"{renamed} isn't on the disk when {new} gets its name")
            if new in SET and "p.roster" in placed:
                wrong.append(f"p.roster gets its name before {new}")
            placed.append(new)
            renamed = [*renamed, old if old in case.old else new]
            written = new if new == "o.office" else written
    return wrong


def faults_of_next(case, found, left):
    """What is wrong of the files after the command was called again and was done."""
    wrong = [f"{name} is left" for name in others_of(case, left)]
    if case.words.startswith("endorse "):
        used = office_number(left["o.office"]) - 1
        if number_of(left["f.sig"]) != used or used != office_number(found["o.office"]):
            wrong.append("another number")
        return wrong
    return wrong + [f"{name} isn't new" for name in case.written if left.get(name) != case.new[name]]


def cases_of(program):
    """The six commands, each over nothing and over files that it replaces."""
    script, other = (SCRIPT % seed for seed in ("0102", "0103"))
    with tempfile.TemporaryDirectory() as folder:
        put(folder, "script", script.encode())
        put(folder, "other", other.encode())
        run(program, folder, "play script p")
        run(program, folder, "play other q")
        run(program, folder, f"office o {SEED}")
        played = files_of(folder)
        put(folder, "f", b"the first text")
        run(program, folder, "endorse o f")
        signed = files_of(folder)
        run(program, folder, "prove q.roster o q.sv.log")
        proof = files_of(folder)["o"]
    old_set = {name: played[name.replace("p.", "q.", 1)] for name in SET}
    evidence = {name: played[name] for name in SET}
    office = {"o.office": signed["o.office"], "o.key": signed["o.key"], "f": b"the second text"}
    base = {"script": script.encode()}
    cases = []
    for command in ("play", "run", "repair"):
        words = f"{command} script p"
        cases.append((f"{command}, nothing there", words, base, SET, SET))
        cases.append((f"{command}, a set there", words, {**base, **old_set}, SET, ["p.roster"]))
    words = "prove p.roster o p.sv.log p.b1.log"
    cases.append(("prove, nothing there", words, evidence, ["o"], ["o"]))
    cases.append(("prove, a proof there", words, {**evidence, "o": proof}, ["o"], []))
    made = ["o.office", "o.key"]
    cases.append(("office, nothing there", f"office o {SEED}", {}, made, made))
    cases.append(("office, a key there", f"office o {SEED}", {"o.key": played["o.key"][:-1] + b"."}, made, ["o.office"]))
    both = ["o.office", "f.sig"]
    cases.append(("endorse, no signature there", "endorse o f", office, both, ["f.sig"]))
    cases.append(("endorse, a signature there", "endorse o f", {**office, "f.sig": signed["f.sig"]}, both, []))
    return cases


def again_of(words):
    """How the same command ends then, by the files that were found."""
    if words.startswith("office "):
        return lambda found: (5, b"refused o.office 0 Exists\n") if "o.office" in found else (0, b"office o\n")
    if words.startswith("endorse "):
        return lambda found: (0, b"endorsed f %d\n" % office_number(found["o.office"]))
    return None


def try_case(case, errors):
    """Prints the case's row, and how many runs left something else."""
    calls = case.calls()
    faults = kills = bare = shown = 0
    orders = order_faults(case)
    bad = len(orders)
    for order in orders:
        print(f"  {order}", flush=True)
    tries = [(call, place, error) for call, place in calls for error in [*errors, None]] + [("exit_group", 1, None)]
    for call, place, error in tries:
        wrong, state, line, said = try_once(case, call, place, error)
        faults += error is not None
        kills += error is None
        bare += state == "no roster"
        if wrong:
            bad += 1
            if shown < 8:
                shown += 1
                print(f"  {'; '.join(wrong)}\n    {line}\n    {said.decode().strip()}", flush=True)
    print(f"| {case.name} | {len(calls)} | {faults} | {kills} | {bare} | {bad} |", flush=True)
    return bad


def main():
    program = os.path.abspath(sys.argv[1])
    errors = [word for word in sys.argv[2:] if word in ERRORS] or ERRORS
    wanted = [word for word in sys.argv[2:] if word not in ERRORS]
    if shutil.which("strace") is None:
        sys.exit("strace isn't installed")
    print("| Case | Calls | Failed | Killed | Without a roster | Bad |\n|---|---|---|---|---|---|", flush=True)
    bad = 0
    for name, words, old, written, absent in cases_of(program):
        if not wanted or any(word in name for word in wanted):
            bad += try_case(Case(program, name, words, old, written, absent, again_of(words)), errors)
    print(f"bad: {bad}")
    return 1 if bad else 0


if __name__ == "__main__":
    sys.exit(main())
