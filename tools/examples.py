#!/usr/bin/env python3
"""Runs the commands of examples/README.md and docs/REPORT.md and compares what they print and their exit statuses.

usage: python3 tools/examples.py [--view VIEW] PROGRAM [WORD ..]

PROGRAM, with these words before the command's, takes the place of `auditorium`, and its output may go into a file by
`>`; VIEW takes the place of `auditorium_view`, and without it no page is made; any other command is the shell's. A
file of examples/ is compared, byte for byte, with what is written into the file of its name in examples/out/. The
statuses are those of the headings, where these begin with one; where a heading has several commands, each ends with
that status. Lines that begin with `auditorium: ` or with a space are compared with the first lines of standard error,
the others with standard output. Where GNU parallel is installed, a county of twelve places is made and audited, too.
The exit status is 1 if something differs.
"""
import os
import pathlib
import re
import shlex
import shutil
import subprocess
import sys
import tempfile

ROOT = pathlib.Path(__file__).resolve().parent.parent


def examples(text):
    """Each command, the lines that it prints, and its status."""
    status, inside = None, False
    for line in text.splitlines():
        if line.startswith("## "):
            heading = re.match(r"## (\d+):", line)
            status = heading and int(heading.group(1))
        if line.startswith("```"):
            if inside:
                yield from found
            inside, found = line == "```console", []
        elif inside and line.startswith("$ "):
            found.append((line[2:], [], status))
        elif inside:
            found[-1][1].append(line)


def agrees(run, lines, status):
    """Whether a command ended with this status, if one is wanted, and printed these lines, on either stream."""
    hints = [line for line in lines if line.startswith(("auditorium: ", " "))]
    printed = [line for line in lines if line not in hints]
    errors = run.stderr.splitlines()
    return ((status is None or run.returncode == status) and run.stdout.splitlines() == printed
            and errors[:len(hints)] == hints and bool(errors) == bool(hints))


def ran(programs, command, here):
    """The run of a command in a folder."""
    line, _, file = command.partition(" > ")
    words = line.split()
    if words[0] in programs:
        done = subprocess.run(programs[words[0]] + words[1:], cwd=here, capture_output=True, text=True, timeout=120)
        if file:
            (here / file).write_text(done.stdout)
            done.stdout = ""
        return done
    return subprocess.run(command, shell=True, cwd=here, capture_output=True, text=True, timeout=120)


def changed_file(command, here):
    """What a command has written that differs from the kept file of this name; nothing if there is none."""
    _, _, file = command.partition(" > ")
    kept = ROOT / "examples" / pathlib.PurePath(file).name
    if file and kept.is_file() and kept.read_bytes() != (here / file).read_bytes():
        return f"{command}: {file} isn't what is kept\n"
    return ""


def fault_of(programs, command, lines, status, here):
    """How a command differs from its example; nothing if it doesn't."""
    run = ran(programs, command, here)
    if agrees(run, lines, status):
        return changed_file(command, here)
    return f"{command}: status {run.returncode}, wanted {status}\n{run.stdout}{run.stderr}"


def path_of(program):
    """The words that run a program."""
    return [str(pathlib.Path(shutil.which(program) or program).resolve())]


def has_parallel():
    """Whether GNU parallel is installed; another program has the same name."""
    if not shutil.which("parallel"):
        return False
    version = subprocess.run(["parallel", "--version"], capture_output=True, text=True)
    return version.stdout.startswith("GNU parallel")


def county_fault(program, here):
    """How the audit of a county of twelve places differs from what its damage asks for; nothing if it doesn't."""
    tools, county = here / "out" / "tools", here / "out" / "county"
    tools.mkdir()
    (tools / "auditorium").write_text(f'#!/bin/sh\nexec {shlex.join(program)} "$@"\n')
    (tools / "auditorium").chmod(0o755)
    path = f"{tools}{os.pathsep}{os.environ['PATH']}"

    def run(script, *words):
        return subprocess.run([here / "county" / script, *words], env={**os.environ, "PATH": path},
                              capture_output=True, text=True, timeout=600)

    made = run("make_county.sh", "12", county)
    if made.returncode != 0:
        return f"make_county.sh: status {made.returncode}\n{made.stderr}"
    audited = run("audit_all.sh", county, "standard")
    wanted = (county / "expected.tsv").read_text()
    columns = len(wanted.splitlines()[0].split("\t"))
    rows = (county / "summary.tsv").read_text().splitlines()
    found = "".join("\t".join(row.split("\t")[:columns]) + "\n" for row in rows)
    gravest = max(int(line.split("\t")[1]) for line in wanted.splitlines()[1:])
    if found == wanted and audited.returncode == gravest:
        return ""
    return f"audit_all.sh: status {audited.returncode}, wanted {gravest}\n{audited.stderr}{found}wanted\n{wanted}"


def main():
    words, programs, faults = sys.argv[1:], {}, []
    if words[:1] == ["--view"]:
        programs["auditorium_view"] = path_of(words[1])
        words = words[2:]
    else:
        print("no page is made: there is no --view VIEW")
    program = path_of(words[0]) + words[1:]
    programs["auditorium"] = program
    with tempfile.TemporaryDirectory() as folder:
        # A copy, so that nothing is written into the repository.
        here = pathlib.Path(folder, "examples")
        shutil.copytree(ROOT / "examples", here)
        data = pathlib.Path("crates", "auditorium_cli", "data")
        shutil.copytree(ROOT / data, pathlib.Path(folder, data))
        (here / "out").mkdir(exist_ok=True)
        texts = [here / "README.md", ROOT / "docs" / "REPORT.md"]
        for command, lines, status in (case for text in texts for case in examples(text.read_text())):
            if command.split()[0] != "auditorium_view" or "auditorium_view" in programs:
                faults.append(fault_of(programs, command, lines, status, here))
        if has_parallel():
            faults.append(county_fault(program, here))
        else:
            print("the county isn't run: GNU parallel isn't installed")
    failed = list(filter(None, faults))
    print(*failed, sep="", end="")
    print(f"{len(faults) - len(failed)} passed, {len(failed)} failed")
    return 1 if failed else 0


if __name__ == "__main__":
    sys.exit(main())
