#!/usr/bin/env python3
"""CPU seconds of the gate by crate and part.

usage: python3 bench/gate_cost.py [COMMAND ..]

Runs the command, `.ci/run` at the repository's top by default, whose output goes on as it comes, and looks
four times a second at the processes below it (in /proc, so on Linux only). A process of the checker names its
crate. It proves the crate, or the crate with its tests, in the crate's own folder, and an edited copy, or what
the edits of a crate begin with, elsewhere. Programs and compilers count for the process that started them.
At the end a row a crate is printed, the dearest first, and what no row has: processes that ended between two
looks, and `rt` itself. Wall times aren't printed: they depend on what else the machine does.

Where the toolchain's gate keeps what passed before, this measures what was proved anew.
"""
import os
import pathlib
import resource
import subprocess
import sys
import time
from collections import defaultdict

ROOT = pathlib.Path(__file__).resolve().parent.parent
PARTS = ("proof", "tests", "edits")
TICKS = os.sysconf("SC_CLK_TCK")


def processes():
    """Of each process its parent, when it started, and its CPU seconds so far."""
    found = {}
    for entry in os.listdir("/proc"):
        if entry.isdigit():
            try:
                # The name, in parentheses, may hold spaces.
                fields = pathlib.Path("/proc", entry, "stat").read_text().rpartition(")")[2].split()
            except OSError:
                continue
            found[int(entry)] = int(fields[1]), fields[19], (int(fields[11]) + int(fields[12])) / TICKS
    return found


def label(process):
    """The crate and the part that a process of the checker works on, or None."""
    try:
        words = pathlib.Path("/proc", str(process), "cmdline").read_bytes().decode(errors="replace").split("\0")
        folder = os.readlink(f"/proc/{process}/cwd")
    except OSError:
        return None
    if "--crate-name" not in words[:-1]:
        return None
    crate = words[words.index("--crate-name") + 1]
    if pathlib.Path(folder).parts[-2:] != ("crates", crate):
        return crate, "edits"
    return crate, "tests" if "--test" in words else "proof"


def watched(command):
    """The CPU seconds of each crate and part while the command runs, and its exit status."""
    child = subprocess.Popen(command, cwd=ROOT)
    labels, seconds = {}, {}
    while child.poll() is None:
        now = processes()

        def label_of(process):
            """The label of a process below the command: its own, or that of its nearest labelled ancestor."""
            if process == child.pid or process not in now:
                return None
            key = process, now[process][1]
            if labels.get(key) is None:
                labels[key] = label(process) or label_of(now[process][0])
            return labels[key]

        def is_below(process):
            while process in now and process != child.pid:
                process = now[process][0]
            return process == child.pid

        for process, (_, started, used) in now.items():
            if is_below(process) and label_of(process):
                seconds[process, started] = used
        time.sleep(0.25)
    table = defaultdict(float)
    for key, used in seconds.items():
        table[labels[key]] += used
    return table, child.returncode


def main():
    table, status = watched(sys.argv[1:] or [".ci/run"])
    usage = resource.getrusage(resource.RUSAGE_CHILDREN)
    total = usage.ru_utime + usage.ru_stime
    crates = {crate: sum(table[crate, part] for part in PARTS) for crate in {crate for crate, _ in table}}
    print(f"{'CPU seconds':24}" + "".join(f"{part:>9}" for part in PARTS) + f"{'all':>9}")
    for crate in sorted(crates, key=crates.get, reverse=True):
        print(f"{crate:24}" + "".join(f"{table[crate, part]:9.0f}" for part in PARTS) + f"{crates[crate]:9.0f}")
    sums = [sum(table[crate, part] for crate in crates) for part in PARTS]
    print(f"{'all crates':24}" + "".join(f"{number:9.0f}" for number in [*sums, sum(sums)]))
    print(f"{'in no row':24}{total - sum(sums):36.0f}")
    print(f"{total / 60:.0f} CPU minutes in all")
    return status


if __name__ == "__main__":
    sys.exit(main())
