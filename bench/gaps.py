#!/usr/bin/env python3
"""bench/gaps.py PROGRAM [ROUNDS]: makes a log of 40,000,000 bytes, and runs `sha256sum LOG` and `PROGRAM gaps LOG`
by turns. It prints the ratio of the least times, and the program's peak memory over the log's size. `sha256sum` may be
plain C or use the processor's own instructions, by how it was built: the ratio is to what is installed. Then it prints
the peak memory over logs of records that are hostile to readers, and fails where it is over 1.3 times the log and 4 MB."""
import hashlib
import os
import subprocess
import sys
import tempfile
import time

SIZE = 40_000_000


def atom(octets):
    return b"%d:%s" % (len(octets), octets)


def number(value):
    return atom(b"%d" % value)


def entry(election, number_of, names):
    """The signed text of an entry of machine 0 that names these digests."""
    named = b"".join(atom(name) for name in sorted(names))
    body = b"(5:entry1:1" + atom(election) + number(0) + number(number_of) + number(number_of + 1)
    return b"(6:sealed" + body + b"(" + named + b")(6:opened))" + atom(b"s" * 2348) + b")"


def log_of(size):
    """A log whose entries each name the one before them and, now and then, one that is missing."""
    election = hashlib.sha256(b"election").digest()
    parts, length, names, count = [b"(3:log1:11:0)"], 13, [], 0
    while length < size:
        text = entry(election, count, names)
        parts.append(b"(4:sent" + text + b")")
        length += len(parts[-1])
        names = [hashlib.sha256(text).digest()]
        if count % 1000 == 0:
            names.append(hashlib.sha256(b"missing %d" % count).digest())
        count += 1
    return b"".join(parts)


def write_log(path, made):
    """Writes a log in a process of its own: a command's peak memory counts that of the process that starts it."""
    child = os.fork()
    if child == 0:
        with open(path, "wb") as file:
            file.write(made())
        os._exit(0)
    _, status = os.waitpid(child, 0)
    if status != 0:
        sys.exit("the log couldn't be written")


def timed(command):
    """The seconds that the command takes, and its peak memory in bytes."""
    start = time.perf_counter()
    process = subprocess.Popen(command, stdout=subprocess.DEVNULL)
    _, _, usage = os.wait4(process.pid, 0)
    return time.perf_counter() - start, usage.ru_maxrss * 1024


# Records of few bytes a token, up to the greatest log, by what they are.
SHORT = b"(" + b"(1:a)" * 16_383 + b")"
HOSTILE = {
    "lists of lists of one atom": lambda: (b"(" + SHORT * 204 + b")") * 4,
    "lists of lists of nothing": lambda: (b"(" + (b"(" + b"()" * 16_384 + b")") * 256 + b")") * 7,
    "lists of empty atoms": lambda: (b"(" + (b"(" + b"0:" * 16_384 + b")") * 115 + b")") * 17,
    "one record of lists of one atom": lambda: b"(" + SHORT * 819 + b")",
    "parentheses alone": lambda: b"(" * 67_000_000,
    "announced lengths": lambda: b"(" + b"262144:" * 9_000_000,
}


def weigh_hostile(program, path):
    """Prints the program's peak memory over each hostile log."""
    for name, record in HOSTILE.items():
        write_log(path, lambda: b"(3:log1:11:0)" + record())
        length = os.path.getsize(path)
        seconds, memory = timed([program, "gaps", path])
        print(f"{name}: {length} bytes, {seconds:.3f} s, {memory} bytes, {memory / length:.2f} times the log")
        assert memory <= 1.3 * length + 4e6, name


def main():
    program = os.path.abspath(sys.argv[1])
    rounds = int(sys.argv[2]) if len(sys.argv) > 2 else 5
    with tempfile.TemporaryDirectory() as folder:
        path = os.path.join(folder, "bench.log")
        write_log(path, lambda: log_of(SIZE))
        length = os.path.getsize(path)
        sums, runs, peak = [], [], 0
        for _ in range(rounds):
            sums.append(timed(["sha256sum", path])[0])
            seconds, memory = timed([program, "gaps", path])
            runs.append(seconds)
            peak = max(peak, memory)
        print(f"log: {length} bytes")
        print(f"sha256sum: {min(sums):.3f} s; gaps: {min(runs):.3f} s; ratio {min(runs) / min(sums):.2f}")
        print(f"peak memory: {peak} bytes, {peak / length:.2f} times the log")
        weigh_hostile(program, path)


if __name__ == "__main__":
    main()
