"""Times `audit` and `order` on logs of 200, 400 and 800 sessions beside verifying their signatures.

usage: python3 bench/audit.py PROGRAM SPEED [RUNS]

PROGRAM is the built `auditorium_cli`, SPEED the built `bench_signatures` (`rt run` in its crate builds each). The
scripts are those of play.py. Of each play the supervisor's log alone is audited by the standard rules, then all four
logs, and then `order` is asked of two entries of the four. Beside them SPEED verifies one signature of the same kind
as many times as there are distinct entries, by turns; what that takes is weighed by the numbers of hashes, which
differ a little from one signature to another. The least times of RUNS turns are printed as parts of it, and the
greatest peak of memory.
"""

import os
import re
import subprocess
import sys
import tempfile
import time
from hashlib import sha256

from play import script_of
from signatures import IDENTIFIER, SEED, blocks

SIGNATURE_BYTES = 2508
SIGNED = re.compile(rb"\(6:sealed(.*?)2508:", re.S)
LOGS = ["p.sv.log", "p.b1.log", "p.b2.log", "p.b3.log"]


def hashes_of_verifying(identifier, number, salt, body):
    """How many blocks are hashed to verify a signature of kind w4 and height 10."""
    digest = sha256(identifier + number + b"\x81\x81" + salt + body).digest()
    digits = [digit for byte in digest for digit in (byte >> 4, byte & 15)]
    checksum = sum(15 - digit for digit in digits)
    digits += [checksum >> 8 & 15, checksum >> 4 & 15, checksum & 15]
    steps = sum(15 - digit for digit in digits)
    return steps + blocks(22 + 32 * 67) + blocks(54 + len(body)) + blocks(54) + 10 * blocks(86)


def hashes_of_loop(speed, folder):
    """The same of the signature that SPEED verifies in its loop: that of an opening, under a roster of one machine."""
    paths = [os.path.join(folder, name) for name in ("secret", "message", "key", "signature")]
    for path, octets in zip(paths, (IDENTIFIER + SEED, b"")):
        with open(path, "wb") as file:
            file.write(octets)
    subprocess.run([speed, "sign", "w4", "10", "0", *paths], check=True, stdout=subprocess.DEVNULL)
    with open(paths[2], "rb") as file:
        roster = b"(6:roster1:1(2:sv10:supervisor56:" + file.read() + b"))"
    body = b"(5:entry1:132:" + sha256(roster).digest() + b"1:01:01:1()(6:opened))"
    number = bytes(4)
    return hashes_of_verifying(IDENTIFIER, number, sha256(b"auditorium C" + IDENTIFIER + number + SEED).digest(), body)


def hashes_of_logs(folder):
    """How many distinct signed texts the logs have, and how many hashes it takes to verify each once."""
    with open(os.path.join(folder, "p.roster"), "rb") as file:
        roster = file.read()
    identifiers = [roster[match.end() + 8 : match.end() + 24] for match in re.finditer(rb"56:", roster)]
    counts = {}
    for name in LOGS:
        with open(os.path.join(folder, name), "rb") as file:
            text = file.read()
        for match in SIGNED.finditer(text):
            body, signature = match.group(1), text[match.end() : match.end() + SIGNATURE_BYTES]
            if signature not in counts:
                maker = int(body[len(b"(5:entry1:132:") + 34 : len(b"(5:entry1:132:") + 35])
                counts[signature] = hashes_of_verifying(identifiers[maker], signature[:4], signature[8:40], body)
    return len(counts), sum(counts.values())


def seconds_of_loop(speed, count):
    """What it takes SPEED to verify its signature so many times."""
    answer = subprocess.run([speed, "unseal", "w4", "10", str(count)], check=True, capture_output=True, text=True)
    told = answer.stdout.split()
    return int(told[told.index("verifying") + 1]) / 1e9


def timed(program, words, folder):
    """The seconds of a command, and its peak of memory in bytes."""
    start = time.perf_counter()
    process = subprocess.Popen([program, *words], cwd=folder, stdout=subprocess.DEVNULL)
    _, status, usage = os.wait4(process.pid, 0)
    assert os.waitstatus_to_exitcode(status) == 0, " ".join(words)
    return time.perf_counter() - start, usage.ru_maxrss * 1024


def main():
    program, speed = (os.path.abspath(word) for word in sys.argv[1:3])
    runs = int(sys.argv[3]) if len(sys.argv) > 3 else 5
    for sessions in (200, 400, 800):
        text, _ = script_of(sessions)
        with tempfile.TemporaryDirectory() as folder:
            with open(os.path.join(folder, "script"), "w") as file:
                file.write(text)
            subprocess.run([program, "play", "script", "p"], cwd=folder, check=True, stdout=subprocess.DEVNULL)
            count, hashes = hashes_of_logs(folder)
            weight = hashes / (count * hashes_of_loop(speed, folder))
            commands = {
                "one log": ["audit", "p.roster", "standard", LOGS[0]],
                "four logs": ["audit", "p.roster", "standard", *LOGS],
                "order": ["order", "p.roster", "b1.0", f"sv.{sessions + 1}", *LOGS],
            }
            verifying, least, peak = [], {}, {}
            for _ in range(runs):
                verifying.append(seconds_of_loop(speed, count) * weight)
                for name, words in commands.items():
                    seconds, memory = timed(program, words, folder)
                    least[name] = min(seconds, least.get(name, seconds))
                    peak[name] = max(memory, peak.get(name, memory))
        print(f"{sessions} sessions, {count} distinct entries, verified in {min(verifying):.3f} s: ", end="")
        print(", ".join(f"{name} {least[name] / min(verifying):.2f}, {peak[name] / 1e6:.0f} MB" for name in commands))


if __name__ == "__main__":
    main()
