"""Checks keys and signatures against another implementation, in both directions. It isn't part of the repository.

usage: python3 bench/lms_against.py FOLDER [PROGRAM]

FOLDER has a Python module `lms` with these calls, bytes in and out: `public(kind, height, identifier, seed)`
gives a public key of 56 bytes, `signed(kind, height, identifier, seed, index, message)` a signature, and
`signs(key, message, signature)` says whether it is one of the message; a kind is "w1", "w2", "w4" or "w8".
PROGRAM is the built `bench_signatures`.
"""

import os
import subprocess
import sys
import tempfile


def main():
    sys.path.insert(0, sys.argv[1])
    import lms

    here = os.path.dirname(os.path.abspath(__file__))
    built = os.path.join(here, "..", "crates", "bench_signatures", "out", "bench_signatures")
    program = os.path.abspath(sys.argv[2] if len(sys.argv) > 2 else built)
    cases = [(kind, 5, index) for kind in ("w1", "w2", "w4", "w8") for index in (0, 3, 31)]
    cases.append(("w4", 10, 2))
    passed = failed = 0
    with tempfile.TemporaryDirectory() as folder:

        def path(name):
            return os.path.join(folder, name)

        def write(name, data):
            with open(path(name), "wb") as file:
                file.write(data)

        def read(name):
            with open(path(name), "rb") as file:
                return file.read()

        def verified(message):
            answer = subprocess.run(
                [program, "verify", path("key"), path("message"), path("signature")],
                check=True, capture_output=True, text=True,
            )
            return answer.stdout.strip() == "true"

        for number, (kind, height, index) in enumerate(cases):
            identifier = bytes((number + i) % 256 for i in range(16))
            seed = bytes((7 * number + 3 * i) % 256 for i in range(32))
            message = bytes(i % 253 for i in range(97 * number))
            write("secret", identifier + seed)
            write("message", message)
            subprocess.run(
                [program, "sign", kind, str(height), str(index), path("secret"), path("message"),
                 path("key"), path("signature")],
                check=True,
            )
            key, signature = read("key"), read("signature")
            other = lms.signed(kind, height, identifier, seed, index, message)
            checks = {
                "the keys are one": key == lms.public(kind, height, identifier, seed),
                "the other accepts ours": lms.signs(key, message, signature),
                "the signatures are one": signature == other,
            }
            write("signature", other)
            checks["we accept the other's"] = verified(message)
            write("message", message + b"x")
            checks["we refuse it for another message"] = not verified(message)
            for what, holds in checks.items():
                passed += holds
                failed += not holds
                if not holds:
                    print(f"{kind} h{height} index {index}: not so that {what}")
    print(f"{passed} passed, {failed} failed")
    sys.exit(failed != 0)


if __name__ == "__main__":
    main()
