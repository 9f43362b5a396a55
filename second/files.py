"""Files that are read, Files that are written."""
import contextlib
import os
import stat

from texts import Refused, require

SMALL, MIDDLE, LARGE = 65536, 4194304, 67108864
# How rosters, logs, offices, proofs and signatures begin.
STARTS = [b"(6:r", b"(3:l", b"(6:o", b"proo", b"\0\0\0\1"]

class Answer(Exception):
    """A command ends early; the arguments are its entire output and its status."""

@contextlib.contextmanager
def refusing(name):
    """What is refused inside is an input of this name."""
    try:
        yield
    except Refused as refusal:
        raise Answer("refused %s %d %s\n" % (name, *refusal.args), 5) from None

def octets_of(name, limit):
    """The octets of a file, of which one too many is enough, or None if it is absent."""
    try:
        state = os.lstat(name)
        if name.endswith(".office") and (not stat.S_ISREG(state.st_mode) or state.st_nlink > 1):
            raise OSError
        with open(name, "rb") as file:
            return file.read(limit + 1)
    except FileNotFoundError:
        return None
    except OSError:
        raise Answer("", 8) from None

class Files:
    """The files of one command."""

    def __init__(self):
        self.names_read = []

    def read(self, name, limit, reader=bytes, *arguments):
        """What a reader makes of a file."""
        octets = octets_of(name, limit)
        if octets is None:
            raise Answer("absent %s\n" % name, 6)
        self.names_read.append(name)
        with refusing(name):
            require(len(octets) <= limit, "TooLong")
            return reader(octets, *arguments)

    def may_write(self, name, octets):
        """Is there no file of this name, or one that may be replaced?"""
        if os.path.basename(name).startswith(".auditorium-"):
            return False
        if not os.path.lexists(name):
            return True
        mode = os.lstat(name).st_mode
        if not stat.S_ISREG(mode) or not mode & stat.S_IWUSR:
            return False
        was_read = any(os.path.samefile(name, other) for other in self.names_read)
        with open(name, "rb") as file:
            start = file.read(4)
        good = start not in STARTS or start == octets[:4]
        return good and (not was_read or name.endswith(".office"))

    def write(self, files):
        """Write files, pairs of a name and octets, under other names; then put them in place."""
        try:
            if not all(self.may_write(name, octets) for name, octets in files):
                raise OSError
            for name, octets in files:
                write_other(name, octets)
            for name, _ in files:
                os.replace(other_name(name), name)
        except OSError:
            for name, _ in files:
                if os.path.exists(other_name(name)):
                    os.remove(other_name(name))
            raise Answer("", 9) from None

def other_name(name):
    """The other name of a file, of the 64-bit FNV-1a hash of its name."""
    folder, base = os.path.split(name)
    value = 0xcbf29ce484222325
    for byte in base.encode():
        value = (value ^ byte) * 0x100000001b3 % 2 ** 64
    return os.path.join(folder, ".auditorium-%016x" % value)

def write_other(name, octets):
    """Write a file under its other name, with the permission bits that it has to have."""
    with open(other_name(name), "wb") as file:
        file.write(octets)
    mode = os.stat(name).st_mode if os.path.exists(name) else None
    if name.endswith(".office"):
        os.chmod(other_name(name), (mode or 0o600) & 0o700)
    elif mode:
        os.chmod(other_name(name), mode & 0o777)
