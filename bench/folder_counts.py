"""Counts what `crates/folder_tests` tries, by a plain model of the protocol that knows nothing of its code.

usage: python3 bench/folder_counts.py

For each table of `crates/folder_tests/src/placing_tests.rt` it prints how many calls of the folder there are where none
fails; over that run and those in which one call fails, or all from one on, done or not, how many different things
crashes leave; in how many of these runs a file is left under another name, and in how many nothing has the first name.
Each crash is looked at here, too, and what breaks a law is said.

The model is `crates/folder_calls/README.md` and what is written beside each call there: a name shows what stands there
or stood there since it was flushed, each name for itself; bytes that weren't flushed may be any bytes, of which these
are tried: the file's own, the first half of them, and as many question marks.
"""

import itertools
import pathlib
import re

PLACES = pathlib.Path(__file__).resolve().parent.parent / "crates/folder_tests/src/placing_tests.rt"
DEFAULT_BITS = 0o644
KINDS = (b"(6:r", b"(3:l", b"(6:o", b"proo", b"\0\0\0\1")


class Stopped(Exception):
    def __init__(self, renamed=0, untouched=False):
        self.renamed, self.untouched = renamed, untouched


class Folder:
    """What stands under each name, what stood there since it was flushed, and each file's bytes."""

    def __init__(self, files, faults=range(0), done=False):
        self.bytes, self.flushed = {}, {}
        self.at, self.before = {}, {}
        self.asked, self.faults, self.done = 0, faults, done
        self.moments, self.since = [], None
        for name, text in files.items():
            number = len(self.bytes)
            self.bytes[number], self.flushed[number] = text, True
            self.at[name], self.before[name] = number, []
        self.note()

    def note(self):
        self.moments.append((dict(self.at), {n: list(b) for n, b in self.before.items()}, dict(self.bytes), dict(self.flushed)))

    def fails(self):
        self.asked += 1
        fails = self.asked in self.faults
        if fails and self.since is None:
            self.since = len(self.moments)
        return fails

    def call(self, step=None):
        """Does the step, unless this call is one that fails undone. One that fails is told to the caller."""
        fails = self.fails()
        if step is not None and (not fails or self.done):
            step()
            self.note()
        if fails:
            raise Stopped

    def stand(self, name, number):
        self.before.setdefault(name, []).insert(0, self.at.get(name))
        self.at[name] = number

    def look(self, name):
        self.call()
        return self.at.get(name) is not None

    def front(self, name):
        self.call()  # that opens the file
        self.call()
        return self.bytes[self.at[name]][:4]

    def create(self, name):
        """One that fails has made nothing."""
        if self.fails():
            raise Stopped
        if self.at.get(name) is not None:
            return None
        number = len(self.bytes)
        self.stand(name, number)
        self.bytes[number], self.flushed[number] = b"", False
        self.note()
        return number

    def open_left(self, name):
        self.call()
        return self.at.get(name)

    def lock(self):
        self.call()

    def is_under(self, number, name):
        self.call()  # that looks at the open file
        self.call()
        return self.at.get(name) == number

    def is_as_read(self):
        self.call()

    def append(self, number, text):
        done, self.done = self.done, False  # one that fails has appended nothing

        def longer():
            self.bytes[number] += text
            self.flushed[number] = False

        try:
            self.call(longer)
        finally:
            self.done = done

    def settle(self, keeps_owner, bits):
        """Files have one owner here, and a new one has the default bits."""
        if keeps_owner:
            self.call()  # that looks at the open file
        if bits is not None:
            self.call()  # so does that
            if bits != DEFAULT_BITS:
                self.call()

    def flush_file(self, number):
        self.call(lambda: self.flushed.__setitem__(number, True))

    def rename(self, old, new):
        def step():
            number = self.at.get(old)
            self.stand(old, None)
            self.stand(new, number)

        self.call(step)

    def remove(self, name):
        self.call(lambda: self.stand(name, None))

    def flush_name(self, name):
        self.call()  # that opens the folder
        self.call(lambda: self.before.__setitem__(name, []))


def try_to(do):
    try:
        do()
    except Stopped:
        pass


def remove_left(folder, name):
    """What an ended program left under the name is removed."""
    if folder.look(name):
        number = folder.open_left(name)
        folder.lock()
        if folder.is_under(number, name):
            folder.remove(name)


def give_back(folder, number, name):
    """What was made is removed where it has the name still."""
    def step():
        if folder.is_under(number, name):
            folder.remove(name)

    try_to(step)


def created(folder, name):
    """A new file of this name, which is locked."""
    number = folder.create(name)
    while number is None:
        remove_left(folder, name)
        number = folder.create(name)
    try:
        folder.lock()
        folder.is_under(number, name)
        folder.is_as_read()
    except Stopped:
        give_back(folder, number, name)
        raise
    return number


def bits_of(name, replaces):
    """Those of the file that is replaced, and the owner's alone where it holds a secret."""
    if name.endswith(".office"):
        return 0o600
    return DEFAULT_BITS if replaces else None


def other(name):
    return ".auditorium-" + name


class Store:
    """Files are begun under other names, and put in place by `finish`."""

    def __init__(self, folder):
        self.folder, self.begun = folder, []

    def put(self, name, text):
        replaces = self.folder.look(name)
        number = created(self.folder, other(name))
        is_mark = name.endswith(".roster") or (name.endswith(".office") and not replaces)
        self.begun.append((name, number, replaces, is_mark))
        self.folder.append(number, text)

    def finish(self):
        begun, self.begun = self.begun, []
        if len(begun) > 1 and begun[0][3]:
            self.finish_set(begun[0], begun[1:])
        else:
            self.finish_files(begun)

    def flush(self, file):
        name, number, replaces, _ = file
        if replaces and self.folder.front(name) in KINDS:
            self.folder.front(other(name))
        self.folder.settle(replaces, bits_of(name, replaces))
        self.folder.flush_file(number)

    def place(self, file):
        name = file[0]
        try:
            self.folder.rename(other(name), name)
        except Stopped:
            try:
                there = self.folder.look(other(name))
            except Stopped:
                there = False
            raise Stopped(0, there)
        try:
            self.folder.flush_name(name)
        except Stopped:
            raise Stopped(1)

    def place_all(self, files):
        for at, file in enumerate(files):
            try:
                self.place(file)
            except Stopped as stopped:
                raise Stopped(at + stopped.renamed, at == 0 and stopped.untouched)

    def remove_others(self, files):
        for file in files:
            try_to(lambda: self.folder.remove(other(file[0])))

    def finish_files(self, files):
        try:
            for file in files:
                self.flush(file)
            self.place_all(files)
        except Stopped as stopped:
            self.remove_others(files[stopped.renamed:])
            raise

    def finish_set(self, mark, rest):
        aside = other(mark[0]) + "-aside"
        try:
            for file in rest + [mark]:
                self.flush(file)
            self.place_set(mark, rest, aside)
        except Stopped as stopped:
            if stopped.renamed > 0:
                try_to(lambda: self.folder.remove(aside))
            self.remove_others((rest + [mark])[stopped.renamed:])
            raise
        try_to(lambda: self.folder.remove(aside))

    def place_set(self, mark, rest, aside):
        replaces = self.folder.look(mark[0])
        if replaces:
            self.folder.rename(mark[0], aside)
        try:
            self.folder.flush_name(mark[0])
        except Stopped:
            if replaces:
                try_to(lambda: self.folder.rename(aside, mark[0]))
            raise Stopped
        try:
            self.place_all(rest)
            try:
                self.place(mark)
            except Stopped as stopped:
                raise Stopped(len(rest) + stopped.renamed)
        except Stopped as stopped:
            if replaces and stopped.untouched:
                try_to(lambda: self.folder.rename(aside, mark[0]))
            raise


def run(files, lines, faults=range(0), done=False):
    folder = Folder(files, faults, done)
    store = Store(folder)
    try:
        for line in lines:
            if line == "finish":
                store.finish()
            else:
                name, _, new = line.split(" ")
                store.put(name, new.encode())
    except Stopped:
        pass
    return folder


def left(moment):
    """What a crash may leave under each name."""
    at, before, texts, flushed = moment
    for name, number in at.items():
        found = []
        for entry in [number] + before.get(name, []):
            if entry is None:
                ways = [None]
            elif flushed[entry]:
                ways = [texts[entry]]
            else:
                text = texts[entry]
                ways = [text, text[:len(text) // 2], b"?" * len(text)]
            for way in ways:
                if way not in found:
                    found.append(way)
        if found != [None]:
            yield name, found


def crashes(moment):
    ways = list(left(moment))
    for choice in itertools.product(*(found for _, found in ways)):
        yield {name: text for (name, _), text in zip(ways, choice) if text is not None}


def now(folder):
    return {name: folder.bytes[number] for name, number in folder.at.items() if number is not None}


def is_lawful(files, rows):
    """A set is old, or new, or has no mark; and of other files each is old or new, and none new after an old one."""
    def state(name, old, new):
        text = files.get(name)
        return "new" if text == new else "old" if text == old else "absent" if text is None else "other"

    if rows[0][0].endswith(".roster") or len(rows) > 1 and rows[0][0].endswith(".office") and rows[0][1] is None:
        mark = files.get(rows[0][0]) and state(*rows[0])
        others = {state(*row) for row in rows[1:]}
        return others <= {"old", "new"} if mark is None else others == {mark}
    states = [state(*row) for row in rows]
    return set(states) <= {"old", "new"} and states == sorted(states)


def count(table):
    lines = table.split("\n")
    rows = [(name, None if old == "-" else old.encode(), new.encode())
            for name, old, new in (line.split(" ") for line in lines if line != "finish")]
    old = {name: text for name, text, _ in rows if text is not None}
    new = {name: text for name, _, text in rows}
    whole = run(old, lines)
    faults = [(range(0), False)] + [(range(first, last), done) for first in range(1, whole.asked + 1)
                                    for last in (first + 1, 1000) for done in (False, True)]
    tried, runs_left, runs_bare = 0, 0, 0
    for calls, done in faults:
        folder = run(old, lines, calls, done)
        files = now(folder)
        if not is_lawful(files, rows):
            print("  broken without a crash:", calls, done, files)
        runs_left += any(name.startswith(".auditorium-") for name in files)
        runs_bare += rows[0][0] not in files
        for moment in folder.moments[folder.since or 0:]:
            for files in crashes(moment):
                tried += 1
                if not is_lawful(files, rows):
                    print("  broken:", calls, done, files)
                if now(run(files, lines)) != new:
                    print("  not mended:", calls, done, files)
    return whole.asked, tried, runs_left, runs_bare


def main():
    for table in re.findall(r'"([^"]*\\nfinish)"', PLACES.read_text()):
        table = table.replace("\\n", "\n")
        print(*count(table), "|", table.replace("\n", ", "))


if __name__ == "__main__":
    main()
