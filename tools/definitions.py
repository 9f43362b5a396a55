#!/usr/bin/env python3
"""The definitions that public clauses reach, and of each command those that have to be read.

usage: python3 tools/definitions.py [--list | --write]
       python3 tools/definitions.py read [PART] [--html]

A public clause is a `requires` or `ensures` of a function that its crate exports, or of a trait's function,
save one that takes a type of its file which the crate doesn't export, so that nobody outside can call it;
and so are the members that a trait or a type gives to contracts (`ghost NAME`, `Value`). What a type keeps of
its own fields (`view`, `invariant`) isn't public. A clause reaches the definitions that it names and those
that they name in turn, in the `specs/` of all crates. A constructor counts as its type, and so does a field that is given
a value; elsewhere a word that is a field's is taken for a variable. What is behind a type is reached too: how contracts tell its values apart (`coded`), and which error `?` makes of
another (`from_gives`). Of all that is reached, only this may lie in `specs/inside/`.

The meaning of each reached definition is its comment, with its public source: printed is each that has none,
and what a clause reaches although it lies in `specs/inside/`.

Some definitions fix no byte of an answer: what is said of answers, as that a kept rule holds whatever was lost.
They have to be read, and so have those that lead from a command's record to them: they fix bytes, but no byte shows
that they say this as well. All others fix bytes alone: by the law `one_answer_is_right` an answer that a second
program gives, too, tests them. `read` prints the text of those to be read for a part, in reading order,
each with its file and line; without PART, all of them. A part is a command's word, `law`, `all` or `laws`; beside
these `folder` prints what the clauses of the trait of a folder's calls reach. With --html it is one page, in which names
are links.

docs/BELIEVE.md has the counts between `<!-- figures -->` and `<!-- end -->`; the exit status is 1 where they differ from
the sources, or a line is printed. --write writes them anew. --list prints each reached definition with its
comment, those that `auditorium` reaches marked by `*`. Lines are counted without blanks, imports and comments.
"""
import html
import pathlib
import re
import sys
from collections import defaultdict

ROOT = pathlib.Path(__file__).resolve().parent.parent
PAGE = ROOT / "docs" / "BELIEVE.md"
TOP = ("auditorium_core", "auditorium")
# The crates with the commands in families, and the one with the laws on honest places.
FAMILIES = ("log_commands", "place_commands", "office_commands", "honest_places")
INSIDE = "specs/inside/"
# What says of each command what it is, by one record for each.
TABLE = "command_parts"
# What the law on order says, and of which worlds it is proved.
LAW = ("OrderIsReceiptIn", "Distinct", "OrderIsReceiptInOrderlyWorlds", "OrderIsReceipt")
# What is said of answers, beside what they are. Only `run` has several right answers, so all of it is read.
MEANING = ("IsSound", "IsExact", "IsOrderOfPlaces", "IsAuditOfPlaces", "KeepOrder", "LeaveHonestFiles",
           "HoldsOf", "Completes", "TellsNoneBroken")
MANY_ANSWERS = "run"
# What the laws of the top crate say of answers.
LAWS = ("IsCompleteAsRead", "NumbersRise", "WatchesAgreeWithAudits", "HonestWatchesBreakNoRule",
        "ChecksAgreeWithAudits", "PlaysAreReadBack", "RunsAreReadBack")
# The crate with the trait of a folder's calls.
FOLDER = "folder_calls"
WORD = re.compile(r"[A-Za-z_][\w'?]*(?:\.[A-Za-z_][\w'?]*)?")
GIVEN = re.compile(r"([A-Za-z_][\w'?]*) = ")
IMPORT = re.compile(r"^\s*(?:pub |ghost )?use Rattle\.(\w+)\.specs\.([\w.]+?)(?:\.\{(.*?)\}| as (\w+));?$", re.S | re.M)
DEFINITION = re.compile(r"^\s*(?:(?:abbrev|unfoldable|record|data|pub) )+([A-Za-z_][\w'?]*)")
CONSTRUCTOR = re.compile(r"^\s+(?:pub )?([A-Za-z_][\w'?]*(?: [A-Za-z_][\w'?]*)*) :")


class Module:
    """A file of `specs/`: what it imports, and its definitions with their comments and bodies."""

    def __init__(self, crate, path):
        self.crate = crate
        self.path = path
        self.name = ".".join(path.relative_to(ROOT / "crates" / crate / "specs").with_suffix("").parts)
        text = path.read_text()
        self.imported, self.aliases = imports_of(text)
        self.bodies = defaultdict(list)
        self.comments = {}
        self.places = {}
        self.owners = {}
        self.parts = defaultdict(set)
        self.fields = set()
        current, comment, kind, indent = None, [], "", 0
        # The lines that an import takes stay as empty ones, so that lines keep their numbers.
        left = IMPORT.sub(lambda found: "\n" * found.group().count("\n"), text)
        for number, line in enumerate(left.splitlines(), 1):
            if line.strip().startswith("--"):
                comment.append(line.strip()[2:].strip())
                continue
            head = DEFINITION.match(line)
            if head and line.split()[0] != "pub" or head and re.match(r"\s*pub (record|data) ", line):
                current, indent = head.group(1), len(line) - len(line.lstrip())
                is_record = "record" in line[: head.start(1)].split()
                kind = "type" if re.search(r"\b(record|data)\b", line[: head.start(1)]) else "function"
                self.comments[current] = " ".join(comment)
                self.places[current] = number - len(comment)
            elif current and kind == "type" and (inner := CONSTRUCTOR.match(line)):
                for name in inner.group(1).split():
                    self.owners.setdefault(name, current)
                    self.parts[current].add(name)
                    self.fields |= {name} if is_record else set()
            elif current and ends(line, indent, current):
                current = None
            if current and line.strip():
                self.bodies[current].append(line)
            comment = []


def ends(line, indent, name):
    """Whether a line is of something else than the definition of this name and indentation, as of a lemma."""
    own = len(line) - len(line.lstrip())
    return bool(line.strip()) and own <= indent and line.split()[0] != name


def imports_of(text):
    """The names that a file imports, each with crate, module and name; and the modules by their aliases."""
    names, aliases = {}, {}
    for crate, module, listed, alias in IMPORT.findall(text):
        if alias:
            aliases[alias] = (crate, module)
        for item in filter(None, (part.strip() for part in listed.split(","))):
            name, _, own = item.partition(" as ")
            names[own or name] = (crate, module, name)
    return names, aliases


def crates():
    lines = (ROOT / "crates.txt").read_text().splitlines()
    return [line.split(":")[0] for line in lines if ":" in line and not line.startswith("#")]


def modules():
    """Every file of definitions, by crate and name."""
    found = {}
    for crate in crates():
        for path in sorted((ROOT / "crates" / crate / "specs").rglob("*.antt")):
            module = Module(crate, path)
            found[crate, module.name] = module
    return found


def target(known, crate, module, name):
    """The definition that a name of a module means, if it is one of the repository."""
    there = known.get((crate, module))
    if there is None:
        return None
    if name in there.bodies:
        return crate, module, name
    return (crate, module, there.owners[name]) if name in there.owners else None


def meant(known, text, imported, aliases, here=None):
    """The definitions that a text names, as they come; `here` is the module in which it stands."""
    given = set(GIVEN.findall(text))
    for word in dict.fromkeys(WORD.findall(text)):
        first, _, second = word.partition(".")
        if here and first in here.bodies:
            yield here.crate, here.name, first
        elif first in imported:
            found = target(known, *imported[first])
            if found:
                yield found
        elif second and first in aliases:
            found = target(known, *aliases[first], second)
            if found:
                yield found
        elif here and first in here.owners:
            owner = here.owners[first]
            # A record is written with all of its fields.
            if first not in here.fields or here.parts[owner] <= given:
                yield here.crate, here.name, owner


def named_by(known, key):
    """The definitions that a definition names, as they come; its own fields aren't those of another one."""
    here = known[key[:2]]
    own = here.parts[key[2]]
    body = "\n".join(here.bodies[key[2]])
    found = meant(known, WORD.sub(lambda word: "" if word.group() in own else word.group(), body), here.imported,
                  here.aliases, here)
    return list(found)


def reached_from(known, starts, without=()):
    """All that is reached from some definitions, but for some and what only these reach; the nearest first."""
    reached, queue = [], list(starts)
    seen = set(queue) | set(without)
    while queue:
        key = queue.pop(0)
        reached.append(key)
        for found in sorted(named_by(known, key)):
            if found not in seen:
                seen.add(found)
                queue.append(found)
    return reached


def exported(crate):
    """The names that the crate's root gives out; None where all that is `pub` is meant."""
    root = ROOT / "crates" / crate / "src" / "lib.rt"
    if not root.is_file():
        return set()
    names = set()
    for listed in re.findall(r"^pub use (.*?);", root.read_text(), re.S | re.M):
        names |= set(re.findall(r"\w+", listed))
    own = re.findall(r"^pub (?:fn|trait|struct|enum) (\w+)", root.read_text(), re.M)
    return names | set(own)


def braces(text, start):
    """The text inside the braces that open at `start`."""
    depth = 0
    for place in range(start, len(text)):
        depth += {"{": 1, "}": -1}.get(text[place], 0)
        if depth == 0:
            return text[start + 1 : place]
    raise ValueError("a brace isn't closed")


def clauses_of(text, start):
    """The clauses of the function whose signature begins at `start`."""
    head = re.compile(r"^\s*(?:requires|ensures)\*?(?: \w+)? \{", re.M)
    end = re.compile(r"[;{]\s*$|^\s*\{\}?$", re.M)
    place, found = start, []
    while True:
        clause, stop = head.search(text, place), end.search(text, place)
        if clause is None or stop and stop.start() < clause.start():
            return found
        found.append(braces(text, clause.end() - 1))
        place = clause.end() + len(found[-1]) + 1
        if text[place : place + 1] == ";":
            return found


def public_texts(crate, path):
    """The texts of the public clauses and ghost members of a source file, each with its function's or its own
    name."""
    text, names = path.read_text(), exported(crate)
    hidden = set(re.findall(r"^pub (?:struct|enum) (\w+)", text, re.M)) - names
    owner, public = None, False
    for line in re.finditer(r"^.*$", text, re.M):
        content = line.group()
        if block := re.match(r"(?:pub )?(impl|trait)\b(?:<.*?>)? ?(?:.*? for )?(\w+)", content):
            owner, public = block.group(1), block.group(2) in names
        elif content == "}":
            owner = None
        if owner is None and (function := re.match(r"pub fn (\w+)", content)) and function.group(1) in names:
            yield from ((function.group(1), clause) for clause in clauses_of(text, line.start()))
        elif owner and public:
            shown = r"    fn (\w+)" if owner == "trait" else r"    pub fn (\w+)"
            function = re.match(shown, content)
            taken = set(re.findall(r"\w+", text[line.start() : text.find(")\n", line.start())]))
            if function and not (owner == "trait" and hidden & taken):
                yield from ((function.group(1), clause) for clause in clauses_of(text, line.start()))
            member = re.match(r"    ghost (?!use|view|invariant)(\w+)(?::| =) (?=\{)", content)
            if member:
                yield member.group(1), braces(text, line.start() + member.end())


def starts(known):
    """The definitions that each public clause or member names, as they come, by crate and the name of function or
    member."""
    found = defaultdict(dict)
    for crate in crates():
        for path in sorted((ROOT / "crates" / crate / "src").rglob("*.rt")):
            imported, aliases = imports_of(path.read_text())
            for function, clause in public_texts(crate, path):
                found[crate, function].update(dict.fromkeys(meant(known, clause, imported, aliases)))
    return found


def faults(known, reached, by_clauses):
    """What clauses reach inside, and what has no sentence."""
    for crate, module, name in reached:
        there = known[crate, module]
        file = there.path.relative_to(ROOT / "crates" / crate).as_posix()
        if file.startswith(INSIDE) and (crate, module, name) in by_clauses:
            yield f"a public clause reaches {crate} {name}, in {file}"
        if not there.comments[name]:
            yield f"has no sentence: {crate} {name}, in {file}"


def equations(known, name):
    """The equations of a definition of the top crate, by the constructor of the first argument, and its module;
    none where there is no such definition."""
    there = next((module for module in known.values() if module.crate == TOP[0] and name in module.bodies), None)
    found, current = {}, None
    for line in there.bodies[name] if there else ():
        if case := re.match(rf"\s*{name} \(?(\w+)", line):
            current = case.group(1)
            found[current] = line
        elif current:
            found[current] += "\n" + line
    return there, found


def commands(known):
    """For each command its word and the record that says what it is."""
    there, records = equations(known, TABLE)
    if there is None:
        sys.exit(f"there is no {TABLE} in {TOP[0]}: say in this script which table lists the commands")
    found = {}
    for constructor, text in records.items():
        roots = list(meant(known, text.partition(" = ")[2], there.imported, there.aliases, there))
        bodies = [line for root in roots for line in known[root[:2]].bodies[root[2]]]
        word = re.search(r'codes "(\w+)"', "\n".join(bodies))
        if roots:
            found[word.group(1) if word else constructor] = roots
    return found


def key_at_top(known, name):
    """A definition of the top crate or of a family's."""
    crates_with = [crate for crate in (TOP[0], *FAMILIES) if any(other == crate and name in module.bodies
                                                                 for (other, _), module in known.items())]
    return key_of(known, crates_with[0] if crates_with else TOP[0], name)


def key_of(known, crate, name):
    """A definition by its crate and name, which this script or the page begins at."""
    for other, module in known:
        if other == crate and name in known[other, module].bodies:
            return crate, module, name
    sys.exit(f"there is no {name} in {crate}: say in this script where its part begins")


def leading_to(known, ends, among):
    """Those of `among` that name one of the ends, or one that does."""
    names = {key: set(named_by(known, key)) for key in among}
    found, new = set(), set(ends)
    while new:
        new = {key for key in among if key not in found and names[key] & new}
        found |= new
    return found


def parts_to_read(known, named):
    """The parts by name, each with the definitions to be read for it, and all that is reached in all."""
    by_word = commands(known)
    law = reached_from(known, [key_of(known, "entry_order", name) for name in LAW])
    meaning = [key_at_top(known, name) for name in MEANING]
    answers = [root for word, roots in by_word.items() if word != MANY_ANSWERS for root in roots]
    fixed = set(reached_from(known, answers, meaning)) - set(law)
    leading = leading_to(known, meaning, fixed)
    roots = {root for given in by_word.values() for root in given}
    parts = {"law": law, "all": reached_from(known, named[TOP], roots)}
    parts |= {word: reached_from(known, given) for word, given in by_word.items()}
    parts["laws"] = reached_from(known, [key_at_top(known, name) for name in LAWS])
    every = set().union(*parts.values())
    common = set(law) | set(parts["all"])
    read = {}
    for name, keys in parts.items():
        read_here = set(keys) - fixed | (leading & set(keys) if name in by_word else set())
        own = [key for key in keys if key in read_here and (name in ("law", "all") or key not in common)]
        read[name] = from_top(known, own)
    return read, every


def from_top(known, keys):
    """The definitions crate by crate, the highest first, and each after those that name it."""
    inside, seen, done = set(keys), set(), []
    for root in reversed(keys):
        stack = [(root, None)]
        while stack:
            key, rest = stack.pop()
            if rest is None:
                if key in seen:
                    continue
                seen.add(key)
                rest = [found for found in named_by(known, key) if found in inside]
            if rest:
                stack += [(key, rest[:-1]), (rest[-1], None)]
            else:
                done.append(key)
    order = {crate: place for place, crate in enumerate(crates())}
    return sorted(reversed(done), key=lambda key: -order[key[0]])


def lines_of(known, keys):
    return sum(len(known[key[:2]].bodies[key[2]]) for key in keys)


def table_of_parts(known, read, every):
    """What is to be read for each part, and what all parts have that fixes bytes."""
    lines = ["| Part | To read | Lines |", "|---|---|---|"]
    for name, keys in read.items():
        lines.append(f"| `{name}` | {len(keys):,} | {lines_of(known, keys):,} |")
    union = set().union(*map(set, read.values()))
    rest = every - union
    lines.append(f"| to read, all together | {len(union):,} | {lines_of(known, union):,} |")
    lines.append(f"| fixed byte by byte, so cross-checked | {len(rest):,} | {lines_of(known, rest):,} |")
    return lines


BLOCK = re.compile(r"^<!-- figures -->\n(.*?)^<!-- end -->$", re.S | re.M)


def page_faults(known, named, is_written):
    """Whether the figures of the page differ from the sources; where they are to be written, they don't
    afterwards."""
    text = PAGE.read_text()
    wanted = "\n".join(table_of_parts(known, *parts_to_read(known, named))) + "\n"
    if is_written:
        PAGE.write_text(BLOCK.sub(lambda found: f"<!-- figures -->\n{wanted}<!-- end -->", text))
    elif [wanted] != BLOCK.findall(text):
        yield "BELIEVE.md has other figures than the sources"


def text_of(known, key):
    """A definition's comment and its lines, as they stand in its file."""
    module = known[key[:2]]
    lines = module.path.read_text().splitlines()
    at = module.places[key[2]] - 1
    end = at
    while end < len(lines) and (lines[end].strip().startswith("--") or lines[end].strip()):
        end += 1
    return "\n".join(lines[at:end])


def printed(known, keys):
    """The reading edition as one text."""
    for key in keys:
        module = known[key[:2]]
        yield f"== {key[2]} ({module.path.relative_to(ROOT).as_posix()}, line {module.places[key[2]]})\n"
        yield text_of(known, key) + "\n"


def anchor(key):
    return ".".join(key)


def as_page(known, keys):
    """The reading edition as one page, in which each name of one of its definitions is a link."""
    shown = set(keys)
    yield "<!doctype html>\n<meta charset=utf-8>\n<title>Definitions</title>\n"
    yield "<style>body{font:15px/1.5 sans-serif;max-width:60em;margin:auto}pre{white-space:pre-wrap}</style>\n"
    for key in keys:
        module = known[key[:2]]
        links = {}
        for found in named_by(known, key):
            if found in shown and found != key:
                links[found[2]] = anchor(found)
        text = html.escape(text_of(known, key), quote=False)
        text = WORD.sub(lambda word: f'<a href="#{links[word.group()]}">{word.group()}</a>'
                        if word.group() in links else word.group(), text)
        place = f"{module.path.relative_to(ROOT).as_posix()}, line {module.places[key[2]]}"
        yield f'<h3 id="{anchor(key)}">{html.escape(key[2])}</h3>\n<p>{place}</p>\n<pre>{text}</pre>\n'


def print_reading(known, named, words):
    """Prints the reading edition of a part, or of all."""
    read, _ = parts_to_read(known, named)
    names = [word for word in words if not word.startswith("--")] or list(read)
    folder = set().union(*(keys for (crate, _), keys in named.items() if crate == FOLDER))
    read["folder"] = from_top(known, reached_from(known, sorted(folder)))
    if unknown := [name for name in names if name not in read]:
        sys.exit(f"no part {unknown[0]}: one of {', '.join(read)}")
    keys = list(dict.fromkeys(key for name in names for key in read[name]))
    give = as_page if "--html" in words else printed
    print("\n".join(give(known, keys)))


def main():
    known = modules()
    named = starts(known)
    if sys.argv[1:2] == ["read"]:
        print_reading(known, named, sys.argv[2:])
        return 0
    reached = reached_from(known, sorted(set().union(*named.values())))
    clauses = [names for (_, place), names in named.items() if place not in ("coded", "from_gives")]
    by_clauses = set(reached_from(known, sorted(set().union(*clauses))))
    top = set(reached_from(known, sorted(named[TOP])))
    if "--list" in sys.argv[1:]:
        for crate, module, name in reached:
            mark = "*" if (crate, module, name) in top else " "
            print(f"{mark} {crate} {module} {name}: {known[crate, module].comments[name]}")
        return 0
    lines = list(faults(known, reached, by_clauses))
    lines += page_faults(known, named, "--write" in sys.argv[1:])
    print("\n".join(lines) or f"{len(reached)} definitions are reached, and each has its sentence")
    return 1 if lines else 0


if __name__ == "__main__":
    sys.exit(main())
