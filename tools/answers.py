#!/usr/bin/env python3
"""Checks docs/ANSWERS.md against the sources. Run from anywhere: python3 tools/answers.py

A row's first cell is `CRATE`: `CALL`, or empty where the row goes on with the call above. Its fourth cell names
clauses and then `PATH`, a file of the crate; or it says "the one clause", with the definition in parentheses if it
has a name; or "no clause" and why. The file must have the call, and the call's contract must have each of these clauses (or exactly one,
which uses the definition). Each public function with a fallible result must have a row, or its only refusal must be
that an allocation failed. Each fault is printed; the exit status is 1 if there is one.
"""
import pathlib
import re
import sys

ROOT = pathlib.Path(__file__).resolve().parent.parent
NAME = re.compile(r"`([^`]+)`")
FALLIBLE = re.compile(r"-> (?:Result|Option)<")
# Crates that compare or measure, and serve no command.
APART = {
    "small_worlds", "listed_graphs", "world_orders", "bench_order", "bench_text", "bench_rules", "bench_signatures",
    "auditorium_cli", "auditorium_view",
}


def rows():
    """The rows of the table: the crate, the call and the cell of clauses."""
    crate, calls = None, []
    for line in (ROOT / "docs/ANSWERS.md").read_text().splitlines():
        if not line.startswith("| ") or line.startswith("| Call"):
            continue
        cells = [cell.strip() for cell in line.strip().strip("|").split("|")]
        if cells[0]:
            crate, *calls = NAME.findall(cells[0])
        yield from ((crate, call, cells[3]) for call in calls)


def contract_of(text, call):
    """The signature and the contract of a function, up to its body, or None."""
    name = re.escape(call.split("::")[-1])
    found = re.search(rf"^ *(?:pub )?fn {name}\b.*?(?:^ *\{{\}}?$|;$)", text, re.M | re.S)
    return found and found.group(0)


def clauses_of(contract):
    """The names of a contract's `ensures`, and "" for one without a name."""
    return re.findall(r"\bensures (?:(\w+) )?\{", contract)


def row_faults(crate, call, cell):
    """What a row names in vain."""
    if cell.startswith("no clause"):
        return
    names = NAME.findall(cell)
    paths = [name for name in names if "/" in name]
    if len(paths) != 1:
        yield f"{crate}: {call}: no file"
        return
    path = ROOT / "crates" / crate / paths[0]
    contract = contract_of(path.read_text(), call) if path.is_file() else None
    if not contract:
        yield f"{crate}: no {call} in {paths[0]}"
        return
    clauses = clauses_of(contract)
    if cell.startswith("the one clause"):
        if clauses != [""]:
            yield f"{crate}: {call} has not one clause without a name, but {clauses}"
        used = [name for name in names if "/" not in name]
    else:
        used = []
        for name in names:
            if "/" not in name and name[0].islower() and name not in clauses:
                yield f"{crate}: {call} has no clause {name}"
            if name[0].isupper():
                used.append(name)
    yield from (f"{crate}: {call} doesn't use {name}" for name in used if not re.search(rf"\b{name}\b", contract))


def exported(crate):
    """The names that a crate lends."""
    text = (ROOT / "crates" / crate / "src/lib.rt").read_text()
    return set(re.findall(r"\w+", " ".join(re.findall(r"^pub use ([^;]+);", text, re.M | re.S))))


def fallible_calls(crate):
    """The public calls whose answer isn't their value alone."""
    lent = exported(crate)
    for path in (ROOT / "crates" / crate / "src").glob("**/*.rt"):
        owner = None
        for found in re.finditer(r"^impl(?:<[^{]*?>)? (\w+)|^\}|^( *)pub fn (\w+)(.*?)(?=^ *\{\}?$)", path.read_text(), re.M | re.S):
            if found.group(1):
                owner = found.group(1)
            elif found.group(3) is None:
                owner = None
            elif FALLIBLE.search(found.group(4)):
                wants_memory = re.search(r"-> Result<[^{]*?, (?:Memory|AllocError)>", found.group(4).replace("\n", " "))
                if owner in lent and not wants_memory:
                    yield f"{owner}::{found.group(3)}"
                elif owner is None and found.group(3) in lent and not wants_memory:
                    yield found.group(3)


def crates():
    """The crates of crates.txt that serve a command."""
    lines = (ROOT / "crates.txt").read_text().splitlines()
    names = [line.split(":")[0] for line in lines if ":" in line and not line.startswith("#")]
    return [name for name in names if name not in APART]


def main():
    listed = list(rows())
    faults = [fault for crate, call, cell in listed for fault in row_faults(crate, call, cell)]
    known = {(crate, call) for crate, call, _ in listed}
    for crate in crates():
        faults += [f"{crate}: no row of {call}" for call in fallible_calls(crate) if (crate, call) not in known]
    for fault in faults:
        print(fault)
    return 1 if faults else 0


if __name__ == "__main__":
    sys.exit(main())
