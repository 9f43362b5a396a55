#!/usr/bin/env python3
"""Makes docs/auditorium.1 and docs/auditorium_view.1 from the tables of the program's help, and checks them.

Run from anywhere: python3 tools/manual.py

The tables are the constants of crates/command_hints/src/commands.rt. The pages are written anew; where `mandoc` is
installed, what it finds fault with is printed. So is each command line of the tables that README.md or docs/FORMATS.md
lacks, and whether CHANGELOG.md begins with another version, or README.md lacks the logic. The exit status is 1 if a
page was another before, or if anything is printed.
"""
import pathlib
import re
import shutil
import subprocess
import sys
import textwrap

ROOT = pathlib.Path(__file__).resolve().parent.parent
TABLES = ROOT / "crates" / "command_hints" / "src" / "commands.rt"
PAGE = ROOT / "docs" / "auditorium.1"
VIEW_PAGE = ROOT / "docs" / "auditorium_view.1"
# The words of auditorium_view, and its statuses, which are among those of auditorium.
VIEW_WORDS = ["ROSTER", "RULES", "LOG.."]
VIEW_STATUSES = {0, 1, 2, 3, 4, 5, 6, 8, 9, 10}
DATE = "November 30, 2026"

HEAD = """\
.\\" Made by tools/manual.py from the program's help.
.Dd {date}
.Dt AUDITORIUM 1
.Os
.Sh NAME
.Nm auditorium
.Nd a simulated polling place and the auditor of its logs
.Sh SYNOPSIS
"""

DESCRIPTION = """\
.Sh DESCRIPTION
In VoteBox every voting machine signs each entry of its log and sends it to all
others, and each entry names, by digest, the latest ones that its machine had
seen.
.Nm
plays such a polling place, and audits the logs that survive.
The commands are:
"""

WORDS = """\
.Pp
Each word has 1 to 1,024 bytes from
.Sq \\&!
to
.Sq ~
and doesn't begin with
.Sq - :
there are no options, and the name of a file has no space.
.Fl -help
and
.Fl -version
are no valid words either: with them the standard output is
.Dq usage ,
the status is 4, and the help, with the version and the logic by which it was
proved, is on standard error.
The words are:
"""

DIAGNOSTICS = """\
.Sh DIAGNOSTICS
With the statuses 4, 5 and 6 the standard output is one line,
.Dq usage ,
.Dq refused FILE PLACE CAUSE
or
.Dq absent FILE ,
and a hint on standard error says what was expected.
For an invalid command line the usage line of the command follows; for a script
and for a file of rules, the line with a mark below the word; for a proof with
.Dq WrongCount ,
the numbers of surviving entries by the proof and by the logs.
With 8, 9 and 10 a line on standard error says what failed, except on a broken
pipe.
After
.Cm endorse ,
a line on standard error says so if FILE.sig isn't good under NAME.key, or if
others than its owner had access to NAME.office.
"""

EXAMPLES = """\
.Sh EXAMPLES
Make the script of a day, play it, and audit two of its four logs:
.Bd -literal -offset indent
auditorium make 10 > day.script
auditorium play day.script day
auditorium audit day.roster standard day.sv.log day.b2.log
.Ed
"""

SEE_ALSO = """\
.Sh SEE ALSO
The documents of the repository: README.md, docs/REPORT.md on how to read a
report, docs/FORMATS.md on the files, and examples/README.md for a run that ends
with each status.
"""

VIEW_HEAD = """\
.\\" Made by tools/manual.py from the program's help.
.Dd {date}
.Dt AUDITORIUM_VIEW 1
.Os
.Sh NAME
.Nm auditorium_view
.Nd shows what an audit reports on
.Sh SYNOPSIS
.Nm
.Ar ROSTER RULES LOG..
.Nm
.Cm picture
.Ar ROSTER RULES LOG..
.Sh DESCRIPTION
.Nm
takes the words of
.Cm audit
of
.Xr auditorium 1 ,
and prints a page in place of the report: one HTML document for a browser, or
for paper.
It says what the report comes to, and what it doesn't say.
It lists what was audited, with the SHA-256 of each file, and the machines with
their logs; what accuses and what may be loss alone, each line with what to do
next; the gaps with the entries that name them; the rules, broken ones with the
entries by which they are broken; and the entries.
At its end it has the report itself.
.Pp
After the word
.Cm picture
it prints the picture alone, an SVG document; a roster in a file of that name is
.Pa ./picture .
Each machine has a lane, with a mark for each entry and an arrow for each entry
that it names.
Gaps, forks, strays, refused records, breaks and damaged ends are marked, and
the entries by which a rule is broken are lit.
A mark's title says which entry it is.
Above 300 entries those that don't matter are drawn as bars, each with their
number.
.Pp
Either document is complete in itself: it loads nothing and runs nothing.
.Pp
The words are:
"""

VIEW_END = """\
.Sh EXAMPLES
.Bd -literal -offset indent
auditorium_view day.roster standard day.sv.log day.b2.log > day.html
auditorium_view picture day.roster standard day.sv.log day.b2.log > day.svg
.Ed
.Sh DIAGNOSTICS
They are those of
.Cm audit :
with the statuses 4, 5 and 6 the standard output is one line in place of a
document, and a hint on standard error says what was expected.
.Sh SEE ALSO
.Xr auditorium 1
and docs/REPORT.md of the repository, on how to read a report.
"""


def table(name):
    """The rows of a table of the help: what is before the first colon, and what is after it."""
    body = re.search(rf"const {name}: &\[&str\] = &\[(.*?)\n\];", TABLES.read_text(), re.S).group(1)
    rows = re.findall(r'"((?:[^"\\]|\\.)*)"', body)
    return [row.partition(": ")[::2] for row in rows]


def constant(name):
    """A constant beside the tables."""
    return re.search(rf'const {name}: &str = "(.*)";', TABLES.read_text()).group(1)


def sentence(text):
    """The text as a sentence that begins with a capital, unless it begins with a number, in lines of at most 80."""
    return textwrap.fill(text[0].upper() + text[1:] + ".", 80, break_long_words=False, break_on_hyphens=False)


def listed(items):
    """A list of items, each a macro line and a sentence."""
    lines = [".Bl -tag -width Ds"]
    for macros, text in items:
        lines += [f".It {macros}", sentence(text)]
    return "\n".join(lines + [".El"]) + "\n"


def macros(line):
    """A command line: the command, and its words."""
    command, _, words = line.partition(" ")
    return f"Cm {command} Ar {words}"


def keys():
    """What to know about the keys of offices, a sentence a line."""
    return ".Sh SECURITY CONSIDERATIONS\n" + "".join(sentence(row) + "\n" for row, _ in table("KEYS"))


def page():
    commands, words, statuses = table("COMMANDS"), table("WORDS"), table("STATUSES")
    text = HEAD.format(date=DATE)
    text += "".join(f".Nm\n.{macros(line)}\n" for line, _ in commands)
    text += DESCRIPTION + listed((macros(line), does) for line, does in commands)
    text += WORDS + listed((f"Ar {name}", meaning) for name, meaning in words)
    text += ".Sh EXIT STATUS\n" + listed((str(n), meaning) for n, (meaning, _) in enumerate(statuses))
    return text + EXAMPLES + DIAGNOSTICS + SEE_ALSO + keys()


def view_page():
    words, statuses = dict(table("WORDS")), table("STATUSES")
    text = VIEW_HEAD.format(date=DATE)
    text += listed((f"Ar {name}", words[name.removesuffix("..")]) for name in VIEW_WORDS)
    text += ".Sh EXIT STATUS\n"
    text += listed((str(n), meaning) for n, (meaning, _) in enumerate(statuses) if n in VIEW_STATUSES)
    return text + VIEW_END


def page_faults(path, text):
    if not path.is_file() or path.read_text() != text:
        yield f"docs/{path.name} is made anew"
        path.write_text(text)
    if shutil.which("mandoc"):
        lint = subprocess.run(["mandoc", "-Tlint", path], capture_output=True, text=True)
        # The other page needn't be installed.
        yield from (line for line in lint.stdout.splitlines() if "referenced manual not found" not in line)


def faults():
    yield from page_faults(PAGE, page())
    yield from page_faults(VIEW_PAGE, view_page())
    for document in ("README.md", "docs/FORMATS.md"):
        known = (ROOT / document).read_text()
        yield from (f"{document} lacks `{line}`" for line, _ in table("COMMANDS") if f"`{line}`" not in known)
    if not (ROOT / "CHANGELOG.md").read_text().startswith(f"# Changelog\n\n## {constant('VERSION')}\n"):
        yield f"CHANGELOG.md doesn't begin with {constant('VERSION')}"
    if f"`{constant('LOGIC')}`" not in (ROOT / "README.md").read_text():
        yield f"README.md lacks the logic {constant('LOGIC')}"


def main():
    found = list(faults())
    print("\n".join(found) or "the manual pages are those of the help")
    return 1 if found else 0


if __name__ == "__main__":
    sys.exit(main())
