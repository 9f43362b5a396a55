#!/usr/bin/env python3
"""Checks docs/ARCHITECTURE.md against crates.txt, and draws docs/architecture.svg from both.

Run from anywhere: python3 tools/architecture.py [--write]

The page has a table for each band, lowest first, and then one for programs that measure and one for crates of
tests. "Stands on" has the crates of crates.txt that a crate uses and that no other one of these uses, and the
next column what it uses of the kit; --write fills both. Printed is where a table differs from crates.txt, each
crate that only one of the two has, each that crates.txt has before a crate that it uses, and each that uses one
of a higher band, other than entry_order. The exit status is 1 if there is any such line.

The picture has the crates of the bands, each at its place in PLACES, and the page's paths through them: a path is
a numbered list, and a step of it is at the crate that it names first. A crate without a place, or in another
band there, is printed, too. What has a place and isn't in crates.txt isn't drawn.
"""
import pathlib
import re
import sys

ROOT = pathlib.Path(__file__).resolve().parent.parent
DOCUMENT = ROOT / "docs" / "ARCHITECTURE.md"
PICTURE = ROOT / "docs" / "architecture.svg"
USED_FROM_BELOW = "entry_order"

# The rows of boxes from the top down; `.` is an empty place, and a line of dashes parts two bands. Where the
# ways go straight up there are empty places.
PLACES = """
command_hints  auditorium_cli  auditorium_core  .               auditorium_view
.              log_commands    office_commands  place_commands  .
.              command_line    .                demonstration   .
entangled_picture auditor      report_exactness honest_places   counterexamples
evidence       live_auditor    report_page      .               .
-----
.              .               finished_floor   log_lock        broadcast_queues
ruled_queues   .               .                machine_floor   floor_links
-----
log_repair     .               election_script  polling_world   .
deed_history   .               .                booth_core      supervisor_core
-----
audit_proof    rule_engine     rule_exactness   rule_meaning    rule_language
entry_graph    precedence      survivor_rows    entry_order     held_counts
-----
.              log_files       .                entangled_log   log_frontier
roster         input_causes    entry_format     .               .
-----
.              .               .                .               office_key
item_list      canonical_sexp  .                lms_sign        hss_sign
.              hall_outside    hall_text        lms_ots         .
page_markup    folder_calls    .                ways_of_work    .
"""

# Blue, vermilion and bluish green can be told apart by everybody (Okabe and Ito).
COLOURS = ("#0072b2", "#d55e00", "#007a58")
# How far each way keeps from the middle of a lane.
SHIFTS = (0, -5, 5)
FILLS = ("#eef2f6", "#e1e8ef")
MARGIN, NAMES, WIDTH, HEIGHT, LANE, RISE, EDGE = 8, 96, 132, 28, 26, 30, 6


def workspace():
    """The libraries of each crate, in the order of crates.txt."""
    found = {}
    for line in (ROOT / "crates.txt").read_text().splitlines():
        if ":" in line and not line.startswith("#"):
            name, _, libraries = line.partition(":")
            found[name.strip()] = libraries.split()
    return found


def tables(text):
    """For each table with the column "Stands on" its heading, and of each crate what the row names, own and the
    kit's."""
    found, heading, inside = [], "", False
    for line in text.splitlines():
        if line.startswith("#"):
            heading = line.lstrip("# ")
        if not line.startswith("|"):
            inside = False
        elif "| Stands on |" in line:
            inside = True
            found.append((heading, {}))
        elif inside and "`" in line:
            cells = [re.findall(r"`(\w+)`", cell) for cell in line.strip("|").split("|")]
            found[-1][1][cells[0][0]] = (set(cells[2]), set(cells[3]))
    return found


def ways(text):
    """The ways with their letters and names, and the crates of their steps."""
    found = []
    for line in text.splitlines():
        if heading := re.match(r"### ([A-Z])\. (.*)", line):
            found.append((heading.group(1), heading.group(2).replace("`", ""), []))
        elif line.startswith("#"):
            found.append(("", "", []))
        elif found and (step := re.match(r"\d+\. `(\w+)`", line)):
            found[-1][2].append(step.group(1))
    return [way for way in found if way[0] and way[2]]


def direct(libraries):
    """Of each crate the crates that it uses and that no other one of these uses in turn, and what of the kit."""
    own = {crate: [name for name in libraries[crate] if name in libraries] for crate in libraries}
    below = {}
    for crate in libraries:
        below[crate] = set(own[crate]).union(*(below.get(name, ()) for name in own[crate]))
    return {crate: ([n for n in own[crate] if not any(n in below.get(m, ()) for m in own[crate])],
                    [name for name in libraries[crate] if name not in libraries]) for crate in libraries}


def filled(text, wanted):
    """The page with the last two columns of each crate's row as they are wanted."""
    lines = text.splitlines()
    inside = False
    for place, line in enumerate(lines):
        inside = line.startswith("|") and (inside or "| Stands on |" in line)
        crate = re.match(r"\| `(\w+)` \|", line)
        if inside and crate and crate.group(1) in wanted:
            cells = line.strip().strip("|").split("|")[:2]
            cells += [" " + ", ".join(f"`{name}`" for name in names) + " " for names in wanted[crate.group(1)]]
            lines[place] = re.sub(r"\|  +\|", "| |", re.sub(r"\|  +\|", "| |", f"|{'|'.join(cells)}|"))
    return "\n".join(lines) + "\n"


def table_faults(libraries, rows, wanted):
    """Where the tables differ from crates.txt."""
    order = list(libraries)
    for crate in libraries:
        for name in libraries[crate]:
            if name in libraries and order.index(name) > order.index(crate):
                yield f"crates.txt has {crate} before {name}"
        if crate not in rows:
            yield f"no row of {crate}"
            continue
        columns = zip(("stands on", "of the kit"), rows[crate], wanted[crate])
        for what, listed, names in columns:
            for name in sorted(listed ^ set(names)):
                yield f"{crate} {what} {name}: {'only in crates.txt' if name in names else 'only in the table'}"
    yield from (f"{crate} isn't in crates.txt" for crate in rows if crate not in libraries)


def band_faults(libraries, bands, places, drawn_ways):
    """What uses a higher band, what has no place in the picture, and what is in another band there."""
    band = {crate: k for k, (_, rows) in enumerate(bands) for crate in rows}
    for crate in band:
        for name in libraries.get(crate, ()):
            if band.get(name, -1) > band[crate] and name != USED_FROM_BELOW:
                yield f"{crate} is in a band below that of {name}"
        if crate not in places:
            yield f"the picture has no place for {crate}"
        elif places[crate][0] != len(bands) - 1 - band[crate]:
            yield f"the picture has {crate} in another band"
    for letter, _, steps in drawn_ways:
        yield from (f"way {letter} goes through {name}, which isn't drawn" for name in steps if name not in band)


class Map:
    """Where the boxes are: rows and columns from 0, and the lanes between them."""

    def __init__(self, crates):
        self.places, self.tops, self.bands = {}, [], []
        top = MARGIN
        for k, text in enumerate(PLACES.split("-----")):
            start, top = top, top + EDGE + RISE // 2
            for line in text.strip().splitlines():
                for column, crate in enumerate(line.split()):
                    if crate != ".":
                        self.places[crate] = (k, len(self.tops), column)
                self.tops.append(top)
                top += HEIGHT + RISE
            top += EDGE - RISE // 2
            self.bands.append((start, top))
        self.height = top
        self.columns = 1 + max(column for _, _, column in self.places.values())
        self.width = MARGIN + NAMES + self.columns * (WIDTH + LANE) + LANE + MARGIN
        self.full = {place[1:] for crate, place in self.places.items() if crate in crates}

    def middle(self, column):
        return MARGIN + NAMES + LANE + column * (WIDTH + LANE) + WIDTH / 2

    def lane(self, column):
        """The middle of the lane to the left of a column."""
        return self.middle(column) - WIDTH / 2 - LANE / 2

    def is_free(self, column, row, other):
        """Whether a column is empty between two rows."""
        return not any((k, column) in self.full for k in range(min(row, other) + 1, max(row, other)))

    def route(self, start, end, shift, taken):
        """The corners of a way from one box to another, moved by a shift from where other ways go; lanes that the
        way takes are noted with the rows that it passes there."""
        (_, row, column), (_, last, aim) = self.places[start], self.places[end]
        x, u = self.middle(column) + 2.2 * shift, self.middle(aim) + 2.2 * shift
        if row == last:
            y, side = self.tops[row] + HEIGHT / 2 + shift, WIDTH / 2 if aim > column else -WIDTH / 2
            return [(self.middle(column) + side, y), (self.middle(aim) - side, y)]
        up = last < row
        leave = self.tops[row] if up else self.tops[row] + HEIGHT
        enter = self.tops[last] + HEIGHT if up else self.tops[last]
        if column == aim and self.is_free(column, row, last):
            return [(x, leave), (x, enter)]
        near = leave + (-RISE / 2 if up else RISE / 2) + shift
        far = enter + (RISE / 2 if up else -RISE / 2) + shift
        if self.is_free(aim, row, last):
            return sideways([(x, leave), (x, near), (u, near), (u, enter)])
        if self.is_free(column, row, last):
            return sideways([(x, leave), (x, far), (u, far), (u, enter)])
        both = (aim, aim + 1) if column < aim else (aim + 1, aim)
        passed = {(lane, k) for lane in both for k in range(min(row, last), max(row, last) + 1)}
        lane = next((lane for lane in both if not any(place in taken for place in passed if place[0] == lane)), both[0])
        taken |= {place for place in passed if place[0] == lane}
        middle = self.lane(lane) + shift
        return sideways([(x, leave), (x, near), (middle, near), (middle, far), (u, far), (u, enter)])


def sideways(corners, size=9):
    """The corners with both ends moved towards where the way goes, so that what comes and what goes lie apart."""
    (x, _), (a, _), (b, _), (u, _) = corners[1], corners[2], corners[-3], corners[-2]
    out, back = (size if a > x else -size), (size if b > u else -size)
    return [(c + (out if k < 2 else back if k >= len(corners) - 2 else 0), d) for k, (c, d) in enumerate(corners)]


def path_of(corners, turn=7):
    """The path through the corners, each but the ends rounded."""
    path = "M{:.0f} {:.0f}".format(*corners[0])
    for (a, b), (x, y), (c, d) in zip(corners, corners[1:], corners[2:]):
        before, after = abs(a - x) + abs(b - y), abs(c - x) + abs(d - y)
        size = min(turn, before / 2, after / 2)
        if size < 1:
            continue
        path += "L{:.0f} {:.0f}".format(x + (a - x) * size / before, y + (b - y) * size / before)
        path += "Q{:.0f} {:.0f} {:.0f} {:.0f}".format(x, y, x + (c - x) * size / after, y + (d - y) * size / after)
    return path + "L{:.0f} {:.0f}".format(*corners[-1])


def band_lines(sheet, bands):
    """The bands, from the top down, each with its name at the left."""
    for k, ((top, bottom), (name, _)) in enumerate(zip(sheet.bands, reversed(bands))):
        yield (f'<rect x="{MARGIN}" y="{top:.0f}" width="{sheet.width - 2 * MARGIN:.0f}" height="{bottom - top:.0f}"'
               f' fill="{FILLS[k % 2]}"/>')
        words, rows = name.split(), [""]
        for word in words:
            if len(rows[-1]) + len(word) > 12 and rows[-1]:
                rows.append("")
            rows[-1] = f"{rows[-1]} {word}".strip()
        first = (top + bottom) / 2 + 5 - 8 * (len(rows) - 1)
        for place, row in enumerate(rows):
            yield (f'<text x="{MARGIN + 10}" y="{first + 16 * place:.0f}" font-size="13" font-weight="bold"'
                   f' fill="#234">{row}</text>')


def way_lines(sheet, drawn_ways):
    """The ways, and after them the marks of their steps."""
    for k, (_, _, steps) in enumerate(drawn_ways):
        taken = set()
        for start, end in zip(steps, steps[1:]):
            path = path_of(sheet.route(start, end, SHIFTS[k], taken))
            yield (f'<path d="{path}" fill="none" stroke="{COLOURS[k]}" stroke-width="2.5"'
                   f' marker-end="url(#tip{k})"/>')


def box_lines(sheet, crates):
    for crate, (_, row, column) in sheet.places.items():
        if crate in crates:
            x, y = sheet.middle(column), sheet.tops[row]
            yield (f'<rect x="{x - WIDTH / 2:.0f}" y="{y}" width="{WIDTH}" height="{HEIGHT}" rx="5" fill="#fff"'
                   ' stroke="#567"/>')
            yield f'<text x="{x:.0f}" y="{y + HEIGHT / 2 + 4.5:.0f}" text-anchor="middle">{crate}</text>'


def mark(x, y, text, colour):
    size = 8 + 8 * len(text)
    return [f'<rect x="{x - size / 2:.0f}" y="{y - 7:.0f}" width="{size}" height="14" rx="7" fill="{colour}"'
            ' stroke="#fff"/>',
            f'<text x="{x:.0f}" y="{y + 3.5:.0f}" text-anchor="middle" font-size="10" font-weight="bold" fill="#fff">'
            f"{text}</text>"]


def mark_lines(sheet, drawn_ways):
    marked = {}
    for k, (letter, _, steps) in enumerate(drawn_ways):
        for place, crate in enumerate(steps, 1):
            marked.setdefault(crate, []).append((f"{letter}{place}", COLOURS[k]))
    for crate, marks in marked.items():
        _, row, column = sheet.places[crate]
        # All but the last are at the left, so that there is room for arrows in the middle.
        left = marks[:-1]
        yield from marks_in_row(sheet.middle(column) - WIDTH / 2 - 4, sheet.tops[row], left)
        wide = sum(17 + 8 * (len(text) - 1) for text, _ in marks[len(left):])
        yield from marks_in_row(sheet.middle(column) + WIDTH / 2 + 4 - wide, sheet.tops[row], marks[len(left):])


def marks_in_row(x, y, marks):
    for text, colour in marks:
        size = 17 + 8 * (len(text) - 1)
        yield from mark(x + size / 2, y, text, colour)
        x += size


def legend_lines(sheet, drawn_ways):
    """What the colours and marks mean, below the bands."""
    y = sheet.height + 24
    for k, (letter, name, _) in enumerate(drawn_ways):
        x = MARGIN + 4 + k * (sheet.width - 2 * MARGIN) / len(drawn_ways)
        yield f'<path d="M{x:.0f} {y}h44" stroke="{COLOURS[k]}" stroke-width="2.5" marker-end="url(#tip{k})"/>'
        yield f'<text x="{x + 52:.0f}" y="{y + 4}">{letter}: {name}</text>'
    y += 28
    x = MARGIN + 4
    yield f'<rect x="{x}" y="{y - 11}" width="44" height="22" rx="5" fill="#fff" stroke="#567"/>'
    yield f'<text x="{x + 52}" y="{y + 4}">a crate</text>'
    x += (sheet.width - 2 * MARGIN) / 3
    yield from mark(x + 22, y, f"{drawn_ways[0][0]}2", COLOURS[0])
    yield (f'<text x="{x + 52:.0f}" y="{y + 4}">a step of a way, numbered as in the text; each band rests on those'
           " below it</text>")


def drawn(crates, bands, drawn_ways):
    sheet = Map(crates)
    tips = "".join(f'<marker id="tip{k}" viewBox="0 0 8 8" refX="7" refY="4" markerWidth="9" markerHeight="9"'
                   f' markerUnits="userSpaceOnUse" orient="auto"><path d="M0 0 8 4 0 8z" fill="{colour}"/></marker>'
                   for k, colour in enumerate(COLOURS))
    lines = [
        f'<svg xmlns="http://www.w3.org/2000/svg" viewBox="0 0 {sheet.width:.0f} {sheet.height + 74:.0f}"'
        ' font-family="Helvetica, Arial, DejaVu Sans, sans-serif" font-size="12.5">',
        "<title>Six bands of crates, and three paths through them</title>",
        f"<defs>{tips}</defs>",
        '<rect width="100%" height="100%" fill="#fff"/>',
        *band_lines(sheet, bands),
        *way_lines(sheet, drawn_ways),
        *box_lines(sheet, crates),
        *mark_lines(sheet, drawn_ways),
        *legend_lines(sheet, drawn_ways),
    ]
    return "\n".join(lines) + "\n</svg>\n"


def main():
    libraries = workspace()
    wanted = direct(libraries)
    text = DOCUMENT.read_text()
    if "--write" in sys.argv[1:]:
        text = filled(text, wanted)
        DOCUMENT.write_text(text)
    found = tables(text)
    bands = [(heading.partition(". ")[2], rows) for heading, rows in found if re.match(r"\d+\. ", heading)]
    drawn_ways = ways(text)
    rows = {crate: cells for _, table in found for crate, cells in table.items()}
    crates = {crate for _, table in bands for crate in table if crate in libraries}
    faults = list(table_faults(libraries, rows, wanted))
    faults += band_faults(libraries, bands, Map(crates).places, drawn_ways)
    print("\n".join(faults) or f"the page agrees with crates.txt; drawn: {len(crates)} crates")
    if not any("picture" in fault or "drawn" in fault for fault in faults):
        PICTURE.write_text(drawn(crates, bands, drawn_ways))
    return 1 if faults else 0


if __name__ == "__main__":
    sys.exit(main())
