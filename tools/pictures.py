#!/usr/bin/env python3
"""The pictures of docs/USING.md: the states of a record and the lines between them; a page's life; a mill and its studios.

    pictures.py --write    makes docs/record-states.svg, docs/page-life.svg and docs/accounts.svg
    pictures.py --check    fails if they are not what --write would make

States, lines, transfers and the names of events come from the code's own tables. What an arrow says and where it is
drawn stands here. It is an error if a line of the code has no arrow or an arrow no line, and if a kind of request
has no place.
"""

import pathlib
import re
import sys

import studios
from drawing import arrow, box, corner, head, lines, section, tail
from regions import renew

ROOT = pathlib.Path(__file__).resolve().parent.parent
DOCS = ROOT / "docs"
MODEL = ROOT / "crates" / "model"

# Each state of a record: where it is drawn, what the paper says of it, and the colour of its box.
STATE_BOXES = {
    "FREE": (120, 100, "on in the free map", "disk"),
    "NULLED": (475, 100, "held by a page, void", "out"),
    "LIVE": (865, 100, "holds the page's words", "in"),
    "LEAVING": (120, 330, "free after a good update", "moving"),
    "RELEASED": (475, 330, "cut from its page", "moving"),
    "FILED": (865, 330, "listed, design at rest", "disk"),
}

# Arrows: from, to, the event (its kind, then what is said of it; | ends a line), how far it is bent, where the label
# stands seen from the arrow's middle, and which end of the label is there.
STATE_ARROWS = [
    ("FREE", "NULLED", "FAULT|of a page with no record", 0, 0, -24, "middle"),
    ("NULLED", "LIVE", "PAGE_DONE, a good write", 16, 0, -13, "middle"),
    ("LIVE", "NULLED", "CLAIM|of a page changed to zeros", 16, 0, 23, "middle"),
    ("NULLED", "RELEASED", "TRUNCATE", 0, 8, 42, "start"),
    ("LIVE", "RELEASED", "TRUNCATE", 0, 16, 12, "start"),
    ("NULLED", "LEAVING", "UPDATE|of a page in no frame", 0, 12, 14, "start"),
    ("LIVE", "FILED", "DEACTIVATE", 22, 8, 0, "start"),
    ("FILED", "LIVE", "ACTIVATE", 22, -8, 0, "end"),
    ("RELEASED", "LEAVING", "UPDATE", 16, 0, 13, "middle"),
    ("LEAVING", "RELEASED", "MAP_DONE, failed", 16, 0, -13, "middle"),
    ("LEAVING", "FREE", "MAP_DONE,|good", 0, -8, 0, "end"),
    ("FREE", "FILED", "IMPORT", 0, 6, -12, "start"),
]
STATE_NOTES = ["A restart sets all anew: the records that the maps on the disk list are filed, all others free."]

# A page's life: each box with its place, its words, its colour, and whether truncate leads from it to no address.
PAGE_BOXES = {
    "reading": (130, 110, "reading", "in a frame, transfer {READING}", "moving", False),
    "live": (500, 110, "live", "in no frame, words stored", "out", True),
    "writing": (870, 110, "writing", "in a frame, transfer {WRITING}", "moving", False),
    "served": (215, 300, "served", "in a frame, unmodified", "in", True),
    "wired": (500, 300, "wired", "in a frame, held there", "in", False),
    "written": (785, 300, "written", "in a frame, modified", "in", True),
    "none": (130, 490, "no address", "in no frame, zeros", "out", False),
    "nulled": (500, 490, "nulled", "in no frame, record void", "out", True),
    "unlisted": (130, 700, "not listed", "map entry 0", "disk", False),
    "update": (500, 700, "update under way", "failed: all as before", "moving", False),
    "listed": (870, 700, "listed", "map entry: record + 1", "disk", False),
    "rest": (500, 850, "design at rest", "inactive, in no frame", "disk", False),
}
PAGE_ARROWS = [
    ("live", "reading", "FAULT, a read begins", -14, 0, -12, "middle"),
    ("reading", "live", "PAGE_DONE, failed", -14, 0, 12, "middle"),
    ("reading", "served", "PAGE_DONE,|good", 0, -10, 8, "end"),
    ("served", "live", "CLAIM,|address live", 0, -12, -10, "end"),
    ("served", "wired", "WIRE", 10, 0, -12, "middle"),
    ("wired", "served", "UNWIRE", 10, 0, 12, "middle"),
    ("written", "wired", "WIRE", -10, 0, -12, "middle"),
    ("wired", "written", "UNWIRE", -10, 0, 12, "middle"),
    ("served", "written", "WRITE", -45, 0, 13, "middle"),
    ("written", "writing", "CLAIM,|a write begins", 12, -10, 0, "end"),
    ("writing", "written", "PAGE_DONE,|failed", 12, 10, 4, "start"),
    ("writing", "live", "PAGE_DONE, good", 0, 0, -12, "middle"),
    ("written", "nulled", "CLAIM,|all words zero", 0, 14, 10, "start"),
    ("nulled", "served", "FAULT", -12, 8, -10, "start"),
    ("served", "nulled", "CLAIM, address|nulled", -12, -8, 14, "end"),
    ("none", "served", "FAULT, takes|a free record", 0, -12, 0, "end"),
    ("nulled", "none", "UPDATE, its|record leaves", 0, 0, 24, "middle"),
    ("update", "unlisted", "MAP_DONE, good:|not live at the update", -12, 0, -21, "middle"),
    ("unlisted", "update", "UPDATE", -12, 0, 13, "middle"),
    ("update", "listed", "MAP_DONE, good:|live at the update", 12, 0, -21, "middle"),
    ("listed", "update", "UPDATE", 12, 0, 13, "middle"),
    ("unlisted", "rest", "DEACTIVATE", -12, -14, 8, "end"),
    ("rest", "unlisted", "ACTIVATE:|no address", -12, 22, -10, "start"),
    ("listed", "rest", "DEACTIVATE", 12, 14, 8, "start"),
    ("rest", "listed", "ACTIVATE:|live", 12, -22, -10, "end"),
]
PAGE_NOTES = [
    "Served, written or wired, a page can be read, written and looked at; writing, it can be read and looked at.",
    "A fault on a live page whose record has a copy in the chip leads to served at once; no read begins.",
    "Live at the update: its address was live then, in a frame or not. A turn moves a page by the fault or the claim that it makes.",
    "A truncated page stays listed until an update begun later is finished; a cut before brings its old words back.",
    "A cut and restart lead from every box to the design at rest, with what the map on the disk lists then.",
]
CUT_NOTE = "truncate leads from here to no address: the record is released, the frame freed"
# Kinds that move no page from box to box, or move it by a fault or a claim.
PAGE_OTHERS = {"CREATE", "DELETE", "LIMIT", "MOVE", "READ", "JOIN", "TURN"}


# Calls of their own, no kinds of request, that move a record.
CALLS = {"IMPORT"}


class Bad(Exception):
    """The code's tables and the picture's do not agree; says where."""


def numbered(source):
    """The names that a definition file gives to numbers: abbrev pub NAME : N, NAME = number."""
    return {name: int(value) for name, value in re.findall(r"^([A-Z]+) = (\d+)$", source, re.M)}


def state_names(source):
    """The states of a record, in the order of their numbers."""
    names = numbered(source)
    count = names.pop("STATES")
    if sorted(names.values()) != list(range(count)):
        raise Bad(f"the states are not numbered from 0 to {count - 1}: {names}")
    return sorted(names, key=names.get)


def code_lines(source, states):
    """The lines of the constant table LINES: a row for each state left, a cell for each state entered."""
    table = re.search(r"const LINES: .*? = \[(.*?)\];", source, re.S)
    rows = [re.findall(r"true|false", row) for row in re.findall(r"\[(.*?)\]", table.group(1))] if table else []
    if [len(row) for row in rows] != [len(states)] * len(states):
        raise Bad(f"LINES is no table of {len(states)} by {len(states)}")
    return {(states[i], states[j]) for i, row in enumerate(rows) for j, cell in enumerate(row) if cell == "true"}


def kinds(header):
    """The kinds of request, by their names in C without the prefix."""
    section = re.search(r"/\* The kinds of request\. \*/\nenum \{(.*?)\};", header, re.S)
    return set(re.findall(r"KEEPER_([A-Z_]+) =", section.group(1))) if section else set()


def same(what, code, picture):
    """Two sets that must be one."""
    if code != picture:
        raise Bad(f"{what}: only in the code {sorted(code - picture)}, only in the picture {sorted(picture - code)}")


def kind_of(words):
    """The kind of request that an arrow names: its first word."""
    return re.match(r"[A-Z_]+", words).group()


def label(words, known):
    """The lines of a label, the kind in small letters."""
    kind = kind_of(words)
    if kind not in known:
        raise Bad(f"no kind of request: {kind}")
    return words.replace(kind, kind.lower().replace("_", " "), 1).split("|")


def drawn(arrows, places, known):
    """All arrows first, then their labels, so that no arrow crosses one."""
    paths, labels = "", ""
    for start, end, words, bend, dx, dy, anchor in arrows:
        path, middle = arrow(places[start][:2], places[end][:2], bend)
        paths += path
        labels += lines(middle[0] + dx, middle[1] + dy, label(words, known), anchor)
    return paths + labels


def record_states(states_source, lines_source, header):
    """The picture of the states of a record."""
    states = state_names(states_source)
    same("states", set(states), set(STATE_BOXES))
    same("lines", code_lines(lines_source, states), {(a, b) for a, b, *_ in STATE_ARROWS})
    boxes = [box(x, y, name.lower(), under, fill) for name, (x, y, under, fill) in STATE_BOXES.items()]
    return (
        head("The states of a record and the lines between them", 1000, 430)
        + drawn(STATE_ARROWS, STATE_BOXES, kinds(header) | CALLS)
        + "".join(boxes)
        + lines(500, 403, STATE_NOTES)
        + tail()
    )


def page_life(state_source, header):
    """The picture of a page's life."""
    known, transfers = kinds(header), numbered(state_source)
    shown = {kind_of(words) for _, _, words, *_ in PAGE_ARROWS} | {kind_of(CUT_NOTE.upper())}
    same("kinds of request", known, shown | PAGE_OTHERS)
    boxes = [box(x, y, name, under.format(**transfers), *how) for x, y, name, under, *how in PAGE_BOXES.values()]
    return (
        head("A page's life", 1000, 990)
        + section(58, "In memory, while its design is active")
        + section(626, "On the disk, the same page")
        + drawn(PAGE_ARROWS, PAGE_BOXES, known)
        + "".join(boxes)
        + corner(20, 556)
        + lines(44, 564, [CUT_NOTE], "start")
        + lines(20, 937, PAGE_NOTES, "start")
        + tail()
    )


def made():
    """The pictures, by the file that each stands in."""
    header = (ROOT / "include" / "keeper.h").read_text()
    states, table, transfers = (
        (MODEL / name).read_text() for name in ("specs/Lines.antt", "src/lines.rt", "specs/State.antt")
    )
    states = record_states(states, table, header)
    pages = page_life(transfers, header)
    accounts = studios.picture((ROOT / "examples" / "studios.out").read_text())
    return {DOCS / "record-states.svg": states, DOCS / "page-life.svg": pages, DOCS / "accounts.svg": accounts}


def files():
    for path, picture in made().items():
        yield path.relative_to(ROOT), path, picture


if __name__ == "__main__":
    try:
        sys.exit(renew("pictures.py", __doc__, sys.argv[1:], files()))
    except (Bad, studios.Bad) as bad:
        sys.exit(f"pictures.py: {bad}")
