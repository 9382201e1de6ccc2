#!/usr/bin/env python3
"""The lent tables, from one list, tools/tables.txt, wherever they are repeated.

    tables.py --write    makes those parts of the files anew, between their marker lines
    tables.py --check    fails if one of them is not what --write would make

A new table is a new line of the list. tools/test_tables.py compares the list with the code.
"""

import pathlib
import re
import sys

import ceasy
import ctext
import lent
from lent import PARTS, ROOT, WIDTHS, of_part
from regions import Bad, parts, renew


def shown(length):
    """A length as the documents write it."""
    return re.sub(r"\((\w) \+ 31\) / 32", r"⌈\1/32⌉", length).replace(" * ", "·")


def times(count, length):
    """So many times a length."""
    if length.isdigit():
        return str(count * int(length))
    length = f"({length})" if " + " in length else length
    return length if count == 1 else f"{count}·{length}"


def entries(length, sizes):
    """How many entries a length is, for these sizes."""
    return eval(length.replace("/", "//"), {"__builtins__": {}}, sizes)


def columns():
    """The columns of bytes: a heading, and each size by its letter."""
    program, middle, most = ({size.letter: size[k] for size in lent.SIZES} for k in (3, 4, 2))
    named = [" ".join(f"{letter} {value}" for letter, value in sizes.items()) for sizes in (program, middle)]
    return [(f"event program ({named[0]})", program), (named[1], middle), ("largest", most)]


def row(cells):
    return "|" + "|".join(f" {cell} " if cell else " " for cell in cells) + "|\n"


def total(tables):
    """The formula of the bytes of several tables: equal lengths are added up, and those that no size changes."""
    sums, fixed = {}, 0
    for table in tables:
        if table.length.isdigit():
            fixed += WIDTHS[table.element] * int(table.length)
        else:
            sums[table.length] = sums.get(table.length, 0) + WIDTHS[table.element]
    words = [times(count, shown(length)) for length, count in sums.items()]
    return " + ".join(words + ([str(fixed)] if fixed else []))


def bytes_table():
    """The table of docs/USING.md: what each table takes."""
    heads, sizes = zip(*columns())
    out = row(["part", "table", "element", "entries", "bytes", *heads]) + "|" + "---|" * (5 + len(heads)) + "\n"
    for part in PARTS:
        sums = [0] * len(sizes)
        for table in of_part(part):
            width, length = WIDTHS[table.element], shown(table.length)
            taken = [width * entries(table.length, size) for size in sizes]
            sums = [a + b for a, b in zip(sums, taken)]
            out += row([part, table.name, table.element, length, times(width, length), *(f"{n:,}" for n in taken)])
        out += row([part, "all", "", "", total(of_part(part)), *(f"{n:,}" for n in sums)])
    return out


def meaning_table():
    """The table of docs/SPEC.md: what each table means, and its name in the definitions."""
    out = row(["part", "table", "element", "entries", "what an entry is", "definition"]) + "|---|---|---|---|---|---|\n"
    for table in lent.TABLES:
        out += row([table.part, table.name, table.element, shown(table.length), table.meaning, f"`State.{table.field}`"])
    return out


# ── the files ──
MARKS = {".md": ("<!-- ", " -->"), ".h": ("/* ", " */"), ".c": ("/* ", " */"), ".rs": ("// ", "")}
MADE = [
    ("docs/USING.md", "tables", bytes_table),
    ("docs/SPEC.md", "tables", meaning_table),
    ("include/keeper.h", "tables and calls", ctext.header),
    ("include/keeper_easy.h", "tables and calls", ceasy.easy),
    ("bench/keeper.h", "tables", ctext.port_layout),
    ("bench/replay.c", "tables", ctext.port_tables),
    ("tests/reference/src/linked/c_port.rs", "layout", ctext.linked_layout),
    ("tests/reference/src/linked/c_port.rs", "lent", ctext.linked_lent),
    ("tests/reference/src/linked/proved.rs", "calls", ctext.linked_calls),
    ("tests/reference/src/linked/proved.rs", "lends", ctext.linked_lends),
]


def marks(file, name):
    left, right = MARKS[pathlib.Path(file).suffix]
    return f"{left}{name}: made by tools/tables.py from tools/tables.txt{right}\n", f"{left}end of {name}{right}\n"


def made():
    """Each part with its file's whole text; a file that has two is read again."""
    for file, name, make in MADE:
        before, _, after = parts((ROOT / file).read_text(), *marks(file, name), file)
        yield f"{file}: {name}", ROOT / file, before + make() + after


if __name__ == "__main__":
    try:
        sys.exit(renew("tables.py", __doc__, sys.argv[1:], made()))
    except (Bad, OSError) as bad:
        sys.exit(f"tables.py: {bad}")
