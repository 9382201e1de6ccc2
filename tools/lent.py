"""The list of the lent tables, tools/tables.txt, as data."""

import pathlib
from typing import NamedTuple

from regions import Bad

ROOT = pathlib.Path(__file__).resolve().parent.parent
LIST = ROOT / "tools" / "tables.txt"
# the calls that the list has a column for; a list of requests is lent what one request is; mend takes the disk part, these tables to be
# changed and the others only read
COLUMNS = ("format", "restart", "apply", "look", "import", "export")
MENDED = ("numbers", "accounts", "maps")
CALLS = ("format", "restart", "apply", "apply_all", "look", "mend", "export", "import")
PARTS = ("disk", "memory")
WIDTHS = {"u8": 1, "u16": 2, "u32": 4, "Frame": 8, "Pool": 8}
LENDING = {"mut", "ref", "val", "-"}


class Size(NamedTuple):
    letter: str
    name: str
    most: int
    program: int
    middle: int


class Table(NamedTuple):
    name: str
    part: str
    element: str
    length: str
    field: str
    lent: dict
    meaning: str

    def is_struct(self):
        return self.element in ("Frame", "Pool")

    def is_one(self):
        """One value, no slice."""
        return self.element == "Pool"


def lending(cells):
    """How each call lends the table of a line."""
    mend = "-" if cells[1] != "disk" else "mut" if cells[0] in MENDED else "ref"
    lent = dict(zip(COLUMNS, cells[5:-1]))
    return {**lent, "apply_all": lent["apply"], "mend": mend}


def read(text):
    """The sizes and the tables of a list."""
    sizes, tables = [], []
    for line in text.splitlines():
        cells = [cell.strip() for cell in line.split("|")]
        if line.startswith("#") or not line.strip():
            continue
        if len(cells) == 5:
            sizes.append(Size(cells[0], cells[1], *map(int, cells[2:])))
        elif len(cells) == 6 + len(COLUMNS) and cells[1] in PARTS and cells[2] in WIDTHS and set(cells[5:-1]) <= LENDING:
            tables.append(Table(*cells[:5], lending(cells), cells[-1]))
        else:
            raise Bad(f"tools/tables.txt: no size and no table: {line}")
    return sizes, tables


SIZES, TABLES = read(LIST.read_text())


def letters():
    return [size.letter for size in SIZES]


def of_part(part):
    return [table for table in TABLES if table.part == part]


def in_call(call):
    """The tables that a call takes, in its order: frames and pool, the disk part, the memory part."""
    lent = [table for table in TABLES if table.lent[call] != "-"]
    return sorted(lent, key=lambda table: 0 if table.is_struct() else 1 + PARTS.index(table.part))
