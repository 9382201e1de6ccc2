#!/usr/bin/env python3
"""The rows of tables in the answers of the public calls, crates/keeper/proofs/FILE/CALL/Answers.antt, from the list of the lent tables.

    rows.py --write    makes them anew
    rows.py --check    fails if one of them is not what --write would make

`before` lists the tables as the call found them, a.TABLE.now. `after`, in the calls that change some, has n.TABLE for each table that is
lent to be changed, as the call's parameters say. A row stands in two lines: the disk part, and the memory part.
"""

import re
import sys

import lent
from lent import ROOT
from regions import Bad, renew

KEEPER = ROOT / "crates" / "keeper"
# the line before a row, which of the two it is, and the row: it ends where `in` ends a line
ROW = re.compile(r"^( *)(let (before|after) : [^\n]*\ball_of [^\n]*\n)(.*?) in$", re.S | re.M)


def slices(part):
    """The tables of a part, without the frames and the pool, which a row does not list."""
    return [table.name for table in lent.of_part(part) if not table.is_struct()]


def parameters(text):
    """The functions of a source file: for each its parameters, with whether each is lent to be changed."""
    functions = re.findall(r"\bfn (\w+)(?:<[^>]*>)?\(\n(.*?)\n\)", text, re.S)
    return {name: {word: kind.startswith("mut ") for word, kind in re.findall(r"^\s*(\w+): &(?:'\w+ )?(.*),$", given, re.M)} for name, given in functions}


def calls(source=KEEPER / "src"):
    """The calls that take every table: the file, the name, and what each changes."""
    every = {name for part in lent.PARTS for name in slices(part)}
    for path in sorted(source.glob("*.rt")):
        for name, taken in parameters(path.read_text()).items():
            if every <= taken.keys():
                yield path.stem, name, taken


def row(kind, changes):
    """One row, a line for each part, without what stands before and after it."""
    def table(name):
        return f"n.{name}" if kind == "after" and changes[name] else f"a.{name}.now"

    return [" ".join(map(table, slices(part))) for part in lent.PARTS]


def renewed(text, changes, name):
    """An answer's text with its rows made anew."""
    kinds = [found[3] for found in ROW.finditer(text)]
    wanted = ["before", "after"] if any(changes[table] for part in lent.PARTS for table in slices(part)) else ["before"]
    if kinds != wanted:
        raise Bad(f"{name} has not the rows {' and '.join(wanted)}")
    return ROW.sub(lambda found: found[1] + found[2] + "\n".join(found[1] + line for line in row(found[3], changes)) + " in", text)


def made():
    for file, call, changes in calls():
        path = KEEPER / "proofs" / file / call / "Answers.antt"
        name = str(path.relative_to(ROOT))
        yield name, path, renewed(path.read_text(), changes, name)


if __name__ == "__main__":
    try:
        sys.exit(renew("rows.py", __doc__, sys.argv[1:], made()))
    except (Bad, OSError) as bad:
        sys.exit(f"rows.py: {bad}")
