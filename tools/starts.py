#!/usr/bin/env python3
"""The table of the 600-record pack for C, from what the proved program `starts` prints.

    starts.py --write    makes include/sectors_starts.h
    starts.py --check    fails if it is not what --write would make

The program's text is crates/starts/stdout: `rt ci` fails if the program prints anything else.
"""

import pathlib
import sys

from regions import renew

ROOT = pathlib.Path(__file__).resolve().parent.parent
PRINTED = ROOT / "crates" / "starts" / "stdout"
HEADER = ROOT / "include" / "sectors_starts.h"
IN_CYLINDER = 6  # a row is a cylinder

HEAD = """\
/* The first sector of each record of the 600-record pack, for C that wants the whole table: SECTORS_STARTS[record], for records below
 * SECTORS_RECORDS. Made by tools/starts.py (make docs) from what the proved program `starts` prints; no library is needed. */
#ifndef SECTORS_STARTS_H
#define SECTORS_STARTS_H

#include "sectors.h"

static const uint16_t SECTORS_STARTS[SECTORS_RECORDS] = {
"""
TAIL = """\
};

#endif
"""


def header(printed):
    """The header with the numbers that were printed, one row a cylinder."""
    numbers = [str(int(line)) for line in printed.splitlines()]
    rows = (numbers[at : at + IN_CYLINDER] for at in range(0, len(numbers), IN_CYLINDER))
    return HEAD + ",\n".join("    " + ", ".join(row) for row in rows) + "\n" + TAIL


if __name__ == "__main__":
    sys.exit(renew("starts.py", __doc__, sys.argv[1:], [("include/sectors_starts.h", HEADER, header(PRINTED.read_text()))]))
