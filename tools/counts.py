#!/usr/bin/env python3
"""Lines of code, of specifications and of proofs in each crate of crates.txt, without blank lines and comment lines.

    counts.py                 prints the table
    counts.py --write FILE    puts it between the two markers of FILE
    counts.py --check FILE    fails if what stands between them is another
"""

import pathlib
import sys

from crates import listed
from regions import Bad, parts, renew

ROOT = pathlib.Path(__file__).resolve().parent.parent
START, END = "<!-- sizes: made by tools/counts.py -->\n", "<!-- end of sizes -->\n"

# A column's name, its files in a crate, and how a comment line starts there.
COLUMNS = [
    ("code", "src/*.rt", "//"),
    ("specs", "specs/**/*.antt", "--"),
    ("proofs", "proofs/**/*.antt", "--"),
]


def counted(text, comment):
    """The lines that are neither blank nor a comment alone."""
    lines = (line.strip() for line in text.splitlines())
    return sum(1 for line in lines if line and not line.startswith(comment))


def sizes(crate):
    """A crate's count in each column."""
    return [
        sum(counted(path.read_text(), comment) for path in sorted((ROOT / "crates" / crate).glob(files)))
        for _, files, comment in COLUMNS
    ]


def row(name, numbers):
    return "| " + " | ".join([name] + [f"{number:,}" for number in numbers]) + " |\n"


def table():
    """The counts of all crates as a Markdown table, with a total."""
    names = listed((ROOT / "crates.txt").read_text())
    rows = [sizes(name) for name in names]
    heading = "| crate | " + " | ".join(name for name, _, _ in COLUMNS) + " |\n"
    rule = "|---|" + "---:|" * len(COLUMNS) + "\n"
    body = "".join(row(f"`{name}`", numbers) for name, numbers in zip(names, rows))
    return heading + rule + body + row("total", map(sum, zip(*rows)))


def main(words):
    if not words:
        print(table(), end="")
        return 0
    if len(words) != 2:
        print(__doc__, file=sys.stderr)
        return 1
    path = pathlib.Path(words[1])
    before, _, after = parts(path.read_text(), START, END, words[1])
    return renew("counts.py", __doc__, words[:1], [(f"the table in {path}", path, before + table() + after)])


if __name__ == "__main__":
    try:
        sys.exit(main(sys.argv[1:]))
    except (Bad, OSError) as bad:
        sys.exit(f"counts.py: {bad}")
