#!/usr/bin/env python3
"""Where the pages of a design lie on the disk after a mixed load: records chosen by the hand alone, and near each other.

    spread.py --write    makes docs/spread.svg
    spread.py --check    fails if it is not what --write would make
    spread.py            prints the arm's mean travel by both choices

The load is made up here, the same each time: six designs of 32 pages are woven side by side, a few pages at a time and
now and then out of order, and each in turn is cut back and woven again. The two choices are those of docs/SPEC.md. The
arm's travel is how many records lie between two pages that follow each other in a design.
"""

import pathlib
import sys

from drawing import head, section, tail, text
from regions import renew

PICTURE = pathlib.Path(__file__).resolve().parent.parent / "docs" / "spread.svg"
RECORDS, DESIGNS, PAGES, STEPS = 256, 6, 32, 400
SHOWN = 0  # the design that is coloured


class Numbers:
    """The same numbers on every machine."""

    def __init__(self, seed):
        self.state = seed

    def below(self, n):
        self.state = (self.state * 6364136223846793005 + 1442695040888963407) % 2**64
        return (self.state >> 33) % n


def by_hand(free, hand, near):
    """The first free record counting up from the hand; after the last comes 0."""
    return min(free, key=lambda record: (record < hand, record))


def near_each_other(free, hand, near):
    """The free record nearest to the closest lower page's, of two equally near the lower; without one by the hand."""
    return by_hand(free, hand, None) if near is None else min(free, key=lambda record: (abs(record - near), record))


def load(choose):
    """The records of each design's pages once the load is over."""
    numbers, free, hand = Numbers(7), set(range(RECORDS)), 0
    designs = [{} for _ in range(DESIGNS)]
    for _ in range(STEPS):
        design = designs[numbers.below(DESIGNS)]
        missing = [page for page in range(PAGES) if page not in design]
        if not missing:
            keep = numbers.below(PAGES)
            free.update(design.pop(page) for page in range(keep, PAGES))
            continue
        start = missing[numbers.below(3) % len(missing)]
        for page in range(start, min(start + 1 + numbers.below(4), PAGES)):
            if page not in design:
                lower = [other for other in design if other < page]
                record = choose(free, hand, design[max(lower)] if lower else None)
                free.remove(record)
                design[page], hand = record, (record + 1) % RECORDS
    return designs


def travel(designs):
    """The mean number of records from a page of a design to the next."""
    steps = [abs(design[page] - design[page + 1]) for design in designs for page in range(PAGES - 1) if page in design and page + 1 in design]
    return sum(steps) / len(steps)


def strip(designs, y):
    """The disk as a row of records: the shown design's pages coloured, dark to light, the others' grey, free ones white."""
    owner = {record: (number, page) for number, design in enumerate(designs) for page, record in design.items()}
    drawn = ""
    for record in range(RECORDS):
        number, page = owner.get(record, (None, 0))
        fill = "#ffffff" if number is None else f"hsl(215 70% {25 + page * 2}%)" if number == SHOWN else "#d5d5d5"
        drawn += f'<rect x="{20 + record * 3.75:g}" y="{y}" width="3.75" height="30" fill="{fill}" stroke="#b0b0b0" stroke-width="0.3"/>\n'
    return drawn


def picture():
    drawn = head("Where the pages of a design lie on the disk", 1000, 220).replace("tools/pictures.py", "tools/spread.py")
    for y, title, choose in ((60, "by the hand alone", by_hand), (135, "near each other", near_each_other)):
        designs = load(choose)
        drawn += section(y, f"{title}: {travel(designs):.1f} records from a page to the next, on the mean")
        drawn += strip(designs, y + 12)
    drawn += text(20, 205, "Coloured: one design, its first pages dark. Grey: five others. White: free.", 'text-anchor="start" font-size="12"')
    return drawn + tail()


def main(words):
    if words:
        return renew("spread.py", __doc__, words, [("docs/spread.svg", PICTURE, picture())])
    print(f"by the hand alone {travel(load(by_hand)):.1f}, near each other {travel(load(near_each_other)):.1f}")
    return 0


if __name__ == "__main__":
    sys.exit(main(sys.argv[1:]))
