#!/usr/bin/env python3
"""Not proved, tested by tools/test_misses.py: how much memory is worth buying.

    misses.py TRACE [SVG]    the misses of a list of page uses for 1 to 64 frames, as a table and a plot (target/misses.svg); and how many of
                             them read the disk with a chip of 1 to 256 pages, as a table and a plot beside the first (misses.chip.svg)

A trace is page numbers, 0 to 16,383, in the order of their uses; # starts a comment. A use misses if its page is in no frame. Three ways to
choose the page that leaves its frame are compared: the keeper's removal list, run by the keeper itself; least recently used; and the best
possible, which knows the future and takes the page whose next use is farthest. Then a line says how many frames are worth buying. For the
chip every page is on the disk at the start; without a chip each miss reads it. The last lines say how many places are worth buying.
"""

import subprocess

import library
from library import ROOT

FRAMES = range(1, 65)
PLACES = range(1, 257)
# the chip is tried beside so many frames
BESIDE = (4, 16)
KINDS = (("the keeper", "#1b6ca8"), ("least recently used", "#c05a00"), ("best possible", "#3d8a3d"))


class Bad(Exception):
    """A trace that is none; says where."""


def read(path):
    """The page numbers of a trace."""
    pages = []
    for number, line in enumerate(path.read_text().splitlines(), 1):
        for word in line.partition("#")[0].split():
            if not word.isdigit() or int(word) > 16383:
                raise Bad(f"{path}: line {number}: not a page number from 0 to 16383: {word}")
            pages.append(int(word))
    if not pages:
        raise Bad(f"{path}: no page uses")
    return pages


def least_recent(pages):
    """Misses for each number of frames, least recently used: by each use's depth in the list of the last uses."""
    stack, depths = [], {}
    for page in pages:
        depth = stack.index(page) + 1 if page in stack else 0
        depths[depth] = depths.get(depth, 0) + 1
        if depth:
            stack.pop(depth - 1)
        stack.insert(0, page)
    return [len(pages) - sum(count for depth, count in depths.items() if 0 < depth <= frames) for frames in FRAMES]


def best_with(pages, following, frames):
    held, missed = {}, 0
    for use, page in enumerate(pages):
        if page not in held:
            missed += 1
            if len(held) == frames:
                del held[max(held, key=held.get)]
        held[page] = following[use]
    return missed


def best(pages):
    """Misses for each number of frames if the page leaves whose next use is farthest."""
    following, later = [0] * len(pages), {}
    for use in range(len(pages) - 1, -1, -1):
        following[use] = later.get(pages[use], len(pages))
        later[pages[use]] = use
    return [best_with(pages, following, frames) for frames in FRAMES]


def by_keeper(pages, *words):
    """The figures that the keeper itself gives, a line for each size."""
    ran = subprocess.run([library.program("misses"), *words], input=" ".join(map(str, pages)), capture_output=True, text=True)
    if ran.returncode != 0:
        raise Bad(ran.stderr.strip())
    return [[int(cell) for cell in line.split()[1:]] for line in ran.stdout.splitlines()]


def keeper(pages):
    """Misses for each number of frames."""
    return [missed for missed, in by_keeper(pages)]


def reads(pages, frames):
    """How often the disk is read without a chip; and with it, for each number of places."""
    counted = by_keeper(pages, str(frames))
    return counted[0][0], [read for _, read in counted]


def table(uses, counts):
    """The counts and rates."""
    rows = ["frames" + "".join(f"{name:>22}" for name, _ in KINDS)]
    for at, frames in enumerate(FRAMES):
        rows.append(f"{frames:>6}" + "".join(f"{column[at]:>13} {100 * column[at] / uses:>6.1f} %" for column in counts))
    return "\n".join(rows) + "\n"


def advice(uses, counted):
    """How many frames are worth buying, by the keeper's counts; and where a frame more has missed more, why that can be."""
    enough = next(at for at in range(len(counted)) if 100 * (counted[at] - min(counted[at:])) <= uses)
    out = [
        f"{FRAMES[enough]} {'frame is' if enough == 0 else 'frames are'} worth buying: {100 * counted[enough] / uses:.1f} % of the uses miss then, and no larger number up to "
        f"{FRAMES[-1]} saves more than 1 use in 100."
    ]
    more = [at for at in range(1, len(counted)) if counted[at] > counted[at - 1]]
    if more:
        at = more[0]
        out.append(
            f"More frames can miss more, here from {FRAMES[at - 1]} to {FRAMES[at]} ({counted[at - 1]} misses, then {counted[at]}): the removal list goes "
            "by when a page came in and whether it was used since, not by its last use, so the pages that fewer frames hold are not always among those that more hold."
        )
    return out


def chip_table(uses, counts):
    """Reads from the disk, without the chip and with it, by the number of frames."""
    rows = ["places" + "".join(f"{f'{frames} frames: without':>24}{'with':>21}" for frames in BESIDE)]
    for places in (1 << power for power in range(9)):
        cells = [(without, column[places - 1]) for without, column in counts]
        rows.append(f"{places:>6}" + "".join(f"{a:>15} {100 * a / uses:>6.1f} %{b:>12} {100 * b / uses:>6.1f} %" for a, b in cells))
    return "\n".join(rows) + "\n"


def chip_advice(uses, frames, without, counted):
    """How many places are worth buying beside so many frames."""
    if 100 * (without - min(counted)) <= uses:
        return f"Beside {frames} frames no chip is worth buying: none saves more than 1 use in 100."
    enough = next(at for at in range(len(counted)) if 100 * (counted[at] - min(counted[at:])) <= uses)
    return (
        f"Beside {frames} frames a chip of {PLACES[enough]} is worth buying: {100 * counted[enough] / uses:.1f} % of the uses read the disk then, in place of "
        f"{100 * without / uses:.1f} %, and no larger one saves more than 1 use in 100."
    )


def plot(title, uses, sizes, name, marks, curves):
    """Counts as a picture: sizes to the right, per cent of the uses upwards. A curve has its name, its colour, its dashes and its counts."""
    left, top, width, height = 60, 50, 640, 320
    x = lambda size: left + width * (size - 1) / (sizes[-1] - 1)
    y = lambda rate: top + height * (1 - rate)
    out = [
        f'<svg xmlns="http://www.w3.org/2000/svg" viewBox="0 0 {left + width + 30} {top + height + 60}" font-family="sans-serif" font-size="13">',
        f'<rect width="{left + width + 30}" height="{top + height + 60}" fill="white"/>',
        f'<text x="{left}" y="24" font-size="15">{title}, {uses:,} uses</text>',
    ]
    for part in range(0, 101, 20):
        out.append(f'<line x1="{left}" x2="{left + width}" y1="{y(part / 100):.1f}" y2="{y(part / 100):.1f}" stroke="#ddd"/>')
        out.append(f'<text x="{left - 8}" y="{y(part / 100) + 4:.1f}" text-anchor="end">{part} %</text>')
    for size in marks:
        out.append(f'<text x="{x(size):.1f}" y="{top + height + 20}" text-anchor="middle">{size}</text>')
    out.append(f'<text x="{left + width / 2}" y="{top + height + 44}" text-anchor="middle">{name}</text>')
    for at, (curve, colour, dashes, counts) in enumerate(curves):
        points = " ".join(f"{x(size):.1f},{y(count / uses):.1f}" for size, count in zip(sizes, counts))
        out.append(f'<polyline points="{points}" fill="none" stroke="{colour}" stroke-width="2" stroke-dasharray="{dashes}"><title>{curve}</title></polyline>')
        below = top + 14 + 20 * at
        out.append(f'<line x1="{left + width - 190}" x2="{left + width - 160}" y1="{below}" y2="{below}" stroke="{colour}" stroke-width="3" stroke-dasharray="{dashes}"/>')
        out.append(f'<text x="{left + width - 152}" y="{below + 4}">{curve}</text>')
    return "\n".join(out) + "\n</svg>\n"


def run_chip(path, svg, pages):
    """The table of reads with the chip and without, printed, and its plot beside the other one."""
    counts, uses = [reads(pages, frames) for frames in BESIDE], len(pages)
    print("reads from the disk, and per cent of the uses, without the chip and with one of so many places")
    print(chip_table(uses, counts), end="")
    curves = []
    for frames, (_, colour), (without, column) in zip(BESIDE, KINDS, counts):
        curves += [(f"{frames} frames", colour, "none", column), (f"{frames}, without the chip", colour, "6 5", [without] * len(PLACES))]
    beside = svg.with_suffix(".chip.svg")
    beside.write_text(plot(f"Reads of {path.name} from the disk", uses, PLACES, "places of the chip", (1, 32, 64, 96, 128, 160, 192, 224, 256), curves))
    print(f"the plot is in {beside}")
    print("\n".join(chip_advice(uses, frames, *count) for frames, count in zip(BESIDE, counts)))


def run(path, svg):
    """A trace's tables, printed, and their plots."""
    pages = read(path)
    counts = [keeper(pages), least_recent(pages), best(pages)]
    print(f"{path}: {len(pages)} uses of {len(set(pages))} pages; misses, and per cent of the uses")
    print(table(len(pages), counts), end="")
    curves = [(name, colour, "none", column) for (name, colour), column in zip(KINDS, counts)]
    svg.write_text(plot(f"Misses of {path.name}", len(pages), FRAMES, "frames", (1, 8, 16, 24, 32, 40, 48, 56, 64), curves))
    print(f"the plot is in {svg}")
    print("\n".join(advice(len(pages), counts[0])))
    run_chip(path, svg, pages)


if __name__ == "__main__":
    library.main("misses.py", __doc__, "misses.svg", run, Bad)
