#!/usr/bin/env python3
"""Tests of misses.py and misses.c: python3 tools/test_misses.py"""

import pathlib
import random
import subprocess
import sys
import unittest
import xml.etree.ElementTree

import misses

TRACES = sorted((misses.ROOT / "examples" / "traces").glob("*.txt"))
TOOL = misses.ROOT / "tools" / "misses.py"


def removal_list(pages, frames):
    """The paper's removal list, written again: a page that comes in stands at the front with initial on; a use turns used on; a claim looks at
    the front, and sends it to the end if one of both is on, turning them off."""
    queue, marked, missed = [], set(), 0
    for page in pages:
        if page not in queue:
            missed += 1
            if len(queue) == frames:
                while queue[0] in marked:
                    marked.discard(queue[0])
                    queue.append(queue.pop(0))
                queue.pop(0)
            queue.insert(0, page)
        marked.add(page)
    return missed


def with_chip(pages, frames, places):
    """The same with a chip, by the specification: a miss whose page has a copy reads nothing, any other puts it into the next place."""
    queue, marked, copies, following, read = [], set(), [None] * places, 0, 0
    for page in pages:
        if page not in queue:
            if page not in copies:
                read += 1
                copies[following] = page
                following = (following + 1) % places
            if len(queue) == frames:
                while queue[0] in marked:
                    marked.discard(queue[0])
                    queue.append(queue.pop(0))
                queue.pop(0)
            queue.insert(0, page)
        marked.add(page)
    return read


def by_search(pages, held, frames):
    """The fewest misses there can be, by trying all choices."""
    if not pages:
        return 0
    page, rest = pages[0], pages[1:]
    if page in held:
        return by_search(rest, held, frames)
    if len(held) < frames:
        return 1 + by_search(rest, held | {page}, frames)
    return 1 + min(by_search(rest, held - {out} | {page}, frames) for out in held)


class Counts(unittest.TestCase):
    def some(self, seed, most, uses):
        chance = random.Random(seed)
        return [min(chance.randrange(most), chance.randrange(most)) for _ in range(uses)]

    def test_best(self):
        for seed in range(40):
            pages = self.some(seed, 5, 12)
            counts = misses.best(pages)
            for frames in (1, 2, 3, 4):
                self.assertEqual(counts[frames - 1], by_search(pages, frozenset(), frames), (pages, frames))

    def test_least_recent(self):
        for seed in range(20):
            pages = self.some(seed, 12, 150)
            for frames in (1, 2, 5, 11, 12):
                held, missed = [], 0
                for page in pages:
                    missed += page not in held
                    held = ([page] + [other for other in held if other != page])[:frames]
                self.assertEqual(misses.least_recent(pages)[frames - 1], missed)

    def test_keeper(self):
        """The keeper's counts are those of its removal list as the specification tells it."""
        cases = [self.some(3, 30, 400), self.some(4, 90, 600), [7], [300, 5, 16383, 300], misses.read(TRACES[0])]
        for pages in cases:
            counts = misses.keeper(pages)
            self.assertEqual(counts, [removal_list(pages, frames) for frames in misses.FRAMES])

    def test_chip(self):
        """Reads with a chip are those of the specification, and without it every miss is one."""
        for pages, frames in ((self.some(5, 30, 300), 3), ([7], 1), ([300, 5, 16383, 300, 5], 1), (misses.read(TRACES[1]), 16)):
            without, counts = misses.reads(pages, frames)
            self.assertEqual(without, removal_list(pages, frames))
            self.assertEqual(counts, [with_chip(pages, frames, places) for places in misses.PLACES])
            self.assertTrue(len(set(pages)) <= min(counts) and max(counts) <= without)

    def test_chip_too_many(self):
        with self.assertRaises(misses.Bad) as caught:
            misses.reads(range(4097), 1)
        self.assertIn("more pages than 4096 records", str(caught.exception))

    def test_traces(self):
        self.assertEqual([path.stem for path in TRACES], ["hot", "weaving"])
        for path in TRACES:
            pages = misses.read(path)
            keeper, recent, best = misses.keeper(pages), misses.least_recent(pages), misses.best(pages)
            for column in (keeper, recent, best):
                self.assertGreaterEqual(min(column), len(set(pages)))
            for other in (keeper, recent):
                self.assertTrue(all(a >= b for a, b in zip(other, best)))
            self.assertEqual([recent, best], [sorted(recent, reverse=True), sorted(best, reverse=True)])


class Advice(unittest.TestCase):
    def test_enough(self):
        """The least number of frames that no larger one is better than by more than 1 use in 100."""
        falling = [1000 - 10 * at for at in range(64)]
        self.assertTrue(misses.advice(1000, falling)[0].startswith("63 frames are worth buying: 38.0 %"))
        self.assertTrue(misses.advice(1000, [500] * 64)[0].startswith("1 frame is worth buying"))
        late = [500] * 63 + [489]
        self.assertTrue(misses.advice(1000, late)[0].startswith("64 frames"))
        self.assertTrue(misses.advice(1100, late)[0].startswith("1 frame is worth buying"))

    def test_more(self):
        self.assertEqual(len(misses.advice(1000, [500] * 64)), 1)
        said = misses.advice(1000, [500, 400, 401] + [300] * 61)
        self.assertIn("from 2 to 3 (400 misses, then 401)", said[1])


    def test_chip(self):
        """The least chip that no larger one is better than by more than 1 use in 100, if any chip is better than none by as much."""
        self.assertIn("no chip is worth buying", misses.chip_advice(1000, 8, 500, [490] * 256))
        self.assertIn("a chip of 1 is worth buying: 48.9 %", misses.chip_advice(1000, 8, 500, [489] * 256))
        self.assertIn("a chip of 9 is worth buying: 20.0 % of the uses read the disk then, in place of 50.0 %", misses.chip_advice(1000, 8, 500, [500] * 8 + [200] * 248))


class Shown(unittest.TestCase):
    def test_tool(self):
        svg = misses.ROOT / "target" / "test-misses.svg"
        ran = subprocess.run([sys.executable, TOOL, TRACES[1], svg], capture_output=True, text=True)
        self.assertEqual((ran.returncode, ran.stderr), (0, ""))
        self.assertEqual(len(ran.stdout.splitlines()), 64 + 3 + 2 + 9 + 3 + 2)
        self.assertIn("40 frames are worth buying: 23.1 % of the uses miss then", ran.stdout)
        self.assertIn("from 17 to 18 (481 misses, then 482)", ran.stdout)
        self.assertIn("Beside 4 frames a chip of", ran.stdout)
        for drawn, curves in ((svg, 3), (svg.with_suffix(".chip.svg"), 2 * len(misses.BESIDE))):
            self.assertEqual(len(xml.etree.ElementTree.parse(drawn).getroot().findall("{http://www.w3.org/2000/svg}polyline")), curves)
            drawn.unlink()

    def test_bad(self):
        bad = misses.ROOT / "target" / "bad-trace.txt"
        for text in ("1 2 x\n", "16384\n", "# nothing\n"):
            bad.write_text(text)
            with self.assertRaises(misses.Bad) as caught:
                misses.read(bad)
            self.assertIn(str(bad), str(caught.exception))
        self.assertEqual(subprocess.run([sys.executable, TOOL], capture_output=True).returncode, 2)
        self.assertEqual(subprocess.run([sys.executable, TOOL, "--help"], capture_output=True).returncode, 0)
        bad.unlink()


if __name__ == "__main__":
    unittest.main()
