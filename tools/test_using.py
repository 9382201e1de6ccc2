#!/usr/bin/env python3
"""Tests that the tables of docs/USING.md are the code's: python3 tools/test_using.py"""

import pathlib
import re
import unittest

ROOT = pathlib.Path(__file__).resolve().parent.parent
USING = (ROOT / "docs" / "USING.md").read_text()
HEADER = (ROOT / "include" / "keeper.h").read_text()
QUESTIONS = (ROOT / "crates" / "model" / "specs" / "Questions.antt").read_text()
PRINTED = (ROOT / "examples" / "firmware.out").read_text()
STUDIOS = (ROOT / "examples" / "studios.out").read_text()


def rows(start):
    """The rows of the table whose heading starts so, the heading first."""
    table = USING[USING.index("| " + start + " |") :].split("\n\n")[0].splitlines()
    cells = [[cell.strip() for cell in line.strip("|").split("|")] for line in table if line.startswith("|")]
    return [cells[0]] + cells[2:]


def enum_text(comment):
    """What stands between the braces of an enum of the header, by the comment before it."""
    return re.search(re.escape(comment) + r".*?\*/\nenum \{(.*?)\};", HEADER, re.S).group(1)


def enum(comment):
    """An enum of the header: names without the prefix and numbers."""
    return re.findall(r"KEEPER_([A-Z_]+) = (\d+)", enum_text(comment))


def bytes_of(formula, sizes):
    """A formula of the table of tables, for these sizes."""
    return eval(formula.replace("⌈R/32⌉", "((R + 31) // 32)").replace("·", "*"), dict(sizes))


def sizes_in(cell):
    """The sizes that a heading names, by letter."""
    return {letter: int(value) for letter, value in re.findall(r"([WRFSNQB]) (\d+)", cell)}


def largest():
    """The header's limits, by letter."""
    return {letter: int(most) for letter, (_, most) in zip("WRFSNQB", enum("/* Limits of the sizes"))}


class Bytes(unittest.TestCase):
    def setUp(self):
        self.heading, *self.rows = rows("part")
        self.sizes = [sizes_in(cell) for cell in self.heading[5:7]] + [largest()]

    def test_each_table(self):
        for row in self.rows:
            with self.subTest(row[1]):
                self.assertEqual([f"{bytes_of(row[4], sizes):,}" for sizes in self.sizes], row[5:])

    def test_totals(self):
        for part in ("disk", "memory"):
            numbers = [[int(cell.replace(",", "")) for cell in row[5:]] for row in self.rows if row[0] == part]
            self.assertEqual([sum(column) for column in zip(*numbers[:-1])], numbers[-1])


class Memory(unittest.TestCase):
    """What is said of the memory near the top, and to a mill owner, is what the table of tables adds up to."""

    def test_using(self):
        totals = {row[0]: row for row in rows("part")[1:] if row[1] == "all"}
        paragraph = USING[USING.index("**The memory that it takes.**") :].split("\n\n")[0]
        self.assertIn("4·R·W bytes for the records, and " + totals["disk"][4].replace("4·R·W + ", "") + " for the rest", paragraph)
        for part in ("disk", "memory"):
            for number in totals[part][6:]:
                self.assertIn(number, paragraph)

    def test_promises(self):
        disk = next(row for row in rows("part") if row[:2] == ["disk", "all"])
        middle, largest_ = (int(cell.replace(",", "")) for cell in disk[6:])
        said = (ROOT / "docs" / "PROMISES.md").read_text()
        self.assertIn(f"{round(middle / 1000)} kB for 512 pages of 64 words, {largest_ / 1e6:.1f} MB for the largest", said)


class Functions(unittest.TestCase):
    def test_named(self):
        """Every function that the document names is in a header."""
        known = HEADER + "".join((ROOT / "include" / name).read_text() for name in ("keeper_easy.h", "keeper_disk.h"))
        named = set(re.findall(r"`&?(keeper_[a-z_]+)", USING))
        self.assertGreater(len(named), 15)
        for name in sorted(named):
            with self.subTest(name):
                self.assertTrue(re.search(rf"\b{name}\(", known) or re.search(rf"\b{name}\.h\b", known) or name == "keeper_easy")


class Requests(unittest.TestCase):
    def test_kinds(self):
        section = enum_text("/* The kinds of request.")
        kinds = re.findall(r"KEEPER_[A-Z_]+(?= =)", section)
        comments = re.findall(r"KEEPER_[A-Z_]+ = \d+,? */\* (.*?) \*/", section)
        values = [re.split(r"[;:]", comment)[0].strip() for comment in comments]
        values = ["" if value == "result" else value for value in values]
        table = rows("kind")[1:]
        self.assertEqual([row[0].strip("`") for row in table], kinds)
        self.assertEqual([row[1] for row in table], values)

    def test_refusals(self):
        asked = dict(re.findall(r"^  (?:design|account|page|writeback|waiting)_questions \(?([A-Za-z]+).*? = (.*)$", QUESTIONS, re.M))
        turns = " ".join(re.findall(r"^  turn_questions .*? = (.*)$", QUESTIONS, re.M))
        served = re.search(r"^  served range quiet s p = (.*)$", QUESTIONS, re.M).group(1)
        for name, _, _, refusals in rows("kind")[1:]:
            event = name.strip("`").replace("KEEPER_", "").title().replace("_", "")
            numbers = re.findall(r"\bq(\d+)\b", asked[event].replace("served", served).replace("turn_questions turning", turns))
            with self.subTest(event):
                self.assertEqual(refusals.split(), [n for n in numbers if n != "3"])


class Answers(unittest.TestCase):
    def test_numbers_and_names(self):
        table = [(row[1].strip("`").replace("KEEPER_", ""), row[0]) for row in rows("number")[1:]]
        self.assertEqual(table, enum("/* The refusals.")[1:])
        self.assertEqual([number for _, number in table], [str(n) for n in [*range(1, 23), *range(24, 28), *range(29, 34)]])


class Example(unittest.TestCase):
    def test_printed(self):
        section = USING[USING.index("## The example") : USING.index("## The answers")]
        quoted = re.findall(r"`((?:mill \d|restart:|\d calls|not opened)[^`]*)`", section)
        self.assertEqual(len(quoted), 12)
        for line in quoted:
            self.assertIn(line + "\n", PRINTED)

    def test_studios(self):
        """Every line that the mill and its studios print, but the first, with its reason."""
        section = USING[USING.index("## A mill and its studios") : USING.index("## The short way in C")]
        quoted = re.findall(r"^\| `(.*?)` \|", section, re.M)
        self.assertEqual(quoted, STUDIOS.splitlines()[1:])

    def test_pictures(self):
        for name in re.findall(r"\]\((.*?\.svg)\)", USING):
            self.assertTrue((ROOT / "docs" / name).exists(), name)


if __name__ == "__main__":
    unittest.main()
