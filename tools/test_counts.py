#!/usr/bin/env python3
"""Tests of counts.py: python3 tools/test_counts.py"""

import pathlib
import subprocess
import sys
import tempfile
import unittest

import counts

TOOL = counts.ROOT / "tools" / "counts.py"


def run(*words):
    return subprocess.run([sys.executable, TOOL, *words], capture_output=True, text=True)


class Counted(unittest.TestCase):
    def test_lines(self):
        text = "// a comment\n\n  // another\nlet a = 1; // code\n   \n}\n"
        self.assertEqual(counts.counted(text, "//"), 2)
        self.assertEqual(counts.counted("-- a comment\nf = 1 -- a definition\n", "--"), 1)
        self.assertEqual(counts.counted("", "--"), 0)

    def test_crates(self):
        self.assertEqual(counts.listed("# each crate\na:\nb: a c\n\n"), ["a", "b"])

    def test_total(self):
        rows = [line.strip("|").replace(",", "").split("|") for line in counts.table().splitlines()[2:]]
        numbers = [[int(cell) for cell in row[1:]] for row in rows]
        self.assertEqual([sum(column) for column in zip(*numbers[:-1])], numbers[-1])
        self.assertTrue(all(numbers[-1]))


class Files(unittest.TestCase):
    def test_write_and_check(self):
        with tempfile.TemporaryDirectory() as folder:
            path = pathlib.Path(folder) / "a.md"
            path.write_text("before\n" + counts.START + "old\n" + counts.END + "after\n")
            self.assertEqual(run("--check", path).returncode, 1)
            self.assertEqual(run("--write", path).returncode, 0)
            self.assertEqual(path.read_text(), "before\n" + counts.START + run().stdout + counts.END + "after\n")
            self.assertEqual(run("--check", path).stdout, "1 passed, 0 failed\n")

    def test_no_markers(self):
        with tempfile.TemporaryDirectory() as folder:
            path = pathlib.Path(folder) / "a.md"
            path.write_text(counts.START + "no end\n")
            self.assertEqual(run("--check", path).returncode, 1)
            self.assertEqual(run("--write", path).returncode, 1)
            self.assertEqual(path.read_text(), counts.START + "no end\n")
        self.assertEqual(run("--check", "nothing").returncode, 1)
        self.assertEqual(run("--guess").returncode, 1)


if __name__ == "__main__":
    unittest.main()
