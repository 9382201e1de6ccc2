#!/usr/bin/env python3
"""Tests of crates.py, and of the gate's own first look: python3 tools/test_crates.py"""

import os
import pathlib
import subprocess
import sys
import tempfile
import unittest

import crates

GATE = crates.ROOT / ".ci" / "run"


class Compared(unittest.TestCase):
    def setUp(self):
        folder = tempfile.TemporaryDirectory()
        self.addCleanup(folder.cleanup)
        self.root = pathlib.Path(folder.name)
        (self.root / "crates.txt").write_text("# each crate\na:\nb: a\n")
        self.crate("a", "lib.rt")
        self.crate("b", "main.rt")

    def crate(self, name, file):
        (self.root / "crates" / name / "src").mkdir(parents=True)
        (self.root / "crates" / name / "src" / file).write_text("")

    def found(self, *lines):
        self.assertEqual(crates.differences(self.root), list(lines))
        tool = [sys.executable, crates.ROOT / "tools" / "crates.py", self.root]
        ran = subprocess.run(tool, capture_output=True, text=True)
        self.assertEqual(ran.stdout.splitlines()[-1], f"{0 if lines else 1} passed, {len(lines)} failed")
        self.assertEqual(ran.returncode, 1 if lines else 0)

    def test_same(self):
        self.found()

    def test_folder_without_a_line(self):
        self.crate("c", "lib.rt")
        self.found("crates/c is named by no line of crates.txt")

    def test_empty_folder(self):
        (self.root / "crates" / "c" / "src").mkdir(parents=True)
        self.found("crates/c is an empty folder")

    def test_links(self):
        (self.root / "crates" / "c").symlink_to(self.root / "crates" / "a")
        self.found("crates/c is a link")

    def test_a_link_for_a_crate(self):
        (self.root / "crates" / "b" / "src" / "main.rt").unlink()
        (self.root / "crates" / "b" / "src").rmdir()
        (self.root / "crates" / "b").rmdir()
        (self.root / "crates" / "b").symlink_to(self.root / "crates" / "a")
        self.found("crates/b is a link")

    def test_a_link_in_a_crate(self):
        (self.root / "crates" / "a" / "specs").symlink_to(self.root / "crates" / "b")
        self.found("crates/a holds a link: specs")

    def test_line_without_a_folder(self):
        (self.root / "crates.txt").write_text("a:\nb: a\nc: a\n")
        self.found("crates.txt names c, and there is no crates/c")

    def test_named_twice(self):
        (self.root / "crates.txt").write_text("a:\nb: a\na: b\n")
        self.found("crates.txt names a 2 times")

    def test_no_source(self):
        (self.root / "crates" / "a" / "src" / "lib.rt").rename(self.root / "crates" / "a" / "src" / "other.rt")
        self.found("crates/a has neither src/lib.rt nor src/main.rt")

    def test_a_file_beside_the_crates(self):
        (self.root / "crates" / "notes").write_text("")
        self.found("crates/notes is no folder")

    def test_this_repository(self):
        self.assertEqual(crates.differences(crates.ROOT), [])


class Tools(unittest.TestCase):
    """The gate says in one line which of the programs that it needs are not there, before it does anything."""

    def test_missing(self):
        needed = ["rt", "gcc", "cargo", "python3"]
        for missing in (["rt"], ["gcc"], ["cargo", "python3"], needed):
            with self.subTest(missing), tempfile.TemporaryDirectory() as folder:
                for name in [name for name in needed if name not in missing]:
                    tool = pathlib.Path(folder) / name
                    tool.write_text("#!/bin/sh\n")
                    tool.chmod(0o755)
                (pathlib.Path(folder) / "dirname").symlink_to("/usr/bin/dirname")
                ran = subprocess.run(["/bin/bash", GATE], env={**os.environ, "PATH": folder}, capture_output=True, text=True)
                self.assertEqual(ran.returncode, 1)
                self.assertEqual((ran.stdout, ran.stderr), (f"the gate needs these on the path: {' '.join(missing)}\n", ""))


if __name__ == "__main__":
    unittest.main()
