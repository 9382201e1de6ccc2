#!/usr/bin/env python3
"""Tests of addtable.py, over small texts and over a copy of the crates: python3 tools/test_addtable.py"""

import pathlib
import re
import shutil
import subprocess
import sys
import tempfile
import unittest

import addtable

ROOT = pathlib.Path(__file__).resolve().parent.parent
PLACE = addtable.Place("serial", "highest", "u32", ["format"])
DISK = "records numbers accounts maps limits parents highest"
LINE = "serial | disk | u32 | 1 | serial | mut | ref | ref | ref | ref | ref | the number of the disk\n"


class Texts(unittest.TestCase):
    def row(self, text, expected, by_hand=0):
        left = []
        self.assertEqual(addtable.with_rows(text, PLACE, left), expected)
        self.assertEqual(len(left), by_hand, left)

    def test_rows(self):
        self.row(f"disk_of {DISK}", f"disk_of {DISK} serial")
        self.row(f"all_of fs last.pool {DISK} words", f"all_of fs last.pool {DISK} serial words")
        self.row("all_of fs p r.new n.new a.new m.new l.new p.now highest.new\n  w.new", "all_of fs p r.new n.new a.new m.new l.new p.now highest.new serial.new\n  w.new")
        self.row("given f p a.r a.n a.c a.m a.l a.p\n  a.highest.now w", "given f p a.r a.n a.c a.m a.l a.p\n  a.highest.now a.serial.now w")
        self.row("same_state f p refl refl refl refl refl refl refl w", "same_state f p refl refl refl refl refl refl refl refl w")

    def test_what_is_no_row(self):
        for text in ("st.given a b", "given_all a b c d e f g h i", "all_of a b", "all_of f p (a b", f"disk_of {DISK} serial"):
            with self.subTest(text):
                self.row(text, text)

    def test_by_hand(self):
        self.row("disk_of r n a m l p (f x)", "disk_of r n a m l p (f x)", 1)
        self.row("record { parents = ps; highest = hs }", "record { parents = ps; highest = hs }", 1)

    def test_fields(self):
        self.row("{ parents = d.parents; highest = d.highest }", "{ parents = d.parents; highest = d.highest; serial = d.serial }")
        self.row("  highest = c.highest;\n", "  highest = c.highest;\n  serial = c.serial;\n")
        self.row("{ parents = 0 ∷ []; highest = 0 ∷ [] }", "{ parents = 0 ∷ []; highest = 0 ∷ []; serial = 0 ∷ [] }")

    def test_parameters(self):
        text = "fn format(\n    parents: &mut [u16],\n    highest: &mut [u32],\n) {\n    f(limits, parents, highest)\n}\n"
        self.assertIn("    highest: &mut [u32],\n    serial: &mut [u32],\n", addtable.with_parameters(text, PLACE))
        self.assertIn("f(limits, parents, highest, serial)", addtable.with_parameters(text, PLACE))
        text = "fn apply(\n    highest: &[u32],\n    frame_words: &mut [u32],\n) {\n    g(\n        highest,\n        frame_words,\n    )\n}\n"
        made = addtable.with_parameters(text, PLACE)
        self.assertIn("    highest: &[u32],\n    serial: &[u32],\n", made)
        self.assertIn("        highest,\n        serial,\n", made)
        part = "fn part(\n    highest: &[u32],\n    slot: usize,\n) {\n    asks(parents, highest)\n}\n"
        self.assertEqual(addtable.with_parameters(part, PLACE), part)

    def test_contracts(self):
        for end in (" «frame_words» rest", ""):
            self.assertEqual(addtable.with_parameters(f"(given f p {DISK}{end}", PLACE), f"(given f p {DISK} serial{end}")
        self.assertEqual(addtable.with_parameters("of parents highest q", PLACE), "of parents highest q")

    def test_moments(self):
        """A contract has the new table as it is lent."""
        text = "fn {}(\n) -> u8\n    requires {{ f highest.{} serial.{} }}\n    ensures {{ f highest.new serial.{} }}\n"
        for name, before, after in (("format", "old", "new"), ("apply", "now", "now")):
            copied = text.format(name, "old", "old", "new")
            self.assertEqual(addtable.with_moments(copied, PLACE), text.format(name, "old", before, after))
        self.assertEqual(addtable.with_moments("fn format()\n g parents.now serial.now\n", PLACE), "fn format()\n g parents.now serial.old\n")

    def test_memory_table(self):
        place = addtable.Place("recent", "images", "u16", [])
        self.assertNotIn("disk_of", place.rows)
        left = []
        for head, end in (("all_of fs p", "cw cr cn line used"), ("lined_of fs p", "line used"), ("given fs p", "used"), ("state_in k l fs p", "used")):
            row = f"{head} {DISK} w q r a s o m c u images {end}"
            self.assertEqual(addtable.with_rows(row, place, left), row.replace("images", "images recent"))
        self.assertEqual(place.follows, ["chip_words", "line", "used"])
        for after in ("line", "chip_next"):
            place = addtable.Place("recent", after, "u16", [])
            self.assertEqual(("given" in place.rows, "lined_of" in place.rows, "all_of" in place.rows), (False, after == "line", True))
        self.assertEqual(addtable.Place("recent", "used", "u16", []).rows["given"], 20)


class Crates(unittest.TestCase):
    def run_tool(self, root, tool, *words):
        return subprocess.run([sys.executable, root / "tools" / tool, *words], capture_output=True, text=True, check=True).stdout

    def test_a_copy(self):
        """Every function that takes or hands on all tables has one more."""
        with tempfile.TemporaryDirectory() as folder:
            root = pathlib.Path(folder)
            shutil.copytree(ROOT / "crates", root / "crates", ignore=shutil.ignore_patterns("out"))
            shutil.copytree(ROOT / "tools", root / "tools", ignore=shutil.ignore_patterns("__pycache__"))
            said = self.run_tool(root, "addtable.py", "serial", "highest", "u32")
            table = root / "tools" / "tables.txt"
            table.write_text(re.sub(r"^highest .*\n", lambda line: line[0] + LINE, table.read_text(), flags=re.M))
            self.run_tool(root, "rows.py", "--write")
            answers = [path.read_text() for path in (root / "crates" / "keeper" / "proofs").glob("*/*/Answers.antt")]
            text = "".join(path.read_text() for path in sorted((root / "crates").rglob("*.rt")))
        self.assertGreater(said.count("\n"), 60)
        self.assertNotRegex(text, r"highest: &(?:mut )?\[u32\],\n\s*frame_words:")
        self.assertNotRegex(text, r"\bhighest,\n\s*frame_words,")
        self.assertEqual(re.findall(r"parents\.\w+ highest\.\w+\b(?! serial\.now| used).*", text), [])
        self.assertGreater(len(re.findall(r"serial: &\[u32\]", text)), 25)
        self.assertEqual(sum("a.highest.now a.serial.now\n" in answer for answer in answers), 7)

    def test_words(self):
        for words in ([], ["new", "nothing", "u8"]):
            self.assertEqual(addtable.main(words), 2)


if __name__ == "__main__":
    unittest.main(buffer=True)
