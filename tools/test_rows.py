#!/usr/bin/env python3
"""Tests of rows.py: python3 tools/test_rows.py"""

import re
import unittest
from unittest import mock

import lent
import rows
from regions import Bad

FURTHER = lent.Table("wanted", "memory", "u16", "S", "wanted", {call: "mut" for call in lent.CALLS} | {"look": "ref", "format": "-"}, "a table more")
# the calls that are lent every table, and the column of the list that says how
CALLS = {
    "keeper_restart": "restart", "keeper_apply": "apply", "keeper_apply_all": "apply_all",
    "page_look": "look", "keeper_page_look": "look", "keeper_export": "export", "keeper_import": "import",
}
TEXT = """returns c =
    let a = c.args in
    let before : List Frame → State = λ f. all_of f a.pool
    a.one.now a.two.now
    a.three.now in
    done a
"""


def with_one_more():
    """The list with a table more, after images, as docs/EXTENDING.md says."""
    at = [table.name for table in lent.TABLES].index("chip_words")
    return mock.patch.object(lent, "TABLES", lent.TABLES[:at] + [FURTHER] + lent.TABLES[at:])


class Rows(unittest.TestCase):
    def test_as_they_are(self):
        for name, path, text in rows.made():
            with self.subTest(name):
                self.assertEqual(path.read_text(), text)

    def test_every_call(self):
        """Each call that the list has a column for, and that takes all tables, has rows from here; so has each answer that lists tables."""
        self.assertEqual(sorted(name for _, name, _ in rows.calls()), sorted(CALLS))
        answers = (rows.KEEPER / "proofs").glob("*/*/Answers.antt")
        listing = {str(path.relative_to(lent.ROOT)) for path in answers if re.search(r"\ball_of [fp]\b", path.read_text())}
        self.assertEqual({name for name, _, _ in rows.made()}, listing)

    def test_lent_as_listed(self):
        for _, name, changes in rows.calls():
            for table in lent.in_call(CALLS[name]):
                if not table.is_struct():
                    with self.subTest(name, table=table.name):
                        self.assertEqual(changes[table.name], table.lent[CALLS[name]] == "mut")

    def test_order(self):
        """Each line is a part, in the order of the list."""
        disk, memory = rows.row("after", {table.name: table.name == "used" for table in lent.TABLES})
        self.assertEqual(disk.split(), [f"a.{table.name}.now" for table in lent.of_part("disk")])
        listed = [table.name for table in lent.of_part("memory") if table.name not in ("frames", "pool")]
        self.assertEqual(memory.split(), [f"a.{name}.now" for name in listed[:-1]] + ["n.used"])

    def test_one_more_table(self):
        for _, name, changes in list(rows.calls()):
            with with_one_more(), self.subTest(name):
                self.assertIn("a.images.now a.wanted.now a.chip_words.now", rows.row("before", changes)[1])
                self.assertIn(" n.wanted ", rows.row("after", changes | {"wanted": True})[1])

    def test_parameters(self):
        text = "pub extern \"C\" fn call<'a>(\n    n: usize,\n    one: &'a [u8],\n    two: &mut [u8],\n) -> u8\n{\n}\n"
        self.assertEqual(rows.parameters(text), {"call": {"one": False, "two": True}})

    def test_renewed(self):
        """A wrong row is written anew, and nothing beside it; a row more or less is refused."""
        unchanged = {table.name: False for table in lent.TABLES}
        before, after = TEXT.split("    a.one.now a.two.now\n    a.three.now in\n")
        disk, memory = rows.row("before", unchanged)
        self.assertEqual(rows.renewed(TEXT, unchanged, "here"), f"{before}    {disk}\n    {memory} in\n{after}")
        for text, changes in ((TEXT, unchanged | {"used": True}), (TEXT + TEXT, unchanged), ("", unchanged)):
            with self.assertRaises(Bad):
                rows.renewed(text, changes, "here")


if __name__ == "__main__":
    unittest.main()
