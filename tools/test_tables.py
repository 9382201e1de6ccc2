#!/usr/bin/env python3
"""Tests of tables.py, and that the list of the lent tables is the code's: python3 tools/test_tables.py"""

import re
import shutil
import subprocess
import unittest
from unittest import mock

import ceasy
import ctext
import lent
import tables
from regions import Bad

CRATES = lent.ROOT / "crates"
STATE = (CRATES / "model" / "specs" / "State.antt").read_text()
LENT = (CRATES / "model" / "specs" / "Lent.antt").read_text()
STEP = (CRATES / "model" / "specs" / "Step.antt").read_text()
# the public calls: all of keeper but its two files of helpers
KEEPER = "\n".join(path.read_text() for path in sorted((CRATES / "keeper" / "src").glob("*.rt")) if path.stem not in ("frames", "pool"))
REFERENCE = (lent.ROOT / "tests" / "reference" / "src" / "tables.rs").read_text()
# the calls of the source, and the column of the list that says how each lends a table
CODE_CALLS = {
    "keeper_format": "format", "keeper_restart": "restart", "keeper_apply": "apply", "keeper_apply_all": "apply_all",
    "page_look": "look", "keeper_page_look": "look", "keeper_mend": "mend",
    "keeper_export": "export", "keeper_import": "import",
}
# what a call takes beside the tables
BESIDE = {"sizes", "wanted", "request", "requests", "answers", "slot", "page", "refusal", "changes", "account", "number", "sheet"}


def parameters(name):
    """The parameters of a call of the source, its tables alone: name and type."""
    found = re.search(rf"fn {name}(?:<'a>)?\((.*?)\) ->", KEEPER, re.S).group(1)
    pairs = re.findall(r"(\w+): ([^,]+),", found)
    return [(parameter, kind.replace("'a ", "")) for parameter, kind in pairs if parameter not in BESIDE]


def expected(table, call):
    """A table's type in a call of the source."""
    kind = table.element if table.is_one() else f"[{table.element}]"
    return {"mut": f"&mut {kind}", "ref": f"&{kind}", "val": kind}[table.lent[call]]


def fields(record):
    """The fields of a record of State.antt."""
    text = re.search(rf"^pub record {record} : .*?(?=\n\n)", STATE, re.S | re.M).group()
    return re.findall(r"^  pub ([\w-]+) :", text, re.M)


def bare(tables_):
    """The names of tables in Lent.antt: the field's last, or, where another table has that, all of it."""
    names = []
    for table in tables_:
        last = table.field.split(".")[-1]
        names.append(table.field.replace(".", "-") if last in names else last)
    return names


def lengths(step=STEP):
    """The lengths that question 1 asks for: field, and the length by letters; a length is a term, the name of a number, or a number."""
    letters = {size.name: size.letter for size in lent.SIZES}
    found = re.findall(r"same \(length (\w)((?:\.\w+)+)\) (\([^)]*\)|z\.\w+|[A-Z]+|\d+)", step)
    fixed = dict(re.findall(r"^([A-Z]+) = (\d+)$", STATE, re.M))
    out = {}
    for of, path, length in found:
        length = fixed.get(length) or length.strip("()").replace("all_pages z", "S * N").replace("map_words z", "(R + 31) / 32")
        out[("chip." if of == "k" else "") + path.split(".")[-1].strip()] = re.sub(r"z\.(\w+)", lambda size: letters[size.group(1)], length)
    return out


class Code(unittest.TestCase):
    def test_parameters(self):
        for name, call in CODE_CALLS.items():
            with self.subTest(name):
                self.assertEqual(parameters(name), [(table.name, expected(table, call)) for table in lent.in_call(call)])

    def test_no_other_call(self):
        self.assertEqual(set(re.findall(r"^pub (?:extern \"C\" )?fn (\w+)", KEEPER, re.M)), set(CODE_CALLS))

    def test_state(self):
        groups = {"core": "", "held": "", "slots": "", "chip": "chip."}
        memory = [before + field for group, before in groups.items() for field in fields(group.title())]
        memory += [name for name in fields("Memory") if name not in groups]
        self.assertEqual(sorted(memory), sorted(table.field for table in lent.of_part("memory")))
        self.assertLessEqual(set(groups), set(fields("Memory")))
        self.assertEqual(fields("Disk"), [table.field for table in lent.of_part("disk")])

    def test_state_of(self):
        for name, tables_ in (("all_of", lent.in_call("apply")), ("disk_of", lent.in_call("format"))):
            taken = re.search(rf"^{name} (.*?) =(?: |$)", LENT, re.M).group(1).split()
            self.assertEqual(taken, bare(tables_))

    def test_lengths(self):
        self.assertEqual(lengths(), {table.field: table.length for table in lent.TABLES if not table.is_one()})
        text = "same (length d.one) 1 and same (length m.held.free_map) (map_words z) and same (length m.line) LINE and same (length k.more) z.slots"
        self.assertEqual(lengths(text), {"one": "1", "free_map": "(R + 31) / 32", "line": "32", "chip.more": "S"})

    def test_limits(self):
        most = dict(re.findall(r"^most_(\w+) = (\d+)$", (CRATES / "model" / "specs" / "Sizes.antt").read_text(), re.M))
        self.assertEqual({size.name: str(size.most) for size in lent.SIZES}, most)

    def test_reference(self):
        for part in lent.PARTS:
            text = re.search(rf"pub struct {part.title()} \{{(.*?)\}}", REFERENCE, re.S).group(1)
            listed = [(t.name, t.element if t.is_one() else f"Vec<{t.element}>") for t in lent.of_part(part)]
            self.assertEqual(re.findall(r"pub (\w+): ([\w<>]+),", text), listed)


class List(unittest.TestCase):
    def test_bad_lines(self):
        good = "a | disk | u16 | Q | a | mut | ref | mut | ref | mut | ref | what it is"
        self.assertEqual(len(lent.read(good)[1]), 1)
        for bad in (good.replace("disk", "tape"), good.replace("u16", "u64"), good.replace("ref", "own", 1), "a | b"):
            with self.subTest(bad), self.assertRaises(Bad):
                lent.read(bad)

    def test_lengths(self):
        sizes = {"R": 33, "W": 2, "B": 4}
        for length, count, words in (("R * W", 66, "R·W"), ("(R + 31) / 32", 2, "⌈R/32⌉"), ("1", 1, "1"), ("B + 1", 5, "B + 1")):
            self.assertEqual((tables.entries(length, sizes), tables.shown(length)), (count, words))
        self.assertEqual([tables.times(4, "1"), tables.times(1, "R"), tables.times(2, "B + 1")], ["4", "R", "2·(B + 1)"])
        self.assertEqual(tables.times(2, "32"), "64")


class NewTable(unittest.TestCase):
    """One more line of the list is all that the files made from it need."""

    ROWS = """
        sisters | disk | u16 | Q | sisters | mut | ref | mut | ref | ref | ref | the account's sister
        serial | disk | u32 | 1 | serial | mut | mut | mut | ref | mut | ref | the number of the disk
        recent | memory | u16 | 32 | recent | - | mut | mut | ref | ref | ref | the pages that were used last
    """

    def setUp(self):
        more = lent.read(self.ROWS)[1]
        self.tables = lent.TABLES + more
        patch = mock.patch.object(lent, "TABLES", self.tables)
        patch.start()
        self.addCleanup(patch.stop)

    def test_everywhere(self):
        for _, name, make in tables.MADE:
            for table in ("sisters", "serial", "recent"):
                self.assertIn(table, make(), name)

    def test_order(self):
        self.assertEqual([table.name for table in lent.in_call("restart")][:2], ["frames", "pool"])
        self.assertEqual([table.name for table in lent.in_call("format")][-2:], ["sisters", "serial"])
        self.assertEqual([table.name for table in lent.in_call("apply")][-2:], ["used", "recent"])
        self.assertEqual([(table.name, table.lent["mend"]) for table in lent.in_call("mend")][-2:], [("sisters", "ref"), ("serial", "ref")])

    def test_the_header_compiles(self):
        text = (lent.ROOT / "include" / "keeper.h").read_text()
        before, _, after = tables.parts(text, *tables.marks("keeper.h", "tables and calls"), "keeper.h")
        use = (
            "static struct { KEEPER_DISK_TABLES(2, 33, 2, 2, 3, 1, 2) } disk;\nstatic struct { KEEPER_MEMORY_TABLES(2, 33, 2, 2, 3, 1, 2) } memory;\n"
            "_Static_assert(sizeof disk.sisters == 2 && sizeof disk.serial == 4 && sizeof memory.recent == 64 && sizeof memory.free_map == 8, \"\");\n"
            "KeeperAnswer call(KeeperSizes sizes);\nKeeperAnswer call(KeeperSizes sizes)\n{\n    return keeper_restart(sizes, KEEPER_LEND(memory.frames),"
            " &memory.pool, KEEPER_LEND_DISK(disk), KEEPER_LEND_MEMORY(memory));\n}\n"
        )
        command = ["gcc", "-std=c11", "-Wall", "-Wextra", "-Werror", "-pedantic", "-fsyntax-only", "-x", "c", "-"]
        ran = subprocess.run(command, input=before + ctext.header() + after + use, capture_output=True, text=True)
        self.assertEqual(ran.stderr, "")

    def test_the_easy_header_compiles(self):
        """The struct, the block and the calls follow; a new kind of request gets its function, and what a call takes beside the tables stays."""
        first = {"restart": ctext.FIRST["restart"] + ["const uint16_t *guests", "size_t guests_count"]}
        patch = mock.patch.dict(ctext.FIRST, first)
        patch.start()
        self.addCleanup(patch.stop)
        plain, easy = ((lent.ROOT / "include" / name).read_text() for name in ("keeper.h", "keeper_easy.h"))
        plain = plain.replace("KEEPER_LIMIT = 15,", "KEEPER_GREET = 99, /* host, guest, times */\n    KEEPER_LIMIT = 15,")
        plain = "".join(tables.parts(plain, *tables.marks("keeper.h", "tables and calls"), "keeper.h")[::2]).replace(
            tables.marks("keeper.h", "tables and calls")[0], tables.marks("keeper.h", "tables and calls")[0] + ctext.header()
        )
        before, _, after = tables.parts(easy, *tables.marks("keeper_easy.h", "tables and calls"), "keeper_easy.h")
        whole = ceasy.enum
        with mock.patch.object(ceasy, "enum", lambda comment: whole(comment, plain)):
            made = ceasy.easy()
        text = plain + before.replace('#include "keeper.h"', "") + made + after
        use = (
            "KeeperAnswer call(Keeper *keeper);\nKeeperAnswer call(Keeper *keeper)\n{\n    keeper->sisters[0] = keeper->serial[0] > keeper->recent[31];\n"
            "    keeper_greet(keeper, 1, 0, 2);\n    keeper_easy_format(keeper, keeper->parents);\n    return keeper_easy_restart(keeper, keeper->sisters, 1);\n}\n"
        )
        for words in (["gcc", "-std=c99", "-x", "c"], ["g++", "-std=c++11", "-x", "c++"]):
            command = [*words, "-Wall", "-Wextra", "-Werror", "-pedantic", "-fsyntax-only", "-"]
            with self.subTest(words[0]):
                if not shutil.which(words[0]):
                    self.skipTest(f"no {words[0]}")
                self.assertEqual(subprocess.run(command, input=text + use, capture_output=True, text=True).stderr, "")


class Files(unittest.TestCase):
    def test_committed(self):
        for file, name, make in tables.MADE:
            with self.subTest(file):
                text = (lent.ROOT / file).read_text()
                self.assertEqual(tables.parts(text, *tables.marks(file, name), file)[1], make())

    def test_words(self):
        tool = ["python3", lent.ROOT / "tools" / "tables.py"]
        self.assertEqual(subprocess.run(tool, capture_output=True).returncode, 1)
        checked = subprocess.run([*tool, "--check"], capture_output=True, text=True)
        self.assertEqual((checked.returncode, checked.stdout), (0, f"{len(tables.MADE)} passed, 0 failed\n"))


if __name__ == "__main__":
    unittest.main()
