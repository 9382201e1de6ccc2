#!/usr/bin/env python3
"""Not proved: attacks the tools of design sheets; tests/sheets.sh builds them."""

import fcntl
import os
import pathlib
import random
import shutil
import subprocess
import tempfile
import unittest

from sheet import N, W, field, read, sheet, wrong_sheets

ROOT = pathlib.Path(__file__).resolve().parent.parent
TOOLS = ROOT / "target" / "sheets"
DESIGN_101 = "slot 0 design 101 account 1: 1000,1001,1002 1016,1017,1018 1032,1033,1034\n"
DESIGN_102 = "slot 2 design 102 account 2: 2000,2001,2002 - 2032,2033,2034\n"
PAGES_101 = {page: [1000 + 16 * page + word for word in range(W)] for page in range(N)}


class Case(unittest.TestCase):
    def setUp(self):
        folder = tempfile.TemporaryDirectory()
        self.addCleanup(folder.cleanup)
        self.folder = pathlib.Path(folder.name)
        self.pack, self.sheet = self.folder / "pack", self.folder / "sheet"
        self.made("sound", self.pack)
        self.sheet.write_bytes(sheet(PAGES_101))
        self.before = self.pack.read_bytes()

    def run_tool(self, name, *words, **more):
        """What a tool says, and its status: 0 or 1, or a signal's. Nothing else, so no check of the compiler's has failed."""
        environment = {**os.environ, "ASAN_OPTIONS": "detect_leaks=0", **more}
        done = subprocess.run([TOOLS / name, *map(str, words)], capture_output=True, text=True, env=environment)
        self.assertIn(done.returncode, (0, 1, -9), done.stderr)
        self.assertNotIn("Sanitizer", done.stderr)
        self.assertNotIn("runtime error", done.stderr)
        return done.returncode, done.stdout + done.stderr

    def made(self, kind, path):
        subprocess.run([TOOLS / "packs", "make", path, kind], check=True)

    def look(self):
        """What is on the pack, by a copy of it: an open may write."""
        copy = self.folder / "copy"
        shutil.copy(self.pack, copy)
        return self.run_tool("packs", "look", copy)[1]

    def refused(self, tool, words, line, *also):
        """A refusal, in these words; pack and sheet, and whatever else, are as they were."""
        kept = {path: path.read_bytes() for path in (self.pack, self.sheet, *also)}
        files = sorted(self.folder.iterdir())
        self.assertEqual(self.run_tool(tool + "-checked", *words), (1, f"{tool}: {line}\n"))
        self.assertEqual({path: path.read_bytes() for path in kept}, kept)
        self.assertEqual(sorted(self.folder.iterdir()), files)


class Export(Case):
    def test_a_design(self):
        new = self.folder / "new"
        self.assertEqual(self.run_tool("export-checked", self.pack, 0, new), (0, f"design 101 of slot 0 of {self.pack} is in {new}: 68 bytes\n"))
        self.assertEqual(new.read_bytes(), sheet(PAGES_101))
        self.run_tool("export-checked", self.pack, 2, self.folder / "other")
        self.assertEqual((self.folder / "other").read_bytes(), sheet({0: [2000, 2001, 2002], 2: [2032, 2033, 2034]}, 102))
        self.assertEqual(self.pack.read_bytes(), self.before)
        self.assertEqual(sorted(path.name for path in self.folder.iterdir()), ["new", "other", "pack", "sheet"])

    def test_a_listed_page_of_zeros_is_left_out(self):
        self.made("zeros", self.folder / "zeros")
        self.run_tool("export-checked", self.folder / "zeros", 0, self.folder / "new")
        self.assertEqual((self.folder / "new").read_bytes(), sheet({page: words for page, words in PAGES_101.items() if page != 1}))

    def test_replace(self):
        self.assertEqual(self.run_tool("export-checked", self.pack, 2, self.sheet, "replace")[0], 0)
        self.assertEqual(read(self.sheet.read_bytes())[2], 102)
        self.assertEqual(self.run_tool("export-checked", self.pack, 2, self.folder / "new", "replace")[0], 0)

    def test_refusals(self):
        new, there = self.folder / "new", "it is there already: name another file, or say REPLACE=1"
        self.refused("export", [self.pack, 4, new], f"{self.pack}: there is no slot 4: its slots are 0 to 3")
        self.refused("export", [self.pack, 4294967295, new], f"{self.pack}: there is no slot 4294967295: its slots are 0 to 3")
        self.refused("export", [self.pack, 1, new], f"{self.pack}: slot 1 is empty: slot 0 has design 101, slot 2 has design 102")
        self.refused("export", [self.pack, 0, self.sheet], f"{self.sheet}: {there}")
        self.refused("export", [self.pack, 0, self.pack], f"{self.pack}: {there}")
        self.refused("export", [self.pack, 0, self.pack, "replace"], f"{self.pack}: it is there and is no sheet: it is left alone")
        self.refused("export", [self.pack, 0, self.folder], f"{self.folder}: {there}")
        self.refused("export", [self.pack, 0, self.folder, "replace"], f"{self.folder}: it cannot be read: Is a directory")
        self.refused("export", [self.folder / "none", 0, new], f"{self.folder}/none: it cannot be opened: No such file or directory")
        self.refused("export", [self.pack, 0, self.folder / "none" / "new"], f"{self.folder}/none/new: it cannot be written: No such file or directory")
        self.refused("export", [self.sheet, 0, new], f"{self.sheet}: no disk of the keeper: another program's file, or its header block is damaged")
        for words in ([], [self.pack, "x", new], [self.pack, "-1", new], [self.pack, "1 ", new], [self.pack, 0, new, "over"], [self.pack, "4294967296", new]):
            self.assertEqual(self.run_tool("export-checked", *words), (1, "usage: export PACK SLOT SHEET [replace]; SLOT is a number\n"))

    def test_packs_that_restart_turns_away(self):
        hurt, old = self.folder / "hurt", self.folder / "old"
        self.made("hurt", hurt)
        subprocess.run(["python3", ROOT / "tests" / "convert.py", old, "2", "none"], check=True)
        for tool, words in (("export", ["0", self.folder / "new"]), ("import", ["1", "1", "107", self.sheet])):
            self.refused(tool, [hurt, *words], f"{hurt}: restart turns it away: make mend PACK=.. makes a mended pack of it", hurt)
            self.refused(tool, [old, *words], f"{old}: it has an older layout: make convert OLD=.. NEW=.. makes a new file of it", old)

    def test_each_call_fails(self):
        """Each write, sync and naming fails, or does half, or kills: no file of that name but a whole one, and nothing left but by a kill."""
        new, calls = self.folder / "new", self.folder / "calls"
        self.run_tool("export-failing", self.pack, 0, new, CALLS=str(calls))
        counts = [line.split() for line in calls.read_text().splitlines()]
        self.assertEqual(dict(counts), {"pwrite": "0", "write": "1", "fsync": "2", "link": "1", "rename": "0"})
        for call, count in counts:
            for number in range(1, int(count) + 1):
                for how in ("fail", "short", "kill"):
                    with self.subTest(f"{call} {number} {how}"):
                        self.one_fails(new, call, number, how)

    def one_fails(self, new, call, number, how):
        for path in self.folder.glob("new*"):
            path.unlink()
        status, said = self.run_tool("export-failing", self.pack, 0, new, FAIL=f"{call} {number} {how}")
        whole = (call, number) == ("fsync", 2) or (call, how) == ("link", "short")  # the folder's sync; or named by other means
        self.assertEqual(status, -9 if how == "kill" else 0 if (call, how) == ("link", "short") else 1, said)
        self.assertEqual([path.read_bytes() for path in self.folder.glob("new")], [sheet(PAGES_101)] * whole)
        self.assertEqual(len(list(self.folder.glob("new.part*"))), int(how == "kill" and not whole))
        self.assertEqual(self.pack.read_bytes(), self.before)
        if whole and status == 1:
            self.assertIn("it is written, but its folder cannot be synced", said)

    def test_a_full_device(self):
        new = self.folder / "new"
        limited = ["sh", "-c", 'trap "" XFSZ; ulimit -f 0; exec "$0" "$@"', TOOLS / "export-checked", self.pack, "0", new]
        done = subprocess.run(limited, capture_output=True, text=True, env={**os.environ, "ASAN_OPTIONS": "detect_leaks=0"})
        self.assertEqual((done.returncode, done.stderr), (1, f"export: {new}: it cannot be written: File too large\n"))
        self.assertEqual(list(self.folder.glob("new*")), [])

    def test_two_at_once(self):
        """Two exports to one name: one of them makes it."""
        for turn in range(10):
            new = self.folder / f"new{turn}"
            both = [subprocess.Popen([TOOLS / "export-checked", self.pack, slot, new], stdout=-1, stderr=-1, env={**os.environ, "ASAN_OPTIONS": "detect_leaks=0"}) for slot in "02"]
            answers = [one.communicate()[1].decode() for one in both]
            self.assertEqual(sorted(one.returncode for one in both), [0, 1], answers)
            self.assertIn(read(new.read_bytes())[2], (101, 102))


class Import(Case):
    def test_a_design(self):
        said = f"{self.sheet} is design 107 in slot 1 of {self.pack}; on the board that it came from it was 101\n"
        self.assertEqual(self.run_tool("import-checked", self.pack, 1, 2, 107, self.sheet), (0, said))
        self.assertEqual(self.look(), DESIGN_101 + DESIGN_101.replace("slot 0 design 101 account 1", "slot 1 design 107 account 2") + DESIGN_102)
        self.assertEqual(self.run_tool("export-checked", self.pack, 1, self.folder / "new")[0], 0)
        self.assertEqual((self.folder / "new").read_bytes(), sheet(PAGES_101, 107))

    def test_no_pages(self):
        self.sheet.write_bytes(sheet({}, 4294967295))
        self.assertIn("it was 4294967295", self.run_tool("import-checked", self.pack, 3, 1, 2147483647, self.sheet)[1])
        self.assertEqual(self.look(), DESIGN_101 + DESIGN_102 + "slot 3 design 2147483647 account 1: - - -\n")
        for number in (103, 2147483646):
            self.refused("import", [self.pack, 1, 1, number, self.sheet], f"{self.pack}: number {number} was given before, or skipped: no number is left on this pack")

    def test_refusals(self):
        def refused(slot, account, number, line):
            self.refused("import", [self.pack, slot, account, number, self.sheet], f"{self.pack}: {line}")

        refused(4, 1, 7, "there is no slot 4: its slots are 0 to 3")
        refused(1, 3, 7, "there is no account 3: its accounts are 0 to 2")
        refused(1, 1, 0, "a design's number is 1 or more")
        refused(4, 1, 2147483648, "there is no slot 4: its slots are 0 to 3")
        for number in (2147483648, 4294967295):
            refused(0, 1, number, f"number {number} is too high: give the design one of 2147483647 or less")
        refused(0, 1, 7, "slot 0 has design 101: choose an empty one: 1, 3")
        refused(1, 1, 102, "number 102 stands in slot 2: give the design a number of its own")
        for number in (1, 7, 100):
            refused(1, 1, number, f"number {number} was given before, or skipped: give the design 103 or a higher one")
        refused(1, 1, 107, "the sheet has 3 pages; account 1, which pays, uses 3 of 5: raise its limit, or take another account")
        self.assertEqual(self.run_tool("import-checked", self.pack, 1, 2, 107, self.sheet)[0], 0)
        refused(3, 2, 108, "the sheet has 3 pages, 0 records are free: truncate pages of other designs and update them")
        self.sheet.write_bytes(sheet({}))
        self.assertEqual(self.run_tool("import-checked", self.pack, 3, 2, 108, self.sheet)[0], 0)
        refused(3, 2, 109, "slot 3 has design 108: choose an empty one; there is none: a design is to be deleted first")

    def test_files(self):
        ask = [1, 2, 107]
        self.refused("import", [self.pack, *ask, self.folder / "none"], f"{self.folder}/none: it cannot be opened: No such file or directory")
        self.refused("import", [self.folder / "none", *ask, self.sheet], f"{self.folder}/none: it cannot be opened: No such file or directory")
        self.refused("import", [self.pack, *ask, self.folder], f"{self.folder}: it cannot be read: Is a directory")
        self.refused("import", [self.pack, *ask, self.pack], f"{self.pack}: it is no sheet, or is damaged: at byte 0: the sizes, tag 3 and 4 bytes, are to stand first")
        self.refused("import", [self.sheet, *ask, self.sheet], f"{self.sheet}: no disk of the keeper: another program's file, or its header block is damaged")
        short = self.folder / "short"
        short.write_bytes(self.before[:9000])
        self.refused("import", [short, *ask, self.sheet], f"{short}: the device failed: it is shorter than its tables", short)
        self.refused("import", [self.pack, *ask, "/dev/zero"], "/dev/zero: it is longer than any sheet: another program's file")
        for words in ([], [self.pack, "x", 2, 7, self.sheet], [self.pack, 1, "", 7, self.sheet], [self.pack, 1, 2, "+7", self.sheet], [self.pack, 1, 2, 7]):
            self.assertEqual(self.run_tool("import-checked", *words), (1, "usage: import PACK SLOT ACCOUNT NUMBER SHEET; SLOT, ACCOUNT and NUMBER are numbers\n"))

    def test_wrong_bytes(self):
        """Bytes that are no sheet, or of another board, change nothing; those that are one are all there. The tool's own words agree with the keeper."""
        good, counts = sheet({0: [1, 0, 5], 2: [0, 0, 0xFFFFFFFF]}), {"wrong": 0, "other": 0, "taken": 0}
        tried = sorted(set(wrong_sheets(good)))
        self.assertGreater(len(tried), 400)
        for data in tried:
            with self.subTest(data.hex()):
                counts[self.one_sheet(data)] += 1
        self.assertTrue(min(counts.values()) > 5 and counts["wrong"] > 200, counts)

    def one_sheet(self, data):
        self.pack.write_bytes(self.before)
        self.sheet.write_bytes(data)
        status, said = self.run_tool("import-checked", self.pack, 1, 2, 107, self.sheet)
        shown = self.run_tool("sheet-checked", self.sheet)
        means = read(data)
        self.assertEqual(shown[0], 1 if means is None else 0)
        if means is None or means[:2] != (W, N):
            self.assertEqual((status, self.pack.read_bytes()), (1, self.before))
            self.assertIn("it is no sheet, or is damaged: at byte" if means is None else "only a pack of the same W and N takes it", said)
            self.assertNotIn("the keeper refuses it", said)
            return "wrong" if means is None else "other"
        pages = " ".join(",".join(map(str, means[3][page])) if page in means[3] else "-" for page in range(N))
        self.assertEqual((status, self.look()), (0, f"{DESIGN_101}slot 1 design 107 account 2: {pages}\n{DESIGN_102}"))
        self.assertIn(f"it was {means[2]}\n", said)
        return "taken"

    def test_noise(self):
        """Any bytes, and any fields."""
        source, counts = random.Random(1), {"wrong": 0, "other": 0, "taken": 0}
        for _ in range(150):
            some = [field(source.choice([3, 1, 2, 2, 2, 4]), source.randbytes(source.choice([0, 4, 4, 14, 14]))) for _ in range(source.randrange(6))]
            head = sheet({}, source.randrange(1, 9), source.choice([0, 3, 3, 16383, 65535]), source.choice([0, 3, 3, 65535]))[:-3]
            data = source.choice([source.randbytes(source.randrange(80)), b"".join(some), head + b"".join(some[:2]), head + field(4, b"")])
            counts[self.one_sheet(data)] += 1
        self.assertTrue(min(counts.values()) > 3, counts)

    def test_each_call_fails(self):
        """Each write and sync fails, or does half, or kills: the designs that were there stay, and the new one is there whole or not at all."""
        calls, results, self.skipped = self.folder / "calls", {"old": 0, "new": 0}, 0
        self.run_tool("import-failing", self.pack, 1, 2, 107, self.sheet, CALLS=str(calls))
        counts = dict(line.split() for line in calls.read_text().splitlines())
        self.assertEqual({call: int(count) for call, count in counts.items() if count != "0"}, {"pwrite": 15, "fsync": 12})
        for call in ("pwrite", "fsync"):
            for number in range(1, int(counts[call]) + 1):
                for how in ("fail", "short", "kill"):
                    with self.subTest(f"{call} {number} {how}"):
                        results[self.one_fails(call, number, how)] += 1
        self.assertTrue(results["old"] > 20 and results["new"] > 5, results)
        self.assertTrue(10 < self.skipped < results["old"], self.skipped)

    def one_fails(self, call, number, how):
        new = DESIGN_101.replace("slot 0 design 101 account 1", "slot 1 design 107 account 2")
        self.pack.write_bytes(self.before)
        status, said = self.run_tool("import-failing", self.pack, 1, 2, 107, self.sheet, FAIL=f"{call} {number} {how}")
        self.assertEqual((status, said.startswith(f"import: {self.pack}: the device failed")), (-9, False) if how == "kill" else (1, True))
        found = self.look()
        self.assertIn(found, (DESIGN_101 + DESIGN_102, DESIGN_101 + new + DESIGN_102))
        landed = new in found
        status, said = self.run_tool("import-checked", self.pack, 1, 2, 107, self.sheet)
        skipped = "number 107 was given before, or skipped: give the design 108 or a higher one" in said
        self.assertEqual((status, "slot 1 has design 107" in said), (1, True) if landed else (int(skipped), False))
        if skipped:
            self.assertEqual(self.run_tool("import-checked", self.pack, 1, 2, 108, self.sheet)[0], 0)
        self.skipped += skipped
        self.assertEqual(self.look(), DESIGN_101 + (new.replace("107", "108") if skipped else new) + DESIGN_102)
        return "new" if landed else "old"

    def test_a_store_in_the_journal(self):
        """A pack whose last store is in its journal alone, or half in its place: a refused import and an export leave it so, byte for byte."""
        for number in range(1, 16):
            self.pack.write_bytes(self.before)
            self.run_tool("import-failing", self.pack, 1, 2, 107, self.sheet, FAIL=f"pwrite {number} kill")
            empty = "3" if number >= 12 else "1, 3"  # half of the block of the twelfth, in the journal, has all of the slot's store
            self.refused("import", [self.pack, 0, 2, 108, self.sheet], f"{self.pack}: slot 0 has design 101: choose an empty one: {empty}")
            kept = self.pack.read_bytes()
            self.assertEqual(self.run_tool("export-checked", self.pack, 2, self.folder / f"new{number}")[0], 0)
            self.assertEqual(self.pack.read_bytes(), kept)

    def test_in_use(self):
        """A pack that another program has open is refused, and nothing is written."""
        with self.pack.open("rb") as file:
            fcntl.flock(file, fcntl.LOCK_EX)
            self.refused("import", [self.pack, 1, 2, 107, self.sheet], f"{self.pack}: it is in use: another program has it open")
            self.refused("export", [self.pack, 0, self.folder / "new"], f"{self.pack}: it is in use: another program has it open")
            fcntl.flock(file, fcntl.LOCK_SH)
            self.refused("import", [self.pack, 1, 2, 107, self.sheet], f"{self.pack}: it is in use: another program has it open")
            self.assertEqual(self.run_tool("export-checked", self.pack, 0, self.folder / "new")[0], 0)

    def test_two_at_once(self):
        """Two imports into one pack: each is carried out whole, or told that the pack is in use, or the lower number that the higher one was given."""
        self.sheet.write_bytes(sheet({1: [1, 2, 3]}))
        for turn in range(10):
            self.pack.write_bytes(self.before)
            ask = [[TOOLS / "import-checked", self.pack, str(slot), "2", str(170 + slot), self.sheet] for slot in (1, 3)]
            both = [subprocess.Popen(words, stdout=-1, stderr=-1, env={**os.environ, "ASAN_OPTIONS": "detect_leaks=0"}) for words in ask]
            answers = [(one.communicate()[1].decode(), one.returncode) for one in both]
            wanted = {}
            for slot, (said, status) in zip((1, 3), answers):
                later = slot == 1 and answers[1][1] == 0 and "number 171 was given before, or skipped" in said
                self.assertTrue(status == 0 or "it is in use" in said or later, said)
                wanted[slot] = f"slot {slot} design {170 + slot} account 2: - 1,2,3 -\n" if status == 0 else ""
            self.assertEqual(self.look(), DESIGN_101 + wanted[1] + DESIGN_102 + wanted[3])


class Show(Case):
    def test_a_picture(self):
        self.sheet.write_bytes(sheet({1: [0x80000001, 0xF0, 0]}, 12))
        self.assertEqual(self.run_tool("sheet-checked", self.sheet), (0, "\n".join([
            "design 12, 3 pages of 3 words; 1 of them have any; 34 bytes", "pages .#.", "page 1", "#" + "." * 30 + "#", "." * 24 + "####....", "." * 32, ""])))

    def test_many_words(self):
        """At most 16 rows; the last has what is left."""
        words = [0xFFFFFFFF] * 40 + [0] * 10
        self.sheet.write_bytes(sheet({0: words}, 1, 50, 1))
        shown = self.run_tool("sheet-checked", self.sheet)[1].splitlines()
        self.assertEqual(shown[1:3], ["pages #", "page 0, a row for 4 words"])
        self.assertEqual(shown[3:], ["#" * 32] * 10 + ["." * 32] * 3)

    def test_the_longest(self):
        self.sheet.write_bytes(sheet({page: [1] * 1024 for page in range(256)}, 1, 1024, 256))
        status, shown = self.run_tool("sheet-checked", self.sheet)
        self.assertEqual((status, shown.splitlines()[0]), (0, "design 1, 256 pages of 1024 words; 256 of them have any; 1049873 bytes"))
        with self.sheet.open("ab") as file:
            file.write(b"\0")
        self.assertEqual(self.run_tool("sheet-checked", self.sheet), (1, f"sheet: {self.sheet}: it is longer than any sheet: another program's file\n"))

    def test_where_it_is_wrong(self):
        good = sheet(PAGES_101)
        for data, where, wrong in (
            (b"", 0, "the sizes, tag 3 and 4 bytes, are to stand first"),
            (good[:7], 7, "the number, tag 1 and 4 bytes, is to stand behind the sizes"),
            (sheet({}, 0), 14, "its number is 0"),
            (good[:14], 14, "a page, or the end, tag 4 and no bytes, is to stand there"),
            (good[:40], 31, "a page of another length than its W says, or it ends there"),
            (sheet({0: [1, 2, 3], 3: [1, 2, 3]}), 31, "a page of its N or above"),
            (sheet({1: [1, 2, 3], 0: [1, 2, 3]}), 31, "a page that is not above the one before it"),
            (sheet({0: [1, 2, 3], 1: [0, 0, 0]}), 31, "a page of zeros"),
            (good + b"x", 65, "there are bytes after the end"),
        ):
            self.sheet.write_bytes(data)
            self.assertEqual(self.run_tool("sheet-checked", self.sheet), (1, f"sheet: {self.sheet}: it is no sheet, or is damaged: at byte {where}: {wrong}\n"))

    def test_by_make(self):
        def make(*words):
            done = subprocess.run(["make", "--no-print-directory", "-s", "-o", "target/staticlib/libkeeper.a", *words], cwd=ROOT, capture_output=True, text=True)
            return (done.stdout + done.stderr).splitlines()

        new, moved = self.folder / "with blank", self.folder / "another pack"
        shutil.copy(self.pack, moved)
        self.assertEqual(make("export", f"PACK={moved}", "SLOT=0", f"SHEET={new}"), [f"design 101 of slot 0 of {moved} is in {new}: 68 bytes"])
        self.assertIn("say REPLACE=1", make("export", f"PACK={moved}", "SLOT=2", f"SHEET={new}")[0])
        self.assertEqual(make("export", f"PACK={moved}", "SLOT=2", f"SHEET={new}", "REPLACE=1"), [f"design 102 of slot 2 of {moved} is in {new}: 51 bytes"])
        said = make("import", f"PACK={moved}", "SLOT=1", "ACCOUNT=2", "NUMBER=107", f"SHEET={new}")
        self.assertEqual(said, [f"{new} is design 107 in slot 1 of {moved}; on the board that it came from it was 102"])
        self.assertEqual(make("sheet", f"SHEET={new}")[:2], ["design 102, 3 pages of 3 words; 2 of them have any; 51 bytes", "pages #.#"])
        for target in ("export", "import", "sheet"):
            self.assertIn(f"make {target} ", make(target)[0])


if __name__ == "__main__":
    unittest.main()
