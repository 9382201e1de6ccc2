#!/usr/bin/env python3
"""Tests that docs/SPEC.md names definitions that exist, and leaves none out: python3 tools/test_spec.py"""

import pathlib
import re
import unittest

ROOT = pathlib.Path(__file__).resolve().parent.parent
SPEC = (ROOT / "docs" / "SPEC.md").read_text()
MODEL = ROOT / "crates" / "model" / "specs"
NAMED = re.compile(r"`(?!docs/)(?:(\w+)/)?([A-Z]\w*)\.([\w′-]+)(?:\.([\w′-]+))?`")
PATH = re.compile(r"`((?:crates|docs|tools)/[\w./-]+\.\w+)`")
# what a definition starts with: its own name, or that of a record's field or a case of a data type
STARTS = re.compile(r"^\s*(?:abbrev |unfoldable )?(?:pub )?(?:record |data )?([\w′-]+)(?= :| \(| \{)", re.M)


def source(crate, file):
    """The text of a file of definitions, or nothing."""
    specs = ROOT / "crates" / (crate or "model") / "specs"
    return next((path.read_text() for path in (specs / f"{file}.antt", specs / "Laws" / f"{file}.antt") if path.exists()), "")


def defined(text):
    """The names that a file of definitions defines."""
    return set(STARTS.findall(text))


def named():
    """The definitions that the specification names: crate, file, name; of a field of a field, both."""
    return {(crate, file, name) for crate, file, *names in NAMED.findall(SPEC) for name in names if name}


def said(file, crate=""):
    """The names of one file of a crate's definitions, the model's if none is named, that the specification names."""
    return {name for crate_of, name_of, name in named() if (crate_of, name_of) == (crate, file)}


def typed(file, kind):
    """The names of a file whose type ends so."""
    return set(re.findall(rf"^ *(?:abbrev |unfoldable )(?:pub )?([\w-]+) : (?:.*→ )?{kind}$", source("", file), re.M))


def events():
    """The definitions that Step.carried hands the events to: file, name."""
    part = re.search(r"unfoldable pub carried.*?\n\n", source("", "Step"), re.S).group()
    return re.findall(r" = (\w+)\.([\w-]+) z st", part)


class Exists(unittest.TestCase):
    def test_definitions(self):
        self.assertGreater(len(named()), 150)
        for crate, file, name in sorted(named()):
            with self.subTest(f"{crate or 'model'}/{file}.{name}"):
                self.assertIn(name, defined(source(crate, file)))

    def test_files(self):
        for path in PATH.findall(SPEC):
            with self.subTest(path):
                self.assertTrue((ROOT / path).is_file())

    def test_what_defines(self):
        text = "abbrev pub one : ℕ\none = 1\npub record Two (z : ℕ) : Type 0 where\n  pub three : ℕ\n  four : ℕ\n-- five\nsix = one\n"
        self.assertEqual(defined(text), {"one", "Two", "three", "four"})


class Whole(unittest.TestCase):
    """A definition of one of these kinds that the specification does not name is a failure."""

    def all_said(self, file, names, crate=""):
        self.assertTrue(names)
        self.assertEqual(sorted(names - said(file, crate)), [])

    def test_rules(self):
        self.all_said("Rules", typed("Rules", "Rule") - {"once", "fit", "is_active"})

    def test_questions(self):
        questions = {name for name in typed("Questions", "Questions") if re.fullmatch(r"q\d+", name)}
        self.all_said("Questions", questions)
        rows = [int(number) for number in re.findall(r"^\| (\d+) \| .* \| `(?:Questions\.q|Step\.all_fit|Rules\.all_rules)", SPEC, re.M)]
        self.assertEqual(rows, [1, 2, *sorted(int(name[1:]) for name in questions)])

    def test_events(self):
        self.assertGreater(len(events()), 10)
        for file in ("Designs", "Accounts", "Pages", "Writeback", "Line"):
            self.all_said(file, {name for where, name in events() if where == file})

    def test_kinds(self):
        kinds = dict(re.findall(r"kind (\d+) \(Event\.\w+ \(?\w+\.(\w+)", source("", "Requests")))
        table = dict(re.findall(r"^\| (\d+) \| \*\*([a-z ]+)\*\*", SPEC, re.M))
        self.assertEqual({number: name.lower() for number, name in kinds.items()}, {number: name.replace(" ", "") for number, name in table.items()})

    def test_states_and_lines(self):
        text = source("", "Lines")
        states = set(re.findall(r"^([A-Z]+) = \d+$", text, re.M)) - {"STATES"}
        self.all_said("Lines", states)
        rows = re.findall(rf"^\| ({'|'.join(map(str.lower, states))}) \| ([a-z, ]+) \|$", SPEC, re.M)
        told = {(start.upper(), end.upper()) for start, ends in rows for end in ends.split(", ")}
        self.assertEqual(told, set(re.findall(r"line ([A-Z]+) ([A-Z]+)$", text, re.M)))

    def test_limits(self):
        limits = {name: f"{int(most):,}" for name, most in re.findall(r"^(most\w+) = (\d+)$", source("", "Sizes"), re.M)}
        self.assertEqual({name: most for most, name in re.findall(r"\| ([\d,]+) \| `Sizes\.(most\w+)`", SPEC)}, limits)

    def test_turns(self):
        cases = re.search(r"pub data Turning .*?\n\n", source("", "Questions"), re.S).group()
        self.all_said("Questions", set(re.findall(r"^  (\w+) :", cases, re.M)))
        self.all_said("Turns", defined(source("", "Turns")) & {"Deed", "turns", "calm", "calm_turns", "gone", "Left", "NoneRefused"})

    def test_ledger(self):
        fed = re.search(r"pub data Fed .*?\n\n", source("", "Ledger"), re.S).group()
        self.all_said("Ledger", set(re.findall(r"^  (\w+) :", fed, re.M)))

    def test_claim(self):
        rules = re.search(r"demand3 = (.*)", source("", "Demand3")).group(1).split(" and ")
        fields = set(re.findall(r"^  pub (\w+) :", source("", "Demand3"), re.M)) - {"disk"}
        self.all_said("Demand3", set(rules) | fields)

    def test_claim_from_pack(self):
        text = source("", "FromPack")
        rules = set(re.search(r"from_pack(?:ed)? = (.*)", text).group(1).replace(" z w", "").split(" and "))
        self.all_said("Demand3", rules - defined(text))
        self.all_said("FromPack", rules & defined(text))

    def test_payer(self):
        self.all_said("Payer", {name for name in defined(source("", "Payer")) if name.startswith("pay")})
        self.all_said("Accounts", {"shifted"})

    def test_sheets(self):
        self.all_said("Sheet", {"field", "bytes", "head", "page_field", "shown_field", "printed", "laid", "form", "page_fits", "parsed", "text_in"}, "sheets")
        self.all_said("Import", {"taking", "taken", "store_record", "entry", "store_slot", "imported", "import"})
        self.all_said("Export", {"page_text", "exported", "export"})
        self.all_said("Stores", {"Call", "stores", "made", "first"})

    def test_isolation(self):
        rules = set(re.findall(r"[a-z]+_like", re.search(r"words_like = (.*)", source("isolation", "Shown")).group(1)))
        self.all_said("Shown", rules | {"words_like", "Shown"}, "isolation")
        twin = re.search(r"pub data Twin .*?\n\n", source("isolation", "Twins"), re.S).group()
        self.all_said("Twins", set(re.findall(r"^  (\w+) :", twin, re.M)), "isolation")
        self.all_said("Answers", set(re.findall(r"^  pub (\w+) :", source("isolation", "Answers"), re.M)), "isolation")

    def test_chip(self):
        self.all_said("Chip", {"has_copy", "place_of", "place_for", "copied", "found", "take_copy", "arrives", "stale", "only_live", "empty_chip"})
        self.all_said("Step", {"is_fault", "supplied", "filled", "whole"})
        self.all_said("Woven", {"woven", "act_by", "run_by", "legal_by"}, "woven")
        self.all_said("Without", {"without", "SameSeen", "ChipUnseen"}, "woven")

    def test_edges(self):
        names = set(re.findall(r"^ *(e\d+(?:-\w+)?) :", source("edges", "Edges"), re.M))
        self.all_said("Edges", names, "edges")

    def test_tables(self):
        parts = re.findall(r"^pub record (?:Disk|Core|Held|Slots|Chip|Memory) : .*?(?=\n\n)", source("", "State"), re.S | re.M)
        fields = {name for part in parts for name in re.findall(r"^  pub ([\w-]+) :", part, re.M)}
        self.all_said("State", fields - {"core", "held", "slots"})


if __name__ == "__main__":
    unittest.main()
