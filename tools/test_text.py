#!/usr/bin/env python3
"""What is held of the text of the crates, so that it can be read: python3 tools/test_text.py

    test_text.py --list    prints the rows of tools/long_functions.txt as the code has them
"""

import pathlib
import re
import sys
import unittest

ROOT = pathlib.Path(__file__).resolve().parent.parent
LONGEST_LINE = 400
LONGEST_FILE = 300
LONGEST_CHAIN = 8
LONGEST_FUNCTION = 40
DECISIONS = (ROOT / "docs" / "DECISIONS.md").read_text()


def sources():
    """The crates' files of code, definitions and proofs."""
    paths = (path for ending in ("rt", "antt") for path in (ROOT / "crates").rglob("*." + ending))
    return sorted(path for path in paths if path.relative_to(ROOT / "crates").parts[1] != "out")


def long_lines(text):
    """The numbers and lengths, in bytes, of the lines that are too long."""
    lengths = enumerate((len(line.encode()) for line in text.split("\n")), 1)
    return [(number, length) for number, length in lengths if length > LONGEST_LINE]


def is_long(text):
    """Whether a file has too many lines."""
    return len(text.splitlines()) > LONGEST_FILE


def long_chains(word):
    """Finds where a chain of a word, as `.before`, starts that is too long: by line, how long it is, over line ends too, and the word."""
    def search(text):
        chains = ((match.start(), match.group().count(word)) for match in re.finditer(rf"(?:{re.escape(word)}\b\s*)+", text))
        return [(text.count("\n", 0, start) + 1, length, word) for start, length in chains if length > LONGEST_CHAIN]
    return search


def counted_places(text):
    """Where a place is named by the number of an argument or of a compiler's temporary, by line, and the name."""
    return [(text.count("\n", 0, match.start()) + 1, match.group()) for match in re.finditer(r"\b[A-Z][\w-]*-(?:arg|t)\d+\b", text)]


def functions(text):
    """Each function with a body: its name, and how many lines it has with parameters and contract, and its body alone, braces counted."""
    lines = text.split("\n")
    for start, line in enumerate(lines):
        found = re.match(r"(\s*)(?:pub )?(?:extern \"C\" )?fn (\w+)", line)
        if not found:
            continue
        margin, name = found.groups()
        body = start if line.endswith("{") else start + 1
        # a trait's function ends before its next line that is not a clause
        if re.match(rf"{margin}    \S.*;$|$", lines[body]) and not line.endswith("{") or line.endswith(";"):
            continue
        while body > start and not (lines[body] == margin + "{" or lines[body].startswith(margin + ")") and lines[body].endswith("{")):
            body += 1
        end = body
        while lines[end] != margin + "}":
            end += 1
        yield name, end - start + 1, end - body + 1


def long_functions(body_alone):
    """The functions of the crates that are too long: crate and name."""
    return {
        (path.relative_to(ROOT / "crates").parts[0], name)
        for path in sources() if path.suffix == ".rt"
        for name, whole, body in functions(path.read_text())
        if (body > LONGEST_FUNCTION) == body_alone and whole > LONGEST_FUNCTION
    }


def excused(by):
    """The functions that tools/long_functions.txt lists as long by their bodies, or only as a whole: crate and name."""
    rows = [line.split(" | ") for line in (ROOT / "tools" / "long_functions.txt").read_text().splitlines() if not line.startswith("#")]
    return {(crate, name) for crate, name, kind in rows if kind == by}


def excused_files():
    """The files that docs/DECISIONS.md names as longer, below crates."""
    part = DECISIONS[DECISIONS.index("No file is longer") :].split(". ")[0]
    return set(re.findall(r"`([\w/]+\.\w+)`", part))


class Found(unittest.TestCase):
    def test_lines(self):
        self.assertEqual(long_lines("é" * 200 + "\nshort\n" + "é" * 200 + "e"), [(3, 401)])

    def test_files(self):
        self.assertFalse(is_long("line\n" * 300))
        self.assertTrue(is_long("line\n" * 301))
        self.assertTrue(is_long("line\n" * 300 + "and one without an end"))

    def test_chains(self):
        chain = "c" + " .before" * 8
        self.assertEqual(long_chains(".before")(f"{chain} .args\n{chain}\n    .before .args"), [(2, 9, ".before")])
        self.assertEqual(long_chains(".before")("c" + ".before" * 9), [(1, 9, ".before")])
        self.assertEqual(long_chains(".before")("c" + " .beforehand" * 9), [])
        self.assertEqual(long_chains(".1")("c" + " .1" * 8 + " .0" + " .1" * 9 + " .0"), [(1, 9, ".1")])
        self.assertEqual(long_chains(".1")("c" + " .1" * 8 + " .10"), [])

    def test_places(self):
        text = "f : tie.After-carry-arg19 → tie.Need-cast-t54\n\ng : tie.After-carry → tie.Need-cast-total\n"
        self.assertEqual(counted_places(text), [(1, "After-carry-arg19"), (1, "Need-cast-t54")])

    def test_functions(self):
        text = "pub fn a(\n    x: u8,\n) -> u8\n    ensures {\n        record {\n        }\n    }\n{\n    x\n}\n\nfn b() {\n    if c {\n    }\n}\n"
        self.assertEqual(list(functions(text)), [("a", 10, 3), ("b", 4, 4)])


class Text(unittest.TestCase):
    def nowhere(self, search, words):
        found = [(path.relative_to(ROOT), *place) for path in sources() for place in search(path.read_text())]
        if found:
            self.fail("\n" + "\n".join(words.format(*place) for place in found))

    def test_sources(self):
        self.assertGreater(len(sources()), 100)

    def test_no_long_line(self):
        self.nowhere(long_lines, "{}:{}: a line of {} bytes")

    def test_no_long_file(self):
        long = {str(path.relative_to(ROOT / "crates")) for path in sources() if is_long(path.read_text())}
        self.assertEqual(excused_files(), long)

    def test_no_long_chain(self):
        self.nowhere(long_chains(".before"), "{}:{}: a chain of {} times {}")
        self.nowhere(long_chains(".1"), "{}:{}: a chain of {} times {}")

    def test_no_counted_place(self):
        self.nowhere(counted_places, "{}:{}: a place named by a number, {}")

    def test_long_functions(self):
        self.assertEqual(excused("body"), long_functions(True))
        self.assertEqual(excused("whole"), long_functions(False))


if __name__ == "__main__":
    if sys.argv[1:] == ["--list"]:
        rows = [(*function, kind) for kind in ("body", "whole") for function in long_functions(kind == "body")]
        print("\n".join(" | ".join(row) for row in sorted(rows)))
    else:
        unittest.main()
