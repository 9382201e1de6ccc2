#!/usr/bin/env python3
"""Tests that the files, crates and functions that the documents name are there, and the statements that they quote: python3 tools/test_docs.py"""

import pathlib
import re
import sys
import unittest

ROOT = pathlib.Path(__file__).resolve().parent.parent
CRATES = ROOT / "crates"
NAMES = sorted(path.name for path in CRATES.iterdir())
FOLDERS = ("crates", "docs", "tools", "tests", "bench", "include", "examples")
# a part of a crate, named alone or after the crate
PARTS = ("src", "specs", "proofs", "must-fail")


def texts():
    """The documents: name and text."""
    return [(path.relative_to(ROOT), path.read_text()) for path in [ROOT / "README.md", *sorted((ROOT / "docs").glob("*.md"))]]


def quoted(text):
    """What stands between backticks."""
    return set(re.findall(r"`([^`\n]+)`", text))


def there(path):
    """Whether a path that a document names is there: from the root, from a crate, or in some crate."""
    path = re.sub(r"\.\.$", "", path.rstrip("/"))
    first = path.split("/")[0]
    if first in FOLDERS:
        places = [path, "tests/reference/" + path]
    elif first in NAMES:
        places = ["crates/" + path]
    else:
        places = ["crates/*/" + path, "tests/reference/" + path]
    return any(any(ROOT.glob(place)) for place in places)


def defined(crate, words):
    """Whether a function, constant or type of the source is there: module, then name, or a name alone."""
    *modules, name = words
    files = [CRATES / crate / "src" / (module + ".rt") for module in modules] or [*(CRATES / crate / "src").glob("*.rt")]
    known = rf"\b(?:fn|const|struct|enum|mod) {name}\b"
    return all(file.exists() for file in files) and any(re.search(known, file.read_text()) for file in files)


class Named(unittest.TestCase):
    def test_paths(self):
        pattern = re.compile(rf"(?:{'|'.join([*FOLDERS, *NAMES, *PARTS])})/[\w.*/-]+")
        count = 0
        for name, text in texts():
            for path in sorted(word for word in quoted(text) if pattern.fullmatch(word)):
                if path.startswith("target/") or "NAME" in path:
                    continue
                count += 1
                with self.subTest(f"{name}: {path}"):
                    self.assertTrue(there(path) or self.is_definition(path))
        self.assertGreater(count, 100)

    def is_definition(self, path):
        """A definition of the specification, as tables/Queue.members: tools/test_spec.py looks at these."""
        return re.fullmatch(rf"(?:{'|'.join(NAMES)})/[A-Z]\w*\.[\w-]+", path) is not None

    def test_source(self):
        for name, text in texts():
            for word in sorted(quoted(text)):
                first, *rest = word.split("::")
                if first in NAMES and rest and all(re.fullmatch(r"\w+", part) for part in rest):
                    with self.subTest(f"{name}: {word}"):
                        self.assertTrue(defined(first, rest))

    def test_crates(self):
        text = (ROOT / "README.md").read_text()
        table = text[text.index("| crate | what it is |") :].split("\n\n")[0]
        rows = [row.split("|")[1] for row in table.splitlines()[2:]]
        self.assertEqual(sorted(word for row in rows for word in re.findall(r"`(\w+)`", row)), NAMES)

    def test_statements(self):
        """What docs/PROOF.md quotes of a statement is its text in the crates, but for where lines end."""
        text = (ROOT / "docs" / "PROOF.md").read_text()
        quotes = re.findall(r"\n\n((?:    .+\n)+)", text)
        crates = "\n".join(" ".join(path.read_text().split()) for path in CRATES.rglob("*.antt"))
        self.assertGreaterEqual(len(quotes), 3)
        for quote in quotes:
            with self.subTest(quote.split()[0]):
                self.assertIn(" ".join(quote.split()), crates)

    def test_mutants(self):
        """Each wrong edit says what is wrong and by which fact it is refused; its crate, and the file or function where it must be, are there."""
        sys.path.insert(0, str(ROOT / "tests" / "mutants"))
        edits = __import__("edits")
        self.assertGreater(len(edits.names()), 150)
        for edit in map(edits.Edit, edits.names()):
            with self.subTest(edit.name):
                self.assertTrue(edit.what and edit.refused)
                self.assertIn(edit.crate, NAMES)
                self.assertTrue(not edit.at or (CRATES / edit.at).is_file() or self.is_function(edit))

    def is_function(self, edit):
        """Whether an edit's place is a function of the source, as NAME/proofs/module/function, or +function of those that call one another."""
        crate, *_, name = edit.at.replace("+", "").split("/")
        files = (CRATES / crate / "src").rglob("*.rt")
        return re.fullmatch(r"\w+", name) and any(re.search(rf"\bfn {name}\b", path.read_text()) for path in files)


if __name__ == "__main__":
    unittest.main()
