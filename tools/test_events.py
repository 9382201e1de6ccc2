#!/usr/bin/env python3
"""Tests of events.py: python3 tools/test_events.py"""

import pathlib
import subprocess
import sys
import unittest

import events

ROOT = pathlib.Path(__file__).resolve().parent.parent
VECTORS = ROOT / "tests" / "vectors"
EXAMPLE = ROOT / "examples" / "two-mills.txt"
EXAMPLE_VECTOR = VECTORS / "40-two-mills.in"
TOOL = ROOT / "tools" / "events.py"
NAMES = ", ".join(name for name, _, _ in events.EVENTS)


def inputs():
    return sorted(VECTORS.glob("*.in"))


def has_bad_field(path):
    return "bad field at" in path.with_suffix(".out").read_text()


class RoundTrip(unittest.TestCase):
    def test_vectors(self):
        good = [path for path in inputs() if not has_bad_field(path)]
        self.assertGreater(len(good), 50)
        for path in good:
            with self.subTest(path.name):
                data = path.read_bytes()
                text = events.decode(data)
                self.assertEqual(events.encode(text), data)
                self.assertEqual(events.decode(events.encode(text)), text)

    def test_bad_fields_named_as_the_program_names_them(self):
        bad = [path for path in inputs() if has_bad_field(path)]
        self.assertTrue(bad)
        for path in bad:
            with self.subTest(path.name):
                last = path.with_suffix(".out").read_text().splitlines()[-1]
                with self.assertRaises(events.Bad) as caught:
                    events.decode(path.read_bytes())
                self.assertEqual(str(caught.exception).split(":")[0], last)

    def test_every_event(self):
        for name, tag, values in events.EVENTS:
            line = events.line_of(name, [256**width - 1 for _, width in values])
            data = events.encode(line)
            self.assertEqual(data[0], tag)
            self.assertEqual(events.decode(data), line + "\n")

    def test_comments_and_blank_lines(self):
        text = "# a list\n\nlimit 0 2   # two pages\n   \n  claim\n"
        self.assertEqual(events.decode(events.encode(text)), "limit 0 2\nclaim\n")

    def test_leading_zeros(self):
        self.assertEqual(events.encode("limit 000 " + "0" * 5000 + "2"), events.encode("limit 0 2"))

    def test_bytes(self):
        self.assertEqual(events.encode("write 0 1 0 7").hex(), "07000a0000000100000000" + "0007")


class Refusals(unittest.TestCase):
    CASES = [
        ("claim\nclaims", f"line 2: unknown event: claims; did you mean claim? The events: {NAMES}"),
        ("xyzzy", f"line 1: unknown event: xyzzy. The events: {NAMES}"),
        ("Map_Done 0 1", f"line 1: unknown event: Map_Done; did you mean map-done? The events: {NAMES}"),
        ("\n\nfault 0", "line 3: 1 values, the event is: fault slot page"),
        ("claim 0", "line 1: 1 values, the event is: claim"),
        ("fault 0 x", "line 1: page is not a number: x"),
        ("fault 0 -1", "line 1: page is not a number: -1"),
        ("fault 65536 0", "line 1: slot is above 65535: 65536"),
        ("create 0 0 4294967296", "line 1: number is above 4294967295: 4294967296"),
        ("fault 0 ²", "line 1: page is not a number: ²"),
        ("fault 0 " + "9" * 5000, "line 1: page is above 65535: " + "9" * 5000),
    ]

    def test_bad_lines(self):
        for text, message in self.CASES:
            with self.subTest(text):
                with self.assertRaises(events.Bad) as caught:
                    events.encode(text)
                self.assertEqual(str(caught.exception), message)

    def test_exit_status(self):
        run = lambda *words, given=b"": subprocess.run(
            [sys.executable, TOOL, *words], input=given, capture_output=True
        )
        bad = run("encode", given=b"claim\nclaims\n")
        self.assertEqual((bad.returncode, bad.stdout), (1, b""))
        self.assertIn(b"standard input: line 2: unknown event: claims", bad.stderr)
        self.assertIn(b"README.md: line 3: unknown event: A. The events: create, ", run("encode", ROOT / "README.md").stderr)
        self.assertEqual(run("decode", given=b"\x00").returncode, 1)
        self.assertEqual(run("show", "nothing", "nothing").returncode, 1)
        self.assertEqual(run("guess").returncode, 1)
        self.assertEqual((run().returncode, run().stdout), (1, b""))
        for word in ("--help", "-h"):
            helped = run(word)
            self.assertEqual((helped.returncode, helped.stderr), (0, b""))
            self.assertIn(b"  map-done SLOT GOOD\n", helped.stdout)
        self.assertEqual(run("encode", EXAMPLE).stdout, EXAMPLE_VECTOR.read_bytes())
        self.assertEqual(run("decode", EXAMPLE_VECTOR).stdout, run("decode", given=EXAMPLE_VECTOR.read_bytes()).stdout)
        self.assertEqual(run("encode", given=b"claim").stdout, b"\x08\x00\x00")


class Show(unittest.TestCase):
    OUTPUT = events.HEADER + "\n1 0F 0 0\n2 08 21 0\n"

    def test_beside(self):
        shown = events.show("limit 0 2  # two pages\n\n# nothing in a frame\nclaim", self.OUTPUT)
        rows = ["   1  limit 0 2  done  # two pages", "", "# nothing in a frame", "   2  claim      refused, 21: the removal list is empty"]
        self.assertEqual(shown.splitlines(), rows)

    def test_results(self):
        output = events.HEADER + "\n1 05 0 1\n2 06 0 77\n3 08 0 2\n4 08 0 1\n5 10 0 0\n"
        said = [line.split("  ")[-1].strip() for line in events.show("fault 0 0\nread 0 0 0\nclaim\nclaim\ncut", output).splitlines()]
        self.assertEqual(said, ["done, frame 1", "done, reads 77", "done, 2 looks", "done, 1 look", "done"])

    def test_every_refusal_in_words(self):
        self.assertLessEqual(set(range(23)), set(events.refusals()))
        self.assertEqual(events.refusals()[20], "no frame is free")

    def test_another_list(self):
        for text in ["limit 0 2", "limit 0 2\ncut", "limit 0 2\nclaim\nclaim"]:
            with self.assertRaises(events.Bad):
                events.show(text, self.OUTPUT)
        with self.assertRaises(events.Bad):
            events.show("", "")


class Example(unittest.TestCase):
    """The example is one of the vectors, so that every event program is run on it."""

    def test_example(self):
        text = EXAMPLE.read_text()
        self.assertEqual(events.encode(text), EXAMPLE_VECTOR.read_bytes())
        shown = events.show(text, EXAMPLE_VECTOR.with_suffix(".out").read_text())
        self.assertEqual(len(shown.splitlines()), len(text.splitlines()))
        self.assertIn("  12  fault 0 1       refused, 20: no frame is free", shown.splitlines())


if __name__ == "__main__":
    unittest.main()
