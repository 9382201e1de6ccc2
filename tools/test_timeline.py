#!/usr/bin/env python3
"""Tests of timeline.py and timeline.c: python3 tools/test_timeline.py. The page is opened in headless Chromium where there is one, and its script
is run by node where there is one; where not, a line says so."""

import json
import os
import pathlib
import re
import shutil
import subprocess
import sys
import tempfile
import unittest

import events
import timeline

VECTORS = timeline.ROOT / "tests" / "vectors"
EXAMPLE = timeline.ROOT / "examples" / "two-mills.txt"
# more that is open at a time than in the example: two writes and two updates
BUSY = """limit 0 6
create 0 0 5
create 1 0 6
activate 0
activate 1
fault 0 0
write 0 0 0 4294967295
fault 1 2
write 1 2 1 8
claim
claim
page-done 0 1
page-done 1 1
update 0
update 1
fault 0 0
page-done 0 1
write 0 0 0 9
fault 1 0
write 1 0 0 10
claim
claim
"""
# every way that a turn goes
LINE = timeline.ROOT / "examples" / "line.txt"
# a document that is enough for the page's script
STAND_IN = """
const all = [];
function Element(kind) { this.kind = kind; this.children = []; this.hidden = false; this.checked = false; all.push(this); }
Element.prototype = {
  append(...more) { this.children.push(...more); }, replaceChildren(...more) { this.children = more; }, scrollIntoView() {},
  get firstElementChild() { return this.children[0]; }, get childElementCount() { return this.children.length; },
  click() { if (this.type === "checkbox") { this.checked = !this.checked; this.onchange(); } else this.onclick(); },
};
function find(id) { return all.find((element) => element.id === id); }
globalThis.document = { createElement: (kind) => new Element(kind), getElementById: find };
for (let n = 0; n < ROWS; n++) {
  for (const kind of ["cut-", "panel-", "row-"]) Object.assign(new Element(kind), { id: kind + n });
  find("panel-" + n).hidden = true;
  find("panel-" + n).append(new Element("td"));
}
function shown(element) { return (element.className === "reads" ? [element.textContent] : []).concat(...(element.children || []).filter((c) => c.kind).map(shown)); }
"""


def browser():
    return next(filter(None, map(shutil.which, ("chromium", "chromium-browser", "google-chrome"))), None)


def by_library(text, row, choice):
    """What the pages read after that cut: the library's own words, by design and page."""
    lines = timeline.ran(text, str(row), str(choice)).splitlines()
    return [re.match(r"(\d+) (\d+): (.*)", line).groups() for line in lines]


def by_page(shown):
    """The same out of what the page shows."""
    return [re.match(r"page (\d+)/(\d+) reads ([\d ]*\d)", line).groups() for line in shown]


class Data(unittest.TestCase):
    def test_answers(self):
        """The answers are those of the event program, on every vector."""
        count = 0
        for path in sorted(VECTORS.glob("*.in")):
            output = path.with_suffix(".out").read_text()
            if "bad field" in output or path.stat().st_size == 0:
                continue
            count += 1
            states = json.loads(timeline.ran(events.decode(path.read_bytes())))[1:]
            said = [f"{n} {state['kind']:02X} {state['refusal']} {state['result']}" for n, state in enumerate(states, 1)]
            self.assertEqual(said, output.splitlines()[1:], path.name)
        self.assertGreater(count, 50)

    def test_cuts(self):
        for text in (EXAMPLE.read_text(), BUSY):
            states = json.loads(timeline.ran(text))
            for row, state in enumerate(states):
                self.assertEqual(len(state["cuts"]), 2 ** len(state["open"]))
        row = len(states) - 1
        self.assertEqual(len(states[row]["open"]), 4)
        for choice in range(16):
            shown = [(str(r["number"]), str(r["page"]), " ".join(map(str, r["words"]))) for r in states[row]["cuts"][choice]]
            self.assertEqual(shown, by_library(BUSY, row, choice))
        first = [states[row]["cuts"][choice][0]["words"] for choice in (0, 1, 4, 5)]
        self.assertEqual(first, [[0, 0], [0, 0], [4294967295, 0], [9, 0]])  # unlisted; its write alone; its map alone; both


class Line(unittest.TestCase):
    def setUp(self):
        self.text = LINE.read_text()
        self.states = json.loads(timeline.ran(self.text))
        self.names = [name for name, _ in events.parse(self.text, events.ALL)]

    def test_answers(self):
        words = events.refusals()
        pairs = zip(self.names, self.states, self.states[1:])
        said = [timeline.said_of(name, before, after, words) for name, before, after in pairs if name == "turn"]
        self.assertEqual(said, [
            "done, nobody waits", "done, to the back of the line", "done, it gets a frame", "served", "sent away, 4: the slot is empty", "served", "served",
            "refused, 21: the removal list is empty", "done, a frame is claimed for it", "done, it gets a frame", "served",
        ])
        self.assertEqual(self.states[-1]["line"], [0] * 32)

    def test_shown(self):
        shown = re.findall(r">line: (.*?)</text>", timeline.page("line", self.text, self.states))
        self.assertEqual(shown[:4], ["7/0", "7/0 7/1", "7/0 7/1 empty/0", "7/1 empty/0 7/0"])
        self.assertNotIn("line:", timeline.picture(self.states[-1]))
        many = timeline.picture({**self.states[-1], "line": [1] * 32})
        self.assertIn("and 24 more", many)

    def test_not_in_the_event_program(self):
        with self.assertRaises(events.Bad):
            events.encode("turn\n")


class Shown(unittest.TestCase):
    def test_accounts(self):
        """Each row has the limit, the used count and the highest number as the library leaves them."""
        states = json.loads(timeline.ran(BUSY))
        shown = re.findall(r">account 0: used (\d+) of limit (\d+); highest number (\d+)<", timeline.page("busy", BUSY, states))
        self.assertEqual(shown, [(str(state["used"][0]), str(state["limits"][0]), str(state["highest"][0])) for state in states])
        self.assertEqual([shown[0][:2], shown[1][:2], shown[-1][:2]], [("0", "0"), ("0", "6"), ("3", "6")])
        self.assertGreater(int(shown[-1][2]), 0)
        more = timeline.picture({**states[-1], "used": [1, 2], "limits": [3, 4]})
        self.assertIn("account 0: used 1 of limit 3, account 1: used 2 of limit 4", more)

    def test_comments(self):
        """Comment lines that follow each other are one row; a blank line, or an event, ends it."""
        text = "# one\n# two\n\n# three\nlimit 0 1 # four\n# five\n# six\n"
        shown = re.findall(r'<tr class="comment"><td></td><td colspan="4">(.*?)</td>', timeline.page("said", text, json.loads(timeline.ran(text))))
        self.assertEqual(shown, ["one two", "three", "four", "five six"])


class Page(unittest.TestCase):
    @classmethod
    def setUpClass(cls):
        folder = tempfile.TemporaryDirectory()
        cls.addClassCleanup(folder.cleanup)
        cls.folder = pathlib.Path(folder.name)
        cls.list, cls.html = cls.folder / "busy.txt", cls.folder / "busy.html"
        cls.list.write_text(BUSY + "# <the end> & more\n")
        cls.made = subprocess.run([sys.executable, timeline.__file__, cls.list, cls.html], capture_output=True, text=True)
        cls.text = cls.html.read_text()

    def test_file(self):
        self.assertEqual((self.made.returncode, self.made.stderr), (0, ""))
        self.assertNotRegex(self.text, r"\b(?:src|href)=|url\(|@import|import\(|fetch\(")
        self.assertEqual(self.text.count(">cut here</button>"), len(events.parse(BUSY)) + 1)
        self.assertIn("&lt;the end&gt; &amp; more", self.text)
        self.assertIn("done, frame 0", self.text)

    def test_words(self):
        run = lambda *words: subprocess.run([sys.executable, timeline.__file__, *words], capture_output=True, text=True)
        self.assertEqual([run().returncode, run("--help").returncode, run("nothing.txt").returncode], [2, 0, 1])
        self.list.with_name("bad.txt").write_text("clam\n")
        self.assertIn("bad.txt: line 1: unknown event: clam; did you mean claim?", run(self.list.with_name("bad.txt")).stderr)

    def test_script(self):
        node = shutil.which("node")
        if not node:
            print("no node: the page's script was not run by itself")
            self.skipTest("no node")
        script = re.search(r"<script>(.*)</script>", self.text, re.S).group(1)
        for row, lands, choice in ((22, "", 0), (22, "0,2", 5), (22, "1,2,3", 14), (15, "0", 1), (3, "", 0)):
            program = f"const ROWS = {len(events.parse(BUSY)) + 1};{STAND_IN}globalThis.location = {{ hash: '#cut={row}&lands={lands}' }};{script}\n"
            program += f"if (find('panel-{row}').hidden) throw 'hidden';\nconsole.log(JSON.stringify(shown(find('panel-{row}'))));\n"
            ran = subprocess.run([node, "-"], input=program, capture_output=True, text=True)
            self.assertEqual(ran.stderr, "")
            self.assertEqual(by_page(json.loads(ran.stdout)), by_library(BUSY, row, choice))

    def test_in_chromium(self):
        chromium = browser()
        if not chromium:
            print("no Chromium: the page was not opened in a browser")
            self.skipTest("no Chromium")
        address = f"{self.html.as_uri()}#cut=22&lands=0,2"
        words = [chromium, "--headless", "--disable-gpu", f"--user-data-dir={self.folder / 'profile'}", "--virtual-time-budget=3000"]
        words += ["--no-sandbox"] if os.geteuid() == 0 else []
        dom = subprocess.run([*words, "--dump-dom", address], capture_output=True, text=True, timeout=120).stdout
        panel = re.search(r'<tr class="panel" id="panel-22">(.*?)</tr>', dom, re.S).group(1)
        shown = re.findall(r'<li class="reads">(.*?)</li>', panel)
        self.assertEqual(by_page(shown), by_library(BUSY, 22, 5))


if __name__ == "__main__":
    unittest.main()
