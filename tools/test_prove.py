#!/usr/bin/env python3
"""Tests of prove.py and break.py, over a small repository and a stand-in for rt: python3 tools/test_prove.py"""

import os
import pathlib
import re
import shutil
import subprocess
import sys
import tempfile
import unittest

TOOLS = pathlib.Path(__file__).resolve().parent
ROOT = TOOLS.parent
CRATES = "# crates\nlow:\nhigh: low\nplay: low\nother:\nhigh_c staticlib: high io # for C\n"
GOOD = "crate low: modules loaded=7 checked=0\nfn high::f: proved\ncrate high: modules loaded=0 checked=3\nlogic=proved functions=1\n"
BAD = "crate low: modules loaded=0 checked=7\ncrates/high/specs/A.antt:7:1: error: `edges`: edge 9 fails\nlogic=not-proved\n"


class Tools(unittest.TestCase):
    def setUp(self):
        folder = tempfile.TemporaryDirectory()
        self.addCleanup(folder.cleanup)
        self.root = pathlib.Path(folder.name)
        self.put("crates.txt", CRATES)
        for name in ("low", "high", "other", "high_c"):
            self.put(f"crates/{name}/src/lib.rt", "")
        self.put("crates/play/src/main.rt", "")
        for name in ("prove.py", "break.py", "kit.py"):
            (self.root / "tools").mkdir(exist_ok=True)
            shutil.copy(TOOLS / name, self.root / "tools")

    def put(self, name, text):
        path = self.root / name
        path.parent.mkdir(parents=True, exist_ok=True)
        path.write_text(text)
        return path

    # the stand-ins: what they are asked for and where, and what they say; rattle and rt lib make the archive, and rattle hands clang a module
    RT = """#!/bin/sh
[ "$1" = doc ] && { echo '{root}/START-HERE.md'; exit; }
echo "${PWD##*/}: rt $*" >> '{root}/asked'
[ "$1" = lib ] && { mkdir -p out; echo made > "out/lib${PWD##*/}.a"; }
cat '{root}/said'
exit {status}
"""
    RATTLE = """#!/bin/sh
echo "${PWD##*/}: rattle $*" | sed 's|/tmp/[^ ]*|ROOM|' >> '{root}/asked'
for word; do case $last in --toolchain) tool=$word ;; -o) out=$word ;; esac; last=$word; done
echo module > /tmp/module-$$.bc
"$tool/bin/clang" --sysroot="$tool" /tmp/module-$$.bc > "$out"
rm /tmp/module-$$.bc
cat '{root}/said'
exit {status}
"""

    def run_tool(self, tool, said, status, *words):
        """What a tool prints where rt says a text and ends with a status."""
        self.put("said", said)
        for name, text in (("rt", self.RT), ("rattle", self.RATTLE)):
            self.put(f"bin/{name}", text.replace("{root}", str(self.root)).replace("{status}", str(status))).chmod(0o755)
        self.put("toolchain/bin/clang", "#!/bin/sh\necho archive\n").chmod(0o755)
        self.put("toolchain/lib/crt1.o", "")
        ran = subprocess.run(
            [sys.executable, self.root / "tools" / tool, *words],
            env={**os.environ, "PATH": f"{self.root / 'bin'}:/usr/bin:/bin"}, capture_output=True, text=True,
        )
        return ran.returncode, ran.stdout

    def asked(self):
        return (self.root / "asked").read_text().splitlines()


class Prove(Tools):
    def said(self, *words):
        """The lines that are shown, but the first, without the seconds."""
        status, said = self.run_tool("prove.py", GOOD, 0, *words)
        self.assertEqual(status, 0)
        return [re.sub(r", \d+ s$", "", line) for line in said.splitlines()[1:]]

    def test_progress(self):
        self.assertEqual(self.said("high"), ["checked low", "checked high", "proved high"])
        self.assertEqual(self.asked(), ["high: rt check"])
        self.assertEqual((self.root / "target" / "prove-high.log").read_text(), GOOD)

    def test_program(self):
        self.assertEqual(self.said("play")[-1], "built crates/play/out/play")
        self.assertEqual(self.asked(), ["play: rt run"])

    def test_library(self):
        """The archive of the crate itself, or of the crate that has its functions for C."""
        for name, crate in (("high", "high_c"), ("other", "other")):
            self.assertEqual(self.said("--lib", name)[-1], f"built target/staticlib/lib{name}.a")
            self.assertEqual(self.asked()[-1], f"{crate}: rt lib --cpu x86-64")
            self.assertEqual((self.root / f"target/staticlib/lib{name}.a").read_text(), "made\n")

    def test_module(self):
        """Once more by rattle itself, with a clang that keeps what it is handed; no link is left in the repository."""
        self.said("--module", "high")
        first, second = self.asked()
        self.assertEqual(first, "high_c: rt lib --cpu x86-64")
        self.assertIn("high_c: rattle build --crate-name high_c src/lib.rt --extern high=../high/out/rlib/high.rlib", second)
        self.assertIn(f"--extern io={self.root}/rlibs/io.rlib -L dependency=../high/out/rlib -L dependency=../low/out/rlib", second)
        self.assertEqual((self.root / "target/cross/module.bc").read_text(), "module\n")
        self.assertEqual((self.root / "target/cross/words").read_text().splitlines()[0], f"--sysroot={self.root}/toolchain")
        self.assertEqual((self.root / "target/staticlib/libhigh.a").read_text(), "archive\n")
        self.assertEqual([path for path in self.root.rglob("*") if path.is_symlink()], [])

    def test_gate(self):
        """Over what rt ci left, which has no stamp; else as ever."""
        for name in ("low", "high"):
            self.put(f"crates/{name}/out/rlib/{name}.rlib/format", "")
        self.said("--gate", "high", "other")
        self.assertEqual([line.split(" --")[0] for line in self.asked()], ["high_c: rattle build", "other: rattle build"])
        self.put("crates/low/out/rlib/stamp", "")
        self.said("--gate", "high")
        self.assertEqual(self.asked()[2], "high_c: rt lib --cpu x86-64")

    def test_not_proved(self):
        status, said = self.run_tool("prove.py", BAD, 1, "high")
        self.assertEqual(status, 1)
        self.assertIn("edge 9 fails", said)

    def test_words(self):
        self.assertEqual(self.run_tool("prove.py", GOOD, 0)[0], 2)
        self.assertEqual(self.run_tool("prove.py", GOOD, 0, "--help")[0], 0)
        self.assertEqual(self.run_tool("prove.py", GOOD, 0, "none")[0], 1)


class Break(Tools):
    EDIT = "# what is tried\nbreaks: No edge fails.\ncrate: high\nfile: crates/high/specs/A.antt\nold: one\nnew: two\n"

    def setUp(self):
        super().setUp()
        self.put("crates/high/specs/A.antt", "one\n")
        self.put("tests/mutants/freed_at_update.edit", self.EDIT)
        self.put("tests/mutants/silent.edit", self.EDIT.replace("breaks", "says"))
        for name in ("run.py", "edits.py"):
            shutil.copy(ROOT / "tests" / "mutants" / name, self.root / "tests" / "mutants")

    def run_tool(self, tool, said, status, *words):
        """Here the checker says it, and rt proves what it is asked for."""
        self.put("refused", said)
        self.RATTLE = f"#!/bin/sh\ngrep -q two crates/high/specs/A.antt || exit 9\ncat '{self.root}/refused'\nexit {status}\n"
        return super().run_tool(tool, GOOD, 0, *words)

    def test_refused(self):
        status, said = self.run_tool("break.py", BAD, 1)
        self.assertEqual(status, 0)
        for text in ("what is tried", "Refused, after", "s, at high/specs/A.antt:7. ", "edge 9 fails"):
            self.assertIn(text, said)
        self.assertEqual(said.count("No edge fails."), 2)
        self.assertEqual(self.asked(), ["high: rt check"])
        self.assertEqual(list((self.root / "target" / "mutants").glob("*")), [])
        self.assertEqual((self.root / "crates/high/specs/A.antt").read_text(), "one\n")

    def test_accepted(self):
        status, said = self.run_tool("break.py", GOOD, 0)
        self.assertEqual(status, 1)
        self.assertIn("NOT REFUSED", said)

    def test_no_verdict(self):
        self.assertEqual(self.run_tool("break.py", "killed\n", 9)[0], 1)

    def test_names(self):
        self.assertEqual(self.run_tool("break.py", BAD, 1, "silent")[0], 2)
        self.assertEqual(self.run_tool("break.py", BAD, 1, "--list"), (0, "freed_at_update: what is tried\n"))

    def test_sentences(self):
        """The sentence that an edit names stands in the specification."""
        sys.path.insert(0, str(TOOLS))
        breaks = __import__("break")
        text = breaks.plain((ROOT / "docs" / "SPEC.md").read_text())
        self.assertGreater(len(breaks.sentences()), 5)
        for name, edit in breaks.sentences().items():
            with self.subTest(name):
                self.assertIn(breaks.plain(edit.breaks), text)


if __name__ == "__main__":
    unittest.main()
