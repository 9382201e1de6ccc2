#!/usr/bin/env python3
"""Tests of run.py and edits.py, over a small repository and stand-ins for rt and its checker: python3 tests/mutants/test_run.py"""

import os
import pathlib
import shutil
import subprocess
import sys
import tempfile
import time
import unittest

import edits

HERE = pathlib.Path(__file__).resolve().parent
EDIT = "# what is wrong\ncrate: small\nrefused: a fact\nat: small/src/lib.rt\nfile: crates/small/src/lib.rt\nold: one\nnew: two\n"
CODE = "fn f() one\n"
END = "logic=not-proved\n"
REFUSED = "crates/small/src/lib.rt:1:1: error: `f`: no\n" + END
SECONDS = 60  # what a loaded machine may take for what takes none


class Small(unittest.TestCase):
    """A repository of four crates, one of them a program, and a kit with one library."""

    def setUp(self):
        folder = tempfile.TemporaryDirectory()
        self.addCleanup(folder.cleanup)
        self.root = pathlib.Path(folder.name)
        self.put("crates.txt", "base:\nsmall: base\nother:\nprints: small words\n")
        for name in ("base", "small", "other"):
            self.put(f"crates/{name}/src/lib.rt", CODE)
            self.put(f"crates/{name}/out/incremental/checked-1/{name}.oantt", "checked\n")
        self.put("crates/prints/src/main.rt", CODE)
        self.put("tests/mutants/an_edit.edit", EDIT)
        for name in ("run.py", "edits.py"):
            shutil.copy(HERE / name, self.root / "tests" / "mutants")

    def put(self, name, text):
        path = self.root / name
        path.parent.mkdir(parents=True, exist_ok=True)
        path.write_text(text)
        return path

    def stand_in(self, tool, proves="exit 0"):
        """The environment in which the checker is this shell text (None: in which there is none), and rt check the other."""
        if tool is not None:
            self.put("kit/bin/rt", f"#!/bin/sh\necho \"$(basename \"$PWD\") $*\" >> '{self.root}/asked'\n{proves}\n").chmod(0o755)
            self.put("kit/bin/rattle", "#!/bin/sh\n" + tool).chmod(0o755)
        return {**os.environ, "PATH": f"{self.root / 'kit/bin'}:/usr/bin:/bin" if tool is not None else str(self.root)}

    def run_with(self, tool, *words, seconds=SECONDS, **more):
        """What run.py ends with and prints; the copies are gone then."""
        tool = tool and f"echo \"$TMPDIR\" >> '{self.root}/rooms'\n{tool}"
        ran = subprocess.run(
            [sys.executable, self.root / "tests" / "mutants" / "run.py", *words],
            env={**self.stand_in(tool, **more), "MUTANT_SECONDS": str(seconds)}, capture_output=True, text=True,
        )
        self.gone()
        return ran.returncode, [line.rpartition(" (")[0] or line for line in ran.stdout.splitlines()]

    def gone(self):
        """No copy is left, nor what the checker puts there."""
        rooms = (self.root / "rooms").read_text().splitlines() if (self.root / "rooms").exists() else []
        for room in map(pathlib.Path, rooms):
            self.assertEqual((room.name, room.parent.parent.name[:8], room.parent.parent.exists()), ("lent", "mutants-", False))

    def says(self, text, status):
        """A stand-in that prints a text and ends with a status."""
        self.put("said", text)
        return f"cat '{self.root}/said'\nexit {status}\n"

    def failed(self, tool, why, **more):
        status, lines = self.run_with(tool, **more)
        self.assertEqual((status, lines[-1]), (1, "0 passed, 1 failed"))
        self.assertIn("mutant an_edit: FAILED, " + why, lines[0])

    def passed(self, tool, **more):
        status, lines = self.run_with(tool, **more)
        self.assertEqual((status, lines[-1]), (0, "1 passed, 0 failed"))
        return lines[0]

    def at(self, where):
        self.put("tests/mutants/an_edit.edit", EDIT.replace("at: small/src/lib.rt\n", where))


class Judged(Small):
    def test_refused(self):
        self.assertEqual(self.passed(self.says(REFUSED, 1)), "mutant an_edit: refused at small/src/lib.rt:1")

    def test_refused_below(self):
        self.at("at: base/specs/A.antt\n")
        self.assertEqual(self.passed(self.says(REFUSED.replace("small/src/lib.rt:1", "base/specs/A.antt:2"), 1)), "mutant an_edit: refused at base/specs/A.antt:2")

    def test_accepted(self):
        self.failed(self.says("logic=proved\n", 0), "accepted")

    def test_another_place(self):
        self.at("at: small/specs/A.antt\n")
        self.failed(self.says(REFUSED, 1), "refused at small/src/lib.rt:1, not at small/specs/A.antt")
        self.at("")
        self.passed(self.says(REFUSED, 1))
        self.failed(self.says(REFUSED.replace("small", "base"), 1), "refused at base/src/lib.rt:1, not at small")

    def test_fact(self):
        """The error is in the lines of the fact."""
        self.put("crates/small/specs/A.antt", "pub told : Told\ntold = record {\n  first = refl;\n  second =\n    refl;\n}\n")
        self.at("at: small/specs/A.antt\nfact: second\n")
        for line, passes in ((3, False), (4, True), (5, True), (6, False)):
            said = self.says(f"crates/small/specs/A.antt:{line}:9: error: `told`: no\n{END}", 1)
            self.assertEqual(self.run_with(said)[0], 0 if passes else 1)
        self.at("at: small/specs/A.antt\nfact: third\n")
        self.failed(said, "there is no fact third in small/specs/A.antt")

    def test_function(self):
        """Its own proof has an error, or a goal of it is open; the others of its crate are not checked."""
        self.at("at: small/proofs/high/f\n")
        look = "case \"$*\" in *' --only high::f') ;; *) exit 9 ;; esac\n"
        ended = "only=1 proved=0\n"
        self.passed(look + self.says(f"./crates/small/proofs/high/f/Answers.antt:1:1: error: `returns`: no\n{ended}", 1))
        goal = "note: crates/small/src/high.rt:3:1: it is not proved that what the function ensures holds\n"
        said = self.says(goal + "fn small::high::f: not proved\n" + ended, 1)
        self.assertEqual(self.passed(look + said), "mutant an_edit: refused at small/src/high.rt:3")
        other = "crates/small/proofs/low/g/Answers.antt:1:1: error: `returns`: no\n" + goal
        said = self.says(f"{other}fn small::high::f: not proved; it calls `g`, which is not proved\n{ended}", 1)
        self.failed(look + said, "refused at small/proofs/low/g/Answers.antt:1, not at small/proofs/high/f")

    def test_missing_names(self):
        """A proof that names what is gone refuses nothing by itself, nor does a text that cannot be read."""
        self.at("at: small/proofs/high/f\n")
        for said in ("`returns`: module `M` has no `goal` that can be named from here", "1 declaration that depends on `x` was not checked"):
            text = f"crates/small/proofs/high/f/Answers.antt:1:1: error: {said}\nonly=1 proved=0\n"
            self.failed(self.says(text, 1), "no verdict: only proofs that name what is gone")
        for place in ("small/src/lib.rt", "base/specs/A.antt"):
            for said in ("a projection is written tight", "`f`: `g` is not in scope"):
                self.failed(self.says(f"crates/{place}:7:1: error: {said}\n{REFUSED}", 1), f"no verdict: the edited text cannot be read at {place}:7")

    def test_crash(self):
        for code in (2, 3, 101, 134, 137, 139):
            with self.subTest(code):
                self.failed(self.says(REFUSED, code), f"no verdict: the check ended with exit {code}")

    def test_killed(self):
        self.failed("kill -9 $$\n", "no verdict: the check ended with exit -9")

    def test_no_rt(self):
        self.assertEqual(self.run_with(None)[0], 1)

    def test_not_at_the_prover(self):
        self.failed(self.says(REFUSED.replace(END, ""), 1), "no verdict: the edit did not reach the prover")

    def test_time(self):
        self.failed("sleep 600\n", "no verdict: the check took more than 1 s", seconds=1)


class Copied(Small):
    def test_the_edited_copy_is_checked(self):
        look = "case \"$*\" in *'--crate-name small crates/small/src/lib.rt '*) ;; *) exit 9 ;; esac\ngrep -q two crates/small/src/lib.rt || exit 9\n"
        self.passed(look + self.says(REFUSED, 1))
        self.assertEqual((self.root / "crates/small/src/lib.rt").read_text(), CODE)

    def test_what_does_not_change_is_lent(self):
        look = f"case \"$*\" in *'--extern base={self.root}/crates/base/out/rlib/base.rlib '*) ;; *) exit 9 ;; esac\n"
        look += "[ -f kept/checked-1/small.oantt ] && [ ! -e crates/base ] && [ ! -e kept/checked-1/base.oantt ] || exit 9\n"
        self.passed(look + self.says(REFUSED, 1))

    def test_what_the_checker_replaces_is_not_the_repositorys(self):
        self.passed("cd kept/checked-1 && echo new > x && mv x small.oantt || exit 9\n" + self.says(REFUSED, 1))
        self.assertEqual((self.root / "crates/small/out/incremental/checked-1/small.oantt").read_text(), "checked\n")

    def test_it_is_proved_before(self):
        """rt is asked for the crate first, once; what it does not prove refuses nothing."""
        self.put("tests/mutants/other.edit", EDIT)
        self.assertEqual(self.run_with(self.says(REFUSED, 1))[1][-1], "2 passed, 0 failed")
        self.assertEqual((self.root / "asked").read_text(), "small check\n")
        (self.root / "tests/mutants/other.edit").unlink()
        self.failed(self.says(REFUSED, 1), "no verdict: small is not proved without the edit", proves="exit 1")

    def test_what_is_below_is_checked_with_it(self):
        """The crate below is passed as source, with what was kept of both."""
        self.put("tests/mutants/an_edit.edit", EDIT.replace("file: crates/small", "file: crates/base"))
        look = "case \"$*\" in *'--lib base:core,std=crates/base/src/lib.rt'*) ;; *) exit 9 ;; esac\n"
        look += "cd kept/checked-1 && [ -f base.oantt ] && [ -f small.oantt ] && [ ! -f other.oantt ] || exit 9\n"
        self.passed(look + self.says(REFUSED, 1))

    def test_a_program_and_a_library_of_the_kit(self):
        text = EDIT.replace("crate: small", "crate: prints").replace("small/src/lib", "prints/src/main")
        self.put("tests/mutants/an_edit.edit", text)
        look = "case \"$*\" in *'prints crates/prints/src/main.rt '*'--extern words='*/kit/rlibs/words.rlib*) ;; *) exit 9 ;; esac\n"
        self.passed(look + self.says(REFUSED.replace("small/src/lib", "prints/src/main"), 1))

    def test_pairs(self):
        self.put("tests/mutants/an_edit.edit", EDIT + "file: crates/base/src/lib.rt\nold: one\nnew: three\nold: fn f() three\nnew:\n")
        look = "grep -q two crates/small/src/lib.rt && [ -z \"$(cat crates/base/src/lib.rt)\" ] || exit 9\n"
        self.passed(look + self.says(REFUSED, 1))

    def test_names_of_a_proof_follow(self):
        """What the prover calls by the text that is changed, in the proof of the edit's function alone."""
        for name in ("f", "g"):
            self.put(f"crates/small/proofs/high/{name}/Answers.antt", "use M.{then-one, else-one}\n")
        self.at("at: small/proofs/high/f\nnames: -one -two\n")
        look = "[ \"$(cat crates/small/proofs/high/f/Answers.antt)\" = 'use M.{then-two, else-two}' ] || exit 9\n"
        look += "grep -q then-one crates/small/proofs/high/g/Answers.antt || exit 9\n"
        self.passed(look + self.says("crates/small/proofs/high/f/Answers.antt:1:1: error: `returns`: no\nonly=1 proved=0\n", 1))

    def test_of_definitions_alone_what_is_needed(self):
        """Of a crate without functions no more is checked than the module that refuses, and what it needs of its crate."""
        for name, text in {"Lib": "-- all\npub mod A\npub mod B\npub mod C\n", "A": "", "B": "use Rattle.shown.specs.A.{a}\n", "C": ""}.items():
            self.put(f"crates/shown/specs/{name}.antt", text)
        self.put("crates/shown/src/lib.rt", "// one\n")
        self.put("crates.txt", "shown:\n")
        self.put("tests/mutants/an_edit.edit", EDIT.replace("at: small/src/lib.rt", "at: small/specs/B.antt").replace("small", "shown"))
        look = "cd crates/shown/specs && [ -f A.antt ] && [ ! -f C.antt ] && [ \"$(tr '\\n' . <Lib.antt)\" = '-- all.pub mod A.pub mod B.' ] || exit 9\n"
        said = self.says(f"crates/shown/specs/B.antt:1:1: error: `b`: no\n{END}", 1)
        self.passed(look + said)
        self.put("tests/mutants/an_edit.edit", EDIT.replace("at: small/src/lib.rt", "at: small/specs/D.antt").replace("small", "shown"))
        self.failed(said, "there is no module D in shown")

    def test_bad_edits(self):
        for old, new, why in (
            ("old: one", "old: three", "the old text does not stand once in crates/small/src/lib.rt"),
            ("file: crates/small/src/lib.rt", "file: crates/small/src/no.rt", "there is no file crates/small/src/no.rt"),
            ("new: two\n", "", "the edit has no line 'new: '"),
            ("old: one\n", "", "the edit has no line 'old: '"),
            ("file: crates/small/src/lib.rt\n", "", "the edit has no line 'file: '"),
            ("crate: small\n", "", "the edit has no line 'crate: '"),
            ("crate: small\n", "crate: tiny\n", "there is no crate tiny"),
        ):
            with self.subTest(why):
                self.put("tests/mutants/an_edit.edit", EDIT.replace(old, new))
                self.failed(self.says(REFUSED, 1), why)


class Kept(unittest.TestCase):
    def test_every_edit_fits(self):
        """Each text that an edit quotes stands once in its file, and the place that it names is there: told before an hour of proofs."""
        for edit in map(edits.Edit, edits.names()):
            with self.subTest(edit.name):
                texts = {}
                for file, old, new in edit.pairs:
                    text = texts.get(file) or (edits.ROOT / file).read_text(encoding="utf-8")
                    self.assertEqual(text.count(old), 1)
                    self.assertNotEqual(old, new)
                    texts[file] = text.replace(old, new)
                self.assertTrue(edit.crates() <= {edit.crate, *edits.below(edit.crate)})
                self.assertTrue(not edit.at or edit.function() or (edits.ROOT / "crates" / edit.at).is_file())
                self.assertTrue(not edit.fact or edit.lines(edits.ROOT))
                proof = "".join(path.read_text(encoding="utf-8") for path in (edits.ROOT / "crates" / (edit.at or edit.crate)).glob("*.antt"))
                self.assertTrue(not edit.names or edit.names.split()[0] in proof)

    def test_functions(self):
        """The function that an edit names is in the code of its crate."""
        for edit in map(edits.Edit, edits.names()):
            *_, last = (edit.at or "").split("/")
            if edit.function() and last[0] != "+":
                with self.subTest(edit.name):
                    code = "".join(path.read_text(encoding="utf-8") for path in (edits.ROOT / "crates" / edit.crate / "src").rglob("*.rt"))
                    self.assertRegex(code, rf"\bfn {last}\b")


def wait_for(test, what):
    deadline = time.monotonic() + SECONDS
    while not what():
        test.assertLess(time.monotonic(), deadline, "it did not come")
        time.sleep(0.01)


class Run(Small):
    def test_by_name(self):
        self.put("tests/mutants/other.edit", EDIT)
        status, lines = self.run_with(self.says(REFUSED, 1), "other", "no_such")
        self.assertEqual((status, lines[-1]), (1, "1 passed, 1 failed"))
        self.assertIn("mutant no_such: FAILED, there is no such edit", lines)

    def test_list(self):
        self.put("tests/mutants/other.edit", EDIT.replace("small", "base", 1))
        status, lines = self.run_with(None, "--list")
        self.assertEqual((status, lines), (0, ["base | other | what is wrong | a fact", "small | an_edit | what is wrong | a fact"]))

    def test_minutes(self):
        """Once the time is over none is begun, and how many are left is told."""
        for number in range(40):
            self.put(f"tests/mutants/more_{number}.edit", EDIT)
        status, lines = self.run_with(self.says(REFUSED, 1), "--minutes", "0")
        self.assertEqual(status, 0)
        self.assertRegex("\n".join(lines), r"the time is over: \d+ edits are not tried\n(.*\n)*\d+ passed, 0 failed$")
        self.assertEqual(self.run_with(self.says(REFUSED, 1), "--minutes", "9")[1][-1], "41 passed, 0 failed")

    def test_ended_from_outside(self):
        self.put("tests/mutants/other.edit", EDIT)
        env = self.stand_in(f"echo \"$TMPDIR\" >> '{self.root}/rooms'\necho $$ > '{self.root}/started.tmp' && mv '{self.root}/started.tmp' '{self.root}/started'\nexec sleep 600\n")
        run = subprocess.Popen([sys.executable, self.root / "tests" / "mutants" / "run.py"], env={**env, "RT_JOBS": "1"}, stdout=subprocess.DEVNULL)
        started = self.root / "started"
        wait_for(self, started.exists)
        run.terminate()
        self.assertEqual(run.wait(SECONDS), 1)
        self.gone()
        # what was ended may be there for a moment
        wait_for(self, lambda: not pathlib.Path(f"/proc/{started.read_text().strip()}").exists())


if __name__ == "__main__":
    unittest.main()
