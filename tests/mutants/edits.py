"""The edits of tests/mutants: their lines, and the copy of the crates that each is made in.

An edit's first line, '# ..', says what is wrong. Then:

    crate: NAME     the crate whose check must refuse it
    refused: TEXT   the fact that refuses it
    at: PATH        where an error must be, from crates/ on: a file, or, as NAME/proofs/module/function, that function
    fact: NAME      of such a file, the fact in whose lines it must be
    names: OLD NEW  what the prover calls by the text that is changed: in that function's proof OLD becomes NEW
    breaks: TEXT    the sentence of docs/SPEC.md that it breaks
    file: PATH      holds for the pairs after it
    old: TEXT       stands in the file once
    new: TEXT       what stands there instead
"""

import os
import pathlib
import re
import shutil

HERE = pathlib.Path(__file__).resolve().parent
ROOT = HERE.parent.parent
ONCE = ("crate", "refused", "at", "fact", "names", "breaks")
PARTS = ("src", "specs", "proofs")


class Bad(Exception):
    """Why an edit was not judged."""


class Edit:
    def __init__(self, name):
        self.name, self.what, self.pairs = name, "", []
        self.crate = self.refused = self.at = self.fact = self.names = self.breaks = None
        try:
            lines = (HERE / f"{name}.edit").read_text(encoding="utf-8").splitlines()
        except OSError:
            raise Bad("there is no such edit") from None
        self.read(lines)
        if not self.crate:
            raise Bad("the edit has no line 'crate: '")
        if not (ROOT / "crates" / self.crate).is_dir():
            raise Bad(f"there is no crate {self.crate}")
        if not self.pairs:
            raise Bad("the edit has no line 'new: '")
        if self.names and not self.function():
            raise Bad("the edit has names and no function")

    def read(self, lines):
        file = old = None
        for line in lines:
            key, _, value = line.partition(":")
            value = value.removeprefix(" ")
            if line.startswith("# ") and not self.what:
                self.what = line[2:]
            elif key in ONCE:
                setattr(self, key, value)
            elif key == "file":
                file = value
            elif key == "old":
                old = value
            elif key == "new":
                if not file or not old:
                    raise Bad(f"the edit has no line '{'old' if file else 'file'}: '")
                self.pairs.append((file, old, value))
                old = None

    def function(self):
        """The path of the function that it is refused at, '' if it is none. Functions that call one another have one proof, '+NAME'."""
        parts = (self.at or "").split("/")
        known = parts[1:2] == ["proofs"] and "." not in parts[-1]
        return "::".join(part for part in parts[2:] if part[0] != "+") if known else ""

    def fits(self, file, line, lines):
        """Whether an error is where the edit says; `lines` are those of its fact."""
        if not self.at or self.function():
            return file.startswith((self.at or self.crate) + "/")
        return file == self.at and (lines is None or line in lines)

    def module(self):
        """The module of definitions that it is refused in, where its crate has definitions alone and no function; else ''."""
        crate = ROOT / "crates" / self.crate
        alone = not any(re.search(r"\bfn \w", path.read_text(encoding="utf-8")) for path in (crate / "src").rglob("*.rt"))
        return pathlib.PurePath(self.at).stem if alone and (self.at or "").startswith(f"{self.crate}/specs/") else ""

    def crates(self):
        """The crates that it changes."""
        return {pathlib.PurePath(file).parts[1] for file, _, _ in self.pairs}

    def lines(self, root):
        """The lines of its fact, in the copy: those of the name, and what is below and further in."""
        found, inside = set(), None
        for number, line in enumerate((root / "crates" / self.at).read_text(encoding="utf-8").split("\n"), 1):
            deep = len(line) - len(line.lstrip())
            if re.match(rf"\s*(pub )?{re.escape(self.fact)} [:=]", line):
                inside = deep
            elif inside is not None and line.strip() and deep <= inside and not line.startswith("unfolding "):
                inside = None
            if inside is not None:
                found.add(number)
        if not found:
            raise Bad(f"there is no fact {self.fact} in {self.at}")
        return found


def names():
    return sorted(path.stem for path in HERE.glob("*.edit"))


def dependencies():
    """What each crate of crates.txt depends on."""
    rows = (line.split("#")[0].partition(":") for line in (ROOT / "crates.txt").read_text().splitlines())
    return {name.split()[0]: words.split() for name, colon, words in rows if colon}


def below(crate):
    """The crates that a crate depends on, and those that these depend on."""
    found, needs = set(), dependencies()
    todo = set(needs[crate])
    while todo:
        name = todo.pop()
        found.add(name)
        todo |= set(needs.get(name, ())) - found
    return found


def between(edit):
    """The crates below the edit's own that it touches, so that they are checked with it."""
    return sorted(name for name in below(edit.crate) & set(dependencies()) if {name, *below(name)} & edit.crates())


def root_of(crate):
    """The root file of a crate."""
    main = crate / "src" / "main.rt"
    return main if main.is_file() else crate / "src" / "lib.rt"


def apply(edit, to):
    for file, old, new in edit.pairs:
        path = to / file
        try:
            text = path.read_text(encoding="utf-8")
        except OSError:
            raise Bad("there is no file " + file) from None
        if text.count(old) != 1:
            raise Bad("the old text does not stand once in " + file)
        path.write_text(text.replace(old, new), encoding="utf-8")
    if edit.names:
        old, new = edit.names.split()
        for path in (to / "crates" / edit.at).glob("*.antt"):
            path.write_text(path.read_text(encoding="utf-8").replace(old, new), encoding="utf-8")


def keep_needed(crate, module):
    """Leaves out of a crate of definitions alone the modules that one of them does not need."""
    found, todo = set(), {module}
    while todo:
        name = todo.pop()
        if not (crate / "specs" / f"{name}.antt").is_file():
            raise Bad(f"there is no module {name} in {crate.name}")
        found.add(name)
        text = (crate / "specs" / f"{name}.antt").read_text(encoding="utf-8")
        todo |= set(re.findall(rf"^use Rattle\.{crate.name}\.specs\.(\w+)", text, re.M)) - found
    lib = crate / "specs" / "Lib.antt"
    told = lib.read_text(encoding="utf-8").splitlines(keepends=True)
    lib.write_text("".join(line for line in told if not line.startswith("pub mod ") or line.split()[2] in found), encoding="utf-8")
    for path in (crate / "specs").glob("*.antt"):
        if path != lib and path.stem not in found:
            path.unlink()


def linked(one, other):
    """What was checked is linked: a check replaces such a file, and changes none."""
    if one.endswith(".oantt"):
        try:
            return os.link(one, other)
        except OSError:
            pass
    return shutil.copy2(one, other)


def make(edit, to):
    """A copy of the crates to check with the edit made, and what was kept of them as they were proved."""
    for crate in {edit.crate, *between(edit), *edit.crates()}:
        for part in PARTS:
            if (ROOT / "crates" / crate / part).is_dir():
                shutil.copytree(ROOT / "crates" / crate / part, to / "crates" / crate / part)
        kept = ROOT / "crates" / crate / "out" / "incremental"
        if kept.is_dir():
            shutil.copytree(kept, to / "kept", copy_function=linked, dirs_exist_ok=True)
    apply(edit, to)
    if edit.module():
        keep_needed(to / "crates" / edit.crate, edit.module())


def command(edit, to, kit):
    """What checks the copy: the checker as rt asks it, but with the crates below that the edit touches as source, so that no more of them
    is checked again than the edit's crate needs."""
    needs, sources = dependencies(), between(edit)
    used = dict.fromkeys(name for one in (edit.crate, *sources) for name in needs[one])
    words = [kit / "bin" / "rattle", "check", "--crate-name", edit.crate, root_of(to / "crates" / edit.crate).relative_to(to)]
    for name in dict.fromkeys(["std", *(["core"] if sources else []), *used]):
        built = ROOT / "crates" / name / "out" / "rlib" if name in needs else kit / "rlibs"
        if name in sources:
            uses = ",".join(["core", "std", *needs[name]])
            words += ["--lib", f"{name}:{uses}={root_of(to / 'crates' / name).relative_to(to)}"]
        else:
            words += ["--extern", f"{name}={built / name}.rlib"]
    for name in sorted(below(edit.crate) & set(needs) - set(sources)):
        words += ["-L", f"dependency={ROOT / 'crates' / name / 'out' / 'rlib'}"]
    words += ["-L", f"dependency={kit / 'rlibs'}", "--antt-project", kit / "rattle" / "logic" / "antt-project.json"]
    words += ["--logic-built", kit / "logic_built", "--jobs", "1", "--incremental", "kept"]
    return [*map(str, words), *(["--only", edit.function()] if edit.function() else [])]
