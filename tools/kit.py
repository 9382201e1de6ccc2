"""Where the kit is, what crates.txt says, and the commands that build a crate's static library. Not proved, tested by tools/test_prove.py."""

import contextlib
import functools
import pathlib
import shutil
import subprocess
import tempfile

ROOT = pathlib.Path(__file__).resolve().parent.parent
KEPT = ["--incremental", "out/incremental"]
# a static library runs on every x86-64, and not only from the second version on, as the kit has it where nothing is said
CPU = ["--cpu", "x86-64"]


class Missing(Exception):
    """There is no kit, or no crate of a name."""


@functools.cache
def home():
    """The kit's folder: that of the page that 'rt doc' names."""
    if not shutil.which("rt"):
        raise Missing("rt is not on the path")
    said = subprocess.run(["rt", "doc"], stdout=subprocess.PIPE, text=True, check=True).stdout
    return pathlib.Path(said.strip()).parent


def rows(text):
    """The crates of crates.txt in its order, each with the libraries that it names; a word after the name, as staticlib, is left out."""
    lines = (line.split("#", 1)[0].partition(":") for line in text.splitlines())
    return {head.split()[0]: rest.split() for head, colon, rest in lines if colon and head.split()}


def below(name, crates):
    """All that a crate depends on, of these crates."""
    out, left = [], list(crates.get(name, []))
    while left:
        crate = left.pop(0)
        if crate in crates and crate not in out:
            out.append(crate)
            left += crates[crate]
    return out


def library(name, crates):
    """The crate of a static library: its own, or NAME_c over the library NAME, whose functions it has for C."""
    found = f"{name}_c" if f"{name}_c" in crates else name
    if found not in crates:
        raise Missing(f"crates.txt names no crate {name}")
    return found


def archive(name):
    """Where the archive of a static library is kept, for C."""
    return ROOT / "target" / "staticlib" / f"lib{name}.a"


def left_by_ci(crate, crates, root=ROOT):
    """Whether the libraries below a crate are those that 'rt ci' left: it writes no stamp beside them, as 'rt lib' does."""
    folders = [root / "crates" / name / "out" / "rlib" for name in below(crate, crates)]
    names = below(crate, crates)
    return all((folder / f"{name}.rlib" / "format").is_file() and not (folder / "stamp").exists() for name, folder in zip(names, folders))


def words(crate, crates, toolchain, out):
    """rattle's words to prove and build a static library over the libraries in the out/ folders of the crates below."""
    kit = home()
    uses = [word for dep in crates[crate] if dep in crates for word in ("--extern", f"{dep}=../{dep}/out/rlib/{dep}.rlib")]
    uses += [word for dep in ["std", *(dep for dep in crates[crate] if dep not in crates)] for word in ("--extern", f"{dep}={kit}/rlibs/{dep}.rlib")]
    uses += [word for dep in below(crate, crates) for word in ("-L", f"dependency=../{dep}/out/rlib")]
    logic = ["--antt-project", f"{kit}/rattle/logic/antt-project.json", "--logic-built", f"{kit}/logic_built"]
    made = ["--crate-type", "staticlib", *CPU, "--backend", "llvm", "--toolchain", str(toolchain), "-o", str(out)]
    return [str(kit / "bin" / "rattle"), "build", "--crate-name", crate, "src/lib.rt", *uses, "-L", f"dependency={kit}/rlibs", *logic, *made]


@contextlib.contextmanager
def keeping(folder):
    """A toolchain, as links to the kit's, whose clang keeps what it is handed: folder/module.bc, and its words, one a line, in folder/words.
    It stands outside the repository, where rt wants no links. (rattle clears the environment for clang, so the script has the folder's name.)"""
    kit = home() / "toolchain"
    with tempfile.TemporaryDirectory() as room:
        (pathlib.Path(room) / "bin").mkdir()
        for path in [*kit.iterdir(), *(kit / "bin").iterdir()]:
            if path not in (kit / "bin", kit / "bin" / "clang"):
                (pathlib.Path(room) / path.relative_to(kit)).symlink_to(path)
        clang = pathlib.Path(room) / "bin" / "clang"
        kept = f"cp \"$word\" '{folder}/module.bc' && printf '%s\\n' \"$@\" | sed 's|^--sysroot=.*|--sysroot={kit}|' >'{folder}/words'"
        clang.write_text(f"#!/bin/sh\nfor word; do case $word in *.bc) {kept} ;; esac; done\nexec '{kit}/bin/clang' \"$@\"\n")
        clang.chmod(0o755)
        yield room
