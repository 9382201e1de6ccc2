#!/usr/bin/env python3
"""Not proved, tested by tools/test_cross.py and tests/cross: the proved library as an archive for another processor.

    cross.py TARGET [CC..]   target/cross/TARGET/libkeeper.a; CC is the C compiler for the target, with its words
    cross.py --tried TARGET  whether it can be made here
    cross.py --same          only the control: for x86-64 the module gives the kit's own object, byte for byte
    cross.py --list          the targets

The module is the one that rattle compiles, kept by tools/prove.py --module keeper. It is read as text, looked at (tools/module.py) and
compiled for the target by the kit's own clang, with rattle's words. The exported functions are C (tools/shim.py), compiled by the target's compiler.
"""

import pathlib
import re
import shutil
import subprocess
import sys
from typing import NamedTuple

import elf
import kit
import module
from shim import Refused, prototypes, shim, structs

ROOT = pathlib.Path(__file__).resolve().parent.parent
WORK = ROOT / "target" / "cross"
LIBRARY = ROOT / "target" / "staticlib" / "libkeeper.a"
HEADER = ROOT / "include" / "keeper.h"
MAY_NEED = {"memcpy", "memmove", "memset"}
RISCV = ["-march=rv64gc", "-mabi=lp64d"]
# where registers have 32 bits: divisions of 64 bits in line, not by the compiler's own library
DIVIDES = ["-mllvm", "-expand-div-rem-bits=32"]


class Target(NamedTuple):
    """The triple and the words for the kit's clang; the C compilers, of which the first that is there is taken, and the words for it; whether
    the back end has stack probes in line; whether it is for a board without an operating system."""

    triple: str
    machine: list
    compilers: list
    words: list = []
    probes: bool = True
    bare: bool = False


# each was tried by tests/cross; a board without an operating system may have no unaligned access, so there none is made
TARGETS = {
    "x86_64-linux-gnu": Target("x86_64-unknown-linux-gnu", ["-march=x86-64"], ["x86_64-linux-gnu-gcc", "gcc"]),
    "aarch64-linux-gnu": Target("aarch64-unknown-linux-gnu", [], ["aarch64-linux-gnu-gcc"]),
    "riscv64-linux-gnu": Target("riscv64-unknown-linux-gnu", RISCV, ["riscv64-linux-gnu-gcc"]),
    "arm-linux-gnueabihf": Target("armv7-unknown-linux-gnueabihf", ["-march=armv7-a", "-mfloat-abi=hard", *DIVIDES], ["arm-linux-gnueabihf-gcc"], probes=False),
    "s390x-linux-gnu": Target("s390x-unknown-linux-gnu", [], ["s390x-linux-gnu-gcc"]),
    "aarch64-none-elf": Target(
        "aarch64-unknown-none-elf", ["-mstrict-align"], ["aarch64-none-elf-gcc", "aarch64-elf-gcc", "aarch64-linux-gnu-gcc"], ["-mstrict-align", "-fno-pic"], bare=True
    ),
    "riscv64-none-elf": Target(
        "riscv64-unknown-none-elf",
        [*RISCV, "-mcmodel=medany", "-mstrict-align"],
        ["riscv64-none-elf-gcc", "riscv64-unknown-elf-gcc", "riscv64-linux-gnu-gcc"],
        [*RISCV, "-mcmodel=medany", "-mstrict-align", "-fno-pic"],
        bare=True,
    ),
    "arm-none-eabi": Target(
        "thumbv7m-unknown-none-eabi",
        ["-march=armv7-m", "-mfloat-abi=soft", "-mno-unaligned-access", "-meabi", "gnu", *DIVIDES],
        ["arm-none-eabi-gcc"],
        ["-march=armv7-m", "-mthumb", "-mfloat-abi=soft", "-mno-unaligned-access"],
        probes=False,
        bare=True,
    ),
}
TARGETS["riscv64-unknown-elf"] = TARGETS["riscv64-none-elf"]


def tool(name):
    """A program of the kit's toolchain."""
    return kit.home() / "toolchain" / "bin" / name


def run(*words):
    """What a program prints; refused with what it says, if it fails."""
    ran = subprocess.run([str(word) for word in words], capture_output=True)
    if ran.returncode != 0:
        raise Refused(f"{pathlib.Path(words[0]).name} failed: {ran.stderr.decode(errors='replace').strip()[:600]}")
    return ran.stdout


def module_text():
    """The kept module as text, without any pass."""
    if not (WORK / "module.bc").exists():
        raise Refused("there is no target/cross/module.bc: make cross keeps it")
    return run(tool("clang"), "--no-default-config", "-x", "ir", "-S", "-emit-llvm", "-Xclang", "-disable-llvm-passes", WORK / "module.bc", "-o", "-").decode()


def rattles_words(target, source, out):
    """rattle's own words for its clang, with the target's, and these files, in place of its own."""
    words = (WORK / "words").read_text().splitlines()
    new = {"--target=x86_64-unknown-linux-gnu": ["--target=" + target.triple], "-march=x86-64": target.machine, "module.bc": [str(source)], "module.o": [str(out)]}
    new["-fPIC"] = ["-fno-pic" if target.bare else "-fPIC"]
    missing = [word for word in new if words.count(word) != 1]
    if missing:
        raise Refused(f"rattle's words for its clang are others than those looked at: {missing[0]} is not there once")
    return [more for word in words for more in new.get(word, [word])]


def compiled(target, text, folder):
    """A module's object for a target."""
    folder.mkdir(parents=True, exist_ok=True)
    (folder / "module.ll").write_text(text)
    run(tool("clang"), *rattles_words(target, folder / "module.ll", folder / "module.o"))
    return folder / "module.o"


def same(text):
    """The control: the module, unedited, gives the object of the kit's own archive."""
    made = compiled(TARGETS["x86_64-linux-gnu"], text, WORK / "same").read_bytes()
    if not LIBRARY.exists() or made != run(tool("llvm-ar"), "p", LIBRARY):
        raise Refused("the kept module does not give the object of target/staticlib/libkeeper.a: build both anew (rm -r target/cross, make cross)")
    return len(made)


def layout(target):
    """The data layout of the kit's clang for a target: 64-bit numbers must stand at multiples of 8, as in the module."""
    words = ["--no-default-config", "--target=" + target.triple, *target.machine, "-S", "-emit-llvm", "-x", "c", "/dev/null", "-o", "-"]
    found = re.search(r'^target datalayout = "(.*)"$', run(tool("clang"), *words).decode(), re.M)[1]
    if "i64:64" not in found.split("-"):
        raise Refused(f"{target.triple}: 64-bit numbers are not aligned at 8 bytes: {found}")
    return found


def c_compiler(name, given):
    """The C compiler for a target, and its words; refused, if the target was not tried or has no compiler here."""
    if name not in TARGETS:
        raise Refused(f"not tried for {name or 'no target'}; TARGET is one of: {' '.join(TARGETS)}")
    if given:
        return given
    found = next((compiler for compiler in TARGETS[name].compilers if shutil.which(compiler)), None)
    if not found:
        raise Refused(f"{name}: no C compiler on the path, of {' '.join(TARGETS[name].compilers)}")
    return [found]


def checked(objects):
    """What the objects need of others and how large they are; refused, if they need or have anything else."""
    files = [elf.read(path.read_bytes()) for path in objects]
    needed = set().union(*map(elf.undefined, files)) - set().union(*map(elf.defined, files))
    code, constants, written = (sum(sizes) for sizes in zip(*map(elf.bytes_of, files)))
    if needed - MAY_NEED:
        raise Refused(f"it needs more than memcpy, memmove and memset: {' '.join(sorted(needed - MAY_NEED))}")
    if written:
        raise Refused(f"it has {written} bytes of memory of its own")
    return sorted(needed), code, constants


def archive(name, given):
    """The archive for a target, and the line that says what it needs."""
    compiler = c_compiler(name, given)
    target, folder, header = TARGETS[name], WORK / name, HEADER.read_text()
    out = folder / "libkeeper.a"
    out.unlink(missing_ok=True)
    text = module_text()
    module.looked_at(text)
    same(text)
    keeper = compiled(target, module.for_target(text, prototypes(header), structs(header), target.triple, layout(target), target.probes), folder)
    (folder / "shim.c").write_text(shim(header))
    strict = ["-std=c11", "-O2", "-ffreestanding", "-ffunction-sections", "-Wall", "-Wextra", "-Werror", "-Wa,--noexecstack", *([] if target.bare else ["-fPIC"])]
    run(*compiler, *target.words, *strict, "-I", HEADER.parent, "-c", folder / "shim.c", "-o", folder / "shim.o")
    needed, code, constants = checked([keeper, folder / "shim.o"])
    run(tool("llvm-ar"), "--format=gnu", "rcsD", out, keeper, folder / "shim.o")
    return f"{out.relative_to(ROOT)}: needs {', '.join(needed)}; {code:,} bytes of code, {constants:,} of constants, no memory of its own ({compiler[0]})"


def main(words):
    if words in ([], ["--help"], ["-h"]):
        print(__doc__.strip())
        return 0 if words else 2
    try:
        if words == ["--list"]:
            print("\n".join(TARGETS))
        elif words[:1] == ["--tried"]:
            c_compiler("".join(words[1:2]), words[2:])
        elif words == ["--same"]:
            print(f"for x86-64 the kept module gives the kit's own object, byte for byte, {same(module_text()):,} bytes")
        else:
            print(archive(words[0], words[1:]))
    except (Refused, kit.Missing, OSError, ValueError) as said:
        print(f"cross: {said}", file=sys.stderr)
        return 1
    return 0


if __name__ == "__main__":
    sys.exit(main(sys.argv[1:]))
