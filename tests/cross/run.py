#!/usr/bin/env python3
"""Not proved: the library for each processor beside x86-64's own, by emulation.

    run.py             every target whose C compiler and emulator are installed; a line says which are skipped (make cross-test)
    run.py TARGET..    these
    run.py --gate      x86-64 by the way of the other processors, and aarch64 if it can be tried here, with short lists

For each: the examples, tests/easy.c, tests/filedisk.c, the vectors, a digest of random calls and the stack that each call takes (docs/USING.md has the
most that it may be); then a disk file that all of them write in turn. Programs for x86-64 run with sanitizers.
"""

import functools
import pathlib
import re
import shutil
import subprocess
import sys
from typing import NamedTuple

ROOT = pathlib.Path(__file__).resolve().parent.parent.parent
sys.path.insert(0, str(ROOT / "tools"))

import cross  # noqa: E402

CALLS, SHORT = 960_000, 240_000
EXAMPLES = ("firmware", "scheduler", "studios")
FILEDISK = sorted(f"examples/{path.name}" for path in (ROOT / "examples").glob("filedisk*.c"))
SOURCES = {
    **{name: [f"examples/{name}.c"] for name in EXAMPLES},
    "easy": ["tests/easy.c"],
    "filedisk": ["tests/filedisk.c", *FILEDISK],
    "weaver": ["examples/weaver.c", *FILEDISK],
    "vectors": ["tests/cross/vectors.c"],
    "digest": ["tests/cross/digest.c"],
    "stack": ["tests/cross/stack.c"],
}
STRICT = "-std=c11 -O1 -Wall -Wextra -Werror -pedantic -Iinclude -Iexamples -Itests".split()
SANITIZED = ["-fsanitize=address,undefined", "-fno-sanitize-recover=all"]
KIT = "the kit's library"
MOST_SECONDS = 900


class Board(NamedTuple):
    """A C compiler for programs, what runs them, and the Debian packages that have both."""

    compiler: list
    runner: list
    packages: str = ""


AARCH64 = Board(["aarch64-linux-gnu-gcc", "-static"], ["qemu-aarch64"], "gcc-aarch64-linux-gnu libc6-dev-arm64-cross qemu-user")
RISCV64 = Board(["riscv64-linux-gnu-gcc", "-static"], ["qemu-riscv64"], "gcc-riscv64-linux-gnu libc6-dev-riscv64-cross qemu-user")
ARM = Board(["arm-linux-gnueabihf-gcc", "-static"], ["qemu-arm"], "gcc-arm-linux-gnueabihf libc6-dev-armhf-cross qemu-user")
# the archive for a board without an operating system is tried in a program under one
BOARDS = {
    KIT: Board(["gcc"], []),
    "x86_64-linux-gnu": Board(["gcc"], []),
    "aarch64-linux-gnu": AARCH64,
    "aarch64-none-elf": AARCH64,
    "riscv64-linux-gnu": RISCV64,
    "riscv64-none-elf": RISCV64,
    "arm-linux-gnueabihf": ARM,
    "arm-none-eabi": ARM._replace(packages="gcc-arm-none-eabi " + ARM.packages),
    "s390x-linux-gnu": Board(["s390x-linux-gnu-gcc", "-static"], ["qemu-s390x"], "gcc-s390x-linux-gnu libc6-dev-s390x-cross qemu-user"),
}
counts = {True: 0, False: 0}


def counted(what, holds, said=""):
    """A check, counted; what was said is shown if it fails."""
    counts[bool(holds)] += 1
    print(f"{what}: {'as wanted' if holds else 'FAILED'}{'' if holds else chr(10) + said[-1500:]}", flush=True)
    return bool(holds)


@functools.cache
def library(board):
    """A board's archive. One for Cortex-M says that it links with its like alone; without that note its code runs on Cortex-A too."""
    made = cross.LIBRARY if board == KIT else cross.WORK / board / "libkeeper.a"
    if board != "arm-none-eabi":
        return made
    subprocess.run(["arm-linux-gnueabihf-objcopy", "--remove-section", ".ARM.attributes", made, made.with_name("unmarked.a")], check=True)
    return made.with_name("unmarked.a")


@functools.cache
def built(board, name):
    """A program for a board. The one that measures the stack gets no sanitizers, and no loader that would use the stack at a first call."""
    folder = ROOT / "target" / "cross" / "tests" / ("kit" if board == KIT else board)
    folder.mkdir(parents=True, exist_ok=True)
    checks = ["-static"] if name == "stack" else [] if BOARDS[board].runner else SANITIZED
    words = [*BOARDS[board].compiler, *STRICT, *checks, *SOURCES[name], library(board), "-o", folder / name]
    subprocess.run([str(word) for word in words], cwd=ROOT, check=True)
    return folder / name


def ran(board, name, *words):
    """The status and the output of a program on a board."""
    command = [*BOARDS[board].runner, str(built(board, name)), *map(str, words)]
    done = subprocess.run(command, cwd=ROOT, stdin=subprocess.DEVNULL, stdout=subprocess.PIPE, stderr=subprocess.STDOUT, timeout=MOST_SECONDS)
    return done.returncode, done.stdout.decode(errors="replace")


def alike(board, name, *words):
    """A program on a board and on x86-64: both end well, with the same output."""
    wanted, found = ran(KIT, name, *words), ran(board, name, *words)
    last = wanted[1].strip().splitlines()[-1:]
    return counted(f"{board}: {name}, {' '.join(last)}", found == wanted and wanted[0] == 0, f"{found[0]}\n{found[1]}")


def examples(board):
    """Each example prints its .out file."""
    for name in EXAMPLES:
        found = ran(board, name)
        counted(f"{board}: examples/{name}.c", found == (0, (ROOT / "examples" / f"{name}.out").read_text()), found[1])


def vectors(board):
    """The event program on every vector."""
    program = [*BOARDS[board].runner, str(built(board, "vectors"))]
    inputs = sorted((ROOT / "tests" / "vectors").glob("*.in"))
    other = [path.stem for path in inputs if subprocess.run(program, input=path.read_bytes(), capture_output=True).stdout != path.with_suffix(".out").read_bytes()]
    counted(f"{board}: {len(inputs)} vectors", inputs and not other, "other output: " + " ".join(other))


def stack_table():
    """What docs/USING.md says of the stack: for each call and target the most bytes."""
    text = (ROOT / "docs" / "USING.md").read_text()
    table = text[text.index("| stack |") :].split("\n\n")[0]
    head, _, *rows = [[cell.strip(" `") for cell in line.strip("|").split("|")] for line in table.splitlines()]
    return {(row[0], target): int(cell.replace(",", "")) for row in rows for target, cell in zip(head[1:], row[1:]) if cell}


def stack(board):
    """The stack that each call takes is at most what docs/USING.md says."""
    status, said = ran(board, "stack")
    column = "x86-64" if board == KIT else board
    limits = {call: most for (call, target), most in stack_table().items() if target == column}
    found = {call: int(bytes_) for call, bytes_ in re.findall(r"^(keeper_\w+) (\d+)$", said, re.M)}
    over = [call for call in found if found[call] > limits.get(call, 0)]
    print(f"{board}: stack {', '.join(f'{call} {bytes_:,}' for call, bytes_ in found.items())}")
    return counted(f"{board}: stack", status == 0 and not over and (not limits or set(limits) == set(found)), f"more than docs/USING.md says: {' '.join(over)}\n{said}")


def control():
    """For x86-64 the kept module, unedited, gives the object of the kit's own archive."""
    try:
        counted(f"x86-64: the kit's own object, byte for byte, {cross.same(cross.module_text()):,} bytes", True)
    except cross.Refused as said:
        counted("x86-64: the kit's own object", False, str(said))


def tried(board, is_short):
    """Everything that one board's library is tried with."""
    try:
        print(cross.archive(board, []), flush=True)
    except cross.Refused as said:
        return counted(f"{board}: the archive", False, str(said))
    examples(board)
    alike(board, "easy")
    alike(board, "filedisk", f"target/cross/tests/{board}.disk")
    vectors(board)
    alike(board, "digest", SHORT if is_short else CALLS)
    if not is_short and any(target == board for _, target in stack_table()):
        stack(board)
    return True


def shown(pages):
    """What the weaver shows of pages that were woven: by slot and page, the first word of each."""
    lines = [f"design {101 + slot} page {page}: {' '.join(str(first + word) for word in range(4))}\n" for (slot, page), first in sorted(pages.items())]
    return 0, "".join(lines)


def in_turn(boards):
    """A disk file that all boards write in turn; after each, it and x86-64 must show the same. A file that is not so is put back."""
    pack, pages = ROOT / "target" / "cross" / "tests" / "pack", {}
    before = pack.with_suffix(".before")
    pack.unlink(missing_ok=True)
    for turn, board in enumerate([KIT, *boards, *reversed(boards)]):
        place, first = (turn % 2, turn % 6), 10 * turn + 5
        if pack.exists():
            shutil.copy(pack, before)
        woven = ran(board, "weaver", pack, "weave", *place, first)
        wanted = shown({**pages, place: first})
        found = [ran(reader, "weaver", pack, "show") for reader in (board, KIT)]
        if counted(f"{board}: turn {turn} of the disk file", woven == (0, "") and found == [wanted, wanted], f"{woven}\n{found}\nnot {wanted}"):
            pages[place] = first
        else:
            shutil.copy(before, pack)


def missing(board):
    """What is not installed for a board."""
    needs = [BOARDS[board].compiler[0], *BOARDS[board].runner[:1]]
    for_calls = cross.TARGETS[board].compilers
    return [need for need in needs if not shutil.which(need)] + ([] if any(map(shutil.which, for_calls)) else for_calls[:1])


def main(words):
    is_short = words == ["--gate"]
    wanted = ["x86_64-linux-gnu", "aarch64-linux-gnu"] if is_short else words or [board for board in BOARDS if board != KIT]
    unknown = [board for board in wanted if board not in BOARDS or board == KIT]
    if unknown:
        print(f"no board of that name: {' '.join(unknown)}\n{__doc__.strip()}")
        return 2
    here = [board for board in wanted if not missing(board)]
    control()
    for board in wanted:
        if board in here:
            tried(board, is_short)
        else:
            print(f"{board}: skipped, without {' and '.join(dict.fromkeys(missing(board)))} (Debian: {BOARDS[board].packages})")
    if not is_short:
        stack(KIT)
    in_turn(here)
    print(f"{counts[True]} passed, {counts[False]} failed")
    return counts[False] != 0


if __name__ == "__main__":
    sys.exit(main(sys.argv[1:]))
