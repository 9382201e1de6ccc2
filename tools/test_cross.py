#!/usr/bin/env python3
"""Tests of cross.py, shim.py and elf.py on small headers, objects and modules: python3 tools/test_cross.py. tests/cross tries the library itself."""

import os
import pathlib
import subprocess
import sys
import unittest
from unittest import mock

sys.path.insert(0, str(pathlib.Path(__file__).resolve().parent))
import cross
import elf
import shim
import test_module
from test_module import ADDED, HEADER, SOUND, STRUCTS


class Shims(test_module.Case):
    # stands in for the proved function: it must find every value where the module would look for it
    PROVED = r"""
#include <stdint.h>
#include <string.h>
void proved_keeper_sum(uint32_t *result, uint32_t *request, unsigned char *slice, uint64_t slot)
{
    const uint8_t *at; uint64_t count;
    memcpy(&at, slice, sizeof at);
    memcpy(&count, slice + 8, 8);
    result[0] = request[0] + request[4];
    result[1] = (uint32_t)(slot + count + at[0] + at[count - 1]);
}
void proved_keeper_part(unsigned char *result, uint64_t *sizes, uint32_t *answer)
{
    const uint32_t refusal = 7; const uint64_t sum = sizes[0] * 100 + sizes[1], count = answer[0] * 10 + answer[1];
    memcpy(result, &refusal, 4);
    memcpy(result + 8, &sum, 8);
    memcpy(result + 16, &count, 8);
}
"""
    MAIN = r"""
#include "keeper.h"
int main(void)
{
    const uint8_t sheet[3] = {40, 9, 2};
    KeeperAnswer a = keeper_sum((KeeperRequest){1, 0, 0, 0, 4}, sheet, 3, 1000), b = {5, 6};
    KeeperPart p = keeper_part((KeeperSizes){3, 4, 0}, &b);
    return !(a.refusal == 5 && a.result == 1045 && p.refusal == 7 && p.start == 304 && p.count == 56);
}
"""

    def built(self, folder, header):
        """The status of a program over the C file for a header, and functions that stand in for the proved ones."""
        tables = "#define KEEPER_DISK_TABLES(W, R, F, S, N, Q, B) uint32_t records[R];\n#define KEEPER_MEMORY_TABLES(W, R, F, S, N, Q, B)\n"
        sizes = "enum { KEEPER_MOST_WORDS = 1, KEEPER_MOST_RECORDS = 1, KEEPER_MOST_FRAMES = 1, KEEPER_MOST_SLOTS = 1, KEEPER_MOST_PAGES = 1, KEEPER_MOST_ACCOUNTS = 1 };\n"
        (folder / "keeper.h").write_text("#include <stddef.h>\n#include <stdint.h>\n" + tables + sizes + header)
        for name, text in (("shim.c", shim.shim(header)), ("proved.c", self.PROVED), ("main.c", self.MAIN)):
            (folder / name).write_text(text)
        words = ["gcc", "-std=c11", "-Wall", "-Wextra", "-Werror", "-fsanitize=address,undefined", "-fno-sanitize-recover=all", "-I", folder]
        subprocess.run([*words, *folder.glob("*.c"), "-o", folder / "program"], check=True)
        return subprocess.run([folder / "program"]).returncode

    def test_values_arrive(self):
        """Every value gets to the proved function and back: numbers, a slice of bytes, structs by value and by a pointer, a large result."""
        header = HEADER + "\nKeeperPart keeper_part(KeeperSizes sizes, KeeperAnswer *answer);\n"
        self.assertEqual(self.built(self.folder(), header), 0)

    def test_values_swapped(self):
        """.. and the test sees it if they do not."""
        header = HEADER + "\nKeeperPart keeper_part(KeeperSizes sizes, KeeperAnswer *answer);\n"
        with mock.patch.object(shim, "function", lambda call, known, old=shim.function: old(call, known).replace("sizes.words, sizes.records", "sizes.records, sizes.words")):
            self.assertEqual(self.built(self.folder(), header), 1)

    def test_new_calls(self):
        """A call with a byte buffer and a sheet needs nothing new."""
        header = STRUCTS + "KeeperAnswer keeper_print(KeeperSizes sizes, uint8_t *buffer, size_t buffer_count, const uint8_t *sheet, size_t sheet_count);"
        call, known = shim.prototypes(header)[0], shim.structs(header)
        inner, (result, exported) = shim.signatures(call, known)
        self.assertEqual((inner, result), (("{ i32, i32 }", ["ptr", "ptr", "i64", "ptr", "i64"]), "i64"))
        self.assertEqual(exported[1:], ["ptr noundef", "i64 noundef"] * 2)

    def test_refused(self):
        for prototype, reason in (
            ("uint32_t keeper_x(size_t slot);", "keeper_x: a result that is not looked at: uint32_t"),
            ("void keeper_x(size_t slot);", "a result that is not looked at: void"),
            ("KeeperAnswer keeper_x(double share);", "keeper_x: a parameter that is not looked at: double share"),
            ("KeeperAnswer keeper_x(KeeperSizes *sizes);", "a parameter that is not looked at: KeeperSizes * sizes"),
            ("KeeperAnswer keeper_x(uint32_t *one);", "a parameter that is not looked at: uint32_t * one"),
            ("KeeperAnswer keeper_x(const size_t *list, size_t list_count);", "a slice of size_t"),
            ("KeeperAnswer keeper_x(const KeeperPart *list, size_t list_count);", "a slice of KeeperPart"),
            ("KeeperAnswer keeper_x(void **list, size_t list_count);", "a slice of void *"),
            ("typedef struct { uint32_t a, b, c; } KeeperThree; KeeperAnswer keeper_y(size_t slot);\nKeeperAnswer keeper_x(KeeperThree three);", "a struct of 12 bytes by value"),
            ("typedef struct { const char *text; } KeeperText; KeeperAnswer keeper_x(size_t slot);", "KeeperText: a struct with a field"),
            ("", "the header has no call"),
        ):
            with self.subTest(prototype):
                self.refused(reason, shim.shim, STRUCTS + prototype)


class Widths(test_module.Case):
    """The header and the C file for it, as a C compiler for pointers of other widths sees them."""

    def said(self, text, width):
        words = ["gcc", "-std=c11", "-ffreestanding", "-fsyntax-only", "-Wall", "-Werror", width, "-I", cross.HEADER.parent, "-x", "c", "-"]
        return subprocess.run(words, input=text, capture_output=True, text=True).stderr

    def test_header(self):
        """The assertions hold where size_t has 8 bytes and where it has 4, but not for short pointers on x86-64, which the library is not for."""
        self.assertEqual([self.said('#include "keeper.h"', width) for width in ("-m64", "-m32")], ["", ""])
        self.assertIn("pointers of 64 bits", self.said('#include "keeper.h"', "-mx32"))

    def test_shim(self):
        """A processor that lays structs out in another way, as the old x86 does with numbers of 64 bits, is refused."""
        text = shim.shim(cross.HEADER.read_text())
        self.assertEqual(self.said(text, "-m64"), "")
        self.assertIn("the layout of ProvedKeeperPart", self.said(text, "-m32"))


class Objects(test_module.Case):
    def made(self, text, *words):
        out = self.folder() / "object.o"
        subprocess.run(["gcc", "-O1", "-ffreestanding", *words, "-c", "-x", "c", "-", "-o", out], input=text, text=True, check=True)
        return out

    def test_elf(self):
        read = elf.read(self.made("extern int other(int); int here(int x) { return other(x) + 1; }").read_bytes())
        self.assertEqual(elf.undefined(read) - {"_GLOBAL_OFFSET_TABLE_"}, {"other"})
        self.assertIn("here", elf.defined(read))
        self.assertGreater(elf.bytes_of(read)[0], 8)
        with self.assertRaises(ValueError):
            elf.read(b"no object")

    def test_checked(self):
        """memcpy alone may be needed, by one object of another too; anything else, or memory of its own, is refused."""
        copies = self.made("#include <stddef.h>\nvoid *memcpy(void *, const void *, size_t); int two(int); int one(int x) { char a[4]; memcpy(a, &x, 4); return two(a[x & 3]); }", "-fno-pic", "-fno-builtin")
        two = self.made("static const int table[4] = {3, 1, 4, 1}; int two(int x) { return table[x & 3]; }", "-fno-pic")
        needed, code, constants = cross.checked([copies, two])
        self.assertEqual(needed, ["memcpy"])
        self.assertGreater(code, 0)
        self.assertGreaterEqual(constants, 16)
        self.refused("needs more than memcpy, memmove and memset: two", cross.checked, [copies])
        counter = self.made("int counter = 7; int next(void) { return ++counter; }", "-fno-pic")
        self.refused("4 bytes of memory of its own", cross.checked, [counter])
        self.refused("8 bytes of memory of its own", cross.checked, [self.made("long counter; long next(void) { return ++counter; }", "-fno-pic")])


class Tool(test_module.Case):
    """cross.py over a small module: a folder with what tools/prove.py --module leaves, and the archive of that module."""

    WORDS = "--target=x86_64-unknown-linux-gnu\n-march=x86-64\n-Werror\n-c\n-x\nir\nmodule.bc\n-o\nmodule.o\n-fPIC\n-O3\n"

    def setUp(self):
        self.work = self.folder()
        (self.work / "words").write_text(self.WORDS)
        (self.work / "keeper.h").write_text(HEADER)
        for name, value in (("WORK", self.work), ("LIBRARY", self.work / "kit.a"), ("ROOT", self.work)):
            patch = mock.patch.object(cross, name, value)
            patch.start()
            self.addCleanup(patch.stop)

    def kept(self, text):
        """A module as it is kept, and the archive that was made of it."""
        (self.work / "kept.ll").write_text(text)
        made = cross.compiled(cross.TARGETS["x86_64-linux-gnu"], text, self.work / "kept")
        cross.run(cross.tool("llvm-ar"), "rcsD", cross.LIBRARY, made)
        cross.run(cross.tool("clang"), "--no-default-config", "-x", "ir", "-c", "-emit-llvm", "-Xclang", "-disable-llvm-passes", self.work / "kept.ll", "-o", self.work / "module.bc")

    def test_same(self):
        """The control holds for the module that the archive was made of, and for no other."""
        self.kept(SOUND)
        self.assertGreater(cross.same(cross.module_text()), 100)
        self.refused("does not give the object", cross.same, SOUND.replace("i32 %r2, 1", "i32 %r2, 2"))
        cross.LIBRARY.unlink()
        self.refused("does not give the object", cross.same, SOUND)

    def test_targets(self):
        self.refused("not tried for mips-linux-gnu; TARGET is one of: x86_64-linux-gnu aarch64-linux-gnu", cross.archive, "mips-linux-gnu", [])
        self.refused("not tried for no target", cross.archive, "", [])
        with mock.patch.dict(os.environ, {"PATH": str(self.work)}):
            self.refused("riscv64-linux-gnu: no C compiler on the path, of riscv64-linux-gnu-gcc", cross.archive, "riscv64-linux-gnu", [])
        self.refused("there is no target/cross/module.bc", cross.archive, "x86_64-linux-gnu", [])

    def test_archive_refuses(self):
        """A module that is bound to x86-64, and one that the archive was not made of, give no archive; an older one is gone."""
        out = self.work / "x86_64-linux-gnu" / "libkeeper.a"
        out.parent.mkdir()
        for text, reason in ((SOUND.replace(ADDED, ADDED + "  %r9 = inttoptr i64 4096 to ptr\n"), "a pointer cast"), (SOUND, "does not give the object")):
            self.kept(text)
            cross.LIBRARY.write_bytes(b"!<arch>\n")
            out.write_text("old")
            self.refused(reason, cross.archive, "x86_64-linux-gnu", [])
            self.assertFalse(out.exists())

    def test_words(self):
        """rattle's words stay, but for target, machine and files; words that are not the ones looked at are refused."""
        bare = cross.rattles_words(cross.TARGETS["aarch64-none-elf"], "in", "out")
        self.assertEqual(bare, "--target=aarch64-unknown-none-elf -mstrict-align -Werror -c -x ir in -o out -fno-pic -O3".split())
        for word in self.WORDS.split()[:2] + ["module.bc", "module.o", "-fPIC"]:
            (self.work / "words").write_text(self.WORDS.replace(word + "\n", ""))
            self.refused(f"{word} is not there once", cross.rattles_words, cross.TARGETS["aarch64-none-elf"], "in", "out")

    def test_layout(self):
        for name, target in cross.TARGETS.items():
            with self.subTest(name):
                self.assertIn("i64:64", cross.layout(target))
        self.refused("64-bit numbers are not aligned at 8", cross.layout, cross.Target("i686-unknown-linux-gnu", [], []))


if __name__ == "__main__":
    unittest.main()
