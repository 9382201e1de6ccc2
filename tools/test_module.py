#!/usr/bin/env python3
"""Tests of module.py on a small module, and on the same with one thing more that must be refused: python3 tools/test_module.py"""

import pathlib
import sys
import tempfile
import unittest

sys.path.insert(0, str(pathlib.Path(__file__).resolve().parent))
import module
import shim

STRUCTS = """
typedef struct { size_t words, records, frames; } KeeperSizes;
typedef struct { uint32_t refusal, result; } KeeperAnswer;
typedef struct { uint32_t kind, first, second, third, fourth; } KeeperRequest;
typedef struct { uint32_t refusal; size_t start, count; } KeeperPart; /* typedef struct { double x; } No; */
"""
PROTOTYPE = "KeeperAnswer keeper_sum(KeeperRequest request, const uint8_t *sheet, size_t sheet_count, /* N */ size_t slot);"
HEADER = STRUCTS + PROTOTYPE
# the module of that one call, as rattle writes it
SOUND = r"""; ModuleID = 'module.bc'
source_filename = "rattle"
target datalayout = "e-m:e-p270:32:32-p271:32:32-p272:64:64-i64:64-i128:128-f80:128-n8:16:32:64-S128"
target triple = "x86_64-unknown-linux-gnu"

@"keeper::asm::TABLE" = internal unnamed_addr constant [4 x i8] c"asm\00", align 1

; Function Attrs: nounwind
define internal noundef { i32, i32 } @"keeper::volatile::keeper_sum"(ptr noundef %a0, ptr noundef %a1, i64 noundef %a2, i64 noundef %a3) #0 {
start:
  %r0 = alloca [8 x i8], align 4
  %r10 = alloca ptr, align 8
  store ptr %a1, ptr %r10, align 8
  %r11 = load ptr, ptr %r10, align 8
  %r1 = getelementptr i8, ptr %a0, i64 4
  %r2 = load i32, ptr %r1, align 4, !noundef !1
  %r3 = icmp ult i64 %a3, 7
  br i1 %r3, label %then.1, label %else.2

then.1:                                           ; preds = %start, inline asm
  %r4 = add nuw i32 %r2, 1
  store i32 %r4, ptr %r0, align 4
  call void @llvm.memmove.p0.p0.i64(ptr %r0, ptr %r0, i64 8, i1 false)
  %r5 = load { i32, i32 }, ptr %r0, align 4
  ret { i32, i32 } %r5

else.2:                                           ; preds = %start
  switch i32 %r2, label %then.1 [
    i32 0, label %then.1
    i32 -1, label %else.3
  ]

else.3:                                           ; preds = %else.2
  unreachable
}

; Function Attrs: nounwind
define i64 @keeper_sum(ptr noundef byval([20 x i8]) align 4 %a0, ptr noundef %a1, i64 noundef %a2, i64 noundef %a3) #0 {
start:
  %r0 = alloca [8 x i8], align 4
  %r1 = call { i32, i32 } @"keeper::volatile::keeper_sum"(ptr %a0, ptr %a1, i64 %a2, i64 %a3)
  %r2 = extractvalue { i32, i32 } %r1, 0
  %r3 = extractvalue { i32, i32 } %r1, 1
  store i32 %r2, ptr %r0, align 1
  %r4 = getelementptr i8, ptr %r0, i64 4
  store i32 %r3, ptr %r4, align 1
  %r5 = load i64, ptr %r0, align 4
  ret i64 %r5
}

; Function Attrs: nocallback nofree nounwind willreturn memory(argmem: readwrite)
declare void @llvm.memmove.p0.p0.i64(ptr writeonly captures(none), ptr readonly captures(none), i64, i1 immarg) #1

attributes #0 = { nounwind "probe-stack"="inline-asm" "stack-probe-size"="3072" "target-cpu"="x86-64" }
attributes #1 = { nocallback nofree nounwind willreturn memory(argmem: readwrite) }

!llvm.ident = !{!0}

!0 = !{!"rattle logic=0"}
!1 = !{}
"""
ADDED = "  %r4 = add nuw i32 %r2, 1\n"
# an enum's tag, stored as a number of 64 bits
TAGS = """  %r19 = load i8, ptr %a0, align 1
  %r20 = zext i8 %r19 to i64
  store i64 %r20, ptr %r0, align 1
  store i64 4, ptr %r0, align 1
"""
# lines that a module may not have: the line, in a function, and the reason
INSIDE = [
    ("%r9 = add <4 x i32> %r7, %r8", "a vector"),
    ("%r9 = load <vscale x 4 x i32>, ptr %a0", "a vector"),
    ('call void asm sideeffect "pause", ""()', "assembler"),
    ("%r9 = call i32 @llvm.x86.sse42.crc32.32.8(i32 %r2, i8 0)", "an intrinsic of one processor"),
    ("%r9 = call i64 @llvm.aarch64.get.fpcr()", "an intrinsic of one processor"),
    ("%r9 = inttoptr i64 4096 to ptr", "a pointer cast"),
    ("%r9 = load i32, ptr inttoptr (i64 4096 to ptr), align 4", "a pointer cast"),
    ("%r9 = ptrtoint ptr %a0 to i64", "a pointer cast"),
    ("%r9 = ptrtoaddr ptr %a0 to i64", "a pointer cast"),
    ("%r9 = ptrtoaddr ptr %a0 to i32", "a pointer cast"),
    ("%r9 = add i64 ptrtoaddr (ptr %a0 to i64), 1", "a pointer cast"),
    ("%r9 = load i32, ptr addrspace(257) null, align 4", "an address space"),
    ("store volatile i32 0, ptr %a0, align 4", "in order with a device"),
    ("%r9 = load atomic i32, ptr %a0 seq_cst, align 4", "in order with a device"),
    ("fence seq_cst", "in order with a device"),
    ("%r9 = uitofp i32 %r2 to double", "a number with a fraction"),
    ("%r9 = call x86_fastcallcc i32 @other(i32 0)", "a calling convention"),
    ("%r9 = call cc 77 i32 @other(i32 0)", "a calling convention"),
    ("%r9 = zext i64 %a3 to i128", "a type that is not looked at"),
    ("%r9 = add i24 1, 2", "a type that is not looked at"),
    ("%r9 = va_arg ptr %a0, i32", "an instruction that is not looked at"),
    ("%r9 = freeze i32 %r2", "an instruction that is not looked at"),
    ("%r9 = call i64 @llvm.readcyclecounter()", "an intrinsic that is not looked at"),
    ("%r9 = getelementptr ptr, ptr %a0, i64 1", "a place that is not counted in bytes"),
    ("%r9 = load { ptr, i32 }, ptr %a0, align 8", "a struct with another layout"),
    ("%r9 = load { ptr, ptr }, ptr %a0, align 8", "a struct with another layout"),
    ("store { i8, ptr } %r9, ptr %a0, align 8", "a struct with another layout"),
    ("%r9 = load { i8, ptr }, ptr %a0, align 8", "a struct with another layout"),
    ("call void @other(ptr byval({ i8, ptr }) align 8 %a0)", "a struct with another layout"),
    ("%r9 = extractvalue { i8, ptr } %r7, 0", "a struct with another layout"),
    ("%r9 = load <{ i8, ptr }>, ptr %a0, align 8", "a struct with another layout"),
    ("%r9 = load { i32, { i8, ptr } }, ptr %a0, align 8", "a struct with another layout"),
    ("%r9 = extractvalue { { i8, ptr }, i64 } %r7, 1", "a struct with another layout"),
    ("%r9 = extractvalue { i16, ptr } %r7, 1", "a struct with another layout"),
    ("store i64 %a3, ptr %r0, align 1", "more than a byte at any address"),
    ("store i64 256, ptr %r0, align 1", "more than a byte at any address"),
    ("store i32 3, ptr %r0, align 1", "more than a byte at any address"),
    ("store i64 4, ptr %r0, align 1\n  %r9 = load i64, ptr %r0, align 4", "more than a byte at any address"),
    ("%r9 = load i64, ptr %a0, align 1", "more than a byte at any address"),
    ("%r9 = load { i8, i64 }, ptr %a0, align 1, !noundef !1", "more than a byte at any address"),
    ("%r9 = alloca [2 x ptr], align 8", "a place that is not counted in bytes"),
    ("%r9 = alloca ptr, align 8\n  call void @llvm.memmove.p0.p0.i64(ptr %a0, ptr %r9, i64 8, i1 false)", "a pointer's place that is used as bytes"),
    ("%r9 = alloca ptr, align 8\n  %r10 = load i64, ptr %r9, align 8", "a pointer's place that is used as bytes"),
]
# .. and outside of functions
OUTSIDE = [
    ('module asm ".globl x"', "assembler"),
    ("@counter = internal global i32 0, align 4", "memory of its own"),
    ("@shared = external constant i32", "memory of its own"),
    ("@pair = internal constant { i8, ptr } zeroinitializer, align 8", "a struct with another layout"),
    ("@place = internal unnamed_addr constant i64 ptrtoaddr (ptr @shared to i64)", "a pointer cast"),
    ("@seen = internal thread_local global i32 0", "memory of its own"),
    ('@other = alias void (), ptr @"keeper::volatile::keeper_sum"', "memory of its own"),
    ("declare i32 @getpid()", "a function that others must have"),
    ("declare i64 @llvm.readcyclecounter()", "a function that others must have"),
    ('attributes #2 = { nounwind "target-features"="+avx2" }', "an attribute that is not looked at"),
    ("attributes #2 = { naked }", "an attribute that is not looked at"),
    ("%struct = type { i32, i64 }", "a line that is not looked at"),
    ("!llvm.module.flags = !{!0}", "a line that is not looked at"),
]


class Case(unittest.TestCase):
    def refused(self, reason, work, *words):
        with self.assertRaises(shim.Refused) as caught:
            work(*words)
        self.assertIn(reason, str(caught.exception))

    def folder(self):
        folder = tempfile.TemporaryDirectory()
        self.addCleanup(folder.cleanup)
        return pathlib.Path(folder.name)


class Modules(Case):
    def test_sound(self):
        """A sound module is taken; words of its names, texts and comments do not count."""
        self.assertIn(ADDED, SOUND)
        module.looked_at(SOUND)
        module.looked_at(SOUND.replace(ADDED, ADDED + TAGS))

    def test_inside(self):
        for line, reason in INSIDE:
            with self.subTest(line):
                self.refused(reason, module.looked_at, SOUND.replace(ADDED, ADDED + f"  {line}\n"))

    def test_outside(self):
        for line, reason in OUTSIDE:
            with self.subTest(line):
                self.refused(reason, module.looked_at, SOUND + line + "\n")

    def names(self, text, header=HEADER):
        return module.inner_names(text, shim.prototypes(header), shim.structs(header))

    def test_names(self):
        self.assertEqual(self.names(SOUND), {"keeper_sum": '"keeper::volatile::keeper_sum"'})

    def test_signatures(self):
        """What is exported, and what is behind it, must be what the header's prototype says."""
        exported = "@keeper_sum(ptr noundef byval([20 x i8]) align 4 %a0, ptr noundef %a1, i64 noundef %a2, i64 noundef %a3)"
        inner = 'keeper_sum"(ptr noundef %a0, ptr noundef %a1, i64 noundef %a2, i64 noundef %a3)'
        call = '  %r1 = call { i32, i32 } @"keeper::volatile::keeper_sum"(ptr %a0, ptr %a1, i64 %a2, i64 %a3)\n'
        more = "define void @keeper_more() #0 {\nstart:\n  ret void\n}\n"
        for reason, old, new in (
            ("an exported signature that is not known", "byval([20 x i8])", "byval([24 x i8])"),
            ("an exported signature that is not known", "define i64 @keeper_sum", "define i32 @keeper_sum"),
            ("an exported signature that is not known", exported, exported.replace("i64 noundef %a3", "i32 noundef %a3")),
            ("the function behind it is not known", inner, inner.replace("i64 noundef %a3", "i32 noundef %a3")),
            ("the function behind it is not known", "internal noundef { i32, i32 } @", "internal i32 @"),
            ("the function behind it is not known", call, call + call),
            ("the module does not export it", "@keeper_sum(", "@keeper_some("),
            ("the header does not have it", "attributes #0", more + "attributes #0"),
        ):
            with self.subTest(f"{reason}: {new}"):
                self.assertEqual(SOUND.count(old), 1)
                self.refused(reason, self.names, SOUND.replace(old, new))

    def test_for_target(self):
        calls = (shim.prototypes(HEADER), shim.structs(HEADER))
        text = module.for_target(SOUND, *calls, "arm-x", "e-p:32:32-i64:64", False)
        self.assertIn('target triple = "arm-x"\n', text)
        self.assertIn('target datalayout = "e-p:32:32-i64:64"\n', text)
        self.assertIn("define hidden void @proved_keeper_sum(ptr noundef %result, ptr noundef %p0, ptr noundef %p1, i64 noundef %p2) #0 {", text)
        self.assertIn('%out = call { i32, i32 } @"keeper::volatile::keeper_sum"(ptr %p0, ptr %p1.0.safe, i64 %p1.1, i64 %p2)', text)
        self.assertIn("attributes #0 = { nounwind }", text)
        for gone in ("x86-64", "@keeper_sum", "byval"):
            self.assertNotIn(gone, text)
        self.assertIn("inline-asm", module.for_target(SOUND, *calls, "arm-x", "e-i64:64", True))
        high_first = module.for_target(SOUND.replace(ADDED, ADDED + TAGS), *calls, "z-x", "E-m:e-i64:64", True)
        self.assertIn("  %tag.0 = shl i64 %r20, 56\n  store i64 %tag.0, ptr %r0, align 1\n  %tag.1 = shl i64 4, 56\n  store i64 %tag.1, ptr %r0, align 1\n", high_first)
        self.refused("2 lines where one", module.for_target, SOUND + 'target triple = "other"\n', *calls, "arm-x", "e", False)


if __name__ == "__main__":
    unittest.main()
