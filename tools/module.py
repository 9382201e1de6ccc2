"""The module that rattle hands to its clang, as text: looked at for anything that is bound to a processor, and set for another one.

What is not known here is refused, not only what is known to be bound: each instruction, type, intrinsic, attribute and function must be one of
those that mean the same on every processor. An enum's tag is stored as a number of 64 bits and read as its first byte: for_target sees to that where
the high byte is first. What else is stored with one width and read with another is not looked at; tests/cross tries a processor of that order. Not
proved, tested by tools/test_cross.py.
"""

import itertools
import re

from shim import Refused, between, signatures

INSTRUCTIONS = set("alloca load store getelementptr icmp select phi br switch ret call unreachable extractvalue insertvalue".split()) | set(
    "add sub mul udiv urem sdiv srem and or xor shl lshr ashr zext sext trunc".split()
)
TYPES = {"i1", "i8", "i16", "i32", "i64", "ptr", "void", "label"}
INTRINSICS = re.compile(r"llvm\.(memcpy|memmove|memset|ctpop|ctlz|cttz|trap)\b")
ATTRIBUTES = {'"probe-stack"="inline-asm"', '"stack-probe-size"="3072"', '"target-cpu"="x86-64"'} | set("alwaysinline cold nocallback nofree noreturn nosync nounwind speculatable willreturn".split())
# places are counted in bytes: then no pointer's width is in them
PLACES = re.compile(r"getelementptr (inbounds |nuw |nusw )*i8, |alloca (\[\d+ x i8\]|i\d+|ptr), ")
# where an enum's tag is stored
TAG = re.compile(r"^  store i64 (%[\w.]+|\d+), ptr (%[\w.]+), align 1$", re.M)
LINKAGES = re.compile(r"(internal|private) (unnamed_addr )?constant ")
# what has a name of its own; anything else that is not known is refused as such
BOUND = (
    (re.compile(r"<(vscale x )?\d+ x "), "a vector"),
    (re.compile(r"\basm\b"), "assembler"),
    (re.compile(r"@llvm\.(x86|aarch64|arm|riscv|s390|sse|avx)\b"), "an intrinsic of one processor"),
    (re.compile(r"\b(inttoptr|ptrtoint|ptrtoaddr)\b"), "a pointer cast from or to a number"),
    (re.compile(r"\baddrspace\("), "an address space"),
    (re.compile(r"\b(volatile|atomic\w*|fence|cmpxchg)\b"), "an access in order with a device or another processor"),
    (re.compile(r"\b(float|double|half|bfloat|fp128|x86_fp80|ppc_fp128)\b"), "a number with a fraction"),
    (re.compile(r"\b(x86_\w*cc|win64cc|fastcc|coldcc|preserve_\w+cc|cc ?\d+)\b"), "a calling convention of one compiler"),
)


def bare(line):
    """A line without quoted names, texts, comments and metadata, so that none of their words counts."""
    line = re.sub(r'"[^"]*"', "quoted", line)
    return re.sub(r"(, )?![\w.]+( ![\w.]+)?|\s*;.*$", "", line)


def refuse_bound(line):
    """Refuses what is known to be bound to a processor."""
    for pattern, what in BOUND:
        if pattern.search(line):
            raise Refused(f"bound to a processor: {what}: {line.strip()[:120]}")


def refuse_type(line):
    """Refuses a type of numbers, or of a value, that is not looked at."""
    kinds = set(re.findall(r"(?<![\w.%@-])(i\d+)\b", line)) | set(re.findall(r"\b(token|x86_amx|metadata|target\()", line))
    if kinds - TYPES:
        raise Refused(f"a type that is not looked at: {line.strip()[:120]}")
    for fields in (found.split(", ") for found in re.findall(r"<?\{ ([^{}]*) \}", line)):
        # a pointer's field has 4 bytes where pointers have 32 bits: what follows it stands at a multiple of 8 then, or is refused
        if "ptr" in fields and (set(fields) - {"ptr", "i64"} or ("ptr", "ptr") in zip(fields, fields[1:])):
            raise Refused(f"a struct with another layout where pointers have 4 bytes: {line.strip()[:120]}")


def refuse_instruction(line):
    """Refuses an instruction, or a call of an intrinsic, that is not looked at."""
    found = re.fullmatch(r"  (?:%[\w.]+ = )?(?:(?:tail|musttail|notail) )?(\w+)\b.*", line)
    if not found or found[1] not in INSTRUCTIONS:
        raise Refused(f"an instruction that is not looked at: {line.strip()[:120]}")
    if found[1] in ("getelementptr", "alloca") and not PLACES.search(line):
        raise Refused(f"a place that is not counted in bytes: {line.strip()[:120]}")
    called = re.search(r"@(llvm\.[\w.]+)", line)
    if called and not INTRINSICS.match(called[1]):
        raise Refused(f"an intrinsic that is not looked at: {called[1]}")


def refuse_global(line):
    """Refuses what stands outside of functions and is not looked at: memory of its own, functions of others, attributes."""
    if line.startswith("@") and not LINKAGES.match(line.partition(" = ")[2]):
        raise Refused(f"memory of its own, or a name for something else: {line[:120]}")
    declared = re.match(r"declare .*?@([\w.]+)\(", line)
    if line.startswith("declare") and not (declared and INTRINSICS.match(declared[1])):
        raise Refused(f"a function that others must have: {line[:120]}")
    if line.startswith("attributes"):
        unknown = [word for word in attributes(line) if word not in ATTRIBUTES and not word.startswith("memory(")]
        if unknown:
            raise Refused(f"an attribute that is not looked at: {unknown[0]}")
    if not re.match(r'@|declare |define |attributes |target (datalayout|triple) = |source_filename = |!llvm\.ident = |!\d+ = |\}?$', line):
        raise Refused(f"a line that is not looked at: {line[:120]}")


def attributes(line):
    """The words of a line of attributes."""
    return re.findall(r'"[^"]*"(?:="[^"]*")?|\w+(?:\([^)]*\))?', line.partition("{")[2].rpartition("}")[0])


def pointer_places(body):
    """The lines of a function that use a pointer's place as anything but one pointer: it has 4 bytes where pointers have 32 bits."""
    places = "|".join(re.findall(r"^  (%[\w.]+) = alloca ptr, ", body, re.M))
    used = [line for line in body.splitlines() if places and re.search(rf"({places})\b", line)]
    known = re.compile(rf"  ({places}) = alloca ptr, |  store ptr %[\w.]+, ptr ({places}), |  %[\w.]+ = load ptr, ptr ({places}), ")
    return [line for line in used if not known.match(line)]


def wide_bytes(body):
    """The lines of a function with more than a byte at any address, but a tag's store that no number is read from: where the high byte is first they
    would mean another number."""
    tags = set(re.findall(r"^  (%[\w.]+) = zext i8 %[\w.]+ to i64$", body, re.M)) | {str(tag) for tag in range(256)}
    numbers = set(re.findall(r"^  %[\w.]+ = load i(?:16|32|64), ptr (%[\w.]+),", body, re.M))
    wide = re.findall(r"^  (?:%[\w.]+ = )?(?:load|store) (?!i8\b|\{ i8, i8 \})[^\n]*, align 1\b[^\n]*$", body, re.M)
    return [line for line in wide if not (TAG.match(line) and TAG.match(line)[1] in tags and TAG.match(line)[2] not in numbers)]


def looked_at(text):
    """Refuses a module with anything that is bound to a processor, or that is not known not to be."""
    bodies = re.findall(r"^define [^\n]*\{\n.*?^\}$", text, re.S | re.M)
    other = [line for body in bodies for line in pointer_places(body)]
    if other:
        raise Refused(f"a pointer's place that is used as bytes: {other[0].strip()[:120]}")
    wide = [line for body in bodies if body.startswith("define internal ") for line in wide_bytes(body)]
    if wide:
        raise Refused(f"more than a byte at any address, and no tag: {wide[0].strip()[:120]}")
    for line in text.splitlines():
        words = bare(line)
        is_attribute = words.startswith("attributes ")
        if not is_attribute:
            refuse_bound(words)
            refuse_type(words)
        if re.match(r"  \S", words) and words != "  ]":
            refuse_instruction(words)
        elif not re.match(r"    i\d+ -?\w+, label |  \]|[\w.$-]+:", words):
            refuse_global(line if is_attribute or line.startswith("!") else words)


def exported(text):
    """The exported functions: each with its result, its parameters without names, and the function that it calls."""
    found = {}
    for head, body in re.findall(r"^define (?!internal\b)([^\n]*) \{\n(.*?)^\}$", text, re.S | re.M):
        parts = re.match(r'((?:[\w ()]+ )?)@("?[\w:]+"?)\((.*)\)', head)
        if not parts:
            raise Refused(f"an exported function that is not looked at: {head[:120]}")
        called = re.findall(r'call (?:void|\{[^{}]*\}|i\d+|ptr) @("[^"]+"|\w+)\(', re.sub(r".*@llvm\..*", "", body))
        parameters = [re.sub(r" %\w+$", "", word) for word in re.split(r", (?![^()]*\))", parts[3]) if word]
        found[parts[2]] = (parts[1].strip(), parameters, called)
    return found


def taken_by(text, name):
    """What an internal function gives back, and the types that it takes; None if it is not there."""
    found = re.search(rf"^define internal (?:noundef )?(.*?) @{re.escape(name)}\((.*)\) ", text, re.M)
    return found and (found[1], [word.split()[0] for word in found[2].split(", ") if word])


def inner_names(text, calls, known):
    """The function behind each call; refused are a call or an exported function without the other, and a signature that is not known."""
    out, there = {}, exported(text)
    for call in calls:
        inner, (result, parameters) = signatures(call, known)
        if call.name not in there:
            raise Refused(f"{call.name}: the header has it, the module does not export it")
        if there[call.name][:2] != (result, parameters):
            raise Refused(f"{call.name}: an exported signature that is not known: {there[call.name][0]} ({', '.join(there[call.name][1])[:160]})")
        called = there[call.name][2]
        if len(called) != 1 or taken_by(text, called[0]) != inner:
            raise Refused(f"{call.name}: the function behind it is not known: {', '.join(called)}")
        out[call.name] = called[0]
    more = sorted(set(there) - set(out))
    if more:
        raise Refused(f"{more[0]}: the module exports it, the header does not have it")
    return out


def once(pattern, new, text):
    """A text with the one line that a pattern finds replaced."""
    out, count = re.subn(pattern, lambda _: new, text, flags=re.M)
    if count != 1:
        raise Refused(f"{count} lines where one was looked for: {pattern}")
    return out


def tags_first(text):
    """The module for a processor that has the high byte first: a tag, which is read as the first byte, is put there."""
    numbers = itertools.count()

    def put(tag):
        high = f"%tag.{next(numbers)}"
        return f"  {high} = shl i64 {tag[1]}, 56\n  store i64 {high}, ptr {tag[2]}, align 1"

    return TAG.sub(put, text)


def for_target(text, calls, known, triple, layout, probes):
    """The module for a target: its exported functions left out, one for C in the place of each, and what names x86-64 replaced."""
    inner = inner_names(text, calls, known)
    text = re.sub(r"^define (?!internal\b)[^\n]* \{\n.*?^\}\n", "", text, flags=re.S | re.M)
    if layout.startswith("E"):
        text = tags_first(text)
    first = text.index("define internal")
    attributes = re.search(r" (#\d+) \{$", text[first:], re.M)[1]
    text = text[:first] + "".join(between(call, inner[call.name], known, attributes) + "\n" for call in calls) + text[first:]
    text = once(r"^target datalayout = .*$", f'target datalayout = "{layout}"', text)
    text = once(r"^target triple = .*$", f'target triple = "{triple}"', text)
    text = text.replace(' "target-cpu"="x86-64"', "")
    return text if probes else text.replace(' "probe-stack"="inline-asm"', "").replace(' "stack-probe-size"="3072"', "")
