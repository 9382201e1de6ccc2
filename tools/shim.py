"""The C file through which C calls the proved functions on another processor, made from include/keeper.h alone. Not proved, tested by tests/cross.

The exported functions of the module know x86-64's convention for structs. The functions behind them know none: they take a slice as a place and
a count, a struct of 16 bytes or less by its fields and a larger one by a pointer, laid out as on x86-64. So the exported ones are left out. In
their place each has one in the module that takes structs and slices by a pointer, and this file has C functions of their names, whose
convention is the business of the target's own C compiler. A prototype with anything that is not looked at here is refused.
"""

import re
from typing import NamedTuple

# widths of numbers as the proved functions have them: usize has 8 bytes there, whatever size_t has in C
WIDTHS = {"uint8_t": 1, "uint16_t": 2, "uint32_t": 4, "uint64_t": 8, "size_t": 8}


class Refused(Exception):
    """The reason why something is not made for another processor."""


class Call(NamedTuple):
    """A prototype: the result's type, the name, and each parameter as type and name."""

    result: str
    name: str
    parameters: list


class Argument(NamedTuple):
    """What a parameter, or a pointer with its count, becomes: its types in the module and in the exported function there, the C type, a line that
    makes it, and its name in the call; and where its parts lie behind the pointer, if it is handed over by them."""

    inner: list
    exported: list
    kind: str
    line: str
    passed: str
    places: list = []


def structs(header):
    """The structs of a header: each with its fields, as type and name."""
    text = re.sub(r"/\*.*?\*/", "", header, flags=re.S)
    found = {}
    for body, name in re.findall(r"typedef struct \{(.*?)\} (\w+);", text, re.S):
        lines = re.findall(r"(\w+) ([\w, ]+);", body)
        found[name] = [(kind, field.strip()) for kind, fields in lines for field in fields.split(",")]
        unknown = [kind for kind, _ in found[name] if kind not in WIDTHS]
        if unknown or not found[name]:
            raise Refused(f"{name}: a struct with a field that is not looked at: {', '.join(unknown) or body.strip()}")
    return found


def layout(fields):
    """Each field's offset, and the size and the alignment of the whole, as the proved functions have them."""
    at, places, most = 0, [], 1
    for kind, name in fields:
        width = WIDTHS[kind]
        at, most = -(-at // width) * width, max(most, width)
        places.append((name, at))
        at += width
    return places, -(-at // most) * most, most


def prototypes(header):
    """The calls of a header."""
    text = re.sub(r"/\*.*?\*/", "", header, flags=re.S)
    calls = []
    for result, name, inside in re.findall(r"^(\w+[ \w*]*?)\b(keeper_\w+)\(([^()]*)\);", text, re.S | re.M):
        parts = [re.fullmatch(r"(.*?)(\w+)", " ".join(part.split())) for part in inside.split(",")]
        calls.append(Call(result.strip(), name, [(part[1].strip(), part[2]) for part in parts]))
    if not calls:
        raise Refused("the header has no call")
    return calls


def is_wide(fields):
    """Whether a struct has another layout where size_t has 4 bytes."""
    return any(kind == "size_t" for kind, _ in fields)


def proved(name, known):
    """The C type that has a struct's layout in the module."""
    return "Proved" + name if is_wide(known[name]) else name


def parts(name, known):
    """The fields of a struct that the proved functions hand over by its fields, as their types and places; nothing for a larger one."""
    places, size, _ = layout(known[name])
    return [(f"i{8 * WIDTHS[kind]}", at) for (kind, _), (_, at) in zip(known[name], places)] if size <= 16 else []


def by_convention(name, known):
    """How x86-64 hands a struct over by value."""
    _, size, align = layout(known[name])
    if size > 16:
        return f"ptr noundef byval([{size} x i8]) align {align}"
    if size == 8:
        return "i64"
    raise Refused(f"{name}: a struct of {size} bytes by value is not looked at")


def of_slice(kind, name, known):
    """A pointer to elements and their count."""
    element = kind.removeprefix("const ").removesuffix(" *")
    if element not in WIDTHS and element not in known or element == "size_t" or element in known and is_wide(known[element]):
        raise Refused(f"{name}: a slice of {element} is not looked at")
    line = f"const Slice {name}_slice = {{{name}, {name}_count}};"
    return Argument(["ptr", "i64"], ["ptr noundef", "i64 noundef"], "const Slice *", line, f"&{name}_slice", [0, 8])


def of_struct(kind, name, known):
    """A struct by value."""
    values = ", ".join(f"{name}.{field}" for _, field in known[kind])
    made = f"{proved(kind, known)} {name}_copy = {{{values}}};"
    kinds, places = zip(*(parts(kind, known) or [("ptr", None)]))
    return Argument(list(kinds), [by_convention(kind, known)], proved(kind, known) + " *", made, f"&{name}_copy", [at for at in places if at is not None])


def of_one(kind, name, known):
    """A parameter that stands alone: a number, a struct, or a pointer to a struct of one layout everywhere."""
    bits = 8 * WIDTHS.get(kind, 0)
    if bits:
        return Argument([f"i{bits}"], [f"i{bits} noundef"], "uint64_t" if kind == "size_t" else kind, "", name)
    if kind in known:
        return of_struct(kind, name, known)
    struct = kind.removeprefix("const ").removesuffix(" *")
    if kind.endswith(" *") and struct in known and not is_wide(known[struct]):
        return Argument(["ptr"], ["ptr noundef"], kind, "", name)
    raise Refused(f"a parameter that is not looked at: {kind} {name}")


def arguments(call, known):
    """What the parameters of a call become, a pointer and its count as one."""
    out, skip = [], False
    for number, (kind, name) in enumerate(call.parameters):
        counted = call.parameters[number + 1 : number + 2] == [("size_t", name + "_count")]
        if not skip:
            try:
                out.append((of_slice if counted and kind.endswith("*") else of_one)(kind, name, known))
            except Refused as said:
                raise Refused(f"{call.name}: {said}") from None
        skip = counted and kind.endswith("*") and not skip
    if call.result not in known:
        raise Refused(f"{call.name}: a result that is not looked at: {call.result}")
    return out


def signatures(call, known):
    """A call's two functions in the module, each as its result and its parameters: the inner one, and the exported one."""
    taken = arguments(call, known)
    inner = [kind for argument in taken for kind in argument.inner]
    fields = parts(call.result, known)
    behind = ("{ " + ", ".join(kind for kind, _ in fields) + " }", inner) if fields else ("void", ["ptr", *inner])
    exported = [kind for argument in taken for kind in argument.exported]
    by = by_convention(call.result, known)
    return behind, ("noundef ptr", ["ptr noundef", *exported]) if "byval" in by else (by, exported)


def handed(number, argument, lines):
    """An argument of the function in the module, as the inner one takes it; the lines read its parts, and give a table at null, which has no
    element, the place that the exported function gives it."""
    if not argument.places:
        return [f"{argument.inner[0]} %p{number}"]
    out = []
    for part, (kind, at) in enumerate(zip(argument.inner, argument.places)):
        name = f"%p{number}.{part}"
        lines += [f"{name}.at = getelementptr i8, ptr %p{number}, i64 {at}", f"{name} = load {kind}, ptr {name}.at, align {4 if kind == 'i32' else 8}"]
        if kind == "ptr":
            lines += [f"{name}.none = icmp eq ptr {name}, null", f"{name}.wide = zext i1 {name}.none to i64", f"{name}.far = mul i64 {name}.wide, 4096"]
            lines.append(f"{name}.safe = getelementptr i8, ptr {name}, i64 {name}.far")
            name += ".safe"
        out.append(f"{kind} {name}")
    return out


def between(call, behind, known, attributes):
    """The function of the module that this file's C function calls: structs, slices and the result by pointers, handed on as the inner one takes them."""
    (result, _), _ = signatures(call, known)
    taken, lines = arguments(call, known), []
    passed = [word for number, argument in enumerate(taken) for word in handed(number, argument, lines)]
    if result == "void":
        lines.append(f"call void @{behind}({', '.join(['ptr %result', *passed])})")
    else:
        lines.append(f"%out = call {result} @{behind}({', '.join(passed)})")
        for number, (kind, at) in enumerate(parts(call.result, known)):
            lines += [f"%out{number} = extractvalue {result} %out, {number}", f"%at{number} = getelementptr i8, ptr %result, i64 {at}"]
            lines.append(f"store {kind} %out{number}, ptr %at{number}, align 4")
    kinds = [f"{'ptr' if argument.places else argument.inner[0]} noundef %p{number}" for number, argument in enumerate(taken)]
    head = f"define hidden void @proved_{call.name}({', '.join(['ptr noundef %result', *kinds])}) {attributes} {{\nstart:\n"
    return head + "".join(f"  {line}\n" for line in [*lines, "ret void"]) + "}\n"


def mirror(name, fields):
    """A struct of size_t with the layout of the module."""
    lines = "".join(f"    {'uint64_t' if kind == 'size_t' else kind} {field};\n" for kind, field in fields)
    return f"/* {name} as the proved functions have it: sizes of 8 bytes. */\ntypedef struct {{\n{lines}}} Proved{name};\n"


def assertion(name, fields, known):
    """That the target's C compiler lays a struct out as the module does."""
    places, size, _ = layout(fields)
    kind = proved(name, known)
    holds = [f"sizeof({kind}) == {size}"] + [f"offsetof({kind}, {field}) == {at}" for field, at in places]
    return f'_Static_assert({" && ".join(holds)}, "the layout of {kind}");\n'


def function(call, known):
    """The C function of a call, and the declaration of the proved one behind it."""
    taken = arguments(call, known)
    result = proved(call.result, known)
    kinds = ", ".join([result + " *", *(argument.kind for argument in taken)])
    lines = [argument.line for argument in taken if argument.line]
    passed = ", ".join(["&result", *(argument.passed for argument in taken)])
    back = f"({call.result}){{{', '.join(f'({kind})result.{field}' for kind, field in known[call.result])}}}"
    body = [f"{result} result;", *lines, f"proved_{call.name}({passed});", f"return {back};"]
    head = ", ".join(f"{kind}{'' if kind.endswith('*') else ' '}{name}" for kind, name in call.parameters)
    return f"void proved_{call.name}({kinds});\n{call.result} {call.name}({head})\n{{\n    " + "\n    ".join(body) + "\n}\n"


HEAD = """/* Made by tools/shim.py from include/keeper.h, and not proved: the calls for a C compiler of another processor. Each hands what it gets
 * to the proved function of its name, structs and slices by a pointer, laid out as the assertions say. */
#include "keeper.h"

/* A table: where it is, and how many elements it has. */
typedef struct {
    _Alignas(8) const void *at;
    _Alignas(8) uint64_t count;
} Slice;
_Static_assert(sizeof(Slice) == 16 && offsetof(Slice, at) == 0 && offsetof(Slice, count) == 8 && sizeof((Slice){0}.count) == 8, "the layout of Slice");
/* All tables together, at the largest sizes: so no place in a table is 2^31 bytes or more from its start. */
struct Largest {
    KEEPER_DISK_TABLES(KEEPER_MOST_WORDS, KEEPER_MOST_RECORDS, KEEPER_MOST_FRAMES, KEEPER_MOST_SLOTS, KEEPER_MOST_PAGES, KEEPER_MOST_ACCOUNTS, KEEPER_MOST_CHIP)
    KEEPER_MEMORY_TABLES(KEEPER_MOST_WORDS, KEEPER_MOST_RECORDS, KEEPER_MOST_FRAMES, KEEPER_MOST_SLOTS, KEEPER_MOST_PAGES, KEEPER_MOST_ACCOUNTS, KEEPER_MOST_CHIP)
};
_Static_assert(sizeof(struct Largest) < 0x80000000u, "a table of 2^31 bytes or more");
"""


def shim(header):
    """The C file for a header's text."""
    known = structs(header)
    mirrors = [mirror(name, fields) for name, fields in known.items() if is_wide(fields)]
    assertions = [assertion(name, fields, known) for name, fields in known.items()]
    functions = [function(call, known) for call in prototypes(header)]
    return HEAD + "".join(mirrors) + "".join(assertions) + "\n" + "\n".join(functions)
