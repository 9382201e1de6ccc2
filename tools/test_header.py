#!/usr/bin/env python3
"""Compares include/keeper.h with the source: structs field by field, parameters call by call, limits, refusals. python3 tools/test_header.py"""

import pathlib
import re
import subprocess
import tempfile
import unittest

ROOT = pathlib.Path(__file__).resolve().parent.parent
HEADER = ROOT / "include" / "keeper.h"
MODEL = ROOT / "crates" / "model" / "src"
CALLS = ROOT / "crates" / "keeper" / "src"
WIDTHS = {"u8": 1, "u16": 2, "u32": 4, "usize": 8}
CALL_NAMES = sorted(f"keeper_{name}" for name in ("apply", "apply_all", "export", "format", "import", "mend", "page_look", "restart"))
C_TYPES = {"u8": "uint8_t", "u16": "uint16_t", "u32": "uint32_t", "usize": "size_t"}


def structs():
    """The structs of the source that C sees: name, and each field with its type."""
    text = "\n".join(path.read_text() for path in sorted(MODEL.glob("*.rt")))
    found = re.findall(r"#\[repr\(C\)\]\n(?:#\[derive\(.*?\)\]\n)?pub struct (\w+) \{(.*?)\}", text, re.S)
    return {name: re.findall(r"pub (\w+): (\w+),", body) for name, body in found}


def layout(fields):
    """Each field's offset and width, and the size of the whole, by C's rules."""
    offset, places, most = 0, [], 1
    for name, kind in fields:
        width = WIDTHS[kind]
        offset = -(-offset // width) * width
        places.append((name, offset, width))
        offset, most = offset + width, max(most, width)
    return places, -(-offset // most) * most


def declared(kind):
    """A parameter's type in C, without a qualifier: a slice is a pointer and a count."""
    kind = re.sub(r"^&'\w+ ", "&", kind)
    slice_of = re.fullmatch(r"&(mut )?\[(\w+)\]", kind)
    pointer = re.fullmatch(r"&(mut )?(\w+)", kind)
    if slice_of:
        return [C_TYPES.get(slice_of[2], "Keeper" + slice_of[2]) + " *", "size_t"]
    if pointer:
        return [C_TYPES.get(pointer[2], "Keeper" + pointer[2]) + " *"]
    return [C_TYPES.get(kind, "Keeper" + kind)]


def calls():
    """The calls of the source that C sees: name, parameters as C declares them, result."""
    text = "\n".join(path.read_text() for path in sorted(CALLS.glob("*.rt")))
    found = re.findall(r'pub extern "C" fn (\w+)\((.*?)\) -> (\w+)', text, re.S)
    out = {}
    for name, parameters, result in found:
        pairs = re.findall(r"(\w+): ([^,]+),", parameters)
        types = []
        for parameter, kind in pairs:
            kinds = declared(kind)
            types += list(zip([parameter, parameter + "_count"], kinds))
        out[name] = (types, "Keeper" + result)
    return out


def compiled(text, *words):
    """What gcc makes of a text that includes the header."""
    command = ["gcc", "-std=c11", f"-I{HEADER.parent}", *words, "-x", "c", "-"]
    return subprocess.run(command, input='#include "keeper.h"\n' + text, capture_output=True, text=True, check=True).stdout


def prototypes():
    """The header's calls once its macros are expanded: name, parameters, result, without qualifiers."""
    text = re.sub(r"\s+", " ", compiled("", "-E", "-P")).replace("const ", "")
    out = {}
    for result, name, parameters in re.findall(r"(Keeper\w+) (keeper_\w+)\((.*?)\);", text):
        pairs = [re.fullmatch(r"\s*(\w+) (\*?)(\w+)\s*", part).groups() for part in parameters.split(",")]
        out[name] = ([(name_, kind + (" *" if star else "")) for kind, star, name_ in pairs], result)
    return out


class Header(unittest.TestCase):
    def test_structs(self):
        source = structs()
        self.assertEqual(sorted(source), ["Answer", "Frame", "Part", "Pool", "Request", "Sizes"])
        lines, expected = [], []
        for name, fields in source.items():
            places, size = layout(fields)
            lines.append(f'printf("{name} %zu\\n", sizeof(Keeper{name}));')
            expected.append(f"{name} {size}")
            for field, offset, width in places:
                lines.append(f'printf("{name}.{field} %zu %zu\\n", offsetof(Keeper{name}, {field}), sizeof(((Keeper{name} *)0)->{field}));')
                expected.append(f"{name}.{field} {offset} {width}")
        with tempfile.TemporaryDirectory() as folder:
            program = pathlib.Path(folder) / "layout"
            compiled("#include <stdio.h>\nint main(void) {\n" + "\n".join(lines) + "\n}\n", "-o", program)
            printed = subprocess.run([program], capture_output=True, text=True, check=True).stdout
        self.assertEqual(printed.splitlines(), expected)

    def test_calls(self):
        self.assertEqual(prototypes(), calls())
        self.assertEqual(sorted(calls()), CALL_NAMES)

    def test_limits(self):
        source = dict(re.findall(r"const (MOST_\w+): usize = (\w+);", (MODEL / "sizes.rt").read_text()))
        header = dict(re.findall(r"KEEPER_(MOST_\w+) = (\d+)", HEADER.read_text()))
        self.assertEqual({name: int(value) for name, value in source.items()}, {name: int(value) for name, value in header.items()})
        self.assertEqual(len(header), 7)

    def test_refusals(self):
        source = [
            (re.sub(r"(?<!^)(?=[A-Z])", "_", name).upper(), number)
            for name, number in re.findall(r"Refusal::(\w+) => (\d+),", (MODEL / "refusals.rt").read_text())
        ]
        header = re.findall(r"KEEPER_(\w+) = (\d+)", HEADER.read_text().partition("/* The refusals. */")[2])
        source = sorted(source, key=lambda refusal: int(refusal[1]))
        self.assertEqual([("DONE", "0")] + source, header)
        self.assertEqual([int(number) for _, number in source], list(range(1, 23)) + [24, 25, 26, 27, 29, 30, 31, 32, 33])


if __name__ == "__main__":
    unittest.main()
