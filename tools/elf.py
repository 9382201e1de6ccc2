"""What an ELF object needs and has, for any processor: its undefined symbols, and the bytes of its sections by kind. Tested by tools/test_cross.py."""

import struct
from typing import NamedTuple

WRITABLE, IN_MEMORY, CODE = 1, 2, 4
SYMBOL_TABLE, ABSENT = 2, 8


class Section(NamedTuple):
    kind: int
    flags: int
    offset: int
    size: int
    link: int


class Elf(NamedTuple):
    """The file's bytes, whether it has 64 bits, how its numbers are ordered, and its sections."""

    data: bytes
    is_64: bool
    order: str
    sections: list


def read(data):
    """An object file's sections."""
    if data[:4] != b"\x7fELF":
        raise ValueError("no ELF object")
    is_64, order = data[4] == 2, "<" if data[5] == 1 else ">"
    at, size, count = struct.unpack_from(order + ("40xQ10xHH" if is_64 else "32xI10xHH"), data)
    form = order + ("4xIQ8xQQI" if is_64 else "4xII4xIII")
    return Elf(data, is_64, order, [Section(*struct.unpack_from(form, data, at + number * size)) for number in range(count)])


def text_at(data, start):
    """The text that begins at a place and ends with a zero."""
    return data[start : data.index(b"\0", start)].decode()


def symbols(elf):
    """Each symbol's name and the number of its section; number 0 is another file's."""
    form, size = (elf.order + "I2xH16x", 24) if elf.is_64 else (elf.order + "I10xH", 16)
    table = next((section for section in elf.sections if section.kind == SYMBOL_TABLE), None)
    if table is None:
        return []
    names = elf.sections[table.link].offset
    entries = [struct.unpack_from(form, elf.data, at) for at in range(table.offset + size, table.offset + table.size, size)]
    return [(text_at(elf.data, names + name), section) for name, section in entries]


def undefined(elf):
    """The symbols that others must define."""
    return {name for name, section in symbols(elf) if section == 0}


def defined(elf):
    """The symbols that this object defines."""
    return {name for name, section in symbols(elf) if section != 0 and name}


def bytes_of(elf):
    """The bytes of the code, of the constants, and of what is written to."""
    here = [section for section in elf.sections if section.flags & IN_MEMORY]
    written = sum(section.size for section in here if section.flags & WRITABLE)
    code = sum(section.size for section in here if section.flags & CODE)
    return code, sum(section.size for section in here) - code - written, written
