#!/usr/bin/env python3
"""Not proved: writes a pack of an older layout of the file disk, byte by byte, as the programs of that version did: tests/sectordisk/convert.sh has it converted.

    convert.py PATH VERSION JOURNAL    VERSION 1 to 4; JOURNAL none, whole (a store that is not in its places yet) or torn (the same, one byte other)

The sizes are those of examples/weaver.c. Design 101 has pages 0 and 2, design 102 page 5; account 1 is at limit 9, or 4 if the store is not brought
home; from version 2 on its parent is 0, as it must be; from version 3 on F is 0; version 4 has 150 as the highest number.
"""

import struct
import sys
import zlib

SIZES = {"W": 4, "R": 16, "F": 4, "S": 2, "N": 6, "Q": 2}
BLOCK, JOURNAL = 512, 8192


def in_blocks(data):
    return data + bytes(-len(data) % BLOCK)


def tables(version):
    """Each table's width and entries, in order."""
    records = [0] * (SIZES["R"] * SIZES["W"])
    for record, first in ((3, 10), (0, 0x01020304), (15, 20)):
        records[4 * record : 4 * record + 4] = range(first, first + 4)
    maps = [4, 0, 1, 0, 0, 0] + [0, 0, 0, 0, 0, 16]
    out = [(4, records), (4, [101, 102]), (2, [0, 1]), (2, maps), (2, [6, 4])]
    out += [(2, [0, 0])] if version >= 2 else []
    return out + [(4, [150])] if version >= 4 else out


def header(version, all_tables):
    sizes = {**SIZES, "F": 0} if version >= 3 else SIZES
    numbers = [version, len(sizes), len(all_tables), *sizes.values(), *(width for width, _ in all_tables), *(len(entries) for _, entries in all_tables)]
    block = (b"KEEPDISK" + struct.pack(f"<{len(numbers)}I", *numbers)).ljust(BLOCK - 4, b"\0")
    return block + struct.pack("<I", zlib.crc32(block))


def entry(at, data):
    """The journal's entry of one store, of one piece."""
    pieces = struct.pack("<QQ", at, len(data)) + bytes(7 * 16)
    rest = struct.pack("<5I", 0x4A524E4C, 41, 1, len(data), 24 + len(pieces) + len(data)) + pieces + data
    return struct.pack("<I", zlib.crc32(rest)) + rest


def pack(version, journal):
    all_tables = tables(version)
    packed = [in_blocks(struct.pack(f"<{len(entries)}{'HI'[width == 4]}", *entries)) for width, entries in all_tables]
    limits = BLOCK + JOURNAL + sum(map(len, packed[:4]))
    last = entry(limits + 2, struct.pack("<H", 9)) if journal != "none" else b""
    if journal == "torn":
        last = last[:-1] + bytes([last[-1] ^ 1])
    return header(version, all_tables) + last.ljust(JOURNAL, b"\0") + b"".join(packed)


if __name__ == "__main__":
    with open(sys.argv[1], "xb") as out:
        out.write(pack(int(sys.argv[2]), sys.argv[3]))
