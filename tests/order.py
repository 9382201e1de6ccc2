#!/usr/bin/env python3
"""Not proved: what stands in a file disk, by the layout that examples/filedisk.h tells, low byte first; written without a look at its code.

    order.py PATH    prints the version, the sizes and all tables, with the journal's store in its places, as tests/order.c does
"""

import pathlib
import struct
import sys
import zlib

NAMES = ("records", "numbers", "accounts", "maps", "limits", "parents", "highest")
BLOCK, JOURNAL = 512, 8192


def header(data):
    """Version, sizes, and each table's width and count; the checksum must be right."""
    magic, version, sizes, tables = struct.unpack_from("<8s3I", data)
    assert (magic, sizes, tables) == (b"KEEPDISK", 6, len(NAMES)), (magic, sizes, tables)
    assert struct.unpack_from("<I", data, BLOCK - 4)[0] == zlib.crc32(data[: BLOCK - 4])
    numbers = struct.unpack_from(f"<{sizes + 2 * tables}I", data, 20)
    return version, numbers[:sizes], list(zip(numbers[sizes : sizes + tables], numbers[sizes + tables :]))


def recovered(data):
    """The file with the journal's store in its places; the entry must be whole."""
    data, entry = bytearray(data), data[BLOCK : BLOCK + JOURNAL]
    total, magic, _, pieces, _, length = struct.unpack_from("<6I", entry)
    assert magic == 0x4A524E4C and total == zlib.crc32(entry[4:length])
    start = 24 + 8 * 16
    for piece in range(pieces):
        at, count = struct.unpack_from("<2Q", entry, 24 + 16 * piece)
        data[at : at + count] = entry[start : start + count]
        start += count
    return bytes(data)


def main(path):
    data = pathlib.Path(path).read_bytes()
    version, sizes, tables = header(data)
    print("version", version, *(f"{letter} {size}" for letter, size in zip("WRFSNQ", sizes) if letter != "F"))
    data, at = recovered(data), BLOCK + JOURNAL
    for name, (width, count) in zip(NAMES, tables):
        print(name, *struct.unpack_from(f"<{count}{'HI'[width == 4]}", data, at))
        at += -(-width * count // BLOCK) * BLOCK
    assert at == len(data), (at, len(data))


if __name__ == "__main__":
    main(sys.argv[1])
