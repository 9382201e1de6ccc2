#!/usr/bin/env python3
"""Not proved: what stands in a file disk, by the layout that docs/USING.md tells ("A disk on sectors"), low byte first; written without a look at its code.

    order.py PATH    prints the version, the sizes and all tables, with the newest store in its places, as tests/sectordisk/order.c does
"""

import pathlib
import struct
import sys

NAMES = ("records", "numbers", "accounts", "maps", "limits", "parents", "highest")
SECTOR, AREA, HOME = 512, 125, 251


def sectors(data):
    """The file as sectors of 128 numbers."""
    assert len(data) % SECTOR == 0
    return [list(struct.unpack_from("<128I", data, at)) for at in range(0, len(data), SECTOR)]


def recovered(all_sectors):
    """The home sectors, with the store that the commit sector names."""
    magic, sequence, count, *named = all_sectors[0]
    assert magic == 0x4A524E4C and count <= AREA and not any(named[count:])
    home = all_sectors[HOME:]
    for content, place in enumerate(named[:count]):
        home[place] = all_sectors[1 + AREA * (sequence % 2) + content]
    return home


def tables(sizes):
    """Each table's rows and the entries of a row, in their order on the disk."""
    w, r, s, n, q = sizes
    return {"records": (r, w), "maps": (s, n), "numbers": (1, s), "accounts": (1, s), "limits": (1, q), "parents": (1, q), "highest": (1, 1)}


def main(path):
    home = recovered(sectors(pathlib.Path(path).read_bytes()))
    magic, version, *sizes = struct.pack("<2I", *home[0][:2]), *home[0][2:8]
    assert magic == b"KEEPDISK" and not any(home[0][8:])
    print("version", version, *(f"{letter} {size}" for letter, size in zip("WRSNQ", sizes)))
    at, found = 1, {}
    for name, (rows, width) in tables(sizes).items():
        found[name] = []
        for _ in range(rows):
            numbers = [number for sector in home[at : at + -(-width // 128)] for number in sector]
            assert not any(numbers[width:])
            found[name] += numbers[:width]
            at += -(-width // 128)
    for name in NAMES:
        print(name, *found[name])
    assert at == len(home), (at, len(home))


if __name__ == "__main__":
    main(sys.argv[1])
