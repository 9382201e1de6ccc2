"""Design sheets once more, from the paper alone: written, read, and hurt. For tests/sheets.py."""

# the sizes of the packs that are tried
W, N = 3, 3


def field(tag, content):
    return bytes([tag]) + len(content).to_bytes(2, "big") + content


def sheet(pages, number=101, words=W, count=N):
    """A sheet; pages: the words of each."""
    out = field(3, words.to_bytes(2, "big") + count.to_bytes(2, "big")) + field(1, number.to_bytes(4, "big"))
    for page, own in pages.items():
        out += field(2, page.to_bytes(2, "big") + b"".join(word.to_bytes(4, "big") for word in own))
    return out + field(4, b"")


def fields(data):
    """The fields of some bytes, or None."""
    out = []
    while data:
        length = int.from_bytes(data[1:3], "big")
        if len(data) < 3 + length:
            return None
        out.append((data[0], data[3 : 3 + length]))
        data = data[3 + length :]
    return out


def read(data):
    """What a sheet says, W, N, number and pages; or None for bytes that are none."""
    found = fields(data)
    if not found or [tag for tag, _ in found] != [3, 1] + [2] * (len(found) - 3) + [4]:
        return None
    (_, sizes), (_, number), *pages, (_, end) = found
    words, count = int.from_bytes(sizes[:2], "big"), int.from_bytes(sizes[2:], "big")
    if (len(sizes), len(number), len(end)) != (4, 4, 0) or not any(number):
        return None
    if any(len(own) != 2 + 4 * words or not any(own[2:]) for _, own in pages):
        return None
    numbers = [int.from_bytes(own[:2], "big") for _, own in pages]
    if any(a >= b for a, b in zip(numbers, numbers[1:] + [count])):
        return None
    split = [[int.from_bytes(own[at : at + 4], "big") for at in range(2, len(own), 4)] for _, own in pages]
    return words, count, int.from_bytes(number, "big"), dict(zip(numbers, split))


def wrong_sheets(good):
    """Cut at every byte, every byte changed, bytes left out and put in, and fields out of order."""
    for at in range(len(good)):
        yield good[:at]
        for value in (0, 1, 2, 3, 4, good[at] ^ 1, good[at] ^ 0x80, 255):
            if value != good[at]:
                yield good[:at] + bytes([value]) + good[at + 1 :]
        yield good[:at] + good[at + 1 :]
        yield good[:at] + b"\0" + good[at:]
    parts = [field(tag, content) for tag, content in fields(good)]
    for at in range(len(parts)):
        yield b"".join(parts[:at] + parts[at + 1 :])
        yield b"".join(parts[: at + 1] + parts[at:])
        yield b"".join(parts[:at] + parts[at:][::-1])
    yield good + b"\0"
    yield good + good
