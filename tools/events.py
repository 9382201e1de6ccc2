#!/usr/bin/env python3
"""Event lists of the event program, as text and as bytes.

    events.py encode [TEXT] > bytes      the list as the program reads it; without a file, from standard input
    events.py decode [BYTES] > text
    events.py show TEXT OUTPUT           the list with its comments, and beside each event what the program answered, in words
    events.py --help                     this, and the events

One event a line, its name and then its values in decimal; # starts a comment.
"""

import difflib
import re
import sys

# Name, tag, and each value's name and width in bytes.
EVENTS = [
    ("create", 0x01, [("slot", 2), ("account", 2), ("number", 4)]),
    ("delete", 0x02, [("slot", 2)]),
    ("activate", 0x03, [("slot", 2)]),
    ("deactivate", 0x04, [("slot", 2)]),
    ("fault", 0x05, [("slot", 2), ("page", 2)]),
    ("read", 0x06, [("slot", 2), ("page", 2), ("word", 2)]),
    ("write", 0x07, [("slot", 2), ("page", 2), ("word", 2), ("value", 4)]),
    ("claim", 0x08, []),
    ("wire", 0x09, [("slot", 2), ("page", 2)]),
    ("unwire", 0x0A, [("slot", 2), ("page", 2)]),
    ("truncate", 0x0B, [("slot", 2), ("pages", 2)]),
    ("update", 0x0C, [("slot", 2)]),
    ("page-done", 0x0D, [("frame", 2), ("good", 2)]),
    ("map-done", 0x0E, [("slot", 2), ("good", 2)]),
    ("limit", 0x0F, [("account", 2), ("pages", 2)]),
    ("cut", 0x10, []),
]
# The library's own kinds: no fields of the event program, so only lists that go to the library have them.
LIBRARY = [
    ("move", 17, [("giver", 2), ("taker", 2), ("pages", 2)]),
    ("join", 18, [("slot", 2), ("page", 2)]),
    ("turn", 19, []),
]
BY_NAME = {name: (tag, values) for name, tag, values in EVENTS}
ALL = {**BY_NAME, **{name: (kind, values) for name, kind, values in LIBRARY}}
BY_TAG = {tag: (name, values) for name, tag, values in EVENTS}

HEADER = "n tag answer result"

# what the result of an event is, in words
RESULTS = {"fault": "frame {}", "read": "reads {}", "claim": "{} looks"}


class Bad(Exception):
    """A line or field that is no event; says where and why."""


def value_of(word, name, width, line):
    """One value of a line, within its width."""
    if not (word.isascii() and word.isdigit()):
        raise Bad(f"line {line}: {name} is not a number: {word}")
    most = 256**width - 1
    digits = word.lstrip("0") or "0"
    if len(digits) > len(str(most)) or int(digits) > most:
        raise Bad(f"line {line}: {name} is above {most}: {word}")
    return int(digits)


def nearest(name, known):
    """The event that a wrong name is most like."""
    close = difflib.get_close_matches(name.lower(), known, 1, 0.5)
    return f"; did you mean {close[0]}?" if close else "."


def parse_line(text, line, known=BY_NAME):
    """A line's event as a name and values, or None for a blank one."""
    words = text.split("#", 1)[0].split()
    if not words:
        return None
    name = words[0]
    if name not in known:
        raise Bad(f"line {line}: unknown event: {name}{nearest(name, known)} The events: {', '.join(known)}")
    values = known[name][1]
    if len(words) - 1 != len(values):
        wanted = " ".join([name] + [value for value, _ in values])
        raise Bad(f"line {line}: {len(words) - 1} values, the event is: {wanted}")
    pairs = zip(words[1:], values)
    return name, [value_of(word, value, width, line) for word, (value, width) in pairs]


def parse(text, known=BY_NAME):
    """The events of a text: names and values."""
    lines = enumerate(text.splitlines(), 1)
    events = (parse_line(content, line, known) for line, content in lines)
    return [event for event in events if event is not None]


def field(name, values):
    """An event's bytes: tag, length, values, high byte first."""
    tag, kinds = BY_NAME[name]
    parts = [value.to_bytes(width, "big") for value, (_, width) in zip(values, kinds)]
    content = b"".join(parts)
    return bytes([tag]) + len(content).to_bytes(2, "big") + content


def encode(text):
    """A text's bytes."""
    return b"".join(field(name, values) for name, values in parse(text))


def read_field(data, at):
    """The event of the field at an offset, and the next field's offset."""
    if data[at] not in BY_TAG:
        raise Bad(f"bad field at {at}: unknown tag {data[at]:02X}")
    name, kinds = BY_TAG[data[at]]
    size = sum(width for _, width in kinds)
    if len(data) < at + 3:
        raise Bad(f"bad field at {at}: short field")
    length = int.from_bytes(data[at + 1 : at + 3], "big")
    if length != size:
        raise Bad(f"bad field at {at}: {name} has length {size}, not {length}")
    if len(data) < at + 3 + size:
        raise Bad(f"bad field at {at}: short field")
    at += 3
    values = []
    for _, width in kinds:
        values.append(int.from_bytes(data[at : at + width], "big"))
        at += width
    return (name, values), at


def line_of(name, values):
    return " ".join([name] + [str(value) for value in values])


def decode(data):
    """The text of bytes."""
    lines, at = [], 0
    while at < len(data):
        (name, values), at = read_field(data, at)
        lines.append(line_of(name, values) + "\n")
    return "".join(lines)


def refusals():
    """The refusals in words, by number: the header's comments."""
    import ceasy

    return {int(number): re.sub(r"^[a-z ,]+: ", "", comment) for _, number, comment in ceasy.enum("/* The refusals.")}


def in_words(name, answer, result, words):
    """An answer as a reader wants it."""
    if answer != "0":
        return f"refused, {answer}: {words.get(int(answer), 'an unknown refusal')}"
    if name == "turn":
        return turned(int(result), words)
    said = ", " + RESULTS[name].format(result) if name in RESULTS else ""
    return "done" + (said[:-1] if said == ", 1 looks" else said)


def turned(result, words):
    """What a turn did for the first request of the line."""
    return {0: "done", 1: "served"}.get(result) or f"sent away, {result}: {words.get(result, 'an unknown refusal')}"


def answered(text, output):
    """The answer and result of each event, where the output is that of the list."""
    events, lines = parse(text), output.splitlines()
    if not lines or lines[0] != HEADER:
        raise Bad("line 1: not the program's header")
    answers = lines[1:]
    if len(answers) != len(events):
        raise Bad(f"{len(events)} events, but {len(answers)} lines of output after the header")
    for line, ((name, _), answer) in enumerate(zip(events, answers), 2):
        words = answer.split()
        if len(words) != 4 or words[:2] != [str(line - 1), f"{BY_NAME[name][0]:02X}"]:
            raise Bad(f"line {line}: not the answer of {name}: {answer}")
    return [answer.split()[2:] for answer in answers]


def show(text, output):
    """The list as it stands, comments and all; beside each event its number and what was answered, in words."""
    answers, words = iter(answered(text, output)), refusals()
    width = max([len(line_of(*event)) for event in parse(text)], default=0)
    rows, count = [], 0
    for number, line in enumerate(text.splitlines(), 1):
        event = parse_line(line, number)
        if event is None:
            rows.append(line)
            continue
        count += 1
        comment = line.partition("#")[2].strip()
        said = in_words(event[0], *next(answers), words)
        rows.append(f"{count:>4}  {line_of(*event):<{width}}  {said}" + (f"  # {comment}" if comment else ""))
    return "".join(row.rstrip() + "\n" for row in rows)


def read_text(path):
    with open(path, encoding="utf-8") as file:
        return file.read()


def help_text():
    rows = ["  " + line_of(name, [value.upper() for value, _ in values]) for name, _, values in EVENTS]
    return __doc__.strip() + "\n\nThe events:\n\n" + "\n".join(rows) + "\n"


def named(path, work):
    """Work over a file; what is wrong with it is said with its name."""
    try:
        return work()
    except Bad as bad:
        raise Bad(f"{path}: {bad}") from None


def main(arguments):
    what, path = (arguments + ["", ""])[:2]
    name = path or "standard input"
    if what in ("--help", "-h", "help"):
        sys.stdout.write(help_text())
    elif what == "encode" and len(arguments) <= 2:
        text = read_text(path) if path else sys.stdin.read()
        sys.stdout.buffer.write(named(name, lambda: encode(text)))
    elif what == "decode" and len(arguments) <= 2:
        data = open(path, "rb").read() if path else sys.stdin.buffer.read()
        sys.stdout.write(named(name, lambda: decode(data)))
    elif what == "show" and len(arguments) == 3:
        text, output = read_text(path), read_text(arguments[2])
        named(path, lambda: parse(text))
        sys.stdout.write(named(arguments[2], lambda: show(text, output)))
    else:
        raise Bad(help_text())


if __name__ == "__main__":
    try:
        main(sys.argv[1:])
    except BrokenPipeError:
        sys.exit(1)
    except (Bad, OSError, UnicodeDecodeError) as error:
        print(error, file=sys.stderr)
        sys.exit(1)
