#!/usr/bin/env python3
"""Lends one more table, right after another one, wherever the crates list all tables or the whole disk part.

    addtable.py NEW AFTER TYPE [FN ..]    as: addtable.py serial parents u32 format restart_core

NEW is lent by & but to the functions FN, which change it. Run once crates/model/specs has the table (docs/EXTENDING.md, "A lent table") and
before tools/tables.txt has its line. It writes parameters, arguments, contracts' rows and record literals, prints each changed file with its
new lines, and each place that it cannot decide, to be done by hand. What it writes is proved or refused like everything else.
"""

import pathlib
import re
import sys

import lent

ROOT = pathlib.Path(__file__).resolve().parent.parent
# the tables that some rows leave out, as the events that do not look at them do
CHIP, LINE = ["chip_words", "chip_records", "chip_next"], ["line"]
# what takes the tables in order: how many things stand before the first table of the disk part, and which it leaves out
WHOLE = {"state_in": (4, CHIP + LINE), "state_of": (2, CHIP + LINE), "same_state": (2, CHIP + LINE)}
WHOLE |= {head: (2, CHIP + LINE) for head in ("given", "entered")}
WHOLE |= {"lined_of": (2, CHIP), "all_of": (2, [])}
# what takes the disk part alone
DISK = ("disk_of", "lent_of")
ATOM = re.compile(r"[\w\[\]«»'₀-₉.-]+")
FUNCTION = re.compile(r"\s*(?:pub )?(?:extern \"C\" )?fn (\w+)")
# done by hand before, or made by tools/rows.py after
LEFT_OUT = ("model/specs/Lent.antt", "model/specs/Setters.antt", "keeper/proofs/")


class Place:
    """Where the new table goes: after which one, before which one, and how many arguments a row has up to it."""

    def __init__(self, new, after, kind, changing):
        names = [table.name for part in lent.PARTS for table in lent.of_part(part) if table.name not in ("frames", "pool")]
        disk = [table.name for table in lent.of_part("disk")]
        at = names.index(after)
        self.new, self.after, self.kind, self.changing = new, after, kind, set(changing)
        self.before = names[at - 1] if at else None
        self.all_before = names[max(at - 2, 0) : at]
        # what comes next, with the chip and the line or without
        nexts = [[name for name in names[at + 1 :] if name not in out][:1] for out in ([], CHIP, CHIP + LINE)]
        self.follows = list(dict.fromkeys(name for found in nexts for name in found))
        if after == disk[-1]:
            self.follows.append("changes")  # mend's list follows the disk part
        self.rows = {head: front + len([name for name in names[: at + 1] if name not in out]) for head, (front, out) in WHOLE.items() if after not in out}
        if after in disk:
            self.rows.update({head: at + 1 for head in DISK})

    def like(self, text):
        """What the new table has where the one before it has this text, or None."""
        if text in ("refl", "[]"):
            return text
        word = rf"(?<![\w-]){re.escape(self.after)}(?![\w-])"
        return re.sub(word, self.new, text) if re.search(word, text) else None


def closing(text, at):
    """Where the bracket that opens here closes, or None."""
    depth = 0
    for place in range(at, len(text)):
        depth += {"(": 1, ")": -1}.get(text[place], 0)
        if depth == 0:
            return place
    return None


def atoms(text, at, count):
    """The ends of the next so many arguments, each a name or a term in brackets, or None."""
    ends = []
    while len(ends) < count:
        at = re.compile(r"[ \n]*").match(text, at).end()
        if text[at : at + 1] == "(":
            end = closing(text, at)
            found = None if end is None else end + 1
        else:
            match = ATOM.match(text, at)
            found = match.end() if match else None
        if found is None:
            return None
        ends.append((at, found))
        at = found
    return ends


def with_row(text, head, place, by_hand):
    """The text with one argument more in each row of this head."""
    out, done = "", 0
    for match in re.finditer(rf"(?<![\w.-]){re.escape(head)}(?![\w-])", text):
        ends = atoms(text, match.end(), place.rows[head]) if match.start() >= done else None
        if not ends:
            continue
        start, end = ends[-1]
        more = place.like(text[start:end])
        line = text.count("\n", 0, match.start()) + 1
        if more is None:
            by_hand.append(f"{line}: {head} .. {text[start:end][:60]}")
            continue
        following = atoms(text, end, 1)
        if following and text[slice(*following[0])] == more and more not in ("refl", "[]"):
            continue  # it is there already
        out += text[done:end] + " " + more
        done = end
    return out + text[done:]


def with_fields(text, place, by_hand):
    """The text with a field more in each record literal of the disk part or the memory part, in one line or in several."""

    def more(value):
        found = place.like(value)
        if found is None and re.fullmatch(r"[\d∷ \[\]]+", value):
            found = "0 ∷ []"
        if found is None:
            by_hand.append(f"literal {place.after} = {value[:70]}")
        return found

    def inline(match):
        found = more(match.group(1).strip())
        return match.group() + (f"; {place.new} = {found}" if found else "")

    def in_lines(match):
        found = more(match.group(2).strip())
        return match.group() + (f"\n{match.group(1)}{place.new} = {found};" if found else "")

    if place.before:
        text = re.sub(rf"(?<={place.before} = )[^;{{}}\n]*; {place.after} = ([^;{{}}\n]*?)(?= \}}|; )", inline, text)
    return re.sub(rf"^( *){place.after} = ([^;{{}}\n]*);$", in_lines, text, flags=re.M)


def with_rows(text, place, by_hand):
    for head in place.rows:
        text = with_row(text, head, place, by_hand)
    return with_fields(text, place, by_hand)


def with_parameters(text, place):
    """The text of a source file with a parameter or an argument more, and with the table in contracts by bare names."""
    follows = "|".join(place.follows)
    function, out, lines = None, [], text.split("\n")
    for line, following in zip(lines, lines[1:] + [""]):
        found = FUNCTION.match(line)
        function = found.group(1) if found else function
        ends = re.match(rf"\s*(?:(?:&mut |&)?(?:{follows})[:,]|\))", following) if follows else re.match(r"\s*\)", following)
        out.append(re.sub(rf"({place.before} {place.after})(?= «?(?:{follows})»?\b|$)", rf"\1 {place.new}", line))
        typed = re.match(rf"(\s*){place.after}: &(?:mut )?\[\w+\],$", line)
        if typed and ends:
            out.append(f"{typed.group(1)}{place.new}: &{'mut ' if function in place.changing else ''}[{place.kind}],")
        passed = re.match(rf"(\s*)((?:&mut |&)?){place.after},$", line)
        if passed and ends:
            out.append(f"{passed.group(1)}{passed.group(2)}{place.new},")
    text = "\n".join(out)
    return re.sub(rf"({', '.join(place.all_before)}, {place.after})(?=\))", rf"\1, {place.new}", text)


def with_moments(text, place):
    """The text of a source file whose contracts name the new table as it is lent: now, where it is only read; else old or new, as the others of
    its line."""
    function, out = None, []
    for line in text.split("\n"):
        found = FUNCTION.match(line)
        function = found.group(1) if found else function
        moment = "now" if function not in place.changing else "new" if ".new" in line else "old"
        out.append(re.sub(rf"(?<![\w.]){place.new}\.(?:old|new|now)\b", f"{place.new}.{moment}", line))
    return "\n".join(out)


def changed(path, place):
    """A file's new text, and what is left to do there by hand."""
    text, by_hand = path.read_text(), []
    if path.suffix == ".rt":
        text = with_parameters(text, place)
    text = with_rows(text, place, by_hand)
    return with_moments(text, place) if path.suffix == ".rt" else text, by_hand


def main(words):
    if len(words) < 3 or words[1] not in [table.name for table in lent.TABLES]:
        print(__doc__.strip(), file=sys.stderr)
        return 2
    place, crates = Place(words[0], words[1], words[2], words[3:]), ROOT / "crates"
    files = [path for ending in ("rt", "antt") for path in sorted(crates.rglob("*." + ending)) if path.relative_to(crates).parts[1] != "out"]
    for path in files:
        name = str(path.relative_to(crates))
        if any(part in name for part in LEFT_OUT):
            continue
        old, (new, by_hand) = path.read_text(), changed(path, place)
        if new != old:
            path.write_text(new)
            print(f"{len(set(new.splitlines()) - set(old.splitlines())):4} {name}")
        for left in by_hand:
            print(f"by hand: {name}:{left}")
    return 0


if __name__ == "__main__":
    sys.exit(main(sys.argv[1:]))
