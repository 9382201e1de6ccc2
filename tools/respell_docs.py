#!/usr/bin/env python3
"""Brings the names of definitions and theorems that the documents name to the spelling that tools/respell.py gave them, once.

usage: python3 tools/respell_docs.py TABLE     a file with the lines 'old new' that tools/respell.py --table prints

Only what stands between backticks is turned, and the statements that docs/PROOF.md quotes; paths, functions of src/ and C's names stay.
"""

import pathlib
import re
import sys

import respell

ROOT = pathlib.Path(__file__).resolve().parent.parent
TOKEN = re.compile(r"(?<![\w'₀-₉-])[\w'₀-₉-]+")


def table(path):
    rows = (line.split() for line in path.read_text(encoding="utf-8").splitlines())
    return {row[0]: row[1] for row in rows if len(row) == 2 and ":" not in row[0]}


def given():
    """Every name that a specification or a file of lemmas gives now."""
    files = [path for part in ("specs", "proofs") for path in sorted((ROOT / "crates").glob(f"*/{part}/**/*.antt"))]
    return {name for path in files for name, _ in respell.given(path.read_text(encoding="utf-8"))}


def renamed(word, names, now):
    """A word's new name: by the table, or, where port.py turned it before the table was made, by its spelling, if a crate gives that name now."""
    if word in names:
        return names[word]
    new = respell.snake(word)
    new = names[new] if "-" in word and names.get(new) in now else new
    return new if new != word and word not in now and new in now else word


def turned(span, names, now):
    """A span with its names turned: a plain word of lower case had no other spelling, and functions have such names."""
    if re.search(r"::|\.(rt|rs|py|sh|c|h|txt|md|antt|edit|out|in|svg)(?![\w-])", span) or span.startswith(("make ", "python3 ", "rt ", "git ")):
        return span

    def one(match):
        word = match.group()
        return renamed(word, names, now) if re.search("[-A-Z]", word) else word

    return TOKEN.sub(one, span.replace("′", "'"))


def main(words):
    if len(words) != 1:
        sys.exit(__doc__.strip())
    names, now = table(pathlib.Path(words[0])), given()
    for path in [ROOT / "README.md", *sorted((ROOT / "docs").glob("*.md"))]:
        if path.name.startswith("PORT"):
            continue
        text = path.read_text(encoding="utf-8")
        new = re.sub(r"`([^`\n]+)`", lambda m: f"`{turned(m.group(1), names, now)}`", text)
        if path.name == "PROOF.md":
            # a value's field stands right behind it now
            new = re.sub(r"(?m)^    .+$", lambda m: re.sub(r" \.(?=[a-z])", ".", turned(m.group(), names, now)), new)
        if new != text:
            path.write_text(new, encoding="utf-8")
            print(f"{path.relative_to(ROOT)}: {sum(a != b for a, b in zip(text.split(chr(10)), new.split(chr(10))))} lines")


if __name__ == "__main__":
    main(sys.argv[1:])
