#!/usr/bin/env python3
"""Brings the names of specs/ and proofs/ to Rattle's spelling, once: words in snake case, types and modules in camel case.

usage: python3 tools/respell.py [FOLDER]     the repository, or the folder that it is checked out in

A name is turned where a specification or a file of lemmas gives it: a definition, a field, a constructor. Functions of src/, exported names,
strings, comments' plain words, inputs and outputs stay. What Rattle makes for the proof of a function has names of its own, so a proof of a
function is turned only where it imports one. Prints each two names that would fall together and writes nothing then.
"""

import os
import re
import sys

WORD = r"[\w'₀-₉-]+"
TOKEN = re.compile(r"(?<![\w'₀-₉-])" + WORD)
HEAD = re.compile(r"^(?:abbrev |unfoldable |pub |data |record |opaque |private )*([^\s:(){}\[\],.;]+)\s+(?:\([^=]*\)\s*|\{[^=]*\}\s*)*:(?:\s|$)")
FIELD = re.compile(r"^  +(?:abbrev |unfoldable |pub )*([^\s:(){}\[\],.;]+) :(?:\s|$)")
# a field of a table: the definition of such a table has the other name
KEEPS_PLAIN = {"free-map"}
OTHERWISE = {"freeMap": "free_map_table", "quiet": "quiet"}
KEYWORDS = {"use", "let", "in", "elim", "where", "constructor"}


def paths(top):
    for folder, dirs, files in os.walk(os.path.join(top, "crates")):
        dirs[:] = sorted(d for d in dirs if d != "out")
        for name in sorted(files):
            if name.endswith((".antt", ".rt")):
                yield os.path.join(folder, name)


def kind(path):
    """'code', 'spec', 'lemma' or 'walk' (the proof of one function)"""
    if path.endswith(".rt"):
        return "code"
    part = path.split("/crates/")[1].split("/")
    if part[1] == "specs":
        return "spec"
    return "walk" if part[-1] in ("Proof.antt", "Invariants.antt", "Answers.antt") else "lemma"


def is_type(line):
    return re.search(r"(?:→|:) Type \d\s*$", line) is not None


def snake(name):
    name = re.sub(r"(?<=[a-z0-9'])([A-Z])", lambda m: "_" + m.group(1).lower(), name)
    return re.sub(r"(?<=[\w'])-(?=[\w'])", "_", name)


def camel(name):
    words = [w for w in re.split(r"[-_]", name) if w]
    return "".join(w[0].upper() + w[1:] for w in words)


def turned(name, line):
    if name in KEYWORDS or "◌" in name or not re.fullmatch(WORD, name) or name[0] in "-+0123456789":
        return name
    if name[0].isupper():
        # a type, a module or a constant: only a hyphen is turned
        return camel(name) if "-" in name and is_type(line) else snake(name) if "-" in name else name
    if is_type(line):
        return camel(name)
    return snake(name)


def given(text):
    """each name that a specification or a file of lemmas gives, with the line that does; those of its blocks, fields and constructors too"""
    for line in text.split("\n"):
        m = FIELD.match(line) if line.startswith(" ") else HEAD.match(line)
        if m:
            yield m.group(1), line


def apart(table, names):
    """Where two names would fall together, the definition has the plain one, and the law or the row about it ends in _holds."""
    for name in sorted(names):
        new = table.get(name, name)
        other = [n for n in names if n != name and table.get(n, n) == new]
        if not other or name in KEEPS_PLAIN:
            continue
        if re.search(r"[a-z0-9][A-Z]", name) or any("-" in n for n in other) and "-" not in name and not any(re.search(r"[a-z0-9][A-Z]", n) for n in other):
            continue
        yield name, new + "_holds"


def imported(text):
    names = set()
    for braces in re.findall(r"^(?:ghost )?use [^\n{]*\{([^}]*)\}", text, re.M):
        names |= {w.strip() for part in braces.split(",") for w in part.split(" as ")}
    for single in re.findall(r"^use ([^\s{]+?)\.([^\s.{]+)$", text, re.M):
        names.add(single[1])
    return names


def split_comment(line, mark):
    at = line.find(mark)
    while at > 0 and line[:at].count('"') % 2 == 1:
        at = line.find(mark, at + 1)
    if at < 0 or (at > 0 and line[at - 1] not in " \t"):
        return line, ""
    return line[:at], line[at:]


def rewrite(path, text, table):
    sort = kind(path)
    brought = imported(text) if sort == "walk" else None
    mark = "//" if sort == "code" else "--"
    lines = []
    for line in text.split("\n"):
        code, said = split_comment(line, mark)

        def one(m):
            word = m.group(0)
            new = table.get(word)
            # a module's path in an import keeps its names: they are files and functions
            if new is None or re.match(r"(?:ghost |pub )*use ", code) and re.match(r"\.", code[m.end():]):
                return word
            if sort == "code" and "-" in word and not re.search(r"[{}≡]|ghost", code):
                return word
            if sort == "code" and not re.search(r"[-A-Z]", word):
                return word
            if sort == "walk" and not re.search(r"[A-Z]", word) and word not in brought and not qualified(code, m.start()):
                return word
            return new

        lines.append(TOKEN.sub(one, code) + re.sub(r"(?<![\w'-])[a-z][\w']*[A-Z][\w'-]*", lambda m: table.get(m.group(0), m.group(0)), said))
    return "\n".join(lines)


def qualified(code, at):
    """whether the word at this place follows a module's name and a point, as L.note: a module begins with a capital"""
    m = re.search(r"([\w'+-]+)\.$", code[:at])
    return bool(m) and m.group(1)[0].isupper()


def main():
    top = os.path.abspath(sys.argv[1] if len(sys.argv) > 1 else ".")
    texts = {p: open(p, encoding="utf-8").read() for p in paths(top)}
    table, names = {}, set()
    for p, text in texts.items():
        if kind(p) in ("spec", "lemma"):
            for name, line in given(text):
                names.add(name)
                new = OTHERWISE.get(name) or turned(name, line)
                if new != name:
                    table.setdefault(name, new)
    table |= dict(apart(table, names))
    clashes = 0
    for p, text in texts.items():
        words = {w for line in text.split("\n") for w in TOKEN.findall(split_comment(line, "//" if p.endswith(".rt") else "--")[0])}
        seen = {}
        for w in sorted(words):
            new = table.get(w, w)
            if new in seen and (w in table or seen[new] in table):
                print(f"{p}: {seen[new]} and {w} fall together as {new}")
                clashes += 1
            seen[new] = w
    print(f"{len(table)} names, {clashes} clashes")
    if clashes and "--anyway" not in sys.argv:
        return 1
    changed = 0
    for p, text in texts.items():
        new = rewrite(p, text, table)
        if new != text:
            changed += 1
            with open(p, "w", encoding="utf-8") as f:
                f.write(new)
    print(f"{changed} files changed")
    if "--table" in sys.argv:
        for name in sorted(table):
            print(name, table[name])
    return 0


if __name__ == "__main__":
    sys.exit(main())
