#!/usr/bin/env python3
"""Not proved, tested by tools/test_prove.py: one wrong definition, tried before the reader's eyes.

    break.py [NAME]    applies tests/mutants/NAME.edit (freed_at_update) to a copy and proves it; the prover must refuse it
    break.py --list    the edits that name the sentence they break

Prints the sentence of docs/SPEC.md, its definition, what is tried in its place, and what the prover says. An edit names the sentence that it
breaks in a line 'breaks: TEXT'.
"""

import pathlib
import re
import sys
import tempfile
import textwrap
import time

ROOT = pathlib.Path(__file__).resolve().parent.parent
FIRST = "freed_at_update"
sys.path.insert(0, str(ROOT / "tests" / "mutants"))

import edits
import run


def plain(text):
    """A sentence without the names of definitions and the marks of the document."""
    return re.sub(r"\s+", " ", re.sub(r" ?\([^()]*`[^()]*\)", "", text).replace("**", "")).strip()


def sentences():
    """The edits that name the sentence they break, by name."""
    found = map(edits.Edit, edits.names())
    return {edit.name: edit for edit in found if edit.breaks}


def definition(edit, text):
    """The paragraph of the file in which the edit's old text stands, with `text` in its place."""
    file, old, _ = edit.pairs[0]
    whole = (ROOT / file).read_text()
    at = whole.index(old)
    start, end = whole.rfind("\n\n", 0, at) + 2, whole.find("\n\n", at)
    return whole[start:at] + text + whole[at + len(old) : end if end >= 0 else len(whole)]


def lines(text, most):
    """So many lines of a text, each cut where it is long."""
    for line in text.splitlines()[:most]:
        print("    " + (line if len(line) <= 150 else line[:147] + ".."), flush=True)


def quote(text):
    print(textwrap.fill(text.strip(), 100, initial_indent="    ", subsequent_indent="    "), flush=True)


def proved_wrong(edit):
    """Proves what the edit does not touch, and then the edited copy: the place of the first refusal or '', what the prover said of it, the
    seconds."""
    start = time.monotonic()
    with tempfile.TemporaryDirectory() as room:
        run.prove(edit.crate, pathlib.Path(room))
        place, _, text = run.tried(edit, pathlib.Path(room) / edit.name)
    said = re.search(r"^(?:.*: error: |fn .*: no proof: |note: .*it is not proved that ).*(?:\n .*)*", text, re.M)
    return place, said.group().replace(f"{room}/{edit.name}/", "") if said else "", time.monotonic() - start


def main(words):
    if words == ["--list"]:
        print("\n".join(f"{name}: {edit.what}" for name, edit in sentences().items()))
        return 0
    if len(words) > 1 or words[:1] == ["--help"]:
        print(__doc__.strip())
        return 0 if words[:1] == ["--help"] else 2
    name, known = (words or [FIRST])[0], sentences()
    if name not in known:
        print(f"break.py: no edit of that name that names its sentence: {name}. There are: {', '.join(known)}", file=sys.stderr)
        return 2
    return shown(known[name])


def shown(edit):
    """Shows the sentence, its definition, the wrong one and what the prover says of it: 0 if it is refused."""
    file, old, new = edit.pairs[0]
    print("The specification says (docs/SPEC.md):\n")
    quote(edit.breaks)
    print(f"\nIts definition, in {file}:\n")
    lines(definition(edit, old), 12)
    print(f"\nTried in its place: {edit.what}.\n")
    lines(definition(edit, new), 12)
    print("\nThe prover goes through a copy with this one change; a minute or so ..", flush=True)
    place, said, seconds = proved_wrong(edit)
    if not place:
        print(f"\nNOT REFUSED, after {seconds:.0f} s: everything is proved with this definition. That must not be.")
        return 1
    print(f"\nRefused, after {seconds:.0f} s, at {place}. The prover's first words:\n")
    lines(said or f"({edit.refused})", 4)
    print("\nSo this sentence of the specification does not hold with it:\n")
    quote(edit.breaks)
    return 0


if __name__ == "__main__":
    try:
        sys.exit(main(sys.argv[1:]))
    except (run.Bad, OSError) as bad:
        sys.exit(f"break.py: {bad}")
