#!/usr/bin/env python3
"""The folders of crates/ are the crates of crates.txt.

    crates.py [FOLDER]    compares them in a repository (this one, if none is named); what differs is printed

A link, an empty folder, a folder that no line names and a line without a folder are failures, and so is whatever else
lies in crates/: the prover looks at what crates.txt names, so it would pass over them.
"""

import pathlib
import sys

ROOT = pathlib.Path(__file__).resolve().parent.parent


def listed(text):
    """The crates in the order of crates.txt: the first word before the colon."""
    rows = (line.split("#", 1)[0].partition(":") for line in text.splitlines())
    return [name.split()[0] for name, colon, _ in rows if colon]


def wrong_with(path, names):
    """What is wrong with one thing that lies in crates/; nothing is said of a crate."""
    if path.is_symlink():
        return "is a link"
    if not path.is_dir():
        return "is no folder"
    if not any(part.is_file() for part in path.rglob("*")):
        return "is an empty folder"
    if path.name not in names:
        return "is named by no line of crates.txt"
    links = sorted(part for part in path.rglob("*") if part.is_symlink())
    if links:
        return f"holds a link: {links[0].relative_to(path)}"
    if not any((path / "src" / root).is_file() for root in ("lib.rt", "main.rt")):
        return "has neither src/lib.rt nor src/main.rt"
    return None


def differences(root):
    """A line for each folder and each line that is not as it must be, and how many were compared."""
    names = listed((root / "crates.txt").read_text())
    found = sorted((root / "crates").iterdir())
    said = [f"crates/{path.name} {wrong}" for path in found if (wrong := wrong_with(path, names))]
    here = {path.name for path in found}
    said += [f"crates.txt names {name}, and there is no crates/{name}" for name in names if name not in here]
    said += [f"crates.txt names {name} {names.count(name)} times" for name in sorted(set(names)) if names.count(name) > 1]
    return said


def main(words):
    if len(words) > 1:
        print(__doc__, file=sys.stderr)
        return 1
    said = differences(pathlib.Path(words[0]) if words else ROOT)
    for line in said:
        print(line)
    print(f"{0 if said else 1} passed, {len(said)} failed")
    return 1 if said else 0


if __name__ == "__main__":
    try:
        sys.exit(main(sys.argv[1:]))
    except OSError as bad:
        sys.exit(f"crates.py: {bad}")
