"""What the tools that run the keeper's library share: a C program built over it, and their command line."""

import functools
import pathlib
import subprocess
import sys

ROOT = pathlib.Path(__file__).resolve().parent.parent


class Missing(Exception):
    """There is no library."""


@functools.cache
def program(name):
    """tools/NAME.c, built over the static library."""
    built, library = ROOT / "target" / name, ROOT / "target" / "staticlib" / "libkeeper.a"
    if not library.exists():
        raise Missing("there is no target/staticlib/libkeeper.a: tools/prove.py --lib keeper makes it")
    words = ["gcc", "-std=c99", "-O2", "-Wall", "-Wextra", "-Werror", "-pedantic", "-Iinclude", f"tools/{name}.c", library, "-o", built]
    subprocess.run(words, cwd=ROOT, check=True)
    return built


def main(tool, doc, made, run, *bad):
    """The tool with the file that it is handed and the one that it is to write, target/MADE if none is named; ends with its status."""
    words = sys.argv[1:]
    if words in (["--help"], ["-h"]):
        print(doc.strip())
        sys.exit(0)
    if not 1 <= len(words) <= 2:
        print(doc.strip(), file=sys.stderr)
        sys.exit(2)
    path = pathlib.Path(words[0])
    out = pathlib.Path(words[1]) if len(words) > 1 else ROOT / "target" / made
    try:
        run(path, out)
    except (Missing, OSError, subprocess.CalledProcessError, *bad) as said:
        sys.exit(f"{tool}: {said}")
