"""What a program makes of files: a whole file, or a part that stands between two lines that mark it."""

import sys


class Bad(Exception):
    """A file that has no place for what is made; says which."""


def parts(text, start, end, name):
    """What stands in a file before a made part, the part, and what stands after it, the marker lines with what is around."""
    before, found, rest = text.partition(start)
    inside, ended, after = rest.partition(end)
    if not found or not ended:
        raise Bad(f"{name} has not the two marker lines of what is made there: {start.strip()}")
    return before + start, inside, end + after


def renew(tool, doc, words, made):
    """Each name, path and text of made is what a file is to hold: --write writes the texts, --check names the files that are otherwise. The
    status to end with."""
    if words not in (["--write"], ["--check"]):
        print(doc, file=sys.stderr)
        return 1
    count, old = 0, 0
    for name, path, text in made:
        count += 1
        if path.exists() and path.read_text() == text:
            continue
        old += 1
        if words == ["--write"]:
            path.write_text(text)
        else:
            print(f"{name} is not what tools/{tool} --write makes")
    if words == ["--write"]:
        return 0
    print(f"{count - old} passed, {old} failed")
    return 1 if old else 0
