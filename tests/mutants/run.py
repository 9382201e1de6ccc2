#!/usr/bin/env python3
"""Wrong definitions that a theorem must refuse, and wrong programs that a contract must.

    run.py [NAME ..]      tries the edits tests/mutants/NAME.edit, all of them if none is named
    run.py --minutes M    begins no more of them after so many minutes; which are the first changes with each commit
    run.py --list         each edit: its crate, its name, what is wrong, the fact that refuses it

Each edit is made in a copy of its crates, and its crate is checked there, begun with what 'rt check' kept of the crate as it is, which has
to be proved: only what the edit touches is checked again. It counts as refused if the prover says that it is not proved, the edited text
can be read, and the first error that is more than a missing name is where the edit says (`at:`, `fact:`). A tool that crashes, runs out of
memory or takes more than MUTANT_SECONDS (900, if not set) has refused nothing: the edit has failed then. RT_JOBS says how many are tried at
a time. The last line counts.
"""

import collections
import concurrent.futures
import contextlib
import itertools
import os
import pathlib
import re
import shutil
import signal
import subprocess
import sys
import tempfile
import threading
import time

import edits
from edits import Bad, Edit

MEMORY = pathlib.Path("/dev/shm")
SECONDS = int(os.environ.get("MUTANT_SECONDS", "900"))
JOBS = int(os.environ.get("RT_JOBS", str(os.cpu_count() or 1)))
ERROR = re.compile(r"^(?:\./)?crates/([^\s:]+)(?::(\d+):\d+)?: error: (?:(`[^`]*`): )?(.*)", re.M)
GOAL = re.compile(r"^note: (?:\./)?crates/([^\s:]+):(\d+):\d+: it is not proved that", re.M)
QUOTED = re.compile(r"`[^`]*`")
# a part of a pair that is none any more is no name: it says that the fact is another
PART = re.compile(r"has no field `\d+`.*")
UNREAD = re.compile(r"is not in scope|has no field|is no name|operand is missing|expected the end|cannot continue")
# a name that is missing, and what cannot be checked for it
NAMES = re.compile(r"is not in scope|has no field|has no +that can be named|is no name|declarations? that depends? on|this file exports no")
running, ended, proving, proved = set(), threading.Event(), collections.defaultdict(threading.Lock), {}


def kit():
    return pathlib.Path(shutil.which("rt") or "rt").resolve().parent.parent


def kill(tool):
    """Ends a check and what it has started, if it is there."""
    if tool.poll() is None:
        with contextlib.suppress(ProcessLookupError):
            os.killpg(tool.pid, signal.SIGKILL)


def room():
    """The folder of the copies: in memory, where there are 4 GB of it, since a check writes thousands of small files."""
    with contextlib.suppress(OSError):
        space = os.statvfs(MEMORY)
        if space.f_bavail * space.f_frsize >= 4 << 30 and os.access(MEMORY, os.W_OK):
            return pathlib.Path(tempfile.mkdtemp(prefix="mutants-", dir=MEMORY))
    return pathlib.Path(tempfile.mkdtemp(prefix="mutants-"))


def check(command, folder, log, seconds, **more):
    """What a check ends with, and what it prints."""
    with open(log, "wb") as out:
        # a group of its own, so that what it has started ends with it
        tool = subprocess.Popen(command, cwd=folder, stdout=out, stderr=subprocess.STDOUT, process_group=0, env={**os.environ, **more})
        running.add(tool)
        if ended.is_set():  # ended from outside between the start and here
            kill(tool)
        try:
            status = tool.wait(seconds)
        except subprocess.TimeoutExpired:
            raise Bad(f"no verdict: the check took more than {seconds} s") from None
        finally:
            kill(tool)
            tool.wait()
            running.discard(tool)
    return status, log.read_text(encoding="utf-8", errors="replace")


def prove(crate, work):
    """Sees that a crate is proved as it is, once: rt keeps what it checked, and builds the libraries below it."""
    with proving[crate]:
        if crate not in proved:
            proved[crate] = not check(["rt", "check"], edits.ROOT / "crates" / crate, work / f"{crate}.log", None)[0]
    if not proved[crate]:
        raise Bad(f"no verdict: {crate} is not proved without the edit")


def errors(text):
    """The errors of a check: each file and line, whether it has a name, and what is said without what is quoted."""
    for file, line, name, said in (found.groups() for found in ERROR.finditer(text)):
        yield file, int(line or 0), bool(name), QUOTED.sub("", PART.sub("is no pair", said))


def unread(edit, text):
    """The file and line of the first error by which the edited text cannot be read, or ''."""
    changed = {file.removeprefix("crates/") for file, _, _ in edit.pairs}
    for file, line, named, said in errors(text):
        own = file in changed or file.split("/")[1] in ("src", "specs")
        if own and (UNREAD.search(said) or not named and not NAMES.search(said)):
            return f"{file}:{line}"
    return ""


def refused_at(edit, status, text, to):
    """Where the edit is refused, and whether that is where it must be; '' if it is not. A tool that failed gave no verdict."""
    if status == 0:
        return "", False
    if status != 1:
        raise Bad(f"no verdict: the check ended with exit {status}")
    if not re.search(r"^(logic=not-proved|only=\d+ proved=\d+)", text, re.M):
        raise Bad("no verdict: the edit did not reach the prover")
    if unread(edit, text):
        raise Bad(f"no verdict: the edited text cannot be read at {unread(edit, text)}")
    found = list(errors(text))
    places = [(file, line) for file, line, _, said in found if not NAMES.search(said)]
    # an open goal says nothing where the function's proof names what is gone, since its answer may be what is not read
    folder = edit.at if edit.function() else f"{edit.crate}/proofs"
    gone = any(file.startswith(folder + "/") and NAMES.search(said) for file, _, _, said in found)
    goals = [(file, int(line)) for file, line in GOAL.findall(text)] if not gone and open_at(edit, text) else []
    if not places and not goals:
        raise Bad("no verdict: only proofs that name what is gone")
    lines = edit.lines(to) if edit.fact else None
    fit = [place for place in places if edit.fits(*place, lines)] + goals
    return "{}:{}".format(*(fit or places)[0]), bool(fit)


def open_at(edit, text):
    """Whether the edit's function, or one of the crate's where it names none, has a goal that is not proved."""
    name = edit.function() or ("" if edit.at else r"\S+")
    return bool(name and re.search(rf"^fn {edit.crate}::{name}: (not proved|no proof)(?!.*it calls)", text, re.M))


def tried(edit, to):
    """What the prover says of a copy with the edit made: where it is refused, or ''; whether that is where it must be; and its words."""
    os.makedirs(to / "lent")  # where the checker puts what it reads of libraries
    edits.make(edit, to)
    status, text = check(edits.command(edit, to, kit()), to, to / "check.log", SECONDS, TMPDIR=str(to / "lent"))
    return *refused_at(edit, status, text, to), text


def judge(edit, work):
    """Whether the edit is refused, and by what first; and the seconds."""
    to, start = work / edit.name, time.monotonic()
    try:
        if ended.is_set():
            raise Bad("ended from outside")
        prove(edit.crate, work)
        start = time.monotonic()
        place, well, _ = tried(edit, to)
        said = f"refused at {place}" if well else f"FAILED, refused at {place}, not at {edit.at or edit.crate} {edit.fact or ''}".rstrip()
        return well, said if place else "FAILED, accepted: everything is proved with this edit", time.monotonic() - start
    except (Bad, OSError) as bad:
        return False, f"FAILED, {bad}", time.monotonic() - start
    finally:
        shutil.rmtree(to, ignore_errors=True)


def found(names):
    """The edits of these names, and for a name of none why. First one of each crate, the lowest crate first, then the next of each."""
    known, bad, order = collections.defaultdict(list), [], list(edits.dependencies())
    for name in names:
        try:
            edit = Edit(name)
            known[edit.crate].append(edit)
        except Bad as why:
            bad.append((name, (False, f"FAILED, {why}", 0)))
    rounds = [(number, order.index(crate), edit) for crate, some in known.items() for number, edit in enumerate(turned(some))]
    return [edit for _, _, edit in sorted(rounds, key=lambda row: row[:2])], bad


def turned(some):
    """The edits of a crate, begun with another one at each commit."""
    ran = subprocess.run(["git", "rev-list", "--count", "HEAD"], cwd=edits.ROOT, capture_output=True, text=True)
    by = int(ran.stdout) * 5 % len(some) if ran.stdout.strip() else 0
    return some[by:] + some[:by]


def judged(todo, work, until):
    """Each edit with what it comes to, as it is judged, as long as there is time to begin one."""
    todo, jobs = list(todo), {}
    with concurrent.futures.ThreadPoolExecutor(JOBS) as pool:
        while todo or jobs:
            while todo and len(jobs) < JOBS:
                edit = todo.pop(0)
                jobs[pool.submit(judge, edit, work)] = edit
            done, _ = concurrent.futures.wait(jobs, None, concurrent.futures.FIRST_COMPLETED)
            for job in done:
                yield jobs.pop(job).name, job.result()
            if todo and time.monotonic() > until:
                print(f"the time is over: {len(todo)} edits are not tried", flush=True)
                todo = []


def end(*_):
    """Ended from outside, it still ends what it started, and each copy is removed."""
    ended.set()
    for tool in list(running):
        kill(tool)


def listing():
    for edit in sorted(map(Edit, edits.names()), key=lambda edit: (edit.crate, edit.name)):
        print(f"{edit.crate} | {edit.name} | {edit.what} | {edit.refused or ''}")


def main(words):
    if words == ["--list"]:
        listing()
        return 0
    signal.signal(signal.SIGTERM, end)
    timed = words[:1] == ["--minutes"]
    until = time.monotonic() + 60 * float(words[1]) if timed else float("inf")
    todo, bad = found(edits.names() if timed or not words else words)
    passed = count = 0
    work = room()
    try:
        for name, (ok, said, seconds) in itertools.chain(bad, judged(todo, work, until)):
            passed, count = passed + ok, count + 1
            print(f"mutant {name}: {said} ({seconds:.0f} s)", flush=True)
    finally:
        shutil.rmtree(work, ignore_errors=True)
    print(f"{passed} passed, {count - passed} failed")
    return int(passed != count or not count or ended.is_set())


if __name__ == "__main__":
    sys.exit(main(sys.argv[1:]))
