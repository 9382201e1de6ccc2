#!/usr/bin/env python3
"""Not proved, tested by tools/test_prove.py: proves a crate and what it depends on, and says how far it is.

    prove.py NAME          'rt check' in the crate's folder; of a program 'rt run', which leaves crates/NAME/out/NAME
    prove.py --lib NAME    'rt lib', and target/staticlib/libNAME.a; of a crate NAME_c, where there is one (its functions for C)
    prove.py --module NAME the same, and the module that rattle hands to its clang, for other processors (tools/cross.py)
    prove.py --gate NAME.. the same right after 'rt ci' has passed, over the libraries that it left, if they are all of them; the last one's module

All that the prover says goes to target/prove-NAME.log. One line for each crate below as it is proved anew, with the seconds since the start.
If one is not proved, the end of the log is shown.
"""

import re
import shutil
import subprocess
import sys
import time

import kit
from kit import ROOT

CROSS = ROOT / "target" / "cross"


def shown(line, done, start):
    """What a reader sees of a line of the prover's: a library or a crate that is checked, or None."""
    found = re.match(r"crate (\w+): modules loaded=(\d+) checked=(\d+)", line)
    if not found or found[1] in done:
        return None
    done.add(found[1])
    return f"checked {found[1]}, {time.monotonic() - start:.0f} s"


def followed(command, folder, log, start):
    """A command's status; what it says goes into the log."""
    done = set()
    with log.open("a") as out:
        ran = subprocess.Popen(command, cwd=folder, stdin=subprocess.DEVNULL, stdout=subprocess.PIPE, stderr=subprocess.STDOUT, text=True, errors="replace")
        for line in ran.stdout:
            out.write(line)
            said = shown(line, done, start)
            if said:
                print(said, flush=True)
    return ran.wait()


def module(crate, crates, log, start):
    """The static library by rattle itself, through a toolchain that keeps the module: its status."""
    folder = ROOT / "crates" / crate
    for made in (CROSS, folder / "out"):
        made.mkdir(parents=True, exist_ok=True)
    for old in (CROSS / "module.bc", CROSS / "words"):
        old.unlink(missing_ok=True)
    with kit.keeping(CROSS) as toolchain:
        return followed([*kit.words(crate, crates, toolchain, f"out/lib{crate}.a"), *kit.KEPT], folder, log, start)


def proved(name, way, log):
    """Proves and builds what is asked for: the status, and what was made."""
    crates, start = kit.rows((ROOT / "crates.txt").read_text()), time.monotonic()
    crate = name if way == "check" else kit.library(name, crates)
    if crate not in crates:
        raise kit.Missing(f"crates.txt names no crate {name}")
    folder = ROOT / "crates" / crate
    print(f"proving {crate} and what it needs, {len(kit.below(crate, crates)) + 1} crates; the prover's lines go to {log.relative_to(ROOT)}", flush=True)
    if way == "check":
        is_program = (folder / "src" / "main.rt").exists()
        return followed(["rt", "run" if is_program else "check"], folder, log, start), folder / "out" / name if is_program else None
    if way == "gate" and kit.left_by_ci(crate, crates):
        status = module(crate, crates, log, start)
    else:
        status = followed(["rt", "lib", *kit.CPU], folder, log, start)
        if status == 0 and way != "lib":
            status = module(crate, crates, log, start)
    if status == 0:
        kit.archive(name).parent.mkdir(parents=True, exist_ok=True)
        shutil.copyfile(folder / "out" / f"lib{crate}.a", kit.archive(name))
    return status, kit.archive(name)


def one(name, way):
    """One crate: the status."""
    log = ROOT / "target" / f"prove-{name}.log"
    log.parent.mkdir(exist_ok=True)
    log.unlink(missing_ok=True)
    start = time.monotonic()
    status, made = proved(name, way, log)
    if status != 0:
        print(f"not proved; the end of {log.relative_to(ROOT)}:")
        print("\n".join(log.read_text().splitlines()[-15:]))
    else:
        print(f"{'built ' + str(made.relative_to(ROOT)) if made else 'proved ' + name}, {time.monotonic() - start:.0f} s")
    return status


def main(words):
    way = words[0][2:] if words[:1] in (["--lib"], ["--module"], ["--gate"]) else "check"
    names = words if way == "check" else words[1:]
    if not names or (len(names) > 1 and way != "gate") or names[0].startswith("-"):
        print(__doc__.strip())
        return 0 if words == ["--help"] else 2
    return max(one(name, way) for name in names)


if __name__ == "__main__":
    try:
        sys.exit(main(sys.argv[1:]))
    except (kit.Missing, OSError) as bad:
        sys.exit(f"prove.py: {bad}")
