#!/usr/bin/env python3
"""The speed of the proved keeper beside the C port and the reference, as tables in Markdown. The keeper's library must be built.

run.py [--into FILE]    measures and prints the tables; or puts them into FILE, in place of all below its heading '## Tables'
run.py --search         measures and prints the table of the search for a free record alone
run.py --sheets         measures and prints the table of design sheets
run.py --chip           measures and prints the table of the chip
run.py --payers         measures and prints the table of who pays for each slot
run.py --before FOLDER  measures and prints lists of 1,000 beside a library of the keeper that has no chip: FOLDER is a copy of the repository of then,
                        with its library built
run.py --save           measures and prints the table of a save on a file, beside SQLite if it is installed
"""
import datetime
import os
import pathlib
import re
import shutil
import subprocess
import sys
import tempfile

ROOT = pathlib.Path(__file__).resolve().parent.parent
LIBRARY = ROOT / "target" / "staticlib" / "libkeeper.a"
OUT = ROOT / "target" / "bench"
BENCH = ROOT / "target" / "cargo" / "bench-run" / "bench"
SEARCH = OUT / "search"
ALONE = OUT / "alone"
SEARCH_ALONE = OUT / "search_alone"
CARRY = OUT / "carry"
CHIPS = OUT / "chips"
PAYERS = OUT / "payers"
SAVE = OUT / "save"
DISK_LIBRARY = ROOT / "target" / "staticlib" / "libdisk.a"
# the calls that bench/save.c counts, and how many saves it makes
COUNTED = "-Wl," + ",".join(f"--wrap={call}" for call in ("pwrite", "pwrite64", "write", "fsync", "fdatasync"))
SAVES = "1000"
SQLITE = pathlib.Path("/usr/include/sqlite3.h")
GCC = ["gcc", "-O2", "-Wall", "-Wextra", "-Werror"]
PORT = ["keeper", "accounts", "rules", "questions", "events", "chip", "sheets"]
# what the C port's files share; in the port with the old search each name is another
CALLS = ["keeper_format", "keeper_restart", "keeper_apply", "keeper_apply_all", "keeper_mend", "keeper_page_look", "keeper_export", "keeper_import"]
INSIDE = [
    "fits_disk", "fits_memory", "keeps_disk_rules", "keeps_memory_rules", "first_refusal", "treatment", "carry_out", "refuses_move", "move_pages", "set_limit", "are_lower",
    "common", "refuses_create", "pick_by_hand", "pick_near", "take", "chip_copy", "chip_put", "chip_drop", "chip_drop_stale",
]
BUILD = "cargo build --quiet --offline --profile bench-run --manifest-path tests/reference/Cargo.toml --target-dir target/cargo --bin bench"
# callgrind counts a repeated string instruction once a step: in the counting run the C library is to use none
NO_REPEATS = {"GLIBC_TUNABLES": "glibc.cpu.hwcaps=-ERMS,-FSRM"}
SIZES = ["smallest", "middle", "largest"]
# where design sheets are measured
CARRIED = {"middle": "W 64 R 512 F 16 S 16 N 64 Q 4 B 32", "largest": "W 1024 R 4096 F 64 S 64 N 256 Q 16 B 256"}
SECONDS = "20"
# where a library's code is put in a line of 64 bytes, and how often two libraries take turns
PLACES = [64, 16, 32, 48]
ROUNDS = 4
HEADING = "## Tables"
# the mean leaves these out: they are no events of a running keeper
APART = ["format", "restart", "refused"]
MEAN = "mean of all but format, restart and refused"


def output(*words, more={}):
    """What a command prints."""
    done = subprocess.run(words, cwd=ROOT, check=True, stdout=subprocess.PIPE, text=True, env={**os.environ, **more})
    return done.stdout


def fields(text):
    """The lines of text as a dictionary: the first field, and the others."""
    lines = [line.split("\t") for line in text.splitlines()]
    return {line[0]: line[1:] for line in lines}


def counted(size):
    """Instructions of a call, by keeper and kind: a short replay under callgrind, one function a keeper and kind."""
    file = OUT / f"{size}.callgrind"
    run = ["valgrind", "--quiet", "--tool=callgrind", "--instr-atstart=no", f"--callgrind-out-file={file}"]
    calls = fields(output(*run, str(BENCH), "count", size, more=NO_REPEATS))
    listing = output("callgrind_annotate", "--inclusive=yes", "--threshold=100", "--show-percs=no", str(file))
    counts = {}
    for count, keeper, kind in re.findall(r"^ *([\d,]+) .*:bench_(keeper|C)_(\w+)", listing, re.MULTILINE):
        kind = kind.replace("_", " ")
        mean = int(count.replace(",", "")) / int(calls[kind][0])
        counts[keeper, kind] = max(mean, counts.get((keeper, kind), 0))
    return counts


def measured(size):
    """The sizes as text, and by kind: calls, times of keeper, C and reference, instructions of keeper and C; their mean last."""
    print(f"{size} ..", file=sys.stderr)
    times = fields(output(str(BENCH), "time", size, SECONDS))
    sizes, rounds = times.pop("sizes")[0], times.pop("rounds")[0]
    counts = counted(size)
    rows = {kind: [int(calls), *map(float, ns), counts["keeper", kind], counts["C", kind]]
            for kind, (calls, *ns) in times.items()}
    mixed = [values for kind, values in rows.items() if kind not in APART]
    rows[MEAN] = ["", *[sum(column) / len(mixed) for column in list(zip(*mixed))[1:]]]
    return f"{size.capitalize()}: {sizes}", rounds, rows


def built_alone():
    """A library of the proved search alone: a crate of bench/alone.txt beside the crates that it needs, outside the repository, where rt wants no
    other crates. Its check begins with what the checks here kept."""
    needs = ["tables", "sheets", "model", "leaves"]
    ALONE.mkdir(parents=True, exist_ok=True)
    with tempfile.TemporaryDirectory() as room:
        root = pathlib.Path(room)
        for name in needs:
            shutil.copytree(ROOT / "crates" / name, root / "crates" / name, ignore=shutil.ignore_patterns("out"))
        (root / "crates/alone/src").mkdir(parents=True)
        lines = [line for line in (ROOT / "crates.txt").read_text().splitlines() if line.split(":")[0] in needs]
        (root / "crates.txt").write_text("\n".join([*lines, f"alone staticlib: {' '.join(needs)}"]) + "\n")
        shutil.copy(ROOT / "bench" / "alone.txt", root / "crates/alone/src/lib.rt")
        subprocess.run(["rt", "lib", "--cpu", "x86-64"], cwd=root / "crates/alone", check=True, capture_output=True)
        shutil.copy(root / "crates/alone/out/libalone.a", ALONE)
    return str(ALONE / "libalone.a")


def built_port(side):
    """The C port's objects, as it is (c) and with the old search (old), each with names of its own."""
    names = {"c": [f"-D{call}={call.replace('keeper', 'c_port')}" for call in CALLS] + ["-DPICK_ALONE=c_port_pick"],
             "old": ["-DOLD_SEARCH", *(f"-D{call}={call.replace('keeper', 'old_port')}" for call in CALLS), *(f"-D{name}=old_{name}" for name in INSIDE),
                     "-DPICK_ALONE=old_port_pick"]}[side]
    objects = [str(OUT / f"{side}_{file}.o") for file in PORT]
    for file, made in zip(PORT, objects):
        output(*GCC, "-std=c11", *names, "-c", "-o", made, f"bench/{file}.c")
    return objects


def built_search():
    """Builds bench/search.c with the proved keeper and two C ports, as it is and with the old search; and bench/alone.c with the three searches."""
    objects = built_port("c") + built_port("old")
    output(*GCC, "-std=gnu11", "-o", str(SEARCH), "bench/search.c", *objects, str(LIBRARY))
    output(*GCC, "-std=gnu11", "-o", str(SEARCH_ALONE), "bench/alone.c", *objects, built_alone())


def counted_calls(program, calls, *words):
    """Instructions of each call that a program makes, so many a case, by case: callgrind writes a file for each call."""
    file = OUT / f"{program.name}.callgrind"
    for old in OUT.glob(f"{file.name}*"):
        old.unlink()
    run = ["valgrind", "--quiet", "--tool=callgrind", "--instr-atstart=no", f"--callgrind-out-file={file}"]
    cases = output(*run, str(program), *words, more=NO_REPEATS).splitlines()
    texts = [OUT.joinpath(f"{file.name}.{n + 1}").read_text() for n in range(calls * len(cases))]
    counts = [int(re.search(r"^totals: (\d+)", text, re.MULTILINE)[1]) for text in texts]
    return {case: counts[calls * n:calls * (n + 1)] for n, case in enumerate(cases)}


def times_of(lines):
    """By case: the figures after it."""
    return {line.rsplit("\t", 3)[0]: [float(cell) for cell in line.split("\t")[3:]] for line in lines}


def search():
    """The tables of the search: alone, less a call that does nothing with the same arguments, and of the whole fault."""
    print("search ..", file=sys.stderr)
    built_search()
    alone, alone_counts = times_of(output(str(SEARCH_ALONE), SECONDS).splitlines()), counted_calls(SEARCH_ALONE, 6)
    first, *lines = output(str(SEARCH), SECONDS).splitlines()
    times, counts = times_of(lines), counted_calls(SEARCH, 3)
    yield f"### The search for a free record: R 4096, one record free\n\n{first.split()[1]} rounds of faults. The old search is the C port's with that of `bench/old_search.h`.\n"
    yield "| from | free record | search, nanoseconds: old | new | C | search, instructions: old | new | C | fault, nanoseconds: C, old search | keeper | C | fault, instructions: C, old search | keeper | C |"
    yield "|---|---|" + "--:|" * 12
    for case in times:
        by, distance, side = case.split("\t")
        ns = [f"{alone[case][n]:,.1f}" for n in (2, 0, 1)]
        own = [f"{alone_counts[case][2 * n + 1] - alone_counts[case][2 * n]:,}" for n in (2, 0, 1)]
        whole = [f"{times[case][n]:,.0f}" for n in (2, 0, 1)] + [f"{counts[case][n]:,}" for n in (2, 0, 1)]
        place = "at the hand" if by == "none" else f"{int(distance):,} {side}"
        yield f"| {'hand' if by == 'none' else by} | {place} | {' | '.join(ns + own + whole)} |"
    yield ""


def sheets(names):
    """The table of design sheets, for the sizes by their names."""
    print("sheets ..", file=sys.stderr)
    output(*GCC, "-std=gnu11", "-o", str(CARRY), "bench/carry.c", *built_port("c"), str(LIBRARY))
    yield "### Design sheets: a design all of whose pages are listed\n"
    yield "Export and import of it, into an empty slot while as many records are free as it has pages; who lists the others is by chance. Nanoseconds a call.\n"
    yield "| size | call | of the words | keeper | C | keeper/C | instructions keeper/C | keeper instructions | C instructions |\n|---|---|---|" + "--:|" * 6
    for size, name in names.items():
        times, counts = fields(output(str(CARRY), size, SECONDS)), counted_calls(CARRY, 2, size)
        for case in counts:
            call, design = case.split(": ")
            keeper, c_port = map(float, times[case])
            own, other = counts[case]
            yield f"| {name} | {call} | {design} | {keeper:,.0f} | {c_port:,.0f} | {keeper / c_port:.2f} | {own / other:.2f} | {own:,} | {other:,} |"
    yield ""


def chip():
    """The table of the chip, at the largest sizes but for B."""
    print("chip ..", file=sys.stderr)
    output(*GCC, "-std=gnu11", "-o", str(CHIPS), "bench/chips.c", *built_port("c"), str(LIBRARY))
    times, counts = fields(output(str(CHIPS), SECONDS)), counted_calls(CHIPS, 2)
    yield "### The chip: W 1024 R 4096 F 64 S 64 N 256 Q 16\n"
    yield "Nanoseconds an event, single calls and lists; instructions of the whole call. 512 records are live, and a filled place has the copy of one.\n"
    yield "| call | keeper | C | keeper/C | instructions keeper/C | keeper instructions | C instructions |\n|---|" + "--:|" * 6
    for case, (own, other) in counts.items():
        keeper, c_port = map(float, times[case])
        yield f"| {case} | {keeper:,.0f} | {c_port:,.0f} | {keeper / c_port:.2f} | {own / other:.2f} | {own:,} | {other:,} |"
    yield ""


def payers():
    """The table of who pays for each slot, alone."""
    print("payers ..", file=sys.stderr)
    output(*GCC, "-std=gnu11", "-o", str(PAYERS), "bench/payers.c", built_alone())
    times, counts = fields(output(str(PAYERS), "3")), counted_calls(PAYERS, 2)
    yield "### Who pays for each slot: S 64 Q 16\n"
    yield "The table of the payers alone, its 64 entries cleared before. Nanoseconds a table.\n"
    yield "| accounts | keeper | C | keeper/C | instructions keeper/C | keeper instructions | C instructions |\n|---|" + "--:|" * 6
    for case, (own, other) in counts.items():
        keeper, c_port = map(float, times[case])
        yield f"| {case} | {keeper:,.0f} | {c_port:,.0f} | {keeper / c_port:.2f} | {own / other:.2f} | {own:,} | {other:,} |"
    yield ""


def without_chip(folder):
    """The table of lists of 1,000 with a chip of one place, beside a library that has no chip. Each library is linked at four places of a line of
    64 bytes, and each time is the least of all: programs of their own, in turn."""
    subprocess.run(BUILD.split(), cwd=ROOT, check=True)
    sides = [[OUT / f"lists_{side}_{place}" for place in PLACES] for side in ("with", "without")]
    for programs, root in zip(sides, [ROOT, folder]):
        for program, place in zip(programs, PLACES):
            output(*GCC, "-std=gnu11", f"-DPLACE={place}", f"-I{root}/include", "-o", str(program), "bench/lists.c", str(root / "target/staticlib/libkeeper.a"))
    yield "### Lists of 1,000, B 1, beside the keeper without a chip\n"
    yield "Nanoseconds an event, the least of four places of the code; instructions of the whole call.\n"
    yield "| size | events | with a chip | without | with/without | instructions with/without | instructions with | without |\n|---|---|" + "--:|" * 6
    for size, name in CARRIED.items():
        print(f"{size} ..", file=sys.stderr)
        for kinds, (file,) in fields(output(str(BENCH), "write", size, str(OUT))).items():
            turns = [[min(float(output(str(program), file, "0.1")) for program in programs) for programs in sides] for _ in range(ROUNDS)]
            with_chip, without = (min(times) for times in zip(*turns))
            own, other = (next(iter(counted_calls(programs[0], 1, file).values()))[0] for programs in sides)
            yield f"| {name.rsplit(' B', 1)[0]} | {kinds} | {with_chip:,.1f} | {without:,.1f} | {with_chip / without:.2f} | {own / other:.2f} | {own:,} | {other:,} |"
    yield ""


def ratios(_, keeper, c_port, reference, keeper_count, c_count):
    return f"{keeper / c_port:.2f} | {keeper / reference:.2f} | {keeper_count / c_count:.2f}"


def summary(sizes):
    yield "| size | time keeper/C | time keeper/reference | instructions keeper/C |"
    yield "|---|--:|--:|--:|"
    yield from (f"| {name} | {ratios(*rows[MEAN])} |" for name, _, rows in sizes)
    yield f"\nEach the {MEAN}.\n"


def table(name, rounds, rows):
    yield f"### {name}\n\n{rounds} rounds. Times in nanoseconds a call.\n"
    yield "| event | calls | keeper | C | reference | keeper/C | keeper/reference | instructions keeper/C | keeper instructions | C instructions |"
    yield "|---|" + "--:|" * 9
    for kind, row in rows.items():
        calls, *times = row[:4]
        figures = " | ".join(f"{time:,.0f}" for time in times)
        yield f"| {kind} | {calls} | {figures} | {ratios(*row)} | {row[4]:,.0f} | {row[5]:,.0f} |"
    yield ""


def in_lists(size):
    """By the kinds of a stretch: the nanoseconds of an event, keeper and C, by the length of the lists; single calls first."""
    lines = [line.split("\t") for line in output(str(BENCH), "lists", size, SECONDS).splitlines()]
    return {kinds: [(float(keeper), float(c_port)) for keeper, c_port in zip(times[::2], times[1::2])] for kinds, *times in lines}


def lists_table(name, size):
    yield f"### In lists, {name[0].lower()}{name[1:]}\n\nNanoseconds an event, keeper and C: single calls, and lists of 1, 10, 100 and 1,000 requests in one call.\n"
    yield "| events | single | 1 | 10 | 100 | 1,000 | keeper/C in lists of 1,000 | single/lists of 1,000 |"
    yield "|---|" + "--:|" * 7
    for kinds, times in in_lists(size).items():
        (single, _), (keeper, c_port) = times[0], times[-1]
        figures = " | ".join(f"{a:,.0f} {b:,.0f}" for a, b in times)
        yield f"| {kinds} | {figures} | {keeper / c_port:.2f} | {single / keeper:.1f} |"
    yield ""


def machine():
    """When and where, without the machine's name."""
    model = re.search(r"model name\s*: (.*)", pathlib.Path("/proc/cpuinfo").read_text())[1]
    versions = [output(*words).splitlines()[0] for words in
                (["gcc", "--version"], ["rustc", "--version"], ["rt", "version"], ["valgrind", "--version"])]
    yield f"{datetime.date.today()}. {model}, {os.cpu_count()} cores. {'; '.join(versions)}.\n"


def save():
    """The table of a save of ten pages and a map on a file, beside SQLite where it is installed."""
    print("save ..", file=sys.stderr)
    beside = ["-DWITH_SQLITE", "-l:libsqlite3.a", "-lm", "-ldl", "-lpthread"] if SQLITE.exists() else []
    sources = ["bench/save.c", *sorted(str(path.relative_to(ROOT)) for path in (ROOT / "examples" / "sectordisk").glob("filedisk*.c"))]
    output(*GCC, "-std=c99", "-Iinclude", "-Iexamples/sectordisk", *sources, str(LIBRARY), str(DISK_LIBRARY), COUNTED, *beside, "-o", str(SAVE))
    yield "### A save of ten pages of 256 words and their map, on a file\n"
    yield "Each save, the mean of 1,000: calls that write, their bytes, syncs, microseconds of the processor's time and of the clock. The file system is that of the working folder.\n"
    yield "| | writes | bytes | syncs | processor | clock |"
    yield "|---|--:|--:|--:|--:|--:|"
    for line in output(str(SAVE), str(OUT), SAVES).splitlines():
        name, *numbers = line.split("\t")
        yield f"| {name} | {' | '.join(f'{float(number):,.{places}f}' for number, places in zip(numbers, (0, 0, 2, 0, 0)))} |" if numbers else "\n" + name
    yield ""


def main():
    into = pathlib.Path(sys.argv[2]) if sys.argv[1:2] == ["--into"] and len(sys.argv) == 3 else None
    tables = {"--search": search, "--sheets": lambda: sheets(CARRIED), "--chip": chip, "--payers": payers, "--save": save}
    alone = tables.get(sys.argv[1]) if len(sys.argv) == 2 else None
    if sys.argv[1:2] == ["--before"] and len(sys.argv) == 3:
        alone = lambda: without_chip(pathlib.Path(sys.argv[2]).resolve())
    if sys.argv[1:] and not into and not alone:
        sys.exit(__doc__)
    if not LIBRARY.exists():
        sys.exit("run.py: the keeper's library is not built: make bench, or tools/prove.py --lib keeper")
    if not DISK_LIBRARY.exists():
        sys.exit("run.py: the disk's library is not built: make bench, or tools/prove.py --lib disk")
    OUT.mkdir(parents=True, exist_ok=True)
    if alone:
        print("\n".join([*machine(), *alone()]))
        return
    searches, carried, chips, saves = [*search(), *payers()], list(sheets(CARRIED)), list(chip()), list(save())
    subprocess.run(BUILD.split(), cwd=ROOT, check=True)
    sizes = [measured(size) for size in SIZES]
    lists = [line for size, (name, _, _) in zip(SIZES, sizes) for line in lists_table(name, size)]
    lines = [*machine(), *summary(sizes), *searches, *carried, *chips, *saves, *(line for size in sizes for line in table(*size)), *lists]
    text = "\n".join(lines)
    if into:
        above = into.read_text().split(HEADING)[0]
        into.write_text(f"{above}{HEADING}\n\n{text.rstrip()}\n")
    else:
        print(text)


if __name__ == "__main__":
    main()
