"""The lent tables as C and Rust text: the header, the C port's layout, and the calls that the reference links."""

import re

import lent
from lent import CALLS, PARTS, in_call, of_part

C_TYPES = {"u8": "uint8_t", "u16": "uint16_t", "u32": "uint32_t", "Frame": "KeeperFrame", "Pool": "KeeperPool"}
# how the C port calls a slice of such elements
SLICES = {"u8": "bytes", "u16": "halves", "u32": "words", "Frame": "frames"}
RUST_TYPES = {
    "KeeperSizes": "Sizes", "KeeperRequest": "Request", "size_t": "usize", "const uint16_t *": "*const u16", "const uint32_t *": "*const u32",
    "uint32_t *": "*mut u32", "uint32_t": "u32", "const uint8_t *": "*const u8", "uint8_t *": "*mut u8",
}

# each call's name, its answer, what it takes before the tables, and what the header says of it
NAMES = {
    "format": "keeper_format", "restart": "keeper_restart", "apply": "keeper_apply", "apply_all": "keeper_apply_all",
    "look": "keeper_page_look", "mend": "keeper_mend", "export": "keeper_export", "import": "keeper_import",
}
ANSWERS = {call: "Part" if call == "look" else "Answer" for call in CALLS}
FIRST = {
    "format": ["KeeperSizes sizes", "const uint16_t *wanted, size_t wanted_count"],
    "restart": ["KeeperSizes sizes"],
    "apply": ["KeeperSizes sizes", "KeeperRequest request"],
    "apply_all": ["KeeperSizes sizes", "const uint32_t *requests, size_t requests_count", "uint32_t *answers, size_t answers_count"],
    "look": ["KeeperSizes sizes", "size_t slot", "size_t page"],
    "mend": ["KeeperSizes sizes"],
    "export": ["KeeperSizes sizes", "size_t slot", "uint8_t *sheet, size_t sheet_count"],
    "import": ["KeeperSizes sizes", "size_t slot", "size_t account", "uint32_t number", "const uint8_t *sheet, size_t sheet_count"],
}
# what a call takes behind the tables, and its count
LAST = {"mend": [("uint32_t *changes, size_t changes_count", "4 * S * (N + 2), or more")]}
# how many numbers a list beside the tables has
COUNTS = {"wanted": "Q", "requests": "5 a request", "answers": "2 an answer", "sheet": "bytes"}
COMMENTS = {
    "format": [
        "Zeroes the disk part, once for a new disk, and stores the wanted parents, one an account: a lower account each. Account 0's",
        "is not looked at, and stored as 0. Lent: the disk part. Answers 0, 1, or 3 for a parent that is not lower.",
    ],
    "restart": [
        "Sets up the memory part from the disk part alone: the first call after a format or a cut, made again while it is",
        "refused. Carried out, it raises highest to the highest number below 2,147,483,648 in a slot, where it is lower, as on an older",
        "pack: that is its one store, on the device before the next call. Lent: everything; the memory part and highest are changed.",
        "Answers 0, 1 or 2.",
    ],
    "apply": ["Every other event, asked for by a request. Lent: everything."],
    "apply_all": [
        "A list of requests in one call, five numbers each: carried out in order, each as keeper_apply would, up to the shorter",
        "of the two lists; the numbers past that stay. A refused request changes nothing, and the next one follows. The tables",
        "are checked once: refused with 1 or 2, that is every answer. Returns the last answer, or 0, 0 for an empty list.",
        "Arrays of KeeperRequest and KeeperAnswer: KEEPER_REQUESTS and KEEPER_ANSWERS. Lent: everything.",
    ],
    "look": [
        "A page look: which part of frame_words the page is. Lent: everything, only read; the pool goes by value. Refused as a",
        "read is.",
    ],
    "mend": [
        "Mends a disk part that restart answers 2, before restart is called again; docs/USING.md says what is lost. Lent: the disk",
        "part, of which records, limits, parents and highest are only read, and a list for the changes, four numbers a place",
        "(KEEPER_LEND_CHANGES). A parent that is not lower stays, and restart answers 2 still.",
        "Answers 0, 1 or 24. The result is how many changes are listed; the list's later places are untouched.",
    ],
    "export": [
        "Writes a design's sheet into a buffer: its number, and each page that is not all zeros. The design is not active, so all of",
        "it is on the disk. KEEPER_SHEET_BYTES(N, W) bytes are always enough. Lent: everything, only read; the pool goes by value.",
        "Answers 0, 1, 2, 3, 4, 9 or 31. The result is the sheet's length; the bytes after it, and all on a refusal, are untouched.",
    ],
    "import": [
        "Makes a design of a sheet, in an empty slot, for an account, with a number that the caller gives; it is not active. Any",
        "bytes are a sheet to ask about. Lent: everything; records, numbers, accounts, maps, highest, states, owners, free_map, used and",
        "pool are changed. Answers 0, 1, 2, 3, 32, 5, 6, 33, 29, 30, 18 or 19. The result is the number that stands in the sheet. It makes",
        "several stores on the disk part; docs/USING.md says in which order they come to the device.",
    ],
}


# ── the header ──
def parameter(table, call):
    """A table as parameters in C."""
    const, kind = "const " if table.lent[call] == "ref" else "", C_TYPES[table.element]
    if table.lent[call] == "val":
        return f"{kind} {table.name}"
    pointer = f"{const}{kind} *{table.name}"
    return pointer if table.is_one() else f"{pointer}, size_t {table.name}_count"


def counted(word):
    """How many numbers a list beside the tables has, if it is one."""
    named = re.search(r"\*(\w+)", word)
    return COUNTS.get(named[1], "") if named else ""


def prototype(call):
    """A call as the header declares it, with the count of each table."""
    tables = in_call(call)
    last = LAST.get(call, [])
    words = FIRST[call] + [parameter(table, call) for table in tables] + [word for word, _ in last]
    lengths = [counted(word) for word in FIRST[call]] + ["" if table.is_one() else table.length for table in tables] + [length for _, length in last]
    words = [word + "," for word in words[:-1]] + words[-1:]
    width = max(map(len, words)) + 1
    body = [f"    {word:{width}}/* {length} */\n" if length else f"    {word}\n" for word, length in zip(words, lengths)]
    comment = "\n * ".join(COMMENTS[call])
    return f"/* {comment} */\nKeeper{ANSWERS[call]} {NAMES[call]}(\n{''.join(body)});\n"


def macro(head, lines):
    """A macro of several lines, the line ends in one column."""
    lines = [head] + ["    " + line for line in lines]
    width = max(map(len, lines)) + 1
    return "".join(f"{line:{width}}\\\n" for line in lines[:-1]) + lines[-1] + "\n"


def held(length):
    """A length in a macro whose parameters are the sizes."""
    letters = "".join(lent.letters())
    return re.sub(rf"\b([{letters}])\b", r"(\1)", length) if " " in length else length


def members(part):
    """A part's tables as members of a struct, for sizes that are constants."""
    tables = of_part(part)
    words = [f"{C_TYPES[t.element]} {t.name}{'' if t.is_one() else f'[{held(t.length)}]'};" for t in tables]
    width = max(map(len, words)) + 1
    lines = [f"{word:{width}}/* {table.meaning} */" for word, table in zip(words, tables)]
    return macro(f"#define KEEPER_{part.upper()}_TABLES({', '.join(lent.letters())})", lines)


def arguments(part):
    """A part's tables of numbers as arguments."""
    words = [f"KEEPER_LEND(({part}).{table.name})" for table in of_part(part) if not table.is_struct()]
    return macro(f"#define KEEPER_LEND_{part.upper()}({part})", [word + "," for word in words[:-1]] + words[-1:])


def header():
    return (
        "/* The lent tables as members of a struct, where the sizes are constants: each with exactly its length. */\n"
        + "".join(map(members, PARTS))
        + "\n/* A table as arguments, a pointer and a count of elements; and a struct's tables of numbers, in the order of the calls. */\n"
        + "#define KEEPER_LEND(table) (table), sizeof(table) / sizeof *(table)\n"
        + "".join(map(arguments, PARTS))
        + "#define KEEPER_LEND_CHANGES(changes) (uint32_t *)(changes), sizeof(changes) / (sizeof(uint32_t)) /* an array of KeeperChange */\n"
        + "\n/* The calls; beside each table the count that is asked for. */\n\n"
        + "\n".join(map(prototype, CALLS))
    )


# ── the C port ──
def port_layout():
    """The structs of bench/keeper.h."""
    def member(table):
        return f"    struct {'pool *' if table.is_one() else SLICES[table.element] + ' '}{table.name};\n"

    return "\n".join(f"struct {part} {{\n{''.join(map(member, of_part(part)))}}};\n" for part in PARTS)


def port_tables():
    """The tables of bench/replay.c, and the keeper over them."""
    def static(table):
        kind = f"struct {table.element.lower()}" if table.is_struct() else C_TYPES[table.element]
        return f"static {kind} {table.name}{'' if table.is_one() else f'[{table.length}]'};\n"

    def lend(table):
        return f"        {f'&{table.name}' if table.is_one() else f'SLICE({table.name})'},\n"

    sizes = f"    .sizes = {{{', '.join(lent.letters())}}},\n"
    lends = "".join(f"    .{part} = {{\n{''.join(map(lend, of_part(part)))}    }},\n" for part in PARTS)
    return "".join(map(static, lent.TABLES)) + "\nstatic struct keeper keeper = {\n" + sizes + lends + "};\n"


# ── the calls that the reference links ──
def linked_layout():
    """The structs of bench/keeper.h in Rust."""
    def member(table):
        return f"    {table.name}: {'*mut Pool' if table.is_one() else f'Slice<{table.element}>'},\n"

    return "\n".join(f"#[repr(C)]\nstruct {part.title()} {{\n{''.join(map(member, of_part(part)))}}}\n" for part in PARTS)


def linked_lent():
    """A keeper's tables in these structs."""
    def member(table):
        at = f"&mut {table.part}.{table.name}"
        return f"        {table.name}: {at if table.is_one() else f'slice({at})'},\n"

    def lend(part):
        name, body = part.title(), "".join(map(member, of_part(part)))
        return f"fn lent_{part}({part}: &mut tables::{name}) -> {name} {{\n    {name} {{\n{body}    }}\n}}\n"

    return "\n".join(map(lend, PARTS))


def linked_calls():
    """The proved keeper's calls as Rust declares them."""
    def first(words):
        return "".join(f"        {re.sub('.*[ *]', '', word)}: {RUST_TYPES[re.sub('[a-z_]*$', '', word).strip()]},\n" for word in words.split(", "))

    def declared(table, call):
        how = {"mut": "*mut ", "ref": "*const ", "val": ""}[table.lent[call]]
        count = "" if table.is_one() else f"        {table.name}_count: usize,\n"
        return f"        {table.name}: {how}{table.element},\n{count}"

    def behind(word):
        pointer, count = word.split(", ")
        return f"        {pointer.split('*')[1]}: *mut u32,\n        {count.split()[1]}: usize,\n"

    def call_text(call):
        body = "".join(map(first, FIRST[call])) + "".join(declared(table, call) for table in in_call(call))
        body += "".join(behind(word) for word, _ in LAST.get(call, []))
        return f"    fn {NAMES[call]}(\n{body}    ) -> {ANSWERS[call]};\n"

    return '#[link(name = "keeper", kind = "static")]\nextern "C" {\n' + "".join(map(call_text, CALLS)) + "}\n"


def linked_lends():
    """The arguments of those calls: the tables behind the first values. The memory part stands around the disk part's one list."""
    def arguments_of(tables, indent):
        at = [f"$keeper.{table.part}.{table.name}" for table in tables]
        values = [["$pool"] if table.is_one() else [f"{place}.$at()", f"{place}.len()"] for table, place in zip(tables, at)]
        return "".join(f"{' ' * indent}{value},\n" for pair in values for value in pair)

    structs = [table for table in in_call("apply") if table.is_struct()]
    numbers = [table for table in of_part("memory") if not table.is_struct()]
    return (
        "macro_rules! lend {\n"
        "    ($name:ident($keeper:ident; disk; $($first:expr,)*; $at:ident; $($last:expr,)*)) => {\n        unsafe {\n            $name(\n"
        "                $keeper.sizes,\n                $($first,)*\n" + arguments_of(in_call("format"), 16)
        + "                $($last,)*\n            )\n        }\n    };\n"
        "    ($name:ident($keeper:ident; $($first:expr,)*; $pool:expr; $at:ident)) => {\n        lend!($name(\n"
        "            $keeper; disk;\n            $($first,)*\n" + arguments_of(structs, 12)
        + "            ; $at;\n" + arguments_of(numbers, 12) + "        ))\n    };\n}\n"
    )
