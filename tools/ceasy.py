"""The made part of include/keeper_easy.h: the struct of all tables, the calls over it, a function for each event, the refusals in words."""

import re

import ctext
import lent
from ctext import C_TYPES
from lent import PARTS, ROOT, of_part


def enum(comment, text=None):
    """An enum of include/keeper.h, by the comment before it: each name without its prefix, its number, its comment."""
    text = (ROOT / "include" / "keeper.h").read_text() if text is None else text
    body = re.search(re.escape(comment) + r".*?\*/\nenum \{(.*?)\};", text, re.S).group(1)
    return re.findall(r"KEEPER_([A-Z_]+) = (\d+),? */\* (.*?) \*/", body)


def length(table):
    """How many entries a table has, by the members of sizes."""
    names = {size.letter: f"sizes.{size.name}" for size in lent.SIZES}
    return re.sub(rf"\b([{''.join(names)}])\b", lambda letter: names[letter.group(1)], table.length)


def tables():
    return [table for part in PARTS for table in of_part(part)]


def aligned(rows, indent="    "):
    """Rows of two columns, the second in one column."""
    width = max(len(left) for left, _ in rows) + 1
    return "".join(f"{indent}{left:{width}}{right}\n" for left, right in rows)


# ── the tables ──
def numbers():
    rows = [f"KEEPER_TABLE_{table.name.upper()}" for table in tables()]
    disk = len(of_part("disk"))
    return (
        "/* The tables by number, those of the disk part first, and how many there are. */\n"
        + "enum {\n" + "".join(f"    {row} = {at},\n" for at, row in enumerate(rows))
        + f"    KEEPER_DISK_COUNT = {disk},\n    KEEPER_TABLE_COUNT = {len(rows)}\n}};\n"
    )


def struct():
    rows = [(f"{C_TYPES[table.element]} *{table.name};", f"/* {table.length}: {table.meaning} */") for table in tables()]
    return (
        "/* The sizes and all tables: a name for everything that is lent. */\ntypedef struct {\n    KeeperSizes sizes;\n"
        + aligned(rows) + "} Keeper;\n"
    )


def fits():
    rows = [f"sizes.{size.name} >= 1 && sizes.{size.name} <= KEEPER_MOST_{size.name.upper()}" for size in lent.SIZES]
    return (
        "/* Whether each size is 1 to its most. */\nstatic inline int keeper_sizes_fit(KeeperSizes sizes)\n{\n    return "
        + "\n        && ".join(rows) + ";\n}\n"
    )


def sizes_text():
    rows = [f"{{'{size.letter}', sizes.{size.name}}}" for size in lent.SIZES]
    stored = [f"    sizes.{size.name} = values[{number}];\n" for number, size in enumerate(lent.SIZES)]
    return (
        f"/* The sizes by their letters. */\nenum {{ KEEPER_SIZE_COUNT = {len(rows)} }};\ntypedef struct {{\n    char letter;\n    size_t value;\n}} KeeperSize;\n"
        "static inline KeeperSize keeper_size(KeeperSizes sizes, size_t number)\n{\n"
        f"    const KeeperSize all[KEEPER_SIZE_COUNT] = {{{', '.join(rows)}}};\n    return all[number];\n}}\n"
        "\n/* .. and from numbers in that order, as a device keeps them. */\n"
        "static inline KeeperSizes keeper_sizes_of(const uint32_t values[KEEPER_SIZE_COUNT])\n{\n    KeeperSizes sizes;\n"
        + "".join(stored) + "    return sizes;\n}\n"
    )


def lay():
    rows = [
        f"    keeper->{table.name} = ({C_TYPES[table.element]} *)keeper_take(block, &at, sizeof *keeper->{table.name}, {length(table)});\n"
        for table in tables()
    ]
    return (
        "/* Lays the tables into a block, one behind the other, and says how many bytes they take; without a block only that. */\n"
        "static inline size_t keeper_lay(Keeper *keeper, unsigned char *block)\n{\n    const KeeperSizes sizes = keeper->sizes;\n    size_t at = 0;\n"
        + "".join(rows) + "    return at;\n}\n"
    )


def listed():
    rows = [
        f'    case KEEPER_TABLE_{table.name.upper()}: return keeper_described("{table.name}", keeper->{table.name},'
        f" sizeof *keeper->{table.name}, {length(table)});\n"
        for table in tables()
    ]
    return (
        "/* A table by its number: so a driver passes over the disk part without naming its tables. */\n"
        "static inline KeeperTable keeper_table(const Keeper *keeper, size_t number)\n{\n    const KeeperSizes sizes = keeper->sizes;\n"
        "    switch (number) {\n" + "".join(rows) + '    default: return keeper_described("", NULL, 0, 0);\n    }\n}\n'
    )


# ── the calls and the events ──
# what a call takes behind the tables: as parameters of the easy call, and as it hands them on
BEHIND = {"mend": (", KeeperChange *changes, size_t places", ["(uint32_t *)changes, 4 * places"])}


def lend(table, call):
    """A table of the struct as arguments of a call."""
    if table.is_one():
        return ("*" if table.lent[call] == "val" else "") + f"keeper->{table.name}"
    return f"keeper->{table.name}, {length(table)}"


# a list of requests is taken as arrays of structs, the wanted parents as an array alone
LISTS = {
    "format": (["const uint16_t *wanted"], ["sizes", "keeper_wanted(wanted), sizes.accounts"]),
    "apply_all": (
        ["const KeeperRequest *requests", "KeeperAnswer *answers", "size_t count"],
        ["sizes", "KEEPER_REQUESTS(requests, count)", "KEEPER_ANSWERS(answers, count)"],
    ),
}


def call(name):
    """A call over the struct: what it takes before the tables stays, but for the sizes."""
    own = ctext.FIRST[name][1:]
    handed = ["sizes"] + [", ".join(re.sub(r"^.*[ *]", "", part) for part in word.split(", ")) for word in own]
    own, handed = LISTS.get(name, (own, handed))
    taken = "".join(f", {word}" for word in own) + BEHIND.get(name, ("", []))[0]
    lends = handed + [lend(table, name) for table in lent.in_call(name)] + BEHIND.get(name, ("", []))[1]
    body = ",\n        ".join(lends)
    const = "" if any(table.lent[name] == "mut" for table in lent.in_call(name)) else "const "
    easy = ctext.NAMES[name].replace("keeper_", "keeper_easy_")
    return (
        f"static inline Keeper{ctext.ANSWERS[name]} {easy}({const}Keeper *keeper{taken})\n{{\n    const KeeperSizes sizes = keeper->sizes;\n"
        f"    return {ctext.NAMES[name]}(\n        {body});\n}}\n"
    )


def event(name, comment):
    """An event as a function: its values are those that the header names."""
    values = [word.strip() for word in re.split(r"[;:]", comment)[0].split(",")]
    values = [] if values == ["result"] else values
    taken = "".join(f", uint32_t {value}" for value in values)
    handed = ", ".join([f"KEEPER_{name}", *values, *["0"] * (4 - len(values))])
    return (
        f"static inline KeeperAnswer keeper_{name.lower()}(Keeper *keeper{taken})\n"
        f"{{\n    return keeper_asked(keeper, {handed});\n}}\n"
    )


def texts(title, comment, name, number, none):
    """The members of an enum in words."""
    rows = [f'    case KEEPER_{member}: return "{words}";\n' for member, _, words in enum(title)]
    return (
        f"/* {comment} */\nstatic inline const char *{name}(uint32_t {number})\n{{\n    switch ({number}) {{\n"
        + "".join(rows) + f'    default: return "{none}";\n    }}\n}}\n'
    )


ASKED = """\
static inline KeeperAnswer keeper_asked(
    Keeper *keeper, uint32_t kind, uint32_t first, uint32_t second, uint32_t third, uint32_t fourth)
{
    KeeperRequest request;
    request.kind = kind;
    request.first = first;
    request.second = second;
    request.third = third;
    request.fourth = fourth;
    return keeper_easy_apply(keeper, request);
}
"""


def easy():
    """All of it."""
    calls = "\n".join(map(call, lent.CALLS))
    events = "\n".join(event(name, comment) for name, _, comment in enum("/* The kinds of request."))
    parts = [numbers(), struct(), fits(), sizes_text(), lay(), listed()]
    return (
        "\n".join(parts)
        + "\n/* The calls of keeper.h over the struct: easy_ stands in their names. */\n" + calls
        + "\n/* The events, one function each; the values are in the order of the requests. */\n" + ASKED + "\n" + events
        + "\n" + texts("/* The refusals.", "A refusal in words.", "keeper_text", "refusal", "no refusal of this keeper")
        + "\n" + texts("/* The reasons of a change.", "A change's reason in words.", "keeper_reason", "reason", "no reason of this keeper")
    )
