"""The picture of a mill and its studios, docs/accounts.svg: a tree of accounts as examples/studios.c leaves it. pictures.py makes and checks it."""

import re

from drawing import arrow, box, head, lines, link, tail

PLACES = [(400, 90), (400, 200), (130, 340), (400, 340), (670, 340)]
NOTES = [
    "Yellow accounts pay; a blue one has limit 0, and its charges go up along the arrow to the account that pays.",
    "Account 0 always pays for what comes to it, whatever its limit. Along the dashed line only moves go.",
]


class Bad(Exception):
    """What the example printed is no tree of accounts; says why."""


def numbers(text, name):
    """The numbers after a name, of the last line that has them."""
    found = re.findall(rf"; {name}((?: \d+)+)", text)
    if not found:
        raise Bad(f"examples/studios.out has no {name}")
    return [int(number) for number in found[-1].split()]


def payer(account, parents, limits):
    """Who pays, by docs/SPEC.md."""
    return account if account == 0 or limits[account] > 0 else payer(parents[account], parents, limits)


def read(text):
    """Names, parents, limits and used counts of all accounts."""
    names = re.search(r"^accounts ([\w ]+);", text).group(1).split()
    tables = [numbers(text, name) for name in ("parents", "limits", "used")]
    if any(len(table) != len(PLACES) for table in [names, *tables]):
        raise Bad(f"the picture has places for {len(PLACES)} accounts")
    return names, *tables


def beside(middle, child, parent):
    """Where an arrow's label stands, above it and on its outer side, and which end of the label is there."""
    side = (child[0] > parent[0]) - (child[0] < parent[0])
    return middle[0] + 10 * side, middle[1] - 10, {-1: "end", 0: "middle", 1: "start"}[side]


def picture(text):
    names, parents, limits, used = read(text)
    drawn, labels, boxes = "", "", ""
    for account, name in enumerate(names):
        pays = payer(account, parents, limits)
        x, y = PLACES[account]
        boxes += box(x, y, f"{account} {name}", f"limit {limits[account]}, used {used[account]}", "in" if pays == account else "out")
        if account > 0:
            path, middle = (arrow if limits[account] == 0 else link)((x, y), PLACES[parents[account]])
            drawn += path
            if pays != account:
                at_x, at_y, anchor = beside(middle, (x, y), PLACES[parents[account]])
                labels += lines(at_x, at_y, [f"{names[pays]} pays"], anchor)
    return head("A mill and its studios", 800, 440) + drawn + labels + boxes + lines(400, 412, NOTES) + tail()
