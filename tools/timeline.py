#!/usr/bin/env python3
"""Not proved, tested by tools/test_timeline.py: a list of events as one HTML file to look at.

    timeline.py LIST [HTML]    a row for each event of the list (target/timeline.html): its answer in words, the frames, the records, the maps

Behind each row the power can be cut, with any choice of what lands, and the page shows what every page reads then. All that it shows comes from
the library (tools/timeline.c runs it). The file needs nothing else: no script or picture from elsewhere. An address that ends in
'#cut=ROW&lands=0,2' opens that cut.
"""

import html
import json
import subprocess

import events
import library
from library import ROOT

PAGES, WORDS = 3, 2
COLOURS = ("#9cc5e3", "#f3bf8a")
STATES = ("free", "filed", "nulled", "live", "released", "leaving")
WAYS = ("", "reading", "writing")


# ── the library ──
def requests(text):
    """The list as the program reads it; it may have the library's own kinds too."""
    lines = ([events.ALL[name][0], *values, *[0] * (4 - len(values))] for name, values in events.parse(text, events.ALL))
    return "".join(" ".join(map(str, line)) + "\n" for line in lines)


def ran(text, *words):
    """What the library says of a list."""
    return subprocess.run([library.program("timeline"), *words], input=requests(text), capture_output=True, text=True, check=True).stdout


# ── the pictures ──
def page_name(state, page):
    """A page of a table of pages: design and page."""
    return f"{state['numbers'][page // PAGES] or 'empty'}/{page % PAGES}"


def box(x, y, width, height, fill, more=""):
    return f'<rect x="{x}" y="{y}" width="{width}" height="{height}" fill="{fill}" stroke="#888" {more}/>'


def label(x, y, text, size=11, more=""):
    return f'<text x="{x}" y="{y}" font-size="{size}" {more}>{html.escape(str(text))}</text>'


def words_at(x, y, words, room):
    """Words, as large as they fit."""
    text = " ".join(map(str, words))
    return label(x, y, text, max(5, min(13, int(room / (0.6 * len(text))))))


def frames(state):
    """The frames: page, words, switches, transfer."""
    out = []
    for at, frame in enumerate(state["frames"]):
        x, page = 4 + at * 112, frame["page"] - 1
        way = WAYS[frame["transfer"]]
        out.append(box(x, 16, 106, 46, COLOURS[page // PAGES] if page >= 0 else "#fff", 'stroke-width="3"' if way else ""))
        out.append(label(x, 12, f"frame {at}" + (f", {way}" if way else "")))
        if page >= 0:
            words = state["frame_words"][at * WORDS : (at + 1) * WORDS]
            switches = " ".join(name for name in ("used", "modified", "wired", "initial") if frame[name])
            out += [label(x + 6, 30, f"page {page_name(state, page)}"), words_at(x + 6, 44, words, 96), label(x + 6, 57, switches, 9)]
    return out


def waiting(state):
    """The waiting line, its front first, below the frames; nothing if nobody waits."""
    pages = [page_name(state, entry - 1) for entry in state["line"] if entry]
    shown = " ".join(pages[:8]) + (f" and {len(pages) - 8} more" if len(pages) > 8 else "")
    return [label(4, 74, f"line: {shown}", 10)] if pages else []


def records(state, left):
    """The records as a strip, coloured by the design that owns them; not live or filed ones are pale."""
    out = [label(left, 12, "records")]
    for at, number in enumerate(state["states"]):
        x = left + at * 72
        fill = COLOURS[state["owners"][at]] if number else "#fff"
        out.append(box(x, 16, 70, 46, fill, 'fill-opacity="0.45"' if STATES[number] not in ("live", "filed") else ""))
        words = state["records"][at * WORDS : (at + 1) * WORDS]
        out += [label(x + 5, 30, f"{at} {STATES[number]}"), words_at(x + 5, 46, words, 62)]
        holder = [page for page, record in enumerate(state["addresses"]) if record == at + 1]
        out += [label(x + 5, 58, f"of {page_name(state, holder[0])}", 9)] if holder else []
    return out


def maps(state, left):
    """The maps on the disk: a cell for each page, with its record; below, the image of an update under way."""
    out = []
    for slot, number in enumerate(state["numbers"]):
        x = left + slot * 134
        out.append(label(x, 12, f"map of {number}" + ("" if state["active"][slot] else ", at rest") if number else "empty slot"))
        for page in range(PAGES):
            entry, image = (state[name][slot * PAGES + page] for name in ("maps", "images"))
            out.append(box(x + page * 32, 16, 30, 22, COLOURS[slot] if entry else "#fff"))
            out.append(label(x + page * 32 + 11, 31, entry - 1 if entry else "·"))
            if state["updating"][slot]:
                out.append(box(x + page * 32, 41, 30, 18, COLOURS[slot] if image else "#fff", 'stroke-dasharray="3 2"'))
                out.append(label(x + page * 32 + 11, 54, image - 1 if image else "·", 10))
        if state["updating"][slot]:
            out.append(label(x, 69, "update under way", 9))
    return out


def accounts(state, left):
    """What each account has used, and its limit, below the records; and the highest number that was given."""
    pairs = zip(state["used"], state["limits"])
    used = ", ".join(f"account {at}: used {used} of limit {limit}" for at, (used, limit) in enumerate(pairs))
    return [label(left, 74, f"{used}; highest number {state['highest'][0]}", 10)]


def picture(state):
    left = 12 + 112 * len(state["frames"])
    after = left + 72 * len(state["states"]) + 14
    width = after + 134 * len(state["numbers"])
    drawn = frames(state) + waiting(state) + records(state, left) + accounts(state, left) + maps(state, after)
    return f'<svg xmlns="http://www.w3.org/2000/svg" width="{width}" height="78" viewBox="0 0 {width} 78" font-family="sans-serif">' + "".join(drawn) + "</svg>"


# ── the file ──
STYLE = """
body { font: 14px sans-serif; margin: 1.5em; color: #222; } table { border-collapse: collapse; }
td { padding: 4px 8px; vertical-align: middle; border-top: 1px solid #e4e4e4; } td.n { color: #999; text-align: right; }
td.event { font-family: monospace; white-space: nowrap; } td.refused { color: #a02020; } tr.comment td { color: #555; padding-top: 14px; border: 0; }
tr.panel td { background: #fbf6e8; padding: 10px 20px; } tr.panel ul { margin: 6px 0; columns: 2; max-width: 46em; } label { margin-right: 1.5em; }
button { cursor: pointer; }
"""

SCRIPT = """
"use strict";
function name(transfer, row) {
  return "map" in transfer ? "the map of " + row.numbers[transfer.map] : "the write of page " + row.numbers[transfer.slot] + "/" + transfer.page;
}
function said(read) {
  const what = read.refusal ? "refused, " + read.refusal : read.words.join(" ") + (read.listed ? "" : "  (not listed)");
  return "page " + read.number + "/" + read.page + " reads " + what;
}
function choice(boxes) {
  return boxes.reduce(function (sum, box, at) { return sum + (box.checked ? 1 << at : 0); }, 0);
}
function element(kind, text) {
  const made = document.createElement(kind);
  if (text) made.textContent = text;
  return made;
}
function show(n) {
  const panel = document.getElementById("panel-" + n), cell = panel.firstElementChild, row = DATA[n];
  panel.hidden = !panel.hidden;
  if (panel.hidden || cell.childElementCount > 0) return;
  const list = element("ul"), boxes = [];
  const fill = function () {
    const reads = row.cuts[choice(boxes)].map(function (read) { const item = element("li", said(read)); item.className = "reads"; return item; });
    list.replaceChildren.apply(list, reads.length ? reads : [element("li", "no design is on the disk")]);
  };
  cell.append(element("b", "The power fails here. "), element("span", row.open.length ? "What has landed: " : "Nothing is on its way to the disk."));
  row.open.forEach(function (transfer, at) {
    const label = element("label"), box = element("input");
    box.type = "checkbox";
    box.id = "lands-" + n + "-" + at;
    box.onchange = fill;
    boxes.push(box);
    label.append(box, " " + name(transfer, row));
    cell.append(label);
  });
  cell.append(element("div", "After restart and activate:"), list);
  fill();
}
function follow(address) {
  const found = /cut=(\\d+)(?:&lands=([\\d,]*))?/.exec(address);
  if (!found || !DATA[found[1]]) return;
  document.getElementById("cut-" + found[1]).click();
  (found[2] || "").split(",").filter(Boolean).forEach(function (at) { document.getElementById("lands-" + found[1] + "-" + at).click(); });
  document.getElementById("row-" + found[1]).scrollIntoView();
}
DATA.forEach(function (row, n) { document.getElementById("cut-" + n).onclick = function () { show(n); }; });
follow(location.hash);
"""


def row(n, event, said, state):
    kind = "said refused" if said.startswith("refused") else "said"
    return (
        f'<tr id="row-{n}"><td class="n">{n or ""}</td><td class="event">{html.escape(event)}</td><td class="{kind}">{html.escape(said)}</td>'
        f'<td>{picture(state)}</td><td><button id="cut-{n}">cut here</button></td></tr>\n<tr class="panel" id="panel-{n}" hidden><td colspan="5"></td></tr>\n'
    )


def turned(before, after):
    """What a turn did that let nobody leave, as the tables show it."""
    first = before["line"][0]
    if not first:
        return "done, nobody waits"
    if any(frame["page"] == first for frame in before["frames"]):
        return "done, to the back of the line"
    return "done, it gets a frame" if any(frame["page"] == first for frame in after["frames"]) else "done, a frame is claimed for it"


def said_of(name, before, after, words):
    """An event's answer in words."""
    if (name, after["refusal"], after["result"]) == ("turn", 0, 0):
        return turned(before, after)
    return events.in_words(name, str(after["refusal"]), after["result"], words)


def comment(lines):
    """The row of a comment of one line or several; of none nothing."""
    return f'<tr class="comment"><td></td><td colspan="4">{html.escape(" ".join(lines))}</td></tr>\n' if lines else ""


def rows(text, states):
    """The rows of a list: its comments, each of lines that follow each other, and its events."""
    words, out, n, above = events.refusals(), [row(0, "", "a new disk", states[0])], 0, []
    for number, line in enumerate(text.splitlines(), 1):
        event, said = events.parse_line(line, number, events.ALL), line.partition("#")[2].strip()
        if said and not event:
            above.append(said)
            continue
        out.append(comment(above))
        above = []
        if event:
            n += 1
            out.append(comment([said] if said else []))
            out.append(row(n, events.line_of(*event), said_of(event[0], states[n - 1], states[n], words), states[n]))
    return "".join(out) + comment(above)


def page(title, text, states):
    kept = [{key: state[key] for key in ("numbers", "open", "cuts")} for state in states]
    data = json.dumps(kept, separators=(",", ":"))
    return (
        f'<!DOCTYPE html>\n<html lang="en"><head><meta charset="utf-8"><title>{html.escape(title)}</title><style>{STYLE}</style></head><body>\n'
        f"<h1>{html.escape(title)}</h1>\n<p>Each row is an event, with everything as it is after it. A page is named by its design and its number in it. "
        "Pages that wait in line stand below the frames, the first one first; what each account has used, and its limit, below the records. Records are coloured by the design that owns them, and pale while their words are void or given up. A dashed strip is the map that an update is about to "
        f"store. Press “cut here” to see what every page would read if the power failed behind that row.</p>\n<table>\n{rows(text, states)}</table>\n"
        f"<script>const DATA = {data};{SCRIPT}</script>\n</body></html>\n"
    )


def run(path, out):
    """A list's page."""
    text = path.read_text()
    events.named(path, lambda: events.parse(text, events.ALL))
    states = json.loads(ran(text))
    out.write_text(page(path.name, text, states))
    print(f"{len(states) - 1} events, {sum(len(state['cuts']) for state in states)} cuts: {out}")


if __name__ == "__main__":
    library.main("timeline.py", __doc__, "timeline.html", run, events.Bad)
