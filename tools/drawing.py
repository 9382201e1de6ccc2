"""Boxes and labelled arrows as SVG: what pictures.py draws with."""

from xml.sax.saxutils import escape

WIDTH, HEIGHT = 180, 50  # of a box
LINE = 16  # from one line of text to the next
FILLS = {"out": "#e8eef7", "in": "#fdf3d8", "moving": "#f9dfd3", "disk": "#e4f1e1"}
INK, CUT = "#1c2733", "#a02020"

HEAD = """\
<svg xmlns="http://www.w3.org/2000/svg" viewBox="0 0 {width} {height}" width="{width}" height="{height}" role="img">
<!-- Made by tools/pictures.py; not edited by hand. -->
<title>{title}</title>
<defs><marker id="tip" viewBox="0 0 10 10" refX="9" refY="5" markerWidth="8" markerHeight="8" orient="auto">\
<path d="M0 0L10 5L0 10z" fill="{ink}"/></marker></defs>
<rect width="{width}" height="{height}" fill="#ffffff"/>
<g font-family="sans-serif" font-size="13" fill="{ink}" text-anchor="middle">
<text x="{middle}" y="34" font-size="17" font-weight="bold">{title}</text>
"""


def head(title, width, height):
    """The start of a picture, with its title."""
    return HEAD.format(title=escape(title), width=width, height=height, middle=width // 2, ink=INK)


def tail():
    return "</g>\n</svg>\n"


def number(value):
    """A coordinate, always written the same way."""
    return f"{round(value, 1):g}"


def text(x, y, words, extra=""):
    """One line of text, with a white rim where it comes near a line."""
    rim = 'stroke="#ffffff" stroke-width="4" stroke-linejoin="round" paint-order="stroke"'
    return f'<text x="{number(x)}" y="{number(y)}" {rim} {extra}>{escape(words)}</text>\n'


def lines(x, y, words, anchor="middle"):
    """Lines of text, their middle at y."""
    top = y - LINE * (len(words) - 1) / 2 + 4.5
    extra = f'text-anchor="{anchor}"'
    return "".join(text(x, top + LINE * i, line, extra) for i, line in enumerate(words))


def section(y, words):
    """The heading of a part of a picture."""
    return text(20, y, words, 'text-anchor="start" font-weight="bold"')


def corner(x, y):
    """The mark of a box that a truncate leads away from: a triangle in its upper left corner."""
    return f'<path d="M{number(x)} {number(y)}h16l-16 16z" fill="{CUT}"/>\n'


def box(x, y, title, under, fill, cut=False):
    """A box around (x, y) with a title and a line under it."""
    left, top = x - WIDTH / 2, y - HEIGHT / 2
    place = f'x="{number(left)}" y="{number(top)}" width="{WIDTH}" height="{HEIGHT}" rx="4"'
    frame = f'<rect {place} fill="{FILLS[fill]}" stroke="{INK}"/>\n'
    name = f'<text x="{x}" y="{y - 4}" font-size="15" font-weight="bold">{escape(title)}</text>\n'
    rest = f'<text x="{x}" y="{y + 14}" font-size="12">{escape(under)}</text>\n'
    return frame + (corner(left, top) if cut else "") + name + rest


def border(centre, toward):
    """Where the line from a box's centre to a point crosses the box's border."""
    dx, dy = toward[0] - centre[0], toward[1] - centre[1]
    scale = min(WIDTH / 2 / abs(dx) if dx else 9e9, HEIGHT / 2 / abs(dy) if dy else 9e9)
    return centre[0] + dx * scale, centre[1] + dy * scale


def arrow(start, end, bend=0):
    """An arrow between two boxes, bent to its left by so much, and the middle of it."""
    dx, dy = end[0] - start[0], end[1] - start[1]
    length = (dx * dx + dy * dy) ** 0.5
    across = (2 * bend * dy / length, -2 * bend * dx / length)
    control = tuple((start[i] + end[i]) / 2 + across[i] for i in (0, 1))
    a, b = border(start, control), border(end, control)
    middle = tuple((a[i] + 2 * control[i] + b[i]) / 4 for i in (0, 1))
    points = [number(value) for point in (a, control, b) for value in point]
    path = "M{} {}Q{} {} {} {}".format(*points)
    style = f'fill="none" stroke="{INK}" stroke-width="1.4" marker-end="url(#tip)"'
    return f'<path d="{path}" {style}/>\n', middle


def link(start, end):
    """A dashed line between two boxes, and the middle of it."""
    path, middle = arrow(start, end)
    return path.replace('marker-end="url(#tip)"', 'stroke-dasharray="5 5"'), middle
