"""python3 docs/draw-sockets.py  draws docs/sockets.svg from docs/sockets.tsv: flags, bells, and who wakes whom."""
import textwrap
from xml.sax.saxutils import escape

from drawn import ARROW, rows, write


def words(x, y, text, size, colour, anchor):
    return '<text x="%d" y="%d" text-anchor="%s" font-size="%d" fill="%s">%s</text>' % (x, y, anchor, size, colour, escape(text))


def box(name, left, top, width, height, what):
    left, top, width, height = (int(number) for number in (left, top, width, height))
    out = ['<rect x="%d" y="%d" width="%d" height="%d" rx="4" fill="#dbe9ff" stroke="#456"/>' % (left, top, width, height)]
    out.append(words(left + width // 2, top + 22, name, 13, "#123", "middle"))
    for n, line in enumerate(textwrap.wrap(what, (width - 10) // 6)):
        out.append(words(left + width // 2, top + 42 + 15 * n, line, 11, "#345", "middle"))
    return out


def arrow(corners, text, place, anchor):
    x, y = place.split(",")
    line = '<polyline points="%s" fill="none" stroke="#456" marker-end="url(#head)"/>' % corners
    return [line, words(int(x), int(y), text, 12, "#234", anchor)]


def draw():
    out = []
    for kind, *cells in rows("sockets.tsv"):
        out += box(*cells) if kind == "box" else arrow(*cells)
    write("sockets.svg", 1160, 360, out, ARROW)


if __name__ == "__main__":
    draw()
