"""python3 docs/draw-connection.py  draws docs/connection.svg from docs/connection.tsv.

A box is a state of a connection with what it needs, and an arrow a step that leads from one to the other: the call, its
condition, and what is written or appended. A dashed box is no state between two calls.
"""
from xml.sax.saxutils import escape

from drawn import ARROW, rows, write

ACROSS, DOWN, WIDTH, HEIGHT, LINE = (20, 415, 810), (104, 290, 500, 616), 160, 62, 15

# Of each arrow its corners, where its words begin, on which side of that they stand, and whether a step has one line alone.
ROUTES = {
    ("no request", "head complete"): ([(180, 308), (415, 308)], (297, 288), "middle", False),
    ("head complete", "no request"): ([(415, 334), (180, 334)], (297, 350), "middle", False),
    ("head complete", "reply awaited"): ([(575, 321), (810, 321)], (692, 314), "middle", False),
    ("head complete", "content awaited"): ([(470, 290), (470, 166)], (462, 232), "end", False),
    ("content awaited", "head complete"): ([(520, 166), (520, 290)], (528, 232), "start", False),
    ("reply awaited", "no request"): ([(890, 290), (890, 72), (100, 72), (100, 290)], (495, 32), "middle", True),
    ("no request", "input over"): ([(100, 352), (100, 500)], (108, 430), "start", False),
    ("head complete", "closed"): ([(470, 352), (470, 500)], (478, 392), "start", True),
    ("reply awaited", "closed"): ([(890, 352), (890, 478), (540, 478), (540, 500)], (882, 468), "end", True),
    ("closed", "given up"): ([(575, 531), (810, 531)], (692, 524), "middle", True),
    ("any open state", "given up"): ([(180, 647), (890, 647), (890, 562)], (535, 640), "middle", True),
}


def of_kind(kind):
    return [cells for word, *cells in rows("connection.tsv") if word == kind]


def words(x, y, text, size, colour, anchor):
    return '<text x="%d" y="%d" text-anchor="%s" font-size="%d" fill="%s">%s</text>' % (x, y, anchor, size, colour, escape(text))


def box(name, column, row, need, what, stays):
    x, y = ACROSS[int(column)], DOWN[int(row)]
    dashed = "" if need in ("Read", "Ask", "Close") else ' stroke-dasharray="4 3"'
    lines = [(name + (": " + need if need else ""), 13, "#123"), (what, 11, "#345")] + [(text, 11, "#666") for text in stays]
    out = ['<rect x="%d" y="%d" width="%d" height="%d" rx="4" fill="%s" stroke="#456"%s/>' % (x, y, WIDTH, HEIGHT, "#fff" if dashed else "#dbe9ff", dashed)]
    top = y + (HEIGHT - 16 * len(lines)) // 2 + 12
    return out + [words(x + WIDTH // 2, top + 16 * n, text, size, colour, "middle") for n, (text, size, colour) in enumerate(lines)]


def label(steps, place, anchor, is_one_line):
    """The words of an arrow: of each step the call with its condition, and what comes of it."""
    lines = []
    for call, condition, what in steps:
        asks = ", ".join(text for text in (call, condition) if text)
        comes = "" if what == "nothing" else what
        lines += [": ".join(text for text in (asks, comes) if text)] if is_one_line else [text for text in (asks, comes) if text]
    return [words(place[0], place[1] + LINE * n, text, 12, "#234", anchor) for n, text in enumerate(lines)]


def draw():
    steps, stays = {}, {}
    for start, end, *step in of_kind("step"):
        if start == end:
            stays.setdefault(start, []).append(step[0] + ": it stays")
        else:
            steps.setdefault((start, end), []).append(step)
    out = []
    for ends, said in steps.items():
        corners, place, anchor, is_one_line = ROUTES[ends]
        path = "M " + " L ".join("%d %d" % corner for corner in corners)
        out.append('<path d="%s" fill="none" stroke="#456" marker-end="url(#head)"/>' % path)
        out += label(said, place, anchor, is_one_line)
    for name, *state in of_kind("state"):
        out += box(name, *state, stays.get(name, []))
    out += [words(20, DOWN[-1] + HEIGHT + 24, text, 12, "#666", "start") for text, in of_kind("note")]
    write("connection.svg", 1000, DOWN[-1] + HEIGHT + 36, out, ARROW)


if __name__ == "__main__":
    draw()
