"""python3 docs/draw-fabric.py  draws docs/fabric.svg from docs/fabric.tsv.

A row is a part of the list of words, a box a block of it: its name, its first word, how many words it has, and what stands
there. Blocks of 16 words that many threads change are darker.
"""
from xml.sax.saxutils import escape

from drawn import rows, write

LEFT, WIDTH, HEIGHT, GAP, ROW = 130, 196, 74, 8, 104
TITLES = {"one": "once", "segment": "for each segment", "queue": "for each queue"}
ACROSS = 4


def lanes():
    """The blocks in rows of four at most, each row with its title."""
    found = []
    for row in rows("fabric.tsv"):
        title = TITLES[row[5]]
        if not found or found[-1][0] != title or len(found[-1][1]) == ACROSS:
            found.append((title, []))
        found[-1][1].append(row)
    return found


def box(x, y, row):
    name, first, words, what, who, _ = row
    shared = words == "16" and who != "no one"
    fill = "#b9d2f7" if shared else "#e8eef7"
    lines = [(name, 12, "#123"), ("from %s: %s words" % (first, words), 11, "#234"), (what, 10, "#456"), (who, 10, "#666")]
    out = ['<rect x="%d" y="%d" width="%d" height="%d" rx="4" fill="%s" stroke="#456"/>' % (x, y, WIDTH, HEIGHT, fill)]
    for number, (text, size, colour) in enumerate(lines):
        fitted = min(size, (WIDTH - 12) / (0.54 * len(text)))
        out.append('<text x="%d" y="%d" font-size="%.1f" fill="%s">%s</text>' % (x + 6, y + 17 + 17 * number, fitted, colour, escape(text)))
    return out


def draw():
    found = lanes()
    width, height = LEFT + ACROSS * (WIDTH + GAP) + 8, ROW * len(found) + 12
    out = []
    titles = set()
    for place, (title, blocks) in enumerate(found):
        top = place * ROW + 16
        if title not in titles:
            out.append('<text x="8" y="%d" fill="#666">%s</text>' % (top + 20, escape(title)))
        titles.add(title)
        for number, row in enumerate(blocks):
            out += box(LEFT + number * (WIDTH + GAP), top, row)
    write("fabric.svg", width, height, out)


if __name__ == "__main__":
    draw()
