"""python3 docs/draw-calls.py  draws docs/calls.svg from docs/calls.tsv.

A row is a kind of atomic step of a seat: the pass that it belongs to, the kind, the call that makes it, and the machine's step. On
the left stand the kinds by pass, each with its call, on the right the machine's steps, in the order of docs/machine.tsv.
"""
from xml.sax.saxutils import escape

from drawn import ARROW, rows, write

LEFT, KIND, CALL, STEP, ROW, TOP = 84, 320, 110, 100, 26, 14
FROM, TO = LEFT + KIND + CALL + 6, LEFT + KIND + CALL + 190
NONE = "none"


def steps():
    """The machine's steps that calls make, each once, and at the end none."""
    made = [step for row in rows("calls.tsv") for step in row[3].split(", ")]
    return [step for step in dict.fromkeys(made) if step != NONE] + [NONE]


def text(x, y, words, size, colour):
    return '<text x="%d" y="%d" font-size="%d" fill="%s">%s</text>' % (x, y, size, colour, escape(words))


def kind(place, row, is_first):
    """A kind's box, with its call, and before the first of a pass the pass."""
    y = TOP + place * ROW
    fill = "#eef1f5" if row[3] == NONE else "#dbe9ff"
    out = ['<rect x="%d" y="%d" width="%d" height="%d" rx="3" fill="%s" stroke="#456"/>' % (LEFT, y, KIND + CALL, ROW - 4, fill)]
    out += [text(LEFT + 6, y + 15, row[1], 11, "#234"), text(LEFT + KIND, y + 15, row[2], 11, "#123")]
    return out + ([text(8, y + 15, row[0], 13, "#666")] if is_first else [])


def draw():
    kinds, ends = list(rows("calls.tsv")), steps()
    down = (len(kinds) - 1) * ROW / (len(ends) - 1)
    at = {step: TOP + round(place * down) for place, step in enumerate(ends)}
    out, passed = [], ""
    for place, row in enumerate(kinds):
        out += kind(place, row, row[0] != passed)
        passed = row[0]
        for step in row[3].split(", "):
            dashed = ' stroke-dasharray="3 4" stroke-opacity="0.5"' if step == NONE else ""
            ends_at = (FROM, TOP + place * ROW + ROW // 2 - 2, TO - 4, at[step] + ROW // 2 - 2)
            out.append('<line x1="%d" y1="%d" x2="%d" y2="%d" stroke="#456" marker-end="url(#head)"%s/>' % (*ends_at, dashed))
    for step, y in at.items():
        out.append('<rect x="%d" y="%d" width="%d" height="%d" rx="3" fill="%s" stroke="#456"/>' % (TO, y, STEP, ROW - 4, "#fff" if step == NONE else "#b9d2f7"))
        out.append(text(TO + 8, y + 15, step, 12, "#123"))
    write("calls.svg", TO + STEP + 10, TOP + len(kinds) * ROW + 8, out, ARROW)


if __name__ == "__main__":
    draw()
