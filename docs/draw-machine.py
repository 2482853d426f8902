"""python3 docs/draw-machine.py  draws docs/machine.svg from docs/machine.tsv.

A lane is what the machine keeps of one kind; a box is a state, and an arrow a step that leads from one to the other, with
the numbers of its conditions in their order.
"""
from xml.sax.saxutils import escape

from drawn import ARROW, rows, write

LEFT, STEP, WIDTH, HEIGHT, LANE = 120, 250, 110, 32, 150


def lanes():
    found = {}
    for lane, start, end, step, conditions in rows("machine.tsv"):
        states, arrows = found.setdefault(lane, ([], []))
        for state in (start, end):
            if state not in states:
                states.append(state)
        arrows.append((start, end, step, conditions))
    return found


def arrow(at, top, start, end, number):
    """An arc above the boxes where it leads to the next box on the right, and below them else; its path and its label's place."""
    x, z = at[start] + WIDTH // 2, at[end] + WIDTH // 2
    up = x < z == x + STEP or (start == end and number == 0)
    edge, side = (top, -1) if up else (top + HEIGHT, 1)
    if start == end:
        x, z, bend = at[start] + 12, at[start] + 36, 36 * side
        middle = (x + z) // 2
        left, right = x - 12, z + 12
    else:
        bend = (34 if abs(z - x) > STEP else 26) * side
        x, z = (x + 16, z - 16) if x < z else (x - 16, z + 16)
        middle, left, right = (x + z) // 2, x, z
    path = "M %d %d C %d %d %d %d %d %d" % (x, edge, left, edge + bend, right, edge + bend, z, edge)
    return path, middle, edge + 0.75 * bend + (-4 if up else 13)


def draw():
    found = lanes()
    most = max(len(states) for states, _ in found.values())
    width, height = LEFT + (most - 1) * STEP + WIDTH + 30, LANE * len(found) + 10
    out = []
    for place, (lane, (states, arrows)) in enumerate(found.items()):
        top = place * LANE + 66
        at = {state: LEFT + n * STEP for n, state in enumerate(states)}
        loops = 0
        out.append('<text x="8" y="%d" fill="#666">%s</text>' % (top + 20, escape(lane)))
        for state in states:
            out.append('<rect x="%d" y="%d" width="%d" height="%d" rx="4" fill="#dbe9ff" stroke="#456"/>' % (at[state], top, WIDTH, HEIGHT))
            out.append('<text x="%d" y="%d" text-anchor="middle">%s</text>' % (at[state] + WIDTH / 2, top + 20, escape(state)))
        for start, end, step, conditions in arrows:
            path, x, y = arrow(at, top, start, end, loops)
            loops += start == end
            out.append('<path d="%s" fill="none" stroke="#456" marker-end="url(#head)"/>' % path)
            out.append('<text x="%d" y="%d" text-anchor="middle" font-size="11" fill="#234">%s</text>' % (x, y, escape("%s: %s" % (step, conditions))))
    write("machine.svg", width, height, out, ARROW)


if __name__ == "__main__":
    draw()
