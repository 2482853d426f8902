"""python3 docs/draw-layers.py  draws docs/layers.svg from docs/layers.tsv and crates.txt.

A crate that stands in crates.txt is filled; one that is planned is outlined.
"""
import os
from xml.sax.saxutils import escape

from drawn import HERE, rows, write

WIDTH, HEIGHT, GAP, LEFT = 128, 30, 12, 70


def layers():
    for cells in rows("layers.tsv"):
        layer, crate, does, below = (cells + [""])[:4]
        yield int(layer), crate, does, below.split()


def built():
    with open(os.path.join(HERE, "..", "crates.txt"), encoding="utf-8") as source:
        return {line.split(":")[0].split()[0] for line in source if ":" in line}


def place(crates):
    top = max(layer for layer, *_ in crates)
    seen, places = {}, {}
    for layer, crate, _, _ in crates:
        column = seen.get(layer, 0)
        seen[layer] = column + 1
        places[crate] = (LEFT + column * (WIDTH + GAP), 20 + (top - layer) * (HEIGHT + 34))
    return places, max(seen.values()), top


def draw():
    crates, here = list(layers()), built()
    places, columns, top = place(crates)
    width, height = LEFT + columns * (WIDTH + GAP) + 10, 20 + top * (HEIGHT + 34) + 10
    out = []
    for layer in range(1, top + 1):
        out.append('<text x="8" y="%d" fill="#666">layer %d</text>' % (20 + (top - layer) * (HEIGHT + 34) + 19, layer))
    for _, crate, _, below in crates:
        x, y = places[crate]
        for other in below:
            ox, oy = places[other]
            out.append('<line x1="%d" y1="%d" x2="%d" y2="%d" stroke="#c8c8d8"/>' % (x + WIDTH // 2, y + HEIGHT, ox + WIDTH // 2, oy))
    for _, crate, does, _ in crates:
        x, y = places[crate]
        fill, dash = ("#dbe9ff", "") if crate in here else ("white", ' stroke-dasharray="4 3"')
        out.append('<rect x="%d" y="%d" width="%d" height="%d" rx="4" fill="%s" stroke="#456"%s><title>%s</title></rect>' % (x, y, WIDTH, HEIGHT, fill, dash, escape(does)))
        out.append('<text x="%d" y="%d" text-anchor="middle">%s</text>' % (x + WIDTH // 2, y + 19, crate))
    write("layers.svg", width, height, out)


if __name__ == "__main__":
    draw()
