"""python3 bench/draw.py  draws docs/benchmarks.svg from bench/results.tsv: each ratio as a bar, and the most that it may be as a mark."""
import os
from xml.sax.saxutils import escape

HERE = os.path.dirname(os.path.abspath(__file__))
LEFT, SCALE, ROW = 480, 110, 26


def rows():
    with open(os.path.join(HERE, "results.tsv"), encoding="utf-8") as source:
        for line in source:
            if line.strip() and not line.startswith("#"):
                what, ratio, most, against = line.rstrip("\n").split("\t")
                yield what.replace("`", ""), float(ratio), float(most), against.replace("`", "")


def draw():
    results = list(rows())
    width = LEFT + int(max(max(ratio, most) for _, ratio, most, _ in results) * SCALE) + 60
    height = ROW * len(results) + 40
    out = ['<svg xmlns="http://www.w3.org/2000/svg" width="%d" height="%d" font-family="sans-serif" font-size="12">' % (width, height),
           '<rect width="100%" height="100%" fill="white"/>']
    for i, (what, ratio, most, against) in enumerate(results):
        y = 20 + i * ROW
        out.append('<text x="%d" y="%d" text-anchor="end">%s, against %s</text>' % (LEFT - 8, y + 13, escape(what), escape(against)))
        out.append('<rect x="%d" y="%d" width="%d" height="16" fill="%s"/>' % (LEFT, y, ratio * SCALE, "#8fb8ff" if ratio <= most else "#ff8f8f"))
        out.append('<line x1="%d" y1="%d" x2="%d" y2="%d" stroke="#444" stroke-width="2"/>' % (LEFT + most * SCALE, y - 3, LEFT + most * SCALE, y + 19))
        out.append('<text x="%d" y="%d">%.2f</text>' % (LEFT + ratio * SCALE + 4, y + 13, ratio))
    out.append("</svg>")
    with open(os.path.join(HERE, "..", "docs", "benchmarks.svg"), "w", encoding="utf-8") as target:
        target.write("\n".join(out) + "\n")


if __name__ == "__main__":
    draw()
