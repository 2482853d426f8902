"""What the scripts that draw share: the rows of a table of docs/, the head of an arrow, and a picture as it is written."""
import os

HERE = os.path.dirname(os.path.abspath(__file__))
ARROW = ('<defs><marker id="head" viewBox="0 0 8 8" refX="7" refY="4" markerWidth="8" markerHeight="8" orient="auto">'
         '<path d="M 0 0 L 8 4 L 0 8 z" fill="#456"/></marker></defs>')


def rows(table):
    """The cells of each line that is no comment."""
    with open(os.path.join(HERE, table), encoding="utf-8") as source:
        for line in source:
            if not line.startswith("#") and line.strip():
                yield line.rstrip("\n").split("\t")


def write(picture, width, height, parts, head=""):
    """Writes the picture: on white, with the head of its arrows if it has any."""
    begin = '<svg xmlns="http://www.w3.org/2000/svg" width="%d" height="%d" font-family="sans-serif" font-size="12">' % (width, height)
    lines = [begin, *([head] if head else []), '<rect width="100%" height="100%" fill="white"/>', *parts, "</svg>"]
    with open(os.path.join(HERE, picture), "w", encoding="utf-8") as target:
        target.write("\n".join(lines) + "\n")
