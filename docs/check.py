"""python3 docs/check.py  looks whether the pages still agree with the tree, and prints a line for each place where they don't.

Links lead to files; README has at most 900 words; no cell of proved.md has more than 40, and what its first column names stands in
the crate; the limits of formats.md stand where it says; the calls of calls.tsv are there, and make steps of
the machine; definitions.md and the lists of architecture.md are as docs/make-lists.py
makes them.
"""
import glob
import os
import re
import subprocess
import sys

HERE = os.path.dirname(os.path.abspath(__file__))
TOP = os.path.dirname(HERE)
FOUND = []


def say(words):
    FOUND.append(words)
    print("docs: " + words)


def text_of(path):
    with open(path, encoding="utf-8") as source:
        return source.read()


def cells_of(line):
    return [cell.strip().replace("\\|", "|") for cell in re.split(r"(?<!\\)\|", line.strip().strip("|"))]


def sources_of(crate, *kinds):
    paths = [path for kind in kinds for path in glob.glob(os.path.join(TOP, "crates", crate, kind, "**", "*"), recursive=True) if os.path.isfile(path)]
    return "\n".join(text_of(path) for path in paths)


def links():
    for page in [os.path.join(TOP, "README.md"), *sorted(glob.glob(os.path.join(HERE, "*.md")))]:
        for target in re.findall(r"\]\(([^)#]+)", text_of(page)):
            if not target.startswith("http") and not os.path.exists(os.path.join(os.path.dirname(page), target)):
                say("%s links to %s, which isn't there" % (os.path.relpath(page, TOP), target))


def readme():
    words = len(text_of(os.path.join(TOP, "README.md")).split())
    if words > 900:
        say("README.md has %d words" % words)


def proved():
    crate, text = "", ""
    for line in text_of(os.path.join(HERE, "proved.md")).split("\n"):
        heading = re.match(r"## `(\w+)`", line)
        if heading:
            crate, text = heading[1], sources_of(heading[1], "src", "specs")
            if not text:
                say("proved.md speaks of %s, which isn't there" % crate)
        elif line.startswith("|"):
            cells = cells_of(line)
            for cell in cells:
                if len(cell.split()) > 40:
                    say("proved.md, %s: a cell of %d words: %s .." % (crate, len(cell.split()), cell[:40]))
            for name in re.findall(r"`([^`]+)`", cells[0]):
                for word in re.findall(r"[A-Za-z_]\w+", name):
                    if not re.search(r"\b%s\b" % word, text):
                        say("proved.md names %s, which isn't in %s" % (word, crate))


def limits():
    table = text_of(os.path.join(HERE, "formats.md")).partition("## Limits")[2]
    for line in table.split("\n"):
        if not line.startswith("| ") or line.startswith("| Quantity"):
            continue
        quantity, _, _, code, definition = cells_of(line)
        for place in code.split(";"):
            named = re.search(r"`(\w+/src/[\w/]+\.rt)`(?:, `(\w+)`)?", place)
            if named:
                path = os.path.join(TOP, "crates", named[1])
                if not os.path.exists(path) or (named[2] and named[2] not in text_of(path)):
                    say("the limit of %s isn't in %s" % (quantity, place.strip()))
        files = " ".join(path for path in glob.glob(os.path.join(TOP, "crates", "*", "specs", "*.antt")))
        for file in re.findall(r"`(\w+\.antt)`", definition):
            if "/" + file not in files:
                say("there is no %s, where the limit of %s is to stand" % (file, quantity))
        every = "\n".join(text_of(path) for path in files.split())
        for name in re.findall(r"`([a-zA-Z]\w*)`", definition):
            if not re.search(r"\b%s\b" % name, every) and not os.path.isdir(os.path.join(TOP, "crates", name)):
                say("there is no definition %s, of the limit of %s" % (name, quantity))


def lists():
    pages = [os.path.join(HERE, name) for name in ("definitions.md", "architecture.md")]
    before = [text_of(page) for page in pages]
    subprocess.run([sys.executable, os.path.join(HERE, "make-lists.py")], check=True)
    for page, text in zip(pages, before):
        if text_of(page) != text:
            say("%s is made anew by docs/make-lists.py" % os.path.basename(page))
        with open(page, "w", encoding="utf-8") as target:
            target.write(text)


def calls():
    code = sources_of("fabric_rule", "src")
    steps = text_of(os.path.join(HERE, "machine.tsv")).lower()
    for line in text_of(os.path.join(HERE, "calls.tsv")).split("\n")[1:]:
        if line:
            _, _, call, made = line.split("\t")
            if not re.search(r"pub fn %s\b" % call, code):
                say("calls.tsv names %s, which fabric_rule hasn't" % call)
            for step in made.lower().split(", "):
                if step != "none" and not re.search(r"\b%s\b" % step, steps):
                    say("calls.tsv names %s, which is no step of machine.tsv" % step)


def main():
    for check in (links, readme, proved, limits, calls, lists):
        check()
    print("docs: %d places to mend" % len(FOUND))
    return 1 if FOUND else 0


if __name__ == "__main__":
    sys.exit(main())
