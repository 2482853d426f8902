"""python3 docs/make-lists.py  makes docs/definitions.md, and the lists of docs/architecture.md behind its mark.

The words of a definition are the comment above it in crates/NAME/specs; a definition without one goes with the one before it.
The words of a file are the first sentence of the comment at its head. Layers come from docs/layers.tsv, crates that stand from crates.txt.
"""
import glob
import os
import re
import sys

HERE = os.path.dirname(os.path.abspath(__file__))
TOP = os.path.dirname(HERE)
MARK = "<!-- what follows is made by docs/make-lists.py -->\n"
FORM = re.compile(r"(\S+) :")
NAMED = re.compile(r"(?:[a-z]+ )*pub (?:record |data |enum )?(?!mod |use )(\S+)")

HEAD = """# Definitions

Made by `python3 docs/make-lists.py` from the comments above the definitions in `crates/NAME/specs`. They say what is meant, as lists, functions and relations, with the section of the standard where there is one; how the code gets there is its own matter. Names in one row share its words.

## Ten words

| Word | Means |
|---|---|
| want of memory | an allocation failed. It is the one answer that a call may always give, and no contract says when it comes |
| a front of | the first bytes of a text, as many as there were: none, some or all |
| behind, in front of | later and earlier in a list of bytes or lines |
| is told | an object says what it holds (`Some`), as the forms over memory do; of one that doesn't, contracts that speak of its contents say nothing |
| rose | a count of faults is one higher than before a call, or stands at the highest u64 |
| seat | one thread's part in a table of words that threads share, with what it holds and what it saw. In the machine an engine or a worker |
| rule | what holds of a table of shared words and of all its seats between any two atomic steps, whatever the threads do |
| run | neighbouring chunks of one segment that hold one message |
| place, cycle, slot | a place is a number that only grows; divided by the ring's size it has its cycle, and as the rest its slot |
| weigh | a sum over a list. 'Exactly one of several' is a sum that is 1, and 'held by exactly one' a sum over all seats |
"""


def rows_of(name):
    with open(os.path.join(HERE, name), encoding="utf-8") as source:
        return [line.rstrip("\n").split("\t") for line in source if line.strip() and not line.startswith("#")]


def standing():
    """The crates that stand, each with those of them that it uses."""
    found = {}
    with open(os.path.join(TOP, "crates.txt"), encoding="utf-8") as source:
        for line in source:
            name, colon, below = line.partition("#")[0].partition(":")
            if colon:
                found[name.split()[0]] = below.split()
    return {name: [crate for crate in below if crate in found] for name, below in found.items()}


def in_layers():
    """The crates that stand, lowest first; those that docs/layers.tsv doesn't have come last."""
    order = [row[1] for row in rows_of("layers.tsv")]
    return sorted(standing(), key=lambda crate: (order.index(crate) if crate in order else len(order), crate))


def head_of(path):
    """The comment at the head of a file as one text, or '' where there is none."""
    words = []
    with open(path, encoding="utf-8") as source:
        for line in source:
            found = re.match(r"(?://!|--) ?(.*)", line)
            if not found or not found[1]:
                break
            words.append(found[1].strip())
    return " ".join(words)


def first_sentence(words):
    return re.split(r"(?<=\.) (?=[A-Z`])", words)[0]


def definitions_in(path):
    """The parts of a file of definitions: each the words of its heading, and rows of names with their words."""
    with open(path, encoding="utf-8") as source:
        lines = source.read().split("\n")
    parts, comment, is_head, block = [("", [])], [], True, ""
    for line in lines:
        if line[:1].strip() and not line.startswith("--"):
            opens = re.match(r"module _|abbrev mutual|mutual|pub data", line)
            block = opens[0] if opens else ""
        elif block and line.startswith("  "):
            # of a module or a mutual block what stands in it, of a data type its forms
            line = line[2:]
        named = NAMED.match(line) or (block == "pub data" and FORM.match(line))
        if line.startswith("-- ----"):
            parts.append((line.strip("- "), []))
            comment = []
        elif line.startswith("--"):
            comment.append(line[2:].strip())
        elif is_head and line.startswith("use "):
            # the comment at the head is the file's
            comment, is_head = [], False
        elif named:
            rows = parts[-1][1]
            if comment or not rows:
                rows.append(([named[1]], " ".join(comment)))
            else:
                rows[-1][0].append(named[1])
            comment = []
        elif not line.strip():
            is_head, comment = False, []
    return [(heading, rows) for heading, rows in parts if rows]


def definitions():
    out = [HEAD]
    for crate in in_layers():
        paths = [path for path in sorted(glob.glob(os.path.join(TOP, "crates", crate, "specs", "**", "*.antt"), recursive=True)) if not path.endswith("Lib.antt")]
        if paths:
            out.append("## `%s`\n" % crate)
        for path in paths:
            out.append("### `%s`\n\n%s\n" % (os.path.basename(path), head_of(path)))
            for heading, rows in definitions_in(path):
                if heading:
                    out.append("%s:\n" % (heading[0].upper() + heading[1:]))
                out.append("| Definition | In plain words |\n|---|---|")
                # what has no words of its own says what stands above it
                out.extend("| %s | %s |" % (", ".join("`%s`" % name for name in names), (words or heading or first_sentence(head_of(path))).replace("|", "\\|"))
                           for names, words in rows)
                out.append("")
    return "\n".join(out)


def edits_of(crate):
    """How many edits of a crate the gate tries, and how many more there are."""
    return " + ".join(str(len(glob.glob(os.path.join(TOP, "crates", crate, kind, "*.edit")))) for kind in ("must-fail", "refused"))


def layers():
    stand, out = standing(), ["## The crates that stand\n\nEdits: those that the gate must refuse, and those of `refused/`.\n\n| Layer | Crate | Does | Stands on | Edits |\n|---|---|---|---|---|"]
    planned = [(layer, crate, does, " ".join(below).split()) for layer, crate, does, *below in rows_of("layers.tsv")]
    named = lambda crates: ", ".join("`%s`" % crate for crate in crates)
    out.extend("| %s | `%s` | %s | %s | %s |" % (layer, crate, does, named(stand[crate]), edits_of(crate)) for layer, crate, does, _ in planned if crate in stand)
    out.append("\n## The crates to come\n\n| Layer | Crate | Does | Is to stand on, most of all |\n|---|---|---|---|")
    out.extend("| %s | `%s` | %s | %s |" % (layer, crate, does, named(below)) for layer, crate, does, below in planned if crate not in stand)
    return [*out, ""]


def files():
    out = ["## Files\n\nOf each crate its code, and then the definitions that its contracts cite.\n"]
    for crate in in_layers():
        out.append("### `%s`\n" % crate)
        for kind, pattern in (("src", "*.rt"), ("specs", "*.antt")):
            for path in sorted(glob.glob(os.path.join(TOP, "crates", crate, kind, "**", pattern), recursive=True)):
                name, words = os.path.relpath(path, os.path.join(TOP, "crates", crate)), head_of(path)
                if words:
                    out.append("- `%s`: %s" % (name, first_sentence(words)))
                elif not name.endswith("Lib.antt") and "tests" not in name:
                    print("%s/%s has no head line" % (crate, name), file=sys.stderr)
        out.append("")
    return out


def main():
    with open(os.path.join(HERE, "definitions.md"), "w", encoding="utf-8") as target:
        target.write(definitions().rstrip("\n") + "\n")
    path = os.path.join(HERE, "architecture.md")
    with open(path, encoding="utf-8") as source:
        text = source.read().partition(MARK)[0]
    with open(path, "w", encoding="utf-8") as target:
        target.write(text + MARK + "\n" + "\n".join(layers() + files()).rstrip("\n") + "\n")


if __name__ == "__main__":
    main()
