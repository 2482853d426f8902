"""python3 bench/machine-table.py  compares docs/machine.tsv with the conditions of each step.

The last column of the table has the numbers of a step's conditions, in their order. The definition of the conditions is
`conditions_by` in crates/unit_model/specs/Conditions.antt; the number of a condition is the one that its definition passes
to `unless`. Exits with 1 where a row differs or a step has no row.
"""

import os
import re
import sys

TOP = os.path.dirname(os.path.dirname(os.path.abspath(__file__)))
DEFINITIONS = os.path.join(TOP, "crates", "unit_model", "specs", "Conditions.antt")
TABLE = os.path.join(TOP, "docs", "machine.tsv")


def definitions(text):
    """The text of each definition, by its name."""
    heads = list(re.finditer(r"^(?:abbrev|unfoldable) pub (\w+) :", text, re.M))
    ends = [head.start() for head in heads[1:]] + [len(text)]
    return {head.group(1): text[head.end():end] for head, end in zip(heads, ends)}


def number_of(name, bodies):
    """The number of a condition: that of its `unless`, or of the first condition that it is made of."""
    body = bodies[name]
    after = re.search(r"\bunless\s+\(", body)
    if after:
        depth, at = 1, after.end()
        while depth:
            depth += {"(": 1, ")": -1}.get(body[at], 0)
            at += 1
        return int(re.match(r"\s*(\d+)", body[at:]).group(1))
    for other in re.findall(r"\w+", body.split("=", 1)[1]):
        if other in bodies and other != name and other not in ("unless", "first_of"):
            try:
                return number_of(other, bodies)
            except (AttributeError, IndexError):
                continue
    raise AttributeError(name)


def conditions(text):
    """The numbers of each step's conditions, in their order, by the step's name in small letters."""
    bodies = definitions(text)
    bodies["eleventh"] = bodies["eleventh_of"]
    table = {}
    for clause in re.split(r"^conditions_by core eleventh ", bodies["conditions_by"], flags=re.M)[1:]:
        head, body = clause.split("=", 1)
        body = re.sub(r"--.*", "", body)
        numbers = []
        for part in body.split("∷"):
            names = [name for name in re.findall(r"\w+", part) if name in bodies]
            if names:
                numbers.append(number_of(names[0], bodies))
        table[re.match(r"\((\w+)", head).group(1).lower()] = numbers
    return table


def main():
    with open(DEFINITIONS, encoding="utf-8") as source:
        wanted = conditions(source.read())
    faults, told = [], set()
    with open(TABLE, encoding="utf-8") as source:
        for row in source:
            if row.startswith("#") or not row.strip():
                continue
            fields = row.rstrip("\n").split("\t")
            step = re.match(r"\w+", fields[3]).group(0)
            told.add(step)
            found = [int(number) for number in fields[4].split()]
            if wanted.get(step) != found:
                faults.append(f"{step}: the table has {found}, the definition {wanted.get(step)}")
    faults += [f"{step}: no row" for step in wanted if step not in told]
    for fault in faults:
        print(fault)
    if not faults:
        print(f"{len(wanted)} steps have the conditions of their definition")
    sys.exit(1 if faults else 0)


main()
