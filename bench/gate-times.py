#!/usr/bin/env python3
"""Proves crates from nothing, and lists where the gate's processor time goes: by crate, by function and by must-fail edit.

usage: bench/gate-times.py [--no-edits] [--slowest N] [NAME..]

Without names it takes every crate of crates.txt, lowest first. It works on a copy, and lets one job prove, so that each function's time is its own.
What a function's proof needs first (definitions, lemmas) counts as that function's. Times are of processors, in seconds; those of edits are seen
from outside, so they are a little less than they are. The gate proves a crate twice, once with its tests, and tries each edit once."""

import os
import re
import subprocess
import sys
import tempfile
import time

import refused

PARALLEL = 4


def lowest_first(tree):
    """Returns the crates of crates.txt, each behind those that it stands on."""
    below = {}
    with open(f"{tree}/crates.txt", encoding="utf-8") as lines:
        for line in lines:
            name, _, deps = line.partition("#")[0].partition(":")
            if name.strip():
                below[name.split()[0]] = deps.split()
    order = []

    def put(name):
        if name in below and name not in order:
            for dep in below[name]:
                put(dep)
            order.append(name)

    for name in sorted(below):
        put(name)
    return order


def proved(copy, crate, flags):
    """Proves the crate in the copy; returns the processor seconds, those by function, the number of functions and whether it is proved."""
    folder = os.path.realpath(f"{copy}/crates/{crate}")
    child = subprocess.Popen([refused.command(), "check", "--jobs", "1", *flags], cwd=folder, stdin=subprocess.DEVNULL,
                             stdout=subprocess.PIPE, stderr=subprocess.STDOUT, text=True, errors="replace")
    at, of_functions, total, lines = 0.0, {}, 0.0, []
    for line in child.stdout:
        lines.append(line)
        now = max(at, refused.spent(folder))
        total = max(total, now)
        name = re.match(r"checked (\S+), \d+ of \d+", line)
        if name or line.startswith("so far: 0 of"):
            if name:
                of_functions[name[1]] = now - at
            at = now
    child.wait()
    if child.returncode:
        print("".join(lines[-6:]), end="")
    return total, of_functions, len(of_functions), child.returncode == 0


def measured(tree, crate, with_edits):
    """Returns the crate's seconds alone, of its tests alone, its functions' and its edits'."""
    with tempfile.TemporaryDirectory(prefix="gate-times-") as copy:
        os.rmdir(copy)
        refused.copied(tree, copy, crate, "must-fail")
        folder = f"{copy}/crates/{crate}"
        root = f"{folder}/src/main.rt" if os.path.isfile(f"{folder}/src/main.rt") else f"{folder}/src/lib.rt"
        # a text that was never proved, and nothing kept: so the check begins from nothing
        with open(root, "a", encoding="utf-8") as it:
            it.write(f"// measured at {time.time()}\n")
        os.makedirs(f"{folder}/out/incremental")
        own, functions, count, is_proved = proved(copy, crate, [])
        tests, of_tests, _, are_proved = proved(copy, crate, ["--test"])
        edits = refused.tried_in(copy, crate) if with_edits and is_proved else []
        return own, tests, {**functions, **of_tests}, count, edits, is_proved and are_proved


def main(words):
    tree, slowest, with_edits, names = refused.top(), 10, True, []
    words = list(words)
    while words:
        word = words.pop(0)
        if word == "--no-edits":
            with_edits = False
        elif word == "--slowest" and words and words[0].isdigit():
            slowest = int(words.pop(0))
        elif word in lowest_first(tree):
            names.append(word)
        else:
            print(__doc__, file=sys.stderr)
            return 2
    of_functions, of_edits, whole, failed = {}, {}, 0.0, 0
    print("   own  tests  edits  functions  crate")
    for crate in names or lowest_first(tree):
        own, tests, functions, count, edits, is_well = measured(tree, crate, with_edits)
        spent = sum(seconds or 0 for _, seconds, _, _ in edits)
        print(f"{own:6.0f} {tests:6.0f} {spent:6.0f} {count:10}  {crate}" + ("" if is_well else ": NOT PROVED"), flush=True)
        of_functions.update(functions)
        of_edits.update({f"{crate}/{name}": seconds or 0 for name, seconds, _, _ in edits})
        failed += (not is_well) + sum(not was_refused for _, _, was_refused, _ in edits)
        whole += 2 * own + tests + spent
    for title, times in (("functions", of_functions), ("edits", of_edits)):
        print(f"\nslowest {title}:")
        for name, seconds in sorted(times.items(), key=lambda it: -it[1])[:slowest]:
            print(f"{seconds:6.1f}  {name}")
    print(f"\nthe gate from nothing: about {whole / 60:.0f} processor minutes, {whole / 60 / PARALLEL:.0f} minutes on {PARALLEL} quiet processors; {failed} failed")
    return 1 if failed else 0


if __name__ == "__main__":
    sys.exit(main(sys.argv[1:]))
