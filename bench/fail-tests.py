#!/usr/bin/env python3
"""Lets each allocation of a crate's tests fail in turn.

usage: bench/fail-tests.py [--least N] [--most N] NAME..

A test may then pass, or end with the error for want of memory; anything else is a finding, and is printed. A crate is done once
no test fails, though not before the least number of runs (1), or after the most (40). Tests that go on behind a failed allocation
never fail: give them as many runs as they make allocations. For each crate a line tells how many runs there were; the status is 0
where nothing was found."""

import os
import re
import subprocess
import sys

TOP = os.path.dirname(os.path.dirname(os.path.realpath(__file__)))
# What a test says that found no memory.
WANT = re.compile(r"error: .*\b(AllocError|AllocFailed|Memory|OutOfMemory|out of memory)\b", re.IGNORECASE)


def failures(said):
    """Returns what each failed test printed, by its name."""
    found = {}
    for name, text in re.findall(r"^test (\S+) \.\.\. FAILED\n((?:    .*\n)*)", said, re.MULTILINE):
        found[name] = text
    return found


def run(crate, number):
    done = subprocess.run(["rt", "try", "--test", "--fail-alloc", str(number)], cwd=f"{TOP}/crates/{crate}",
                          stdin=subprocess.DEVNULL, stdout=subprocess.PIPE, stderr=subprocess.STDOUT, text=True, errors="replace")
    return done.stdout


def tried(crate, least, most):
    """Returns how many findings there were."""
    findings = 0
    for number in range(1, most + 1):
        said = run(crate, number)
        if "test result:" not in said:
            print(f"{crate}, allocation {number}: no result\n{said}", flush=True)
            return findings + 1
        failed = failures(said)
        for name, text in failed.items():
            if not WANT.search(text):
                findings += 1
                print(f"{crate}, allocation {number}: {name}\n{text}", end="", flush=True)
        if not failed and number >= least:
            print(f"{crate}: allocations 1 to {number} failed in turn, {findings} findings", flush=True)
            return findings
    print(f"{crate}: allocations 1 to {most} failed in turn, and there are more; {findings} findings", flush=True)
    return findings


def main(words):
    runs = {"--least": 1, "--most": 40}
    while len(words) > 1 and words[0] in runs:
        runs[words[0]], words = int(words[1]), words[2:]
    if not words or any(word.startswith("-") for word in words):
        print(__doc__, file=sys.stderr)
        return 2
    return 1 if sum(tried(name, runs["--least"], runs["--most"]) for name in words) else 0


if __name__ == "__main__":
    sys.exit(main(sys.argv[1:]))
