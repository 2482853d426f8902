#!/usr/bin/env python3
"""Tries the edits of crates/NAME/refused/, each of which the prover must refuse, on a copy of the tree.

usage: bench/refused.py [--gate] [NAME..]

Without names it tries those of every crate. --gate tries the few in must-fail/ in their place, which the gate tries too.
For each edit it prints its processor seconds and what came of it, for each crate a line, and at the end
'N passed, M failed'. The status is 0 where none failed. The tree stays as it is."""

import glob
import os
import re
import shutil
import subprocess
import sys
import tempfile
import threading
import time

TICKS = os.sysconf("SC_CLK_TCK")
PARTS = ("src", "specs", "proofs", "data")


def top():
    """Returns the tree to try: the one that we are in, else this file's."""
    here = os.getcwd()
    while here != "/" and not os.path.isfile(f"{here}/crates.txt"):
        here = os.path.dirname(here)
    return here if here != "/" else os.path.dirname(os.path.dirname(os.path.realpath(__file__)))


def command():
    """Returns the prover's command: rtq, where a machine shares its processors by it, else rt."""
    return "rtq" if shutil.which("rtq") else "rt"


def edits_of(tree, crate, folder):
    return sorted(glob.glob(f"{tree}/crates/{crate}/{folder}/*.edit"))


def copied(tree, to, crate, folder):
    """Makes the copy: all sources, and as the crate's must-fail edits those of the folder."""
    os.makedirs(f"{to}/crates")
    for name in ("crates.txt", "HANDLES"):
        if os.path.isfile(f"{tree}/{name}"):
            shutil.copy(f"{tree}/{name}", to)
    for each in os.listdir(f"{tree}/crates"):
        for part in PARTS:
            if os.path.isdir(f"{tree}/crates/{each}/{part}"):
                shutil.copytree(f"{tree}/crates/{each}/{part}", f"{to}/crates/{each}/{part}")
    os.makedirs(f"{to}/crates/{crate}/must-fail")
    for edit in edits_of(tree, crate, folder):
        shutil.copy(edit, f"{to}/crates/{crate}/must-fail")


def edited(edit, crate_folder):
    """Returns the texts of the files that an edit changes, by their path in the crate."""
    texts, path, old = {}, "", ""
    with open(edit, encoding="utf-8") as lines:
        for line in lines.read().split("\n"):
            if line.startswith("file: "):
                path = line[6:].strip()
            elif line.startswith("old: "):
                old = line[5:]
            elif line.startswith("new:"):
                if path not in texts:
                    with open(f"{crate_folder}/{path}", encoding="utf-8") as it:
                        texts[path] = it.read()
                texts[path] = texts[path].replace(old, line[4:].removeprefix(" "), 1)
    return texts


def spent(room):
    """Returns the processor seconds so far of the processes that work in the folder."""
    total = 0
    for entry in os.listdir("/proc"):
        try:
            if entry.isdigit() and os.readlink(f"/proc/{entry}/cwd") == room:
                with open(f"/proc/{entry}/stat", encoding="utf-8", errors="replace") as it:
                    total += sum(int(word) for word in it.read().rpartition(")")[2].split()[11:15])
        except OSError:
            continue
    return total / TICKS


class Watch(threading.Thread):
    """Looks at the folders in which rt checks edits, and keeps each edit's processor seconds."""

    def __init__(self, rooms, texts):
        super().__init__(daemon=True)
        self.rooms, self.texts, self.seconds, self.whose, self.over = rooms, texts, {}, {}, threading.Event()

    def edit_in(self, room):
        for edit, texts in self.texts.items():
            try:
                if all(open(f"{room}/{path}", encoding="utf-8").read() == text for path, text in texts.items()):
                    return edit
            except OSError:
                continue
        return None

    def run(self):
        while not self.over.wait(0.2):
            for room in glob.glob(f"{self.rooms}/rt-edit-*"):
                if not self.whose.get(room):
                    self.whose[room] = self.edit_in(room)
                edit = self.whose[room]
                if edit:
                    self.seconds[edit] = max(self.seconds.get(edit, 0), spent(os.path.realpath(room)))


def tried(tree, crate, folder="refused"):
    """Tries the edits of a crate's folder on a copy, and returns what `tried_in` does."""
    with tempfile.TemporaryDirectory(prefix="refused-") as room:
        copied(tree, f"{room}/tree", crate, folder)
        return tried_in(f"{room}/tree", crate)


def tried_in(copy, crate):
    """Tries the must-fail edits of a crate in a copy, and returns of each its name, its seconds (None where an earlier run's answer was kept), whether it
    was refused, and what was said."""
    inside, texts = f"{copy}/crates/{crate}", {}
    names = [os.path.basename(edit) for edit in edits_of(copy, crate, "must-fail")]
    for name in names:
        try:
            texts[name] = edited(f"{inside}/must-fail/{name}", inside)
        except OSError:
            continue
    with tempfile.TemporaryDirectory(prefix="edits-") as rooms:
        watch = Watch(rooms, texts)
        watch.start()
        ran = subprocess.run([command(), "must-fail", crate], cwd=copy, env={**os.environ, "TMPDIR": rooms},
                             stdin=subprocess.DEVNULL, stdout=subprocess.PIPE, stderr=subprocess.STDOUT, text=True, errors="replace")
        watch.over.set()
        watch.join()
    said = dict(re.findall(r"must-fail " + re.escape(crate) + r"/(\S+): (.*)", ran.stdout))
    if names and not said:
        print(ran.stdout, end="")
    return [(name, watch.seconds.get(name), said.get(name, "").startswith("refused, as it must be"), said.get(name, "no answer")) for name in names]


def main(words):
    folder = "must-fail" if "--gate" in words else "refused"
    tree = top()
    known = sorted(os.path.basename(it) for it in glob.glob(f"{tree}/crates/*") if os.path.isdir(f"{it}/src"))
    names = [word.strip("/").removeprefix("crates/") for word in words if not word.startswith("-")]
    wrong = [name for name in names if name not in known]
    if wrong or [word for word in words if word.startswith("-") and word != "--gate"]:
        print(__doc__, file=sys.stderr)
        return 2
    passed = failed = 0
    for crate in names or known:
        if not edits_of(tree, crate, folder):
            continue
        begun = time.time()
        found = tried(tree, crate, folder)
        for name, seconds, refused, said in found:
            told = "     -" if seconds is None else f"{seconds:6.1f}"
            print(f"{told} s  {'refused' if refused else 'FAILED '}  {crate}/{name}" + (f": {said}" if not refused or "only b" in said else ""))
        well = sum(refused for _, _, refused, _ in found)
        print(f"{crate}: {well} of {len(found)} edits refused, in {time.time() - begun:.0f} s", flush=True)
        passed, failed = passed + well, failed + len(found) - well
    print(f"{passed} passed, {failed} failed")
    return 1 if failed else 0


if __name__ == "__main__":
    sys.exit(main(sys.argv[1:]))
