"""Times commands: the best of several runs, by turns, with the largest memory that each used."""
import os
import subprocess
import tempfile
import time

TOP = os.path.join(os.path.dirname(os.path.abspath(__file__)), "..")
UNIT = os.path.join(TOP, "crates", "unit_program", "out", "unit_program")
BENCH = os.path.join(TOP, "crates", "unit_bench", "out", "unit_bench")


def once(command, path):
    """Runs the command with the file as its input; gives seconds and bytes of memory."""
    with open(path, "rb") as source, open(os.devnull, "wb") as sink:
        begin = time.perf_counter()
        child = subprocess.Popen(command, stdin=source, stdout=sink, stderr=sink)
        _, _, used = os.wait4(child.pid, 0)
        seconds = time.perf_counter() - begin
        child.returncode = 0
    return seconds, used.ru_maxrss * 1024


def best(commands, path, turns):
    """The best time and the largest memory of each command, run by turns on the same input."""
    found = [(float("inf"), 0)] * len(commands)
    for _ in range(turns):
        for i, command in enumerate(commands):
            seconds, memory = once(command, path)
            found[i] = (min(found[i][0], seconds), max(found[i][1], memory))
    return found


def with_input(parts):
    """A file with these parts of bytes, one after another."""
    target = tempfile.NamedTemporaryFile(delete=False)
    for part in parts:
        target.write(part)
    target.close()
    return target.name


def report(name, ratio, limit):
    print("%-44s %6.2f  (at most %s)%s" % (name, ratio, limit, "" if ratio <= limit else "  EXCEEDED"))
