"""python3 bench/memory.py  shows how much memory a reader takes for long inputs that say little.

It needs the built program (`rt run` in crates/unit_bench).
"""
import os
import resource
import subprocess
import sys
import time

import measure

CONTENT = 8388608
SPARE = 2 << 20


def high_water(pid):
    """The most memory of a process so far, or 0 once it ended."""
    try:
        with open("/proc/%d/status" % pid) as status:
            for line in status:
                if line.startswith("VmHWM:"):
                    return int(line.split()[1]) * 1024
    except OSError:
        pass
    return 0


def memory(word):
    """The most memory of the word: looked at while it runs, and told at its end. What is told is at least the memory of this
    process, from which it began, so that it counts only where it is more."""
    child = subprocess.Popen([measure.BENCH, word], stdout=subprocess.DEVNULL)
    most, pid = 0, 0
    while pid == 0:
        most = max(most, high_water(child.pid))
        time.sleep(0.002)
        pid, _, used = os.wait4(child.pid, os.WNOHANG)
    child.returncode = 0
    own = resource.getrusage(resource.RUSAGE_SELF).ru_maxrss
    return max(most, used.ru_maxrss * 1024 if used.ru_maxrss > own else 0)


def main():
    if not os.path.exists(measure.BENCH):
        print("bench/memory.py: skipped, since unit_bench isn't built")
        return 0
    for word, name, content in (("empty-lines", "1 GiB of empty lines", 0), ("small-chunks", "8 MiB in chunks of one byte", CONTENT)):
        most = SPARE + 2 * content
        measure.report("%s: memory, of %d bytes" % (name, most), memory(word) / most, 1)
    return 0


if __name__ == "__main__":
    sys.exit(main())
