"""python3 bench/trace.py  shows what the check of a trace costs, as ratios against something in the same run.

Two made traces of about 1,000,000 lines: one of requests that are answered one after another, one of requests that are taken and
never answered. It needs the built unit_bench (`rt ci`) and awk.
"""
import os
import shutil
import sys

import measure

ITEMS = 8


def passed(stream, sender, receiver, queue, segment, part, size):
    """A message goes from one seat to the other through a queue, and its item goes back to the free list."""
    turn = stream - 1
    item = turn % ITEMS
    yield "claim %d %d 0" % (sender, segment)
    yield "getitem %d %d %d %d" % (sender, queue, item, ITEMS + turn)
    yield "setrun %d %d %d %d 0 %d" % (sender, queue, item, segment, size)
    yield "setpart %d %d %d %d" % (sender, queue, item, part)
    yield "arm %d %d %d %d" % (sender, queue, item, stream)
    yield "push %d %d %d %d" % (sender, queue, item, ITEMS + turn)
    yield "pop %d %d %d %d" % (receiver, queue, item, ITEMS + turn)
    yield "settle %d %d %d %d" % (receiver, queue, item, stream)
    yield "release %d %d 0" % (receiver, segment)
    yield "giveitem %d %d %d %d" % (receiver, queue, item, 2 * ITEMS + turn)


def trace(streams, reply):
    lines = []
    for stream in range(1, streams + 1):
        lines.append("draw 0 %d" % stream)
        lines.extend(passed(stream, 0, 1, queue=0, segment=0, part=0, size=77))
        if reply:
            lines.extend(passed(stream, 1, 0, queue=1, segment=1, part=1, size=54))
    return lines


def main():
    if not os.path.exists(measure.BENCH) or not shutil.which("awk"):
        print("bench/trace.py: skipped, since unit_bench isn't built or awk isn't here")
        return 0
    check, awk = [measure.BENCH, "check-trace"], ["awk", "{ n[$3]++ } END { print length(n) }"]
    for name, lines in (("answered", trace(47000, True)), ("left open", trace(90000, False))):
        text = ["".join(line + "\n" for line in part).encode() for part in (lines, lines[:len(lines) // 10], lines[:len(lines) * 9 // 10])]
        times = []
        for part in text:
            path = measure.with_input([part])
            times.append(measure.best([check, awk], path, 5))
            os.unlink(path)
        (whole, _), (counted, _) = times[0]
        first, rest = times[1][0][0], whole - times[2][0][0]
        measure.report("%d lines, %s: time against awk" % (len(lines), name), whole / counted, 3)
        measure.report("%d lines, %s: last tenth against the first" % (len(lines), name), rest / first, 1.5)
    return 0


if __name__ == "__main__":
    sys.exit(main())
