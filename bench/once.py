"""python3 bench/once.py  shows what `once hello` costs, as ratios against something in the same run.

It needs the built programs (`rt ci`, or `./unit once hello </dev/null` and `rt run` in crates/unit_bench).
"""
import os
import sys

import measure

GET = b"GET / HTTP/1.1\r\nHost: a\r\n\r\n"
LIMIT = 268435456
CONTENT = 8388608


def main():
    for program in (measure.UNIT, measure.BENCH):
        if not os.path.exists(program):
            print("bench/once.py: skipped, since %s isn't built" % os.path.relpath(program, measure.TOP))
            return 0
    unit, reading = [measure.UNIT, "once", "hello"], [measure.BENCH, "read-input"]

    path = measure.with_input([GET])
    (ours, _), (cat, _) = measure.best([unit, ["cat"]], path, 200)
    measure.report("one GET, start to reply, against cat", ours / cat, 3)
    os.unlink(path)

    block = b"x" * (1 << 20)
    letters = [block] * (LIMIT >> 20)
    for name, parts in (("letters", letters), ("one request, then letters", [GET] + letters[1:] + [block[len(GET):]])):
        path = measure.with_input(parts)
        size = os.path.getsize(path)
        (ours, memory), (read, _) = measure.best([unit, reading], path, 5)
        measure.report("%d bytes of %s: time" % (size, name), ours / read, 1.5)
        measure.report("%d bytes of %s: memory" % (size, name), memory / size, 2.5)
        os.unlink(path)

    head = b"POST / HTTP/1.1\r\nHost: a\r\nContent-Length: %d\r\n\r\n" % CONTENT
    path = measure.with_input([head] + [block] * (CONTENT >> 20))
    (ours, _), (read, _) = measure.best([[measure.UNIT, "once", "count"], reading], path, 20)
    measure.report("%d bytes of content through `count`: time" % CONTENT, ours / read, 3)
    os.unlink(path)
    return 0


if __name__ == "__main__":
    sys.exit(main())
