"""python3 bench/frames.py  shows what `exchange` and `trace` cost, as ratios against something in the same run.

It needs the built programs (`rt ci`, or `./unit once hello </dev/null` and `rt run` in crates/unit_bench).
"""
import os
import sys

import measure

CONTENT = 8388608
DOCUMENT = (b'{"applications":{"count":{"type":"external","executable":"count"},"hello":{"type":"external","executable":"hello"}},'
            b'"listeners":{"*:8080":{"pass":"applications/hello"},"*:8081":{"pass":"applications/count"}},'
            b'"settings":{"http":{"max_body_size":%d}}}' % CONTENT)
GET = b"GET / HTTP/1.1\r\nHost: a\r\n\r\n"


def control(content):
    """The frame of a change of the whole configuration."""
    request = b"PUT /config HTTP/1.1\r\nHost: a\r\nContent-Length: %d\r\n\r\n%b" % (len(content), content)
    return b"C %d\n%b" % (len(request), request)


def connection(listener, size):
    """The line in front of a connection of so many bytes."""
    return b"H %b %d\n" % (listener, size)


def main():
    for program in (measure.UNIT, measure.BENCH):
        if not os.path.exists(program):
            print("bench/frames.py: skipped, since %s isn't built" % os.path.relpath(program, measure.TOP))
            return 0
    exchange, reading = [measure.UNIT, "exchange"], [measure.BENCH, "read-input"]

    page = connection(b"*:8080", len(GET)) + GET
    times, sizes = [], []
    for frames in (10000, 20000):
        path = measure.with_input([control(DOCUMENT), page * (frames - 1)])
        ((time, memory),) = measure.best([exchange], path, 20)
        times.append(time)
        sizes.append(memory)
        os.unlink(path)
    measure.report("20,000 frames beside 10,000: time", times[1] / times[0], 2.2)
    measure.report("20,000 frames beside 10,000: memory", sizes[1] / sizes[0], 2.2)

    path = measure.with_input([control(DOCUMENT), page * 10000])
    (traced, _), (answered, _) = measure.best([[measure.UNIT, "trace"], exchange], path, 20)
    measure.report("the trace of 10,000 requests: time", traced / answered, 4)
    os.unlink(path)

    head = b"POST / HTTP/1.1\r\nHost: a\r\nContent-Length: %d\r\n\r\n" % CONTENT
    parts = [control(DOCUMENT), connection(b"*:8081", len(head) + CONTENT), head, b"x" * CONTENT]
    path = measure.with_input(parts)
    (ours, _), (read, _) = measure.best([exchange, reading], path, 20)
    measure.report("%d bytes of content in one frame: time" % CONTENT, ours / read, 3)
    os.unlink(path)
    return 0


if __name__ == "__main__":
    sys.exit(main())
