"""python3 bench/load.py  compares what `unit load` sums up with the same loads made here, and shows what a load costs.

The loads are made after docs/formats.md, and `exchange` answers them too. It needs the built unit_program (`rt ci`).
"""
import os
import subprocess
import sys
import time

import measure

CONFIGURATION = (
    b'{"applications":{"count":{"executable":"count","type":"external"},'
    b'"echo":{"executable":"echo","type":"external"},'
    b'"hello":{"executable":"hello","type":"external"}},'
    b'"listeners":{"*:8080":{"pass":"routes"}},'
    b'"routes":[{"action":{"pass":"applications/hello"},"match":{"uri":"/hello"}},'
    b'{"action":{"pass":"applications/echo"},"match":{"uri":"/echo"}},'
    b'{"action":{"pass":"applications/count"},"match":{"uri":"/count"}}]}'
)
# the steps of a request and its reply, each of which fits one chunk
STEPS = 21


def draws(state):
    while True:
        state = (state * 6364136223846793005 + 1442695040888963407) % 2**64
        yield state >> 33


def post(path, size):
    return b"POST %s HTTP/1.1\r\nHost: a\r\nContent-Length: %d\r\n\r\n" % (path, size) + b"x" * size


def requests(count, seed):
    drawn = draws(seed)
    for _ in range(count):
        kind = next(drawn) % 4
        if kind in (1, 2):
            yield post(b"/echo" if kind == 1 else b"/count", next(drawn) % 1000)
        else:
            yield b"GET %s HTTP/1.1\r\nHost: a\r\n\r\n" % (b"/hello" if kind == 0 else b"/none")


def script(count, seed):
    """The frames of a load, and how many of its requests go to a handler."""
    put = b"PUT /config HTTP/1.1\r\nHost: u\r\nContent-Length: %d\r\n\r\n" % len(CONFIGURATION) + CONFIGURATION
    frames, asked = [b"C %d\n" % len(put) + put], 0
    for request in requests(count, seed):
        frames.append(b"H *:8080 %d\n" % len(request) + request)
        asked += not request.startswith(b"GET /none ")
    return frames, asked


def output(words, text=b""):
    return subprocess.run([measure.UNIT] + words, input=text, stdout=subprocess.PIPE, check=True).stdout


def main():
    if not os.path.exists(measure.UNIT):
        print("bench/load.py: skipped, since unit_program isn't built")
        return 0
    failed = 0
    for count, seed in ((1, 0), (100, 2**64 - 1), (10000, 7)):
        frames, asked = script(count, seed)
        text = b"".join(frames)
        begin = time.perf_counter()
        written = output(["exchange"], text)
        between = time.perf_counter()
        told = output(["load", str(count), str(seed)])
        end = time.perf_counter()
        wanted = b"frames %d\nin %d\nout %d\nsteps %d\n" % (len(frames), len(text), len(written), STEPS * asked)
        same = told == wanted and told == output(["load", str(count), str(seed)])
        failed += not same
        print("load %d %d: %s" % (count, seed, "as made here" if same else "DIFFERS: %r, not %r" % (told, wanted)))
        if count == 10000:
            measure.report("%d requests: time against exchange of them" % count, (end - between) / (between - begin), 2)
    return failed


if __name__ == "__main__":
    sys.exit(main())
