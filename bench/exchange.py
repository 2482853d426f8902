"""python3 bench/exchange.py CONFIGURATION [REQUESTS]  tries a configuration before it is served.

CONFIGURATION is a file with a document. REQUESTS is a file, or standard input: a request a line, in the words of curl:

    LISTENER METHOD TARGET [-H 'Name: value']... [-d CONTENT]

Without a Host of its own a request has `Host: localhost`. A line that begins with `#` is none. Each line is shown with what its
connection gets from `./unit exchange`. Status 1 where the configuration is refused, 2 where a line is no request.
"""
import argparse
import os
import shlex
import subprocess
import sys

TOP = os.path.dirname(os.path.dirname(os.path.abspath(__file__)))


def request_parser():
    parser = argparse.ArgumentParser(prog="request", add_help=False)
    parser.add_argument("listener")
    parser.add_argument("method")
    parser.add_argument("target")
    parser.add_argument("-H", dest="fields", action="append", default=[])
    parser.add_argument("-d", dest="content")
    return parser


def message(method, target, fields, content):
    """The bytes of one request."""
    if not any(field.lower().startswith("host:") for field in fields):
        fields = ["Host: localhost"] + fields
    if content is not None:
        fields = fields + ["Content-Length: %d" % len(content)]
    lines = ["%s %s HTTP/1.1" % (method, target)] + fields
    return "".join(line + "\r\n" for line in lines).encode() + b"\r\n" + (content or b"")


def frame(head, data):
    return b"%s %d\n%s" % (head.encode(), len(data), data)


def replies(output):
    """What each frame got."""
    while output:
        size, _, rest = output.partition(b"\n")
        yield rest[:int(size)]
        output = rest[int(size):]


def main(argv):
    if len(argv) not in (1, 2):
        sys.exit(__doc__)
    with open(argv[0], "rb") as f:
        document = f.read()
    with open(argv[1]) if len(argv) == 2 else sys.stdin as f:
        lines = [line.strip() for line in f]
    lines = [line for line in lines if line and not line.startswith("#")]
    script = frame("C", message("PUT", "/config", [], document))
    parser = request_parser()
    for line in lines:
        r = parser.parse_args(shlex.split(line))
        content = None if r.content is None else r.content.encode()
        script += frame("H " + r.listener, message(r.method, r.target, r.fields, content))
    done = subprocess.run([os.path.join(TOP, "unit"), "exchange"], input=script, stdout=subprocess.PIPE)
    if done.returncode:
        sys.exit(done.returncode)
    accepted, *rest = replies(done.stdout)
    if not accepted.startswith(b"HTTP/1.1 200 "):
        print(accepted.split(b"\r\n\r\n", 1)[-1].decode())
        sys.exit(1)
    for line, reply in zip(lines, rest):
        print(">", line)
        print(reply.decode(errors="backslashreplace").replace("\r\n", "\n"))


main(sys.argv[1:])
