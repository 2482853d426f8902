"""python3 bench/client.py  lets python3's http.client write requests and read the replies of `once echo` back.

The requests go pipelined into one input; statuses, fields, lengths and contents have to agree, and nothing may be left over.
It needs the built program (`./unit once echo </dev/null`).
"""
import http.client
import io
import os
import subprocess
import sys

TOP = os.path.dirname(os.path.dirname(os.path.abspath(__file__)))
UNIT = os.path.join(TOP, "crates", "unit_program", "out", "unit_program")


class Written:
    """A socket that keeps what is written to it."""

    def __init__(self):
        self.data = b""

    def sendall(self, data):
        self.data += bytes(data)

    def close(self):
        pass


class Source:
    """A socket that gives the bytes of a reader."""

    def __init__(self, reader):
        self.reader = reader

    def makefile(self, *_):
        return self.reader


class Kept(io.BufferedReader):
    """A reader that stays open behind a reply."""

    def close(self):
        pass


def request(method, target, body, chunked):
    client = http.client.HTTPConnection("a")
    client.sock = Written()
    content = iter(body[at : at + 7] for at in range(0, len(body), 7)) if chunked else body or None
    client.request(method, target, content, {"X-Name": "value"}, encode_chunked=chunked)
    return client.sock.data


def main():
    if not os.path.exists(UNIT):
        print("bench/client.py: skipped, since unit_program isn't built")
        return 0
    cases = [
        ("GET", "/", b"", False),
        ("POST", "/a?b=c", b"hello", False),
        ("PUT", "/", bytes(range(256)) * 40, False),
        ("POST", "/chunked", b"a chunked content of some length", True),
        ("HEAD", "/", b"", False),
        ("DELETE", "/%41//b", b"x", False),
    ]
    sent = b"".join(request(*case) for case in cases)
    run = subprocess.run([UNIT, "once", "echo"], input=sent, stdout=subprocess.PIPE, check=True)
    reader, failed = Kept(io.BytesIO(run.stdout)), 0
    for method, target, body, chunked in cases:
        reply = http.client.HTTPResponse(Source(reader), method=method)
        reply.begin()
        length = int(reply.getheader("Content-Length"))
        content = reply.read()
        good = (
            reply.status == 200
            and reply.reason == "OK"
            and reply.getheader("Content-Type") == "application/octet-stream"
            and length == len(body)
            and content == (b"" if method == "HEAD" else body)
        )
        failed += not good
        if not good:
            print("client: %s %s: %d, %d bytes" % (method, target, reply.status, len(content)))
    left = reader.read()
    failed += left != b""
    print("http.client: %d requests answered, %d disagreements, %d bytes left over" % (len(cases), failed, len(left)))
    return 1 if failed else 0


if __name__ == "__main__":
    sys.exit(main())
