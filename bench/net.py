"""python3 bench/net.py [SECONDS]  shows what sockets cost, as ratios against another server in the same round.

It needs `net_bench` (`rt ci`, or `rt run` in crates/net_bench). The other server is nginx where it is here, with one
worker and no log, and else the kit's own poll (`net_bench plain`). The clients are wrk where it is here, and else
`net_bench load`. Each row is the median of five rounds; SECONDS is how long a server is loaded in a round.
"""
import os
import re
import resource
import shutil
import signal
import socket
import statistics
import subprocess
import sys
import tempfile
import time

import measure

BENCH = os.path.join(measure.TOP, "crates", "net_bench", "out", "net_bench")
ROUNDS = 5
NGINX = """worker_processes 1; daemon off; pid %s/pid; error_log /dev/null;
events { worker_connections 1024; }
http { access_log off; keepalive_requests 100000000; client_body_temp_path %s; proxy_temp_path %s;
fastcgi_temp_path %s; uwsgi_temp_path %s; scgi_temp_path %s;
server { listen 127.0.0.1:%d; default_type text/plain; location / { return 200 "Hello, world!\\n"; } } }
"""


def free_port():
    with socket.socket() as probe:
        probe.bind(("127.0.0.1", 0))
        return probe.getsockname()[1]


class Server:
    """A server in a process of its own, until it is closed."""

    def __init__(self, name, limit=None):
        self.port = free_port()
        self.room = tempfile.mkdtemp()
        command = [BENCH, name, str(self.port)]
        if name == "nginx":
            conf = os.path.join(self.room, "conf")
            with open(conf, "w", encoding="utf-8") as it:
                it.write(NGINX % ((self.room,) * 6 + (self.port,)))
            command = ["nginx", "-c", conf, "-p", self.room]
        lower = None
        if limit is not None:
            lower = lambda: resource.setrlimit(resource.RLIMIT_NOFILE, (limit, limit))
        self.child = subprocess.Popen(command, stdout=subprocess.DEVNULL, stderr=subprocess.DEVNULL, preexec_fn=lower)
        for _ in range(200):
            try:
                socket.create_connection(("127.0.0.1", self.port), 1).close()
                return
            except OSError:
                time.sleep(0.02)
        raise SystemExit("bench/net.py: %s doesn't listen" % name)

    def spent(self):
        """Processor seconds so far, with those of a worker that is a process of its own."""
        own = "/proc/%d" % self.child.pid
        with open("%s/task/%d/children" % (own, self.child.pid), encoding="utf-8") as it:
            folders = [own] + ["/proc/" + pid for pid in it.read().split()]
        ticks = 0
        for folder in folders:
            with open(folder + "/stat", encoding="utf-8") as it:
                words = it.read().rpartition(")")[2].split()
            ticks += int(words[11]) + int(words[12])
        return ticks / os.sysconf("SC_CLK_TCK")

    def close(self):
        self.child.send_signal(signal.SIGTERM)
        self.child.wait()
        shutil.rmtree(self.room, ignore_errors=True)


def rate(server, active, idle, seconds):
    """Requests a second that the server answers to so many clients beside so many silent ones."""
    if shutil.which("wrk") and not idle:
        command = ["wrk", "-t1", "-c%d" % active, "-d%ds" % max(1, int(seconds)), "http://127.0.0.1:%d/" % server.port]
        said = subprocess.run(command, capture_output=True, text=True, check=True).stdout
        return float(re.search(r"Requests/sec:\s*([0-9.]+)", said).group(1))
    command = [BENCH, "load"] + [str(word) for word in (server.port, active, idle, int(seconds * 1000))]
    return float(subprocess.run(command, capture_output=True, text=True, check=True).stdout)


def loaded(server, active, idle, seconds):
    """The rate of a server under that load, and its requests for each second of a processor."""
    before = server.spent()
    found = rate(server, active, idle, seconds)
    spent = server.spent() - before
    return found, found * seconds / max(spent, 0.01)


def rounds(ours, theirs):
    """The two ratios of the sides, whose first is by turns ours and theirs: the median of each over the rounds."""
    ratios = []
    for number in range(ROUNDS):
        sides = [ours, theirs]
        if number % 2:
            sides.reverse()
        found = [side() for side in sides]
        if number % 2:
            found.reverse()
        ratios.append([ours_of / theirs_of for ours_of, theirs_of in zip(*found)])
    return [statistics.median(each) for each in zip(*ratios)]


def told(what, ratios, mark):
    print("%s: %.2f (at least %s), for each second of a processor %.2f" % (what, ratios[0], mark, ratios[1]), flush=True)


def at_rest():
    """The share of a processor that one link and two workers take at rest."""
    child = subprocess.Popen([BENCH, "quiet", "10000"], stdout=subprocess.DEVNULL)
    _, _, used = os.wait4(child.pid, 0)
    child.returncode = 0
    return (used.ru_utime + used.ru_stime) / 10


def without_descriptors():
    """Whether a server that runs out of descriptors serves on, and takes in the others later."""
    server = Server("echo", limit=40)
    try:
        clients = [socket.create_connection(("127.0.0.1", server.port), 5) for _ in range(60)]
        time.sleep(0.3)
        before = server.spent()
        time.sleep(1)
        busy = server.spent() - before
        answered = sum(asked(client) for client in clients)
        for client in clients[:answered]:
            client.close()
        late = sum(asked(client) for client in clients[answered:])
        return answered, late, busy
    finally:
        server.close()


def without_rights():
    """Whether a link fails at a port below 1,024 without rights, and a server that stands serves on; None as it can't be tried."""
    if os.geteuid() != 0:
        return None
    server = Server("echo")
    try:
        with socket.create_connection(("127.0.0.1", server.port), 5) as client:
            copy = os.path.join(server.room, "net_bench")
            shutil.copyfile(BENCH, copy)
            os.chmod(copy, 0o755)
            os.chmod(server.room, 0o755)
            # It serves for good, but where its first accept fails.
            ended = subprocess.run([copy, "echo", "1023"], user=65534, group=65534, extra_groups=[], timeout=20, check=False)
            return ended.returncode == 0 and asked(client)
    except subprocess.TimeoutExpired:
        return False
    finally:
        server.close()


def asked(client):
    """Whether the client has its reply within half a second."""
    try:
        client.settimeout(0.5)
        client.sendall(b"GET / HTTP/1.1\r\nHost: a\r\n\r\n")
        return len(client.recv(79)) == 79
    except OSError:
        return False


def main():
    if not os.path.exists(BENCH):
        print("bench/net.py: skipped, since %s isn't built" % os.path.relpath(BENCH, measure.TOP))
        return 0
    seconds = float(sys.argv[1]) if len(sys.argv) > 1 else 1.0
    other = "nginx" if shutil.which("nginx") else "plain"
    print("against %s, by %s; load average %.1f"
          % (other, "wrk" if shutil.which("wrk") else "clients of our own", os.getloadavg()[0]))
    ours, theirs = Server("echo"), Server(other)
    try:
        for active in (1, 16, 64, 256):
            ratios = rounds(lambda: loaded(ours, active, 0, seconds), lambda: loaded(theirs, active, 0, seconds))
            told("requests a second at %d connections" % active, ratios, 1.0)
        ratios = rounds(lambda: loaded(ours, 1, 240, seconds), lambda: loaded(ours, 1, 0, seconds))
        told("one active beside 240 idle ones, against it alone", ratios, 0.9)
    finally:
        ours.close()
        theirs.close()
    print("processor time at rest, a link and two workers: %.2f %% (below 1)" % (100 * at_rest()))
    answered, late, busy = without_descriptors()
    print("without descriptors: %d of 60 served, %d of the others later; %.0f %% of a processor meanwhile"
          % (answered, late, 100 * busy))
    rights = without_rights()
    if rights is None:
        print("a port below 1,024 without rights: skipped, since only root can give rights away")
    else:
        print("a port below 1,024 without rights: %s"
              % ("the link fails, and another serves on" if rights else "NOT refused, or another was disturbed"))
    return 0


if __name__ == "__main__":
    sys.exit(main())
