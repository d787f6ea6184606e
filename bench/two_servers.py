"""Times a letter's way to a reader on another server, beside the way to one on the writer's own server, with and without a
delay between the servers. A proxy between them counts the requests, too."""
import json
import os
import queue
import socket
import statistics
import subprocess
import tempfile
import threading
import time
from pathlib import Path

from listen import OUT, SERVER, build as build_listen
from standby import free_port

# Milliseconds that each direction between the servers takes.
DELAYS = [0, 10]

# The time to a reader on the other server over that of a server that asks the other one before and after a letter.
AIM = 0.5

# Seconds of silence between two letters, so that each is exchanged by itself.
PAUSE = 0.05


class Proxy:
    """Passes on what the first server sends to the second one and what comes back, each part so much later."""

    def __init__(self, target, delay):
        self.target, self.delay, self.requests = target, delay, 0
        self.listener = socket.create_server(("127.0.0.1", 0))
        self.port = self.listener.getsockname()[1]
        threading.Thread(target=self.accept, daemon=True).start()

    def accept(self):
        while True:
            source, _ = self.listener.accept()
            target = socket.create_connection(("127.0.0.1", self.target))
            for one in (source, target):
                one.setsockopt(socket.IPPROTO_TCP, socket.TCP_NODELAY, 1)
            for come, goes, counts in ((source, target, True), (target, source, False)):
                parts = queue.Queue()
                threading.Thread(target=self.take, args=(come, parts, counts), daemon=True).start()
                threading.Thread(target=self.give, args=(goes, parts), daemon=True).start()

    def take(self, source, parts, counts):
        while part := source.recv(1 << 16):
            if counts:
                self.requests += part.count(b"\n")
            parts.put((time.monotonic() + self.delay / 1e3, part))

    def give(self, target, parts):
        while True:
            due, part = parts.get()
            time.sleep(max(0, due - time.monotonic()))
            target.sendall(part)


class Client:
    def __init__(self, port, name):
        self.socket = socket.create_connection(("127.0.0.1", port))
        self.socket.setsockopt(socket.IPPROTO_TCP, socket.TCP_NODELAY, 1)
        self.lines = self.socket.makefile("rb")
        self.does(do="hello", name=name, token="t" * 12)

    def does(self, **request):
        self.socket.sendall(json.dumps(request, separators=(",", ":")).encode() + b"\n")
        reply = json.loads(self.lines.readline())
        if not reply["ok"]:
            raise SystemExit(f"bench/run: {request}: {reply}")
        return reply


def serve(program, number, port, peers):
    accounts = f"accounts{number}"
    Path(accounts).write_text("".join(f"author {name} {'t' * 12}\n" for name in ("ann", "bob")) + peers)
    words = ["--listen", f"127.0.0.1:{port}", "--replica", str(number), "--cells", "16", "--accounts", accounts]
    process = subprocess.Popen([program, *words], stdout=subprocess.PIPE, stderr=subprocess.DEVNULL)
    process.stdout.readline()
    return process


def follow(client, seen):
    """Notes when each revision is shown to a reader."""
    rev = 0
    while rev < len(seen):
        rev = client.does(do="changes", pad="p", rev=rev, wait=30)["now"]
        now = time.monotonic()
        for made in range(rev):
            seen[made] = seen[made] or now


def way(program, delay, letters):
    """The median milliseconds to a reader on the writer's own server, and to one on the other, and the requests for a letter."""
    first, second = free_port(), free_port()
    proxy = Proxy(second, delay)
    servers = [
        serve(program, 2, second, f"peer 1 secret 127.0.0.1:{first}\n"),
        serve(program, 1, first, f"peer 2 secret 127.0.0.1:{proxy.port}\n"),
    ]
    try:
        ann, near, far = Client(first, "ann"), Client(first, "bob"), Client(second, "bob")
        far.does(do="create", pad="p")
        ann.does(do="create", pad="p")
        ann.does(do="grant", pad="p", author="bob", right="read")
        near.does(do="join", pad="p")
        time.sleep(1)
        sent, shown, arrived = [0.0] * letters, [0.0] * letters, [0.0] * letters
        threads = [threading.Thread(target=follow, args=pair) for pair in ((near, shown), (far, arrived))]
        for thread in threads:
            thread.start()
        time.sleep(0.2)
        before = proxy.requests
        for rev in range(letters):
            sent[rev] = time.monotonic()
            ann.does(do="insert", pad="p", rev=rev, at=0, text="a")
            time.sleep(PAUSE + 10 * delay / 1e3)
        for thread in threads:
            thread.join()
        own, other = ([1e3 * (end - begin) for begin, end in zip(sent, ends)] for ends in (shown, arrived))
        return statistics.median(own), statistics.median(other), (proxy.requests - before) / letters
    finally:
        for server in servers:
            server.kill()
            server.wait()


def measure(flags, requests, before):
    """`before` is another server's program, to be compared with in the same run."""
    build_listen(flags)
    programs = {"before": before} if before else {}
    print(f"load {os.getloadavg()[0]:.1f} on {os.cpu_count()} processors, {requests} letters, one after the other, medians")
    print(f"{'':<8}{'delay ms':>10}{'own ms':>10}{'other ms':>10}{'ratio':>8}{'requests':>10}")
    with tempfile.TemporaryDirectory(dir=OUT) as folder:
        os.chdir(folder)
        for delay in DELAYS:
            others = {}
            for name, program in (programs | {"now": SERVER}).items():
                own, others[name], asked = way(program, delay, requests)
                print(f"{name:<8}{delay:>10}{own:>10.2f}{others[name]:>10.2f}{others[name] / own:>8.2f}{asked:>10.2f}", flush=True)
            if before:
                print(f"now over before: {others['now'] / others['before']:.2f}, aim {AIM}")
