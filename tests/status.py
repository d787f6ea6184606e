"""The address where operators ask for the status: what it answers, also with a standby, and how it tells its numbers."""
import itertools
import json
import re
import signal
import socket
import subprocess
import time

import memory
from harness import Case, Failed, Has, Test, play, put_files, start, want
from peers import wait_for
from sockets import ACCOUNTS, LISTEN, Server
from two_machines import Machines

SLOW = 5  # seconds: what is to take a moment takes no longer
TYPES = {"counter", "gauge", "histogram"}
NAME = re.compile(r"[a-zA-Z_:][a-zA-Z0-9_:]*")
SAMPLE = re.compile(r'([a-zA-Z_:][a-zA-Z0-9_:]*)(?:\{((?:[a-zA-Z_][a-zA-Z0-9_]*="[^"\\\n]*",?)*)\})? (\S+)')
LABEL = re.compile(r'([a-zA-Z_][a-zA-Z0-9_]*)="([^"\\\n]*)"')


class Watched(Server):
    """A server with an address for its status."""

    def __init__(self, more="", **streams):
        super().__init__(f"--status 127.0.0.1:0 {more}", **streams)
        self.web, self.status = ports_of(self.process)

    def counts(self):
        return counts_at(self.status)


def ports_of(process):
    """The ports that the server prints for the page, if it serves one, and for its status."""
    web, line = None, process.stdout.readline().decode()
    if line.startswith("web on "):
        web = int(line.rsplit(":", 1)[1].strip("/\n"))
        line = process.stdout.readline().decode()
    if not re.fullmatch(r"status on 127\.0\.0\.1:\d+\n", line):
        raise Failed(f"the line with the address of the status: {line!r}")
    return web, int(line.rsplit(":", 1)[1])


def exchange(port, sent):
    """What is answered to these bytes, until the connection ends."""
    with socket.create_connection(("127.0.0.1", port), timeout=SLOW) as connection:
        connection.sendall(sent)
        answered = b""
        while more := connection.recv(65536):
            answered += more
    return answered


def get(port, path, method="GET"):
    """A response: the status, its fields, and its content."""
    answered = exchange(port, f"{method} {path} HTTP/1.1\r\nHost: x\r\nUser-Agent: test\r\n\r\n".encode())
    head, content = answered.split(b"\r\n\r\n", 1)
    first, *lines = head.decode().split("\r\n")
    version, status, _reason = first.split(" ", 2)
    want(version, "HTTP/1.1", "the version of a response")
    fields = dict(line.split(": ", 1) for line in lines)
    want(fields["Connection"], "close", "what a response says of its connection")
    if method != "HEAD":
        want(int(fields["Content-Length"]), len(content), f"the length of {path}")
    return int(status), fields, content.decode()


def parsed(text):
    """The samples of a text in Prometheus' form, version 0.0.4, by name and labels. Anything else is refused."""
    kinds, helped, samples, family = {}, set(), {}, None
    want(text[-1:], "\n", "the end of the text")
    for line in text[:-1].split("\n"):
        if line.startswith("# HELP "):
            _hash, _help, name, _words = line.split(" ", 3)
            if name in helped or not NAME.fullmatch(name) or "\\" in line:
                raise Failed(f"a help that comes twice or is none: {line!r}")
            helped.add(name)
        elif line.startswith("# TYPE "):
            _hash, _type, family, kind = line.split(" ")
            if kind not in TYPES or family in kinds or family not in helped:
                raise Failed(f"a type that comes twice, is none or has no help: {line!r}")
            kinds[family] = kind
        else:
            found = SAMPLE.fullmatch(line)
            if not found:
                raise Failed(f"no sample: {line!r}")
            name, labels, value = found.groups()
            names = {family}
            if kinds.get(family) == "histogram":
                names = {f"{family}_bucket", f"{family}_sum", f"{family}_count"}
            if name not in names:
                raise Failed(f"a sample of another family than {family}: {line!r}")
            key = (name, tuple(sorted(LABEL.findall(labels or ""))))
            if key in samples:
                raise Failed(f"a sample that comes twice: {line!r}")
            samples[key] = float(value)
    for name, kind in kinds.items():
        if not name.startswith("vindrughe_") or (kind == "counter") != name.endswith("_total"):
            raise Failed(f"a {kind} of the name {name}")
        if kind == "histogram":
            check_histogram(name, samples)
    return samples


def check_histogram(name, samples):
    """Buckets ascend, and the last one is the count."""
    buckets = [(float(dict(labels)["le"]), count) for (of, labels), count in samples.items() if of == f"{name}_bucket"]
    want(buckets, sorted(buckets), f"the buckets of {name} by their bounds")
    counts = [count for _bound, count in buckets]
    want(counts, sorted(counts), f"the buckets of {name}, each with those before it")
    want(buckets[-1][0], float("inf"), f"the bound of the last bucket of {name}")
    want(samples[(f"{name}_count", ())], counts[-1], f"the count of {name}")


class Counts(dict):
    """Samples by name and labels."""

    def of(self, name, **labels):
        return self.get((f"vindrughe_{name}", tuple(sorted(labels.items()))))

    def some(self, *names):
        return [self.of(name) for name in names]


def counts_at(port):
    status, fields, text = get(port, "/metrics")
    want((status, fields["Content-Type"]), (200, "text/plain; version=0.0.4"), "the response with the numbers")
    return Counts(parsed(text))


def kept_at(port):
    status, fields, text = get(port, "/kept")
    want((status, fields["Content-Type"]), (200, "application/json"), "the response of /kept")
    return json.loads(text)


def each_path_and_method():
    server = Watched()
    want(get(server.status, "/healthz")[0::2], (200, "ok\n"), "the health")
    want(get(server.status, "/kept")[2], '{"machines":0}\n', "where pads are kept without a store")
    for path in ("/healthz", "/kept", "/metrics"):
        status, fields, content = get(server.status, path, "HEAD")
        want((status, content), (200, ""), f"the answer to HEAD {path}")
        if int(fields["Content-Length"]) < 3:
            raise Failed(f"the length of {path} by HEAD: {fields}")
        for method in ("POST", "PUT", "DELETE", "OPTIONS", "get"):
            status, fields, _content = get(server.status, path, method)
            want((status, fields.get("Allow")), (405, "GET, HEAD"), f"the answer to {method} {path}")
    for path in ("/", "/healthz/", "/healthz?x", "/metrics2", "*", "http://x/healthz", "/" + "a" * 3000):
        want(get(server.status, path)[0], 404, f"the answer to {path[:30]}")
        want(get(server.status, path, "HEAD")[0::2], (404, ""), f"the answer to HEAD {path[:30]}")


def wrong_requests():
    server = Watched()
    for sent in (
        b"\r\n\r\n",
        b"GET /healthz\r\n\r\n",
        b"GET /healthz HTTP/2.0\r\n\r\n",
        b"GET /healthz HTTP/1.1 \r\n\r\n",
        b"\x16\x03\x01\x02\x00\x01\n\n",
        b'{"do":"hello","name":"ann","token":"tann"}\n\n',
        b"GET /healthz HTTP/1.1\r\nX: " + b"y" * 4096 + b"\r\n",
    ):
        answered = exchange(server.status, sent)
        if not answered.startswith(b"HTTP/1.1 400 Bad Request\r\n"):
            raise Failed(f"{sent[:40]!r} is answered {answered[:80]!r}")
    answered = exchange(server.status, b"GET /healthz HTTP/1.0\n\n")
    want(answered[-4:], b"\nok\n", "the answer to lines that end with LF alone")
    # A request may come in pieces.
    with socket.create_connection(("127.0.0.1", server.status), timeout=SLOW) as connection:
        for piece in (b"GET /hea", b"lthz HTTP/1.1\r", b"\n\r\n"):
            connection.sendall(piece)
            time.sleep(0.05)
        want(connection.recv(4096)[-3:], b"ok\n", "the answer to a request in pieces")
    want(get(server.status, "/healthz")[0], 200, "the health after all of these")


def a_slow_client_holds_nobody_up():
    """A silent client is left after a second, and the server's end does not wait for it."""
    server = Watched("--connections 1")
    silent = socket.create_connection(("127.0.0.1", server.status), timeout=SLOW)
    silent.sendall(b"GET /metr")
    began = time.monotonic()
    want(get(server.status, "/healthz")[0], 200, "the health behind a silent client")
    if not 0.5 <= time.monotonic() - began <= 3:
        raise Failed(f"a silent client was left after {time.monotonic() - began} s, wanted about one")
    want(silent.recv(100), b"", "what a silent client gets")
    with socket.create_connection(("127.0.0.1", server.status), timeout=SLOW) as another:
        another.sendall(b"GET /metr")
        time.sleep(0.2)
        began = time.monotonic()
        server.connect().close()
        server.ends()
        if time.monotonic() - began > 0.7:
            raise Failed(f"the server ended {time.monotonic() - began} s after its last connection")


def main_with_status(machines, confirm):
    main = machines.main(confirm, "--status 127.0.0.1:0")
    return main, ports_of(main)[1]


def the_standby_is_watched():
    """/kept and the numbers while a standby is up, stopped, and up again."""
    machines = Machines()
    standby = machines.standby()
    _main, port = main_with_status(machines, "1")
    ann = machines.author("ann")
    ann.does(do="create", pad="p")
    ann.does(do="insert", pad="p", rev=0, at=0, text="both")
    want(kept_at(port), {"caught_up": True, "confirm": "1", "lag": 0, "machines": 2}, "what is told with a standby")
    counts = counts_at(port)
    told = ("confirms", "machines", "notes_confirmed_total", "standby_lag_notes")
    want(counts.some(*told, "standby_lag_bytes"), [1, 2, 2, 0, 0], "the numbers with a standby")
    standby.send_signal(signal.SIGSTOP)
    ann.does(do="insert", pad="p", rev=1, at=0, text="alone ")
    behind = {"caught_up": False, "confirm": "1", "lag": 1, "machines": 1}
    want(kept_at(port), behind, "what is told while the standby is stopped")
    wait_for("the standby lags for some seconds", lambda: counts_at(port).of("standby_lag_seconds") >= 2)
    counts = counts_at(port)
    want(counts.some(*told), [0, 1, 2, 1], "the numbers while the standby is stopped")
    lag, silence = counts.some("standby_lag_bytes", "standby_silence_seconds")
    if lag < 50 or silence < 2:
        raise Failed(f"the standby lags {lag} bytes, and is silent for {silence} s")
    want(get(port, "/healthz")[0], 200, "the health of a server that goes on alone")
    standby.send_signal(signal.SIGCONT)
    whole = {"caught_up": True, "confirm": "1", "lag": 0, "machines": 2}
    wait_for("the standby has caught up", lambda: kept_at(port) == whole)
    counts = counts_at(port)
    lags = ("standby_lag_notes", "standby_lag_bytes", "standby_lag_seconds")
    want(counts.some("confirms", *lags), [1, 0, 0, 0], "the numbers afterwards")


def a_standby_that_confirms_nothing():
    machines = Machines()
    machines.standby()
    _main, port = main_with_status(machines, "")
    machines.author("ann").does(do="create", pad="p")
    wait_for("the copy is told of", lambda: kept_at(port).get("caught_up"))
    told = {"caught_up": True, "confirm": "never", "lag": 0, "machines": 1}
    want(kept_at(port), told, "what is told without --confirm")
    want(counts_at(port).of("confirms"), 0, "whether the standby confirms")


def a_strict_server_waits_and_stops():
    """503 while the server waits for its standby at the start, and once the standby is lost it ends."""
    machines = Machines()
    main, port = main_with_status(machines, "strict")
    want(get(port, "/healthz")[0::2], (503, "the server waits for its standby\n"), "the health at the start")
    want(kept_at(port), {"caught_up": False, "confirm": "strict", "lag": 0, "machines": 1}, "what is told at the start")
    standby = machines.standby()
    wait_for("the server serves", lambda: get(port, "/healthz")[0] == 200)
    want(kept_at(port)["machines"], 2, "the machines, once the standby has everything")
    machines.author("ann").does(do="create", pad="p")
    standby.send_signal(signal.SIGSTOP)
    machines.author("bob").send('{"do":"create","pad":"q"}\n')
    want(main.wait(), 1, "the status of the server that lost its standby")


def memory_is_refused():
    """Each allocation of a request is refused once: it gets no answer or a whole one, and the next request its own."""
    server = memory.Server("--store pads --status 127.0.0.1:0")
    port = ports_of(server.process)[1]
    ann = server.author("ann")
    ann.does(do="create", pad="p")
    want(ann.ask(do="join", pad="q").get("code"), 300, "the answer to a pad that is not there")
    for path in ("/healthz", "/kept", "/metrics"):
        sent = f"GET {path} HTTP/1.1\r\nHost: x\r\n\r\n".encode()
        for allocation in itertools.count(1):
            answered, refused = server.refuses_one(allocation, lambda: exchange(port, sent))
            if answered and not answered.startswith(b"HTTP/1.1 200 OK\r\n"):
                raise Failed(f"{path} with its allocation {allocation} refused is answered {answered[:80]!r}")
            want(get(port, path)[0], 200, f"the answer to {path} after its allocation {allocation} was refused")
            if not refused:
                break
    want(counts_at(port).of("refusals_total", code="300"), 1, "the refusals")
    ann.does(do="insert", pad="p", rev=0, at=0, text="x")


def an_address_in_use():
    put_files(ACCOUNTS)
    with socket.create_server(("127.0.0.1", 0)) as taken:
        address = f"127.0.0.1:{taken.getsockname()[1]}"
        streams = {"stdin": subprocess.DEVNULL, "stdout": subprocess.PIPE, "stderr": subprocess.PIPE}
        process = start("pad_server", f"{LISTEN} --status {address}", **streams)
        wrote, said = process.communicate()
    want((wrote, process.returncode), (b"", 1), "standard output and the status with an address in use")
    if f"pad_server: cannot listen at {address}: Address already in use" not in said.decode():
        raise Failed(f"with an address in use, the server says {said.decode()!r}")


def refused(name, args, status, message):
    """A command line that is refused with this status and this message."""
    case = Case(name, args, status=status, stderr=Has(f"pad_server: {message}"), files=ACCOUNTS)
    return Test(f"status: {name}", lambda: play(case))


TESTS = [
    Test("status: each path and each method", each_path_and_method),
    Test("status: wrong requests", wrong_requests),
    Test("status: a slow client holds nobody up", a_slow_client_holds_nobody_up),
    Test("status: a standby is watched", the_standby_is_watched, 60),
    Test("status: a standby that confirms nothing", a_standby_that_confirms_nothing),
    Test("status: a strict server waits, and ends", a_strict_server_waits_and_stops, 60),
    Test("status: memory is refused", memory_is_refused, 60),
    Test("status: an address in use", an_address_in_use),
    refused(
        "with standard input", "--stdin --replica 1 --status 127.0.0.1:0", 2, "--status <ADDR> needs --listen <ADDR>"
    ),
    refused("without a port", f"{LISTEN} --status nowhere", 1, "cannot listen at nowhere: HOST:PORT is needed"),
]
