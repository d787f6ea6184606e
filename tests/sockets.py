"""Connections over TCP: more than there are workers, silent and broken ones, and how the server starts and ends."""
import json
import resource
import signal
import socket
import struct
import subprocess
import threading
import time

from harness import Case, Failed, Has, Test, put_files, start, want

LISTEN = "--listen 127.0.0.1:0 --replica 1 --accounts accounts"
NAMES = ["ann", "bob", "cid", "dan", "eve", "fay", "gus", "hal"]
ACCOUNTS = (("accounts", "".join(f"author {name} t{name}\n" for name in NAMES)),)
FULL = b'{"code":902,"error":"Full","ok":false}\n'
TOO_LONG = '{"code":100,"error":"TooLong","ok":false}\n'
WAIT = 15  # seconds, for an answer


class Server:
    """A server that listens at a free port of this machine. It is killed with the test, if it has not ended."""

    def __init__(self, more="", number=1, accounts=ACCOUNTS, **streams):
        put_files(accounts)
        listen = LISTEN.replace("--replica 1", f"--replica {number}")
        self.process = start("pad_server", f"{listen} {more}", stdin=subprocess.DEVNULL, stdout=subprocess.PIPE, **streams)
        line = self.process.stdout.readline().decode()
        if not line.startswith("listening on 127.0.0.1:"):
            raise Failed(f"the server's first line: {line!r}")
        self.port = int(line.rsplit(":", 1)[1])

    def connect(self):
        return Client(self.port)

    def author(self, name, pad=None):
        """A connection of this author, who has joined a pad."""
        client = self.connect()
        client.wants({"do": "hello", "name": name, "token": f"t{name}"}, {"author": f"{name}@1", "ok": True})
        if pad is not None:
            client.join(pad)
        return client

    def says(self):
        """The next line of standard error, but for the warning of the short tokens that tests have."""
        line = self.process.stderr.readline().decode()
        return self.says() if "can be guessed" in line else line

    def ends(self):
        """The server ends by itself, with status 0, and has written no more."""
        want(self.process.stdout.read(), b"", "standard output after the first line")
        want(self.process.wait(), 0, "the status")


class Client:
    """One connection: a request is written, and its answer read."""

    def __init__(self, port):
        self.socket = socket.create_connection(("127.0.0.1", port), timeout=WAIT)
        self.socket.setsockopt(socket.IPPROTO_TCP, socket.TCP_NODELAY, 1)
        self.replies = self.socket.makefile("rb")

    def send(self, text):
        self.socket.sendall(text.encode())

    def ask(self, **request):
        self.send(json.dumps(request) + "\n")
        return json.loads(self.replies.readline())

    def wants(self, request, answer):
        want(self.ask(**request), answer, f"the answer to {request}")

    def does(self, **request):
        """Asks what is not to be refused."""
        answer = self.ask(**request)
        if not answer["ok"]:
            raise Failed(f"{request} is answered {answer}")
        return answer

    def join(self, pad):
        return self.does(do="join", pad=pad)["visit"]

    def overwhelm(self, text):
        """Sends for as long as the server takes it."""
        try:
            self.socket.settimeout(None)
            self.send(text)
        except OSError:
            pass

    def finish(self):
        """Ends the input, and reads what is left."""
        self.socket.shutdown(socket.SHUT_WR)
        return self.replies.read().decode()

    def close(self):
        self.replies.close()
        self.socket.close()

    def reset(self):
        """Breaks the connection off, so that the server's next read fails."""
        self.socket.setsockopt(socket.SOL_SOCKET, socket.SO_LINGER, struct.pack("ii", 1, 0))
        self.close()


FIRST_STEPS = [
    ('{"do":"hello","name":"ann","token":"tann"}', '{"author":"ann@1","ok":true}'),
    ('{"do":"create","pad":"p"}', '{"now":0,"ok":true,"visit":1}'),
    ('{"do":"text","pad":"p"}', '{"now":0,"ok":true,"rev":0,"text":""}'),
    ('{"do":"insert","pad":"p","rev":0,"at":0,"text":"hello"}', '{"name":[1,1],"now":1,"ok":true}'),
    ('{"do":"insert","pad":"p","rev":1,"at":2,"text":"XY"}', '{"name":[1,2],"now":2,"ok":true}'),
    ('{"do":"insert","pad":"p","rev":1,"at":2,"text":"Z"}', '{"name":[1,3],"now":3,"ok":true}'),
    ('{"do":"text","pad":"p"}', '{"now":3,"ok":true,"rev":3,"text":"heZXYllo"}'),
    ('{"do":"text","pad":"p","rev":1}', '{"now":3,"ok":true,"rev":1,"text":"hello"}'),
    ('{"do":"insert","pad":"p","rev":1,"at":6,"text":"x"}', '{"code":321,"error":"OutOfRange","ok":false}'),
    ('{"do":"text","pad":"q"}', '{"code":300,"error":"NoPad","ok":false}'),
    ("[]", '{"code":102,"error":"NotRequest","ok":false}'),
]
ASKED = "".join(asked + "\n" for asked, _ in FIRST_STEPS)
TOLD = "".join(told + "\n" for _, told in FIRST_STEPS)


def a_session_is_answered_as_on_standard_input():
    server = Server("--connections 2")
    whole = server.connect()
    whole.send(ASKED)
    want(whole.finish(), TOLD, "the answers to lines that come at once")
    line_by_line = server.author("bob")
    want(line_by_line.ask(do="join", pad="p")["code"], 312, "the answer to bob, who has no right")
    want(line_by_line.finish(), "", "what is written at the end")
    server.ends()


SAME_ON_STANDARD_INPUT = Case(
    "the same session on standard input", "--stdin --replica 1 --accounts accounts", ASKED, TOLD, files=ACCOUNTS
)


def silent_clients_do_not_stop_others():
    server = Server("--workers 16")
    silent = [server.connect() for _ in range(10)]
    eleventh = server.author("ann")
    eleventh.does(do="create", pad="p")
    for client in silent:
        client.close()
    want(eleventh.does(do="text", pad="p")["text"], "", "the text")


def more_clients_than_workers_are_served_in_the_end():
    server = Server("--workers 2 --connections 9")
    clients = [server.connect() for _ in range(9)]
    for client in clients:
        client.send('{"do":"hello","name":"ann","token":"tann"}\n')
        client.socket.shutdown(socket.SHUT_WR)
    for client in clients:
        want(client.replies.read(), b'{"author":"ann@1","ok":true}\n', "the answer")
    server.ends()


def a_broken_connection_ends_alone():
    server = Server(stderr=subprocess.PIPE)
    keeps = server.author("ann")
    keeps.does(do="create", pad="p")
    broken = server.author("ann", "p")
    broken.send('{"do":"ins')
    broken.reset()
    said = server.says()
    want([part for part in ["connection 2", "510 ReadFault"] if part not in said], [], f"what {said!r} lacks")
    want([entry["visit"] for entry in keeps.does(do="who", pad="p")["who"]], [1], "who is there")
    want(server.author("ann").join("p"), 3, "the next visit")


def what_is_reported_once_is_read():
    """The end of a client, or an urgent byte, comes with the bytes before it, while the server does not look."""
    server = Server("--workers 1")
    ends, goes_on = server.author("ann"), server.author("ann")
    asked, told = '{"do":"text","pad":"q"}\n', b'{"code":300,"error":"NoPad","ok":false}\n'
    server.process.send_signal(signal.SIGSTOP)
    for client in (ends, goes_on):
        client.send(asked)
    ends.socket.shutdown(socket.SHUT_WR)
    goes_on.socket.send(b"!", socket.MSG_OOB)
    goes_on.send(asked)
    server.process.send_signal(signal.SIGCONT)
    want(ends.replies.read(), told, "what is read up to the end")
    want(goes_on.replies.readline() + goes_on.replies.readline(), 2 * told, "the answers around an urgent byte")


def a_silent_connection_ends_where_the_server_says_so():
    """The one that goes on speaking stays, and sees the visit of the silent one end."""
    server = Server("--idle 2", stderr=subprocess.PIPE)
    speaks = server.author("ann")
    speaks.does(do="create", pad="p")
    silent = server.author("ann", "p")
    end = time.monotonic() + WAIT
    while [entry["visit"] for entry in speaks.does(do="who", pad="p")["who"]] != [1]:
        if time.monotonic() > end:
            raise Failed(f"the silent visit is there after {WAIT} s")
        time.sleep(0.1)
    want(silent.replies.read(), b"", "what the silent connection reads")
    said = server.says()
    want("connection 2 ended: it was silent for too long" in said, True, f"what {said!r} says")


def a_client_that_reads_nothing_is_ended():
    """Its replies fill the socket; the others of the one worker are answered meanwhile."""
    server = Server("--workers 1", stderr=subprocess.PIPE)
    greedy = server.author("ann")
    greedy.does(do="create", pad="p")
    for rev in range(20):
        greedy.does(do="insert", pad="p", rev=rev, at=0, text="x" * 10_000)
    began = time.monotonic()
    threading.Thread(target=lambda: greedy.overwhelm('{"do":"text","pad":"p"}\n' * 1_000), daemon=True).start()
    want(server.author("ann", "p").does(do="revs", pad="p")["now"], 20, "the revision")
    want(time.monotonic() - began < 10, True, "an answer to another within ten seconds")
    said = server.says()
    want("connection 1 ended: it did not read its replies" in said, True, f"what {said!r} says")
    want(25 < time.monotonic() - began < 40, True, "an end after 30 seconds")


def a_line_that_is_too_long_ends_its_connection():
    server = Server("--connections 2")
    client = server.author("ann")
    client.send(" " * (8 * 1024 * 1024 + 1) + "\n")
    want(client.replies.read().decode(), TOO_LONG, "the answer")
    want(server.author("ann").finish(), "", "what is written at the end")
    server.ends()


def fewer_clients_where_files_are_short():
    """The system lets the server open so few files that it serves one client, and tells the next one so."""
    limit = lambda: resource.setrlimit(resource.RLIMIT_NOFILE, (16, 16))
    server = Server("--workers 1 --clients 4", stderr=subprocess.PIPE, preexec_fn=limit)
    said = server.says()
    want("the open-file limit (16) has room for 1 of 4 clients" in said, True, f"what {said!r} says")
    ann = server.author("ann")
    want(server.connect().replies.readline(), FULL, "what a second client is told")
    want(ann.does(do="create", pad="p")["visit"], 1, "the visit")


def too_many_files():
    """The system lets the server open no more: it accepts nobody, says so, and goes on once it may."""
    server = Server("--workers 1", stderr=subprocess.PIPE)
    most = resource.prlimit(server.process.pid, resource.RLIMIT_NOFILE)
    ann = server.author("ann")
    resource.prlimit(server.process.pid, resource.RLIMIT_NOFILE, (3, most[1]))
    waiting = [server.connect() for _ in range(3)]
    while "cannot accept connections" not in server.says():
        pass
    want(ann.does(do="create", pad="p")["visit"], 1, "the visit of one who is connected")
    resource.prlimit(server.process.pid, resource.RLIMIT_NOFILE, most)
    for client in waiting:
        client.close()
    want(server.author("bob").does(do="create", pad="q")["visit"], 1, "the visit of one who comes then")


def an_address_in_use():
    server = Server()
    other = start(
        "pad_server", f"--listen 127.0.0.1:{server.port} --replica 1 --accounts accounts", stdout=subprocess.PIPE, stderr=subprocess.PIPE
    )
    wrote, said = other.communicate()
    want((other.returncode, wrote), (1, b""), "the status and standard output")
    want("pad_server: cannot listen at" in said.decode(), True, f"what {said!r} says")


def refused(name, args, *parts, status=2):
    return Case(f"listen: {name}", args, status=status, stderr=Has(*parts), files=ACCOUNTS)


CASES = [
    SAME_ON_STANDARD_INPUT,
    refused("--stdin too", f"--stdin {LISTEN}", "--stdin", "--listen"),
    refused("no accounts", "--listen 127.0.0.1:0 --replica 1", "--accounts"),
    refused("--listen twice", f"{LISTEN} --listen 127.0.0.1:0", "--listen"),
    refused("--listen without an address", "--replica 1 --accounts accounts --listen", "--listen"),
    *[refused(f"workers {text}", f"{LISTEN} --workers={text}", "--workers") for text in ["0", "64", "-1", "x"]],
    *[refused(f"connections {text}", f"{LISTEN} --connections={text}", "--connections") for text in ["0", "-1", "x"]],
    *[refused(f"idle {text}", f"{LISTEN} --idle={text}", "--idle") for text in ["0", "-1", "x"]],
    refused("an address without a port", "--listen 127.0.0.1 --replica 1 --accounts accounts", "pad_server: cannot listen at 127.0.0.1", status=1),
    refused("no accounts file", "--listen 127.0.0.1:0 --replica 1 --accounts none", "pad_server: the accounts file none", status=1),
    Case("workers and connections change nothing on standard input", "--stdin --replica 1 --workers 1 --connections 1"),
]

FUNCTIONS = [
    a_session_is_answered_as_on_standard_input,
    silent_clients_do_not_stop_others,
    more_clients_than_workers_are_served_in_the_end,
    a_broken_connection_ends_alone,
    what_is_reported_once_is_read,
    a_silent_connection_ends_where_the_server_says_so,
    a_line_that_is_too_long_ends_its_connection,
    fewer_clients_where_files_are_short,
    too_many_files,
    an_address_in_use,
]

TESTS = [case.test() for case in CASES]
TESTS += [Test(f"pad_server: listen: {function.__name__.replace('_', ' ')}", function) for function in FUNCTIONS]
# The server waits for 30 seconds until some of a reply is taken.
TESTS += [Test("pad_server: listen: a client that reads nothing is ended", a_client_that_reads_nothing_is_ended, 200)]
