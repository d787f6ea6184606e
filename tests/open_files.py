"""Open files used up, and a store that fails while many connections wait."""
import os
import resource
import socket
import subprocess
import threading
import time

from harness import Failed, Test, put_files, start, want
from sockets import LISTEN, Client, Server
from stores import STORE, kill, restarted

FULL = {"code": 901, "error": "StoreFull", "ok": False}
TOO_MANY = b'{"code":902,"error":"Full","ok":false}\n'
FILES = 96
PADS = 40
WAITING = 400
SECONDS = 5


def limited(files):
    return lambda: resource.setrlimit(resource.RLIMIT_NOFILE, (files, files))


def opened(server, ending=""):
    """The files that a server has open whose paths end so, and its sockets and all else with no ending."""
    folder = f"/proc/{server.process.pid}/fd"
    return [path for path in (os.readlink(f"{folder}/{name}") for name in os.listdir(folder)) if path.endswith(ending)]


class Shortage:
    """A server can open no more files until this ends."""

    def __init__(self, server):
        self.pid = server.process.pid
        self.most = resource.prlimit(self.pid, resource.RLIMIT_NOFILE)
        resource.prlimit(self.pid, resource.RLIMIT_NOFILE, (3, self.most[1]))

    def ends(self):
        resource.prlimit(self.pid, resource.RLIMIT_NOFILE, self.most)


def a_creation_without_a_file_is_refused():
    """Nothing has changed then, all else goes on, and the pad is created when there are files again."""
    server = Server(f"{STORE} --workers 2", stderr=subprocess.PIPE)
    ann = server.author("ann")
    ann.does(do="create", pad="p")
    shortage = Shortage(server)
    ann.wants({"do": "create", "pad": "q"}, FULL)
    ann.wants({"do": "create", "pad": "q"}, FULL)
    ann.does(do="insert", pad="p", rev=0, at=0, text="kept")
    ann.wants({"do": "join", "pad": "q"}, {"code": 300, "error": "NoPad", "ok": False})
    want(os.path.exists("kept/q.pad"), False, "that the refused pad has a file")
    shortage.ends()
    ann.does(do="create", pad="q")
    kill(server)
    said = server.process.stderr.read().decode()
    want(said.count("has no file for a new pad"), 1, f"how often it is said: {said!r}")
    server = restarted()
    ann = server.author("ann", "p")
    want(ann.does(do="text", pad="p")["text"], "kept", "the text")
    ann.join("q")
    kill(server)


def more_pads_than_files():
    """A server that may open 96 files has a quarter of those that are left for the files of 40 pads, and clients take none of these:
    all are written in turn, while as many connect as may, and nothing is lost."""
    server = Server(f"{STORE} --workers 2", preexec_fn=limited(FILES))
    ann = server.author("ann")
    for number in range(PADS):
        ann.does(do="create", pad=f"p{number}")
    idle = fill(server)
    for rev in range(5):
        for number in range(PADS):
            ann.does(do="insert", pad=f"p{number}", rev=rev, at=rev, text="abcde"[rev])
    few = len(opened(server, ".pad"))
    want(4 <= few <= 16, True, f"that some files of pads are open, and not all of 40: {few} are")
    want(len(opened(server)) < FILES, True, "that not all files are used up")
    ann.does(do="create", pad="last")
    kill(server)
    for client in idle:
        client.close()
    server = Server(f"{STORE} --workers 2", preexec_fn=limited(FILES))
    want(opened(server, ".pad"), [], "the files of pads that are open at the start")
    ann = server.author("ann", "last")
    for number in range(PADS):
        ann.join(f"p{number}")
        want(ann.does(do="text", pad=f"p{number}")["text"], "abcde", f"the text of pad {number}")
    kill(server)


def a_file_is_closed_for_another():
    """Where a server can open no more files, it writes to a pad whose file is closed, and closes that of another pad for it."""
    server = Server(f"{STORE} --workers 2", preexec_fn=limited(FILES))
    ann = server.author("ann")
    for number in range(PADS):
        ann.does(do="create", pad=f"p{number}")
    folder = f"/proc/{server.process.pid}/fd"
    highest = lambda: max(int(name) for name in os.listdir(folder))
    before, clients = highest(), []
    while highest() == before:
        clients.append(server.author("bob"))
    resource.prlimit(server.process.pid, resource.RLIMIT_NOFILE, (highest() + 1, FILES))
    for rev in range(2):
        for number in range(PADS):
            ann.does(do="insert", pad=f"p{number}", rev=rev, at=rev, text="ab"[rev])
    ann.wants({"do": "create", "pad": "q"}, FULL)
    kill(server)
    server = restarted()
    ann = server.author("ann")
    for number in range(PADS):
        ann.join(f"p{number}")
        want(ann.does(do="text", pad=f"p{number}")["text"], "ab", f"the text of pad {number}")
    kill(server)


def fill(server):
    """Connects until one more is told that there is no room."""
    idle = []
    for _ in range(FILES):
        client = server.connect()
        client.socket.settimeout(0.3)
        try:
            want(client.replies.readline(), TOO_MANY, "what one too many is told")
            return idle
        except TimeoutError:
            idle.append(client)
    raise Failed(f"{FILES} clients are connected to a server that may open {FILES} files")


def refused_creations_use_up_no_file():
    """A creation that names no pad leaves its file to the next one."""
    server = Server(f"{STORE} --cells 2")
    ann = server.author("ann")
    ann.does(do="create", pad="p")
    ann.does(do="create", pad="q")
    before = len(os.listdir(f"/proc/{server.process.pid}/fd"))
    for pad, code in [("p", 301), ("q", 301), ("r", 302), ("P", 303)] * 20:
        want(ann.ask(do="create", pad=pad)["code"], code, f"the refusal of {pad}")
    after = len(os.listdir(f"/proc/{server.process.pid}/fd"))
    want(after - before <= 2, True, f"that no more files are open: {before}, then {after}")
    kill(server)


def fails_in_time(server, author):
    """The store fails at a file that cannot be made, and the server ends soon after."""
    os.mkdir("kept/q.pad")
    author.send('{"do":"create","pad":"q"}\n')
    began = time.monotonic()
    want(author.replies.readline(), b"", "the reply of a pad whose file cannot be made")
    want(server.process.wait(timeout=60), 1, "the status")
    passed = time.monotonic() - began
    want(passed < SECONDS, True, f"that the server ends in {SECONDS} s, which took {passed:.1f}")


def the_server_ends_whatever_waits():
    """A store fails while 400 connections wait: the server ends in five seconds."""
    server = restarted("--workers 4")
    ann = server.author("ann")
    ann.does(do="create", pad="p")
    waiting = []

    def wait():
        try:
            client = Client(server.port)
            waiting.append(client)
            client.send('{"do":"hello","name":"bob","token":"tbob"}\n')
            client.replies.read()
        except OSError:
            pass

    for _ in range(WAITING):
        threading.Thread(target=wait, daemon=True).start()
    time.sleep(1)
    fails_in_time(server, ann)


def the_server_ends_while_clients_wait_for_changes():
    """The same while 120 clients wait for two pads to change. None of them is answered."""
    server = restarted("--workers 4")
    ann = server.author("ann")
    waiting = []
    for pad in ("p", "s"):
        ann.does(do="create", pad=pad)
        ann.does(do="grant", pad=pad, author="bob", right="read")
        waiting += [server.author("bob", pad) for _ in range(60)]
        for client in waiting[-60:]:
            client.send(f'{{"do":"changes","pad":"{pad}","rev":0,"wait":60}}\n')
    time.sleep(0.5)
    fails_in_time(server, ann)
    for client in waiting:
        want(client.replies.read(), b"", "what a client is told that waits")


def the_server_ends_without_open_files():
    """The same where no more files can be opened, and the accept waits."""
    server = Server(f"{STORE} --workers 2")
    ann = server.author("ann")
    ann.does(do="create", pad="p")
    ann.wants({"do": "create", "pad": "p"}, {"code": 301, "error": "PadExists", "ok": False})
    Shortage(server)
    waiting = [socket.create_connection(("127.0.0.1", server.port), timeout=5) for _ in range(4)]
    fails_in_time(server, ann)
    for client in waiting:
        client.close()


def the_server_ends_while_it_connects():
    """The same while it connects to a peer whose host lets it wait."""
    silent = socket.socket()
    silent.bind(("127.0.0.1", 0))
    silent.listen(0)
    address = silent.getsockname()
    full = [socket.socket() for _ in range(4)]
    for one in full:
        one.setblocking(False)
        one.connect_ex(address)
    put_files([("accounts", f"author ann tann\npeer 2 ptwo 127.0.0.1:{address[1]}\n")])
    process = start(
        "pad_server", f"{LISTEN} {STORE}", stdin=subprocess.DEVNULL, stdout=subprocess.PIPE, stderr=subprocess.PIPE
    )
    ann = Client(int(process.stdout.readline().decode().rsplit(":", 1)[1]))
    ann.does(do="hello", name="ann", token="tann")
    ann.does(do="create", pad="p")
    ann.does(do="insert", pad="p", rev=0, at=0, text="x")
    time.sleep(1)
    os.mkdir("kept/q.pad")
    ann.send('{"do":"create","pad":"q"}\n')
    began = time.monotonic()
    want(ann.replies.readline(), b"", "the reply of a pad whose file cannot be made")
    want(process.wait(timeout=60), 1, "the status")
    passed = time.monotonic() - began
    want(passed < SECONDS, True, f"that the server ends in {SECONDS} s, which took {passed:.1f}")
    want(b"no connection" in process.stderr.read(), True, "that it was connecting to the peer")


TESTS = [
    Test("open files: a creation without one is refused", a_creation_without_a_file_is_refused, 60),
    Test("open files: more pads than files", more_pads_than_files, 60),
    Test("open files: a file is closed for another", a_file_is_closed_for_another, 60),
    Test("open files: refused creations use up none", refused_creations_use_up_no_file),
    Test("open files: a failed store ends the server whatever waits", the_server_ends_whatever_waits, 90, alone=True),
    Test("open files: a failed store ends a server whose clients wait for changes", the_server_ends_while_clients_wait_for_changes, 90, alone=True),
    Test("open files: a failed store ends a server that has none left", the_server_ends_without_open_files, 90, alone=True),
    Test("open files: a failed store ends a server that connects to a peer", the_server_ends_while_it_connects, 90, alone=True),
]
