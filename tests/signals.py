"""Signals: a server with a store that is ended by SIGTERM or SIGINT has lost nothing that it answered."""
import json
import signal
import threading
import time

from harness import Test, want
from sockets import Server
from stores import STORE, entries_of, kill

WRITERS = ["ann", "bob", "cid", "dan"]
ANSWERS = 40  # of each writer, at least, before the signal


class Writer(threading.Thread):
    """An author who appends letters until the connection ends, and keeps the names of the edits that were answered."""

    def __init__(self, server, name):
        super().__init__(daemon=True)
        self.client = server.author(name, "p")
        self.named = []

    def run(self):
        try:
            while True:
                answer = self.client.ask(do="insert", pad="p", rev=0, at=0, text="x")
                self.named.append(tuple(answer["name"]))
        except (OSError, json.JSONDecodeError):
            pass


def hear_signals():
    """A shell that starts something in the background has it ignore SIGINT, and so all that this starts."""
    for number in [signal.SIGTERM, signal.SIGINT]:
        signal.signal(number, signal.SIG_DFL)


def begin():
    """A server whose pad p the writers may edit."""
    server = Server(STORE, preexec_fn=hear_signals)
    owner = server.author("hal")
    owner.does(do="create", pad="p")
    for name in WRITERS:
        owner.does(do="grant", pad="p", author=name, right="write")
    owner.close()
    return server


def loses_nothing(number):
    server = begin()
    writers = [Writer(server, name) for name in WRITERS]
    for writer in writers:
        writer.start()
    deadline = time.monotonic() + 15
    while min(len(writer.named) for writer in writers) < ANSWERS and time.monotonic() < deadline:
        time.sleep(0.01)
    server.process.send_signal(number)
    want(server.process.wait(10), -number, "how the server ended")
    server.process.stdout.close()
    for writer in writers:
        writer.join(10)
    answered = {name for writer in writers for name in writer.named}
    want(len(answered) >= ANSWERS * len(WRITERS), True, f"that {len(answered)} answered edits are enough")
    restarted = Server(STORE)
    made = {tuple(name) for name, _, _ in entries_of(restarted.author("hal", "p"))}
    want(answered - made, set(), "answered edits that the pad lacks")
    kill(restarted)


TESTS = [
    Test(f"signals: {number.name} loses nothing that was answered", lambda number=number: loses_nothing(number), 60)
    for number in [signal.SIGTERM, signal.SIGINT]
]
