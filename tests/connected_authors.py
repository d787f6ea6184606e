"""Authors over TCP: eight who write at once, sessions that leave their pads, and which pads each author may read."""
import random
import subprocess
import threading
import time

from harness import Failed, Test, want
from sockets import NAMES, WAIT, Server


class Typist:
    """An author who types and deletes one letter that is its own, and reads the text before each edit."""

    def __init__(self, client, letter, seed):
        self.client, self.letter, self.dice = client, letter, random.Random(seed)
        self.typed = self.deleted = 0
        self.problem = None

    def run(self, edits):
        try:
            for number in range(edits):
                self.edit(number)
        except BaseException as problem:
            self.problem = repr(problem)

    def edit(self, number):
        read = self.client.does(do="text", pad="p")
        want(read["text"].count(self.letter), self.typed - self.deleted, f"letters {self.letter} that their author reads")
        places = [place for place, letter in enumerate(read["text"]) if letter == self.letter]
        if number % 5 == 4:
            place = self.dice.choice(places)
            want(self.client.does(do="delete", pad="p", rev=read["rev"], at=place, len=1)["hidden"], 1, "hidden letters")
            self.deleted += 1
        else:
            place = self.dice.randint(0, len(read["text"]))
            self.client.does(do="insert", pad="p", rev=read["rev"], at=place, text=self.letter)
            self.typed += 1


def eight_authors_at_once():
    server = Server()
    owner = server.author("ann")
    owner.does(do="create", pad="p")
    for name in NAMES[1:]:
        owner.does(do="grant", pad="p", author=name, right="write")
    clients = [owner] + [server.author(name, "p") for name in NAMES[1:]]
    typists = [Typist(client, name[0], seed) for seed, (name, client) in enumerate(zip(NAMES, clients))]
    threads = [threading.Thread(target=typist.run, args=(50,)) for typist in typists]
    for thread in threads:
        thread.start()
    for thread in threads:
        thread.join()
    want([typist.problem for typist in typists], [None] * 8, "what went wrong")
    text = owner.does(do="text", pad="p")["text"]
    for typist in typists:
        want((typist.typed, typist.deleted), (40, 10), f"edits of {typist.letter}")
        want(text.count(typist.letter), 30, f"letters {typist.letter} at the end")
    want(len(text), 240, "letters at the end")
    revs = owner.does(do="revs", pad="p")
    want((revs["now"], revs["length"], revs["cells"]), (400, 240, 320), "revision, letters and letters ever typed")
    place = 0
    for author, length in owner.does(do="runs", pad="p")["runs"]:
        want(text[place : place + length], author[0] * length, f"what {author} has at {place}")
        place += length
    want(place, 240, "letters with an author")


def a_session_is_left_before_its_connection_ends():
    server = Server()
    keeps = server.author("ann")
    keeps.does(do="create", pad="p")
    for visit in range(2, 12):
        leaves = server.author("ann")
        want(leaves.join("p"), visit, "the visit")
        want(leaves.finish(), "", "what is written at the end")
        want([entry["visit"] for entry in keeps.does(do="who", pad="p")["who"]], [1], "who is there")


def a_session_leaves_all_its_pads():
    """Who has joined two pads, in whatever order, is on neither once its connection has ended or was broken off."""
    server = Server(stderr=subprocess.DEVNULL)
    keeps = server.author("ann")
    for pad in ["p", "q"]:
        keeps.does(do="create", pad=pad)
        keeps.does(do="grant", pad=pad, author="bob", right="read")
    are_on = lambda pad: [entry["author"] for entry in keeps.does(do="who", pad=pad)["who"]]
    for first, second in [("p", "q"), ("q", "p")]:
        leaves = server.author("bob", first)
        leaves.join(second)
        want([are_on(pad) for pad in ["p", "q"]], [["ann@1", "bob@1"]] * 2, "who is on the pads before the end")
        want(leaves.finish(), "", "what is written at the end")
        want([are_on(pad) for pad in ["p", "q"]], [["ann@1"]] * 2, "who is on the pads after it")
    breaks = server.author("bob", "p")
    breaks.join("q")
    breaks.reset()
    end = time.monotonic() + WAIT
    while [are_on(pad) for pad in ["p", "q"]] != [["ann@1"]] * 2:
        if time.monotonic() > end:
            raise Failed(f"a visit is there {WAIT} s after its connection was broken off")
        time.sleep(0.1)


def each_author_sees_the_pads_that_they_may_read():
    """What `pads` and `changes` answer over connections, with several workers, of pads that two authors share in part."""
    server = Server()
    ann, bob = server.author("ann"), server.author("bob")
    for pad in ["p", "q", "r"]:
        ann.does(do="create", pad=pad)
    bob.wants({"do": "pads"}, {"ok": True, "pads": []})
    ann.does(do="grant", pad="r", author="bob", right="write")
    ann.does(do="grant", pad="p", author="bob", right="read")
    ann.does(do="insert", pad="p", rev=0, at=0, text="hello")
    bob.wants({"do": "pads"}, {"ok": True, "pads": [["p", "read", 1], ["r", "write", 0]]})
    ann.wants({"do": "pads"}, {"ok": True, "pads": [["p", "own", 1], ["q", "own", 0], ["r", "own", 0]]})
    bob.join("p")
    ann.does(do="delete", pad="p", rev=1, at=1, len=3)
    pieces = [["keep", 1], ["drop", 3], ["keep", 1]]
    bob.wants({"do": "changes", "pad": "p", "rev": 1}, {"changes": pieces, "notes": 0, "now": 2, "ok": True, "rev": 1, "to": 2})
    ann.does(do="grant", pad="p", author="bob", right="none")
    bob.wants({"do": "pads"}, {"ok": True, "pads": [["r", "write", 0]]})
    server.connect().wants({"do": "pads"}, {"code": 200, "error": "NoSession", "ok": False})


FUNCTIONS = [
    eight_authors_at_once,
    a_session_is_left_before_its_connection_ends,
    a_session_leaves_all_its_pads,
    each_author_sees_the_pads_that_they_may_read,
]

TESTS = [Test(f"pad_server: listen: {function.__name__.replace('_', ' ')}", function) for function in FUNCTIONS]
