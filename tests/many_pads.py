"""Servers with thousands of pads: names are found, memory stays small, a store of a thousand pads is read again, also after
a storm of edits, and two servers exchange all of them."""
import json
import os
import random
import threading
import time

import peers
from harness import Failed, Test, want
from sockets import ACCOUNTS, Server

MANY = 1_000
HOUSE = 6_000  # the pads of a larger house
MOST = 131_072  # the most that a server has room for


def resident(server):
    """KiB of memory that the server has."""
    with open(f"/proc/{server.process.pid}/status") as file:
        return next(int(line.split()[1]) for line in file if line.startswith("VmRSS:"))


def cells_without_a_name_take_little():
    """Less than one and three quarters KiB each, with the seats of five threads."""
    few, many = (Server(f"--cells {cells} --workers 4") for cells in (64, MOST))
    time.sleep(0.5)
    taken = (resident(many) - resident(few)) / (MOST - 64)
    if taken >= 1.75:
        raise Failed(f"{taken:.2f} KiB for each cell")


def create(server, count):
    """Pads of one author, who writes the name of each into it."""
    ann = server.author("ann")
    for number in range(count):
        ann.does(do="create", pad=f"p{number}")
        ann.does(do="insert", pad=f"p{number}", rev=0, at=0, text=f"this is p{number}")
    return ann


def has_all(server, count):
    """Another author than the one who made them is told of no pad; a new session of hers reads each."""
    bob, ann = server.author("bob"), server.author("ann")
    want(bob.does(do="pads")["pads"], [], "the pads of another author")
    want([pad[0] for pad in ann.does(do="pads")["pads"]], sorted_names(count, server), "the names of all pads")
    for number in (0, 1, 63, 64, 65, count // 2, count - 1):
        ann.does(do="join", pad=f"p{number}")
        want(ann.does(do="text", pad=f"p{number}")["text"], f"this is p{number}", "the text")
        want(bob.ask(do="join", pad=f"p{number}")["code"], 312, "the code for another author")
    for name in ("p", f"p{count}", "q"):
        want(bob.ask(do="join", pad=name)["code"], 300, "the code for a pad that is none")
    want(ann.ask(do="create", pad="p64")["code"], 301, "the code for a pad that is there")


def sorted_names(count, server):
    """In the order of creation; a store gives its pads in the order of their files' names."""
    names = [f"p{number}" for number in range(count)]
    return names if server.is_new else sorted(names)


def a_thousand_pads_are_found():
    server = Server(f"--cells {MANY} --workers 3")
    server.is_new = True
    ann = create(server, MANY)
    want(ann.ask(do="create", pad="one-more")["code"], 302, "the code for a pad too many")
    has_all(server, MANY)


def thousands_of_pads_are_found():
    server = Server(f"--cells {MOST} --workers 3")
    server.is_new = True
    create(server, HOUSE)
    has_all(server, HOUSE)


def a_store_of_a_thousand_pads_is_read_again():
    server = Server(f"--cells 4096 --workers 3 --store many")
    create(server, MANY)
    server.process.kill()
    server.process.wait()
    want(len([name for name in os.listdir("many") if name.endswith(".pad")]) >= MANY, True, "that each pad has a file")
    again = Server(f"--cells 4096 --workers 3 --store many")
    again.is_new = False
    has_all(again, MANY)
    ann = again.author("ann")
    want(ann.does(do="create", pad="after")["now"], 0, "the revision of a pad that is created then")


class Writer(threading.Thread):
    """An author who types a letter into pads that are drawn by lot, and breaks the connection off from time to time. It
    counts the letters of each pad that were answered, and those that were sent before a break."""

    EDITS = 150

    def __init__(self, server, count, seed):
        super().__init__()
        self.server, self.count, self.dice = server, count, random.Random(seed)
        self.answered, self.sent, self.problem = {}, {}, None

    def run(self):
        try:
            client = self.server.author("ann")
            for _ in range(self.EDITS):
                pad = f"p{self.dice.randrange(self.count)}"
                edit = {"do": "insert", "pad": pad, "rev": 1, "at": 0, "text": "x"}
                if self.dice.randrange(20) == 0:
                    client.does(do="join", pad=pad)
                    client.send(json.dumps(edit) + "\n")
                    self.sent[pad] = self.sent.get(pad, 0) + 1
                    client.reset()
                    client = self.server.author("ann")
                else:
                    visit = client.ask(do="join", pad=pad)
                    client.does(**edit)
                    self.answered[pad] = self.answered.get(pad, 0) + 1
                    if visit["ok"]:
                        client.does(do="leave", pad=pad)
        except BaseException as problem:
            self.problem = repr(problem)


def a_storm_over_a_thousand_pads():
    """Every letter that was answered is there after the server was killed, and no letter that nobody sent."""
    server = Server(f"--cells {MANY} --workers 3 --store storm")
    create(server, MANY)
    writers = [Writer(server, MANY, seed) for seed in range(12)]
    for writer in writers:
        writer.start()
    for writer in writers:
        writer.join()
    want([writer.problem for writer in writers if writer.problem], [], "what went wrong")
    server.process.kill()
    server.process.wait()
    again = Server(f"--cells {MANY} --workers 3 --store storm")
    texts = again.author("ann")
    for number in range(MANY):
        pad = f"p{number}"
        texts.does(do="join", pad=pad)
        text = texts.does(do="text", pad=pad)["text"]
        texts.does(do="leave", pad=pad)
        least = sum(writer.answered.get(pad, 0) for writer in writers)
        letters = len(text) - len(f"this is {pad}")
        want(text, "x" * letters + f"this is {pad}", "the text")
        want(least <= letters <= least + sum(writer.sent.get(pad, 0) for writer in writers), True, f"{least} letters or some more, not {letters}")


def two_servers_exchange_a_thousand_pads():
    """Each has the pads with what the other's author wrote, and what both write afterwards comes to the other one."""
    ports = dict(zip((1, 2), peers.free_ports(2)))
    servers = [peers.Server(number, ports, [name], [3 - number], f"--cells {MANY}") for number, name in ((1, "ann"), (2, "bob"))]
    ann, bob = servers[0].author("ann"), servers[1].author("bob")
    for number in range(MANY):
        ann.does(do="create", pad=f"p{number}")
        ann.does(do="insert", pad=f"p{number}", rev=0, at=0, text=f"this is p{number}")
        bob.does(do="create", pad=f"p{number}")
    dice = random.Random(7)
    typed = 0
    for author in (ann, bob) * 100:
        pad = f"p{dice.randrange(MANY)}"
        author.does(do="insert", pad=pad, rev=0, at=0, text="x")
        typed += 1
    for author in (ann, bob):
        peers.wait_for("as many operations at each server", lambda: operations(author) == MANY + typed)
    for number in range(MANY):
        shown = [author.does(do="text", pad=f"p{number}")["text"] for author in (ann, bob)]
        want(shown[0], shown[1], f"the text of p{number} at both servers")
        want(shown[0].replace("x", ""), f"this is p{number}", "the text without the later letters")
    for server in servers:
        server.stop()


def operations(client):
    """How many operations all pads have."""
    return sum(pad[2] for pad in client.does(do="pads")["pads"])


TESTS = [
    Test("many pads: cells without a name take little", cells_without_a_name_take_little, 30),
    Test("many pads: a thousand pads are found", a_thousand_pads_are_found, 60),
    Test("many pads: thousands of pads are found", thousands_of_pads_are_found, 90),
    Test("many pads: a store of a thousand pads is read again", a_store_of_a_thousand_pads_is_read_again, 90),
    Test("many pads: a storm over a thousand pads", a_storm_over_a_thousand_pads, 120),
    Test("many pads: two servers exchange a thousand pads", two_servers_exchange_a_thousand_pads, 120),
]
