"""A store whose device fails: each sync and each write once, and what a crash may take that was not synced."""
import itertools
import json
import os
import random
import subprocess

from faults import Faults
from harness import Failed, Test, put_files, start, want
from sockets import ACCOUNTS, LISTEN, NAMES, Client
from stores import STORE, WRITERS, entries_of, kill, kill_under_writers, restarted_told

ROUNDS = 10

# What is asked of a server with a store, and of which author.
STEPS = [
    ("ann", {"do": "create", "pad": "p"}),
    ("ann", {"do": "grant", "pad": "p", "author": "bob", "right": "write"}),
    ("bob", {"do": "join", "pad": "p"}),
    ("ann", {"do": "insert", "pad": "p", "rev": 0, "at": 0, "text": "one"}),
    ("bob", {"do": "insert", "pad": "p", "rev": 1, "at": 3, "text": "two"}),
    ("bob", {"do": "comment", "pad": "p", "rev": 2, "at": 0, "len": 3, "text": "why?"}),
    ("ann", {"do": "delete", "pad": "p", "rev": 3, "at": 1, "len": 4}),
    ("ann", {"do": "create", "pad": "q"}),
]
TEXTS = ["", "one", "onetwo", "onetwo", "oo"]


class Faulty:
    """A server with a store, of which one call fails. `client` is None where it ended before it listened."""

    def __init__(self, faults):
        put_files(ACCOUNTS)
        self.process = start(
            "pad_server",
            f"{LISTEN} {STORE}",
            faults.variables,
            stdin=subprocess.DEVNULL,
            stdout=subprocess.PIPE,
            stderr=subprocess.PIPE,
        )
        line = self.process.stdout.readline().decode()
        self.port = int(line.rsplit(":", 1)[1]) if line else None

    def author(self, name, pad=None):
        client = Client(self.port)
        client.does(do="hello", name=name, token=f"t{name}")
        if pad is not None:
            client.join(pad)
        return client


def answered_as(server, ask):
    """How many steps the server answers, one after the other, as they are asked by `ask` of a client."""
    clients = {}
    for count, (name, request) in enumerate(STEPS):
        try:
            if name not in clients:
                clients[name] = server.author(name)
            answer = ask(clients[name], request)
        except (OSError, ValueError):
            return count
        want(answer["ok"], True, f"that {request} is done, which is answered {answer}")
    return len(STEPS)


def each_fails_once(call):
    """The first call of a kind fails, then the second in another run, until none fails."""
    faults = Faults()
    for number in itertools.count(1):
        subprocess.run(["rm", "-rf", "kept"], check=True)
        before = faults.failed()
        faults.set(call, number)
        server = Faulty(faults)
        count = answered_as(server, lambda client, request: client.ask(**request)) if server.port else 0
        faults.set(call, 0)
        if faults.failed() == before:
            want(count, len(STEPS), "the steps that are answered where nothing fails")
            kill(server)
            break
        said = server.process.stderr.read().decode()
        want(server.process.wait(), 1, f"the status where {call} {number} fails")
        want("kept" in said, True, f"that standard error tells of the store, which has {said!r}")
        has_all(count)
    if number < 6:
        raise Failed(f"only {number - 1} calls failed")


def has_all(count):
    """After a restart, a store has what was answered of the first steps, and at most one step more."""
    server = restarted_told()
    ann = server.author("ann")
    if count == 0:
        answer = ann.ask(do="join", pad="p")
        want(answer["ok"] or answer["code"] == 300, True, f"that the pad is there or not, which is answered {answer}")
    else:
        ann.join("p")
        answer = ann.does(do="text", pad="p")
        made = sum("rev" in request for _, request in STEPS[:count])
        want(answer["now"] in (made, made + 1), True, f"{made} operations or one more, of which there are {answer['now']}")
        want(answer["text"], TEXTS[answer["now"]], "the text")
        rights = ann.does(do="rights", pad="p")["rights"]
        want(count < 2 or ["bob", "write"] in rights, True, f"that the right of bob is there: {rights}")
    kill(server)


def tear(synced, size, chance):
    """Takes about half of the sectors behind what was synced, whichever they are: zeros stand there."""
    with open("kept/p.pad", "r+b") as file:
        for start in range(synced // 512 * 512, size, 512):
            if chance.random() < 0.5:
                start, end = max(start, synced), min(start + 512, size)
                file.seek(start)
                file.write(bytes(end - start))


def a_crash_takes_what_was_not_synced():
    """After a kill under eight writers the file is torn behind what was synced, and cut anywhere there. What was answered is
    there, and the server starts."""
    faults = Faults()
    server = Faulty(faults)
    ann = server.author("ann")
    ann.does(do="create", pad="p")
    for name in NAMES[1:]:
        ann.does(do="grant", pad="p", author=name, right="write")
    chance = random.Random(11)
    answered = set()
    taken = 0
    for _ in range(ROUNDS):
        answered |= set(kill_under_writers(server, chance.uniform(0.02, 0.2)))
        size, synced = os.path.getsize("kept/p.pad"), faults.get("synced")
        length = chance.randint(synced, size)
        tear(synced, size, chance)
        if chance.random() < 0.5:
            os.truncate("kept/p.pad", length)
        taken += size - length
        faults.set("synced", 0)
        server = Faulty(faults)
        there = entries_of(server.author("ann", "p"))
        missing = answered - set(there)
        if missing:
            raise Failed(f"{len(missing)} answered operations are gone: {sorted(missing)[:3]}")
        answered = set(there)
        want([entry[0] for entry in there], [(1, place + 1) for place in range(len(there))], "the names in order")
    want(len(answered) > ROUNDS * WRITERS, True, "that enough was answered")
    want(taken > 0, True, "that some bytes were taken")
    server.process.kill()


def one_of_many_syncs_fails():
    """Edits of many pads go with syncs that several threads share. Where one of these fails, no edit that it belongs to is
    answered, and the server ends."""
    pads = [f"p{number}" for number in range(12)]
    lines = "".join(json.dumps({"do": "insert", "pad": pad, "rev": 0, "at": 0, "text": "x"}) + "\n" for pad in pads)
    faults = Faults()
    for number in (1, 5, 12, 13):
        subprocess.run(["rm", "-rf", "kept"], check=True)
        server = Faulty(faults)
        ann = server.author("ann")
        for pad in pads:
            ann.does(do="create", pad=pad)
        before = faults.failed()
        faults.set("syncs", number)
        ann.send(lines)
        if number > len(pads):
            want([json.loads(ann.replies.readline())["ok"] for _ in pads], [True] * len(pads), "the answers where no sync fails")
            faults.set("syncs", 0)
            kill(server)
            continue
        answered = ann.replies.read().count(b"\n")
        want(answered < len(pads), True, f"that an edit is not answered where sync {number} fails")
        faults.set("syncs", 0)
        want(faults.failed(), before + 1, "the failed syncs")
        said = server.process.stderr.read().decode()
        want(server.process.wait(), 1, f"the status where sync {number} fails")
        want("cannot be synced" in said, True, f"that standard error tells of it, which has {said!r}")
        server = restarted_told()
        ann = server.author("ann")
        for place, pad in enumerate(pads):
            ann.join(pad)
            text = ann.does(do="text", pad=pad)["text"]
            want(text in (["x"] if place < answered else ["", "x"]), True, f"that {pad} has the edit where it was answered: {text!r}")
        kill(server)


TESTS = [
    Test("store: one of many syncs fails", one_of_many_syncs_fails, 60),
    Test("store: each sync fails once", lambda: each_fails_once("syncs"), 60),
    Test("store: each write fails once", lambda: each_fails_once("writes"), 60),
    Test("store: a crash takes what was not synced", a_crash_takes_what_was_not_synced, 120),
]
