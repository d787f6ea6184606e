"""Memory that is refused to edits, over the plain sequence and over that of blocks: each allocation of each edit once.

Each request of the story is asked with its first allocation refused, then with its second, and so on, until it meets none.
Each time it is a new run of pad_replay, in which nothing was refused before. Where the reply itself finds no memory, it ends.
A refusal that is answered 900 has changed nothing, but for a release that stops on its way, and the same request is then
answered as it would have been. Where room was only guessed and less was found, it is done as if nothing had been refused.
"""
import itertools
import json
import subprocess
from dataclasses import dataclass
from typing import Dict, Optional, Tuple

from faults import Faults
from harness import Failed, Test, put_files, start, want

ARGS = "--replica 1 --cells 1 --accounts accounts"
ACCOUNTS = (("accounts", "author ann t1\nauthor bob t2\npeer 2 p2 h:1\n"),)
NO_MEMORY = b'{"code":900,"error":"Memory","ok":false}\n'

# The buffer of pad_replay's lines has room for any request below once it has held this note.
NOTE = b"# " + b"." * 4000 + b"\n"


class Replay:
    """A run of pad_replay: lines of sessions, each answered before the next one is written."""

    def __init__(self, faults, more):
        streams = dict.fromkeys(("stdin", "stdout", "stderr"), subprocess.PIPE)
        self.process = start("pad_replay", f"{ARGS} {more}", faults.variables, **streams)
        self.write(NOTE)
        want(self.process.stdout.readline(), NOTE, "the note again")

    def write(self, line):
        self.process.stdin.write(line)
        self.process.stdin.flush()

    def line(self, who, request):
        """The reply line; None where pad_replay ended because the reply found no memory."""
        self.write(f"{who}\t{json.dumps(request)}\n".encode())
        told = self.process.stdout.readline()
        if told:
            name, _, reply = told.partition(b"\t")
            want(name, who.encode(), "the session of a reply")
            return reply
        said = self.process.stderr.read()
        want((self.process.wait(), said), (1, b"pad_replay: 900 Memory\n"), f"status and message of a run that ended at {request}")
        return None

    def wants(self, who, request, reply):
        want(json.loads(self.line(who, request) or "null"), reply, f"the reply to {request} of {who}")

    def shows(self):
        """What the pad shows to its authors and its peer, as the replies say it."""
        pads = [self.line("ann", {"do": act, "pad": "p"}) for act in ("text", "runs", "revs")]
        first = self.line("ann", {"do": "text", "pad": "p", "rev": 1}) if json.loads(pads[0])["now"] else None
        return pads, first, self.line("two", {"do": "vector", "pad": "p"})

    def text(self):
        reply = json.loads(self.line("ann", {"do": "text", "pad": "p"}))
        return reply["now"], reply["text"]

    def finish(self):
        self.process.stdin.close()
        self.process.wait()


@dataclass(frozen=True)
class Exchange:
    """A request, its reply, and the text that the pad then has.

    Where memory was refused, the pad is as before; or it is as `partly` says, the revision and the text, and then the same
    request is answered as `partly` says last.
    """

    who: str
    request: Dict
    reply: Dict
    text: str
    partly: Tuple = ()


def act(do, **fields):
    return {"do": do, "pad": "p", **fields}


def made(number, hidden: Optional[int] = None):
    return {"name": [1, number], "now": number, "ok": True, **({} if hidden is None else {"hidden": hidden})}


def pushed(state, now, released=0):
    return {"dropped": 0, "now": now, "ok": True, "released": released, "state": state}


def typed(number, after, first, text):
    """A push of an insertion that replica 2 made."""
    return act("push", op={"author": "cyd", "kind": "insert", "name": [2, number], "seen": [], "after": after, "first": [first, 2], "text": text})


OPENING = [
    ("ann", {"do": "hello", "name": "ann", "token": "t1"}, {"author": "ann@1", "ok": True}),
    ("bob", {"do": "hello", "name": "bob", "token": "t2"}, {"author": "bob@1", "ok": True}),
    ("two", {"do": "peer", "number": 2, "token": "p2", "version": 2}, {"ok": True, "replica": 1, "version": 2}),
    ("ann", act("create"), {"now": 0, "ok": True, "visit": 1}),
    ("ann", act("grant", author="bob", right="write"), {"now": 0, "ok": True}),
    ("bob", act("join"), {"now": 0, "ok": True, "visit": 2}),
]

# Each request that inserts brings more characters than stood in the pad before, erased ones too: so the vector of cells has
# to grow, as it at most doubles.
FIRST, SECOND, LEFT, RIGHT, OTHERS, LAST = "abcdefghij", "k" * 20, "<" * 40, ">" * 60, "o" * 300, "!" * 900
BOTH = FIRST[:5] + SECOND + FIRST[5:]
ERASED = FIRST[:3] + SECOND[2:] + FIRST[5:]
EDITED = LEFT + FIRST[0] + RIGHT + ERASED[2:]
# At the start of a pad the greater stamp stands in front: LEFT's counter is the greatest, and [1,2] is above [1,1].
RECEIVED = LEFT + OTHERS + EDITED[len(LEFT) :]
RELEASED = LEFT + OTHERS[0] + LAST + OTHERS[1:] + EDITED[len(LEFT) :]
TWO_SPANS = {"author": "ann", "kind": "delete", "name": [1, 3], "seen": [], "spans": [[4, 1, 2], [11, 1, 2]]}

STORY = [
    Exchange("ann", act("insert", rev=0, at=0, text=FIRST), made(1), FIRST),
    Exchange("bob", act("insert", rev=1, at=5, text=SECOND), made(2), BOTH),
    # Two characters of the first insertion and two of the second: two spans, as the peer is told.
    Exchange("ann", act("delete", rev=2, at=3, len=4), made(3, hidden=4), ERASED),
    Exchange("two", act("pull", seen=[[1, 2]], max=1), {"now": 3, "ok": True, "ops": [TWO_SPANS]}, ERASED),
    Exchange("bob", act("edit", rev=3, parts=[{"at": 0, "text": LEFT}, {"at": 1, "len": 1}, {"at": 1, "text": RIGHT}]), made(4, hidden=1), EDITED),
    # This one waits for the next one, which releases it.
    Exchange("two", typed(2, [1, 2], 1000, LAST), pushed("held", 4), EDITED),
    # A release that found no memory may have delivered the first of the two: it is then known, and releases the other.
    Exchange("two", typed(1, None, 1, OTHERS), pushed("delivered", 6, 1), RELEASED, partly=(5, RECEIVED, pushed("repeat", 6, 1))),
]


def begin(faults, more, count):
    """A run that has played so many exchanges of the story, with memory."""
    replay = Replay(faults, more)
    for who, request, reply in OPENING:
        replay.wants(who, request, reply)
    for it in STORY[:count]:
        replay.wants(it.who, it.request, it.reply)
    return replay


def refuse_each(faults, more, count):
    """Refuses each allocation of one exchange. Says how many were answered 900, and how many of those had done a part."""
    it, told, partly, ended = STORY[count], 0, 0, 0
    for allocation in itertools.count(1):
        replay = begin(faults, more, count)
        before, failed = replay.shows(), faults.failed()
        faults.set("allocations", allocation)
        line = replay.line(it.who, it.request)
        faults.set("allocations", 0)
        if faults.failed() == failed:
            want(json.loads(line), it.reply, f"the reply to {it.request} with memory")
            want(replay.text(), (it.reply["now"], it.text), "the text behind it")
            replay.finish()
            return told, partly
        if line is None:
            ended += 1
            continue
        want(ended, 0, f"runs that ended in front of allocation {allocation} of {it.request}")
        if line == NO_MEMORY:
            told += 1
            if replay.shows() == before:
                replay.wants(it.who, it.request, it.reply)
            else:
                partly += 1
                want(replay.text(), it.partly[:2], f"the text with allocation {allocation} of {it.request} refused")
                replay.wants(it.who, it.request, it.partly[2])
        else:
            # It was asked for as a guess of what is needed, and less was found.
            want(json.loads(line), it.reply, f"the reply to {it.request} with its allocation {allocation} refused")
        want(replay.text(), (it.reply["now"], it.text), f"the text with allocation {allocation} of {it.request} refused, and memory behind it")
        replay.finish()


def refuse_all(more):
    put_files(ACCOUNTS)
    faults = Faults()
    for count, it in enumerate(STORY):
        told, partly = refuse_each(faults, more, count)
        if told < 10 or bool(partly) != bool(it.partly):
            raise Failed(f"{it.request}: {told} refusals were answered 900, and {partly} of them had done a part")


TESTS = [
    Test("memory: each allocation of each edit over the plain sequence", lambda: refuse_all("--plain"), 120),
    Test("memory: each allocation of each edit over the sequence of blocks", lambda: refuse_all(""), 120),
]
