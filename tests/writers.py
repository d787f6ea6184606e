"""Authors who write under load and change rights, and whether everything that was answered to them is there after a promotion."""
import math
import random
import threading
import time
from dataclasses import dataclass
from typing import Tuple

from harness import Failed, want
from two_machines import NAMES, entries_of

PADS = 20


@dataclass(frozen=True)
class Made:
    """An edit or a comment that was answered, and when."""

    at: float
    pad: str
    now: int
    name: Tuple[int, int]
    kind: str
    text: str


class Writer(threading.Thread):
    """An author who writes, comments, creates, gives rights and takes them away, and notes each answer, until the server is gone."""

    def __init__(self, machines, name, seed):
        super().__init__()
        self.name, self.dice = name, random.Random(seed)
        self.client = machines.author(name)
        self.pads = {}
        self.made = []
        # When each pad was created, and for each of them the rights of each author, with the times of the answers.
        self.created = {}
        self.rights = {}
        # A grant that may not have been answered: the pad, the author and the right.
        self.asked = None
        self.taken = 0
        self.start()

    def run(self):
        try:
            while True:
                self.act()
        except (OSError, ValueError, KeyError):
            pass  # the machine is lost

    def ask(self, **request):
        answer = self.client.ask(**request)
        if not answer["ok"]:
            raise Failed(f"{request} is answered {answer}")
        return answer

    def act(self):
        pad = f"p{self.dice.randrange(PADS)}"
        if pad not in self.pads:
            self.ask(do="join", pad=pad)
            self.pads[pad] = True
        deed = self.dice.random()
        now = self.ask(do="revs", pad=pad)["now"]
        if deed < 0.8:
            text = f"{self.name}{len(self.made)} "
            answer = self.ask(do="insert", pad=pad, rev=now, at=0, text=text)
            self.note(pad, answer, "insert", text)
        elif deed < 0.9 and now > 0:
            text = f"{self.name} asks {len(self.made)}"
            length = self.ask(do="text", pad=pad)
            if not length["text"]:
                return
            answer = self.ask(do="comment", pad=pad, rev=length["rev"], at=0, len=1, text=text)
            self.note(pad, answer, "comment", text)
        else:
            self.share()

    def note(self, pad, answer, kind, text):
        self.made.append(Made(time.monotonic(), pad, answer["now"], tuple(answer["name"]), kind, text))

    def share(self):
        """Creates a pad, gives somebody a right on one of those created, and mostly takes one away that was given before."""
        mine = f"{self.name}-{len(self.rights)}"
        self.ask(do="create", pad=mine)
        self.created[mine], self.rights[mine] = time.monotonic(), {}
        other = self.dice.choice([it for it in NAMES if it != self.name])
        self.grant(self.dice.choice(list(self.rights)), other, self.dice.choice(["read", "comment", "write", "none"]))
        given = [(pad, author) for pad, given in self.rights.items() for author, rights in given.items() if rights[-1][1] != "none"]
        if given and self.dice.random() < 0.7:
            pad, author = self.dice.choice(given)
            self.grant(pad, author, "none")
            self.taken += 1

    def grant(self, pad, author, right):
        self.asked = (pad, author, right)
        self.ask(do="grant", pad=pad, author=author, right=right)
        self.asked = None
        self.rights[pad].setdefault(author, []).append((time.monotonic(), right))


def begin_pads(machines):
    owner = machines.author("ann")
    for number in range(PADS):
        owner.does(do="create", pad=f"p{number}")
        for name in NAMES[1:]:
            owner.does(do="grant", pad=f"p{number}", author=name, right="write")
        owner.does(do="leave", pad=f"p{number}")
    owner.close()


def check_answered(machines, writers, until=math.inf):
    """What was answered by a time is there at the promoted server, under its author, and no name was used twice. Returns how
    much that was."""
    reader = machines.author("ann", number=2)
    entries, texts, comments = {}, {}, {}
    for number in range(PADS):
        pad = f"p{number}"
        reader.join(pad)
        entries[pad] = entries_of(reader, pad)
        want(len({name for name, _, _ in entries[pad]}), len(entries[pad]), f"the names of the operations of {pad}, each once")
        texts[pad] = reader.does(do="text", pad=pad)["text"]
        comments[pad] = [it["text"] for it in reader.does(do="comments", pad=pad)["comments"]]
    answered = 0
    for writer in writers:
        for it in writer.made:
            if it.at > until:
                continue
            found = entries[it.pad][it.now - 1] if it.now <= len(entries[it.pad]) else None
            want(found, (it.name, f"{writer.name}@1", it.kind), f"revision {it.now} of {it.pad}")
            want(it.text in (texts if it.kind == "insert" else comments)[it.pad], True, f"that {it.text!r} is in {it.pad}")
            answered += 1
        for pad, created in writer.created.items():
            if created <= until:
                check_rights(machines, writer, pad, until)
                answered += 1
    return answered


def check_rights(machines, writer, pad, until):
    """Each author has the last right on a pad that its owner was answered by a time, or one that was asked for later."""
    client = machines.author(writer.name, pad, 2)
    told = dict(client.does(do="rights", pad=pad)["rights"])
    client.close()
    for author in NAMES:
        rights = [(-math.inf, "own" if author == writer.name else "none"), *writer.rights[pad].get(author, [])]
        last = max(place for place, (at, _) in enumerate(rights) if at <= until)
        due = [right for _, right in rights[last:]]
        if writer.asked and writer.asked[:2] == (pad, author):
            due.append(writer.asked[2])
        right = told.pop(author, "none")
        if right not in due:
            raise Failed(f"{author} has the right {right!r} on {pad}, and not {' or '.join(due)}")
    want(told, {}, f"who else has a right on {pad}")
