"""Who wrote each character: the request `birth` and the times of `entries`, asked of the server and of the model in conformance/.

What is due is noted while it is typed: each character with its author and its revision, and when its edit was answered.
"""
import json
import random
import sys
import time
from os.path import join

from harness import ROOT, want
from js_client import named
from sockets import Server

LETTERS = "abc é語🙂\n"
ROUNDS = 60


class ModelAuthor:
    """A session of the model, asked as a connection is."""

    def __init__(self, server, name):
        self.server, self.session = server, server.connect()
        self.does(do="hello", name=name, token=f"t{name}")

    def ask(self, **request):
        return self.server.reply(self.session, json.loads(json.dumps(request)))

    def does(self, **request):
        answer = self.ask(**request)
        want(answer["ok"], True, f"that {request} is answered: {answer}")
        return answer


class Typed:
    """Two authors who type and erase in one pad. `shown` has the characters of each revision as (author, revision), and `between`
    the milliseconds around each edit."""

    def __init__(self, ann, bob, pad="p", seed=5):
        self.authors, self.pad, self.dice = {"ann": ann, "bob": bob}, pad, random.Random(seed)
        self.shown, self.between, self.erased = [[]], [], 0
        ann.does(do="create", pad=pad)
        ann.does(do="grant", pad=pad, author="bob", right="write")
        bob.does(do="join", pad=pad)

    def act(self):
        """Somebody types some characters, erases some, or does both in one edit of the newest revision."""
        author, now = self.dice.choice(("ann", "bob")), list(self.shown[-1])
        rev, at, is_long = len(self.shown) - 1, self.dice.randrange(len(now) + 1), len(now) > 30
        count = min(self.dice.randrange(9 if is_long else 3), len(now) - at)
        text = "" if is_long and count else "".join(self.dice.choices(LETTERS, k=1 + self.dice.randrange(5)))
        parts = [part for part in ({"at": at, "len": count} if count else None, {"at": at + count, "text": text} if text else None) if part]
        before = time.time()
        self.authors[author].does(do="edit", pad=self.pad, rev=rev, parts=parts)
        self.between.append((before * 1000 - 1, time.time() * 1000 + 1))
        self.erased += count
        self.shown.append(now[:at] + [(f"{author}@1", rev + 1)] * len(text) + now[at + count :])

    def births_are_told(self, ann):
        """Of each character of each revision, who wrote it, in which revision, and when."""
        now, times = len(self.shown) - 1, ann.does(do="times", pad=self.pad, **{"from": 1}, step=1, count=1000)["times"]
        for rev, shown in enumerate(self.shown):
            for at, (author, born) in enumerate(shown):
                due = {"at": times[born - 1], "author": author, "now": now, "ok": True, "rev": born}
                want(ann.ask(do="birth", pad=self.pad, rev=rev, at=at), due, f"the birth of character {at} of revision {rev}")
            want(ann.ask(do="birth", pad=self.pad, rev=rev, at=len(shown))["code"], 321, f"the place behind revision {rev}")
        for rev, (time_, (first, last)) in enumerate(zip(times, self.between, strict=True), 1):
            want(first <= time_ <= last, True, f"that revision {rev} is of {time_}, which is from {first} to {last}")


def typed(ann, bob):
    made = Typed(ann, bob)
    for _ in range(ROUNDS):
        made.act()
    want(made.erased > 20, True, f"that enough is erased: {made.erased}")
    return made


def sessions(where):
    """Connections of ann, bob and cid to the server, or sessions of the model."""
    names = ("ann", "bob", "cid")
    if where == "server":
        server = Server()
        return [server.author(name) for name in names]
    sys.path[:0] = [join(ROOT, "tests", "conformance")]
    from model_server import ModelServer

    server = ModelServer()
    return [ModelAuthor(server, name) for name in names]


def who_wrote_each_character(where):
    ann, bob, _ = sessions(where)
    typed(ann, bob).births_are_told(ann)


def births_are_refused(where):
    """In the order of docs/PROTOCOL.md: the form, the pad, the visit, the right, the revision, the place."""
    ann, bob, cid = sessions(where)
    ann.does(do="create", pad="p")
    ann.does(do="insert", pad="p", rev=0, at=0, text="a🙂b")
    ann.does(do="delete", pad="p", rev=1, at=1, len=2)
    born = {"do": "birth", "pad": "p", "rev": 2, "at": 0}
    for wrong in ({"at": None}, {"rev": None}, {"at": "0"}, {"rev": -1}, {"at": 0.5}, {"pad": 1}):
        want(ann.ask(**{**born, **wrong})["code"], 102, f"a request with {wrong}")
    for field in ("at", "rev"):
        want(ann.ask(**{key: value for key, value in born.items() if key != field})["code"], 102, f"a request without {field}")
    want(ann.ask(**{**born, "pad": "q"})["code"], 300, "another pad")
    want(bob.ask(**{**born, "rev": 9, "at": 9})["code"], 310, "a session that has not joined")
    ann.does(do="grant", pad="p", author="cid", right="read")
    cid.does(do="join", pad="p")
    want(cid.does(**born)["author"], "ann@1", "what a reader is told")
    ann.does(do="grant", pad="p", author="cid", right="none")
    want(cid.ask(**{**born, "rev": 9, "at": 9})["code"], 312, "who may not read any more")
    for rev, at, code in ((3, 0, 320), (3, 9, 320), (2, 1, 321), (1, 3, 321), (0, 0, 321), (2, 2**63, 321), (2**63, 0, 320)):
        want(ann.ask(**{**born, "rev": rev, "at": at})["code"], code, f"place {at} of revision {rev}")
    want([ann.does(**{**born, "rev": 1, "at": at})["rev"] for at in range(3)], [1, 1, 1], "characters that are erased by now")


def entries_have_times(where):
    ann, bob, _ = sessions(where)
    made = typed(ann, bob)
    ann.does(do="comment", pad="p", rev=ROUNDS, at=0, len=1, text="why?")
    asked = {"do": "entries", "pad": "p", "from": 3, "count": 100}
    plain, timed = ann.does(**asked), ann.does(**asked, times=True)
    times = ann.does(do="times", pad="p", **{"from": 3}, step=1, count=100)["times"]
    want([entry["rev"] for entry in plain["entries"]], list(range(3, ROUNDS + 2)), "the revisions of the entries")
    want(timed, {**plain, "entries": [{**entry, "at": time_} for entry, time_ in zip(plain["entries"], times, strict=True)]}, "entries with times")
    want(all(first <= entry["at"] <= last for entry, (first, last) in zip(timed["entries"], made.between[2:])), True, "that each is of its edit's time")
    want((ann.ask(**asked, times=False), ann.ask(**asked, times=None)), (plain, plain), "entries for which no times are asked")
    for wrong in (0, 1, "true", [], {}):
        want(ann.ask(**asked, times=wrong)["code"], 102, f"times that are {wrong!r}")
    want(ann.ask(**{**asked, "from": 0}, times=True)["code"], 320, "times of revision 0")


def on_both(function):
    def of(where):
        return named(lambda: function(where), 60, f"{function.__name__.replace('_', ' ')}, {where}")

    return [of("server"), of("model")]


TESTS = [*on_both(who_wrote_each_character), *on_both(births_are_refused), *on_both(entries_have_times)]
