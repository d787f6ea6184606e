"""The names of revisions: the requests `mark` and `marks`, asked of the server and of the model in conformance/, and the commands of
`pads`."""
import json
import re
import time

from births import on_both, sessions
from harness import want
from js_client import named
from pads_command import begin
from pads_times import before_a_model
from sockets import Server

MOST, LONGEST = 200, 100


def milliseconds():
    return round(time.time() * 1000)


def listed(session, pad="p"):
    """The names as the session is told them, without their times, and these."""
    marks = session.does(do="marks", pad=pad)["marks"]
    return [(one["rev"], one["author"], one["text"]) for one in marks], [one["at"] for one in marks]


def revisions_get_names(where):
    ann, bob, _ = sessions(where)
    before = milliseconds()
    ann.does(do="create", pad="p")
    want(listed(ann), ([], []), "the names of a new pad")
    want(ann.does(do="mark", pad="p", rev=0, text="Nothing yet"), {"now": 0, "ok": True}, "the answer")
    ann.does(do="insert", pad="p", rev=0, at=0, text="abc")
    ann.does(do="grant", pad="p", author="bob", right="write")
    bob.does(do="join", pad="p")
    for text in ("Draft", "Draft", "🙂\n\"", "é" * LONGEST):
        want(bob.does(do="mark", pad="p", rev=1, text=text), {"now": 1, "ok": True}, f"the answer to {text!r}")
    ann.does(do="delete", pad="p", rev=1, at=0, len=3)
    names, times = listed(ann)
    due = [(0, "ann", "Nothing yet"), *((1, "bob", text) for text in ("Draft", "Draft", "🙂\n\"", "é" * LONGEST))]
    want(names, due, "the names, in their order, also where the text was erased")
    want(before - 1 <= times[0] and times == sorted(times) and times[-1] <= milliseconds() + 1, True, f"that they have the times at which they were given: {times}")
    want(ann.does(do="revs", pad="p")["now"], 2, "the present revision, of which names make none")


def names_are_refused(where):
    """In the order of docs/PROTOCOL.md: the form, the pad, the visit, the right, the revision, emptiness and size."""
    ann, bob, cid = sessions(where)
    ann.does(do="create", pad="p")
    ann.does(do="insert", pad="p", rev=0, at=0, text="abc")
    mark = {"do": "mark", "pad": "p", "rev": 1, "text": "Draft"}
    for wrong in ({"rev": None}, {"rev": -1}, {"rev": 0.5}, {"rev": "1"}, {"text": None}, {"text": 1}, {"text": ["a"]}, {"pad": 1}):
        want(ann.ask(**{**mark, **wrong})["code"], 102, f"a request with {wrong}")
    for field in ("rev", "text", "pad"):
        want(ann.ask(**{key: value for key, value in mark.items() if key != field})["code"], 102, f"a request without {field}")
    want((ann.ask(**{**mark, "pad": "q"})["code"], ann.ask(do="marks", pad="q")["code"]), (300, 300), "another pad")
    want((bob.ask(**{**mark, "rev": 9, "text": ""})["code"], bob.ask(do="marks", pad="p")["code"]), (310, 310), "a session that has not joined")
    ann.does(do="grant", pad="p", author="cid", right="comment")
    cid.does(do="join", pad="p")
    want((cid.ask(**{**mark, "rev": 9, "text": ""})["code"], listed(cid)[0]), (312, []), "who may not write")
    ann.does(do="grant", pad="p", author="cid", right="none")
    want(cid.ask(do="marks", pad="p")["code"], 312, "who may not read any more")
    for rev, text, code in ((2, "a", 320), (2, "", 320), (2**63, "", 320), (1, "", 322), (1, "x" * (LONGEST + 1), 323), (0, "🙂" * (LONGEST + 1), 323)):
        want(ann.ask(**{**mark, "rev": rev, "text": text})["code"], code, f"{len(text)} characters at revision {rev}")
    want(listed(ann)[0], [], "the names after all that")


def a_pad_has_200_names(where):
    ann, _, _ = sessions(where)
    ann.does(do="create", pad="p")
    for number in range(MOST):
        ann.does(do="mark", pad="p", rev=0, text=f"number {number}")
    want([ann.ask(do="mark", pad="p", rev=rev, text=text)["code"] for rev, text in ((0, "a"), (0, ""), (1, "a"))], [323, 322, 320], "one more")
    want([text for _, _, text in listed(ann)[0]], [f"number {number}" for number in range(MOST)], "the names")
    ann.does(do="create", pad="q")
    ann.does(do="mark", pad="q", rev=0, text="a")
    want(listed(ann, "q")[0], [(0, "ann", "a")], "the names of another pad")


def a_restart_gives_names_back():
    server = Server("--store pads")
    ann = server.author("ann")
    ann.does(do="create", pad="p")
    ann.does(do="insert", pad="p", rev=0, at=0, text="abc")
    for rev, text in ((1, "Draft"), (0, "🙂 \"\n"), (1, "Approved")):
        ann.does(do="mark", pad="p", rev=rev, text=text)
    told = ann.does(do="marks", pad="p")
    server.process.kill()
    server.process.wait()
    again = Server("--store pads").author("ann")
    again.does(do="join", pad="p")
    want(again.does(do="marks", pad="p"), told, "the names after a restart")
    again.does(do="mark", pad="p", rev=1, text="Printed")
    want([one["text"] for one in again.does(do="marks", pad="p")["marks"]], ["Draft", "🙂 \"\n", "Approved", "Printed"], "and one more")


def pads_names_revisions():
    _, ann = begin()
    ann.run("create", "minutes")
    ann.run("append", "minutes", "one")
    ann.run("append", "minutes", "two")
    ann.run("mark", "minutes", "1", "Draft of the\tclerk")
    want(json.loads(ann.run("mark", "minutes", "Approved on 9 December", "--json")), {"rev": 2}, "the newest revision gets a name")
    told = ann.run("marks", "minutes")
    rows = [re.sub(r"\t\d{4}-\d\d-\d\dT\d\d:\d\d:\d\d[+-]\d\d:\d\d\t", "\tTIME\t", row) for row in told.splitlines()]
    want(rows, ["1\tann\tTIME\tDraft of the clerk", "2\tann\tTIME\tApproved on 9 December"], "the list")
    want([(one["rev"], one["author"], one["text"]) for one in json.loads(ann.run("marks", "minutes", "--json"))],
        [(1, "ann", "Draft of the\tclerk"), (2, "ann", "Approved on 9 December")], "the list as JSON")
    ann.run("mark", "minutes", "3", "x", status=1, said="NoRevision")
    ann.run("mark", "minutes", "x" * 101, status=1, said="at most 100 characters")
    ann.run("mark", "minutes", status=2, said="TEXT")


def pads_says_that_an_older_server_has_no_names():
    async def play(server, run):
        from server import refusing

        server.scripted = refusing(102, lambda request: request["do"] in ("mark", "marks"))
        await run("mark", "p", "Draft", status=1, said="revisions have no names")
        await run("marks", "p", status=1, said="revisions have no names")

    before_a_model(play)


TESTS = [
    *on_both(revisions_get_names), *on_both(names_are_refused), *on_both(a_pad_has_200_names),
    named(a_restart_gives_names_back, 60), named(pads_names_revisions, 60), named(pads_says_that_an_older_server_has_no_names, 60),
]
