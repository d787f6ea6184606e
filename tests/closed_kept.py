"""A pad that was closed stays so over restarts, and one that was opened again stays open: whatever was answered is there after the
server was killed, as lines of the pad's file."""
import re

from closed import CHANGES, CLOSE, CLOSED, DENIED, GRANTED, JOIN, NOT_JOINED, REOPEN, RIGHTS, WHO, wants
from harness import Test, want
from stores import kill, lines_of, restarted

LINE = rb'\[\{"at":[0-9]+,"kind":"(closed|reopened)"\},"[0-9a-f]{64}"\]\n'
ROUNDS = 6


def begun():
    """A server with the pad p of ann, with bob as a second owner, cid who may write and dan who may read; and ann's connection."""
    server = restarted()
    ann = server.author("ann")
    ann.does(do="create", pad="p")
    for author, right in (("bob", "own"), ("cid", "write"), ("dan", "read")):
        ann.does(do="grant", pad="p", author=author, right=right)
    cid = server.author("cid", "p")
    cid.does(do="insert", pad="p", rev=0, at=0, text="hello")
    ann.does(do="comment", pad="p", rev=1, at=0, len=5, text="why?")
    return server, ann, cid


def shows_closed(server, visit):
    """Who may do what on a closed pad after a restart. `visit` is the number that is given next. Answers the owners' connections."""
    ann, bob = server.author("ann"), server.author("bob")
    for owner, number in ((ann, visit), (bob, visit + 1)):
        wants(owner, JOIN, '{"now":2,"ok":true,"visit":%d}' % number, "an owner")
        wants(owner, RIGHTS, '{"closed":true,"now":2,"ok":true,"rights":%s}' % GRANTED, "an owner")
        wants(owner, '{"do":"text","pad":"p"}', '{"now":2,"ok":true,"rev":2,"text":"hello"}', "an owner")
        wants(owner, CHANGES[0], CLOSED, "an owner")
    for name, reply in (("cid", CLOSED), ("dan", CLOSED), ("eve", DENIED)):
        wants(server.author(name), JOIN, reply, name)
    wants(server.author("cid"), '{"do":"pads"}', '{"ok":true,"pads":[["p","write",2,"closed"]]}', "cid")
    return ann, bob


def a_restart_keeps_what_is_closed_and_what_is_open():
    server, ann, cid = begun()
    wants(ann, CLOSE, '{"now":2,"ok":true}', "ann")
    wants(cid, CHANGES[0], NOT_JOINED, "cid, who was put out")
    kill(server)
    server = restarted()
    ann, _bob = shows_closed(server, 3)
    wants(ann, WHO, '{"now":2,"ok":true,"who":[{"author":"ann@1","caret":0,"visit":3},{"author":"bob@1","caret":0,"visit":4}]}', "ann")
    wants(ann, REOPEN, '{"now":2,"ok":true}', "ann")
    kill(server)
    server = restarted()
    cid = server.author("cid")
    wants(cid, '{"do":"pads"}', '{"ok":true,"pads":[["p","write",2]]}', "cid")
    wants(cid, '{"do":"join","pad":"p","instead":2}', '{"last":[1,1],"made":1,"now":2,"ok":true,"visit":5}', "cid")
    wants(cid, RIGHTS, '{"now":2,"ok":true,"rights":%s}' % GRANTED, "cid")
    wants(cid, CHANGES[0], '{"name":[1,3],"now":3,"ok":true}', "cid")
    kill(server)


def what_was_answered_is_kept_whenever_the_server_is_killed():
    """The server is killed as soon as the answer has come."""
    server, ann, _ = begun()
    visit = 3
    for number in range(ROUNDS):
        wants(ann, CLOSE, '{"now":2,"ok":true}', "ann")
        kill(server)
        server = restarted()
        ann, _ = shows_closed(server, visit)
        wants(ann, REOPEN, '{"now":2,"ok":true}', "ann")
        kill(server)
        server = restarted()
        ann, visit = server.author("ann"), visit + 2
        wants(ann, JOIN, '{"now":2,"ok":true,"visit":%d}' % visit, "ann")
        wants(ann, RIGHTS, '{"now":2,"ok":true,"rights":%s}' % GRANTED, "ann")
        visit += 1
    kill(server)


def bytes_of(pad):
    with open(f"kept/{pad}.pad", "rb") as file:
        return file.read()


def each_leaves_a_line_and_refusals_leave_none():
    server, ann, cid = begun()
    kinds = []
    for line, kind in ((CLOSE, "closed"), (REOPEN, "reopened"), (CLOSE, "closed")):
        before = bytes_of("p")
        wants(ann, line, '{"now":2,"ok":true}', "ann")
        grown = bytes_of("p")[len(before) :]
        found = re.fullmatch(LINE, grown)
        want(bytes_of("p").startswith(before) and found is not None, True, f"that one line more is in the file: {grown!r}")
        want(found[1].decode(), kind, "its kind")
        kinds.append(kind)
    before, others = bytes_of("p"), [server.author(name) for name in ("cid", "dan", "eve")]
    for line in (*CHANGES, RIGHTS, WHO, '{"do":"text","pad":"p"}', '{"do":"caret","pad":"p","rev":1,"at":1}'):
        ann.send(line + "\n")
        ann.replies.readline()
    for session in (cid, *others):
        session.ask(do="join", pad="p")
        session.ask(do="close", pad="p")
        session.ask(do="reopen", pad="p")
    want(bytes_of("p"), before, "the file after what was refused, or is only read")
    kill(server)
    texts = lines_of("p")  # which compares the sums of all lines
    want([text["kind"] for text in texts[-3:]], kinds, "the kinds of the last lines")
    want([sorted(text) for text in texts[-3:]], [["at", "kind"]] * 3, "their fields")


def said_twice_it_is_the_same_after_a_restart():
    server, ann, _ = begun()
    for line in (CLOSE, CLOSE, REOPEN, REOPEN, CLOSE, CLOSE):
        wants(ann, line, '{"now":2,"ok":true}', "ann")
    kill(server)
    kinds = [text["kind"] for text in lines_of("p") if text.get("kind") in ("closed", "reopened")]
    want([kind for at, kind in enumerate(kinds) if kinds[at - 1 : at] != [kind]], ["closed", "reopened", "closed"], "the kinds, each once where it is said twice")
    server = restarted()
    ann, _ = shows_closed(server, 3)
    wants(ann, REOPEN, '{"now":2,"ok":true}', "ann")
    wants(ann, REOPEN, '{"now":2,"ok":true}', "ann")
    kill(server)
    server = restarted()
    wants(server.author("cid"), JOIN, '{"now":2,"ok":true,"visit":5}', "cid")
    kill(server)


FUNCTIONS = [
    a_restart_keeps_what_is_closed_and_what_is_open, what_was_answered_is_kept_whenever_the_server_is_killed,
    each_leaves_a_line_and_refusals_leave_none, said_twice_it_is_the_same_after_a_restart,
]
TESTS = [Test(f"closed: {function.__name__.replace('_', ' ')}", function, 90) for function in FUNCTIONS]
