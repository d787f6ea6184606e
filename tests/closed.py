"""A pad that an owner closes, and opens again: each request of the protocol on it, by everybody, and what becomes of visits. Most of it
is asked of the server and of the model in conformance/, by lines; the replies that are due are those of docs/PROTOCOL.md."""
import json
import re
import time

from guests import BEN, LINK, Place
from harness import Test, want
from sockets import ACCOUNTS, Server

PEERS = (("accounts", ACCOUNTS[0][1] + "peer 2 p2 127.0.0.1:1\n"),)
DONE, CLOSE, REOPEN = '{"now":2,"ok":true}', '{"do":"close","pad":"p"}', '{"do":"reopen","pad":"p"}'
JOIN, WHO, PADS, RIGHTS = '{"do":"join","pad":"p"}', '{"do":"who","pad":"p"}', '{"do":"pads"}', '{"do":"rights","pad":"p"}'
NO_SESSION = '{"code":200,"error":"NoSession","ok":false}'
NO_PAD = '{"code":300,"error":"NoPad","ok":false}'
EXISTS = '{"code":301,"error":"PadExists","ok":false}'
BAD_NAME = '{"code":303,"error":"BadName","ok":false}'
NOT_JOINED = '{"code":310,"error":"NotJoined","ok":false}'
JOINED = '{"code":311,"error":"Joined","ok":false}'
DENIED = '{"code":312,"error":"Denied","ok":false}'
NO_REVISION = '{"code":320,"error":"NoRevision","ok":false}'
OUT_OF_RANGE = '{"code":321,"error":"OutOfRange","ok":false}'
TOO_MUCH = '{"code":323,"error":"TooMuch","ok":false}'
NO_VISIT = '{"code":329,"error":"NoVisit","ok":false}'
CLOSED = '{"code":330,"error":"PadClosed","ok":false}'
NOT_REQUEST = '{"code":102,"error":"NotRequest","ok":false}'
GRANTED = '[["ann","own"],["bob","own"],["cid","write"],["dan","read"]]'

# What nobody may do on a closed pad: 330, also where it would be refused for what it asks.
CHANGES = [
    '{"do":"insert","pad":"p","rev":2,"at":0,"text":"x"}', '{"do":"insert","pad":"p","rev":9,"at":0,"text":"x"}',
    '{"do":"insert","pad":"p","rev":2,"at":6,"text":"x"}', '{"do":"insert","pad":"p","rev":2,"at":0,"text":""}',
    '{"do":"delete","pad":"p","rev":2,"at":0,"len":1}', '{"do":"delete","pad":"p","rev":2,"at":0,"len":0}',
    '{"do":"edit","pad":"p","rev":2,"parts":[{"at":0,"text":"x"}]}', '{"do":"edit","pad":"p","rev":2,"parts":[]}',
    '{"do":"comment","pad":"p","rev":2,"at":0,"len":1,"text":"x"}', '{"do":"comment","pad":"p","rev":9,"at":0,"len":1,"text":"x"}',
    '{"do":"resolve","pad":"p","comment":[1,2]}', '{"do":"resolve","pad":"p","comment":[1,9]}',
    '{"do":"mark","pad":"p","rev":2,"text":"x"}', '{"do":"mark","pad":"p","rev":9,"text":""}',
    '{"do":"grant","pad":"p","author":"cid","right":"none"}', '{"do":"grant","pad":"p","author":"*","right":"read"}',
    '{"do":"grant","pad":"p","author":"ann","right":"read"}', '{"do":"hand","pad":"p","author":"bob"}',
    '{"do":"hand","pad":"p","author":"ann"}', '{"do":"hand","pad":"p","author":"eve"}',
    '{"do":"invite","pad":"p","secret":"k3Zt0Qm8vJx2bN5wYcR7Ag","right":"read"}',
]
# 303 comes before all that is asked of the pad.
BADLY_NAMED = [
    '{"do":"grant","pad":"p","author":"Cid","right":"read"}', '{"do":"grant","pad":"p","author":"*","right":"own"}',
    '{"do":"hand","pad":"p","author":"Cid"}', '{"do":"hand","pad":"p","author":"*"}',
]
# What an owner is answered on a closed pad, and the same as on an open one: the second word says so where it is not.
READS = [
    ('{"do":"text","pad":"p"}', '{"now":2,"ok":true,"rev":2,"text":"hello"}'),
    ('{"do":"text","pad":"p","rev":0}', '{"now":2,"ok":true,"rev":0,"text":""}'),
    ('{"do":"text","pad":"p","rev":9}', NO_REVISION),
    ('{"do":"runs","pad":"p"}', '{"now":2,"ok":true,"rev":2,"runs":[["ann@1",5]]}'),
    ('{"do":"comments","pad":"p"}', '{"comments":[{"at":0,"author":"ann@1","len":5,"name":[1,2],"resolved":false,"text":"why?"}],"now":2,"ok":true,"rev":2}'),
    ('{"do":"changes","pad":"p","rev":0}', '{"changes":[["insert","hello","ann@1"]],"notes":1,"now":2,"ok":true,"rev":0,"to":2}'),
    ('{"do":"changes","pad":"p","rev":2,"wait":61}', TOO_MUCH),
    ('{"do":"revs","pad":"p"}', '{"cells":5,"length":5,"now":2,"ok":true}'),
    ('{"do":"entries","pad":"p","from":2,"count":1}', '{"entries":[{"author":"ann@1","kind":"comment","name":[1,2],"rev":2}],"now":2,"ok":true}'),
    ('{"do":"entries","pad":"p","from":0,"count":1}', NO_REVISION),
    ('{"do":"times","pad":"p","at":[0]}', '{"now":2,"ok":true,"revs":[0]}'),
    ('{"do":"birth","pad":"p","rev":1,"at":5}', OUT_OF_RANGE),
    ('{"do":"marks","pad":"p"}', '{"marks":[],"now":2,"ok":true}'),
    ('{"do":"guests","pad":"p"}', '{"guests":[],"now":2,"ok":true}'),
    ('{"do":"introduce","pad":"p","as":"Ann"}', DENIED),
    ('{"do":"caret","pad":"p","rev":2,"at":0}', DONE),
    ('{"do":"caret","pad":"p","rev":9,"at":0}', NO_REVISION),
    ('{"do":"caret","pad":"p","rev":2,"at":6}', OUT_OF_RANGE),
    (JOIN, JOINED),
    ('{"do":"create","pad":"p"}', EXISTS),
    (CLOSE, DONE),
]
LEAVES = ['{"do":"leave","pad":"p"}', WHO, RIGHTS, CLOSE, REOPEN]


def told(session, line):
    """The line that answers a line. The model answers with what is in it."""
    if hasattr(session, "send"):
        session.send(line + "\n")
        return session.replies.readline().decode().rstrip("\n")
    reply = session.ask(**json.loads(line))
    return json.dumps(reply, ensure_ascii=False, sort_keys=True, separators=(",", ":"))


def wants(session, line, reply, who="somebody"):
    want(told(session, line), reply, f"the answer to {who}, who sends {line}")


class Begun(Place):
    """The pad p of ann, with bob as a second owner, cid who may write and dan who may read, all joined, and eve who has no right. It
    has a text and a comment, and is closed unless it is to be left open."""

    def __init__(self, where, is_closed=True, more="--guests"):
        super().__init__(where, more)
        self.dan, self.eve = self.other("dan"), self.other("eve")
        ann = self.ann
        wants(ann, '{"do":"create","pad":"p"}', '{"now":0,"ok":true,"visit":1}')
        for author, right in (("bob", "own"), ("cid", "write"), ("dan", "read")):
            ann.does(do="grant", pad="p", author=author, right=right)
        for number, session in enumerate((self.bob, self.cid, self.dan), 2):
            wants(session, JOIN, '{"now":0,"ok":true,"visit":%d}' % number)
        ann.does(do="insert", pad="p", rev=0, at=0, text="hello")
        ann.does(do="comment", pad="p", rev=1, at=0, len=5, text="why?")
        if is_closed:
            wants(ann, CLOSE, DONE, "ann")

    def other(self, name):
        """Another connection of an author."""
        session = self.connect()
        session.does(do="hello", name=name, token=f"t{name}")
        return session


def owners_read_and_nobody_changes(where):
    place = Begun(where)
    for name, session in (("ann", place.ann), ("bob", place.bob)):
        for line in CHANGES:
            wants(session, line, CLOSED, name)
        for line in BADLY_NAMED:
            wants(session, line, BAD_NAME, name)
        for line, reply in READS:
            wants(session, line, reply, name)
        wants(session, RIGHTS, '{"closed":true,"now":2,"ok":true,"rights":%s}' % GRANTED, name)
        wants(session, WHO, '{"now":2,"ok":true,"who":[{"author":"ann@1","caret":0,"visit":1},{"author":"bob@1","caret":0,"visit":2}]}', name)
        wants(session, PADS, '{"ok":true,"pads":[["p","own",2,"closed"]]}', name)
        born = told(session, '{"do":"birth","pad":"p","rev":1,"at":0}')
        want(re.sub(r'"at":\d+', '"at":0', born), '{"at":0,"author":"ann@1","now":2,"ok":true,"rev":1}', "who wrote a character")
    bob = place.bob
    for line, reply in (
        ('{"do":"leave","pad":"p"}', DONE), (RIGHTS, NOT_JOINED), (REOPEN, NOT_JOINED), (JOIN, '{"now":2,"ok":true,"visit":5}'),
        ('{"do":"caret","pad":"p","rev":2,"at":3}', DONE), ('{"do":"leave","pad":"p"}', DONE),
        ('{"do":"join","pad":"p","instead":3}', NO_VISIT),
        ('{"do":"join","pad":"p","instead":5}', '{"last":null,"made":0,"now":2,"ok":true,"visit":6}'),
        (WHO, '{"now":2,"ok":true,"who":[{"author":"ann@1","caret":0,"visit":1},{"author":"bob@1","caret":0,"visit":6}]}'),
    ):
        wants(bob, line, reply, "bob")


def others_are_put_out(where):
    """On the connection that was put out, everything on the pad is 310 for good; on another one, a join is 330, and 312 without a
    right."""
    place = Begun(where)
    everything = [line for line in CHANGES] + [line for line, _ in READS if "create" not in line] + LEAVES
    rows = {"cid": '[["p","write",2,"closed"]]', "dan": '[["p","read",2,"closed"]]', "eve": "[]"}
    for name, pads in rows.items():
        for session, of_join in ((getattr(place, name), NOT_JOINED if name != "eve" else DENIED), (place.other(name), DENIED if name == "eve" else CLOSED)):
            for line in everything:
                wants(session, line, of_join if line == JOIN else NOT_JOINED, name)
            for line in BADLY_NAMED:
                wants(session, line, BAD_NAME, name)
            for number in (1, 3, 9):
                wants(session, '{"do":"join","pad":"p","instead":%d}' % number, of_join, name)
            wants(session, '{"do":"create","pad":"p"}', EXISTS, name)
            wants(session, PADS, '{"ok":true,"pads":%s}' % pads, name)


def a_pad_is_opened_again(where):
    place = Begun(where)
    ann, cid, dan = place.ann, place.cid, place.dan
    late = place.other("cid")
    wants(late, JOIN, CLOSED, "cid on another connection")
    for _ in range(2):
        wants(ann, REOPEN, DONE, "ann")
    wants(ann, RIGHTS, '{"now":2,"ok":true,"rights":%s}' % GRANTED, "ann")
    wants(ann, PADS, '{"ok":true,"pads":[["p","own",2]]}', "ann")
    for line in (JOIN, '{"do":"join","pad":"p","instead":3}', '{"do":"leave","pad":"p"}', CHANGES[0], WHO):
        wants(cid, line, NOT_JOINED, "cid on the connection that was put out")
    wants(late, JOIN, '{"now":2,"ok":true,"visit":5}', "cid on the other connection")
    wants(late, CHANGES[0], '{"name":[1,3],"now":3,"ok":true}', "cid")
    wants(place.bob, '{"do":"text","pad":"p"}', '{"now":3,"ok":true,"rev":3,"text":"xhello"}', "bob")
    wants(dan, JOIN, NOT_JOINED, "dan on the connection that was put out")
    wants(place.other("dan"), '{"do":"join","pad":"p","instead":4}', '{"last":null,"made":0,"now":3,"ok":true,"visit":6}', "dan")
    # Closed once more: whoever has come since is put out, and learns later what was made before.
    wants(place.bob, CLOSE, '{"now":3,"ok":true}', "bob")
    wants(late, CHANGES[0], NOT_JOINED, "cid")
    wants(late, JOIN, NOT_JOINED, "cid")
    wants(place.bob, REOPEN, '{"now":3,"ok":true}', "bob")
    wants(place.other("cid"), '{"do":"join","pad":"p","instead":5}', '{"last":[1,3],"made":1,"now":3,"ok":true,"visit":7}', "cid")


def who_had_left_can_come_again(where):
    """310 for good is for those who were put out: who had left, or never came, joins on the same connection."""
    place = Begun(where, is_closed=False)
    wants(place.cid, '{"do":"leave","pad":"p"}', DONE, "cid")
    wants(place.ann, CLOSE, DONE, "ann")
    wants(place.cid, JOIN, CLOSED, "cid")
    wants(place.cid, JOIN, CLOSED, "cid")
    wants(place.ann, REOPEN, DONE, "ann")
    wants(place.cid, JOIN, '{"now":2,"ok":true,"visit":5}', "cid")


def who_may_close(where):
    """In the order of docs/PROTOCOL.md: the form, the session, the name, the pad, the visit, the right."""
    place = Begun(where, is_closed=False)
    for do in ("close", "reopen"):
        for line in ('{"do":"%s"}', '{"do":"%s","pad":7}', '{"do":"%s","pad":null}'):
            wants(place.ann, line % do, NOT_REQUEST, "ann")
        wants(place.connect(), '{"do":"%s","pad":"P"}' % do, NO_SESSION, "nobody")
        wants(place.ann, '{"do":"%s","pad":"P"}' % do, BAD_NAME, "ann")
        wants(place.ann, '{"do":"%s","pad":"q"}' % do, NO_PAD, "ann")
        wants(place.other("ann"), '{"do":"%s","pad":"p"}' % do, NOT_JOINED, "ann, who has not joined")
        wants(place.eve, '{"do":"%s","pad":"p"}' % do, NOT_JOINED, "eve")
        for session in (place.cid, place.dan):
            wants(session, '{"do":"%s","pad":"p"}' % do, DENIED, "who may not own the pad")
    wants(place.ann, RIGHTS, '{"now":2,"ok":true,"rights":%s}' % GRANTED, "ann")
    wants(place.bob, CLOSE, DONE, "bob, whom ann has made an owner")
    wants(place.ann, CHANGES[0], CLOSED, "ann")
    wants(place.ann, REOPEN, DONE, "ann")


def an_owner_of_before_is_put_out(where):
    place = Begun(where, is_closed=False)
    wants(place.ann, '{"do":"hand","pad":"p","author":"bob"}', DONE, "ann")
    wants(place.ann, CLOSE, DENIED, "ann, who has handed the pad over")
    wants(place.bob, CLOSE, DONE, "bob")
    wants(place.ann, '{"do":"text","pad":"p"}', NOT_JOINED, "ann")
    wants(place.other("ann"), JOIN, CLOSED, "ann")
    wants(place.bob, WHO, '{"now":2,"ok":true,"who":[{"author":"bob@1","caret":0,"visit":2}]}', "bob")


def everyone_and_guests_are_put_out(where):
    place = Begun(where, is_closed=False)
    place.ann.does(do="grant", pad="p", author="*", right="write")
    place.ann.does(do="invite", pad="p", secret=LINK, right="write")
    wants(place.eve, JOIN, '{"now":2,"ok":true,"visit":5}', "eve, as everyone may")
    ben = place.guest(BEN, pad="p")
    ben.does(do="introduce", pad="p", **{"as": "Ben"})
    wants(place.ann, CLOSE, DONE, "ann")
    for session in (place.eve, ben):
        wants(session, '{"do":"text","pad":"p"}', NOT_JOINED, "who was put out")
    for line in ('{"do":"introduce","pad":"p","as":"Ben"}', '{"do":"guests","pad":"p"}'):
        wants(ben, line, NOT_JOINED, "ben")
    wants(place.guest(BEN), JOIN, CLOSED, "ben")
    wants(place.guest(BEN), PADS, '{"ok":true,"pads":[["p","write",2,"closed"]]}', "ben")
    want(place.ann.does(do="guests", pad="p")["guests"], [{"author": ben.name, "name": "Ben"}], "what guests are called, on the closed pad")
    wants(place.ann, REOPEN, DONE, "ann")
    wants(place.guest(BEN), JOIN, '{"now":2,"ok":true,"visit":7}', "ben")


def other_pads_are_open(where):
    place = Begun(where, is_closed=False)
    place.cid.does(do="create", pad="q")
    place.cid.does(do="grant", pad="q", author="ann", right="write")
    wants(place.ann, '{"do":"join","pad":"q"}', '{"now":0,"ok":true,"visit":2}', "ann")
    wants(place.ann, CLOSE, DONE, "ann")
    for session, text in ((place.cid, "b"), (place.ann, "a")):
        session.does(do="insert", pad="q", rev=0, at=0, text=text)
    wants(place.cid, PADS, '{"ok":true,"pads":[["p","write",2,"closed"],["q","own",2]]}', "cid")
    wants(place.ann, '{"do":"close","pad":"q"}', DENIED, "ann")
    wants(place.cid, '{"do":"text","pad":"q"}', '{"now":2,"ok":true,"rev":2,"text":"ab"}', "cid")


def places_are_free_again():
    """Who is put out counts no more among those whom `--present` lets onto the pad."""
    place = Begun("server", is_closed=False, more="--guests --present 4")
    another, more = place.other("bob"), place.other("ann")
    wants(another, JOIN, '{"code":313,"error":"Crowded","ok":false}', "bob on another connection")
    wants(place.ann, CLOSE, DONE, "ann")
    wants(another, JOIN, '{"now":2,"ok":true,"visit":5}', "bob on another connection")
    wants(more, JOIN, '{"now":2,"ok":true,"visit":6}', "ann on another connection")
    wants(place.other("ann"), JOIN, '{"code":313,"error":"Crowded","ok":false}', "ann on a third one")


def a_wait_is_answered_at_its_end():
    """Closing ends no wait: who was put out hears 310 when the time is over, and an owner that there is nothing new."""
    place = Begun("server", is_closed=False)
    began = time.monotonic()
    for session in (place.cid, place.bob):
        session.send('{"do":"changes","pad":"p","rev":2,"wait":3}\n')
    time.sleep(0.5)
    wants(place.ann, CLOSE, DONE, "ann")
    want(place.cid.replies.readline(), NOT_JOINED.encode() + b"\n", "what ends the wait of cid, who was put out")
    want(time.monotonic() - began > 2.5, True, f"that cid waits to the end: {time.monotonic() - began:.1f} s of 3")
    want(place.bob.replies.readline(), b'{"changes":[["keep",5]],"notes":0,"now":2,"ok":true,"rev":2,"to":2}\n', "what ends bob's wait")
    place.bob.send('{"do":"changes","pad":"p","rev":2,"wait":30}\n')
    time.sleep(0.5)
    began = time.monotonic()
    wants(place.ann, REOPEN, DONE, "ann")
    wants(place.ann, CHANGES[0], '{"name":[1,3],"now":3,"ok":true}', "ann")
    want(place.bob.replies.readline(), b'{"changes":[["insert","x","ann@1"],["keep",5]],"notes":0,"now":3,"ok":true,"rev":2,"to":3}\n', "what bob waits for")
    want(time.monotonic() - began < 10, True, "that bob hears of it at once")


PUSH = '{"do":"push","pad":"%s","op":{"author":"cyd","kind":"insert","name":[2,%d],"seen":[],"after":null,"first":[%d,2],"text":"%s"}}'
DELIVERED = '{"dropped":0,"now":%d,"ok":true,"released":0,"state":"delivered"}'


def peers_read_and_push_nothing():
    """330 comes before what is wrong with the operation, and whether it is known already. Nothing of it is held."""
    server = Server(accounts=PEERS)
    ann, two = server.author("ann"), server.connect()
    for pad in ("p", "q"):
        ann.does(do="create", pad=pad)
        ann.does(do="insert", pad=pad, rev=0, at=0, text="hello")
    wants(two, '{"do":"peer","number":2,"token":"p2","version":2}', '{"ok":true,"replica":1,"version":2}', "two")
    for line in (CLOSE, REOPEN):
        wants(two, line, NO_SESSION, "two")
        wants(ann, '{"do":"vector","pad":"p"}', '{"code":404,"error":"NotPeer","ok":false}', "ann")
    wants(two, PUSH % ("p", 1, 9, "a"), DELIVERED % 2, "two")
    wants(ann, CLOSE, DONE, "ann")
    pushes = [PUSH % ("p", 2, 10, "b"), PUSH % ("p", 1, 9, "a"), PUSH % ("p", 2, 10, ""), PUSH % ("p", 3, 11, "c"), PUSH % ("p", 2, 2, "b")]
    pushes.append('{"do":"push","pad":"p","op":{"author":"ann","kind":"delete","name":[1,2],"seen":[],"spans":[[1,1,1]]}}')
    for line in pushes:
        wants(two, line, CLOSED, "two")
    wants(two, '{"do":"push","pad":"p"}', NOT_REQUEST, "two")
    wants(two, '{"do":"vector","pad":"p"}', '{"now":2,"ok":true,"seen":[[1,1],[2,1]]}', "two")
    ops = '{"after":null,"author":"ann","first":[1,1],"kind":"insert","name":[1,1],"seen":[],"text":"hello"}'
    wants(two, '{"do":"pull","pad":"p","seen":[[2,1]],"max":4}', '{"now":2,"ok":true,"ops":[%s]}' % ops, "two")
    wants(two, PUSH % ("q", 1, 9, "a"), DELIVERED % 2, "two, on another pad")
    wants(ann, '{"do":"text","pad":"p"}', '{"now":2,"ok":true,"rev":2,"text":"ahello"}', "ann")
    wants(ann, REOPEN, DONE, "ann")
    wants(two, PUSH % ("p", 2, 10, "b"), DELIVERED % 3, "two")
    wants(two, PUSH % ("p", 1, 9, "a"), (DELIVERED % 3).replace("delivered", "repeat"), "two")


def named(function, where="", *given):
    return Test(f"closed: {function.__name__.replace('_', ' ')}{where}", lambda: function(*given), 60)


BOTH = [
    owners_read_and_nobody_changes, others_are_put_out, a_pad_is_opened_again, who_had_left_can_come_again, who_may_close,
    an_owner_of_before_is_put_out, everyone_and_guests_are_put_out, other_pads_are_open,
]
TESTS = [
    *(named(function, f", {where}", where) for function in BOTH for where in ("server", "model")),
    *map(named, (places_are_free_again, a_wait_is_answered_at_its_end, peers_read_and_push_nothing)),
]
