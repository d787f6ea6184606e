"""A closed pad on servers that exchange its operations, and on a standby: it takes nothing that others made, here alone, and gets it once
it is open again; and who is promoted knows that it is closed."""
import time

from closed import CHANGES, CLOSE, CLOSED, JOIN, NOT_JOINED, REOPEN, RIGHTS, wants
from harness import Test, want
from peers import Server, Wire, free_ports, shows, text, types, wait_for
from two_machines import Machines, shown

REST = 3.5  # seconds: rounds have been, with each peer
MINUTE = 75  # seconds: there was a round over all pads


class Two:
    """Server 1 of ann and server 2 of bob, with a pad p on each and what ann types passed on by a wire. On server 2, cid may write."""

    def __init__(self):
        ports = dict(zip((1, 2), free_ports(2)))
        self.wire = Wire(ports[2])
        self.second = Server(2, ports, ["bob", "cid"], [1])
        self.first = Server(1, {1: ports[1], 2: self.wire.port}, ["ann"], [2])
        self.ann, self.bob = self.first.author("ann"), self.second.author("bob")
        for author in (self.ann, self.bob):
            author.does(do="create", pad="p")
        self.bob.does(do="grant", pad="p", author="cid", right="write")
        types(self.ann, "a")
        types(self.bob, "b")
        self.agree(2)

    def agree(self, now):
        """Both come to have so many revisions, and show the same."""
        wait_for(f"{now} revisions at both", lambda: all(one.does(do="revs", pad="p")["now"] == now for one in (self.ann, self.bob)))
        want(shows(self.bob), shows(self.ann), "what bob sees")

    def pushes(self, pad="p"):
        return sum(request["do"] == "push" and request["pad"] == pad for request in list(self.wire.requests))

    def stop(self):
        self.first.stop()
        self.second.stop()


def a_closed_pad_takes_nothing_and_gets_it_later():
    two = Two()
    ann, bob, cid = two.ann, two.bob, two.second.author("cid", "p")
    before = shows(bob)
    wants(bob, CLOSE, '{"now":2,"ok":true}', "bob")
    pushed = two.pushes()
    types(ann, "xyz")
    wait_for("ann's letters are pushed", lambda: two.pushes() > pushed)
    time.sleep(REST)
    want(shows(bob), before, "what bob sees of his closed pad")
    wants(cid, '{"do":"text","pad":"p"}', NOT_JOINED, "cid, who was put out")
    # It is closed on this server alone.
    wants(ann, RIGHTS, '{"now":5,"ok":true,"rights":[["ann","own"]]}', "ann")
    want(text(ann)[:3], "zyx", "what ann has typed")
    # Other pads go on between the two.
    bob.does(do="create", pad="q")
    ann.does(do="create", pad="q")
    ann.does(do="insert", pad="q", rev=0, at=0, text="on")
    wait_for("ann's text on another pad", lambda: bob.does(do="text", pad="q")["text"] == "on")
    want(shows(bob), before, "what bob sees of his closed pad after that")
    wants(bob, REOPEN, '{"now":2,"ok":true}', "bob")
    types(ann, "!")
    two.agree(6)
    types(bob, "?")
    two.agree(7)
    wants(two.second.author("cid"), JOIN, '{"now":7,"ok":true,"visit":3}', "cid")
    two.stop()


def a_closed_pad_gives_what_it_has():
    """What was made before is pulled from it. Each of the two servers closes its own pad, one after the other."""
    ports = dict(zip((1, 2), free_ports(2)))
    second = Server(2, ports, ["bob"], [1])
    bob = second.author("bob")
    bob.does(do="create", pad="p")
    types(bob, "abc")
    wants(bob, CLOSE, '{"now":3,"ok":true}', "bob")
    first = Server(1, ports, ["ann"], [2])
    ann = first.author("ann")
    ann.does(do="create", pad="p")
    wait_for("what the closed pad has, at ann's server", lambda: text(ann) == "cba")
    types(ann, "!")
    time.sleep(REST)
    want((text(ann), text(bob)), ("!cba", "cba"), "the texts, while bob's pad is closed")
    wants(bob, REOPEN, '{"now":3,"ok":true}', "bob")
    types(ann, ".")
    wait_for("ann's letters at bob's server", lambda: shows(bob) == shows(ann))
    wants(ann, CLOSE, '{"now":5,"ok":true}', "ann")
    types(bob, "?")
    time.sleep(REST)
    want((text(ann), text(bob)), (".!cba", "?.!cba"), "the texts, while ann's pad is closed")
    wants(ann, REOPEN, '{"now":5,"ok":true}', "ann")
    types(bob, ";")
    wait_for("bob's letters at ann's server", lambda: text(ann) == ";?.!cba")
    want(shows(ann), shows(bob), "what ann sees")
    first.stop()
    second.stop()


def a_pad_that_is_opened_again_gets_all_within_the_minute():
    """As long as it is closed, a round over all pads pulls nothing for it. Once it is open, such a round brings all, though nobody
    types any more."""
    two = Two()
    before = shows(two.bob)
    wants(two.bob, CLOSE, '{"now":2,"ok":true}', "bob")
    types(two.ann, "xyz")
    time.sleep(MINUTE)
    want(shows(two.bob), before, "what bob sees of his closed pad")
    wants(two.bob, REOPEN, '{"now":2,"ok":true}', "bob")
    end = time.monotonic() + MINUTE
    while two.bob.does(do="revs", pad="p")["now"] < 5 and time.monotonic() < end:
        time.sleep(0.5)
    two.agree(5)
    two.stop()


def a_promoted_standby_knows_it():
    machines = Machines()
    machines.standby()
    machines.main("5")
    ann = machines.author("ann")
    for pad in ("p", "q"):
        ann.does(do="create", pad=pad)
        ann.does(do="grant", pad=pad, author="cid", right="write")
        ann.does(do="insert", pad=pad, rev=0, at=0, text="hello")
        ann.does(do="close", pad=pad)
    ann.does(do="reopen", pad="q")
    before = [shown(ann, pad) for pad in ("p", "q")]
    want([told.get("closed") for told in (before[0][3], before[1][3])], [True, None], "which pads are closed")
    machines.kill(2)
    machines.kill(1)
    machines.promoted()
    cid, ann = machines.author("cid", number=2), machines.author("ann", number=2)
    wants(cid, JOIN, CLOSED, "cid")
    wants(cid, '{"do":"pads"}', '{"ok":true,"pads":[["p","write",1,"closed"],["q","write",1]]}', "cid")
    wants(cid, '{"do":"join","pad":"q"}', '{"now":1,"ok":true,"visit":2}', "cid")
    wants(ann, JOIN, '{"now":1,"ok":true,"visit":2}', "ann")
    ann.does(do="join", pad="q")
    want([shown(ann, pad) for pad in ("p", "q")], before, "what the promoted server shows")
    wants(ann, CHANGES[0], CLOSED, "ann")
    wants(ann, REOPEN, '{"now":1,"ok":true}', "ann")
    wants(cid, JOIN, '{"now":1,"ok":true,"visit":3}', "cid")
    machines.kill(2)


def named(function, seconds):
    return Test(f"closed: {function.__name__.replace('_', ' ')}", function, seconds)


TESTS = [named(a_closed_pad_takes_nothing_and_gets_it_later, 120), named(a_closed_pad_gives_what_it_has, 120), named(a_promoted_standby_knows_it, 60)]
# This takes minutes: tests/run --long.
LONG_TESTS = [named(a_pad_that_is_opened_again_gets_all_within_the_minute, 300)]
