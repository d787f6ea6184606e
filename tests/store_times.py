"""The times and the names of revisions that a store keeps: they come back after a restart, and no time falls."""
import json
import time

from harness import Test, want
from sockets import Server
from stores import STORE, kill, line_of, lines_of, restarted


def times_of(client):
    return client.does(do="times", pad="p", **{"from": 1, "step": 1, "count": 1000})["times"]


def times_come_back():
    """Times are those of the file, also after a restart; and none falls, though the clock did. An old file has whole seconds."""
    server = restarted()
    ann = server.author("ann")
    ann.does(do="create", pad="p")
    began = int(time.time() * 1000)
    for rev in range(3):
        ann.does(do="insert", pad="p", rev=rev, at=0, text="x")
    told = times_of(ann)
    want(began <= told[0] and told == sorted(told) and told[2] <= time.time() * 1000, True, f"the times {told} since {began}")
    want(ann.does(do="times", pad="p", at=[0, told[0], told[2]])["revs"][::2], [0, 3], "the revisions of moments")
    kill(server)
    made = [text for text in lines_of("p") if text.get("kind") == "delivered"]
    want([text["at"] * 1000 + text["ms"] for text in made], told, "the times in the file")
    server = restarted()
    want(times_of(server.author("ann", "p")), told, "the times after a restart")
    kill(server)
    # The same as an earlier version wrote it, an hour later.
    before = b""
    with open("kept/p.pad", "rb") as file:
        lines = [json.loads(line)[0] for line in file.read().splitlines()]
    with open("kept/p.pad", "wb") as file:
        for text in lines:
            text.pop("ms", None)
            if text.get("kind") == "delivered":
                text["at"] += 3600
            line = line_of(before, text)
            before = line[-67:-3]
            file.write(line)
    server = restarted()
    ann = server.author("ann", "p")
    late = [at // 1000 * 1000 + 3_600_000 for at in told]
    want(times_of(ann), late, "the times of an old file")
    ann.does(do="insert", pad="p", rev=3, at=0, text="y")
    want(times_of(ann), [*late, late[2]], "the times after the clock went back")
    kill(server)


def names_come_back():
    """Names of revisions are those of the file, also after a restart under another number."""
    server = restarted()
    ann = server.author("ann")
    ann.does(do="create", pad="p")
    ann.does(do="grant", pad="p", author="bob", right="write")
    ann.does(do="grant", pad="p", author="cid", right="comment")
    bob, cid = server.author("bob", "p"), server.author("cid", "p")
    ann.does(do="insert", pad="p", rev=0, at=0, text="x")
    ann.does(do="insert", pad="p", rev=1, at=1, text="y")
    began = int(time.time() * 1000)
    named = [(bob, 1, "Draft “ü” 𝄞"), (ann, 0, "Empty"), (ann, 1, "Approved on 9 December")]
    for client, rev, text in named:
        want(client.does(do="mark", pad="p", rev=rev, text=text), {"now": 2, "ok": True}, "the answer to a name")
    cid.wants({"do": "mark", "pad": "p", "rev": 1, "text": "x"}, {"code": 312, "error": "Denied", "ok": False})
    ann.wants({"do": "mark", "pad": "p", "rev": 3, "text": "x"}, {"code": 320, "error": "NoRevision", "ok": False})
    ann.wants({"do": "mark", "pad": "p", "rev": 2, "text": ""}, {"code": 322, "error": "Empty", "ok": False})
    ann.wants({"do": "mark", "pad": "p", "rev": 2, "text": "x" * 101}, {"code": 323, "error": "TooMuch", "ok": False})
    told = cid.does(do="marks", pad="p")["marks"]
    want([(one["author"], one["rev"], one["text"]) for one in told], [("bob", *named[0][1:]), ("ann", *named[1][1:]), ("ann", *named[2][1:])], "the names")
    times = [one["at"] for one in told]
    want(began <= times[0] and times == sorted(times) and times[2] <= time.time() * 1000, True, f"the times {times} since {began}")
    kill(server)
    made = [text for text in lines_of("p") if text.get("kind") == "marked"]
    want([text["at"] * 1000 + text["ms"] for text in made], times, "the times in the file")
    server = Server(STORE.replace("--store", "--new-replica --store"), number=2)
    cid = server.connect()
    cid.wants({"do": "hello", "name": "cid", "token": "tcid"}, {"author": "cid@2", "ok": True})
    cid.join("p")
    want(cid.does(do="marks", pad="p")["marks"], told, "the names after a restart")
    kill(server)


def times_and_batches():
    """Each record has the time at which it was made. It says whether a line before it was not synced yet."""
    began = int(time.time())
    server = restarted()
    ann = server.author("ann")
    ann.does(do="create", pad="p")
    ann.does(do="insert", pad="p", rev=0, at=0, text="one")
    time.sleep(1.2)
    between = int(time.time())
    ann.does(do="insert", pad="p", rev=1, at=0, text="two")
    kill(server)
    texts = lines_of("p")
    times = [text["at"] for text in texts[1:]]
    want(times == sorted(times) and began <= times[0] and times[1] <= between <= times[2] <= time.time(), True, f"the times {times}")
    want([text.get("together") for text in texts], [None, True, None, None], "which lines stand together with one before")


TESTS = [
    Test("store: times and batches", times_and_batches),
    Test("store: times come back, and none falls", times_come_back),
    Test("store: names of revisions come back", names_come_back),
]
