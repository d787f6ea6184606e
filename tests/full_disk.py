"""A store whose disk is full: what would have to be kept is refused as 901, all else goes on, and it ends when there is room."""
import errno
import itertools
import subprocess
import time

from faults import Faults
from harness import Failed, Test, want
from store_faults import STEPS, TEXTS, Faulty, answered_as
from stores import entries_of, kill, restarted

FULL = {"code": 901, "error": "StoreFull", "ok": False}
RESERVE = 16 * 1_048_576
TEXT = "x" * 1_000


def waits_for_room(client, request):
    """The answer to a request that is asked again while the disk is full: room is looked for once in a second."""
    end = time.monotonic() + 10
    while True:
        answer = client.ask(**request)
        if answer != FULL or time.monotonic() > end:
            return answer
        time.sleep(0.1)


def shown(client):
    """What a pad shows to an author who has joined it."""
    acts = [client.does(do=act, pad="p") for act in ("text", "runs", "comments", "revs", "rights", "marks", "who")]
    return acts, entries_of(client)


def fill(client):
    """Inserts until the disk is full. The last insertion that is answered is in the room of the reserve."""
    for made in range(1_000):
        answer = client.ask(do="insert", pad="p", rev=made, at=0, text=TEXT)
        if not answer["ok"]:
            want(answer, FULL, f"the answer to insertion {made + 1}")
            return made
    raise Failed("the disk was never full")


def refuses_what_is_kept(ann, bob, cid, made):
    """Each request that leaves something to be kept is refused, and changes nothing."""
    before = shown(ann)
    for client, request in [
        (ann, {"do": "insert", "pad": "p", "rev": made, "at": 0, "text": "y"}),
        (ann, {"do": "delete", "pad": "p", "rev": made, "at": 0, "len": 1}),
        (ann, {"do": "edit", "pad": "p", "rev": made, "parts": [{"at": 0, "text": "y"}]}),
        (ann, {"do": "comment", "pad": "p", "rev": made, "at": 0, "len": 1, "text": "why?"}),
        (ann, {"do": "resolve", "pad": "p", "comment": [1, 1]}),
        (ann, {"do": "grant", "pad": "p", "author": "eve", "right": "read"}),
        (ann, {"do": "close", "pad": "p"}),
        (ann, {"do": "reopen", "pad": "p"}),
        (ann, {"do": "mark", "pad": "p", "rev": 0, "text": "Draft"}),
        (cid, {"do": "join", "pad": "p"}),
        (bob, {"do": "create", "pad": "q"}),
    ]:
        client.wants(request, FULL)
    want(shown(ann), before, "what the pad shows after the refusals")
    bob.wants({"do": "caret", "pad": "p", "rev": made, "at": 1}, {"now": made, "ok": True})
    # What speaks against a request before its pad is looked for comes first.
    cid.wants({"do": "join", "pad": "P"}, {"code": 303, "error": "BadName", "ok": False})
    bob.does(do="leave", pad="p")


def a_full_disk_refuses_and_ends():
    faults = Faults()
    faults.set("room", RESERVE + 40_000)
    server = Faulty(faults)
    ann = server.author("ann")
    ann.does(do="create", pad="p")
    ann.does(do="grant", pad="p", author="bob", right="write")
    ann.does(do="grant", pad="p", author="cid", right="read")
    bob, cid = server.author("bob", "p"), server.author("cid")
    made = fill(ann)
    want(20 < made < 60, True, f"that some insertions find room, and {made} did")
    refuses_what_is_kept(ann, bob, cid, made)
    kill(server)
    # The disk is full at a start too.
    server = Faulty(faults)
    server.author("ann").wants({"do": "join", "pad": "p"}, FULL)
    faults.set("room", 0)
    ann = server.author("ann")
    want(waits_for_room(ann, {"do": "join", "pad": "p"})["ok"], True, "that ann joins when there is room")
    want(ann.does(do="text", pad="p")["text"], TEXT * made, "the text")
    ann.does(do="insert", pad="p", rev=made, at=0, text="more")
    kill(server)
    server = restarted()
    want(server.author("ann", "p").does(do="text", pad="p")["text"], "more" + TEXT * made, "the text after a restart")
    kill(server)


def room_comes_back_while_it_runs():
    faults = Faults()
    faults.set("room", RESERVE + 20_000)
    server = Faulty(faults)
    ann = server.author("ann")
    ann.does(do="create", pad="p")
    made = fill(ann)
    faults.set("room", 0)
    answer = waits_for_room(ann, {"do": "insert", "pad": "p", "rev": made, "at": 0, "text": "more"})
    want(answer["ok"], True, f"that an insertion is taken when there is room, which is answered {answer}")
    kill(server)
    said = server.process.stderr.read().decode()
    want("is full" in said and "has room again" in said, True, f"that standard error tells of both, which has {said!r}")
    server = restarted()
    want(server.author("ann", "p").does(do="text", pad="p")["text"], "more" + TEXT * made, "the text after a restart")
    kill(server)


def each_write_finds_it_full_once():
    """The first write finds the disk full, then the second in another run: all steps are done, in the room of the reserve."""
    faults = Faults()
    faults.set("error", errno.ENOSPC)
    for number in itertools.count(1):
        subprocess.run(["rm", "-rf", "kept"], check=True)
        before = faults.failed()
        faults.set("writes", number)
        server = Faulty(faults)
        count = answered_as(server, waits_for_room)
        faults.set("writes", 0)
        want(count, len(STEPS), f"the steps that are answered where write {number} finds no room")
        kill(server)
        server = restarted()
        answer = server.author("ann", "p").does(do="text", pad="p")
        want((answer["now"], answer["text"]), (len(TEXTS) - 1, TEXTS[-1]), "the text after a restart")
        kill(server)
        if faults.failed() == before:
            break
    if number < 20:
        raise Failed(f"only {number - 1} writes found no room")


TESTS = [
    Test("full disk: what would be kept is refused", a_full_disk_refuses_and_ends, 60),
    Test("full disk: room comes back", room_comes_back_while_it_runs, 60),
    Test("full disk: each write finds it full once", each_write_finds_it_full_once, 120),
]
