"""The numbers that the address for the status tells, compared with what was done: requests, refusals, visits, syncs and pads."""
import json

from harness import Failed, Test, want
from peers import wait_for
from status import Watched, exchange, get


def what_was_done_is_counted():
    server = Watched("--store pads --web 127.0.0.1:0")
    first = ("clients", "pads", "requests_total", "operations_total")
    want(server.counts().some(*first), [0] * 4, "the counts at first")
    ann = server.author("ann")
    ann.does(do="create", pad="p")
    for number in range(5):
        ann.does(do="insert", pad="p", rev=number, at=0, text="x")
    answer = ann.ask(do="insert", pad="p", rev=9, at=0, text="x")
    want(answer.get("code"), 320, "the answer to a revision that is not there")
    want(ann.ask(do="join", pad="q").get("code"), 300, "the answer to a pad that is not there")
    ann.send("nonsense\n\n")
    want(json.loads(ann.replies.readline())["code"], 101, "the answer to nonsense")
    eve = server.connect()
    want(eve.ask(do="hello", name="eve", token="guess").get("code"), 201, "the answer to a wrong token")
    counts = server.counts()
    want(counts.of("clients"), 2, "the clients")
    want(counts.of("pads"), 1, "the pads")
    want(counts.of("operations_total"), 5, "the operations")
    want(counts.of("requests_total"), 11, "the lines that were answered")
    refused = {key[1][0][1]: count for key, count in counts.items() if key[0] == "vindrughe_refusals_total"}
    want(refused, {"101": 1, "201": 1, "300": 1, "320": 1}, "the refusals")
    want((counts.of("notes_total"), counts.of("notes_synced_total")), (6, 6), "the notes: a creation and five edits")
    syncs, seconds = counts.some("sync_seconds_count", "sync_seconds_sum")
    if syncs < 6 or seconds <= 0:
        raise Failed(f"{syncs} syncs in {seconds} s of six notes, one after the other")
    want((counts.of("machines"), counts.of("confirms")), (1, None), "the machines, and whether a standby confirms")
    memory = counts.of("resident_memory_bytes")
    with open(f"/proc/{server.process.pid}/statm", encoding="ascii") as file:
        system = int(file.read().split()[1]) * 4096
    if not system / 2 <= memory <= system * 2:
        raise Failed(f"the memory is {memory} bytes, and the system says {system}")
    builds = [labels for (name, labels) in counts if name == "vindrughe_build_info"]
    want([sorted(dict(labels)) for labels in builds], [["proved", "version"]], "the labels of the build")
    want(get(server.status, "/kept")[2], '{"machines":1}\n', "where pads are kept with a store")
    for path in ("/", "/nothing"):
        exchange(server.web, f"GET {path} HTTP/1.1\r\nHost: x\r\n\r\n".encode())
    want(server.counts().of("page_connections_total"), 2, "the requests of browsers")
    wait_for("no request of a browser is left", lambda: server.counts().of("page_requests") == 0)
    eve.close()
    wait_for("one client is left", lambda: server.counts().of("clients") == 1)
    later = server.counts()
    shrunk = [key for key, count in counts.items() if key[0].endswith("_total") and later[key] < count]
    want(shrunk, [], "the counters that shrink")


def visits_are_counted():
    server = Watched("--store pads --web 127.0.0.1:0")
    ann = server.author("ann")
    for pad in ("p", "q"):
        ann.does(do="create", pad=pad)
    want(server.counts().of("visits"), 2, "the visits of one who made two pads")
    ann.does(do="grant", pad="p", author="eve", right="read")
    eve = server.author("eve")
    eve.does(do="join", pad="p")
    want(eve.ask(do="join", pad="q").get("code"), 312, "the answer to one without a right")
    want(server.counts().of("visits"), 3, "the visits of both")
    ann.does(do="leave", pad="q")
    want(server.counts().of("visits"), 2, "the visits once one is left")
    ann.close()
    wait_for("one visit is left", lambda: server.counts().of("visits") == 1)
    eve.close()
    wait_for("no visit is left", lambda: server.counts().of("visits") == 0)


def each_sync_is_counted():
    """One author at a time: each edit has a sync of its own."""
    server = Watched("--store pads")
    ann = server.author("ann")
    ann.does(do="create", pad="p")
    before = server.counts()
    for number in range(20):
        ann.does(do="insert", pad="p", rev=number, at=0, text="x")
    after = server.counts()
    want(after.of("sync_seconds_count") - before.of("sync_seconds_count"), 20, "the syncs of twenty edits")
    notes = after.of("notes_synced_total") - before.of("notes_synced_total")
    want(notes, 20, "the notes of twenty edits that are synced")


def the_pads_of_a_store_are_counted():
    first = Watched("--store pads")
    ann = first.author("ann")
    for name in ("p", "q", "r"):
        ann.does(do="create", pad=name)
    want(first.counts().of("pads"), 3, "the pads")
    first.process.kill()
    first.process.wait()
    want(Watched("--store pads").counts().of("pads"), 3, "the pads after a restart")


TESTS = [
    Test("status: what was done is counted", what_was_done_is_counted),
    Test("status: visits are counted", visits_are_counted),
    Test("status: each sync is counted", each_sync_is_counted),
    Test("status: the pads of a store are counted", the_pads_of_a_store_are_counted),
]
