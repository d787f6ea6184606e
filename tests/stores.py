"""A server with a store: what it answered is there after a restart, also after it was killed at any moment."""
import hashlib
import json
import os
import random
import resource
import signal
import subprocess
import threading
import time

from harness import Case, Failed, Test, put_files, want
from sample_pad import WHOLE
from sockets import ACCOUNTS, LISTEN, NAMES, Server

STORE = "--store kept"
ROUNDS = 20
WRITERS = 8


def restarted(more=""):
    return Server(f"{STORE} {more}")


def restarted_told(**streams):
    """The same, and what it says on standard error is kept."""
    return Server(STORE, stderr=subprocess.PIPE, **streams)


def kill(server):
    server.process.kill()
    server.process.wait()
    server.process.stdout.close()


def lines_of(pad):
    """The lines of a pad's file, each with the sum over the one before and its text, as anybody can compute it."""
    with open(f"kept/{pad}.pad", "rb") as file:
        lines = file.read().split(b"\n")
    want(lines.pop(), b"", "what stands behind the last line feed")
    before = b""
    texts = []
    for line in lines:
        text = line[1:-68]
        before = hashlib.sha256(before + text).hexdigest().encode()
        want(line, b"[" + text + b',"' + before + b'"]', "a line of the file")
        texts.append(json.loads(text))
    return texts


def line_of(before, value):
    """The line of a value behind a sum."""
    text = json.dumps(value, separators=(",", ":"), sort_keys=True).encode()
    return b"[" + text + b',"' + hashlib.sha256(before + text).hexdigest().encode() + b'"]\n'


def entries_of(client):
    """What made each revision of the pad p, in order: name, author and kind."""
    found = []
    while True:
        some = client.does(do="entries", pad="p", **{"from": len(found) + 1, "count": 100})["entries"]
        if not some:
            return found
        found += [(tuple(entry["name"]), entry["author"], entry["kind"]) for entry in some]


def all_comes_back():
    server = restarted()
    ann = server.author("ann")
    ann.does(do="create", pad="p")
    ann.does(do="grant", pad="p", author="bob", right="write")
    ann.does(do="grant", pad="p", author="cid", right="read")
    ann.does(do="grant", pad="p", author="*", right="comment")
    bob = server.author("bob", "p")
    ann.does(do="insert", pad="p", rev=0, at=0, text="one ü 𝄞\n")
    bob.does(do="insert", pad="p", rev=1, at=0, text="two\"\\")
    ann.does(do="comment", pad="p", rev=2, at=0, len=3, text="why?")
    bob.does(do="delete", pad="p", rev=2, at=0, len=1)
    ann.does(do="hand", pad="p", author="bob")
    shown = [ann.does(do=what, pad="p") for what in ("text", "runs", "comments", "revs", "rights")]
    made = entries_of(ann)
    kill(server)
    texts = lines_of("p")
    want(texts[0], {"format": 1, "pad": "p", "replica": 1}, "the first line")
    want(
        [text["kind"] for text in texts[1:]],
        ["named", "granted", "granted", "everyone", "visited", "delivered", "delivered", "delivered", "delivered", "handed"],
        "the kinds of the records",
    )
    server = restarted()
    ann = server.author("ann")
    want(ann.join("p"), 3, "the number of the first visit after the restart")
    want([ann.does(do=what, pad="p") for what in ("text", "runs", "comments", "revs", "rights")], shown, "what the pad shows")
    want(entries_of(ann), made, "its entries")
    want(ann.does(do="rights", pad="p")["rights"], [["bob", "own"], ["*", "comment"], ["cid", "read"], ["ann", "write"]], "who may what")
    want(ann.does(do="pads")["pads"], [["p", "write", 4]], "the pads of the former owner")
    cid = server.author("cid", "p")
    cid.wants({"do": "insert", "pad": "p", "rev": 4, "at": 0, "text": "x"}, {"code": 312, "error": "Denied", "ok": False})
    answer = ann.does(do="insert", pad="p", rev=4, at=0, text="next")
    want(answer["name"], [1, 5], "the name of the next operation")
    kill(server)


def again(client, instead, **told):
    """Joins instead of a visit, is told this, and leaves."""
    want(client.ask(do="join", pad="p", instead=instead), told, f"who joins instead of visit {instead}")
    if told["ok"]:
        client.does(do="leave", pad="p")


def visits_come_back():
    """Who joins instead of a visit from before the server was killed learns what that made."""
    server = restarted()
    ann = server.author("ann")
    ann.does(do="create", pad="p")
    ann.does(do="grant", pad="p", author="bob", right="write")
    bob = server.author("bob", "p")
    ann.does(do="insert", pad="p", rev=0, at=0, text="one")
    bob.does(do="insert", pad="p", rev=1, at=0, text="two")
    ann.does(do="comment", pad="p", rev=2, at=0, len=3, text="why?")
    kill(server)
    want([text.get("author") for text in lines_of("p") if text.get("kind") == "visited"], ["bob"], "whose visits are recorded")
    want([text["visit"] for text in lines_of("p") if text.get("kind") == "delivered"], [1, 2, 1], "the visits of the operations")
    server = restarted()
    ann, bob = server.author("ann"), server.author("bob")
    again(ann, 1, ok=True, now=3, visit=3, made=2, last=[1, 3])
    again(ann, 2, ok=False, code=329, error="NoVisit")
    again(ann, 4, ok=False, code=329, error="NoVisit")
    again(ann, 3, ok=True, now=3, visit=4, made=0, last=None)
    again(bob, 2, ok=True, now=3, visit=5, made=1, last=[1, 2])
    kill(server)


def visits_of_an_earlier_version():
    """A file of an earlier version says neither whose a visit was nor what was made in it: nobody can join instead of it."""
    os.mkdir("kept")
    with open("kept/p.pad", "wb") as file:
        file.write(WHOLE)
    server = restarted()
    ann = server.author("ann")
    for visit in (1, 2):
        again(ann, visit, ok=False, code=329, error="NoVisit")
    want(ann.join("p"), 3, "the visit that is given next")
    ann.does(do="insert", pad="p", rev=5, at=0, text="x")
    ann.does(do="leave", pad="p")
    again(ann, 3, ok=True, now=6, visit=4, made=1, last=[1, 6])
    kill(server)


def private_files():
    """The folder and the files of a store are its server's user's alone."""
    server = restarted()
    server.author("ann").does(do="create", pad="p")
    kill(server)
    want(os.stat("kept").st_mode & 0o777, 0o700, "the mode of the folder")
    for name in ("p.pad", "lock", "reserve"):
        want(os.stat(f"kept/{name}").st_mode & 0o777, 0o600, f"the mode of {name}")


def several_pads():
    server = restarted()
    ann = server.author("ann")
    for pad in ("c", "a", "b"):
        ann.does(do="create", pad=pad)
        ann.does(do="insert", pad=pad, rev=0, at=0, text=f"text of {pad}")
    ann.wants({"do": "create", "pad": "a"}, {"code": 301, "error": "PadExists", "ok": False})
    kill(server)
    server = restarted()
    ann = server.author("ann")
    for pad in ("a", "b", "c"):
        ann.join(pad)
        want(ann.does(do="text", pad=pad)["text"], f"text of {pad}", f"the text of {pad}")
    ann.does(do="create", pad="d")
    kill(server)


def refused(status, *parts):
    process = subprocess.run(
        [path("pad_server"), *f"{LISTEN} {STORE}".split()], stdin=subprocess.DEVNULL, capture_output=True, timeout=15
    )
    want(process.returncode, status, "the status")
    for part in parts:
        if part not in process.stderr.decode():
            raise Failed(f"standard error lacks {part!r}: {process.stderr!r}")


def path(program):
    from harness import path_of

    return path_of(program)


def in_use():
    server = restarted()
    refused(1, "in use")
    kill(server)


def ended(server):
    """The server ends by itself with status 1, and says which store failed."""
    want(server.process.wait(), 1, "the status")
    want(b"the store kept failed" in server.process.stderr.read(), True, "that the store is told")


def write_fails():
    """After a write that fails, no connection gets a reply, and the server ends, silent clients or not."""
    server = restarted_told()
    ann = server.author("ann")
    ann.does(do="create", pad="p")
    silent = server.author("bob")
    os.mkdir("kept/q.pad")
    ann.send('{"do":"create","pad":"q"}\n')
    want(ann.replies.readline(), b"", "the reply of a pad whose file cannot be made")
    want(silent.replies.readline(), b"", "what a silent client reads")
    ended(server)
    os.rmdir("kept/q.pad")
    server = restarted()
    server.author("ann", "p")
    kill(server)


def append_fails():
    """The same where a line cannot be appended. What was answered before is there after a restart."""
    server = restarted_told(preexec_fn=lambda: signal.signal(signal.SIGXFSZ, signal.SIG_IGN))
    ann = server.author("ann")
    ann.does(do="create", pad="p")
    ann.does(do="insert", pad="p", rev=0, at=0, text="kept")
    size = os.path.getsize("kept/p.pad")
    resource.prlimit(server.process.pid, resource.RLIMIT_FSIZE, (size + 20, size + 20))
    ann.send('{"do":"insert","pad":"p","rev":1,"at":0,"text":"lost"}\n')
    want(ann.replies.readline(), b"", "the reply of an edit that cannot be kept")
    ended(server)
    server = restarted()
    ann = server.author("ann", "p")
    want(ann.does(do="text", pad="p")["text"], "kept", "the text")
    kill(server)


def too_many():
    server = restarted()
    ann = server.author("ann")
    ann.does(do="create", pad="a")
    ann.does(do="create", pad="b")
    kill(server)
    put_files(ACCOUNTS)
    process = subprocess.run(
        [path("pad_server"), *f"{LISTEN} {STORE} --cells 1".split()], stdin=subprocess.DEVNULL, capture_output=True, timeout=15
    )
    want(process.returncode, 1, "the status")
    want(b"more pads" in process.stderr, True, "that it is said")


def write_until_killed(server, name, kept, number):
    """Inserts one letter after the other, and keeps the names of the answered ones."""
    try:
        client = server.author(name, "p")
        rev = client.does(do="revs", pad="p")["now"]
        while True:
            answer = client.does(do="insert", pad="p", rev=rev, at=0, text=chr(97 + number))
            kept.append((tuple(answer["name"]), f"{name}@1", "insert"))
            rev = answer["now"]
    except (OSError, ValueError, Failed, KeyError):
        return


def kill_under_writers(server, seconds):
    """Lets eight authors write at once for some seconds, kills the server, and says what they were answered."""
    lists = [[] for _ in range(WRITERS)]
    threads = [
        threading.Thread(target=write_until_killed, args=(server, NAMES[number], lists[number], number))
        for number in range(WRITERS)
    ]
    for thread in threads:
        thread.start()
    time.sleep(seconds)
    server.process.send_signal(signal.SIGKILL)
    for thread in threads:
        thread.join()
    kill(server)
    return [made for made_by in lists for made in made_by]


def killed_under_writers():
    server = restarted()
    ann = server.author("ann")
    ann.does(do="create", pad="p")
    for name in NAMES[1:]:
        ann.does(do="grant", pad="p", author=name, right="write")
    chance = random.Random(7)
    answered = []
    for _ in range(ROUNDS):
        answered += kill_under_writers(server, chance.uniform(0.02, 0.2))
        server = restarted()
        client = server.author("ann", "p")
        there = entries_of(client)
        want(len(set(there)), len(there), "that no name comes twice")
        missing = set(answered) - set(there)
        if missing:
            raise Failed(f"{len(missing)} answered operations are gone: {sorted(missing)[:3]}")
        want([entry[0] for entry in there], [(1, place + 1) for place in range(len(there))], "the names in order")
        want(client.does(do="revs", pad="p")["length"], len(there), "the length of the text")
    want(len(answered) > ROUNDS * WRITERS, True, "that enough was answered")
    kill(server)


TESTS = [
    Case("a store needs connections", "--stdin --store kept --replica 1", status=2, stderr="pad_server: --store <DIR> needs --listen <ADDR>\n").test(),
    Test("store: all comes back", all_comes_back),
    Test("store: visits come back", visits_come_back),
    Test("store: visits of an earlier version", visits_of_an_earlier_version),
    Test("store: private files", private_files),
    Test("store: several pads", several_pads),
    Test("store: another process", in_use),
    Test("store: a write that fails", write_fails),
    Test("store: an append that fails", append_fails),
    Test("store: more pads than cells", too_many),
    Test("store: killed twenty times under eight writers", killed_under_writers, 120),
]
