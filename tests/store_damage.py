"""A store whose files were torn, cut or changed: what a start mends by itself, and what it tells by file and line."""
import os
import random

from harness import Test, want
from sockets import ACCOUNTS, Server
from stores import STORE, kill, line_of, lines_of, refused, restarted, restarted_told


def torn_line():
    server = restarted()
    ann = server.author("ann")
    ann.does(do="create", pad="p")
    ann.does(do="insert", pad="p", rev=0, at=0, text="kept")
    kill(server)
    whole = os.path.getsize("kept/p.pad")
    with open("kept/p.pad", "ab") as file:
        file.write(b'[{"at":1,"kind":"vis')
    server = restarted()
    ann = server.author("ann", "p")
    want(ann.does(do="text", pad="p")["text"], "kept", "the text")
    kill(server)
    want(len(lines_of("p")), 4, "the lines after a visit")
    want(os.path.getsize("kept/p.pad") > whole, True, "that the file has grown")


def front_of_the_file():
    """A file that is cut at any byte behind its first two lines is a pad with the whole lines that are left."""
    server = restarted()
    ann = server.author("ann")
    ann.does(do="create", pad="p")
    for number in range(8):
        ann.does(do="insert", pad="p", rev=number, at=number, text=str(number))
    kill(server)
    with open("kept/p.pad", "rb") as file:
        content = file.read()
    ends = [place + 1 for place, byte in enumerate(content) if byte == 10]
    for cut in random.Random(5).sample(range(ends[1], len(content)), 12):
        with open("kept/p.pad", "wb") as file:
            file.write(content[:cut])
        server = restarted()
        ann = server.author("ann", "p")
        whole = sum(end <= cut for end in ends)
        want(ann.does(do="text", pad="p")["text"], "01234567"[: whole - 2], f"the text of the first {cut} bytes")
        kill(server)


def several_pieces():
    """A file that is much longer than what is read of it at once (256 KiB) comes back whole. What a crash left at its end is
    cut off, though it is longer than that too, and a changed line far from the front is told by its number."""
    server = restarted()
    ann = server.author("ann")
    ann.does(do="create", pad="p")
    typed = [chr(97 + number % 26) * (9_973 - 61 * number) for number in range(120)]
    for number, text in enumerate(typed):
        ann.does(do="insert", pad="p", rev=number, at=0, text=text)
    kill(server)
    with open("kept/p.pad", "rb") as file:
        content = file.read()
    want(len(content) > 3 * 262_144, True, "that the file has several pieces")
    for rest in (b"", content[:200_000].replace(b"\n", b" "), b"\0" * 600_000 + b"\n" + b"x" * 300_000):
        with open("kept/p.pad", "wb") as file:
            file.write(content + rest)
        server = restarted()
        ann = server.author("ann", "p")
        want(ann.does(do="text", pad="p")["text"] == "".join(reversed(typed)), True, f"the text before {len(rest)} bytes")
        kill(server)
        with open("kept/p.pad", "rb") as file:
            want(file.read(len(content)) == content, True, f"the file before {len(rest)} bytes")
    lines = content.split(b"\n")
    for number in (60, 121):
        changed = list(lines)
        changed[number - 1] = changed[number - 1].replace(b"insert", b"delete")
        with open("kept/p.pad", "wb") as file:
            file.write(b"\n".join(changed))
        refused(1, f"p.pad: line {number}:", "is damaged")


def damaged():
    server = restarted()
    ann = server.author("ann")
    ann.does(do="create", pad="p")
    for number in range(3):
        ann.does(do="insert", pad="p", rev=number, at=0, text="abc")
    kill(server)
    with open("kept/p.pad", "rb") as file:
        lines = file.read().split(b"\n")
    for number, changed in (
        (3, lines[:2] + [lines[2].replace(b"abc", b"abd")] + lines[3:]),
        (3, lines[:2] + lines[3:]),
        (4, lines[:3] + [lines[4], lines[3]] + lines[5:]),
        (1, [b"{}"] + lines[1:]),
        (2, [lines[0], b"x" * 100] + lines[2:]),
    ):
        content = b"\n".join(changed)
        with open("kept/p.pad", "wb") as file:
            file.write(content)
        refused(1, f"p.pad: line {number}:", "is damaged")
        with open("kept/p.pad", "rb") as file:
            want(file.read(), content, "the damaged file")


PEERS = (("accounts", ACCOUNTS[0][1] + "peer 2 p2 127.0.0.1:1\n"),)
PUSHED = {"author": "cyd", "kind": "insert", "name": [2, 1], "seen": [], "after": None, "first": [9, 2], "text": "x"}


def written(texts):
    """Writes the file of the pad p anew, of these texts, with the sums that they have then."""
    before, content = b"", b""
    for text in texts:
        line = line_of(before, text)
        before, content = line[-67:-3], content + line
    with open("kept/p.pad", "wb") as file:
        file.write(content)


def before_its_causes():
    """An edit that stands before one that its author had seen is told, though it is the next of its origin and fits the text."""
    server = Server(STORE, accounts=PEERS)
    ann, two = server.author("ann"), server.connect()
    ann.does(do="create", pad="p")
    two.does(do="peer", number=2, token="p2", version=2)
    two.does(do="push", pad="p", op=PUSHED)
    ann.does(do="insert", pad="p", rev=1, at=0, text="y")
    kill(server)
    texts = lines_of("p")
    places = [place for place, text in enumerate(texts) if "op" in text]
    want([texts[place]["op"]["name"] for place in places], [[2, 1], [1, 1]], "the edits, in the order in which they came")
    written(texts)
    server = restarted()
    want(server.author("ann", "p").does(do="text", pad="p")["text"], "yx", "the text of the same lines")
    kill(server)
    first, second = (texts[place] for place in places)
    first["op"], second["op"] = second["op"], first["op"]
    written(texts)
    refused(1, f"p.pad: line {places[0] + 1}: 403 PeerFault", "is damaged")


def copied():
    """The file of a pad under another pad's name is told, and nothing is changed."""
    server = restarted()
    ann = server.author("ann")
    ann.does(do="create", pad="p")
    kill(server)
    with open("kept/p.pad", "rb") as file:
        content = file.read()
    for name, copy, told in (
        ("q", content, "it is the file of another pad"),
        ("q", content[: content.index(b"\n") + 1], "it is the file of another pad"),
        ("q", b"notes of mine", "line 1: it was changed"),
    ):
        with open(f"kept/{name}.pad", "wb") as file:
            file.write(copy)
        refused(1, f"{name}.pad: {told}", "is damaged")
        with open(f"kept/{name}.pad", "rb") as file:
            want(file.read(), copy, "the copy")
    first = content[: content.index(b"\n") + 1]
    fronts = (b"", b"[{", b'[{"format":1,"pad":"q"', bytes(300), b'[{"format":1,"pad":"q"' + bytes(200) + b"\n")
    for number, front in enumerate((*fronts, line_of(b"", {"format": 1, "pad": "q", "replica": 1})), 1):
        with open("kept/q.pad", "wb") as file:
            file.write(front)
        server = restarted_told()
        server.author("ann", "p")
        kill(server)
        want(os.path.exists("kept/q.pad"), False, "that a file in which no pad was named stays")
        with open(f"kept/q.pad.unnamed-{number}", "rb") as file:
            want(file.read(), front, "what was moved aside")
        told = server.process.stderr.read()
        want(b"kept/q.pad.unnamed-%d" % number in told, True, f"that this is said: {told!r}")
    want(line_of(b"", {"format": 1, "pad": "p", "replica": 1}), first, "a line that is made here")


TESTS = [
    Test("store: a torn line", torn_line),
    Test("store: a front of the file", front_of_the_file, 60),
    Test("store: a file of several pieces", several_pieces, 60),
    Test("store: damage is told by file and line", damaged),
    Test("store: an edit before its causes", before_its_causes),
    Test("store: a file under another name", copied),
]
