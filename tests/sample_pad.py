"""The file of a pad, made by none of this repository's crates, what pad_store says of it, and the same file damaged."""
import datetime
import hashlib
import json
import subprocess

from harness import Case, Starts, start, want

AT = 1795471200


def compact(value):
    return json.dumps(value, separators=(",", ":"), sort_keys=True, ensure_ascii=False).encode()


def lines_of(values):
    """The lines of a file that says these values, and their sums."""
    before, lines, sums = b"", [], []
    for text in map(compact, values):
        before = hashlib.sha256(before + text).hexdigest().encode()
        lines.append(b"[" + text + b',"' + before + b'"]\n')
        sums.append(before.decode())
    return lines, sums


def delivered(number, at, author, **op):
    return {"at": at, "kind": "delivered", "op": {"author": author, "name": [1, number], "seen": [], **op}}


# The first edits of docs/PROTOCOL.md, with "ey" by bob, and a comment on "he" that is resolved: stamps 1 to 5 are "hello".
OPERATIONS = [
    delivered(1, AT + 1, "ann", kind="insert", after=None, first=[1, 1], text="hello"),
    delivered(2, AT + 62, "ann", kind="delete", spans=[[2, 1, 3]]),
    delivered(3, AT + 3723, "bob", kind="insert", after=[4, 1], first=[6, 1], text="ey"),
    delivered(4, AT + 86400, "ann", kind="comment", first=[1, 1], last=[6, 1], text="nice"),
    delivered(5, AT + 86401, "ann", kind="resolve", comment=[1, 4]),
]
VALUES = [
    {"format": 1, "pad": "p", "replica": 1},
    {"at": AT, "kind": "named", "name": "p", "owner": "ann"},
    {"at": AT, "author": "bob", "kind": "granted", "right": "write"},
    {"at": AT, "kind": "visited"},
    *OPERATIONS,
]
LINES, SUMS = lines_of(VALUES)
WHOLE = b"".join(LINES)
FIRST = len(VALUES) - len(OPERATIONS)  # the lines before the first operation


def time_of(at):
    return datetime.datetime.fromtimestamp(at, datetime.timezone.utc).strftime("%Y-%m-%dT%H:%M:%SZ")


def checked(pad, revision, length, last, behind=0):
    return f"{pad} operations={revision} revision={revision} length={length} sum={last} behind={behind}\n"


def changed(number, old, new):
    """The file with something else in the line of this number, from 1."""
    lines = list(LINES)
    lines[number - 1] = lines[number - 1].replace(old, new)
    return b"".join(lines)


DONE = ['insert +"hello"', 'delete -"ell"', 'insert +"ey"', 'comment "nice"', "resolve [1,4]"]
AUTHORS = ["ann", "ann", "bob", "ann", "ann"]
LOG = [
    f"{number + 1} {time_of(op['at'])} {AUTHORS[number]}@1 {DONE[number]}\n" for number, op in enumerate(OPERATIONS)
]
EXPORT = [
    compact({"at": op["at"], "op": op["op"], "rev": number + 1, "sum": SUMS[FIRST + number]}) + b"\n"
    for number, op in enumerate(OPERATIONS)
]
TEXTS = ["", "hello", "ho", "heyo", "heyo", "heyo"]

# A file as its bytes say it is damaged, and the line that is named.
DAMAGED = [
    ("a letter of an operation", changed(5, b"hello", b"hallo"), 5),
    ("a time", changed(4, b'"at":1', b'"at":2'), 4),
    ("a digit of a sum", changed(6, SUMS[5][:8].encode(), (SUMS[5][:7] + ("0" if SUMS[5][7] != "0" else "1")).encode()), 6),
    ("a line that is missing", b"".join(LINES[:6] + LINES[7:]), 7),
    ("lines in another order", b"".join(LINES[:4] + [LINES[5], LINES[4]] + LINES[6:]), 5),
    ("the first line", changed(1, b'"replica":1', b'"replica":2'), 1),
]


def program(name, args, files=(("p.pad", WHOLE),), **more):
    return Case(name, args, files=tuple(files), program="pad_store", **more)


def refused(name, args, *parts):
    return program(name, args, status=2, stderr=Starts("pad_store: ", *parts))


def ask(args):
    """What the program writes, where it ends with status 0 and nothing on standard error."""
    process = start("pad_store", args, stdout=subprocess.PIPE, stderr=subprocess.PIPE)
    wrote, told = process.communicate()
    want((process.returncode, told), (0, b""), f"the end of {args}")
    return wrote.decode()
