"""pad_store beyond: what an older store has after the last line that a newer one has, too."""
import glob
import hashlib
import json
import os
import re
import subprocess

from harness import Case, Starts, Test, put_files, start, want
from sample_pad import AT, DAMAGED, FIRST, LINES, LOG, VALUES, WHOLE, lines_of, time_of
from stores import STORE, kill
from sockets import Server

PROMOTED = {"format": 1, "pad": "p", "replica": 2}


def file_of(values):
    return b"".join(lines_of(values)[0])


def counted(pads=1, beyond=0, missing=0, apart=0, damaged=0, lines=0):
    return f"pads={pads} beyond={beyond} missing={missing} apart={apart} damaged={damaged} lines={lines}\n"


def files(name, old, new, stdout, status=1, **more):
    """Two files of one pad."""
    more = {"files": (("old", old), ("new", new)), "program": "pad_store", **more}
    return Case(name, "beyond old new", stdout=stdout, status=status, **more)


def misused(name, args, *parts, status=2):
    more = {"files": (("p.pad", WHOLE),), "program": "pad_store", "status": status}
    return Case(name, args, stderr=Starts("pad_store: ", *parts), **more)


# What the promoted server wrote after the first two operations, and what else the lost one had written.
SHARED = VALUES[: FIRST + 2]
NEW = file_of([*SHARED, PROMOTED, {"at": AT + 9, "kind": "visited"}])
OTHERS = [
    {"at": AT + 70, "author": "cyd", "kind": "granted", "right": "read"},
    {"at": AT + 71, "kind": "visited"},
    {"at": AT + 72, "author": "bob", "kind": "granted", "right": "none"},
    {"at": AT + 73, "kind": "everyone", "right": "read"},
    {"at": AT + 74, "kind": "handed", "owner": "cyd"},
    {"at": AT + 75, "author": "bob", "kind": "marked", "ms": 7, "rev": 2, "text": 'Agreed on\n"ho"'},
    {"format": 1, "pad": "p", "replica": 7},
]
OTHER_LINES = [
    f"- {time_of(AT + 70)} - right cyd read\n",
    f"- {time_of(AT + 71)} - visit\n",
    f"- {time_of(AT + 72)} - right bob none\n",
    f"- {time_of(AT + 73)} - right * read\n",
    f"- {time_of(AT + 74)} - owner cyd\n",
    f'- {time_of(AT + 75)} bob mark 2 "Agreed on\\n\\"ho\\""\n',
    "- - - server 7\n",
]
AGAIN = [{"at": AT + 5, "kind": "named", "name": "p", "owner": "bob"}, {"at": AT + 6, "kind": "visited"}]
DAMAGE = "pad_store: {}: line 5: it was changed, or lines before it are missing\n"

CASES = [
    files("beyond: a file and its copy", WHOLE, WHOLE, counted(), status=0),
    files("beyond: the newer file goes on", b"".join(LINES[:-2]), WHOLE, counted(), status=0),
    files(
        "beyond: three operations", WHOLE, NEW, "p lines=3 torn=0\n" + "".join(LOG[2:]) + counted(beyond=1, lines=3),
    ),
    files(
        "beyond: the older file goes on", WHOLE, b"".join(LINES[:-1]),
        "p lines=1 torn=0\n" + LOG[-1] + counted(beyond=1, lines=1),
    ),
    files(
        "beyond: rights, a visit, another owner, a name of a revision and another number", file_of([*SHARED, *OTHERS]), NEW,
        "p lines=7 torn=0\n" + "".join(OTHER_LINES) + counted(beyond=1, lines=7),
    ),
    files(
        "beyond: only the first line in common", WHOLE, file_of([VALUES[0], *AGAIN]),
        f"p lines={len(LINES) - 1} torn=0\n"
        + "".join(f"- {time_of(AT)} {what}\n" for what in ("ann create", "- right bob write", "- visit"))
        + "".join(LOG) + counted(beyond=1, lines=len(LINES) - 1),
    ),
    files("beyond: nothing in common", WHOLE, file_of([PROMOTED, *VALUES[1:]]), "p apart\n" + counted(apart=1)),
    files(
        "beyond: a torn line is told", WHOLE[:-30], b"".join(LINES[:-1]),
        f"p lines=0 torn={len(LINES[-1]) - 30}\n" + counted(), status=0,
    ),
    files(
        "beyond: a line, and a torn one", WHOLE[:-30], b"".join(LINES[:-2]),
        f"p lines=1 torn={len(LINES[-1]) - 30}\n" + LOG[-2] + counted(beyond=1, lines=1),
    ),
    files("beyond: a torn line of the newer file", b"".join(LINES[:-1]), WHOLE[:-30], counted(), status=0),
    files("beyond: the older file is damaged", DAMAGED[0][1], WHOLE, counted(damaged=1), stderr=DAMAGE.format("old")),
    files("beyond: the newer file is damaged", WHOLE, DAMAGED[0][1], counted(damaged=1), stderr=DAMAGE.format("new")),
    misused("beyond: one word", "beyond p.pad", "beyond needs two stores, or two files\n"),
    misused("beyond: a file and a folder", "beyond p.pad .", "beyond needs two folders or two files\n"),
    misused("beyond: a folder and a file", "beyond . p.pad", "beyond needs two folders or two files\n"),
    misused("beyond: three words", "beyond p.pad p.pad 3", "only diff takes two more words"),
    misused("beyond: --rev", "beyond p.pad p.pad --rev 1", "--rev <N> is for show and export\n"),
    misused("beyond: no such file", "beyond q.pad p.pad", "q.pad: No such file or directory", status=1),
    misused("diff of no revision", "diff p.pad x 3", "diff needs two revisions: numbers, or moments"),
]


def told(*words):
    """The status, and what was written."""
    process = start("pad_store", ["beyond", *words], stdout=subprocess.PIPE, stderr=subprocess.PIPE)
    wrote, said = process.communicate()
    return process.returncode, wrote.decode(), said.decode()


def named(pad, values):
    return [{**value, **{key: pad for key in ("pad", "name") if isinstance(value.get(key), str)}} for value in values]


def two_folders():
    """Pads that are the same, that have more, that are missing, that are others and that are damaged."""
    for folder in ("old", "new"):
        os.mkdir(folder)
    put_files([
        ("old/a.pad", file_of(named("a", VALUES))), ("new/a.pad", file_of(named("a", VALUES))),
        ("old/b.pad", file_of(named("b", VALUES))), ("new/b.pad", file_of(named("b", SHARED))),
        ("old/c.pad", file_of(named("c", VALUES))),
        ("old/d.pad", file_of(named("d", VALUES))), ("new/d.pad", file_of(named("d", [PROMOTED, *VALUES[1:]]))),
        ("old/e.pad", DAMAGED[0][1]), ("new/e.pad", WHOLE),
        ("new/f.pad", file_of(named("f", VALUES))), ("old/rounds", b"x"),
    ])
    before = {name: open(name, "rb").read() for name in glob.glob("*/*")}
    wrote = "b lines=3 torn=0\n" + "".join(LOG[2:]) + "c missing\nd apart\n"
    wrote += counted(pads=5, beyond=1, missing=1, apart=1, damaged=1, lines=3)
    want(told("old", "new"), (1, wrote, DAMAGE.format("old/e.pad")), "what is told of two folders")
    want(told("new", "new")[:2], (0, counted(pads=5)), "what is told of a folder and itself")
    want({name: open(name, "rb").read() for name in glob.glob("*/*")}, before, "the files")


def lines_after_the_last_common_sum(old, new):
    """The values of these lines, by sums that this function computes."""
    lists = []
    for path in (old, new):
        sums, before = [], b""
        for line in open(path, "rb"):
            before = hashlib.sha256(before + line[1:-69]).hexdigest().encode()
            sums.append((before, json.loads(line)[0]))
        lists.append(sums)
    common = {total for total, _ in lists[1]}
    last = max(place for place, (total, _) in enumerate(lists[0]) if total in common)
    return [value for _, value in lists[0][last + 1 :]]


def a_copy_goes_on_as_another_server():
    """A server's store is copied; then it goes on, and so does a server of another number on the copy."""
    server = Server(STORE)
    ann = server.author("ann")
    ann.does(do="create", pad="p")
    ann.does(do="insert", pad="p", rev=0, at=0, text="kept by both\n")
    kill(server)
    subprocess.run(["cp", "-r", "kept", "lost"], check=True)
    server = Server(STORE)
    ann = server.author("ann")
    ann.join("p")
    ann.does(do="insert", pad="p", rev=1, at=0, text="only here\n")
    ann.does(do="grant", pad="p", author="bob", right="comment")
    ann.does(do="comment", pad="p", rev=2, at=0, len=4, text="why?")
    ann.does(do="delete", pad="p", rev=2, at=0, len=5)
    kill(server)
    os.rename("kept", "old")
    os.rename("lost", "kept")
    server = Server(f"{STORE} --new-replica", number=2)
    ann = server.connect()
    ann.does(do="hello", name="ann", token="tann")
    ann.join("p")
    ann.does(do="insert", pad="p", rev=1, at=0, text="elsewhere\n")
    kill(server)
    lost = lines_after_the_last_common_sum("old/p.pad", "kept/p.pad")
    status, wrote, said = told("old", "kept")
    want((status, said), (1, ""), "the status, and what is said")
    lines = wrote.splitlines()
    want(lines[0], f"p lines={len(lost)} torn=0", "the first line")
    want(lines[-1] + "\n", counted(beyond=1, lines=len(lost)), "the last line")
    others = {"visited": "visit", "granted": "right bob comment"}
    due = [others.get(value["kind"]) or value["op"]["kind"] for value in lost]
    want([re.split(' [+-]?"', line.split(" ", 3)[3])[0] for line in lines[1:-1]], due, "what was done")
    want([line.split(" ")[1] for line in lines[1:-1]], [time_of(value["at"]) for value in lost], "when")
    numbered = [line for line in lines[1:-1] if not line.startswith("-")]
    want([line.split(" ")[0] for line in numbered], ["2", "3", "4"], "the revisions")
    want(all(" ann@1 " in line for line in numbered), True, "that each is by ann@1")
    words = ('+"only here\\n"', '"why?"', '-"only "')
    want([word for word in words if word not in wrote], [], "the words that are missing")


TESTS = [case.test() for case in CASES] + [
    Test("pad_store: beyond: two folders", two_folders),
    Test("pad_store: beyond: a copy goes on as another server", a_copy_goes_on_as_another_server),
]
