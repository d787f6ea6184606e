"""pad_replay: its command line, the lines of a story, sessions side by side, and stories that are cut to small ones."""
import os
import subprocess

from harness import CLOSED, FULL, ROOT, Case, Has, Test, put_files, want
from sessions import comment, delete, edit, insert, read, refusal

ARGS = "--replica 1 --cells 2 --accounts accounts"
ACCOUNTS = (("accounts", "author ann t1\nauthor bob t2\npeer 2 p2 h:1\npeer 3 p3 h:2\npeer 300 p300 h:3\n"),)
HELLO = {
    "ann": '{"do":"hello","name":"ann","token":"t1"}',
    "bob": '{"do":"hello","name":"bob","token":"t2"}',
    "two": '{"do":"peer","number":2,"token":"p2","version":2}',
    "old": '{"do":"peer","number":3,"token":"p3"}',
    "far": '{"do":"peer","number":300,"token":"p300","version":2}',
}
NO_SESSION = refusal(200, "NoSession")
NOT_JSON = refusal(101, "NotJson")


def welcome(name, replica=1):
    peers = {"two": f'{{"ok":true,"replica":{replica},"version":2}}', "far": f'{{"ok":true,"replica":{replica},"version":2}}', "old": f'{{"ok":true,"replica":{replica}}}'}
    return peers.get(name, f'{{"author":"{name}@{replica}","ok":true}}')


def run(name, stdin, stdout="", status=0, stderr="", args=ARGS, **more):
    return Case(name, args, stdin, stdout, status, stderr, ACCOUNTS, "pad_replay", **more)


def refused(name, args, *parts, **more):
    return Case(name, args, "# x\n", "", 2, Has(*parts), ACCOUNTS, "pad_replay", **more)


def story(name, *exchanges, args=ARGS):
    """Exchanges (session, request, reply), behind a hello of each session in the order of their first use."""
    asked, told, known = "", "", []
    for session, request, reply in exchanges:
        if session in HELLO and session not in known:
            known.append(session)
            asked += f"{session}\t{HELLO[session]}\n"
            told += f"{session}\t{welcome(session)}\n"
        asked += f"{session}\t{request}\n"
        told += f"{session}\t{reply}\n"
    return run(f"story: {name}", asked, told, args=args)


CREATE, CREATED = '{"do":"create","pad":"p"}', '{"now":0,"ok":true,"visit":1}'
CLOSE, REOPEN = '{"do":"close","pad":"p"}', '{"do":"reopen","pad":"p"}'
JOIN, VECTOR, RIGHTS = '{"do":"join","pad":"p"}', '{"do":"vector","pad":"p"}', '{"do":"rights","pad":"p"}'


def grant(author, right):
    return f'{{"do":"grant","pad":"p","author":"{author}","right":"{right}"}}'


def push(op):
    return f'{{"do":"push","pad":"p","op":{op}}}'


def pull(seen, most):
    return f'{{"do":"pull","pad":"p","seen":{seen},"max":{most}}}'


def typed(origin, number, seen, first, after, text, author="cyd"):
    """An insertion as an operation."""
    stamp = f'"after":{after},"author":"{author}","first":[{first},{origin}],"kind":"insert"'
    return f'{{{stamp},"name":[{origin},{number}],"seen":{seen},"text":"{text}"}}'


def pushed(state, now, released=0, dropped=0):
    return f'{{"dropped":{dropped},"now":{now},"ok":true,"released":{released},"state":"{state}"}}'


def seen(now, vector):
    return f'{{"now":{now},"ok":true,"seen":{vector}}}'


def text(now, shown):
    return f'{{"now":{now},"ok":true,"rev":{now},"text":"{shown}"}}'


ABCD = ("ann", insert(0, 0, "abcd"), '{"name":[1,1],"now":1,"ok":true}')
BEGIN = ("ann", CREATE, CREATED)
BOBS = '{"after":[2,1],"author":"bob","first":[5,2],"kind":"insert","name":[2,1],"seen":[[1,1]],"text":"X"}'
ANNS = '{"author":"ann","kind":"delete","name":[1,2],"seen":[],"spans":[[2,1,2]]}'
DENIED, PEER_FAULT, BAD_OP, OLD_PEER = refusal(312, "Denied"), refusal(403, "PeerFault"), refusal(400, "BadOp"), refusal(405, "OldPeer")
NOT_JOINED, CLOSED = refusal(310, "NotJoined"), refusal(330, "PadClosed")
NO_REPLICA = "a replica number is 1 to 65535"
TITLE = "=== one\n"

STORIES = [
    story(
        "an operation from elsewhere and a local one",
        BEGIN,
        ABCD,
        ("ann", delete(1, 1, 2), '{"hidden":2,"name":[1,2],"now":2,"ok":true}'),
        ("two", push(BOBS), pushed("delivered", 3)),
        ("ann", read("text"), text(3, "aXd")),
        ("two", VECTOR, seen(3, "[[1,2],[2,1]]")),
        ("two", pull("[[1,1]]", 4), f'{{"now":3,"ok":true,"ops":[{ANNS},{BOBS}]}}'),
        ("two", pull("[[1,1]]", 0), refusal(322, "Empty")),
        ("two", pull("[[1,1]]", 5), refusal(323, "TooMuch")),
        ("ann", pull("[]", 4), refusal(404, "NotPeer")),
        ("two", read("text"), NO_SESSION),
    ),
    story(
        "operations that wait, in the wrong order",
        BEGIN,
        ("two", push(typed(2, 2, "[]", 2, "[1,2]", "b")), pushed("held", 0)),
        ("two", push(typed(2, 1, "[]", 1, "null", "a")), pushed("delivered", 2, 1)),
        ("two", push(typed(2, 1, "[]", 1, "null", "a")), pushed("repeat", 2)),
        ("ann", read("text"), text(2, "ab")),
    ),
    story(
        "an operation that waits for another server's",
        BEGIN,
        ("two", push(typed(3, 1, "[[2,1]]", 1, "null", "c")), pushed("held", 0)),
        ("two", push(typed(2, 1, "[]", 1, "null", "a")), pushed("delivered", 2, 1)),
    ),
    story(
        "a held operation that does not fit is dropped, and its name is free",
        BEGIN,
        ("two", push(typed(2, 2, "[]", 1, "null", "b")), pushed("held", 0)),
        ("two", push(typed(2, 1, "[]", 1, "null", "a")), pushed("delivered", 1, 0, 1)),
        ("two", VECTOR, seen(1, "[[2,1]]")),
        ("two", push(typed(2, 2, "[]", 2, "[1,2]", "b")), pushed("delivered", 2)),
        ("ann", read("text"), text(2, "ab")),
    ),
    story(
        "an operation that does not fit is refused, and its name is free",
        BEGIN,
        ABCD,
        ("two", push(typed(2, 1, "[[1,1]]", 4, "[4,1]", "x")), PEER_FAULT),
        ("two", VECTOR, seen(1, "[[1,1]]")),
        ("two", push(typed(2, 1, "[[1,1]]", 5, "[4,1]", "x")), pushed("delivered", 2)),
        ("ann", read("text"), text(2, "abcdx")),
        ("two", push(typed(1, 2, "[]", 5, "null", "x")), PEER_FAULT),
        ("two", push(typed(1, 1, "[]", 5, "null", "x")), pushed("repeat", 2)),
    ),
    story(
        "an operation that breaks a limit",
        BEGIN,
        ("two", push(typed(2, 1, "[[2,1]]", 1, "null", "x")), BAD_OP),
        ("two", push(typed(2, 1, "[]", 1, "null", "x").replace('"first":[1,2]', '"first":[1,3]')), BAD_OP),
        ("two", push(typed(2, 1, "[]", 1, "null", "")), BAD_OP),
        ("two", push(typed(2, 1, "[]", 1, "null", "x", "Cyd")), BAD_OP),
        ("two", push('{"author":"cyd","kind":"edit","name":[2,1],"parts":[],"seen":[]}'), BAD_OP),
        ("two", VECTOR, seen(0, "[]")),
    ),
    story(
        "rights, one above the other",
        BEGIN,
        ("ann", insert(0, 0, "abc"), '{"name":[1,1],"now":1,"ok":true}'),
        ("bob", JOIN, DENIED),
        ("ann", grant("bob", "read"), '{"now":1,"ok":true}'),
        ("bob", JOIN, '{"now":1,"ok":true,"visit":2}'),
        ("bob", insert(99, 0, "x"), DENIED),
        ("ann", grant("bob", "comment"), '{"now":1,"ok":true}'),
        ("bob", comment(1, 0, 1, "n"), '{"name":[1,2],"now":2,"ok":true}'),
        ("ann", grant("ann", "read"), refusal(315, "OwnerKept")),
        ("ann", RIGHTS, '{"now":2,"ok":true,"rights":[["ann","own"],["bob","comment"]]}'),
    ),
    story(
        "old peers",
        BEGIN,
        ("ann", insert(0, 0, "a"), '{"name":[1,1],"now":1,"ok":true}'),
        ("far", push(typed(300, 1, "[]", 1, "null", "b")), pushed("delivered", 2)),
        ("ann", read("text"), text(2, "ba")),
        ("far", VECTOR, seen(2, "[[1,1],[300,1]]")),
        ("old", pull("[]", 4), f'{{"now":2,"ok":true,"ops":[{typed(1, 1, "[]", 1, "null", "a", "ann")}]}}'),
        ("old", pull("[[1,1]]", 4), OLD_PEER),
        ("old", VECTOR, OLD_PEER),
    ),
    story(
        "several parts are one operation",
        BEGIN,
        ("ann", insert(0, 0, "hello"), '{"name":[1,1],"now":1,"ok":true}'),
        ("ann", edit(1, '{"at":1,"len":3}', '{"at":4,"text":"ey"}'), '{"hidden":3,"name":[1,2],"now":2,"ok":true}'),
        (
            "two",
            pull("[[1,1]]", 1),
            '{"now":2,"ok":true,"ops":[{"author":"ann","kind":"edit","name":[1,2],"parts":[{"kind":"delete","spans":[[2,1,3]]},'
            '{"after":[4,1],"first":[6,1],"kind":"insert","text":"ey"}],"seen":[]}]}',
        ),
        ("old", pull("[[1,1]]", 1), OLD_PEER),
    ),
    story("one room", BEGIN, ("ann", '{"do":"create","pad":"q"}', refusal(302, "NoSlot")), args=ARGS.replace("cells 2", "cells 1")),
    story(
        "two may be present",
        BEGIN,
        ("ann", grant("bob", "read"), '{"now":0,"ok":true}'),
        ("bob", JOIN, '{"now":0,"ok":true,"visit":2}'),
        ("s", HELLO["ann"], welcome("ann")),
        ("s", JOIN, refusal(313, "Crowded")),
        ("bob", '{"do":"leave","pad":"p"}', '{"now":0,"ok":true}'),
        ("s", JOIN, '{"now":0,"ok":true,"visit":3}'),
        ("bob", JOIN, refusal(313, "Crowded")),
        args=f"{ARGS} --present 2",
    ),
    story("one may be present", BEGIN, ("s", HELLO["ann"], welcome("ann")), ("s", JOIN, refusal(313, "Crowded")), args=f"{ARGS} --present 1"),
    story(
        "an owner closes a pad, and opens it again",
        BEGIN,
        ABCD,
        ("ann", grant("bob", "write"), '{"now":1,"ok":true}'),
        ("bob", JOIN, '{"now":1,"ok":true,"visit":2}'),
        ("bob", CLOSE, DENIED),
        ("ann", CLOSE, '{"now":1,"ok":true}'),
        ("bob", insert(1, 0, "x"), NOT_JOINED),
        ("bob", JOIN, NOT_JOINED),
        ("s", HELLO["bob"], welcome("bob")),
        ("s", JOIN, CLOSED),
        ("ann", insert(9, 0, "x"), CLOSED),
        ("ann", grant("ann", "read"), CLOSED),
        ("ann", read("text"), text(1, "abcd")),
        ("ann", RIGHTS, '{"closed":true,"now":1,"ok":true,"rights":[["ann","own"],["bob","write"]]}'),
        ("s", '{"do":"pads"}', '{"ok":true,"pads":[["p","write",1,"closed"]]}'),
        ("two", push(typed(2, 1, "[[1,1]]", 5, "[4,1]", "x")), CLOSED),
        ("two", VECTOR, seen(1, "[[1,1]]")),
        ("ann", REOPEN, '{"now":1,"ok":true}'),
        ("two", push(typed(2, 1, "[[1,1]]", 5, "[4,1]", "x")), pushed("delivered", 2)),
        ("s", JOIN, '{"now":2,"ok":true,"visit":3}'),
        ("s", read("text"), text(2, "abcdx")),
        ("bob", JOIN, NOT_JOINED),
    ),
    story("a connection begins unauthenticated", ("eve", CREATE, NO_SESSION), BEGIN),
    run(
        "a title begins with a new server and no session",
        f"=== one\na\t{HELLO['ann']}\na\t{CREATE}\n=== two replica 300\na\t{CREATE}\na\t{HELLO['ann']}\na\t{CREATE}\n=== three\na\t{HELLO['ann']}\n",
        f"=== one\na\t{welcome('ann')}\na\t{CREATED}\n=== two replica 300\na\t{NO_SESSION}\na\t{welcome('ann', 300)}\na\t{CREATED}\n=== three\na\t{welcome('ann')}\n",
    ),
    run(
        "an ended session is unauthenticated, and has left its pads",
        f"a\t{HELLO['ann']}\na\t{CREATE}\n!a\na\t{CREATE}\na\t{HELLO['ann']}\na\t{read('text')}\na\t{JOIN}\n",
        f"a\t{welcome('ann')}\na\t{CREATED}\na\t{NO_SESSION}\na\t{welcome('ann')}\na\t{refusal(310, 'NotJoined')}\na\t" + '{"now":0,"ok":true,"visit":2}\n',
    ),
]

LINES = [
    run("no story", ""),
    run("notes and empty lines are repeated", "# a\n\n=== b\n# c", "# a\n\n=== b\n# c\n"),
    run("an empty request has no reply", "a\t\n# x\n", "# x\n"),
    run("lines that end with CR LF", f"=== t\r\na\t{HELLO['ann']}\r\n", f"=== t\na\t{welcome('ann')}\n"),
    run("a request that is not UTF-8", b'a\t{"do":"create","pad":"\xff"}\n# x\n', f"a\t{NOT_JSON}\n# x\n"),
    run("a session's name that is not UTF-8", b"\xff\t" + HELLO["ann"].encode() + b"\n\xfe\t{}\n\xff\t{}\n", b"\xff\t" + welcome("ann").encode() + b"\n" + (b"\xfe\t" + refusal(102, "NotRequest").encode() + b"\n") + (b"\xff\t" + refusal(102, "NotRequest").encode() + b"\n")),
    run("a note and a title that are not UTF-8", b"# \xff\n=== \xff\n", b"# \xff\n=== \xff\n"),
    run("replica 0 in a title that is not UTF-8", b"=== \xff replica 0\n", "", 1, f"pad_replay: line 1: {NO_REPLICA}\n"),
    run("the word replica in a title", "=== replica 0\n=== a replica of b\n=== t replica\n", "=== replica 0\n=== a replica of b\n=== t replica\n"),
    run("a line without a tab", "# x\nhello\n# y\n", "# x\n", 1, "pad_replay: line 2 is none of a story\n"),
    *[
        run(f"a title with replica {number or 'of no digits'}", f"{TITLE}=== two replica {number}\n", TITLE, 1, f"pad_replay: line 2: {NO_REPLICA}\n")
        for number in ["0", "70000", "65536", "x", "-1", ""]
    ],
    *[run(f"a title with replica {number}", f"=== t replica {number}\na\t{HELLO['ann']}\n", f"=== t replica {number}\na\t{welcome('ann', number)}\n") for number in [1, 65535]],
    run("more sessions than a server has room for", "".join(f"a{number}\t{{}}\n" for number in range(1025)), "".join(f"a{number}\t{refusal(102, 'NotRequest')}\n" for number in range(1025)), status=0),
    run(
        "more sessions that ask something than a server has room for",
        "".join(f"a{number}\t{CREATE}\n" for number in range(1025)),
        "".join(f"a{number}\t{NO_SESSION}\n" for number in range(1024)),
        1,
        "pad_replay: 319 ActorsFull\n",
    ),
]

COMMAND_LINE = [
    run("help", "", Has("Usage: pad_replay", "--replica <N>", "--cells <N>", "--present <N>", "--accounts <PATH>"), args="--help"),
    refused("no words", "", "--replica"),
    refused("no accounts", "--replica 1 --cells 1", "--accounts"),
    refused("no cells", "--replica 1 --accounts accounts", "--cells"),
    refused("no replica", "--cells 1 --accounts accounts", "--replica"),
    refused("replica 0", ARGS.replace("replica 1", "replica 0"), "--replica"),
    refused("cells 131073", ARGS.replace("cells 2", "cells 131073"), "--cells"),
    *[refused(f"present {text}", f"{ARGS} --present={text}", "--present") for text in ["0", "1025", "x"]],
    refused("--present twice", f"{ARGS} --present 1 --present 2", "--present"),
    run("present 1024", "# x\n", "# x\n", args=f"{ARGS} --present 1024"),
    refused("an unknown word", ARGS + " more", "more"),
    run("an unknown word, standard error closed", "", status=2, args="--wrong", errors_to=CLOSED),
    Case("a bad line of accounts", ARGS, "# x\n", "", 2, "pad_replay: 500 BadAccounts line 2\n", (("accounts", "author ann t1\nauthor ann t1\n"),), "pad_replay"),
    Case("a bad line of accounts, standard error full", ARGS, "# x\n", "", 2, "", (("accounts", "x\n"),), "pad_replay", errors_to=FULL),
    run("no accounts file", "# x\n", "", 1, Has("pad_replay: ", "nowhere", "No such file or directory (os error 2)"), args=ARGS.replace("accounts accounts", "accounts nowhere")),
    Case(
        "an accounts file that does not fit in memory",
        ARGS,
        "# x\n",
        "",
        1,
        Has("pad_replay: ", "out of memory"),
        (("accounts", "#" * 30_000_000 + "\n"),),
        "pad_replay",
        memory=10_000_000,
    ),
    Case("version", "--version", stdout="pad_replay 0.1.0\n", program="pad_replay"),
    run("a folder as accounts file", "# x\n", "", 1, Has("pad_replay: ", "Is a directory (os error 21)"), args=ARGS.replace("accounts accounts", "accounts .")),
    run("another replica", f"a\t{HELLO['ann']}\n", f"a\t{welcome('ann', 300)}\n", args=ARGS.replace("replica 1", "replica 300")),
]



def all_examples(name):
    """A file of the worked examples."""
    with open(os.path.join(ROOT, "crates", "pad_replay", name)) as file:
        return file.read()


def plain():
    """The worked examples, with the characters of pads in the plain sequence: the replies are the same, byte for byte."""
    accounts = (("accounts", all_examples("data/accounts")),)
    return Case("the worked examples by the plain sequence", ARGS + " --plain", all_examples("stdin"), all_examples("stdout"), 0, "", accounts, "pad_replay", seconds=120)


def one_line_is_left():
    """Of sixty insertions the one is left by which a story fails, with one letter of its text."""
    inserts = "".join(f'ann\t{{"do":"insert","text":"letters of {number}","rev":{number}}}\n' for number in range(60))
    put_files([("story", "=== sixty\n" + inserts)])
    fails = ["sh", "-c", "! grep -q 'rev.: *37'"]
    done = subprocess.run([f"{ROOT}/tests/shrink", "story", *fails], capture_output=True, text=True, check=True)
    want(done.stdout, 'ann\t{"do": "insert", "text": "l", "rev": 37}\n', "what is left of the story")


TESTS = [case.test() for case in COMMAND_LINE + LINES + STORIES + [plain()]]
TESTS.append(Test("shrink: the line by which a story fails is left", one_line_is_left))
