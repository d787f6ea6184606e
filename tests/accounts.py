"""The accounts file, and who may log in."""
import calendar
import hashlib
import json
import os
import re
import socket
import subprocess
import time

from harness import CLOSED, FULL, Case, Failed, Has, Test, play, put_files, start, want

ARGS = "--stdin --replica 1 --accounts accounts"
TWO = "author ann t1\npeer 2 p2 127.0.0.1:7402\n"
HELLO = '{"do":"hello","name":"ann","token":"t1"}\n'
ANN = '{"author":"ann@1","ok":true}\n'
NO_SESSION = '{"code":200,"error":"NoSession","ok":false}\n'
BAD_TOKEN = '{"code":201,"error":"BadToken","ok":false}\n'
HAVE_SESSION = '{"code":202,"error":"HaveSession","ok":false}\n'
NOT_PEER = '{"code":404,"error":"NotPeer","ok":false}\n'
OLD_PEER = '{"code":405,"error":"OldPeer","ok":false}\n'


def hello(name, token):
    return f'{{"do":"hello","name":"{name}","token":"{token}"}}\n'


def peer(number, token, more=""):
    return f'{{"do":"peer","number":{number},"token":"{token}"{more}}}\n'


def bad(name, text, line, reason, **more):
    """The line of this number is at fault: nothing is served, and the message names the line, the file and the reason."""
    message = f"pad_server: 500 BadAccounts line {line}\npad_server: the accounts file accounts: {reason}\n"
    return Case(f"bad accounts: {name}", ARGS, HELLO, "", 2, message, (("accounts", text),), **more)


def a_warning_begins_with_the_time():
    """In UTC, wherever the server stands."""
    put_files([("accounts", "author ann t1\npeer 2 p2 127.0.0.1:http\n")])
    streams = dict(stdin=subprocess.DEVNULL, stdout=subprocess.PIPE, stderr=subprocess.PIPE)
    before = int(time.time())
    process = start("pad_server", ARGS, {"TZ": "Pacific/Auckland"}, **streams)
    said = process.communicate()[1].decode()
    after = time.time()
    form = r"(\d{4}-\d\d-\d\dT\d\d:\d\d:\d\dZ) pad_server: warning: the accounts file accounts: peer 2: .*\n"
    found = re.fullmatch(form, said)
    if found is None:
        raise Failed(f"no line of the log, but {said!r}")
    told = calendar.timegm(time.strptime(found.group(1), "%Y-%m-%dT%H:%M:%SZ"))
    want(before <= told <= after, True, f"that {found.group(1)} lies between {before} and {after}")


class Watched:
    """A server over TCP whose accounts file changes while it runs."""

    def __init__(self, text):
        put_files([("accounts", text)])
        streams = dict(stdin=subprocess.DEVNULL, stdout=subprocess.PIPE, stderr=subprocess.PIPE)
        self.process = start("pad_server", "--listen 127.0.0.1:0 --replica 1 --accounts accounts --workers 2", **streams)
        self.port = int(self.process.stdout.readline().rsplit(b":", 1)[1])

    def asks(self, line):
        """What a new connection is answered, which stays open."""
        client = socket.create_connection(("127.0.0.1", self.port), timeout=15)
        return client, self.asks_by(client, line)

    def asks_by(self, client, line):
        client.sendall(line.encode())
        return client.makefile("r").readline()

    def comes_to(self, line, answer, what):
        """The same is asked again and again, until it is answered so."""
        end = time.monotonic() + 20
        while True:
            came = self.asks(line)[1]
            if came == answer:
                return
            if time.monotonic() > end:
                raise Failed(f"{what}: after 20 s still {came!r}")
            time.sleep(0.3)

    def said(self):
        self.process.kill()
        return self.process.communicate()[1].decode()


def accounts_change_while_the_server_runs():
    """New authors log in, removed ones don't, sessions go on, and a file with a fault changes nothing."""
    server = Watched("author ann t1\nauthor bob t2\n")
    ann, told = server.asks(hello("ann", "t1"))
    want(told, ANN, "ann's log-in")
    want(server.asks_by(ann, '{"do":"create","pad":"p"}\n'), '{"now":0,"ok":true,"visit":1}\n', "a pad of hers")
    put_files([("accounts", "author cyd t3\nauthor bob t9\n")])
    server.comes_to(hello("cyd", "t3"), '{"author":"cyd@1","ok":true}\n', "a new author's log-in")
    want(server.asks(hello("ann", "t1"))[1], BAD_TOKEN, "the log-in of an author who was removed")
    want(server.asks(hello("bob", "t2"))[1], BAD_TOKEN, "a log-in with a token of before")
    want(server.asks(hello("bob", "t9"))[1], '{"author":"bob@1","ok":true}\n', "one with the new token")
    want(server.asks_by(ann, '{"do":"insert","pad":"p","rev":0,"at":0,"text":"a"}\n'), '{"name":[1,1],"now":1,"ok":true}\n', "an edit of a session that goes on")
    put_files([("accounts", "author dan t4\nauthor bob\n")])
    time.sleep(7)
    want(server.asks(hello("dan", "t4"))[1], BAD_TOKEN, "a log-in by a file with a fault")
    want(server.asks(hello("cyd", "t3"))[1], '{"author":"cyd@1","ok":true}\n', "one by the file before it")
    os.remove("accounts")
    time.sleep(6)
    want(server.asks(hello("cyd", "t3"))[1], '{"author":"cyd@1","ok":true}\n', "a log-in without a file")
    put_files([("accounts", "author dan t4\n")])
    server.comes_to(hello("dan", "t4"), '{"author":"dan@1","ok":true}\n', "a log-in after the fault was mended")
    lines = [line.split(" ", 1)[1] for line in server.said().splitlines() if "can be guessed" not in line and "a wrong token" not in line]
    want(lines, [
        "pad_server: note: the accounts file accounts has changed and was read again",
        f"pad_server: warning: the accounts file accounts has changed, and the accounts stay as they were: line 2: {NO_TOKEN}",
        "pad_server: warning: the accounts file accounts cannot be read, and the accounts stay as they are: No such file or directory (os error 2)",
        "pad_server: note: the accounts file accounts has changed and was read again",
    ], "what is logged")


# What is said of each kind of mistake.
TAB = "the line has a tab; words are separated by one space"
SPACE = "a space is at the start, at the end or after another space"
WORD = "the first word is none of author, hash, peer and person"
NO_NAME = "the name is missing: author NAME TOKEN"
NO_NUMBER = "the number is missing: peer NUMBER TOKEN HOST:PORT"
NO_TOKEN = "the token is missing"
NO_ADDRESS = "the address is missing: peer NUMBER TOKEN HOST:PORT"
EXTRA = "the line has too many words"
LONG_NAME = "the name is longer than 32 bytes"
NAME = "the name has a character other than a-z, 0-9 and -"
DIGITS = "the number has a character that is not a digit"
ZERO = "the number is 0 or begins with 0"
LARGE = "the number is above 65535"
LONG_TOKEN = "the token is longer than 64 bytes"
TOKEN = "the token has a byte other than 0x21 to 0x7E"
LONG_ADDRESS = "the address is longer than 255 bytes"
ADDRESS = "the address has a byte other than 0x21 to 0x7E"
COLON = "the address has no colon: HOST:PORT"
NAME_TWICE = "an earlier line has this author's name"
NUMBER_TWICE = "an earlier line has this peer's number"
MANY = "there are more than 1000 accounts"
NO_HASH_NAME = "the name is missing: hash NAME SHA256"
NO_HASH = "the hash is missing: hash NAME SHA256"
HASH_LENGTH = "the hash is not 64 digits long: the SHA-256 of the token in hex"
HASH_DIGIT = "the hash has a character other than 0-9 and a-f"
NO_PERSON = "the name is missing: person NAME ID DISPLAY NAME"
NO_ID = "the ID is missing: person NAME ID DISPLAY NAME, with - for no ID"
NO_DISPLAY = "the display name is missing: person NAME ID DISPLAY NAME"
LONG_ID = "the ID is longer than 255 bytes"
ID_BYTE = "the ID has a byte other than 0x21 to 0x7E"
DISPLAY_BYTES = "the display name is not UTF-8"
DISPLAY_CONTROL = "the display name has a control character"
LONG_DISPLAY = "the display name is longer than 60 characters"
PERSON_TWICE = "an earlier line has this person's name"
ID_TWICE = "an earlier line has this person's ID"
MANY_PEOPLE = "there are more than 100000 persons"


def session(name, text, asked, answered, args=ARGS):
    return Case(f"accounts: {name}", args, asked, answered, files=(("accounts", text),))


# The SHA-256 of the token t1, and that of t2.
HASH = hashlib.sha256(b"t1").hexdigest()
OTHER_HASH = hashlib.sha256(b"t2").hexdigest()
HASHED = f"hash ann {HASH}\nauthor bob t2\n"
PEOPLE = "person ann ann@example.org Ann Example\nperson bob - Bób of the Fen ✎\nperson cyd cyd C\n"


def people(*authors):
    return json.dumps({"do": "people", "authors": authors}) + "\n"


def told(*people):
    """The reply that gives these authors these display names."""
    pairs = [{"author": author, "name": name} for author, name in people]
    return json.dumps({"ok": True, "people": pairs}, ensure_ascii=False, separators=(",", ":")) + "\n"


HASHES = [
    session("the token of a hash", HASHED, hello("ann", "t1"), ANN),
    session("another token than that of a hash", HASHED, hello("ann", "t2"), BAD_TOKEN),
    session("a hash as a token", HASHED, hello("ann", HASH), BAD_TOKEN),
    session("a token beside a hash", HASHED, hello("bob", "t2"), '{"author":"bob@1","ok":true}\n'),
    session("the token of another's hash", HASHED, hello("bob", "t1"), BAD_TOKEN),
    session("two with one hash", HASHED + f"hash cyd {HASH}\n", hello("cyd", "t1"), '{"author":"cyd@1","ok":true}\n'),
    bad("no name and no hash", "hash\n", 1, NO_HASH_NAME),
    bad("no hash", "hash ann\n", 1, NO_HASH),
    bad("a token for a hash", "hash ann t1\n", 1, HASH_LENGTH),
    bad("a hash of 63 digits", f"hash ann {HASH[1:]}\n", 1, HASH_LENGTH),
    bad("a hash of 65 digits", f"hash ann {HASH}0\n", 1, HASH_LENGTH),
    bad("a hash of 128 digits", f"hash ann {HASH}{HASH}\n", 1, HASH_LENGTH),
    bad("a hash in capitals", f"hash ann {HASH.upper()}\n", 1, HASH_DIGIT),
    bad("a hash with a g", f"hash ann {HASH[:-1]}g\n", 1, HASH_DIGIT),
    bad("a hash with a colon", f"hash ann :{HASH[1:]}\n", 1, HASH_DIGIT),
    bad("a hash with signs beyond ASCII", f"hash ann {'é' * 32}\n", 1, HASH_DIGIT),
    bad("a hash and another word", f"hash ann {HASH} x\n", 1, EXTRA),
    bad("a hash with a label", f"hash ann sha256:{HASH}\n", 1, HASH_LENGTH),
    bad("a hash of a name with a capital", f"hash Ann {HASH}\n", 1, NAME),
    bad("a hash of a long name", f"hash {'a' * 33} {HASH}\n", 1, LONG_NAME),
    bad("two spaces before a hash", f"hash ann  {HASH}\n", 1, SPACE),
    bad("a tab before a hash", f"hash ann\t{HASH}\n", 1, TAB),
    bad("a hash behind a token", f"author ann t1\nhash ann {HASH}\n", 2, NAME_TWICE),
    bad("a token behind a hash", f"hash ann {HASH}\nauthor ann t1\n", 2, NAME_TWICE),
    bad("two hashes of one name", f"hash ann {HASH}\nhash ann {OTHER_HASH}\n", 2, NAME_TWICE),
    bad("a CR behind a hash", f"hash ann {HASH}\r", 1, HASH_LENGTH),
    bad("Hash with a capital", f"Hash ann {HASH}\n", 1, WORD),
]

PERSONS = [
    session("display names", TWO + PEOPLE, HELLO + people("ann", "zoe", "bob", "ann@1"), ANN + told(("ann", "Ann Example"), ("bob", "Bób of the Fen ✎"))),
    session("a person cannot log in by a name alone", TWO + PEOPLE, hello("cyd", "cyd") + people("cyd"), BAD_TOKEN + NO_SESSION),
    session("display names before a log-in", TWO + PEOPLE, people("ann"), NO_SESSION),
    session("display names for a peer", TWO + PEOPLE, peer(2, "p2") + people("ann"), '{"ok":true,"replica":1}\n' + NO_SESSION),
    session("no display names", TWO, HELLO + people("ann"), ANN + told()),
    session("a display name of 60 characters", f"author ann t1\nperson ann - {'✎' * 60}\n", HELLO + people("ann"), ANN + told(("ann", "✎" * 60))),
    session("signs that JSON escapes", 'author ann t1\nperson ann - "\\/\n', HELLO + people("ann"), ANN + told(("ann", '"\\/'))),
    session("an ID of 255 bytes", f"author ann t1\nperson ann {'~' * 255} A\n", HELLO, ANN),
    session("two persons without an ID", "author ann t1\nperson ann - A\nperson bob - A\n", HELLO, ANN),
    session("a hundred authors", "author ann t1\nperson ann - A\n", HELLO + people(*["ann"] * 100), ANN + told(*[("ann", "A")] * 100)),
    session("a hundred and one authors", "author ann t1\n", HELLO + people(*["ann"] * 101), ANN + '{"code":102,"error":"NotRequest","ok":false}\n'),
    bad("no name of a person", "person\n", 1, NO_PERSON),
    bad("no ID", "person ann\n", 1, NO_ID),
    bad("no display name", "person ann -\n", 1, NO_DISPLAY),
    bad("no ID, but a display name", "person ann Ann\n", 1, NO_DISPLAY),
    bad("a person's name with a capital", "person Ann - Ann\n", 1, NAME),
    bad("a person's name beyond ASCII", "person zoé - Zoé\n", 1, NAME),
    bad("a person's name of 33 characters", f"person {'a' * 33} - Ann\n", 1, LONG_NAME),
    bad("an ID beyond ASCII", "person ann é Ann\n", 1, ID_BYTE),
    bad("an ID with a DEL", "person ann \x7f Ann\n", 1, ID_BYTE),
    bad("an ID of 256 bytes", f"person ann {'~' * 256} Ann\n", 1, LONG_ID),
    bad("a display name of 61 characters", f"person ann - {'✎' * 61}\n", 1, LONG_DISPLAY),
    bad("a display name of 61 characters with spaces", f"person ann - {'ab ' * 20}a\n", 1, LONG_DISPLAY),
    bad("a display name that is no text", b"person ann - Ann \xff\n", 1, DISPLAY_BYTES),
    bad("a display name that ends within a character", b"person ann - Ann \xc3\n", 1, DISPLAY_BYTES),
    bad("a display name with half a pair", b"person ann - \xed\xa0\x80\n", 1, DISPLAY_BYTES),
    bad("a display name with an escape", "person ann - \x1b[31mAnn\n", 1, DISPLAY_CONTROL),
    bad("a display name with a NUL", "person ann - A\0nn\n", 1, DISPLAY_CONTROL),
    bad("a display name with a DEL", "person ann - Ann\x7f\n", 1, DISPLAY_CONTROL),
    bad("a display name with a next-line sign", "person ann - Ann\x85\n", 1, DISPLAY_CONTROL),
    bad("a display name with a CR", "person ann - Ann\rExample\n", 1, DISPLAY_CONTROL),
    bad("a display name with a tab", "person ann - Ann\tExample\n", 1, TAB),
    bad("a display name with two spaces", "person ann - Ann  Example\n", 1, SPACE),
    bad("a display name with a space at the end", "person ann - Ann \n", 1, SPACE),
    bad("a display name of one space", "person ann -  \n", 1, SPACE),
    bad("two spaces before an ID", "person ann  - Ann\n", 1, SPACE),
    bad("one person twice", PEOPLE + "person ann - Anne\n", 4, PERSON_TWICE),
    bad("one ID twice", PEOPLE + "person dan cyd Dan\n", 4, ID_TWICE),
    bad("one person twice, with an ID that another has", PEOPLE + "person ann cyd Ann\n", 4, PERSON_TWICE),
    bad("a person's bad name, ID and display name", f"person Ann é {'x' * 61}\n", 1, NAME),
    bad("a person's bad ID and display name", f"person ann é {'x' * 61}\n", 1, ID_BYTE),
    bad("a long display name with a control character", f"person ann - {'x' * 61}\x7f\n", 1, DISPLAY_CONTROL),
    bad("people for person", "people ann - Ann\n", 1, WORD),
    bad("Person with a capital", "Person ann - Ann\n", 1, WORD),
]


def a_hundred_thousand_persons():
    """They are read in seconds, found at once, and one more is a mistake."""
    text = "author ann t1\n" + "".join(f"person p{n} {n}@example.org Person {n}\n" for n in range(100_000))
    asked, answered = HELLO + people("p0", "p99999"), ANN + told(("p0", "Person 0"), ("p99999", "Person 99999"))
    play(Case("a hundred thousand persons", ARGS, asked, answered, files=(("accounts", text),)))
    message = f"pad_server: 500 BadAccounts line 100002\npad_server: the accounts file accounts: {MANY_PEOPLE}\n"
    play(Case("one more", ARGS, HELLO, "", 2, message, (("accounts", text + "person ann - Ann\n"),)))


THOUSAND = "".join(f"author a{number} t\n" for number in range(999)) + "peer 2 p h:1\n"

CASES = [
    session("an author and a peer", TWO, HELLO, ANN),
    session("a connection begins unauthenticated", TWO, '{"do":"create","pad":"p"}\n', NO_SESSION),
    session("another token", TWO, hello("ann", "t9"), BAD_TOKEN),
    session("an unknown name", TWO, hello("bob", "t1"), BAD_TOKEN),
    session("a name that nobody can have", TWO, hello("Ann", "t1"), BAD_TOKEN),
    session("hello twice", TWO, HELLO + HELLO, ANN + HAVE_SESSION),
    session("hello, then peer", TWO, HELLO + peer(2, "p2"), ANN + HAVE_SESSION),
    session("a refused hello, then a good one", TWO, hello("ann", "t9") + HELLO, BAD_TOKEN + ANN),
    session("a peer of version 1", TWO, peer(2, "p2"), '{"ok":true,"replica":1}\n'),
    session("a peer of version 2", TWO, peer(2, "p2", ',"version":2'), '{"ok":true,"replica":1,"version":2}\n'),
    session("a peer with another token", TWO, peer(2, "p1"), BAD_TOKEN),
    session("a peer that no account names", TWO, peer(3, "p2"), BAD_TOKEN),
    session("a peer's number that no replica can have", TWO, peer(65536, "p2"), BAD_TOKEN),
    session("a peer of version 1 at a server above 255", TWO, peer(2, "p2"), OLD_PEER, ARGS.replace("1", "300", 1)),
    session(
        "a peer of version 2 at a server above 255",
        TWO,
        peer(2, "p2", ',"version":2'),
        '{"ok":true,"replica":300,"version":2}\n',
        ARGS.replace("1", "300", 1),
    ),
    session("the author is shown at the server's number", TWO, HELLO, '{"author":"ann@300","ok":true}\n', ARGS.replace("1", "300", 1)),
    session("a peer's request of an author", TWO, HELLO + '{"do":"pull","pad":"p","seen":[],"max":4}\n', ANN + NOT_PEER),
    session("an author's request of a peer", TWO, peer(2, "p2") + '{"do":"text","pad":"p"}\n', '{"ok":true,"replica":1}\n' + NO_SESSION),
    session("an empty file", "", HELLO, BAD_TOKEN),
    session("lines that end with CR LF", TWO.replace("\n", "\r\n"), HELLO, ANN),
    session("a last line without LF", "author ann t1", HELLO, ANN),
    session("a comment of any bytes, and empty lines", b"# \xff\xfe\x00\n\n\r\nauthor ann t1\n", HELLO, ANN),
    session("a token of 64 bytes", f"author ann {'~' * 64}\n", hello("ann", "~" * 64), ANN),
    session("a name of 32 characters", f"author {'a' * 32} t\n", hello("a" * 32, "t"), f'{{"author":"{"a" * 32}@1","ok":true}}\n'),
    session("a host of 255 bytes", f"author ann t1\npeer 2 p2 {'h' * 253}:1\n", HELLO, ANN),
    session("a thousand accounts", THOUSAND, hello("a998", "t"), '{"author":"a998@1","ok":true}\n'),
    bad("one name twice", "author ann t1\nauthor ann t2\n", 2, NAME_TWICE),
    bad("one number twice", "peer 2 a h:1\npeer 2 b h:1\n", 2, NUMBER_TWICE),
    bad("a name with a capital", "# x\n\nauthor Ann t\n", 3, NAME),
    bad("a name beyond ASCII", "author zoé t\n", 1, NAME),
    bad("a name of 33 characters", f"author {'a' * 33} t\n", 1, LONG_NAME),
    bad("a name of 33 capitals", f"author {'A' * 33} t\n", 1, LONG_NAME),
    bad("no name", "author\n", 1, NO_NAME),
    bad("no number", "peer\n", 1, NO_NUMBER),
    bad("number 0", "peer 0 t h:1\n", 1, ZERO),
    bad("number 65536", "author ann t1\npeer 65536 t h:1\n", 2, LARGE),
    bad("a number past 64 bits", "peer 18446744073709551617 t h:1\n", 1, LARGE),
    bad("a leading zero", "peer 02 t h:1\n", 1, ZERO),
    bad("a number that is a word", "peer two t h:1\n", 1, DIGITS),
    bad("a number with a sign", "peer +2 t h:1\n", 1, DIGITS),
    bad("no host", "peer 2 t\n", 1, NO_ADDRESS),
    bad("a host without a colon", "peer 2 t h\n", 1, COLON),
    bad("a host of 256 bytes", f"peer 2 t {'h' * 254}:1\n", 1, LONG_ADDRESS),
    bad("a host beyond ASCII", "peer 2 t é:1\n", 1, ADDRESS),
    bad("no token", "author ann\n", 1, NO_TOKEN),
    bad("no token of a peer", "peer 2\n", 1, NO_TOKEN),
    bad("a token of 65 bytes", f"author ann {'~' * 65}\n", 1, LONG_TOKEN),
    bad("a peer's token of 65 bytes", f"peer 2 {'~' * 65} h:1\n", 1, LONG_TOKEN),
    bad("a token beyond ASCII", "author ann é\n", 1, TOKEN),
    bad("four words of an author", "author ann t1 h:1\n", 1, EXTRA),
    bad("five words of a peer", "peer 2 t h:1 x\n", 1, EXTRA),
    bad("two spaces", "author  ann t1\n", 1, SPACE),
    bad("a space at the end", "author ann t1 \n", 1, SPACE),
    bad("a space in front", " author ann t1\n", 1, SPACE),
    bad("a space before a comment", "author ann t1\n # x\n", 2, SPACE),
    bad("a line of one space", " \n", 1, SPACE),
    bad("a tab", "author\tann t1\n", 1, TAB),
    bad("a tab before two spaces", "author\tann  t1\n", 1, TAB),
    bad("another word", "admin ann t1\n", 1, WORD),
    bad("a capital in the first word", "Author ann t1\n", 1, WORD),
    bad("a CR at the end of a last line without LF", "author ann t1\r", 1, TOKEN),
    bad("a thousand and one", THOUSAND + "author bob t\n", 1001, MANY),
    bad("a thousand and one, the last one twice", THOUSAND + "author a1 t\n", 1001, MANY),
    bad("a number and a token", f"peer 0 {'~' * 65} h\n", 1, ZERO),
    bad("an extra word and a bad name", "author Ann t1 x\n", 1, EXTRA),
    bad("the first of two", "author ann t1\nauthor bob\nadmin\n", 2, NO_TOKEN),
    bad("standard error closed", "x\n", 1, WORD, errors_to=CLOSED),
    bad("standard error full", "x\n", 1, WORD, errors_to=FULL),
    *[
        Case(
            f"accounts: a peer whose port is {port or 'empty'}",
            ARGS,
            HELLO,
            ANN,
            0,
            Has("the accounts file accounts: peer 2: the port of ", f"127.0.0.1:{port} is not a number from 0 to 65535\n"),
            (("accounts", f"author ann t1\npeer 2 p2 127.0.0.1:{port}\n"),),
        )
        for port in ["http", "", "65536", "-1"]
    ],
    Case(
        "no accounts file", ARGS, HELLO, "", 1, Has("pad_server: ", "accounts", "No such file or directory (os error 2)")
    ),
    Case(
        "a folder as accounts file",
        "--stdin --replica 1 --accounts .",
        HELLO,
        "",
        1,
        Has("pad_server: ", "accounts", "Is a directory (os error 21)"),
    ),
    Case(
        "an accounts file that does not fit in memory",
        ARGS,
        HELLO,
        "",
        1,
        Has("pad_server: ", "accounts", "out of memory"),
        (("accounts", "#" * 30_000_000 + "\n"),),
        memory=10_000_000,
    ),
    Case("no accounts file, standard error closed", ARGS, HELLO, "", 1, errors_to=CLOSED),
]

TESTS = [
    *[case.test() for case in CASES + HASHES + PERSONS],
    Test("accounts: a hundred thousand persons", a_hundred_thousand_persons, 240),
    Test("accounts: a warning begins with the time", a_warning_begins_with_the_time),
    Test("accounts: they change while the server runs", accounts_change_while_the_server_runs, 90),
]
