"""The tool for the accounts file: what it adds, removes and prints, and what it refuses. account_files.py has what it does with
files."""
import hashlib
import json
import os
import re
import socket
import subprocess
import time

from accounts import ADDRESS, COLON, DIGITS, DISPLAY_BYTES, DISPLAY_CONTROL, EXTRA, HASH, HASH_DIGIT, HASH_LENGTH, ID_BYTE, ID_TWICE, LARGE, LONG_DISPLAY, LONG_ID, LONG_NAME, LONG_TOKEN
from accounts import MANY, NAME, NAME_TWICE, NO_ADDRESS, NO_DISPLAY, NO_HASH, NO_HASH_NAME, NO_ID, NO_NAME, NO_NUMBER, NO_PERSON, NO_TOKEN, NUMBER_TWICE, PERSON_TWICE, SPACE, TAB, TOKEN, WORD, ZERO
from harness import CLOSED, FULL, Case, Failed, Has, Starts, Test, put_files, start, want

USAGE = """Usage: pad_accounts <FILE> add <NAME>.. [--hash] [--at <URL>] [--pad <PAD>]
       pad_accounts <FILE> add --from <LIST> [--hash] [--at <URL>] [--pad <PAD>]
       pad_accounts <FILE> remove <NAME>
       pad_accounts <FILE> list
       pad_accounts <FILE> link <NAME> [--at <URL>] [--pad <PAD>]
       pad_accounts <FILE> person <NAME> <ID> <DISPLAY NAME>..
"""
HERE = "http://127.0.0.1:8080"
LINK = re.compile(r"(\S+)/#in=([a-z0-9-]+)\.([0-9a-hjkmnp-tv-z]{24})(&pad=\S+)?")

# Every kind of line that may stand in an accounts file, with odd bytes in a comment.
OLD = b"# \xff\xfe a class\nauthor ann k7Qw0bT3vJx2\r\n\npeer 2 Zp4nYd81Lc6f 10.0.0.2:7878\n#author bob t\nauthor ann-b t2\nauthor bob t3\n"
NOTHING = "pad_accounts: nothing is written: "
NO_SUCH_NAME = "is not a name; a name has 1 to 32 characters of a-z, 0-9 and -\n"


def program(name, args, files=(("accounts", OLD),), **more):
    return Case(name, args, program="pad_accounts", files=tuple(files), **more)


def refused(name, args, message, files=(("accounts", OLD),), status=2, **more):
    """A run that is refused with this message, and leaves the file as it is."""
    text = message if isinstance(message, Has) else f"pad_accounts: {message}\n"
    return unchanged(program(name, args, files, status=status, stderr=text, **more))


def unchanged(case):
    """The case, and that its files and no others are there afterwards, byte for byte."""
    played = case.test()

    def run():
        played.function()
        want(sorted(os.listdir(".")), sorted(name for name, _ in case.files), "the files afterwards")
        for name, content in case.files:
            want(read(name), content.encode() if isinstance(content, str) else content, f"what {name} has afterwards")

    return Test(played.name, run, played.seconds)


def read(name):
    with open(name, "rb") as file:
        return file.read()


def run(args, given=None, **more):
    """What the program prints, its messages and its status."""
    streams = dict(stdin=subprocess.PIPE, stdout=subprocess.PIPE, stderr=subprocess.PIPE)
    process = start("pad_accounts", args, **streams, **more)
    printed, said = process.communicate(given.encode() if given is not None else b"")
    return printed.decode(), said.decode(), process.returncode


def does(args, given=None, **more):
    """What the program prints, when it has nothing to say."""
    printed, said, status = run(args, given, **more)
    want((said, status), ("", 0), f"what pad_accounts {args} says")
    return printed


def links_in(printed, at=HERE, pad=""):
    """The names and tokens of links."""
    found = []
    for line in printed.splitlines():
        match = LINK.fullmatch(line)
        if match is None or match[1] != at or (match[4] or "") != pad:
            raise Failed(f"{line!r} is no link of {at} with {pad!r}")
        found.append((match[2], match[3]))
    return found


class Served:
    """A server over TCP that reads the file `accounts`."""

    def __init__(self):
        streams = dict(stdin=subprocess.DEVNULL, stdout=subprocess.PIPE, stderr=subprocess.DEVNULL)
        args = "--listen 127.0.0.1:0 --replica 1 --accounts accounts --workers 1"
        self.process = start("pad_server", args, **streams)
        self.port = int(self.process.stdout.readline().rsplit(b":", 1)[1])

    def answers(self, name, token):
        with socket.create_connection(("127.0.0.1", self.port), timeout=15) as client:
            client.sendall(json.dumps({"do": "hello", "name": name, "token": token}).encode() + b"\n")
            return json.loads(client.makefile("r").readline())

    def comes_to(self, name, token, key, value):
        end = time.monotonic() + 20
        while self.answers(name, token).get(key) != value:
            if time.monotonic() > end:
                raise Failed(f"{name}'s log-in does not come to {key} {value}")
            time.sleep(0.5)


def a_class_logs_in():
    """Thirty names from a list in one call; each link logs in at a server, also at one that runs already."""
    names = [f"pupil-{number}" for number in range(1, 31)]
    put_files([("class.txt", "# 7b\r\n" + "\r\n".join(names) + "\n\n")])
    made = links_in(does("accounts add --from class.txt"))
    want([name for name, _ in made], names, "the names of the links")
    want(len({token for _, token in made}), 30, "how many tokens there are")
    want(read("accounts").decode(), "".join(f"author {name} {token}\n" for name, token in made), "the file")
    server = Served()
    for name, token in made:
        want(server.answers(name, token), {"author": f"{name}@1", "ok": True}, f"{name}'s log-in")
    [(_, token)] = links_in(does("accounts add teacher"))
    server.comes_to("teacher", token, "author", "teacher@1")
    want(does("accounts remove pupil-1"), "", "what a removal prints")
    server.comes_to(*made[0], "error", "BadToken")
    want(server.answers(*made[1])["ok"], True, "whether pupil-2 still logs in")


def other_lines_stay():
    """Added authors stand behind the old bytes; a removed one's line goes, and nothing else."""
    put_files([("accounts", OLD)])
    made = links_in(does("accounts add cyd dan --at https://pads.example:8443 --pad notes"), "https://pads.example:8443", "&pad=notes")
    more = "".join(f"author {name} {token}\n" for name, token in made).encode()
    want([name for name, _ in made], ["cyd", "dan"], "who is added")
    want(read("accounts"), OLD + more, "the file with two authors more")
    does("accounts remove ann")
    want(read("accounts"), OLD.replace(b"author ann k7Qw0bT3vJx2\r\n", b"") + more, "the file without ann")
    does("accounts remove bob")
    does("accounts remove cyd")
    does("accounts remove dan")
    want(read("accounts"), b"# \xff\xfe a class\n\npeer 2 Zp4nYd81Lc6f 10.0.0.2:7878\n#author bob t\nauthor ann-b t2\n", "the file without four")
    put_files([("accounts", "author ann t1")])
    [(_, token)] = links_in(does("accounts add bob"))
    want(read("accounts").decode(), f"author ann t1\nauthor bob {token}\n", "a file whose last line had no line feed")
    does("accounts remove ann")
    does("accounts remove bob")
    want(read("accounts"), b"", "a file without authors")
    want(does("accounts list"), "", "what it lists")


def list_and_links():
    put_files([("accounts", OLD)])
    want(does("accounts list"), "author ann\npeer 2\nauthor ann-b\nauthor bob\n", "the list")
    want(does("accounts link ann"), f"{HERE}/#in=ann.k7Qw0bT3vJx2\n", "ann's link")
    want(does("accounts link ann-b --pad p-1"), f"{HERE}/#in=ann-b.t2&pad=p-1\n", "a link with a pad")
    want(does("accounts link bob --at http://[::1]:80"), "http://[::1]:80/#in=bob.t3\n", "a link of another origin")
    put_files([("odd", "author ann ~!&%#.z-_A9/\n")])
    want(does("odd link ann --pad p"), f"{HERE}/#in=ann.~%21%26%25%23.z-_A9%2F&pad=p\n", "the link of a token with marks")
    [made] = links_in(does("accounts add cyd"))
    want(links_in(does("accounts link cyd")), [made], "the link of an author who was added")
    want(read("accounts").startswith(OLD), True, "that the file begins as before")


def hashes():
    """With --hash the file has the hash of the token that is printed once, which logs in, and nothing in the file does."""
    put_files([("accounts", OLD)])
    made = links_in(does("accounts add --hash cyd dan --at https://pads.example --pad p"), "https://pads.example", "&pad=p")
    lines = [f"hash {name} {hashlib.sha256(token.encode()).hexdigest()}\n" for name, token in made]
    want(read("accounts"), OLD + "".join(lines).encode(), "the file with two hashes")
    want(does("accounts list"), "author ann\npeer 2\nauthor ann-b\nauthor bob\nhash cyd\nhash dan\n", "the list")
    server = Served()
    want(server.answers(*made[0])["ok"], True, "whether cyd's token logs in")
    want(server.answers("cyd", lines[0].split()[2]).get("error"), "BadToken", "whether cyd's hash logs in")
    want(server.answers(made[1][0], made[0][1]).get("error"), "BadToken", "whether cyd's token logs dan in")
    does("accounts remove cyd")
    want(read("accounts"), OLD + lines[1].encode(), "the file without cyd")
    server.comes_to(*made[0], "error", "BadToken")
    [(_, token)] = links_in(does("accounts add --from - --hash", "eve\n"))
    server.comes_to("eve", token, "author", "eve@1")


def persons():
    """A person's line comes, and in place of an earlier one; remove takes it with the others of the name."""
    put_files([("accounts", OLD)])
    does(["accounts", "person", "ann", "ann@example.org", "Ann Example"])
    does(["accounts", "person", "zoe", "-", "Zoë", "of the", "Fen ✎"])
    ann, zoe = "person ann ann@example.org Ann Example\n".encode(), "person zoe - Zoë of the Fen ✎\n".encode()
    want(read("accounts"), OLD + ann + zoe, "the file with two persons")
    want(does("accounts list"), "author ann\npeer 2\nauthor ann-b\nauthor bob\n" + (ann + zoe).decode(), "the list")
    does(["accounts", "person", "ann", "-", "Anne"])
    want(read("accounts"), OLD + zoe + b"person ann - Anne\n", "the file with another line for ann")
    server = Served()
    with socket.create_connection(("127.0.0.1", server.port), timeout=15) as client:
        client.sendall(b'{"do":"hello","name":"ann","token":"k7Qw0bT3vJx2"}\n{"do":"people","authors":["zoe","ann","bob"]}\n')
        replies = client.makefile("r")
        replies.readline()
        people = json.loads(replies.readline())["people"]
    want(people, [{"author": "zoe", "name": "Zoë of the Fen ✎"}, {"author": "ann", "name": "Anne"}], "the display names")
    does("accounts remove ann")
    does("accounts remove zoe")
    want(read("accounts"), OLD.replace(b"author ann k7Qw0bT3vJx2\r\n", b""), "the file without ann and zoe")
    put_files([("accounts", "author ann t1")])
    does("accounts person ann - Ann")
    want(read("accounts").decode(), "author ann t1\nperson ann - Ann\n", "a file whose last line had no line feed")
    does("new person ann - Ann")
    want(read("new").decode(), "person ann - Ann\n", "a file that was not there")


def tokens_differ():
    """Each of 950 tokens is another, and the characters are spread over all places."""
    tokens = []
    for part in range(19):
        names = "".join(f"a{number}\n" for number in range(50 * part, 50 * part + 50))
        tokens += [token for _, token in links_in(does("accounts add --from -", names))]
    want(len(set(tokens)), 950, "how many tokens there are")
    for place in range(24):
        want(len({token[place] for token in tokens}), 32, f"the characters at place {place}")


def from_standard_input():
    [(name, _)] = links_in(does("accounts add --from -", "\n# nobody\nann\r\n"))
    want(name, "ann", "who is added")


def wrong_list(name, content, message, **more):
    return refused(f"a list: {name}", "accounts add --from list", message, (("accounts", OLD), ("list", content)), **more)


def bad_file(args, text, line, reason):
    """A file that was wrong before: the message of the server."""
    message = f"500 BadAccounts line {line}\npad_accounts: the accounts file accounts: {reason}"
    return refused(f"{args.split()[1]}, line {line}: {reason}", args, message, (("accounts", text),))


ORIGIN = "is not an origin; write http:// or https:// with a host, and a port if the address has one, as https://pads.example"
PAD = "is not a pad's name; a name has 1 to 32 characters of a-z, 0-9 and -"
NOT_A_NAME = NO_SUCH_NAME.rstrip("\n")
FULL_FILE = "".join(f"author a{number} t\n" for number in range(999))
MISSING = "the accounts file accounts cannot be read: No such file or directory (os error 2)"

TESTS = [
    program("help", "--help", stdout=Has(USAGE, "--from <LIST>", "--at <URL>", "--pad <PAD>"), files=()).test(),
    program("version", "--version", stdout="pad_accounts 0.1.0\n", files=()).test(),
    refused("no words", "", Starts("pad_accounts: ", "required", "<FILE>", "<COMMAND>", USAGE)),
    refused("no command", "accounts", Starts("pad_accounts: ", "required", "<COMMAND>")),
    refused("an unknown command", "accounts make", "the command is add, remove, list, link or person"),
    refused("a command in capitals", "accounts Add ann", "the command is add, remove, list, link or person"),
    refused("an unknown option", "accounts list --tokens", Starts("pad_accounts: ", "--tokens")),
    refused("--from twice", "accounts add --from a --from b", Starts("pad_accounts: ", "--from")),
    refused("--from without a path", "accounts add --from", Starts("pad_accounts: ", "--from")),
    refused("--at without a URL", "accounts link ann --at", Starts("pad_accounts: ", "--at")),
    refused("add without a name", "accounts add", "add needs a name, or --from <LIST>"),
    refused("add with both", "accounts add cyd --from list", "add takes names or --from <LIST>, and not both"),
    refused("remove without a name", "accounts remove", "remove takes one name"),
    refused("remove with two", "accounts remove ann bob", "remove takes one name"),
    refused("list with a name", "accounts list ann", "list takes no name"),
    refused("link without a name", "accounts link", "link takes one name"),
    refused("link with two", "accounts link ann bob", "link takes one name"),
    *[refused(f"{command} --from", f"accounts {command} --from list", "--from <LIST> is for add") for command in ["remove ann", "list", "link ann"]],
    *[refused(f"{command} --at", f"accounts {command} --at https://p", "--at <URL> is for add and link") for command in ["remove ann", "list"]],
    *[refused(f"{command} --pad", f"accounts {command} --pad p", "--pad <PAD> is for add and link") for command in ["remove ann", "list"]],
    *[
        refused(f"{command} --at {url!r}", ["accounts", *command.split(), "--at", url], f'--at: "{url}" {ORIGIN}')
        for command in ["add cyd", "link ann"]
        for url in ["pads.example", "https://pads.example/", "https://pads.example/x", "ftp://pads.example", "http://", "https://a b", "HTTPS://x", ""]
    ],
    *[
        refused(f"{command} --pad {pad!r}", ["accounts", *command.split(), "--pad", pad], f'--pad: "{pad}" {PAD}')
        for command in ["add cyd", "link ann"]
        for pad in ["Notes", "a b", "", "x" * 33, "p&in=1"]
    ],
    *[
        refused(f"the name {name!r}", ["accounts", "add", "cyd", name], f'nothing is written: "{name}" {NOT_A_NAME}')
        for name in ["Ann", "zoé", "a b", "", "a.b", "x" * 33, "a_"]
    ],
    refused("a name twice", "accounts add cyd dan cyd", 'nothing is written: "cyd" is named twice'),
    refused("a name that is there", "accounts add cyd ann-b", 'nothing is written: "ann-b" is in the accounts file already'),
    refused("a name that is there, and a wrong one behind it", "accounts add bob Cyd", 'nothing is written: "bob" is in the accounts file already'),
    *[refused(f"person with {words}", ["accounts", "person", *words], "person takes a name, an ID, or - for none, and a display name") for words in [[], ["ann"], ["ann", "-"], ["ann", "Ann Example"]]],
    *[refused(f"{command} --hash", f"accounts {command} --hash", "--hash is for add") for command in ["remove ann", "list", "link ann", "person ann - Ann"]],
    refused("person --from", "accounts person ann - Ann --from list", "--from <LIST> is for add"),
    refused("person --at", "accounts person ann - Ann --at https://p", "--at <URL> is for add and link"),
    refused("person --pad", "accounts person ann - Ann --pad p", "--pad <PAD> is for add and link"),
    refused("--hash twice", "accounts add cyd --hash --hash", Starts("pad_accounts: ", "--hash")),
    refused("--hash with a value", "accounts add cyd --hash=yes", Starts("pad_accounts: ", "--hash")),
    *[
        refused(f"a person {words}", ["accounts", "person", *words], "nothing is written: " + reason, (("accounts", OLD + b"person bob b Bob\n"),))
        for words, reason in [
            (["Ann", "-", "Ann"], NAME),
            (["", "-", "Ann"], SPACE),
            (["x" * 33, "-", "Ann"], LONG_NAME),
            (["ann", "é", "Ann"], ID_BYTE),
            (["ann", "", "Ann"], SPACE),
            (["ann", "~" * 256, "Ann"], LONG_ID),
            (["ann", "b", "Ann"], ID_TWICE),
            (["ann", "-", ""], SPACE),
            (["ann", "-", "Ann "], SPACE),
            (["ann", "-", "Ann  Example"], SPACE),
            (["ann", "-", "Ann", "", "Example"], SPACE),
            (["ann", "-", "x" * 61], LONG_DISPLAY),
            (["ann", "-", "Ann\tExample"], TAB),
            (["ann", "-", "Ann\x7f"], DISPLAY_CONTROL),
            (["ann", "-", "Ann\nx"], WORD),
            (["ann", "-", "Ann\r"], "a display name is one line of text"),
            (["ann", "-", "Ann\nauthor eve t"], "a display name is one line of text"),
        ]
    ],
    refused("the link of a hash", "accounts link ann", f"the token of ann is not known: accounts has only its hash; remove and add the author for a new link", (("accounts", f"hash ann {HASH}\n"),)),
    refused("the link of a person", "accounts link ann", 'the accounts file accounts has no author "ann"', (("accounts", "person ann - Ann\n"),)),
    refused("a name that has a hash", "accounts add ann", 'nothing is written: "ann" is in the accounts file already', (("accounts", f"hash ann {HASH}\n"),)),
    refused("a name that has a hash, with --hash", "accounts add --hash ann", 'nothing is written: "ann" is in the accounts file already', (("accounts", "author ann t\n"),)),
    wrong_list("a wrong name", "cyd\n\n# x\nZoe\ndan\n", f'nothing is written: line 4 of the list: "Zoe" {NOT_A_NAME}'),
    wrong_list("a space behind a name", "cyd \n", f'nothing is written: line 1 of the list: "cyd " {NOT_A_NAME}'),
    wrong_list("no text", b"cyd\n\xff\n", f"nothing is written: line 2 of the list: what is no text {NOT_A_NAME}"),
    wrong_list("a name twice", "cyd\r\ndan\r\ncyd", 'nothing is written: line 3 of the list: "cyd" is named twice'),
    wrong_list("a name that is there", "cyd\nbob", 'nothing is written: line 2 of the list: "bob" is in the accounts file already'),
    wrong_list("empty", "", "the list list has no name"),
    wrong_list("no name", "# nobody\n\n", "the list list has no name"),
    refused("no list", "accounts add --from none", "the list none cannot be read: No such file or directory (os error 2)", status=1),
    refused("a folder as list", "accounts add --from .", "the list . cannot be read: Is a directory (os error 21)", status=1),
    refused("no such author", "accounts remove cyd", 'the accounts file accounts has no author "cyd"'),
    refused("the number of a peer", "accounts remove 2", 'the accounts file accounts has no author "2"'),
    refused("a part of a name", "accounts link an", 'the accounts file accounts has no author "an"'),
    refused("a name and the beginning of its token", ["accounts", "link", "ann k7Qw0bT3vJx2"], 'the accounts file accounts has no author "ann k7Qw0bT3vJx2"'),
    *[refused(f"{command}, no file", f"accounts {command}", MISSING, files=(), status=1) for command in ["remove ann", "list", "link ann"]],
    refused("add, no folder", "none/accounts add ann", "the accounts file none/accounts cannot be read: No such file or directory (os error 2)", status=1),
    *[refused(f"{command}, a folder", f". {command}", "the accounts file . cannot be read: Is a directory (os error 21)", status=1) for command in ["remove ann", "list", "link ann", "add cyd"]],
    *[bad_file(f"accounts {command}", "# x\nauthor ann\n", 2, NO_TOKEN) for command in ["add cyd", "remove ann", "list", "link ann"]],
    *[
        bad_file("accounts add cyd", text, line, reason)
        for text, line, reason in [
            ("author\n", 1, NO_NAME),
            ("peer\n", 1, NO_NUMBER),
            ("peer 2 t\n", 1, NO_ADDRESS),
            ("author ann t x\n", 1, EXTRA),
            (f"author {'a' * 33} t\n", 1, LONG_NAME),
            ("author Ann t\n", 1, NAME),
            ("peer x t h:1\n", 1, DIGITS),
            ("peer 02 t h:1\n", 1, ZERO),
            ("peer 65536 t h:1\n", 1, LARGE),
            (f"author ann {'~' * 65}\n", 1, LONG_TOKEN),
            ("author ann é\n", 1, TOKEN),
            ("peer 2 t é:1\n", 1, ADDRESS),
            ("peer 2 t h\n", 1, COLON),
            ("author ann t\tx\n", 1, TAB),
            ("author  ann t\n", 1, SPACE),
            ("admin ann t\n", 1, WORD),
            ("hash\n", 1, NO_HASH_NAME),
            ("hash ann\n", 1, NO_HASH),
            ("hash ann t\n", 1, HASH_LENGTH),
            (f"hash ann {'G' * 64}\n", 1, HASH_DIGIT),
            ("person\n", 1, NO_PERSON),
            ("person ann\n", 1, NO_ID),
            ("person ann -\n", 1, NO_DISPLAY),
            ("person ann é A\n", 1, ID_BYTE),
            (f"person ann {'~' * 256} A\n", 1, LONG_ID),
            (b"person ann - \xff\n", 1, DISPLAY_BYTES),
            ("person ann - \x7f\n", 1, DISPLAY_CONTROL),
            (f"person ann - {'x' * 61}\n", 1, LONG_DISPLAY),
            ("person ann - A\nperson ann - B\n", 2, PERSON_TWICE),
            ("person ann a A\nperson bob a B\n", 2, ID_TWICE),
            ("author ann t\nauthor ann u\n", 2, NAME_TWICE),
            ("peer 2 t h:1\n\npeer 2 u h:1\n", 3, NUMBER_TWICE),
            (FULL_FILE + "peer 2 p h:1\nauthor x t\n", 1001, MANY),
        ]
    ],
    refused("more accounts than a file may have", "accounts add cyd dan", f"nothing is written: with these names, {MANY}", (("accounts", FULL_FILE),)),
    refused("the wrong file comes before a wrong name", "accounts add Cyd", Starts("pad_accounts: 500 BadAccounts line 1\n", NO_TOKEN), (("accounts", "author ann\n"),)),
    refused("a wrong name, standard error closed", "accounts add Cyd", Has(), errors_to=CLOSED),
    refused("a wrong name, standard error full", "accounts add Cyd", Has(), errors_to=FULL),
    Test("pad_accounts: a class of 30 logs in", a_class_logs_in, 90),
    Test("pad_accounts: other lines stay byte for byte", other_lines_stay),
    Test("pad_accounts: the list, and links", list_and_links),
    Test("pad_accounts: hashes in place of tokens", hashes, 60),
    Test("pad_accounts: persons", persons, 60),
    Test("pad_accounts: tokens differ", tokens_differ, 60),
    Test("pad_accounts: a list on standard input", from_standard_input),
]
