"""Memory that is refused to the server: the allocations of each request, one at a time, and what was answered stays.

The first allocation of a request is refused, and it is asked again with the second one refused, and so on, until it meets
none. An edit that is done without one is made again from the next one on; a push is not, and edit_memory.py has those. Each time
the answer is 900 and the pads read as before, or as after the request where only the reply found no memory.
"""
import itertools
import subprocess

from faults import Faults
from harness import Failed, Test, put_files, start, want
from sockets import Client

NO_MEMORY = {"code": 900, "error": "Memory", "ok": False}
LINE = '{"code":900,"error":"Memory","ok":false}\n'
ACCOUNTS = (("accounts", "author ann tann\nauthor bob tbob\nauthor eve teve\npeer 2 secret 127.0.0.1:1\npeer 3 secret 127.0.0.1:1\n"),)
LISTEN = "--listen 127.0.0.1:0 --replica 1 --accounts accounts"
OPERATION = {"author": "cyd", "seen": []}

# The secret of a link, which its guest ben has as his own too, and his name.
LINK, BEN = "k3Zt0Qm8vJx2bN5wYcR7Ag", "guest-duu243qz3z64xxgszig5ffn35m"

# What a request is answered that was done, where the reply of the first time found no memory.
DONE = {"hello": 202, "guest": 202, "peer": 202, "create": 301, "join": 311, "leave": 310}

# What wakes the relay behind its reply. The wake-up may find no memory: then the next round comes when it is due.
WAKES = {"insert", "delete", "edit", "comment", "resolve", "push"}

# What is done before the name of the pad is learned for the next look-up, which can do without.
LEARNS = {"create"}

# Who a log-in is for is read beforehand, to be noted if its token is wrong. That can do without memory too.
NOTED = {"hello", "guest", "peer"}

# What has a text. Where the room that is made for all of it is refused, it grows as it is read.
TEXTS = {"mark", "introduce"}

# What may have a long reply, whose room is given back once it is written. It may also stay: nobody is told of that.
LONG_REPLIES = {"text", "runs", "comments", "entries", "pull"}


class Server:
    """A server whose calls fail as `faults` says. The peers of its accounts cannot be reached."""

    def __init__(self, more=""):
        put_files(ACCOUNTS)
        self.faults = Faults()
        self.process = start(
            "pad_server",
            f"{LISTEN} {more}",
            self.faults.variables,
            stdin=subprocess.DEVNULL,
            stdout=subprocess.PIPE,
            stderr=subprocess.DEVNULL,
        )
        self.port = int(self.process.stdout.readline().decode().rsplit(":", 1)[1])
        self.refused = 0

    def connect(self):
        return Client(self.port)

    def served(self):
        """A connection that a worker has taken: what is refused from now on is refused to requests alone."""
        client = self.connect()
        client.wants({"do": "text", "pad": "p"}, {"code": 200, "error": "NoSession", "ok": False})
        return client

    def author(self, name):
        client = self.connect()
        client.wants({"do": "hello", "name": name, "token": f"t{name}"}, {"author": f"{name}@1", "ok": True})
        return client

    def peer(self, number):
        client = self.connect()
        client.wants({"do": "peer", "number": number, "token": "secret", "version": 2}, {"ok": True, "replica": 1, "version": 2})
        return client

    def refuses_one(self, allocation, act):
        """Does something while one allocation is refused, and says what it answers, and whether one was refused."""
        before = self.faults.failed()
        self.faults.set("allocations", allocation)
        answer = act()
        self.faults.set("allocations", 0)
        failed = self.faults.failed() - before
        self.refused += failed
        return answer, failed > 0

    def exhausts(self, client, request, read, first=1):
        """Asks a request with each of its allocations from `first` on refused once, until it is done.

        Answers what it is answered, None where no memory was found for its reply; and the allocation that was refused while it was
        done all the same, 0 where none was."""
        before = read()
        for allocation in itertools.count(first):
            answer, refused = self.refuses_one(allocation, lambda: client.ask(**request))
            if allocation > 1 and answer.get("code") == DONE.get(request["do"], 0):
                return None, 0
            if not refused or (answer["ok"] and request["do"] in WAKES | LEARNS | NOTED | TEXTS | LONG_REPLIES):
                return answer, allocation if refused else 0
            want(answer, NO_MEMORY, f"the answer to {request} with its allocation {allocation} refused")
            after = read()
            if after != before:
                return None, 0


class Reader:
    """An author and a peer who see what a pad shows."""

    def __init__(self, server):
        self.author, self.peer = server.author("eve"), server.peer(3)
        self.author.join("p")

    def __call__(self):
        shown = [self.author.does(do=act, pad="p") for act in ("text", "runs", "comments", "revs", "rights", "marks", "guests", "who")]
        made = self.author.does(do="entries", pad="p", count=100, **{"from": max(1, shown[0]["now"] - 50)})
        return shown, made, self.peer.does(do="vector", pad="p")


class Story:
    """Requests of two authors and a peer, one after the other, and the text that they lead to."""

    def __init__(self, server):
        self.server = server
        self.clients = {name: server.served() for name in ("ann", "bob", "two", "ben")}
        self.read = lambda: None
        self.text = ""
        self.now = 0

    def does(self, who, **request):
        """A request that is not refused."""
        answer, _ = self.server.exhausts(self.clients[who], request, self.read)
        if answer is not None and not answer["ok"]:
            raise Failed(f"{request} of {who} is answered {answer}")
        return answer

    def on_pad(self, who, do, **fields):
        return self.does(who, do=do, pad="p", **fields)

    def names(self, who, **fields):
        """A name of a revision, each of whose allocations is refused once. Returns how often the name was given."""
        first = 1
        for given in range(1, 9):
            _, refused = self.server.exhausts(self.clients[who], {"do": "mark", "pad": "p", **fields}, self.read, first)
            if not refused:
                return given
            first = refused + 1
        raise Failed("a revision can be named without eight allocations")

    def edits(self, who, do, changed, again=None, **fields):
        """An edit, each of whose allocations is refused once: where it is done without one, it is made again from the next one on.

        `changed` is the text after it. `again` takes it back in between. It is made eight times at most: an edit of several
        insertions takes more memory each time, and it can do without the last allocation, which wakes the relay."""
        first = 1
        for _ in range(8):
            request = {"do": do, "pad": "p", "rev": self.now, **fields}
            answer, last = self.server.exhausts(self.clients[who], request, self.read, first)
            if answer is not None and not answer["ok"]:
                raise Failed(f"{request} of {who} is answered {answer}")
            self.text = changed(self.text)
            self.now += 1
            if last == 0:
                return
            first = last + 1
            if again is not None:
                again()

    def inserts(self, who, at, text):
        self.edits(who, "insert", lambda before: before[:at] + text + before[at:], at=at, text=text)

    def deletes(self, who, at, count):
        gone = self.text[at : at + count]
        self.edits(who, "delete", lambda before: before[:at] + before[at + count :], lambda: self.puts(who, at, gone), at=at, len=count)

    def puts(self, who, at, text):
        """Inserts with all the memory that it takes."""
        self.clients[who].does(do="insert", pad="p", rev=self.now, at=at, text=text)
        self.text = self.text[:at] + text + self.text[at:]
        self.now += 1

    def pushes(self, operation, more):
        """Pushes an operation that makes so many revisions, and then one that is known: it releases what memory held up."""
        known = {"kind": "insert", "name": [2, 1], "after": None, "first": [1, 2], "text": "?"}
        for pushed in (operation, known):
            self.on_pad("two", "push", op={**OPERATION, **pushed})
        self.now += more


def begin(story):
    """All enter, and a reader of its own with them."""
    story.does("ann", do="hello", name="ann", token="tann")
    story.does("bob", do="hello", name="bob", token="tbob")
    story.does("two", do="peer", number=2, token="secret", version=2)
    story.on_pad("ann", "create")
    for name in ("bob", "eve"):
        story.on_pad("ann", "grant", author=name, right="write")
    story.read = Reader(story.server)
    story.on_pad("bob", "join")


def write(story):
    """Insertions and deletions that cut blocks, that find no label free, and several at once."""
    story.puts("ann", 0, "hello world")
    story.inserts("bob", 5, ",")
    story.deletes("ann", 2, 5)
    for letter in "abcdefghijklmnopqrstuvwxyz":
        story.inserts("bob", 2, letter)
    parts = [{"at": 1, "len": 3}, {"at": 0, "text": "<"}, {"at": 6, "text": "|"}]
    story.edits("ann", "edit", lambda text: "<" + text[0] + text[4:6] + "|" + text[6:], parts=parts)


def receive(story):
    """Operations of a peer: one that fits, one that waits, and one that releases it."""
    story.pushes({"kind": "insert", "name": [2, 1], "after": None, "first": [1, 2], "text": "?"}, 1)
    story.pushes({"kind": "insert", "name": [2, 3], "after": [1, 2], "first": [200, 2], "text": "!"}, 0)
    story.pushes({"kind": "insert", "name": [2, 2], "after": [1, 2], "first": [100, 2], "text": "#"}, 2)
    # They stand at the start of the pad, behind what was inserted there with a greater counter; the newest comes first.
    start = story.text.count("<")
    story.text = story.text[:start] + "?!#" + story.text[start:]
    want(story.on_pad("bob", "text")["text"], story.text, "the text with the peer's letters")


def welcome(story):
    """A guest comes by a link and says its name."""
    story.on_pad("ann", "invite", secret=LINK, right="read")
    story.does("ben", do="guest", token=f"{LINK}.{LINK}")
    story.on_pad("ben", "join")
    story.on_pad("ben", "introduce", **{"as": "Ben Müller"})
    want(story.on_pad("ann", "guests")["guests"], [{"author": BEN, "name": "Ben Müller"}], "the guests")


def read_all(story):
    for act in ("text", "runs", "comments", "revs", "rights", "marks", "guests", "who"):
        story.on_pad("ann", act)
    for act in ("text", "runs", "comments"):
        story.on_pad("ann", act, rev=3)
    story.on_pad("ann", "entries", count=10, **{"from": 1})
    story.on_pad("ann", "entries", count=10, times=True, **{"from": 1})
    story.on_pad("ann", "times", step=1, count=10, **{"from": 1})
    story.on_pad("ann", "birth", rev=3, at=0)
    story.on_pad("two", "vector")
    story.on_pad("two", "pull", seen=[], max=4)


def allocations_of_each_request_are_refused():
    server = Server("--workers 6 --guests")
    story = Story(server)
    begin(story)
    write(story)
    want(story.on_pad("ann", "text"), {"now": story.now, "ok": True, "rev": story.now, "text": story.text}, "the text")
    story.edits("ann", "comment", lambda text: text, at=2, len=3, text="why?")
    story.edits("bob", "resolve", lambda text: text, comment=[1, story.now])
    given = story.names("bob", rev=1, text="A first draft")
    named = [(one["author"], one["rev"], one["text"]) for one in story.on_pad("ann", "marks")["marks"]]
    want(named, [("bob", 1, "A first draft")] * given, "the names of revisions")
    story.on_pad("bob", "caret", rev=story.now, at=3)
    welcome(story)
    receive(story)
    read_all(story)
    story.on_pad("bob", "leave")
    answer = server.author("bob").does(do="join", pad="p")
    want(answer["now"], story.now, "the revision at the end")
    if server.refused < 500:
        raise Failed(f"only {server.refused} allocations were refused")


def standard_input_without_memory():
    """The first allocation of a run is refused, then the second: it says so and ends, or answers 900 and goes on."""
    asked = b'{"do":"create","pad":"p"}\n{"do":"text","pad":"p"}\n'
    created = '{"now":0,"ok":true,"visit":1}\n'
    empty = '{"now":0,"ok":true,"rev":0,"text":""}\n'
    missing = '{"code":300,"error":"NoPad","ok":false}\n'
    faults = Faults()
    faults.set("everywhere", 1)
    whole = 0
    for allocation in itertools.count(1):
        before = faults.failed()
        faults.set("allocations", allocation)
        process = start(
            "pad_server",
            "--stdin --replica 1 --cells 2",
            faults.variables,
            stdin=subprocess.PIPE,
            stdout=subprocess.PIPE,
            stderr=subprocess.PIPE,
        )
        wrote, said = (stream.decode() for stream in process.communicate(asked))
        faults.set("allocations", 0)
        if faults.failed() == before:
            want((wrote, said, process.returncode), (created + empty, "", 0), "a run with all its memory")
            break
        if process.returncode == 1:
            # While the command line is read, clap says it in its own words.
            told = said.startswith("pad_server: 900 Memory") or said == "pad_server: out of memory\n"
            want(told, True, f"900 on standard error, which has {said!r}")
            want(wrote in ("", LINE, created + LINE), True, f"whole lines before the end, which are {wrote!r}")
        else:
            # The C library makes one allocation of its own, which it can do without: then both answers are whole.
            want((process.returncode, said), (0, ""), f"status and message with allocation {allocation} refused")
            answered = (LINE + missing, LINE + empty, created + LINE, created + empty)
            want(wrote in answered, True, f"900 once with allocation {allocation} refused, and not {wrote!r}")
            whole += wrote == created + empty
    if allocation < 20 or whole > 1:
        raise Failed(f"{allocation - 1} allocations were refused, and {whole} runs did not care")


TESTS = [
    Test("memory: allocations of each request are refused", allocations_of_each_request_are_refused, 120),
    Test("memory: standard input and output", standard_input_without_memory, 60),
]
