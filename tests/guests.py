"""Guests: the requests `guest`, `invite`, `introduce` and `guests`, asked of a server with `--guests`, of one without, and of the model in
conformance/; and both client libraries as guests of one pad."""
import hashlib
import json
import os
import re
import subprocess
import sys

from births import ModelAuthor
from harness import ROOT, Failed, Test, want
from scripts_test import NODE, PYTHON
from sockets import Server
from web_server import WebServer

# Secrets as browsers draw them: 22 characters of base64url.
LINK, OTHER = "k3Zt0Qm8vJx2bN5wYcR7Ag", "AAAAAAAAAAAAAAAAAAAAA_"
BEN, EVE = "9hUe_Lr4TqP-d6XoVs1KzA", "9hUe_Lr4TqP-d6XoVs1KzB"
NAME = re.compile(r"guest-[a-z2-7]{13}")
LETTERS = "abcdefghijklmnopqrstuvwxyz234567"
BAD_TOKEN = {"code": 201, "error": "BadToken", "ok": False}
HAVE_SESSION = {"code": 202, "error": "HaveSession", "ok": False}
LONGEST = 60


class ModelGuest(ModelAuthor):
    """A session of the model that has not logged in."""

    def __init__(self, server):
        self.server, self.session = server, server.connect()


class Place:
    """A server with `--guests`, or the model: connections of ann, bob and cid, and as many of guests as are asked for."""

    def __init__(self, where, more="--guests"):
        self.where = where
        if where == "server":
            self.server = Server(more)
            self.ann, self.bob, self.cid = (self.server.author(name) for name in ("ann", "bob", "cid"))
            return
        sys.path[:0] = [os.path.join(ROOT, "tests", "conformance")]
        from model_server import ModelServer

        self.server = ModelServer()
        self.ann, self.bob, self.cid = (ModelAuthor(self.server, name) for name in ("ann", "bob", "cid"))

    def connect(self):
        return self.server.connect() if self.where == "server" else ModelGuest(self.server)

    def guest(self, own=BEN, link=LINK, pad=None):
        """A guest's connection, which has joined a pad; `name` is the guest's name."""
        guest = self.connect()
        author = guest.does(do="guest", token=f"{link}.{own}")["author"]
        guest.name, _, origin = author.partition("@")
        want(origin, "1", f"the server's number in {author}")
        if pad is not None:
            guest.does(do="join", pad=pad)
        return guest

    def invites(self, right, link=LINK, pad="p"):
        """Ann makes a link to her pad, which she creates if there is none. Answers the link's name."""
        self.ann.ask(do="create", pad=pad)
        before = self.rights(pad)
        want(self.ann.does(do="invite", pad=pad, secret=link, right=right)["ok"], True, "the answer to invite")
        (name,) = [name for name in self.rights(pad) if name not in before]
        return name

    def rights(self, pad="p"):
        return dict(self.ann.does(do="rights", pad=pad)["rights"])


def code_of(session, **request):
    return session.ask(**request).get("code")


def letters_of(text):
    """The 13 letters that docs/PROTOCOL.md says a text gives."""
    return "".join(LETTERS[byte % 32] for byte in hashlib.sha256(text.encode()).digest()[:13])


def names_are_made_from_secrets(where):
    place = Place(where)
    for link, own in ((LINK, BEN), (LINK, EVE), (OTHER, BEN)):
        want(place.guest(own, link).name, f"guest-{letters_of(link)}{letters_of(f'{link}.{own}')}", f"the name of {link}.{own}")
    want([place.invites("read", link) for link in (LINK, OTHER)], [f"guest-{letters_of(link)}" for link in (LINK, OTHER)], "the names of links")


def guests_come_by_a_link(where):
    place = Place(where)
    place.ann.does(do="create", pad="p")
    place.ann.does(do="insert", pad="p", rev=0, at=0, text="The crane")
    want(place.ann.ask(do="invite", pad="p", secret=LINK, right="comment"), {"now": 1, "ok": True}, "the answer to invite")
    rights = place.ann.does(do="rights", pad="p")["rights"]
    link = rights[1][0]
    want((rights, bool(NAME.fullmatch(link))), ([["ann", "own"], [link, "comment"]], True), "the rights, with the link's")
    ben, again, eve = place.guest(), place.guest(), place.guest(EVE)
    want(all(re.fullmatch(f"{link}[a-z0-9]{{13}}", guest.name) for guest in (ben, eve)), True, f"that {ben.name} and {eve.name} begin with {link}")
    want((ben.name == again.name, ben.name == eve.name), (True, False), "that the same secrets are the same guest, and others another one")
    want(ben.ask(do="join", pad="p"), {"now": 1, "ok": True, "visit": 2}, "the answer to join")
    want(ben.does(do="text", pad="p")["text"], "The crane", "what the guest reads")
    want(code_of(ben, do="insert", pad="p", rev=1, at=0, text="x"), 312, "a guest who may comment cannot write")
    name = ben.does(do="comment", pad="p", rev=1, at=4, len=5, text="which?")["name"]
    told = place.ann.does(do="comments", pad="p")["comments"]
    want([(one["author"], one["text"], one["name"]) for one in told], [(f"{ben.name}@1", "which?", name)], "the comment")
    want([one["author"] for one in place.ann.does(do="who", pad="p")["who"]], ["ann@1", f"{ben.name}@1"], "who is there")
    want(ben.does(do="pads")["pads"], [["p", "comment", 2]], "the pads of a guest")


def rights_are_those_of_the_link(where):
    place = Place(where)
    link, other = place.invites("read"), place.invites("write", OTHER)
    want((len(place.rights()), link != other), (3, True), "that two secrets are two links")
    ben, eve = place.guest(pad="p"), place.guest(pad="p", link=OTHER)
    insert = {"do": "insert", "pad": "p", "rev": 0, "at": 0, "text": "a"}
    want((code_of(ben, **insert), code_of(ben, do="comment", pad="p", rev=0, at=0, len=1, text="b")), (312, 312), "a guest who may read")
    eve.does(**insert)
    # What everyone has is one of accounts alone.
    place.ann.does(do="grant", pad="p", author="*", right="write")
    want((code_of(ben, **insert), code_of(place.bob, do="join", pad="p")), (312, None), "that everybody is no guest")
    place.ann.does(do="grant", pad="p", author=link, right="comment")
    ben.does(do="comment", pad="p", rev=1, at=0, len=1, text="b")
    want(code_of(ben, **insert), 312, "a guest whose link was given the right to comment")
    # A right of the guest's own: the greater counts.
    place.ann.does(do="grant", pad="p", author=ben.name, right="write")
    ben.does(**insert)
    place.ann.does(do="grant", pad="p", author=ben.name, right="read")
    want(code_of(ben, **insert), 312, "a guest whose own right is less again")
    ben.does(do="comment", pad="p", rev=1, at=0, len=1, text="c")
    want(code_of(place.guest(EVE, pad="p"), **insert), 312, "another guest of the link")
    # Invited once more, the link has the new right.
    place.ann.does(do="invite", pad="p", secret=LINK, right="write")
    want((place.rights()[link], place.rights()[other]), ("write", "write"), "the rights of both links")
    ben.does(**insert)


def a_link_is_ended(where):
    place = Place(where)
    link = place.invites("write")
    ben, eve, later = place.guest(pad="p"), place.guest(EVE, pad="p"), place.guest()
    place.invites("comment", OTHER)
    fay = place.guest(pad="p", link=OTHER)
    ben.does(do="insert", pad="p", rev=0, at=0, text="a")
    want(place.ann.ask(do="grant", pad="p", author=link, right="none"), {"now": 1, "ok": True}, "the answer to the grant")
    want(link in place.rights(), False, "that the link is gone from the list")
    for guest in (ben, eve):
        want(code_of(guest, do="insert", pad="p", rev=1, at=0, text="x"), 312, "that a guest of the link cannot write")
        want((code_of(guest, do="text", pad="p"), code_of(guest, do="guests", pad="p")), (312, 312), "nor read")
        want(guest.does(do="leave", pad="p")["now"], 1, "but leave")
    want((code_of(later, do="join", pad="p"), code_of(ben, do="join", pad="p")), (312, 312), "nor join")
    want(ben.does(do="pads")["pads"], [], "the pads of the guest")
    want(fay.does(do="text", pad="p")["text"], "a", "what a guest of another link reads")
    place.invites("read")
    want((code_of(later, do="join", pad="p"), place.rights()[link]), (None, "read"), "that the same secret makes the same link again")
    # A link to one pad says nothing of another one.
    place.ann.does(do="create", pad="q")
    want(code_of(later, do="join", pad="q"), 312, "another pad")
    want(code_of(later, do="join", pad="r"), 300, "no pad")


def guests_choose_names(where):
    place = Place(where)
    place.invites("comment")
    ben, eve = place.guest(pad="p"), place.guest(EVE, pad="p")
    want(place.ann.ask(do="guests", pad="p"), {"guests": [], "now": 0, "ok": True}, "the guests of a pad without any")
    want(eve.ask(do="introduce", pad="p", **{"as": "Éve 🙂 \u200fש"}), {"now": 0, "ok": True}, "the answer to introduce")
    ben.does(do="introduce", pad="p", **{"as": "B" * LONGEST})
    ben.does(do="introduce", pad="p", **{"as": "🙂" * LONGEST})
    eve.does(do="introduce", pad="p", **{"as": "Ann Example"})
    ben.does(do="introduce", pad="p", **{"as": "Ann Example"})
    due = [{"author": eve.name, "name": "Ann Example"}, {"author": ben.name, "name": "Ann Example"}]
    for session in (place.ann, ben):
        want(session.does(do="guests", pad="p")["guests"], due, "the guests, in the order in which they first introduced themselves")
    for text, code in (("", 322), ("B" * (LONGEST + 1), 323), ("🙂" * (LONGEST + 1), 323)):
        want(code_of(ben, do="introduce", pad="p", **{"as": text}), code, f"the name {text[:9]!r}")
    for wrong in (None, 7, ["a"], {}):
        want(code_of(ben, do="introduce", pad="p", **{"as": wrong}), 102, f"the name {wrong}")
    want(code_of(ben, do="introduce", pad="p", name="Ben"), 102, "no name")
    want(code_of(place.ann, do="introduce", pad="p", **{"as": "Ann"}), 312, "an author who is no guest")
    want((code_of(place.bob, do="guests", pad="p"), code_of(ben, do="introduce", pad="q", **{"as": "Ben"})), (310, 300), "who has not joined, and another pad")
    want((code_of(place.ann, do="guests"), code_of(place.ann, do="guests", pad=1)), (102, 102), "no pad")
    want(place.ann.does(do="guests", pad="p")["guests"], due, "the guests after all that")
    place.ann.does(do="create", pad="q")
    want(place.ann.does(do="guests", pad="q")["guests"], [], "those of another pad")


def names_have_no_control_characters(where):
    place = Place(where)
    place.invites("comment")
    ben = place.guest(pad="p")
    for text in ("a\nb", "\t", "\x7f", "\x00", "\u0085"):
        want(code_of(ben, do="introduce", pad="p", **{"as": text}), 102, f"the name {text!r}")
    want(place.ann.does(do="guests", pad="p")["guests"], [], "the guests after all that")


def guests_and_links_are_refused(where):
    place = Place(where)
    token = f"{LINK}.{BEN}"
    for wrong in (None, 1, [LINK, BEN]):
        want(code_of(place.connect(), do="guest", token=wrong), 102, f"the token {wrong}")
    want(code_of(place.connect(), do="guest", name="guest"), 102, "no token")
    forms = ("", ".", LINK, f"{LINK}.", f".{BEN}", f"{LINK}{BEN}", f"{LINK[:-1]}.{BEN}", f"{LINK}.{BEN}A", f"{LINK}.{BEN}.{BEN}",
             f"{LINK[:-1]}+.{BEN}", f" {LINK}.{BEN}", f"{LINK}.{BEN[:-1]}é", f"{LINK}-{BEN}")
    for form in forms:
        want(code_of(place.connect(), do="guest", token=form), 102, f"the token {form!r}")
    for session in (place.ann, place.guest()):
        want(session.ask(do="guest", token=token), HAVE_SESSION, "the second log-in of a session")
    ben = place.guest()
    want(code_of(ben, do="hello", name="ann", token="tann"), 202, "a guest who would be an author")
    created = [code_of(ben, do="create", pad=pad) for pad in ("p", "P")]
    want((created, code_of(ben, do="join", pad="p")), ([312, 303], 300), "a guest who would have a pad")
    want(code_of(place.connect(), do="invite", pad="p", secret=LINK, right="read"), 200, "nobody, who would invite")
    place.ann.does(do="create", pad="p")
    invite = {"do": "invite", "pad": "p", "secret": LINK, "right": "read"}
    for wrong in ({"secret": None}, {"secret": 7}, {"secret": [LINK]}, {"secret": ""}, {"secret": LINK[:-1]}, {"secret": f"{LINK}A"}, {"secret": f"{LINK[:-1]}+"}, {"secret": f"{LINK[:-1]}."}, {"right": "own"}, {"right": "none"}, {"right": None}, {"right": "edit"}, {"pad": 1}):
        want(code_of(place.ann, **{**invite, **wrong}), 102, f"an invitation with {wrong}")
    for field in ("pad", "secret", "right"):
        want(code_of(place.ann, **{key: value for key, value in invite.items() if key != field}), 102, f"an invitation without {field}")
    want((code_of(place.ann, **{**invite, "pad": "P"}), code_of(place.ann, **{**invite, "pad": "q"}), code_of(place.bob, **invite)), (303, 300, 310), "no name, no pad and no visit")
    place.ann.does(do="grant", pad="p", author="bob", right="write")
    place.bob.does(do="join", pad="p")
    want((code_of(place.bob, **invite), code_of(ben, do="create", pad="p")), (312, 312), "an author who may write, and a guest who would create a pad that is there")
    place.invites("write")
    ben.does(do="join", pad="p")
    want((code_of(ben, **invite), code_of(ben, do="grant", pad="p", author="cid", right="read"), code_of(ben, do="hand", pad="p", author=ben.name)), (312, 312, 312), "a guest who would give rights")
    want(place.rights(), {"ann": "own", "bob": "write", ben.name[:19]: "write"}, "the rights after all that")


def guests_log_in_by_a_socket_of_the_page():
    server = WebServer("--guests")
    ann = server.author("ann")
    ann.does(do="create", pad="p")
    ann.does(do="invite", pad="p", secret=LINK, right="write")
    page = server.open()
    author = page.ask(do="guest", token=f"{LINK}.{BEN}")["author"]
    want(re.fullmatch(r"guest-[a-z2-7]{26}@1", author) is not None, True, f"the author {author}")
    page.does(do="join", pad="p")
    page.does(do="insert", pad="p", rev=0, at=0, text="abc")
    want(ann.does(do="runs", pad="p")["runs"], [[author, 3]], "whose the words are")


def a_restart_gives_guests_back():
    place = Place("server", "--guests --store pads")
    link = place.invites("comment")
    ben, eve = place.guest(pad="p"), place.guest(EVE, pad="p")
    eve.does(do="introduce", pad="p", **{"as": "Eve"})
    ben.does(do="introduce", pad="p", **{"as": "Ben"})
    eve.does(do="introduce", pad="p", **{"as": "Éve 🙂 \"\\"})
    told = place.ann.does(do="guests", pad="p")
    place.server.process.kill()
    place.server.process.wait()
    again = Place("server", "--guests --store pads")
    again.ann.does(do="join", pad="p")
    want((again.ann.does(do="guests", pad="p"), again.rights()), (told, {"ann": "own", link: "comment"}), "the guests and rights after a restart")
    guest = again.guest(pad="p")
    want(guest.name, ben.name, "the guest's name")
    again.ann.does(do="grant", pad="p", author=link, right="none")
    want(code_of(guest, do="text", pad="p"), 312, "a guest whose link is ended")


def a_server_without_the_option_takes_no_guests():
    server = Server()
    client = server.connect()
    want(client.ask(do="guest", token=f"{LINK}.{BEN}"), BAD_TOKEN, "the answer to a guest")
    want(client.ask(do="hello", name="ann", token="tann"), {"author": "ann@1", "ok": True}, "the answer to hello")
    want(client.ask(do="guest", token=f"{LINK}.{BEN}"), HAVE_SESSION, "the answer to a guest in a session of ann")


JAVASCRIPT = """
import { connect, isGuest, newSecret } from %(library)s;
const address = "tcp://127.0.0.1:%(port)d", ann = await connect(address, { name: "ann", token: "tann" });
const [{ name }] = await ann.pads();
await ann.join(name);
const link = await ann.invite("write"), ben = await connect(address, { guest: `${link}.${newSecret()}` });
const pad = await ben.join(name);
await ben.introduce("Ben");
pad.insert(0, "from node. ");
await ben.saved();
console.log(JSON.stringify({ link, name: ben.name, isGuest: isGuest(ben.name) && ben.isGuest && !ann.isGuest, right: ben.right, guests: await ann.guests() }));
process.exit(0);
"""
PYTHON_GUEST = """
import asyncio, json, vindrughe
async def main():
    async with vindrughe.connect("tcp://127.0.0.1:%(port)d", guest="%(link)s." + vindrughe.new_secret()) as eve:
        pad = await eve.join("p")
        await eve.introduce("Eve")
        pad.insert(0, "from python. ")
        await eve.saved()
        print(json.dumps({"name": eve.name, "isGuest": eve.is_guest, "right": eve.right, "guests": await eve.guests()}))
    async with vindrughe.connect("tcp://127.0.0.1:%(port)d", name="ann", token="tann") as ann:
        await ann.join("p")
        print(len(await ann.invite("read")), ann.is_guest)
asyncio.run(main())
"""


def said_by(*words, **more):
    done = subprocess.run([*words], capture_output=True, text=True, **more)
    if done.returncode:
        raise Failed(f"{words[0]} ended with {done.returncode}: {done.stderr[-1_500:]}")
    return done.stdout.splitlines()


def the_libraries_come_as_guests():
    server = Server("--guests")
    ann = server.author("ann")
    ann.does(do="create", pad="p")
    with open("guest.mjs", "w", encoding="utf-8") as file:
        file.write(JAVASCRIPT % {"library": json.dumps(f"{ROOT}/clients/js/node.js"), "port": server.port})
    (line,) = said_by(NODE, "guest.mjs")
    ben = json.loads(line)
    want((ben["isGuest"], ben["right"], ben["guests"]), (True, "write", [{"author": ben["name"], "name": "Ben"}]), "what Node says of its guest")
    environment = {**os.environ, "PYTHONPATH": f"{ROOT}/clients/python", "PYTHONDONTWRITEBYTECODE": "1"}
    line, invited = said_by(PYTHON, "-c", PYTHON_GUEST % {"port": server.port, "link": ben["link"]}, env=environment)
    eve = json.loads(line)
    want((eve["isGuest"], eve["right"], eve["guests"]), (True, "write", {ben["name"]: "Ben", eve["name"]: "Eve"}), "what Python says of its guest")
    want(invited, "22 False", "what Python says of ann, who invites")
    want(ann.does(do="runs", pad="p")["runs"], [[f"{eve['name']}@1", 13], [f"{ben['name']}@1", 11]], "whose the words are")
    want([right for _, right in ann.does(do="rights", pad="p")["rights"]], ["own", "write", "read"], "the rights")


def on_both(function):
    """The same is asked of the server and of the model."""

    def of(where):
        return named(lambda: function(where), f"{function.__name__.replace('_', ' ')}, {where}")

    return [of("server"), of("model")]


def named(function, name=None, seconds=60):
    return Test(f"guests: {name or function.__name__.replace('_', ' ')}", function, seconds)


TESTS = [
    *on_both(names_are_made_from_secrets), *on_both(guests_come_by_a_link), *on_both(rights_are_those_of_the_link), *on_both(a_link_is_ended), *on_both(guests_choose_names),
    *on_both(names_have_no_control_characters), *on_both(guests_and_links_are_refused),
    named(guests_log_in_by_a_socket_of_the_page), named(a_restart_gives_guests_back), named(a_server_without_the_option_takes_no_guests),
    named(the_libraries_come_as_guests),
]
