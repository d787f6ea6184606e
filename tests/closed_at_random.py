"""Authors at random on two pads that are closed and opened again: the server and the model in conformance/ are asked the same, and have
to answer the same, but for times and how many characters an edit hides."""
import json
import random
from collections import Counter

from guests import BEN, LINK, Place
from harness import Failed, Test, want

ROUNDS, STEPS = 15, 300
AUTHORS = ["ann", "ann", "bob", "bob", "cid", "cid", "dan", "eve", "guest"]
NAMES = ["ann", "bob", "cid", "dan", "eve", "*"]
# How often an answer, or a refusal by its number, has to come in all rounds together, so that enough is tried.
LEAST = {
    "close": 40, "reopen": 100, "join": 100, "insert": 60, "delete": 10, "edit": 10, "comment": 10, "resolve": 3, "mark": 10, "grant": 60, "hand": 3, "invite": 3,
    "text": 10, "rights": 20, "pads": 20, "who": 20, "introduce": 1, 303: 10, 310: 200, 311: 20, 312: 100, 315: 3, 320: 10, 321: 10, 322: 3, 329: 3, 330: 100,
}


class Both:
    """A session of the server and one of the model."""

    def __init__(self, places, author):
        self.author = author
        self.sides = [self.log_in(place, author) for place in places]

    @staticmethod
    def log_in(place, author):
        if author == "guest":
            return place.guest(BEN)
        session = place.connect()
        session.does(do="hello", name=author, token=f"t{author}")
        return session

    def ask(self, **request):
        """What both answer."""
        server, model = (without_times(side.ask(**json.loads(json.dumps(request)))) for side in self.sides)
        want(server, model, f"the server's answer to {self.author}, who asks {request}, beside the model's")
        return server


def without_times(reply):
    """A reply without what the model does not tell alike."""
    for field in [reply, *reply.get("marks", [])]:
        field.pop("at", None)
    reply.pop("hidden", None)
    return reply


class Round:
    def __init__(self, seed, places, tally):
        self.dice, self.places, self.tally, self.now = random.Random(seed), places, tally, {}
        self.pads = [f"p{seed}", f"q{seed}"]
        self.sessions = [Both(places, author) for author in AUTHORS]
        for pad, owner in zip(self.pads, (0, 4)):
            self.asks(self.sessions[owner], do="create", pad=pad)
            for author, right in (("bob", "own"), ("cid", "write"), ("dan", "comment"), ("eve", "read")):
                self.asks(self.sessions[owner], do="grant", pad=pad, author=author, right=right)
            self.asks(self.sessions[owner], do="invite", pad=pad, secret=LINK, right="write")

    def asks(self, session, **request):
        answer = session.ask(**request)
        self.tally[request["do"] if answer["ok"] else answer["code"]] += 1
        if "now" in answer:
            self.now[request["pad"]] = answer["now"]
        return answer

    def play(self):
        for _ in range(STEPS):
            number = self.dice.randrange(len(self.sessions))
            session, pad = self.sessions[number], self.dice.choice(self.pads)
            code = self.asks(session, pad=pad, **self.request(pad)).get("code")
            if code == 310 and self.dice.randrange(4):
                code = self.asks(session, do="join", pad=pad).get("code")
                if code == 310 and self.dice.randrange(4):
                    self.comes_again(number)
        for session in self.sessions:
            self.asks(session, do="pads")

    def comes_again(self, number):
        """An author who was put out goes, and comes over another connection. The old one is not ended, since nobody knows when the
        server hears of it."""
        for pad in self.pads:
            self.asks(self.sessions[number], do="leave", pad=pad)
        self.sessions[number] = Both(self.places, self.sessions[number].author)

    def request(self, pad):
        """What somebody asks of a pad, not always with sense."""
        dice = self.dice
        rev = max(0, self.now.get(pad, 0) - dice.choice((0, 0, 0, 1, 2))) + 5 * (not dice.randrange(20))
        at, length = dice.choice((0, 0, 1, 1, 2, 3, 9)), dice.choice((0, 1, 1, 2, 3))
        text = "".join(dice.choices("abé🙂\n", k=dice.choice((0, 1, 2, 3))))
        name, right = dice.choice([*NAMES, "Bad"]), dice.choice(("none", "read", "comment", "write", "own"))
        part = {"at": at, "text": text} if dice.randrange(2) else {"at": at, "len": length}
        requests = [
            (4, {"do": "close"}), (12, {"do": "reopen"}), (8, {"do": "join"}), (3, {"do": "join", "instead": dice.randrange(12)}),
            (10, {"do": "insert", "rev": rev, "at": at, "text": text}), (5, {"do": "delete", "rev": rev, "at": at, "len": length}),
            (3, {"do": "edit", "rev": rev, "parts": [part, {"at": 0, "text": "x"}]}), (5, {"do": "comment", "rev": rev, "at": at, "len": length, "text": text}),
            (4, {"do": "resolve", "comment": [1, 1 + dice.randrange(9)]}), (3, {"do": "mark", "rev": rev, "text": text}),
            (8, {"do": "grant", "author": name, "right": right}), (1, {"do": "hand", "author": name}),
            (1, {"do": "invite", "secret": LINK, "right": dice.choice(("read", "comment", "write"))}), (3, {"do": "introduce", "as": text.replace("\n", " ")}),
            (2, {"do": "leave"}), (3, {"do": "rights"}), (3, {"do": "pads"}), (3, {"do": "who"}), (2, {"do": "caret", "rev": rev, "at": at}),
            (2, {"do": "text"}), (1, {"do": "runs", "rev": rev}), (1, {"do": "comments"}), (1, {"do": "changes", "rev": rev}), (1, {"do": "revs"}),
            (1, {"do": "entries", "from": rev, "count": 3}), (1, {"do": "birth", "rev": rev, "at": at}), (1, {"do": "marks"}), (1, {"do": "guests"}),
            (1, {"do": "create"}),
        ]
        return dice.choices([request for _, request in requests], [weight for weight, _ in requests])[0]


def server_and_model_answer_the_same():
    places, tally = [Place("server"), Place("model")], Counter()
    for seed in range(ROUNDS):
        Round(seed, places, tally).play()
    rare = {what: tally[what] for what, least in LEAST.items() if tally[what] < least}
    if rare:
        raise Failed(f"in {sum(tally.values())} answers, these came too seldom: {rare}")


TESTS = [Test("closed: authors at random are answered as the model says", server_and_model_answer_the_same, 120)]
