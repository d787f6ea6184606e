"""A reference model of a whole server: sessions, pads, visits, rights and carets, around model.py."""
from __future__ import annotations

import hashlib
import re
import time
from dataclasses import dataclass, field
from typing import Any

from forms import RIGHTS, has_form
from model import EDITS, Cell, ModelPad, Request

NEEDS = {
    **dict.fromkeys((*EDITS, "mark"), "write"), "comment": "comment", "resolve": "comment",
    **dict.fromkeys(("grant", "hand", "invite", "close", "reopen"), "own"),
}
# What nobody may do on a closed pad. Who may not own it cannot join it either.
SHUT = (*EDITS, "comment", "resolve", "mark", "grant", "hand", "invite")
NAMES = {
    101: "NotJson", 102: "NotRequest", 200: "NoSession", 201: "BadToken", 202: "HaveSession", 300: "NoPad", 301: "PadExists",
    303: "BadName", 310: "NotJoined", 311: "Joined", 312: "Denied", 313: "Crowded", 315: "OwnerKept", 320: "NoRevision",
    321: "OutOfRange", 322: "Empty", 323: "TooMuch", 326: "NoComment", 329: "NoVisit", 330: "PadClosed", 900: "Memory",
    901: "StoreFull", 902: "Full",
}
MOST = {"edit": 10_000, "comment": 2_000, "parts": 16, "entries": 100, "times": 1_000, "moments": 100, "wait": 60, "marks": 200, "mark": 100, "guest": 60}
NAME = re.compile(r"[a-z0-9-]{1,32}")
LETTERS = "abcdefghijklmnopqrstuvwxyz234567"


def letters_of(text: str) -> str:
    """13 letters that a text gives: of the first bytes of its SHA-256, the lowest five bits each."""
    return "".join(LETTERS[byte & 31] for byte in hashlib.sha256(text.encode()).digest()[:13])


def is_guest(name: str) -> bool:
    return name.startswith("guest-") and len(name) == 32


def names_badly(request: Request) -> bool:
    """Whether it gives a right, or the pad, to a name that nobody can have. Everyone, `*`, can have a right but own."""
    if request["do"] not in ("grant", "hand") or NAME.fullmatch(request["author"]):
        return False
    return request["do"] == "hand" or request["author"] != "*" or request["right"] == "own"


def refuse(code: int) -> Request:
    return {"ok": False, "code": code, "error": NAMES[code]}


@dataclass(eq=False)
class Session:
    """A connection: who has logged in, and the visit on each pad that is joined."""

    name: str | None = None
    visits: dict[str, int] = field(default_factory=dict)


@dataclass
class Visitor:
    name: str
    caret: Cell | None = None


@dataclass
class Given:
    """A visit, present or not: whose it is, how many operations it made, and the name of the last one."""

    author: str
    made: int = 0
    last: list[int] | None = None


@dataclass
class Room:
    """A pad, its visits, who is there by these, who has which right, the names of revisions, what guests are called, and whether an
    owner has closed it."""

    pad: ModelPad
    rights: dict[str, str]
    given: list[Given] = field(default_factory=list)
    present: dict[int, Visitor] = field(default_factory=dict)
    marks: list[Request] = field(default_factory=list)
    guests: dict[str, str] = field(default_factory=dict)
    is_closed: bool = False

    @property
    def owner(self) -> str:
        return next(iter(self.rights))

    def listed(self) -> list[list[str]]:
        """The owner, everyone, and then the others by their first grant."""
        return [list(one) for one in sorted(self.rights.items(), key=lambda one: (one[0] != self.owner, one[0] != "*"))]

    def visit(self, number: int) -> Given:
        """A visit, or nobody's if the number was never given out."""
        return self.given[number - 1] if 0 < number <= len(self.given) else Given("")


class ModelServer:
    """A token is `t` and the author's name. `most_present` is how many may be on a pad at once. A server that does not know
    visits is of an earlier version, and ignores `instead`."""

    def __init__(self, most_present: int = 64) -> None:
        self.most_present = most_present
        self.knows_visits = True
        self.takes_guests = True
        self.replica = 1
        self.rooms: dict[str, Room] = {}
        self.sessions: set[Session] = set()

    def connect(self) -> Session:
        session = Session()
        self.sessions.add(session)
        return session

    def end(self, session: Session) -> None:
        self.sessions.discard(session)
        for pad, visit in session.visits.items():
            if pad in self.rooms:
                self.rooms[pad].present.pop(visit, None)
        session.visits.clear()

    def restart(self, replica: int | None = None) -> None:
        """The server ends and starts again, perhaps with another number. Nobody is present then."""
        for session in list(self.sessions):
            self.end(session)
        self.replica = replica or self.replica
        for room in self.rooms.values():
            room.pad.replica = self.replica

    def author(self, name: str) -> str:
        return f"{name}@{self.replica}"

    def may(self, name: str, room: Room, right: str) -> bool:
        return RIGHTS.index(self.right_of(name, room)) >= RIGHTS.index(right)

    def right_of(self, name: str, room: Room) -> str:
        """The greater of the author's own right and that of everyone, or for a guest, that of the link."""
        shared = name[:19] if is_guest(name) else "*"
        return max(room.rights.get(name, "none"), room.rights.get(shared, "none"), key=RIGHTS.index)

    # ---- requests, refused in the order of docs/PROTOCOL.md

    def reply(self, session: Session, request: Any) -> Request:
        if not has_form(request):
            return refuse(102)
        if request["do"] == "hello":
            return self._hello(session, request)
        if request["do"] == "guest":
            return self._guest(session, request)
        if session.name is None:
            return refuse(200)
        if request["do"] == "pads":
            return {"ok": True, "pads": self._pads(session.name)}
        name = request["pad"]
        if not NAME.fullmatch(name) or names_badly(request):
            return refuse(303)
        if request["do"] == "create" and is_guest(session.name):
            return refuse(312)
        if request["do"] == "create":
            return refuse(301) if name in self.rooms else self._create(session, session.name, name)
        room = self.rooms.get(name)
        if room is None:
            return refuse(300)
        return self._on_pad(session, session.name, name, room, request)

    def _hello(self, session: Session, request: Request) -> Request:
        if session.name is not None:
            return refuse(202)
        if request["token"] != f"t{request['name']}":
            return refuse(201)
        session.name = request["name"]
        return {"ok": True, "author": self.author(request["name"])}

    def _guest(self, session: Session, request: Request) -> Request:
        if session.name is not None:
            return refuse(202)
        if not self.takes_guests:
            return refuse(201)
        token = request["token"]
        session.name = f"guest-{letters_of(token.partition('.')[0])}{letters_of(token)}"
        return {"ok": True, "author": self.author(session.name)}

    def _pads(self, name: str) -> list[list[Any]]:
        rooms = [(pad, room) for pad, room in self.rooms.items() if self.may(name, room, "read")]
        return [[pad, self.right_of(name, room), room.pad.now, *(["closed"] if room.is_closed else [])] for pad, room in rooms]

    def _create(self, session: Session, author: str, name: str) -> Request:
        room = self.rooms[name] = Room(ModelPad(), {author: "own"})
        room.pad.replica = self.replica
        return self._join(session, author, name, room, None)

    def _is_in(self, session: Session, name: str, room: Room) -> bool:
        return session.visits.get(name) in room.present

    def _on_pad(self, session: Session, author: str, name: str, room: Room, request: Request) -> Request:
        do = request["do"]
        if do == "join":
            return self._join(session, author, name, room, request.get("instead") if self.knows_visits else None)
        if not self._is_in(session, name, room):
            return refuse(310)
        if do == "leave":
            room.present.pop(session.visits.pop(name), None)
            return {"ok": True, "now": room.pad.now}
        if not self.may(author, room, NEEDS.get(do, "read")) or (do == "introduce" and not is_guest(author)):
            return refuse(312)
        if room.is_closed and do in SHUT:
            return refuse(330)
        return self._refusal(room, request) or self._answer(session, author, room, request)

    def _join(self, session: Session, author: str, name: str, room: Room, instead: int | None) -> Request:
        """The old visit ends, whichever session has it."""
        if name in session.visits:
            return refuse(311 if self._is_in(session, name, room) else 310)
        if not self.may(author, room, "read"):
            return refuse(312)
        if room.is_closed and not self.may(author, room, "own"):
            return refuse(330)
        old = None if instead is None else room.visit(instead)
        if old and old.author != author:
            return refuse(329)
        if len(room.present) - (old is not None and instead in room.present) >= self.most_present:
            return refuse(313)
        room.present.pop(instead or 0, None)
        room.given.append(Given(author))
        visit = session.visits[name] = len(room.given)
        room.present[visit] = Visitor(author)
        told = {"made": old.made, "last": old.last} if old else {}
        return {"ok": True, "now": room.pad.now, "visit": visit, **told}

    def _refusal_of_times(self, now: int, request: Request) -> Request | None:
        if "at" in request:
            return refuse(322) if not request["at"] else refuse(323) if len(request["at"]) > MOST["moments"] else None
        if not 1 <= request["from"] <= now + 1:
            return refuse(320)
        return refuse(322) if request["step"] * request["count"] == 0 else refuse(323) if request["count"] > MOST["times"] else None

    def _refusal(self, room: Room, request: Request) -> Request | None:
        """Why a request is refused for what it asks of the text: the revision, the places, emptiness and size."""
        do, pad, now = request["do"], room.pad, room.pad.now
        rev = now if request.get("rev") is None else request["rev"]
        to = now if request.get("to") is None else request["to"]
        if rev > now or to > now or to < rev:
            return refuse(320)
        if do == "entries":
            if not 1 <= request["from"] <= now + 1:
                return refuse(320)
            return refuse(322) if request["count"] == 0 else refuse(323) if request["count"] > MOST["entries"] else None
        if do == "times":
            return self._refusal_of_times(now, request)
        if do == "grant":
            return refuse(315) if request["author"] == room.owner else None
        if do == "introduce":
            return refuse(322) if not request["as"] else refuse(323) if len(request["as"]) > MOST["guest"] else None
        if do == "mark":
            is_much = len(request["text"]) > MOST["mark"] or len(room.marks) >= MOST["marks"]
            return refuse(322) if not request["text"] else refuse(323) if is_much else None
        if do == "birth":
            return None if request["at"] < len(pad.at(rev)) else refuse(321)
        if do in ("insert", "delete", "edit", "comment", "caret"):
            return self._refusal_of_parts(pad, rev, do, request.get("parts", [request]))
        if do == "resolve":
            return None if any(one.name == request["comment"] for one in pad.remarks) else refuse(326)
        return refuse(323) if do == "changes" and (request.get("wait") or 0) > MOST["wait"] else None

    def _refusal_of_parts(self, pad: ModelPad, rev: int, do: str, parts: list[Request]) -> Request | None:
        length = len(pad.at(rev))
        if any(part["at"] + part.get("len", 0) > length for part in parts):
            return refuse(321)
        if do == "caret":
            return None
        sizes = [part["len"] if "len" in part else len(part["text"]) for part in parts]
        if not sizes or 0 in sizes or (do == "comment" and not parts[0]["text"]):
            return refuse(322)
        is_long = len(parts[0]["text"]) > MOST["comment"] if do == "comment" else sum(sizes) > MOST["edit"] or len(sizes) > MOST["parts"]
        return refuse(323) if is_long else None

    def _answer(self, session: Session, author: str, room: Room, request: Request) -> Request:
        do, pad, visit = request["do"], room.pad, session.visits[request["pad"]]
        answer: Request
        if do == "who":
            answer = {"who": self._who(room)}
        elif do == "rights":
            answer = {"rights": room.listed(), **({"closed": True} if room.is_closed else {})}
        elif do in ("close", "reopen"):
            self.set_closed(room, do == "close")
            answer = {}
        elif do == "grant":
            room.rights[request["author"]] = request["right"]
            if request["right"] == "none":
                del room.rights[request["author"]]
            answer = {}
        elif do == "invite":
            room.rights[f"guest-{letters_of(request['secret'])}"] = request["right"]
            answer = {}
        elif do == "introduce":
            room.guests[author] = request["as"]
            answer = {}
        elif do == "guests":
            answer = {"guests": [{"author": name, "name": display} for name, display in room.guests.items()]}
        elif do == "mark":
            room.marks.append({"rev": request["rev"], "author": author, "at": round(time.time() * 1000), "text": request["text"]})
            answer = {}
        elif do == "marks":
            answer = {"marks": list(room.marks)}
        elif do == "hand":
            if author != room.owner:
                return refuse(312)
            self._hand(room, author, request["author"])
            answer = {}
        elif do == "caret":
            room.present[visit].caret = pad.at(request["rev"])[request["at"] - 1] if request["at"] else None
            answer = {}
        else:
            return self._noted(room.given[visit - 1], pad.reply(self.author(author), request))
        return {"ok": True, "now": pad.now, **answer}

    @staticmethod
    def _noted(visit: Given, reply: Request) -> Request:
        """An answer with a name is that of an operation."""
        if reply["ok"] and "name" in reply:
            visit.made, visit.last = visit.made + 1, reply["name"]
        return reply

    def set_closed(self, room: Room, is_closed: bool) -> None:
        """Closing ends the visits of all who may not own the pad. Their sessions do not hear of it."""
        room.is_closed = is_closed
        if is_closed:
            room.present = {visit: one for visit, one in room.present.items() if self.may(one.name, room, "own")}

    def _hand(self, room: Room, owner: str, heir: str) -> None:
        """The heir is listed first, and the owner before it last, with the right to write."""
        if heir != owner:
            others = {name: right for name, right in room.rights.items() if name not in (owner, heir)}
            room.rights = {heir: "own", **others, owner: "write"}

    def _who(self, room: Room) -> list[Request]:
        """A caret is behind its character, or behind the one before it that is still shown."""
        order = room.pad.order()
        out: list[Request] = []
        for visit, visitor in room.present.items():
            before = order[: order.index(visitor.caret) + 1] if visitor.caret else []
            caret = sum(cell.is_shown(room.pad.now) for cell in before)
            out.append({"visit": visit, "author": self.author(visitor.name), "caret": caret})
        return out


def is_edit(request: Any) -> bool:
    """Whether a request changes the text."""
    return isinstance(request, dict) and request.get("do") in EDITS
