"""The requests of docs/PROTOCOL.md on a pad that is joined, and their replies. Places and lengths are in characters.

A request that is added to the server is added here alone.
"""
from __future__ import annotations

from abc import ABC, abstractmethod
from collections.abc import Sequence
from dataclasses import dataclass
from typing import Any, Literal, TypeAlias, cast, get_args

from .delta import Delta, Drop, Insert, Keep, Run, Step, joined
from .errors import Misfit

Right: TypeAlias = Literal["none", "read", "comment", "write", "own"]
RIGHTS: tuple[Right, ...] = get_args(Right)
#: What a link for guests can give.
LinkRight: TypeAlias = Literal["read", "comment", "write"]
EVERYONE = "*"
Kind: TypeAlias = Literal["insert", "delete", "edit", "comment", "resolve"]
#: The name of an operation or a comment: the number of its server, and which of that server's operations it is.
Name: TypeAlias = tuple[int, int]
Part: TypeAlias = dict[str, Any]


def name_of(value: Sequence[int]) -> Name:
    """A name, from the list that a reply has."""
    return value[0], value[1]


@dataclass(frozen=True, slots=True)
class Changes:
    """What leads from the text of revision `rev` to that of revision `to`. `notes` is how many comments and resolutions are
    among the operations between."""

    rev: int
    to: int
    notes: int
    pieces: list[list[Any]]

    def over(self, text: str) -> list[Step]:
        """The same as a delta over a text.

        Raises:
            Misfit: it does not go through the whole text, or further.
        """
        steps: list[Step] = []
        at = 0
        for piece in self.pieces:
            if piece[0] == "insert":
                steps.append(Insert(piece[1], piece[2]))
                continue
            at += piece[1]
            steps.append(Keep(piece[1]) if piece[0] == "keep" else Drop(piece[1]))
        if at != len(text):
            raise Misfit(f"the answer ends at {at} of {len(text)}")
        return joined(steps)


@dataclass(frozen=True, slots=True)
class Entry:
    """What made a revision, and who. `time` is in milliseconds since 1970; None where it was not asked for, or the server is an
    older one that does not tell."""

    rev: int
    author: str
    kind: Kind
    name: Name
    time: int | None = None


@dataclass(frozen=True, slots=True)
class Birth:
    """Who wrote a character, in which revision, and the time of that in milliseconds since 1970."""

    author: str
    rev: int
    time: int


@dataclass(frozen=True, slots=True)
class NamedRevision:
    """A revision, what somebody named it, and the time of that in milliseconds since 1970. The author is one of this server: a name
    without a number."""

    rev: int
    author: str
    time: int
    text: str


@dataclass(frozen=True, slots=True)
class PlacedComment:
    """A comment, and where its words are in the text of a revision. Where they are erased, `length` is 0."""

    name: Name
    author: str
    at: int
    length: int
    text: str
    is_resolved: bool


@dataclass(frozen=True, slots=True)
class Present:
    """A visit of an author, whose caret is at this place of the newest revision."""

    author: str
    visit: int
    caret: int


@dataclass(frozen=True, slots=True)
class Access:
    """Who has which right, the owner first, and whether the pad is closed. `*` is everyone."""

    rights: list[tuple[str, Right]]
    is_closed: bool


@dataclass(frozen=True, slots=True)
class Counts:
    """The newest revision, and the characters of a pad: all, and those that are not erased."""

    now: int
    cells: int
    length: int


def parts_of(delta: Delta) -> list[Part]:
    """The parts of an edit that makes a delta. Neighbouring insertions are one part: the server would put the later one of two
    parts at one place first."""
    parts: list[Part] = []
    at = 0
    for step in delta:
        if isinstance(step, Insert):
            if parts and "text" in parts[-1] and parts[-1]["at"] == at:
                parts[-1]["text"] += step.text
            else:
                parts.append({"at": at, "text": step.text})
            continue
        if isinstance(step, Drop):
            parts.append({"at": at, "len": step.length})
        at += step.length
    return parts


class PadRequests(ABC):
    """Each request is a method. It raises Refused if the server refuses it, and Lost if the connection ends before the
    answer."""

    @abstractmethod
    async def call(self, do: str, **fields: Any) -> dict[str, Any]:
        """Any request on this pad: its reply."""

    # ---- what changes the pad

    async def make_edit(self, rev: int, parts: list[Part]) -> tuple[Name, int]:
        """Makes changes of a revision, as one operation: its name, and the revision that it makes. Each part has `at`, and
        `text` or `len`."""
        if len(parts) > 1:
            reply = await self.call("edit", rev=rev, parts=parts)
        else:
            reply = await self.call("insert" if "text" in parts[0] else "delete", rev=rev, **parts[0])
        return name_of(reply["name"]), reply["now"]

    async def make_comment(self, rev: int, at: int, length: int, text: str) -> Name:
        """Comments on characters of a revision: the comment's name."""
        return name_of((await self.call("comment", rev=rev, at=at, len=length, text=text))["name"])

    async def resolve(self, comment: Name) -> None:
        """Resolves a comment."""
        await self.call("resolve", comment=list(comment))

    async def grant(self, author: str, right: Right) -> None:
        """Gives an author a right, or takes it away. The author `*` is everyone."""
        await self.call("grant", author=author, right=right)

    async def hand(self, author: str) -> None:
        """Hands the pad over to an author. The owner before may still write."""
        await self.call("hand", author=author)

    async def close(self) -> None:
        """Closes the pad: nobody changes it any more, and who may not own it has to leave. A pad that is closed stays so.

        Raises:
            Refused: this author may not own the pad (312), and 102 by an older server.
        """
        await self.call("close")

    async def reopen(self) -> None:
        """Opens a pad again that was closed. One that is open stays so.

        Raises:
            Refused: this author may not own the pad (312), and 102 by an older server.
        """
        await self.call("reopen")

    async def invite(self, secret: str, right: LinkRight) -> None:
        """Makes a link for guests by its secret, 22 characters of base64url, or gives it another right."""
        await self.call("invite", secret=secret, right=right)

    async def introduce(self, name: str) -> None:
        """A guest is called by this name on the pad.

        Raises:
            Refused: this author is no guest (312), or the name is empty (322) or has more than 60 characters (323).
        """
        await self.call("introduce", **{"as": name})

    async def put_mark(self, rev: int, text: str) -> None:
        """Names a revision. A name is never changed or taken away.

        Raises:
            Refused: 320 without such a revision, 322 without a text, 323 for more than 100 characters or where the pad has 200 names,
                and 102 by an older server.
        """
        await self.call("mark", rev=rev, text=text)

    async def put_caret(self, rev: int, at: int) -> None:
        """Puts the visit's caret at a place of a revision."""
        await self.call("caret", rev=rev, at=at)

    # ---- what reads it

    async def read_text(self, rev: int | None = None) -> tuple[int, str]:
        """A revision, or the newest one: its number, and its text."""
        reply = await self.call("text", rev=rev)
        return reply["rev"], reply["text"]

    async def read_runs(self, rev: int | None = None) -> list[Run]:
        """Who wrote the text of a revision, or of the newest one."""
        return [(author, length) for author, length in (await self.call("runs", rev=rev))["runs"]]

    async def read_comments(self, rev: int | None = None) -> list[PlacedComment]:
        """The comments of a revision, or of the newest one, with the resolved ones."""
        return [
            PlacedComment(name_of(one["name"]), one["author"], one["at"], one["len"], one["text"], one["resolved"])
            for one in (await self.call("comments", rev=rev))["comments"]
        ]

    async def read_changes(self, rev: int, to: int | None = None, *, wait: float = 0) -> Changes:
        """What leads from a revision to another, or to the newest one. `wait` is how many seconds the server may hold the
        answer back while there is nothing new; it takes whole ones, up to 60, and a wait is over once anything more is asked
        on the connection."""
        more = {"wait": int(wait)} if wait else {}
        reply = await self.call("changes", rev=rev, **({} if to is None else {"to": to}), **more)
        return Changes(rev, reply["to"], reply["notes"], reply["changes"])

    async def read_entries(self, start: int, count: int, *, times: bool = False) -> list[Entry]:
        """What made so many revisions, from `start` on: 1 to 100 of them, with their times if they are asked for. Those past the
        last are not listed."""
        more = {"times": True} if times else {}
        reply = await self.call("entries", **{"from": start}, count=count, **more)
        return [Entry(one["rev"], one["author"], cast(Kind, one["kind"]), name_of(one["name"]), one.get("at")) for one in reply["entries"]]

    async def read_birth(self, rev: int, at: int) -> Birth:
        """Who wrote the character that a revision shows at a place, in which revision, and when.

        Raises:
            Refused: 320 without such a revision, 321 without such a place, and 102 by an older server.
        """
        reply = await self.call("birth", rev=rev, at=at)
        return Birth(reply["author"], reply["rev"], reply["at"])

    async def read_times(self, moments: Sequence[int]) -> list[int]:
        """For each moment, in milliseconds since 1970, the last revision that is not later.

        Raises:
            Refused: 102, if the server does not know when edits were made.
        """
        return list((await self.call("times", at=list(moments)))["revs"])

    async def read_times_by(self, start: int, step: int, count: int) -> list[int]:
        """The times of revisions `start`, `start + step` and so on, 1 to 1,000 of them, in milliseconds since 1970. Those past the
        last are left out.

        Raises:
            Refused: 102, if the server does not know when edits were made.
        """
        return list((await self.call("times", **{"from": start}, step=step, count=count))["times"])

    async def read_marks(self) -> list[NamedRevision]:
        """The named revisions, in the order in which they were named.

        Raises:
            Refused: 102 by an older server.
        """
        return [NamedRevision(one["rev"], one["author"], one["at"], one["text"]) for one in (await self.call("marks"))["marks"]]

    async def read_counts(self) -> Counts:
        """How many revisions and characters the pad has."""
        reply = await self.call("revs")
        return Counts(reply["now"], reply["cells"], reply["length"])

    async def read_present(self) -> tuple[int, list[Present]]:
        """The newest revision, and who is on the pad, in the order of coming."""
        reply = await self.call("who")
        return reply["now"], [Present(one["author"], one["visit"], one["caret"]) for one in reply["who"]]

    async def read_guests(self) -> dict[str, str]:
        """The names that the guests of the pad have chosen, in the order in which they first did."""
        return {one["author"]: one["name"] for one in (await self.call("guests"))["guests"]}

    async def read_rights(self) -> list[tuple[str, Right]]:
        """Who has which right. The owner is the first; `*` is everyone."""
        return (await self.read_access()).rights

    async def read_access(self) -> Access:
        """Who has which right, and whether the pad is closed."""
        reply = await self.call("rights")
        return Access([(author, cast(Right, right)) for author, right in reply["rights"]], bool(reply.get("closed")))
