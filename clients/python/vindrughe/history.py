"""Earlier revisions of a pad: their texts, who made them and when, and what differs between two of them."""
from __future__ import annotations

from collections.abc import Sequence
from dataclasses import dataclass
from typing import Literal, TypeAlias

from . import limits
from .delta import Drop, Insert, Run, Step, apply, apply_runs, invert
from .errors import Refused
from .requests import Birth, Changes, Entry, PadRequests

_MOST_KEPT, _NEAR, _NOT_REQUEST = 40, 400, 102

#: A stretch of a comparison: its text, its author, and whether it came, went or stayed.
ComparedRun: TypeAlias = tuple[str, str, Literal["insert", "drop", "keep"]]


@dataclass(frozen=True, slots=True)
class Revision:
    rev: int
    text: str
    runs: list[Run]


class History:
    """Of a pad that is joined: a `Pad` or a `Visit`."""

    def __init__(self, pad: PadRequests) -> None:
        self._pad = pad
        self._known: dict[int, Revision] = {}
        self._entries: dict[int, Entry] = {}
        self._times: dict[int, int] = {}
        self._birth: tuple[tuple[int, int], Birth] | None = None  # the last answer, behind the revision and the place

    async def at(self, rev: int) -> Revision:
        """A revision with its authors.

        Raises:
            Refused: there is no such revision (320).
        """
        known = self._known.pop(rev, None)
        if known is None:
            near = max((one for one in self._known if rev - _NEAR < one < rev), default=0)
            start = self._known.get(near, Revision(0, "", []))
            delta = (await self._pad.read_changes(start.rev, rev)).over(start.text)
            known = Revision(rev, apply(start.text, delta), apply_runs(start.runs, delta))
        self._known[rev] = known
        if len(self._known) > _MOST_KEPT:
            del self._known[next(iter(self._known))]
        return known

    async def entry(self, rev: int) -> Entry | None:
        """Who made a revision, and how; None for revision 0, which is empty, and for one that is not there yet."""
        if rev > 0 and rev not in self._entries:
            for entry in await self._pad.read_entries(_first_around(rev), limits.ENTRIES, times=True):
                self._entries[entry.rev] = entry
                if entry.time is not None:
                    self._times[entry.rev] = entry.time
        return self._entries.get(rev)

    async def time(self, rev: int) -> int | None:
        """When the server heard of a revision, in milliseconds since 1970; None for revision 0, for one that is not there yet, and
        where the server does not tell."""
        if await self.entry(rev) and rev not in self._times:
            start = _first_around(rev)
            try:
                self._times.update(enumerate(await self._pad.read_times_by(start, 1, limits.ENTRIES), start))
            except Refused as refusal:
                if refusal.code != _NOT_REQUEST:
                    raise
        return self._times.get(rev)

    async def birth(self, rev: int, at: int) -> Birth:
        """Who wrote the character at a place of a revision. The last answer is kept.

        Raises:
            Refused: 320 without such a revision, 321 without such a place, and 102 by an older server.
        """
        if self._birth is None or self._birth[0] != (rev, at):
            self._birth = ((rev, at), await self._pad.read_birth(rev, at))
        return self._birth[1]

    async def back(self, rev: int, to: int, author: str) -> list[Step]:
        """The delta that leads from revision `to` back to the text of `rev`. What was erased in between comes back as words of
        `author`."""
        old = await self.at(rev)
        return invert((await self._pad.read_changes(rev, to)).over(old.text), old.text, author)

    async def compare(self, start: int, to: int) -> list[ComparedRun]:
        """Two revisions in one text: what came by `to`, what went since `start`, and what stayed."""
        old = await self.at(start)
        return merged(old, await self._pad.read_changes(start, to))


def _first_around(rev: int) -> int:
    """Where a list of entries begins that has a revision in its middle."""
    return max(1, rev - limits.ENTRIES // 2)


def merged(old: Revision, changes: Changes) -> list[ComparedRun]:
    """A revision and what came and went since, in one text."""
    out: list[ComparedRun] = []
    at = 0
    ends = _ends(old.runs)
    for step in changes.over(old.text):
        if isinstance(step, Insert):
            out.append((step.text, step.author, "insert"))
            continue
        out += _stretch(old.text, ends, at, at + step.length, "drop" if isinstance(step, Drop) else "keep")
        at += step.length
    return out + _stretch(old.text, ends, at, len(old.text), "keep")


def _ends(runs: Sequence[Run]) -> list[Run]:
    """The authors of runs, with the places at which they end."""
    out: list[Run] = []
    for author, length in runs:
        out.append((author, length + (out[-1][1] if out else 0)))
    return out


def _stretch(text: str, ends: Sequence[Run], start: int, stop: int, kind: Literal["drop", "keep"]) -> list[ComparedRun]:
    out: list[ComparedRun] = []
    for author, end in ends:
        to = min(stop, end)
        if start < to:
            out.append((text[start:to], author, kind))
            start = to
    return out
