"""What a client finds out after a broken connection, before it goes on: whether the server still has the text that is shown,
and whether the edit that was not answered was made."""
from __future__ import annotations

import asyncio
from collections.abc import Awaitable, Callable
from dataclasses import dataclass
from typing import TYPE_CHECKING, TypeVar

from . import limits
from .delta import Delta, Insert, Keep, apply, move, transform
from .errors import LostRevisions, Misfit
from .requests import Entry, PadRequests

if TYPE_CHECKING:
    from .sync import Sync

_EDITS = ("insert", "delete", "edit")
_FIRST_LOOK, _LAST_LOOK = 0.1, 2.0  # seconds
_Found = TypeVar("_Found")


async def resume(pad: Sync, visit: int, me: str, is_made: bool | None) -> None:
    """`Sync.resume`."""
    pad.stop()
    await _compare(pad)
    await _settle(pad, visit, me, is_made)
    pad.begin(visit)
    pad.take_name(me)
    pad.advance(await pad.read_changes(pad.rev))


async def _compare(pad: Sync) -> None:
    """Compares the operation that the pad remembers, and the whole text. If a revision that it cannot name has another text,
    its past is another one, too."""
    mark, rev, base = pad.mark, pad.rev, pad.base
    if (await pad.read_counts()).now < max(rev, mark.rev):
        raise LostRevisions(pad.name)
    if mark.rev > 0:
        entry = await pad.read_entry(mark.rev)
        if not entry or (entry.author, entry.name) != (mark.author, mark.name):
            raise LostRevisions(pad.name)
    if (await pad.read_text(rev))[1] != base:
        raise Misfit(f"revision {rev} has another text") if mark.rev >= rev else LostRevisions(pad.name)


async def _settle(pad: Sync, visit: int, me: str, is_made: bool | None) -> None:
    """Decides about the edit that was not answered. If the server tells that nothing more was made, it is sent again. Otherwise
    it is looked for: where the server cannot tell, the old connection can still deliver it, however late, so it is sent again
    only when its visit is gone. To erase words twice does no harm."""
    if pad.flight is None:
        return
    if pad.made_at:
        await pad.land_at(pad.made_at)
        return
    if is_made is False or not any(isinstance(step, Insert) for step in pad.flight):
        pad.unsend()
        return
    search = _Search(pad.rev + 1, {pad.visit, pad.sent_in, visit}, {*pad.names, me}, bool(is_made))
    await when_gone(pad, pad.sent_in, lambda: _find(pad, search))
    if pad.flight is not None:
        pad.unsend()


async def when_gone(
    pad: PadRequests, visit: int, look: Callable[[], Awaitable[_Found | None]], goes_on: Callable[[], bool] = lambda: True
) -> _Found | None:
    """Looks at something until it is found, or until nothing more can come of a visit. What it made before it went is there
    when the last look is taken. Returns what was found, also if `goes_on` ends it."""
    wait = _FIRST_LOOK
    while goes_on():
        _, present = await pad.read_present()
        is_gone = all(one.visit != visit for one in present)
        found = await look()
        if found or is_gone:
            return found
        await asyncio.sleep(wait)
        wait = min(wait * 1.5, _LAST_LOOK)
    return None


@dataclass(slots=True)
class _Search:
    """Where to look: from a revision on, which visits and names are this client's, and whether something was made for sure."""

    start: int
    mine: set[int]
    names: set[str]
    is_made: bool


async def _find(pad: Sync, search: _Search) -> bool:
    """Looks for the revision that the flight made: one of this author that changes just what the flight changes there. Earlier
    searches have looked at the revisions before `search.start`."""
    now = pad.now
    while search.start <= now:
        entries = await pad.read_entries(search.start, limits.ENTRIES)
        now = pad.now
        for entry in entries:
            search.start = entry.rev + 1
            if _may_be(entry, pad) and await _is_flight(pad, entry.rev, search):
                return True
    return False


def _may_be(entry: Entry, pad: Sync) -> bool:
    return entry.author in pad.names and entry.kind in _EDITS


async def _is_flight(pad: Sync, rev: int, search: _Search) -> bool:
    before = await pad.read_changes(pad.rev, rev - 1)
    made = await pad.read_changes(rev - 1, rev)
    theirs = before.over(pad.base)
    text = apply(pad.base, theirs)
    mine, _ = transform(pad.flight or [], theirs)
    result = apply(text, mine)
    if result != apply(text, made.over(text)):
        return False
    if not search.is_made and await _is_of_other_window(pad, rev, result, _ends_of(mine), search):
        return False
    pad.land(theirs, rev, before.notes)
    return True


async def _is_of_other_window(pad: Sync, rev: int, text: str, ends: list[int], search: _Search) -> bool:
    """The server does not tell which session of an author made an edit. If another session of this author has its caret
    directly behind the words, as it has where it typed them, the words are taken for that one's, and the flight is sent."""
    now, present = await pad.read_present()
    others = [one for one in present if one.author in search.names and one.visit not in search.mine]
    if not others:
        return False
    since = (await pad.read_changes(rev, now)).over(text)
    places = {move(end, since) for end in ends}
    return any(one.caret in places for one in others)


def _ends_of(delta: Delta) -> list[int]:
    """Where the insertions of a delta end in what it leads to."""
    ends: list[int] = []
    at = 0
    for step in delta:
        if isinstance(step, (Keep, Insert)):
            at += step.length
        if isinstance(step, Insert):
            ends.append(at)
    return ends
