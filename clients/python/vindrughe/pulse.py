"""What a session asks now and then about a pad that it follows, since no wait tells it. Each such request also ends a wait,
which is asked again."""
from __future__ import annotations

import asyncio
from typing import TYPE_CHECKING

from .errors import PadError

if TYPE_CHECKING:
    from .open_pad import OpenPad

# Seconds until it is asked again who is here: alone, with a few others, with more of them, in a crowd.
_ALONE, _FEW, _TOGETHER, _CROWD = 4.0, 1.0, 2.0, 10.0
_MOST_FEW, _MOST_TOGETHER = 5, 20
_RIGHTS_EVERY, _LENGTH_EVERY = 10.0, 60.0


class Pulse:
    """Who is here and which rights there are, what made the pad's revision, and whether its text has the length that the server
    says."""

    def __init__(self, opened: OpenPad) -> None:
        self._opened = opened
        self._rights_at = asyncio.get_running_loop().time()
        self._length_at = float("-inf")

    async def run(self) -> None:
        """Asks, until the pad is left."""
        while self._opened.is_open:
            await asyncio.sleep(_time_among(len(self._opened.presence.others)))
            if self._opened.is_lost:
                continue
            try:
                await self._ask()
            except PadError:
                pass  # the loop of the pad meets the same, and says so

    async def _ask(self) -> None:
        opened, now = self._opened, asyncio.get_running_loop().time()
        opened.presence.take(*await opened.pad.read_present())
        await opened.pad.read_mark()
        if now - self._rights_at >= _RIGHTS_EVERY:
            self._rights_at = now
            await opened.read_rights()
            await opened.comments.read_moved()
        if now - self._length_at >= _LENGTH_EVERY:
            self._length_at = now
            await self._compare_length()

    async def _compare_length(self) -> None:
        """The length can be compared if the pad has just the revision that was counted."""
        pad, counts = self._opened.pad, await self._opened.pad.read_counts()
        if counts.now == pad.rev and counts.length != len(pad.base) and not pad.is_unfit:
            await self._opened.read_again()


def _time_among(others: int) -> float:
    if others > _MOST_TOGETHER:
        return _CROWD
    if others > _MOST_FEW:
        return _TOGETHER
    return _FEW if others else _ALONE
