"""Where the author's caret is, and telling others of it: at most once a second, and once what is typed before it is sent."""
from __future__ import annotations

import asyncio
from typing import TYPE_CHECKING

from .delta import Delta, move

if TYPE_CHECKING:
    from .open_pad import OpenPad

_EVERY = 1.0  # seconds


class OwnCaret:
    def __init__(self, opened: OpenPad) -> None:
        self._opened = opened
        self.at: int | None = None
        self.is_new = False
        self._time = float("-inf")
        self._timer: asyncio.TimerHandle | None = None

    def forget(self) -> None:
        """Another text is shown: the caret is nowhere yet."""
        self.at, self.is_new = None, True

    def stop(self) -> None:
        """Tells nobody of it any more."""
        if self._timer:
            self._timer.cancel()
            self._timer = None

    def move_to(self, at: int) -> None:
        self.at, self.is_new = at, True
        self.send()

    def move(self, delta: Delta) -> None:
        """What is shown has changed."""
        if self.at is not None:
            self.at = move(self.at, delta)

    def send(self) -> None:
        """Tells others where the caret is, if that is new and may be told."""
        opened, loop = self._opened, asyncio.get_running_loop()
        pad = opened.pad
        if not opened.is_open or not self.is_new or self.at is None or not opened.presence.others or opened.is_lost or pad.is_unsent:
            return
        left = self._time + _EVERY - loop.time()
        if left > 0:
            self._timer = self._timer or loop.call_later(left, self._due)
            return
        self.is_new, self._time = False, loop.time()
        at = min(self.at, len(pad.base))
        opened.beside(lambda: pad.put_caret(pad.rev, at))  # where that fails, it is told again after the next move

    def _due(self) -> None:
        self._timer = None
        self.send()
