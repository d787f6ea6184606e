"""What a session tells. Each event is a value of one of these classes."""
from __future__ import annotations

import asyncio
from collections.abc import AsyncIterator, Callable
from dataclasses import dataclass
from typing import Any, TypeVar

from .delta import Step
from .errors import Refused


class Event:
    """What has happened."""


@dataclass(frozen=True, slots=True)
class Changed(Event):
    """What is shown has changed by a delta, by the author or by others."""

    delta: list[Step]


@dataclass(frozen=True, slots=True)
class Received(Event):
    """Others have changed what is shown, or words of the author were taken back, since the server refused them."""

    delta: list[Step]


@dataclass(frozen=True, slots=True)
class Moved(Event):
    """`Pad.rev` has moved from a revision to another, which the author's own edit made if `is_own`."""

    start: int
    to: int
    is_own: bool


@dataclass(frozen=True, slots=True)
class StateChanged(Event):
    """`Session.state` may be another one."""


@dataclass(frozen=True, slots=True)
class PresenceChanged(Event):
    """Who is on the pad, or where their carets are."""


@dataclass(frozen=True, slots=True)
class CommentsChanged(Event):
    """The comments, or where their words are."""


@dataclass(frozen=True, slots=True)
class RightsChanged(Event):
    """`Session.right`, `Session.rights` and `Session.is_closed`."""


@dataclass(frozen=True, slots=True)
class Came(Event):
    """Another author has come to the pad."""

    author: str


@dataclass(frozen=True, slots=True)
class Went(Event):
    """Another author has gone."""

    author: str


@dataclass(frozen=True, slots=True)
class WordsRefused(Event):
    """The server does not take these words. `Session.kept` has them."""

    refusal: Refused
    words: str


@dataclass(frozen=True, slots=True)
class Reread(Event):
    """The server had another text than the one that was shown, and the pad was read again."""


@dataclass(frozen=True, slots=True)
class Ended(Event):
    """The session has ended by itself: the account, the right or the pad is gone, or a listener has failed."""

    error: Exception


_Kind = TypeVar("_Kind", bound=Event)
_Listener = Callable[[Any], None]


class Events:
    """Who listens to what."""

    def __init__(self) -> None:
        self._listeners: list[tuple[type[Event], _Listener]] = []

    def on(self, kind: type[_Kind], listener: Callable[[_Kind], None]) -> Callable[[], None]:
        """Has a listener called with each event of a class, until the function that is returned is called."""
        entry: tuple[type[Event], _Listener] = (kind, listener)
        self._listeners.append(entry)

        def end() -> None:
            self._listeners = [one for one in self._listeners if one is not entry]

        return end

    def tell(self, event: Event) -> None:
        for kind, listener in list(self._listeners):
            if isinstance(event, kind):
                listener(event)

    async def stream(self, *kinds: type[_Kind]) -> AsyncIterator[_Kind]:
        """Each event of these classes from now on, or of all; `Ended` ends it."""
        queue: asyncio.Queue[Event] = asyncio.Queue()
        end = self.on(Event, queue.put_nowait)
        try:
            while True:
                event = await queue.get()
                if isinstance(event, kinds or Event):
                    yield event  # type: ignore[misc]
                if isinstance(event, Ended):
                    return
        finally:
            end()
