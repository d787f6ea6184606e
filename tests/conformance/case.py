"""What a case is, and what all of them need."""
from __future__ import annotations

import asyncio
from collections.abc import Awaitable, Callable
from dataclasses import dataclass
from typing import Any

from client import PATIENCE, Client, Shown
from model import ModelPad
from model_server import Room, is_edit
from server import Connection, Server


RESTING, QUIET = 3.0, 0.2  # seconds


class Failed(Exception):
    """The client is not as it has to be."""


class Play:
    """A case that is played: a client of ann's, and a server on which bob may write, too."""

    def __init__(self, command: list[str]) -> None:
        self.server = Server()
        self.client = Client(command)
        self._texts: dict[tuple[int, ...], str] = {}

    @property
    def pad(self) -> Any:
        return self.server.model.rooms["p"].pad

    @property
    def text(self) -> str:
        """The server's."""
        return self.pad.text(self.pad.now)

    @property
    def link(self) -> Connection:
        """The client's connection that has the pad: the newest."""
        joined = [one for one in self.server.connections if "p" in one.session.visits]
        if not joined:
            raise Failed("the client has not joined the pad")
        return joined[-1]

    async def begin(self, text: str = "", owner: str = "ann") -> None:
        """Starts both, with a pad whose text is bob's."""
        self.server.model.rooms["p"] = Room(ModelPad(), {owner: "own", **{name: "write" for name in ("ann", "bob") if name != owner}})
        if text:
            self.bob(0, text)
        await self.server.start()
        await self.client.start(self.server.port)
        await self.shows(text, "saved", "the pad that is opened")
        await self.rests()

    async def rests(self) -> None:
        """Waits until the client does nothing but wait for changes; not for long, since it may follow in another way."""
        loop = asyncio.get_running_loop()
        end, since = loop.time() + RESTING, loop.time()
        while loop.time() < end and loop.time() - since < QUIET:
            await asyncio.sleep(0.02)
            if not any(one.is_idle for one in self.server.connections):
                since = loop.time()

    def bob(self, at: int, text: str = "", erase: int = 0) -> None:
        """Bob changes the text at once."""
        if erase:
            self.server.acts("bob", do="delete", at=at, len=erase)
        if text:
            self.server.acts("bob", do="insert", at=at, text=text)

    async def until(self, what: Callable[[], Any], name: str, seconds: float = PATIENCE) -> None:
        if not await self.server.until(what, seconds):
            raise Failed(f"{name}: not within {seconds:.0f} seconds")

    async def asks_to_edit(self, count: int = 1) -> None:
        """Waits until so many edits have come from the client."""
        await self.until(lambda: sum(map(is_edit, self.server.asked)) >= count, f"edit {count} is sent")

    async def shown(self) -> Shown:
        """What the client shows. What it calls saved has to be the server's text of some revision that was not lost."""
        shown = await self.client.shown()
        if shown.state == "saved" and shown.text not in self.known():
            raise Failed(f"it calls {shown.text!r} saved, and the server never had that")
        return shown

    def known(self) -> set[str]:
        """The server's texts. Revisions are remembered, also those that a restored store has lost."""
        for rev in range(self.pad.now + 1):
            key = (rev, *(self.pad.entries[rev - 1]["name"] if rev else ()))
            if key not in self._texts:
                self._texts[key] = self.pad.text(rev)
        return {*self._texts.values()}

    async def shows(self, text: str, state: str, name: str, seconds: float = PATIENCE) -> Shown:
        """The client comes to show this text, in this state."""
        loop = asyncio.get_running_loop()
        end, shown = loop.time() + seconds, await self.shown()
        while (shown.text, shown.state) != (text, state):
            if loop.time() > end:
                raise Failed(f"{name}: it shows {shown.text!r} and is {shown.state}, and not {text!r} and {state}")
            await asyncio.sleep(0.02)
            shown = await self.shown()
        return shown

    async def agrees(self, name: str = "in the end", text: str | None = None, seconds: float = PATIENCE) -> None:
        """The client has sent everything, and shows the server's text with its authors; and that is this text."""
        loop = asyncio.get_running_loop()
        end = loop.time() + seconds
        while True:
            shown = await self.shown()
            runs = [list(run) for run in self.pad.runs(self.pad.now)]
            if (shown.text, shown.runs, shown.state) == (self.text, runs, "saved"):
                break
            if loop.time() > end:
                raise Failed(f"{name}: it shows {shown.text!r} by {shown.runs} and is {shown.state}; the server has {self.text!r} by {runs}")
            await asyncio.sleep(0.02)
        if text is not None and self.text != text:
            raise Failed(f"{name}: the server has {self.text!r}, and not {text!r}")

    async def end(self) -> None:
        await self.client.end()
        self.server.stop()


@dataclass(frozen=True)
class Case:
    name: str
    play: Callable[[Play], Awaitable[None]]
    is_slow: bool = False


CASES: list[Case] = []


def case(function: Callable[[Play], Awaitable[None]]) -> Callable[[Play], Awaitable[None]]:
    """Adds a function to the cases. Its name says what a client has to do, and its documentation why."""
    CASES.append(Case(function.__name__.replace("_", " "), function))
    return function


def slow_case(function: Callable[[Play], Awaitable[None]]) -> Callable[[Play], Awaitable[None]]:
    """The same for one that takes minutes."""
    CASES.append(Case(function.__name__.replace("_", " "), function, is_slow=True))
    return function
