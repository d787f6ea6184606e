"""An author's connection: logs in, and connects again when the connection is lost. What uses it says what to do then."""
from __future__ import annotations

import asyncio
import random
from collections.abc import Coroutine
from dataclasses import dataclass, field
from typing import Any

from .errors import Lost, PadClosed, Refused
from .transports import Opener
from .wire import Wire

_FIRST_PAUSE, _LAST_PAUSE, _CLOSED_PAUSE = 0.3, 5.0, 30.0  # seconds
# Refusals that pass: out of memory, a full disk, too many clients. When a pad is joined again, also that it is crowded: the
# visits of connections that broke may still be counted.
PASSING = (900, 901, 902)
_CROWDED = 313
# There is no visit, since somebody else has ended it: by closing the pad, or by a join in place of it. The connection cannot join
# that pad again.
NOT_JOINED = 310


@dataclass(frozen=True, slots=True)
class Login:
    """Without a name, it is a guest's."""

    name: str | None
    token: str = field(repr=False)

    @property
    def request(self) -> dict[str, str]:
        if self.name is None:
            return {"do": "guest", "token": self.token}
        return {"do": "hello", "name": self.name, "token": self.token}


class Connection:
    """Attributes:
    me: the author as others see it, `name@number`. The number of the server can change.
    is_lost: there is no connection, and it is tried to make one.
    ended_by: what has ended the session by itself, or None.
    """

    def __init__(self, open_channel: Opener) -> None:
        self._opener = open_channel
        self._wire: Wire | None = None
        self._login: Login | None = None
        self._tasks: set[asyncio.Task[None]] = set()
        self._hurried = asyncio.Event()
        self.me = ""
        self.is_lost = False
        self.ended_by: Exception | None = None

    # ---- what a session makes of it

    async def _stop(self) -> None:
        """The connection is lost: nothing more is sent over it."""

    async def _go_on(self) -> None:
        """There is a connection again."""

    def _tell_state(self) -> None:
        """The state may be another one."""

    def _tell_end(self, error: Exception) -> None:
        """The session has ended by itself."""

    # ----

    @property
    def name(self) -> str:
        """The author's name, without the number of the server."""
        return self.me.split("@")[0]

    @property
    def is_over(self) -> bool:
        return self.ended_by is not None

    def start_task(self, work: Coroutine[Any, Any, None]) -> asyncio.Task[None]:
        """Does something beside all else, until it is done or the session is closed."""
        task = asyncio.create_task(work)
        self._tasks.add(task)
        task.add_done_callback(self._tasks.discard)
        return task

    def ask(self, request: dict[str, Any]) -> asyncio.Future[dict[str, Any]]:
        """Sends a request at once. The future is its reply, which may be a refusal; it fails with Lost."""
        return (self._wire or Wire(self._opener)).ask(request)

    async def call(self, do: str, **fields: Any) -> dict[str, Any]:
        """Any request: its reply.

        Raises:
            Refused: the server refuses it.
            Lost: the connection ends before the answer. It may have been carried out.
        """
        reply = await self.ask({"do": do, **fields})
        if not reply["ok"]:
            raise Refused.of(reply, do)
        return reply

    async def log_in(self, name: str, token: str) -> None:
        """Connects, and logs in.

        Raises:
            Lost: there is no server.
            Refused: the name or the token is wrong (201), or too many clients are connected (902).
        """
        await self._log_in(Login(name, token))

    async def log_in_as_guest(self, token: str) -> None:
        """Connects, and logs in as a guest. The token is the secret of a link and one of the guest's own, with a point between them.

        Raises:
            Lost: there is no server.
            Refused: the server takes no guests (201), or too many clients are connected (902).
        """
        await self._log_in(Login(None, token))

    async def _log_in(self, login: Login) -> None:
        self._login = login
        try:
            await self._connect(login)
        except BaseException:
            if self._login is login:
                self._login = None
            raise

    async def _connect(self, login: Login) -> None:
        is_logged_in = False
        wire = Wire(self._opener, lambda: self._down(wire) if is_logged_in else None)
        if self._wire:
            self._wire.close()
        self._wire = wire
        try:
            await wire.connect()
            request = login.request
            reply = await wire.ask(request)
            if not reply["ok"]:
                raise Refused.of(reply, request["do"])
            self.me, is_logged_in = reply["author"], True
        except BaseException as error:
            if wire is self._wire:
                self._wire = None
            wire.close()
            if isinstance(error, Lost) and error.refusal:
                raise error.refusal from error
            raise

    def _down(self, wire: Wire) -> None:
        if wire is not self._wire or not self._login or self.is_lost:
            return
        self.is_lost = True
        self._tell_state()
        self.start_task(self._reconnect())

    async def _reconnect(self) -> None:
        """Tries again until it works, with growing pauses."""
        await self._stop()
        wait = _FIRST_PAUSE
        self._hurried.clear()
        while login := self._login:
            try:
                async with asyncio.timeout(wait * (0.8 + 0.4 * random.random())):
                    await self._hurried.wait()
            except TimeoutError:
                pass
            self._hurried.clear()
            wait = min(wait * 1.7, _LAST_PAUSE)
            try:
                await self._connect(login)
                await self._go_on()
            except Lost:
                continue
            except Exception as error:
                if isinstance(error, PadClosed):
                    wait = _CLOSED_PAUSE
                    continue
                if isinstance(error, Refused) and error.code in (*PASSING, _CROWDED, NOT_JOINED):
                    continue
                self.end_with(error)
                return
            self.is_lost = False
            self._tell_state()
            return

    def renew(self) -> None:
        """Gives the connection up for another one."""
        if self._wire:
            self._wire.drop()

    def hurry(self) -> None:
        """Ends a pause between two attempts to connect, or an attempt that hangs."""
        self._hurried.set()
        if self._wire and not self._wire.is_up:
            self._wire.give_up()

    def end_with(self, error: Exception) -> None:
        """The session cannot go on: the account, the right or the pad is gone, or a listener has failed."""
        if self.ended_by is None:
            self.ended_by = error
            self._tell_end(error)
        self.close()

    def close(self) -> None:
        """Ends the session, without waiting for what is not sent: `Session.saved` does that."""
        self._login = None
        if self._wire:
            self._wire.close()
            self._wire = None
        current = asyncio.current_task()
        for task in self._tasks:
            if task is not current:
                task.cancel()
