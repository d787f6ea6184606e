"""A connection: each text is one request or one reply, and replies come in the order of the requests."""
from __future__ import annotations

import asyncio
import json
from collections import deque
from collections.abc import Callable
from dataclasses import dataclass
from typing import Any

from .errors import Lost, Refused
from .transports import Channel, Opener

# Seconds after which a connection is given up: while it is opened; when a request is not answered; and when one is not
# answered whose answer may be large. A request counts from when those before it are answered, since a large answer to one of
# these may still be coming. A wait is answered once anything more is sent.
_OPENING, _ANSWER, _LARGE_ANSWER = 10.0, 15.0, 120.0
_LARGE = ("text", "runs", "comments")


@dataclass(slots=True)
class _Waiting:
    reply: asyncio.Future[dict[str, Any]]
    since: float
    wait: float
    most: float


def _is_large(request: dict[str, Any]) -> bool:
    return request["do"] in _LARGE or (request["do"] == "changes" and request.get("rev") == 0)


class Wire:
    """`on_down` is told once when a connection that was up is lost; not when it is closed by `close`."""

    def __init__(self, open_channel: Opener, on_down: Callable[[], None] = lambda: None) -> None:
        self._open = open_channel
        self._on_down = on_down
        self._channel: Channel | None = None
        self._reader: asyncio.Task[None] | None = None
        self._waiting: deque[_Waiting] = deque()
        self._timer: asyncio.TimerHandle | None = None
        self._farewell: Refused | None = None
        self._opening: asyncio.Future[Channel] | None = None

    @property
    def is_up(self) -> bool:
        return self._channel is not None

    async def connect(self) -> None:
        """Opens the connection.

        Raises:
            Lost: it cannot be opened, or not within 10 seconds.
        """
        self._opening = asyncio.ensure_future(self._open())
        try:
            async with asyncio.timeout(_OPENING):
                self._channel = await self._opening
        except TimeoutError:
            raise Lost(f"not connected within {_OPENING:.0f} seconds") from None
        except asyncio.CancelledError:
            task = asyncio.current_task()
            if task and task.cancelling():
                raise
            raise Lost("not connected") from None  # it was given up
        except OSError as error:
            raise Lost(f"not connected: {error.strerror or error}") from error
        except Exception as error:  # what a WebSocket's handshake raises is no OSError
            raise Lost(f"not connected: {error}") from error
        finally:
            self._opening = None
        self._reader = asyncio.create_task(self._read(self._channel))

    def give_up(self) -> None:
        """Ends an attempt to connect, which then fails with Lost."""
        if self._opening:
            self._opening.cancel()

    async def _read(self, channel: Channel) -> None:
        try:
            while (text := await channel.read()) is not None:
                self._answer(json.loads(text))
        except (OSError, ValueError, asyncio.LimitOverrunError):
            pass  # it is broken, or no server of pads is at its other end
        self.drop()

    def _answer(self, reply: dict[str, Any]) -> None:
        if not self._waiting:
            self._farewell = None if reply.get("ok") else Refused.of(reply)
            return
        waiting = self._waiting.popleft()
        if self._waiting:
            self._waiting[0].since = asyncio.get_running_loop().time()
        self._watch()
        if not waiting.reply.done():
            waiting.reply.set_result(reply)

    def ask(self, request: dict[str, Any]) -> asyncio.Future[dict[str, Any]]:
        """Sends a request at once. The future is its reply, which may be a refusal; it fails with Lost."""
        loop = asyncio.get_running_loop()
        reply: asyncio.Future[dict[str, Any]] = loop.create_future()
        if self._channel is None:
            reply.set_exception(Lost("not connected", self._farewell))
            return reply
        most = _LARGE_ANSWER if _is_large(request) else _ANSWER
        self._waiting.append(_Waiting(reply, loop.time(), float(request.get("wait") or 0), most))
        self._watch()
        self._channel.send(json.dumps(request, ensure_ascii=False, separators=(",", ":")))
        return reply

    def _watch(self) -> None:
        """Gives the connection up when the first request that waits should have been answered."""
        if self._timer:
            self._timer.cancel()
            self._timer = None
        if not self._waiting:
            return
        first = self._waiting[0]
        due = first.since
        if first.wait:
            due = max(due, self._waiting[1].since) if len(self._waiting) > 1 else due + first.wait
        self._timer = asyncio.get_running_loop().call_at(due + first.most, self.drop)

    def drop(self) -> None:
        """The connection is over: what waits fails, and `on_down` is told."""
        was_up = self.is_up
        self.close()
        if was_up:
            self._on_down()

    def close(self) -> None:
        """Ends the connection. What waits for a reply fails with Lost."""
        channel, self._channel = self._channel, None
        if self._timer:
            self._timer.cancel()
            self._timer = None
        if channel:
            channel.close()
        if self._reader and self._reader is not asyncio.current_task():
            self._reader.cancel()
        for waiting in self._waiting:
            if not waiting.reply.done():
                waiting.reply.set_exception(Lost("the connection ended", self._farewell))
                waiting.reply.exception()  # whoever asked may have gone
        self._waiting.clear()
