"""A server over TCP for the cases: the model of model_server.py, whose connections can be held, cut and lost as a case says.

It is strict: a line that a server would answer 100 to 102, or an edit of a place or a revision that is not there, is a fault of
the client.
"""
from __future__ import annotations

import asyncio
import json
from collections import deque
from collections.abc import Callable
from typing import Any

from forms import has_form
from model_server import ModelServer, Session, is_edit, refuse

Request = dict[str, Any]
Filter = Callable[[Request], bool]
# Refusals that no client gets that knows what it shows, and how much an edit can take.
FAULTS = (101, 102, 310, 311, 320, 321, 322, 323)


class Connection:
    """A client's connection. Its lines are answered in their order.

    `hold` keeps lines from being served, and `mute` serves them without an answer; each takes a filter of requests.
    """

    def __init__(self, server: Server, reader: asyncio.StreamReader, writer: asyncio.StreamWriter) -> None:
        self.server, self.reader, self.writer = server, reader, writer
        self.session: Session = server.model.connect()
        self.lines: deque[Request] = deque()
        self.holds: list[Filter] = []
        self.is_muted = False
        self.is_kept = False
        self.has_ended = False
        self.timer: asyncio.TimerHandle | None = None

    async def read(self) -> None:
        """Takes lines until the client closes."""
        try:
            while line := await self.reader.readline():
                self.take(line)
        except (OSError, ValueError):
            pass
        if not self.is_kept:
            self.end()

    def take(self, line: bytes) -> None:
        try:
            request = json.loads(line)
        except ValueError:
            request = None
        if request is None or not has_form(request):
            self.server.faults.append(f"a line is no request: {line!r}")
        else:
            self.server.asked.append(request)
            self.server.stir()
        self.lines.append(request)
        self.serve()

    def serve(self, is_time_over: bool = False) -> None:
        """Answers lines in order. A wait is over when the pad moves, when another line is there, or after its time."""
        while self.lines and not self.has_ended:
            request = self.lines[0]
            if any(holds(request) for holds in self.holds):
                return
            if self.is_waiting(request) and not is_time_over:
                self.timer = self.timer or asyncio.get_running_loop().call_later(request["wait"], self.serve, True)
                return
            if self.timer:
                self.timer.cancel()
                self.timer = None
            self.lines.popleft()
            self.answer(request)

    @property
    def is_idle(self) -> bool:
        """Whether all that it has is a wait for changes."""
        return len(self.lines) == 1 and self.is_waiting(self.lines[0])

    def is_waiting(self, request: Request) -> bool:
        if len(self.lines) > 1 or not request or request.get("do") != "changes" or not request.get("wait"):
            return False
        room = self.server.model.rooms.get(request["pad"])
        return room is not None and request["pad"] in self.session.visits and room.pad.now == request["rev"]

    def answer(self, request: Request) -> None:
        reply = self.server.scripted(request) or self.server.model.reply(self.session, request)
        if reply.get("code") in FAULTS and not self.server.is_lenient and not self.is_kept and not self.is_put_out(reply, request):
            self.server.faults.append(f"{request} is {reply['code']}")
        if reply["ok"] and is_edit(request):
            self.server.made.append(request)
        if not self.is_muted:
            self.send(json.dumps(reply, ensure_ascii=False, separators=(",", ":")))
        self.server.stir()

    def is_put_out(self, reply: Request, request: Request) -> bool:
        """Whether it is refused because somebody else has ended the visit, of which the client cannot know."""
        return reply["code"] == 310 and request["pad"] in self.session.visits

    def send(self, text: str) -> None:
        if not self.writer.is_closing():
            self.writer.write(text.encode() + b"\n")

    # ---- what a case does to it

    def hold(self, holds: Filter) -> Callable[[], None]:
        """Keeps such lines, and those behind them, from being served, until the function that is returned is called."""
        self.holds.append(holds)

        def release() -> None:
            self.holds.remove(holds)
            self.serve()

        return release

    def mute(self) -> None:
        """Serves lines, and answers none from now on."""
        self.is_muted = True

    def cut(self, is_noticed: bool = True) -> None:
        """The client sees the end. The server does too, or only when `end` is called: what has come is served until then."""
        self.is_kept = not is_noticed
        self.writer.transport.abort()
        if is_noticed:
            self.end()

    def end(self) -> None:
        """The server's side is over: its visits leave."""
        if not self.has_ended:
            self.has_ended = True
            self.server.model.end(self.session)
            self.server.connections.remove(self)
            self.writer.close()
            self.server.stir()


class Server:
    """Attributes:
    asked: each request of all clients, in the order of coming.
    made: the edits that were carried out.
    faults: what clients did wrong.
    script: tells the reply to a request that is not the model's, or None.
    """

    def __init__(self) -> None:
        self.model = ModelServer()
        self.connections: list[Connection] = []
        self.asked: list[Request] = []
        self.made: list[Request] = []
        self.faults: list[str] = []
        self.scripted: Callable[[Request], Request | None] = lambda request: None
        self.greets: Callable[[Connection], bool] = lambda connection: True
        self.is_lenient = False  # refusals of what is asked are no faults
        self._stirred = asyncio.Event()
        self._server: asyncio.Server | None = None
        self.port = 0

    async def start(self) -> None:
        self._server = await asyncio.start_server(self._accept, "127.0.0.1", self.port, limit=2**24)
        self.port = self._server.sockets[0].getsockname()[1]

    async def _accept(self, reader: asyncio.StreamReader, writer: asyncio.StreamWriter) -> None:
        connection = Connection(self, reader, writer)
        self.connections.append(connection)
        self.stir()
        if self.greets(connection):
            await connection.read()

    def stop(self) -> None:
        """Ends all connections, and takes no more."""
        if self._server:
            self._server.close()
            self._server = None
        for connection in list(self.connections):
            connection.cut()

    async def restart(self, replica: int | None = None) -> None:
        """Ends, and starts again at the same address, perhaps with another number."""
        self.stop()
        self.model.restart(replica)
        await self.start()

    def stir(self) -> None:
        """Something has happened: waits are looked at, and whoever waits for something."""
        self._stirred.set()

    async def until(self, what: Callable[[], Any], seconds: float = 15) -> bool:
        """Waits until something holds. Returns whether it does."""
        loop = asyncio.get_running_loop()
        end = loop.time() + seconds
        while not what():
            self._stirred.clear()
            try:
                async with asyncio.timeout(min(0.05, max(0, end - loop.time()))):
                    await self._stirred.wait()
            except TimeoutError:
                if loop.time() >= end:
                    return bool(what())
        return True

    # ---- others

    def acts(self, author: str, **request: Any) -> Request:
        """Another author does something on the pad at once, as if over a connection of its own."""
        pad = request.get("pad", "p")
        room = self.model.rooms[pad]
        request.setdefault("rev", room.pad.now)
        reply = room.pad.reply(self.model.author(author), request)
        assert reply["ok"], (request, reply)
        for connection in list(self.connections):
            connection.serve()
        return reply

    def asks_for(self, do: str) -> int:
        """How many requests of this kind have come."""
        return sum(1 for request in self.asked if request["do"] == do)


def refusing(code: int, holds: Filter) -> Callable[[Request], Request | None]:
    """A script that refuses such requests."""
    return lambda request: refuse(code) if holds(request) else None
