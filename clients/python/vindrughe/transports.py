"""Connections to a server: over TCP, over TLS, and over a WebSocket if python3-websockets is there.

An opener makes a new channel each time it is called. A channel carries texts, each of which is a request or a reply.
"""
from __future__ import annotations

import asyncio
import importlib
import ssl
from collections.abc import Awaitable, Callable
from typing import Any, Protocol, TypeAlias
from urllib.parse import urlsplit

_PORT = 7878
_LONGEST = 64 * 1024 * 1024  # bytes of a reply: the text of a full pad takes up to 24 MB


class Channel(Protocol):
    """A connection as a session uses it."""

    async def read(self) -> str | None:
        """The next text, or None once there is no more. OSError says that the connection broke."""

    def send(self, text: str) -> None:
        """Sends a text, without waiting for it to be sent."""

    def close(self) -> None:
        """Ends the connection at once."""


Opener: TypeAlias = Callable[[], Awaitable[Channel]]


class _Lines:
    """A line each way, over a stream."""

    def __init__(self, reader: asyncio.StreamReader, writer: asyncio.StreamWriter) -> None:
        self._reader = reader
        self._writer = writer

    async def read(self) -> str | None:
        line = await self._reader.readline()
        return line.decode() if line.endswith(b"\n") else None

    def send(self, text: str) -> None:
        self._writer.write(f"{text}\n".encode())

    def close(self) -> None:
        self._writer.transport.abort()


def tcp(host: str, port: int = _PORT, tls: ssl.SSLContext | None = None) -> Opener:
    """Opens connections over TCP, or over TLS with this context."""

    async def open_lines() -> Channel:
        return _Lines(*await asyncio.open_connection(host, port, ssl=tls, limit=_LONGEST))

    return open_lines


class _Messages:
    """A WebSocket. What is to be sent waits in a queue, so that texts keep their order."""

    def __init__(self, socket: Any, closed: type[Exception]) -> None:
        self._socket = socket
        self._closed = closed
        self._queue: asyncio.Queue[str] = asyncio.Queue()
        self._sender = asyncio.create_task(self._send_all())

    async def _send_all(self) -> None:
        try:
            while True:
                await self._socket.send(await self._queue.get())
        except self._closed:
            pass  # the reader hears of it, too

    async def read(self) -> str | None:
        try:
            return str(await self._socket.recv())
        except self._closed:
            return None

    def send(self, text: str) -> None:
        self._queue.put_nowait(text)

    def close(self) -> None:
        self._sender.cancel()
        self._socket.transport.abort()


def websocket(address: str, tls: ssl.SSLContext | None = None) -> Opener:
    """Opens WebSockets at an address like ws://127.0.0.1:8080/socket.

    Raises:
        ImportError: there is no package websockets. (Debian: python3-websockets)
    """
    try:
        websockets: Any = importlib.import_module("websockets")
    except ImportError as error:
        raise ImportError("ws:// and wss:// need the package websockets; tcp:// and tls:// need none") from error

    async def open_messages() -> Channel:
        more = {"ssl": tls} if tls else {}
        socket = await websockets.connect(address, max_size=None, max_queue=None, ping_interval=None, open_timeout=None, **more)
        return _Messages(socket, websockets.exceptions.ConnectionClosed)

    return open_messages


def opener(address: str, tls: ssl.SSLContext | None = None) -> Opener:
    """Opens connections to an address: tcp://HOST:PORT, tls://HOST:PORT, ws://HOST:PORT/socket or wss://HOST:PORT/socket.

    The port of tcp:// and tls:// is 7878 unless it is named. `tls` is the context of tls:// and wss://; by default, it is
    that of ssl.create_default_context().

    Raises:
        ValueError: the address has another form.
        ImportError: it is a WebSocket's, and there is no package websockets.
    """
    parts = urlsplit(address)
    if not parts.hostname or parts.scheme not in ("tcp", "tls", "ws", "wss"):
        raise ValueError(f"{address!r}: an address is tcp://HOST:PORT, tls://HOST:PORT, ws://HOST:PORT/socket or wss://..")
    if tls is None and parts.scheme in ("tls", "wss"):
        tls = ssl.create_default_context()
    if parts.scheme in ("ws", "wss"):
        return websocket(address, tls)
    return tcp(parts.hostname, parts.port or _PORT, tls if parts.scheme == "tls" else None)
