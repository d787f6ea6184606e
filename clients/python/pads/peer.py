"""A peer's session: operations that were made elsewhere are given to a pad."""
from __future__ import annotations

import asyncio
from collections.abc import AsyncIterator, Iterable
from contextlib import asynccontextmanager
from typing import Any

from vindrughe import Refused, opener
from vindrughe.wire import Wire

from .failure import Failure, Status
from .settings import Settings

_AT_ONCE = 200  # pushes that are not answered yet


class Peer:
    def __init__(self, wire: Wire, number: int) -> None:
        self._wire = wire
        self.number = number

    async def call(self, do: str, **fields: Any) -> dict[str, Any]:
        reply = await self._wire.ask({"do": do, **fields})
        if not reply["ok"]:
            raise Refused.of(reply, do)
        return reply

    async def operations_on(self, pad: str) -> dict[int, int]:
        """How many operations of each server a pad has."""
        return dict((await self.call("vector", pad=pad))["seen"])

    async def push(self, pad: str, operations: Iterable[dict[str, Any]]) -> int:
        """Gives a pad operations, in their order. Returns how many of them it did not have yet.

        Raises:
            Failure: one does not fit, or waits for another: the pad has what this peer did not make.
            Refused: the pad is full, or takes none.
        """
        new = 0
        waiting: asyncio.Queue[asyncio.Future[dict[str, Any]]] = asyncio.Queue()
        for operation in operations:
            waiting.put_nowait(self._wire.ask({"do": "push", "pad": pad, "op": operation}))
            if waiting.qsize() >= _AT_ONCE:
                new += self._answered(await waiting.get_nowait())
        while not waiting.empty():
            new += self._answered(await waiting.get_nowait())
        return new

    def _answered(self, reply: dict[str, Any]) -> int:
        if not reply["ok"]:
            raise Refused.of(reply, "push")
        if reply["state"] == "held":
            raise Failure(Status.REFUSED, f"an operation of peer {self.number} waits for another: the pad is not as this import left it")
        return int(reply["state"] == "delivered")


@asynccontextmanager
async def peer_of(settings: Settings) -> AsyncIterator[Peer]:
    """A peer's session for a block.

    Raises:
        Failure: no peer is set, or the server does not know it.
    """
    if not settings.peer or not settings.peer_token:
        raise Failure(Status.USAGE, "no peer: set PADS_PEER and PADS_PEER_TOKEN, or peer and peer-token in ~/.config/vindrughe")
    wire = Wire(opener(settings.address, settings.tls()))
    await wire.connect()
    try:
        peer = Peer(wire, settings.peer)
        try:
            await peer.call("peer", number=settings.peer, token=settings.peer_token, version=2)
        except Refused as refusal:
            if refusal.code != 201:
                raise
            line = f"peer {settings.peer} TOKEN HOST:PORT"
            raise Failure(Status.REFUSED, f"the server knows no peer {settings.peer} with this token (201): its accounts file needs a line `{line}`") from None
        yield peer
    finally:
        wire.close()
