"""Connections for commands, and what they wait for."""
from __future__ import annotations

import asyncio
from collections.abc import AsyncIterator, Awaitable, Callable
from contextlib import AbstractAsyncContextManager, asynccontextmanager
from typing import TypeAlias

from vindrughe import Lost, Pad, Refused, Session, opener
from vindrughe.connection import PASSING

from .failure import Failure, Status
from .settings import Settings

_FIRST_PAUSE, _LAST_PAUSE = 0.2, 3.0  # seconds

#: Opens a session for a block, and closes it at its end without waiting for anything. It is tried for so many seconds.
Connected: TypeAlias = Callable[[float], AbstractAsyncContextManager[Session]]


def connected_by(settings: Settings) -> Connected:
    """Sessions of these settings.

    Raises:
        Failure: the address has another form, or its kind needs a package that is not there.
    """
    try:
        open_channel = opener(settings.address, settings.tls())
    except (ValueError, ImportError) as error:
        raise Failure(Status.USAGE, str(error)) from None

    @asynccontextmanager
    async def connected(patience: float = 0) -> AsyncIterator[Session]:
        session = Session(open_channel)
        await _log_in(session, settings, patience)
        try:
            yield session
        finally:
            session.close()

    return connected


async def joined(session: Session, name: str, patience: float, load: Callable[[Pad], Awaitable[object]] = Pad.load) -> Pad:
    """Opens a pad, and tries again while the connection is lost. Nothing is sent before it is open."""
    loop = asyncio.get_running_loop()
    end = loop.time() + patience
    while True:
        try:
            return await session.join(name, load)
        except Lost:
            if loop.time() > end or session.is_over:
                raise
        await asyncio.sleep(_FIRST_PAUSE)


async def _log_in(session: Session, settings: Settings, patience: float) -> None:
    """Tries again while there is no server, or it is full."""
    loop = asyncio.get_running_loop()
    end, pause = loop.time() + patience, _FIRST_PAUSE
    while True:
        try:
            await session.log_in(settings.name, settings.token)
            return
        except (Lost, Refused) as error:
            if (isinstance(error, Refused) and error.code not in PASSING) or loop.time() + pause > end:
                raise
        await asyncio.sleep(pause)
        pause = min(2 * pause, _LAST_PAUSE)
