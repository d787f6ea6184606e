"""How a program begins."""
from __future__ import annotations

import ssl
from collections.abc import AsyncIterator
from contextlib import asynccontextmanager

from .session import Session
from .sync import Pace
from .transports import opener


@asynccontextmanager
async def connect(
    address: str, *, name: str = "", token: str = "", guest: str | None = None, tls: ssl.SSLContext | None = None, pace: Pace = Pace()
) -> AsyncIterator[Session]:
    """Connects to a server and logs in, for a block of `async with`.

    At the end of the block it waits until everything is saved, as `Session.saved` does, and closes the session. After an
    exception in the block it closes it at once.

    Args:
        address: tcp://HOST:PORT, tls://HOST:PORT, or ws://HOST:PORT/socket and wss://.. with the package websockets.
        name, token: the author's, as the accounts file of the server has them.
        guest: in place of both, the token of a guest: the secret of a link and one of the guest's own, with a point between them.
        tls: the context of tls:// and wss://, by default ssl.create_default_context().
        pace: how often edits are sent and changes are asked for.

    Raises:
        Lost: there is no server.
        Refused: the name or the token is wrong, or the server takes no guests (201), or too many clients are connected (902).
        Unsaved: at the end of the block, if the server has refused something.
        ValueError: the address has another form.
    """
    session = Session(opener(address, tls), pace)
    await (session.log_in(name, token) if guest is None else session.log_in_as_guest(guest))
    try:
        yield session
        await session.saved()
    finally:
        session.close()
