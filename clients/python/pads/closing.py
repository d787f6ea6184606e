"""Commands for a pad that is over: close, reopen."""
from __future__ import annotations

import argparse

from vindrughe import Refused, Session

from .failure import Failure, Status

_NOT_REQUEST = 102


async def close(session: Session, asked: argparse.Namespace) -> None:
    async with session.visit(asked.pad) as visit:
        try:
            await visit.close()
        except Refused as refusal:
            raise _undone(refusal) from None


async def reopen(session: Session, asked: argparse.Namespace) -> None:
    async with session.visit(asked.pad) as visit:
        try:
            await visit.reopen()
        except Refused as refusal:
            raise _undone(refusal) from None


def _undone(refusal: Refused) -> Exception:
    """Why a pad is neither closed nor opened."""
    return Failure(Status.REFUSED, "this server is an older one, which closes no pads") if refusal.code == _NOT_REQUEST else refusal
