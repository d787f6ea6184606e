"""Commands for the names of revisions: mark, marks."""
from __future__ import annotations

import argparse
from typing import Any

from vindrughe import NamedRevision, Refused, Session

from .failure import Failure, Status
from .moments import shown
from .reading import told

_NOT_REQUEST, _TOO_MUCH, _LONGEST = 102, 323, 100


async def mark(session: Session, asked: argparse.Namespace) -> None:
    async with session.visit(asked.pad) as visit:
        rev = asked.rev if asked.rev is not None else (await visit.read_counts()).now
        try:
            await visit.put_mark(rev, asked.text)
        except Refused as refusal:
            raise _unnamed(refusal, asked.text) from None
    if asked.json:
        told({"rev": rev})


async def marks(session: Session, asked: argparse.Namespace) -> None:
    async with session.visit(asked.pad) as visit:
        try:
            named = await visit.read_marks()
        except Refused as refusal:
            raise _unnamed(refusal, "") from None
    if asked.json:
        told([_as_json(one) for one in named])
        return
    for one in named:
        print(f"{one.rev}\t{one.author}\t{shown(one.time)}\t{' '.join(one.text.split())}")


def _unnamed(refusal: Refused, text: str) -> Exception:
    """Why a revision gets no name, or none is listed."""
    if refusal.code == _NOT_REQUEST:
        return Failure(Status.REFUSED, "this server is an older one, whose revisions have no names")
    if refusal.code == _TOO_MUCH:
        return Failure(Status.REFUSED, f"a name has at most {_LONGEST} characters" if len(text) > _LONGEST else "the pad has 200 named revisions, and takes no more")
    return refusal


def _as_json(named: NamedRevision) -> dict[str, Any]:
    return {"rev": named.rev, "author": named.author, "at": named.time, "text": named.text}
