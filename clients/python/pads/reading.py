"""Commands that read: list, show, export, history, diff; and which revision they are asked for."""
from __future__ import annotations

import argparse
import json
import sys
from dataclasses import replace
from typing import Any

from vindrughe import Entry, History, Refused, Session, Visit
from vindrughe.limits import ENTRIES

from .colours import Colours
from .failure import Failure, Status
from .formats import Snapshot, written
from .moments import milliseconds, shown

_NOT_REQUEST = 102


def told(value: Any) -> None:
    """Prints JSON, on one line."""
    print(json.dumps(value, ensure_ascii=False))


async def list_pads(session: Session, asked: argparse.Namespace) -> None:
    pads = await session.pads()
    if asked.json:
        told([{"name": pad.name, "right": pad.right, "now": pad.now, **({"closed": True} if pad.is_closed else {})} for pad in pads])
    else:
        for pad in pads:
            print(f"{pad.name}\t{pad.right}\t{pad.now}" + ("\tclosed" if pad.is_closed else ""))


async def revision_of(visit: Visit, asked: argparse.Namespace) -> int | None:
    """The revision that --rev or --at name, or None for the newest.

    Raises:
        Failure: both are given, or the server does not know when edits were made.
    """
    if asked.rev is not None and asked.at is not None:
        raise Failure(Status.USAGE, "--rev and --at: one of the two says which revision")
    if asked.at is None:
        return asked.rev  # type: ignore[no-any-return]
    moment = milliseconds(asked.at)
    try:
        return (await visit.read_times([moment]))[0]
    except Refused as refusal:
        raise _untold(refusal, "--at is not possible: take --rev, and `pads history` shows the revisions") from None


def _untold(refusal: Refused, so: str) -> Exception:
    """Why times cannot be had."""
    return Failure(Status.REFUSED, f"this server does not say when edits were made, so {so}") if refusal.code == _NOT_REQUEST else refusal


async def snapshot_of(visit: Visit, asked: argparse.Namespace) -> Snapshot:
    """The revision that was asked for, with its authors and comments."""
    rev, text = await visit.read_text(await revision_of(visit, asked))
    return Snapshot(visit.name, rev, text, await visit.read_runs(rev), await visit.read_comments(rev))


async def show(session: Session, asked: argparse.Namespace) -> None:
    async with session.visit(asked.pad) as visit:
        snapshot = await snapshot_of(visit, asked)
    colours = Colours(asked.color)
    if asked.json:
        told({"pad": snapshot.pad, "rev": snapshot.rev, "text": snapshot.text, "runs": snapshot.runs})
        return
    text = _with_authors(snapshot, colours) if asked.authors else snapshot.text
    sys.stdout.write(text if text.endswith("\n") or not text else f"{text}\n")


def _with_authors(snapshot: Snapshot, colours: Colours) -> str:
    """In colours, with who has which; or each stretch behind its author's name."""
    if not colours.are_on:
        at, lines = 0, []
        for author, length in snapshot.runs:
            lines.append(f"{author}: {json.dumps(snapshot.text[at : at + length], ensure_ascii=False)}")
            at += length
        return "\n".join(lines)
    at, out = 0, [" ".join(colours.author(author, author) for author in snapshot.authors), "\n\n"]
    for author, length in snapshot.runs:
        out.append(colours.authored(snapshot.text[at : at + length], author))
        at += length
    return "".join(out)


async def export(session: Session, asked: argparse.Namespace) -> None:
    async with session.visit(asked.pad) as visit:
        text = written(await snapshot_of(visit, asked), asked.format)
    if not asked.output:
        sys.stdout.write(text)
        return
    try:
        with open(asked.output, "w", encoding="utf-8", newline="") as file:
            file.write(text)
    except OSError as error:
        raise Failure(Status.USAGE, f"{asked.output}: {error.strerror}") from None


async def history(session: Session, asked: argparse.Namespace) -> None:
    if asked.count < 1 or (asked.start is not None and asked.start < 1):
        raise Failure(Status.USAGE, "--from and --count are at least 1")
    async with session.visit(asked.pad) as visit:
        now = (await visit.read_counts()).now
        first = asked.start if asked.start is not None else max(1, now - asked.count + 1)
        entries: list[Entry] = []
        while first <= now and len(entries) < asked.count:
            some = await visit.read_entries(first, min(ENTRIES, asked.count - len(entries)), times=asked.times)
            entries += await _with_times(visit, some) if asked.times else some
            first = entries[-1].rev + 1
    if asked.json:
        told([_as_json(one) for one in entries])
    else:
        for one in entries:
            print(f"{one.rev}\t{one.author}\t{one.kind}" + ("" if one.time is None else f"\t{shown(one.time)}"))


async def _with_times(visit: Visit, entries: list[Entry]) -> list[Entry]:
    """An older server tells the times in an answer of their own."""
    if all(one.time is not None for one in entries):
        return entries
    try:
        times = await visit.read_times_by(entries[0].rev, 1, len(entries))
    except Refused as refusal:
        raise _untold(refusal, "--times is not possible") from None
    return [replace(one, time=time) for one, time in zip(entries, times)]


def _as_json(entry: Entry) -> dict[str, Any]:
    more = {} if entry.time is None else {"at": entry.time}
    return {"rev": entry.rev, "author": entry.author, "kind": entry.kind, "name": list(entry.name), **more}


async def diff(session: Session, asked: argparse.Namespace) -> None:
    async with session.visit(asked.pad) as visit:
        to = asked.to if asked.to is not None else (await visit.read_counts()).now
        if to < asked.start:
            raise Failure(Status.USAGE, f"revision {to} is earlier than {asked.start}: name the earlier one first")
        runs = await History(visit).compare(asked.start, to)
    if asked.json:
        told({"from": asked.start, "to": to, "runs": [{"text": text, "author": author, "kind": kind} for text, author, kind in runs]})
        return
    colours = Colours(asked.color)
    text = "".join(map(colours.marked, runs))
    sys.stdout.write(text if text.endswith("\n") or not text else f"{text}\n")
