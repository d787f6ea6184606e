"""`pads follow`: what comes, as it comes."""
from __future__ import annotations

import argparse
import sys

from vindrughe import Ended, Event, History, Moved, Session
from vindrughe.history import ComparedRun
from vindrughe.limits import ENTRIES

from .colours import Colours
from .reading import told


async def follow(session: Session, asked: argparse.Namespace) -> None:
    """Prints each change until the session ends; an interrupt ends the program."""
    pad = await session.join(asked.pad)
    history, colours = History(pad), Colours(asked.color)
    if not asked.json:
        print(f"Following {pad.name}, at revision {pad.rev}.", file=sys.stderr)
    was_closed = False
    async for event in session.events(Event):
        if isinstance(event, Ended):
            raise event.error
        if was_closed != (session.state == "closed"):
            was_closed = not was_closed
            print("The pad is closed." if was_closed else "The pad is open again.", file=sys.stderr, flush=True)
        if isinstance(event, Moved):
            await _print(history, event.start, event.to, asked.json, colours)


async def _print(history: History, start: int, to: int, is_json: bool, colours: Colours) -> None:
    """One line for each line of the text in which something came or went, or JSON. Revisions that came together are told
    together."""
    authors: list[str] = []
    for rev in range(start + 1, min(to, start + ENTRIES) + 1):
        entry = await history.entry(rev)
        if entry and entry.author not in authors:
            authors.append(entry.author)
    runs = await history.compare(start, to)
    if is_json:
        changes = [{"text": text, "author": author, "kind": kind} for text, author, kind in runs if kind != "keep"]
        told({"rev": to, "authors": authors, "changes": changes})
    else:
        names = " ".join(colours.author(author, author) for author in authors)
        for number, line in _changed_lines(runs):
            print(f"{to}\t{names}\t{number}: {''.join(map(colours.marked, line))}")
    sys.stdout.flush()


def _changed_lines(runs: list[ComparedRun]) -> list[tuple[int, list[ComparedRun]]]:
    """The lines in which something came or went, with their numbers now. A new line that came or went is shown as ⏎."""
    out: list[tuple[int, list[ComparedRun]]] = []
    line: list[ComparedRun] = []
    number, is_changed = 1, False

    def end() -> None:
        nonlocal line, is_changed
        if is_changed:
            out.append((number, line))
        line, is_changed = [], False

    for text, author, kind in runs:
        is_changed = is_changed or kind != "keep"
        for count, piece in enumerate(text.split("\n")):
            if count:
                if kind != "keep":
                    line.append(("⏎", author, kind))
                if kind != "drop":
                    end()
                    number += 1
                    is_changed = kind != "keep" and bool(piece)
            if piece:
                line.append((piece, author, kind))
    end()
    return out

