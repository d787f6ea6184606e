"""`pads import`: a pad of a text, or of an export of Etherpad."""
from __future__ import annotations

import argparse
import asyncio
import json
import sys
from collections.abc import Iterator
from pathlib import Path
from typing import Any

from vindrughe import PadError, Refused, Session

from .author_names import names_for, slug
from .etherpad import BEGIN, Export, read
from .failure import Failure, Status, message_of
from .opening import Connected
from .operations import Operation, Replay
from .peer import peer_of
from .reading import told
from .settings import Settings
from .writing import saved

_SUFFIX = ".etherpad"
_NOBODY = "etherpad"  # whose words of nobody are here
_EXISTS = 301


def _text_of(path: str) -> str:
    """A file's text: UTF-8, with LF at the ends of lines."""
    try:
        with open(path, encoding="utf-8-sig", newline=None) as file:
            return file.read()
    except OSError as error:
        raise Failure(Status.USAGE, f"{path}: {error.strerror}") from None
    except UnicodeDecodeError as error:
        raise Failure(Status.USAGE, f"{path}: it is not UTF-8, at byte {error.start}") from None


def _pad_of(asked: argparse.Namespace) -> str:
    """The new pad's name."""
    name = asked.pad or slug(Path(asked.file).stem)
    if not name:
        raise Failure(Status.USAGE, f"{asked.file} makes no name for a pad: name one behind it")
    return str(name)


async def import_file(connected: Connected, settings: Settings, asked: argparse.Namespace) -> None:
    if asked.file.endswith(_SUFFIX):
        await _import_etherpad(connected, settings, asked)
        return
    if asked.author:
        raise Failure(Status.USAGE, f"--author is for files that end with {_SUFFIX}")
    text, pad = _text_of(asked.file), _pad_of(asked)
    async with connected(0) as session:
        opened = await session.create(pad)
        try:
            opened.append(text)
            rev = await saved(session, asked.patience)
        except (Failure, PadError, asyncio.CancelledError) as error:
            reason = "it was interrupted" if isinstance(error, asyncio.CancelledError) else message_of(error)
            raise Failure(Status.UNSAVED, f"{pad} may have only a part of {asked.file}: {reason}. Import it again under another name") from None
    if asked.json:
        told({"pad": pad, "rev": rev, "characters": len(text)})
    else:
        print(f"{pad} has the {len(text)} characters of {asked.file}.")


# ---- Etherpad


class _Import:
    """An export, and who its authors are here."""

    def __init__(self, asked: argparse.Namespace, peer: int) -> None:
        self.export: Export = read(_text_of(asked.file))
        self.pad = asked.pad or slug(self.export.name) or _pad_of(asked)
        self.revisions = list(self.export.revisions())
        seen = dict.fromkeys(author for one in self.revisions for author in (one.author, *(whose for _, whose in one.steps)) if author)
        self.names = names_for([(author, self.export.authors.get(author, "")) for author in seen], _given(asked.author), _NOBODY)
        self.replay = Replay(peer, self.names, _NOBODY)

    def operations(self) -> list[Operation]:
        """All operations.

        Raises:
            Failure: the revisions do not lead to the text that the export has.
        """
        out = list(self.replay.begin(BEGIN))
        for revision in self.revisions:
            out += self.replay.revision(revision)
        text = self.export.text.encode("utf-16-le", "surrogatepass").decode("utf-16-le", "replace")
        if self.replay.text != text:
            raise Failure(Status.USAGE, "the export is damaged: its revisions do not lead to its text")
        return out

    def told(self) -> dict[str, Any]:
        """What is imported, as JSON has it."""
        authors = [{"there": self.export.authors.get(author, ""), "here": f"{name}@{self.replay.peer}"} for author, name in self.names.items()]
        return {"pad": self.pad, "revisions": len(self.revisions), "characters": len(self.replay.text), "authors": authors}


def _given(words: list[str]) -> dict[str, str]:
    """The authors of --author NAME=AUTHOR."""
    out: dict[str, str] = {}
    for word in words:
        there, equals, here = word.rpartition("=")
        if not equals or not there:
            raise Failure(Status.USAGE, f"--author {word}: write NAME=AUTHOR, such as 'Ann Smith=ann'")
        out[there] = here
    return out


def describe(asked: argparse.Namespace) -> None:
    """Says what an import would do."""
    if not asked.file.endswith(_SUFFIX):
        print(f"{_pad_of(asked)} would get {len(_text_of(asked.file))} characters, as yours.")
        return
    one = _Import(asked, 77)
    count = len(one.operations())
    if asked.json:
        told({**one.told(), "operations": count})
        return
    print(f"{one.pad} would get {len(one.revisions)} revisions in {count} operations, {len(one.replay.text)} characters in the end.")
    for author, name in one.names.items():
        print(f"  {json.dumps(one.export.authors.get(author, ''), ensure_ascii=False)} would be {name} of the peer")
    if one.export.messages:
        print(f"  {one.export.messages} messages of the chat are left out, and so is formatting")


async def _import_etherpad(connected: Connected, settings: Settings, asked: argparse.Namespace) -> None:
    """An import that was interrupted goes on where it stopped: an operation that the pad has is not made again."""
    one = _Import(asked, settings.peer)
    operations = one.operations()
    async with peer_of(settings) as peer, connected(0) as session:
        await _create(session, one.pad)
        others = {origin: count for origin, count in (await peer.operations_on(one.pad)).items() if origin != peer.number}
        if others:
            raise Failure(Status.REFUSED, f"{one.pad} has edits of others already: name another pad behind the file")
        await peer.push(one.pad, _counted(operations, asked.json))
        async with session.visit(one.pad) as visit:
            rev, text = await visit.read_text()
            runs = await visit.read_runs(rev)
    if (text, runs) != (one.replay.text, one.replay.runs()):
        raise Failure(Status.REFUSED, f"{one.pad} is not what the export has: peer {settings.peer} had made other edits in it. Name another pad behind the file")
    if asked.json:
        told({**one.told(), "rev": rev})
        return
    print(f"{one.pad} has the {len(one.revisions)} revisions of {asked.file}.")
    for author, name in one.names.items():
        print(f"  {json.dumps(one.export.authors.get(author, ''), ensure_ascii=False)} is {name}@{settings.peer}")


async def _create(session: Session, pad: str) -> None:
    """Creates the pad, unless it is there."""
    try:
        await session.call("create", pad=pad)
        await session.call("leave", pad=pad)
    except Refused as refusal:
        if refusal.code != _EXISTS:
            raise


def _counted(operations: list[Operation], is_quiet: bool) -> Iterator[Operation]:
    """Says in a terminal how far it is."""
    for number, operation in enumerate(operations, 1):
        if number % 1_000 == 0 and not is_quiet and sys.stderr.isatty():
            print(f"\r{number} of {len(operations)} operations", end="" if number + 1_000 <= len(operations) else "\n", file=sys.stderr)
        yield operation
