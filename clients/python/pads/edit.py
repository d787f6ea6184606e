"""`pads edit`: a pad in an editor. What was changed goes out as edits of the revision that was opened."""
from __future__ import annotations

import argparse
import asyncio
import os
import shlex
import signal
import sys
import tempfile
from dataclasses import dataclass
from pathlib import Path

from vindrughe import Entry, LostRevisions, Pad, PadError, PadRequests, difference

from .failure import Failure, Status, message_of
from .opening import Connected, joined
from .reading import told
from .writing import saved


@dataclass(frozen=True)
class _Opened:
    """A revision that is in the editor: its text, and what made it."""

    rev: int
    text: str
    made: list[Entry]

    async def load(self, pad: Pad, edited: str) -> None:
        """Makes the pad that revision, and types what was changed.

        Raises:
            LostRevisions: the server has another one by now.
        """
        await pad.load_at(self.rev)
        if pad.text != self.text or await _made(pad, self.rev) != self.made:
            raise LostRevisions(f"revision {self.rev} of the server is another one than the one that was opened")
        pad.type(difference(self.text, edited))


async def _made(pad: PadRequests, rev: int) -> list[Entry]:
    return await pad.read_entries(rev, 1) if rev else []


async def edit(connected: Connected, asked: argparse.Namespace) -> None:
    """There is no connection while the editor is open, which may be for hours."""
    async with connected(0) as session, session.visit(asked.pad) as visit:
        rev, text = await visit.read_text()
        opened = _Opened(rev, text, await _made(visit, rev))
    file = _write(asked.pad, text)
    await _run_editor(file)
    edited = _read(file)
    if edited == text:
        file.unlink()
        print("Nothing was changed.", file=sys.stderr)
        return
    try:
        async with connected(asked.patience) as session:
            await joined(session, asked.pad, asked.patience, lambda pad: opened.load(pad, edited))
            now = await saved(session, asked.patience)
    except (PadError, Failure, asyncio.CancelledError) as error:
        reason = "it was interrupted" if isinstance(error, asyncio.CancelledError) else message_of(error)
        raise Failure(Status.UNSAVED, f"not saved: {reason}. Your text is in {file}") from None
    file.unlink()
    if asked.json:
        told({"rev": now})


def _write(pad: str, text: str) -> Path:
    """A file that only its owner can read."""
    handle, name = tempfile.mkstemp(prefix=f"{pad}-", suffix=".txt")
    with open(handle, "w", encoding="utf-8", newline="") as file:
        file.write(text)
    return Path(name)


def _read(file: Path) -> str:
    try:
        with open(file, encoding="utf-8", newline="") as text:
            return text.read()
    except (OSError, UnicodeDecodeError) as error:
        raise Failure(Status.UNSAVED, f"not saved: {file} cannot be read: {error}") from None


async def _run_editor(file: Path) -> None:
    """Waits until the editor has ended. One that fails, as vi does with :cq, changes nothing."""
    command = os.environ.get("VISUAL") or os.environ.get("EDITOR") or "vi"
    # An interrupt is the editor's own matter, though a terminal sends it to both.
    before = signal.signal(signal.SIGINT, lambda *_: None)
    try:
        process = await asyncio.create_subprocess_exec(*shlex.split(command), str(file))
        status = await process.wait()
    except (OSError, ValueError) as error:
        file.unlink()
        raise Failure(Status.USAGE, f"the editor {command!r} cannot be started: {error}") from None
    finally:
        signal.signal(signal.SIGINT, before)
    if status:
        raise Failure(Status.UNSAVED, f"not saved: the editor {command!r} ended with status {status}. Your text is in {file}")
