"""Commands that change a pad: create, append, comment, grant, hand; and log-in."""
from __future__ import annotations

import argparse
import asyncio
import tempfile

from vindrughe import PadError, PlacedComment, Session, connect
from vindrughe.requests import Name

from . import settings as configuration, standard_input
from .author_names import slug
from .failure import Failure, Status, failure_of, message_of
from .formats import comment_of
from .opening import Connected, joined
from .reading import told
from .settings import Settings


async def saved(session: Session, patience: float) -> int:
    """Waits until everything is on the server. Returns the newest revision.

    Raises:
        Unsaved: the server does not take it, or the session has ended before. The cause says why.
        Failure: there was no connection, or the server took nothing, for so many seconds.
    """
    while True:
        before = session.state
        try:
            async with asyncio.timeout(patience):
                await session.saved()
            break
        except TimeoutError:
            if before == session.state != "saving":
                raise Failure(Status.UNSAVED, _why_unsent(session, patience)) from None
    assert session.pad
    return session.pad.rev


def _why_unsent(session: Session, patience: float) -> str:
    if session.held_by:
        return message_of(session.held_by)
    return f"{'the pad was closed' if session.state == 'closed' else 'there was no connection'} for {patience:g} seconds"


async def create(session: Session, asked: argparse.Namespace) -> None:
    await session.create(asked.pad)
    if asked.json:
        told({"pad": asked.pad, "rev": 0})


async def append(connected: Connected, asked: argparse.Namespace) -> None:
    """A line of its own: where the pad does not end with a new line, one is put before. What came by standard input is lost with
    the program, so from then on whatever fails leaves it in a file."""
    text = "\n".join(asked.text) if asked.text else standard_input.read_text()
    try:
        async with connected(asked.patience) as session:
            pad = await joined(session, asked.pad, asked.patience)
            if text:
                start = "" if not pad.text or pad.text.endswith("\n") else "\n"
                pad.append(f"{start}{text}" if text.endswith("\n") else f"{start}{text}\n")
            rev = await saved(session, asked.patience)
    except (Failure, PadError, asyncio.CancelledError) as error:
        raise _unsaved(asked.pad, text, error) from None
    if asked.json:
        told({"rev": rev})


def _unsaved(pad: str, text: str, error: BaseException) -> Failure:
    """Why it is not known whether words are saved, and where they are kept: in a file that only its owner can read."""
    reason = "it was interrupted" if isinstance(error, asyncio.CancelledError) else message_of(error)
    # The name need not be one that a pad can have.
    handle, name = tempfile.mkstemp(prefix=f"{slug(pad) or 'pad'}-", suffix=".txt")
    with open(handle, "w", encoding="utf-8", newline="") as file:
        file.write(text)
    return Failure(Status.UNSAVED, f"not known to be saved: {reason}. Your text is in {name}")


# ---- comments


async def comment(session: Session, asked: argparse.Namespace) -> None:
    if asked.resolve is not None:
        await _resolve(session, asked)
    elif asked.text is None:
        await _list(session, asked)
    else:
        await _make(session, asked)


def _shown(name: Name) -> str:
    return f"{name[0]}-{name[1]}"


async def _list(session: Session, asked: argparse.Namespace) -> None:
    if asked.on is not None or asked.nth is not None:
        raise Failure(Status.USAGE, "--on and --nth need TEXT: what you say of these words")
    async with session.visit(asked.pad) as visit:
        rev, text = await visit.read_text()
        comments = await visit.read_comments(rev)
    if asked.json:
        told([comment_of(one) for one in comments])
        return
    for one in comments:
        print("\t".join((_shown(one.name), one.author, "resolved" if one.is_resolved else "open", _quoted(one, text), _flat(one.text))))


def _quoted(comment: PlacedComment, text: str) -> str:
    return _flat(text[comment.at : comment.at + comment.length])


def _flat(text: str) -> str:
    """On one line, and without tabs."""
    return " ".join(text.split())


async def _make(session: Session, asked: argparse.Namespace) -> None:
    if not asked.on:
        raise Failure(Status.USAGE, "--on names the words that you comment on")
    pad = await session.join(asked.pad)
    places = [at for at in range(len(pad.text)) if pad.text.startswith(asked.on, at)]
    if not places:
        raise Failure(Status.REFUSED, f"the pad does not have the words {asked.on!r}")
    if asked.nth is None and len(places) > 1:
        raise Failure(Status.USAGE, f"the pad has the words {asked.on!r} {len(places)} times: --nth says which of them")
    number = asked.nth or 1
    if not 1 <= number <= len(places):
        raise Failure(Status.USAGE, f"--nth {number}: the pad has the words {asked.on!r} {len(places)} times")
    at = places[number - 1]
    name = await _made(session, session.comment(at, at + len(asked.on), asked.text), asked)
    if asked.json:
        told({"name": list(name)})


async def _made(session: Session, comment: asyncio.Future[Name], asked: argparse.Namespace) -> Name:
    """The name of a comment, once the server has it."""
    try:
        await saved(session, asked.patience)
        if not comment.done():  # it was given up with a text that the server does not have
            raise PadError("the server has another text of the pad by now")
        return comment.result()
    except (Failure, PadError) as error:
        if isinstance(error, PadError) and failure_of(error).status == Status.REFUSED:
            raise
        raise _unsaved(asked.pad, asked.text, error) from None


async def _resolve(session: Session, asked: argparse.Namespace) -> None:
    if asked.text is not None or asked.on is not None:
        raise Failure(Status.USAGE, "--resolve takes no TEXT and no --on")
    origin, _, number = asked.resolve.partition("-")
    if not (origin.isdecimal() and number.isdecimal()):
        raise Failure(Status.USAGE, f"{asked.resolve!r} is no comment's name: `pads comment {asked.pad}` lists them, such as 1-5")
    async with session.visit(asked.pad) as visit:
        await visit.resolve((int(origin), int(number)))


# ---- rights


async def grant(session: Session, asked: argparse.Namespace) -> None:
    async with session.visit(asked.pad) as visit:
        if asked.author is None:
            rights = await visit.read_rights()
            if asked.json:
                told([{"author": author, "right": right} for author, right in rights])
            else:
                for author, right in rights:
                    print(f"{author}\t{right}")
            return
        if asked.right is None:
            raise Failure(Status.USAGE, f"which right does {asked.author} get? none, read, comment, write or own")
        await visit.grant(asked.author, asked.right)


async def hand(session: Session, asked: argparse.Namespace) -> None:
    async with session.visit(asked.pad) as visit:
        await visit.hand(asked.author)


# ---- log-in


async def log_in(asked: argparse.Namespace) -> None:
    """The token is typed, or read from standard input where that is no terminal. It is kept once the server has taken it."""
    token = standard_input.read_secret(f"Token of {asked.name}: ")
    if not token:
        raise Failure(Status.USAGE, "no token was given")
    settings = Settings(asked.address, asked.name, token, asked.ca or "")
    try:
        async with connect(asked.address, name=asked.name, token=token, tls=settings.tls()) as session:
            me = session.me
    except (ValueError, ImportError) as error:
        raise Failure(Status.USAGE, str(error)) from None
    configuration.write(asked.server or asked.name, settings)
    print(f"You are {me}. The token is in {configuration.path_of_file()}.")
