"""An author's session: keeps one pad open, also over connections that are lost."""
from __future__ import annotations

import asyncio
from collections.abc import AsyncIterator, Awaitable, Callable
from contextlib import asynccontextmanager
from typing import Literal, TypeAlias, TypeVar, cast

from .comments import Comments
from .connection import NOT_JOINED, Connection
from .errors import Lost, LostRevisions, PadError, Refused, Superseded, Unsaved
from .events import CommentsChanged, Ended, Event, Events, StateChanged
from .guests import is_guest, new_secret
from .kept import KeptWords
from .open_pad import OpenPad
from .pad import Pad
from .presence import Person, Presence
from .requests import LinkRight, Name, Right
from .sync import Pace
from .transports import Opener
from .visit import ListedPad, Visit

_SETTLE, _LOOK = 5.0, 0.02  # seconds

State: TypeAlias = Literal["saved", "saving", "held", "closed", "lost", "over"]
_Kind = TypeVar("_Kind", bound=Event)


class Session(Connection):
    """An author's session, which has one pad open. For several pads, use several sessions.

    Attributes:
        me: the author as others see it, `name@number`. The number of the server can change.
        is_lost: there is no connection, and it is tried to make one.
        ended_by: what has ended the session by itself, or None.
        kept: words of the author that the server did not take.
        pace: how often edits are sent and changes are asked for.
    """

    def __init__(self, open_channel: Opener, pace: Pace = Pace()) -> None:
        super().__init__(open_channel)
        self.pace = pace
        self.kept = KeptWords()
        self._events = Events()
        self._open: OpenPad | None = None
        self._entries = 0
        self._entering = asyncio.Lock()

    # ---- what it is

    @property
    def pad(self) -> Pad | None:
        """The pad that is open."""
        return self._open.pad if self._open else None

    @property
    def presence(self) -> Presence:
        """Who is on the pad. Without one that is open, a PadError."""
        return self._opened().presence

    @property
    def others(self) -> list[Person]:
        """Who else is on the pad, in the order of coming."""
        return self._open.presence.others if self._open else []

    @property
    def comments(self) -> Comments:
        """What is said of the pad. Without one that is open, a PadError."""
        return self._opened().comments

    @property
    def is_guest(self) -> bool:
        """Whether the author came by a link for guests, without an account."""
        return is_guest(self.name)

    @property
    def right(self) -> Right:
        """The author's right on the pad: the greater of the author's own and that of everyone, or for a guest, that of the guest's
        link."""
        return self._open.right if self._open else "none"

    @property
    def rights(self) -> list[tuple[str, Right]]:
        """Who has which right. The owner is the first; `*` is everyone."""
        return self._open.rights if self._open else []

    @property
    def is_closed(self) -> bool:
        """Whether the pad is closed: then only its owners may read it, and nobody changes it."""
        return self._open is not None and self._open.is_closed

    @property
    def may_write(self) -> bool:
        return self.right in ("write", "own") and not self.is_closed

    @property
    def held_by(self) -> Refused | None:
        """Why the server takes nothing at the moment."""
        return self._open.held_by if self._open else None

    @property
    def state(self) -> State:
        """How the pad is. "saved" is said only when everything is sent and answered; "held" is a server that takes nothing at
        the moment, "lost" a connection that is tried to be made again, "closed" a pad that the author may not own and that an owner
        has closed (it is asked each half minute whether it is open again), and "over" a session that has ended by itself."""
        if self.is_over:
            return "over"
        if self.is_lost:
            return "closed" if self._is_shut else "lost"
        if self.held_by:
            return "held"
        return "saving" if self.is_unsent else "saved"

    @property
    def _is_shut(self) -> bool:
        return self._open is not None and self._open.is_shut

    @property
    def is_unsent(self) -> bool:
        """Whether there is something that the server is not known to have: changes, or comments."""
        return self._open is not None and self._open.is_unsent

    @property
    def unsent_words(self) -> str:
        """The words of both, a line for each place."""
        return self._open.unsent_words if self._open else ""

    # ---- what it tells

    def on(self, kind: type[_Kind], listener: Callable[[_Kind], None]) -> Callable[[], None]:
        """Has a listener called with each event of a class, until the function that is returned is called. A listener that
        raises ends the session."""
        return self._events.on(kind, listener)

    def events(self, *kinds: type[_Kind]) -> AsyncIterator[_Kind]:
        """Each event of these classes from the first step on, or of all; it ends behind `Ended`."""
        return self._events.stream(*kinds)

    def tell(self, event: Event) -> None:
        """Tells those who listen."""
        self._events.tell(event)

    # ---- the connection

    def _tell_state(self) -> None:
        self.tell(StateChanged())

    def _tell_end(self, error: Exception) -> None:
        is_gone = isinstance(error, Refused) and error.code == 300 and self.pad
        self.tell(Ended(LostRevisions(self.pad.name) if is_gone and self.pad else error))

    async def _stop(self) -> None:
        if self._open:
            await self._open.stop()

    async def _go_on(self) -> None:
        if self._open:
            await self._open.rejoin(self.me)

    def close(self) -> None:
        """Ends the session, without waiting for what is not sent: `saved` does that."""
        super().close()
        if self._open:
            self._open.caret.stop()

    # ---- pads

    async def pads(self) -> list[ListedPad]:
        """The pads that the author may read."""
        rows = (await self.call("pads"))["pads"]
        return [ListedPad(name, cast(Right, right), now, "closed" in more) for name, right, now, *more in rows]

    async def people(self, authors: list[str]) -> dict[str, str]:
        """The display names of those of these authors of the server, 1 to 100, who have one."""
        return {person["author"]: person["name"] for person in (await self.call("people", authors=authors))["people"]}

    async def join(self, name: str, load: Callable[[Pad], Awaitable[object]] = Pad.load) -> Pad:
        """Opens a pad. The one before is saved and left first.

        Args:
            name: the pad's name.
            load: reads its text, by default the newest. It may read an earlier revision, by `Pad.load_at`, and type: that goes out
                as an edit of that revision, before anything else is followed.

        Raises:
            Refused: there is no such pad (300), no right to read it (312), or it is closed and the author may not own it (330).
            Unsaved: the pad before has changes that are not sent within some seconds.
            Superseded: another pad was asked for meanwhile.
            Lost: there is no connection.
        """
        return await self._enter("join", name, load)

    async def create(self, name: str) -> Pad:
        """Creates a pad, which the author owns, and opens it. Raises what `join` raises, and Refused if there is one (301)."""
        return await self._enter("create", name, Pad.load)

    async def _enter(self, do: str, name: str, load: Callable[[Pad], Awaitable[object]]) -> Pad:
        """One pad is open at a time. Of those that are asked for while one is being opened, only the last is opened."""
        self._entries += 1
        entry = self._entries

        def go_on() -> None:
            if entry != self._entries:
                raise Superseded(f"another pad was asked for before {name} was open")

        async with self._entering:
            go_on()
            if self.is_lost and not self._is_shut:
                raise Lost("not connected")
            if self.pad and not await self.settle():
                raise Unsaved(f"{self.pad.name} has changes that are not sent")
            await self.leave()
            go_on()
            opened = OpenPad(self, name, await self._begin_visit(do, name))
            try:
                go_on()
                await load(opened.pad)
                go_on()
            except BaseException:
                self.start_task(self._leave(name))
                raise
            self._open = opened
            self.kept.leave()
            opened.open()
            await opened.beside(opened.refresh)
            go_on()
            return opened.pad

    @asynccontextmanager
    async def visit(self, name: str) -> AsyncIterator[Visit]:
        """Joins a pad without following it, for single requests, and leaves it at the end of the block.

        Raises:
            Refused: there is no such pad (300), no right to read it (312), this session has it open (311), or it is closed and the
                author may not own it (330).
        """
        yield Visit(self.call, name, await self._begin_visit("join", name))
        await self._leave(name)

    async def _begin_visit(self, do: str, name: str) -> int:
        """Joins a pad, or creates it. Returns the number of the visit. Where somebody else has ended a visit to it on this connection,
        it takes another one."""
        try:
            return int((await self.call(do, pad=name))["visit"])
        except Refused as refusal:
            if refusal.code != NOT_JOINED:
                raise
        self.renew()
        await self._connected()
        return int((await self.call(do, pad=name))["visit"])

    async def _connected(self) -> None:
        """Waits until there is another connection, if it was given up, for some seconds at most."""
        loop = asyncio.get_running_loop()
        end = loop.time() + _SETTLE
        if self.is_lost:
            self.hurry()
        while self.is_lost and self._login and loop.time() < end:
            await asyncio.sleep(_LOOK)

    async def leave(self) -> None:
        """Leaves the pad that is open, without waiting for what is not sent: `saved` does that."""
        opened, self._open = self._open, None
        if opened:
            await opened.close()
            if opened.is_shut:
                await self._connected()  # without the pad, nothing is in the way
            await self._leave(opened.pad.name)

    async def _leave(self, name: str) -> None:
        try:
            await self.call("leave", pad=name)
        except PadError:
            pass  # the visit ends with the connection at the latest

    # ---- saving

    async def saved(self) -> None:
        """Returns once the server has all that the author did, however long that takes.

        Raises:
            Unsaved: the server refused something since this was last asked, or the session ends before.
        """
        opened = self._open
        is_saved = await self._send_all(lambda: self._login is not None)
        if not opened:
            return
        refusal, opened.refusal = opened.refusal, None
        if refusal or not is_saved:
            raise Unsaved(f"{opened.pad.name} has changes that are not saved") from refusal or self.ended_by

    async def settle(self) -> bool:
        """Waits until everything is saved, for some seconds at most. Returns whether it is."""
        loop = asyncio.get_running_loop()
        end = loop.time() + _SETTLE
        return await self._send_all(lambda: not self.is_lost and not self.is_over and loop.time() < end)

    async def _send_all(self, goes_on: Callable[[], bool]) -> bool:
        """Sends what is not sent yet at once, while that goes on. Returns whether everything of the pad is saved."""
        opened = self._open
        while opened and opened is self._open and opened.is_unsent and goes_on():
            opened.pad.hurry(True)
            await asyncio.sleep(_LOOK)
        if opened:
            opened.pad.hurry(False)
        return not opened or opened is not self._open or not opened.is_unsent

    # ---- what is no change of the text

    def _opened(self) -> OpenPad:
        if self._open is None:
            raise PadError("no pad is open")
        return self._open

    async def refresh(self) -> None:
        """Asks for the rights, who is here and the comments, rather than wait until they are asked for."""
        await self._opened().refresh()

    async def grant(self, author: str, right: Right) -> None:
        """Gives an author a right on the pad, or takes it away. The author `*` is everyone.

        Raises:
            Refused: this author may not own the pad (312), or the other one is its owner (315).
        """
        opened = self._opened()
        await opened.pad.grant(author, right)
        await opened.read_rights()

    async def hand(self, author: str) -> None:
        """Hands the pad over to another author. This one may still write.

        Raises:
            Refused: this author is not the owner of the pad (312).
        """
        opened = self._opened()
        await opened.pad.hand(author)
        await opened.read_rights()

    async def close_pad(self) -> None:
        """Closes the pad: nobody changes it any more, and who may not own it has to leave. (`close` ends this session.)

        Raises:
            Refused: this author may not own the pad (312), or the server is an older one (102).
        """
        opened = self._opened()
        await opened.pad.close()
        await opened.read_rights()

    async def reopen_pad(self) -> None:
        """Opens a pad again that was closed.

        Raises:
            Refused: this author may not own the pad (312), or the server is an older one (102).
        """
        opened = self._opened()
        await opened.pad.reopen()
        await opened.read_rights()

    async def invite(self, right: LinkRight) -> str:
        """Makes a link by which guests come to the pad with a right. Returns its secret, which the server does not keep.

        Raises:
            Refused: this author may not own the pad (312).
        """
        opened, secret = self._opened(), new_secret()
        await opened.pad.invite(secret, right)
        await opened.read_rights()
        return secret

    async def introduce(self, name: str) -> None:
        """A guest is called by this name on the pad.

        Raises:
            Refused: this author is no guest (312), or the name is empty (322) or has more than 60 characters (323).
        """
        await self._opened().pad.introduce(name)

    async def guests(self) -> dict[str, str]:
        """The names that the guests of the pad have chosen, in the order in which they first did."""
        return await self._opened().pad.read_guests()

    def move_caret(self, at: int) -> None:
        """Tells others where the author's caret is in what is shown."""
        self._opened().caret.move_to(at)

    def comment(self, start: int, end: int, text: str) -> asyncio.Future[Name]:
        """Comments on what is shown between two places. The comment moves with its words until it is made, also over lost
        connections. The future is its name then, and fails with Refused if the server does not take it."""
        opened = self._opened()
        made = opened.comments.unsent.add(start, end, text)
        self.tell(CommentsChanged())
        self.tell(StateChanged())
        return made

    async def resolve(self, comment: Name) -> None:
        """Resolves a comment."""
        await self._opened().pad.resolve(comment)
