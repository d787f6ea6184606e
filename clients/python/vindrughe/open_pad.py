"""A pad that a session has open, with all that is followed of it: its text, who is there, the comments, and the rights."""
from __future__ import annotations

import asyncio
from collections.abc import Awaitable, Callable
from typing import TYPE_CHECKING

from .comments import Comment, Comments
from .connection import NOT_JOINED, PASSING
from .delta import Step
from .errors import Lost, Misfit, PadClosed, PadError, Refused
from .events import (
    Came, Changed, CommentsChanged, Event, Moved, PresenceChanged, Received, Reread, RightsChanged, StateChanged, Went,
    WordsRefused,
)
from .guests import is_guest, link_of
from .own_caret import OwnCaret
from .pad import Pad
from .presence import Presence
from .pulse import Pulse
from .requests import EVERYONE, RIGHTS, Access, Right
from .unsent import UnsentComments

if TYPE_CHECKING:
    from .session import Session

_FIRST_TRY, _LAST_TRY = 1.0, 10.0  # seconds
# Refusals that no edit gets if the server has the pad's text: no such revision, and a place behind its end.
_UNFIT = (320, 321)
_NO_VISIT = 329  # the server does not know the old visit
_DENIED = 312  # the right is another one by now


def _right_of(name: str, rights: list[tuple[str, Right]]) -> Right:
    """The greater of the author's own right and that of everyone, or for a guest, that of the guest's link."""
    shared = link_of(name) if is_guest(name) else EVERYONE
    return max((right for author, right in rights if author in (name, shared)), key=RIGHTS.index, default="none")


class OpenPad:
    """It tells of itself only while it is the session's, until `close`."""

    def __init__(self, session: Session, name: str, visit: int) -> None:
        self._session = session
        self._is_open = False
        self._tasks: list[asyncio.Task[None]] = []  # what sends and follows, while there is a connection
        self._pulse: asyncio.Task[None] | None = None
        self.pad: Pad = Pad(name, session.me, session.ask, session.pace)
        self.pad.visit = visit
        self.pad.on_receive, self.pad.on_show, self.pad.on_move = self._received, self._showed, self._moved
        self.caret: OwnCaret = OwnCaret(self)
        self.presence: Presence = Presence(
            self.pad, self._people_changed, lambda author: self.tell(Came(author)), lambda author: self.tell(Went(author))
        )
        unsent = UnsentComments(self.pad, self._made_comment, self._refused_comment)
        self.comments: Comments = Comments(self.pad, unsent, lambda: self.tell(CommentsChanged()))
        self.right: Right = "none"
        self.rights: list[tuple[str, Right]] = []
        self.is_closed = False
        self.is_shut = False  # there is no visit, since the pad is closed and the author may not own it
        self.held_by: Refused | None = None
        self.refusal: Refused | None = None  # since `Session.saved` was asked

    def tell(self, event: Event) -> None:
        if self._is_open:
            self._session.tell(event)

    @property
    def is_lost(self) -> bool:
        return self._session.is_lost

    @property
    def is_open(self) -> bool:
        return self._is_open

    @property
    def is_unsent(self) -> bool:
        """Whether there is something that the server is not known to have: changes, or comments."""
        return self.pad.is_unsent or bool(self.comments.unsent.list)

    @property
    def unsent_words(self) -> str:
        """The words of both, a line for each."""
        return "\n".join(filter(None, [self.pad.unsent_words, *(one.text for one in self.comments.unsent.list)]))

    def beside(self, work: Callable[[], Awaitable[None]]) -> asyncio.Task[None]:
        """Does something beside all else. What the server or the network refuses is met, and told, by the loop of the pad. What
        else fails is a listener."""

        async def quietly() -> None:
            try:
                await work()
            except PadError:
                pass
            except Exception as error:
                self._session.end_with(error)

        return self._session.start_task(quietly())

    # ---- from its opening to its end

    def open(self) -> None:
        """The text is there: follows it, and tells of it."""
        self._is_open = True
        self.start()
        self._pulse = self.beside(Pulse(self).run)

    def start(self) -> None:
        """There is a connection: sends and follows."""
        self._tasks = [self._session.start_task(self._drive()), self.beside(self.comments.unsent.run)]

    async def stop(self) -> None:
        """The connection is lost: nothing more is sent over it."""
        tasks, self._tasks = self._tasks, []
        for task in tasks:
            task.cancel()
        await asyncio.gather(*tasks, return_exceptions=True)

    async def close(self) -> None:
        """The pad is left."""
        self._is_open = False
        if self._pulse:
            self._pulse.cancel()
        self.caret.stop()
        await self.stop()

    async def rejoin(self, me: str) -> None:
        """There is another connection: the pad is joined instead of the old visit, so that nothing more comes of that one."""
        pad = self.pad
        try:
            visit, is_made = await self._join_instead()
        except PadClosed:
            self._shut()
            raise
        self.is_shut = False
        try:
            if not pad.is_unfit:
                await pad.resume(visit, me, is_made)
        except Refused:
            if self._is_open:
                raise
            return  # what fails because the pad was left meanwhile is no failure
        except Misfit:
            pad.is_unfit = True
        if self._is_open:
            pad.begin(visit)
            pad.take_name(me)
            self.caret.is_new = True
            self.start()
            self.beside(self.refresh)

    def _shut(self) -> None:
        """An owner has closed the pad. Other connections ask now and then whether it is open again."""
        if not self.is_shut:
            self.is_closed = self.is_shut = True
            self.tell(RightsChanged())
            self.tell(StateChanged())

    async def _join_instead(self) -> tuple[int, bool | None]:
        """The new visit, and whether the old one has made more than was answered: None if the server does not know the old
        visit, or is of an earlier version."""
        pad, call = self.pad, self._session.call
        try:
            told = await call("join", pad=pad.name, instead=pad.visit)
        except Refused as refusal:
            if refusal.code != _NO_VISIT:
                raise
            told = await call("join", pad=pad.name)
        return told["visit"], told["last"] != pad.last_made if "made" in told else None

    # ---- sending and following

    async def _drive(self) -> None:
        """Keeps the pad's loop going over refusals, until the connection is lost or the pad is left. Where the server has
        another text than the pad, it is read again."""
        wait, pad = _FIRST_TRY, self.pad
        while self._is_open:
            try:
                if pad.is_unfit:
                    await self._read_again()
                await pad.run()
                return
            except Lost:
                return
            except Misfit:
                self._doubt()
            except Refused as refusal:
                if refusal.code == NOT_JOINED:
                    self._session.renew()
                    return
                if refusal.code in _UNFIT:
                    self._doubt()
                else:
                    self._refused(refusal)
            except Exception as error:
                self._session.end_with(error)
                return
            await asyncio.sleep(wait)
            wait = min(wait * 2, _LAST_TRY)

    def _doubt(self) -> None:
        """The pad's text is not the server's: nothing is called saved until it is read again."""
        self.pad.is_unfit = True
        self.tell(StateChanged())

    async def read_again(self) -> None:
        """The pad's text was found not to be the server's."""
        self._doubt()
        await self.stop()
        if self._is_open:
            self.start()

    async def _read_again(self) -> None:
        words = await self.pad.load()
        for lost in (words, *self.comments.unsent.give_up()):
            self._session.kept.add(lost)
        self.caret.forget()
        self.tell(Reread())
        await self.comments.read()
        self.tell(StateChanged())

    def _refused(self, refusal: Refused) -> None:
        """What passes is tried again with the same words. Other refusals take the words back, and keep them for the author."""
        if refusal.code in PASSING:
            self.held_by = refusal
        else:
            self.refusal = refusal
            pieces = self.pad.give_up()
            for at, words in pieces:
                self._session.kept.add(words, at)
            self.tell(WordsRefused(refusal, "\n".join(words for _, words in pieces)))
        self._look_for_news(refusal)
        self.tell(StateChanged())

    # ---- what the pad tells

    def _showed(self, delta: list[Step]) -> None:
        """What is shown has changed, and everything that has a place in it moves."""
        self.presence.move(delta)
        self.comments.move(delta)
        self._session.kept.move(delta)
        self.caret.move(delta)
        self.tell(Changed(delta))
        self.tell(StateChanged())

    def _received(self, delta: list[Step]) -> None:
        self.presence.wrote(delta)
        self.tell(Received(delta))

    def _moved(self, step: tuple[int, int, int, bool]) -> None:
        start, to, notes, is_own = step
        if is_own:
            self.held_by = None
        self.presence.reach()
        if notes or self.comments.is_stale:
            self.beside(self.comments.read)
        self.caret.is_new = self.caret.is_new or is_own
        self.caret.send()
        self.tell(Moved(start, to, is_own))
        self.tell(StateChanged())

    def _people_changed(self) -> None:
        self.caret.send()
        self.tell(PresenceChanged())

    # ---- rights and comments

    async def refresh(self) -> None:
        """Asks for the rights, who is here and the comments, rather than wait until they are asked for."""
        await self.read_rights()
        self.presence.take(*await self.pad.read_present())
        await self.comments.read()
        await self.pad.read_mark()
        self.tell(StateChanged())

    async def read_rights(self) -> None:
        """Asks who has which right, and whether the pad is closed. Who has lost all rights sees none."""
        access = Access([], False)
        try:
            access = await self.pad.read_access()
        except Refused as refusal:
            if refusal.code != _DENIED:
                raise
        self.rights, self.is_closed = access.rights, access.is_closed
        self.right = _right_of(self._session.name, access.rights)
        self.tell(RightsChanged())

    def _made_comment(self, comment: Comment) -> None:
        self.held_by = None
        self.comments.made(comment)
        self.tell(StateChanged())

    def _refused_comment(self, refusal: Refused, text: str) -> bool:
        """Tells whether the comment is to be tried again. Otherwise its text is kept for the author."""
        if refusal.code == NOT_JOINED:
            self._session.renew()
            return True
        is_passing = refusal.code in PASSING
        if is_passing:
            self.held_by = refusal
        else:
            self.refusal = refusal
            self._session.kept.add(text)
            self.tell(WordsRefused(refusal, text))
        self._look_for_news(refusal)
        self.tell(StateChanged())
        return is_passing

    def _look_for_news(self, refusal: Refused) -> None:
        """The right is another one, or the pad is closed."""
        if refusal.code == _DENIED or isinstance(refusal, PadClosed):
            self.beside(self.read_rights)
