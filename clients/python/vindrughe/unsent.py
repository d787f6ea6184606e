"""Comments that the server does not have yet. Each moves with its words, and is sent once these are: one after the other,
again after a broken connection, and only if it was not made."""
from __future__ import annotations

import asyncio
from collections.abc import Callable
from dataclasses import dataclass, field
from typing import TYPE_CHECKING

from . import limits
from .comments import Comment, placed_now
from .errors import Refused
from .requests import Name
from .resume import when_gone

if TYPE_CHECKING:
    from .pad import Pad

_LOOK, _FIRST_TRY, _LAST_TRY = 0.05, 1.0, 10.0  # seconds


@dataclass(slots=True, eq=False)
class UnsentComment(Comment):
    """`sent` is the revision and the visit in which it was sent."""

    sent: tuple[int, int] | None = None
    made: asyncio.Future[Name] = field(default_factory=lambda: asyncio.get_running_loop().create_future())


def _are_same(one: Comment, other: Comment) -> bool:
    """Whether two stretches are the same words. Where erased words stood is not known for sure."""
    return one.start == one.end or other.start == other.end or (one.start < other.end and other.start < one.end)


class UnsentComments:
    """`on_made` gets a comment that was made, with its name. `on_refused` gets why one was not taken, with its text, and tells
    whether it is to be tried again."""

    def __init__(self, pad: Pad, on_made: Callable[[Comment], None], on_refused: Callable[[Refused, str], bool]) -> None:
        self._pad = pad
        self._on_made = on_made
        self._on_refused = on_refused
        self.list: list[UnsentComment] = []
        self._woken = asyncio.Event()

    def add(self, start: int, end: int, text: str) -> asyncio.Future[Name]:
        """Resolves to the comment's name once it is made, and fails with Refused if it is refused."""
        comment = UnsentComment(None, self._pad.me, text, start, end)
        comment.made.add_done_callback(lambda made: made.cancelled() or made.exception())  # `on_refused` has told it
        self.list.append(comment)
        self._woken.set()
        return comment.made

    def give_up(self) -> list[str]:
        """Gives up all: their texts, for the author to keep."""
        texts = [comment.text for comment in self.list]
        self.list = []
        return texts

    async def run(self) -> None:
        """Sends what there is and what comes, until a lost connection."""
        wait = _FIRST_TRY
        while True:
            self._pad.hurry(bool(self.list))
            if not self.list:
                self._woken.clear()
                await self._woken.wait()
            elif self._pad.is_unsent:
                await asyncio.sleep(_LOOK)
            elif await self._try(self.list[0]):
                wait = _FIRST_TRY
            else:
                await asyncio.sleep(wait)
                wait = min(2 * wait, _LAST_TRY)

    async def _try(self, comment: UnsentComment) -> bool:
        try:
            return await self._send(comment)
        except Refused:
            return False  # what was refused while a comment was looked for is tried again later

    async def _send(self, comment: UnsentComment) -> bool:
        """Sends a comment, if it was not made already. Returns whether there is no reason to pause."""
        pad = self._pad
        if comment.sent and await self._was_made(comment, comment.sent):
            return True
        if pad.is_unsent:
            return True
        if comment.start >= comment.end:
            return self._refuse(comment, Refused(322, "Empty", "comment"))
        comment.sent = (pad.rev, pad.visit)
        try:
            self._made(comment, await pad.make_comment(pad.rev, comment.start, comment.end - comment.start, comment.text))
        except Refused as refusal:
            comment.sent = None
            return self._refuse(comment, refusal)
        return True

    async def _was_made(self, comment: UnsentComment, sent: tuple[int, int]) -> bool:
        """The answer to a comment was lost. Once nothing more can come of the connection, the comment is among those of this
        author since, with this text and on these words, or it was not made."""
        found = await when_gone(self._pad, sent[1], lambda: self._find(comment, sent[0]))
        if found and found.name:
            self._made(comment, found.name)
            return True
        comment.sent = None
        return False

    async def _find(self, comment: UnsentComment, since: int) -> Comment | None:
        pad = self._pad
        names, last = await self._made_since(since)
        while names:
            rev = pad.rev
            if rev < last:  # the pad follows meanwhile
                await asyncio.sleep(_LOOK)
                continue
            comments = await pad.read_comments(rev)
            if pad.base_at(rev) is None:
                continue
            alike = (one for one in placed_now(comments, pad, rev) if one.name in names and one.text == comment.text)
            return next((one for one in alike if _are_same(one, comment)), None)
        return None

    async def _made_since(self, rev: int) -> tuple[list[Name], int]:
        """The names of the comments that this author has made after a revision, and the revision of the last one."""
        names: list[Name] = []
        last, start = 0, rev + 1
        while start <= self._pad.now:
            for entry in await self._pad.read_entries(start, limits.ENTRIES):
                if entry.kind == "comment" and entry.author in self._pad.names:
                    names.append(entry.name)
                    last = entry.rev
            start += limits.ENTRIES
        return names, last

    def _made(self, comment: UnsentComment, name: Name) -> None:
        self._remove(comment)
        self._on_made(Comment(name, comment.author, comment.text, comment.start, comment.end))
        if not comment.made.done():
            comment.made.set_result(name)

    def _refuse(self, comment: UnsentComment, refusal: Refused) -> bool:
        if self._on_refused(refusal, comment.text):
            return False
        self._remove(comment)
        if not comment.made.done():
            comment.made.set_exception(refusal)
        return True

    def _remove(self, comment: UnsentComment) -> None:
        self.list = [one for one in self.list if one is not comment]
