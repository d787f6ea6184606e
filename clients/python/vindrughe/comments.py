"""The comments of a pad, and where their words are in what is shown."""
from __future__ import annotations

from collections.abc import Callable
from dataclasses import dataclass
from typing import TYPE_CHECKING

from .delta import Delta, move_stretch
from .requests import Name, PlacedComment

if TYPE_CHECKING:
    from .pad import Pad
    from .unsent import UnsentComments


@dataclass(slots=True)
class Comment:
    """A comment on the words from `start` to `end` of what is shown. Without a name, the server does not have it yet."""

    name: Name | None
    author: str
    text: str
    start: int
    end: int
    is_resolved: bool = False

    def move(self, delta: Delta) -> None:
        """What is shown has changed."""
        self.start, self.end = move_stretch((self.start, self.end), delta)


def placed_now(comments: list[PlacedComment], pad: Pad, rev: int) -> list[Comment]:
    """The comments of a revision that the pad has held lately, placed in what it shows."""
    out: list[Comment] = []
    for one in comments:
        start = pad.carried(one.at, rev, after=True)
        end = max(start, pad.carried(one.at + one.length, rev))
        out.append(Comment(one.name, one.author, one.text, start, end, one.is_resolved))
    return out


class Comments:
    """`list` has those that the server has, and `unsent` the others."""

    def __init__(self, pad: Pad, unsent: UnsentComments, on_change: Callable[[], None]) -> None:
        self._pad = pad
        self._on_change = on_change
        self.unsent = unsent
        self.list: list[Comment] = []
        self.rev = 0
        self.is_stale = False

    @property
    def all(self) -> list[Comment]:
        return [*self.list, *self.unsent.list]

    async def read(self) -> None:
        """Asks for the comments of the revision that the pad has. They are moved by what came meanwhile."""
        rev = self._pad.rev
        self.is_stale = False
        comments = await self._pad.read_comments(rev)
        if self._pad.base_at(rev) is None:
            self.is_stale = True
            return
        self.list, self.rev = placed_now(comments, self._pad, rev), rev
        self._on_change()

    async def read_moved(self) -> None:
        """Where text came beside erased characters, only the server knows whether it is within a comment."""
        if self.list and self.rev < self._pad.rev:
            await self.read()

    def made(self, comment: Comment) -> None:
        """A comment was made that had not been sent."""
        if all(one.name != comment.name for one in self.list):
            self.list.append(comment)
        self._on_change()

    def move(self, delta: Delta) -> None:
        """What is shown has changed."""
        for comment in self.all:
            comment.move(delta)
