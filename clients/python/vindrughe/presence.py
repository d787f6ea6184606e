"""Who is on the pad, and where their carets are in what is shown.

The answers to `who` say where carets were at a revision; between two answers they move with the text, and are behind what
their authors write.
"""
from __future__ import annotations

from collections.abc import Callable
from dataclasses import dataclass
from typing import TYPE_CHECKING

from .delta import Delta, Insert, Keep, move
from .requests import Present

if TYPE_CHECKING:
    from .pad import Pad


@dataclass(slots=True)
class Person:
    """A visit of an author. `at` is the place of the caret in what is shown, or None if it is not known."""

    author: str
    visit: int
    is_me: bool
    at: int | None = None
    _told: int | None = None


class Presence:
    """`people` are in the order of coming."""

    def __init__(self, pad: Pad, on_change: Callable[[], None], on_come: Callable[[str], None], on_go: Callable[[str], None]) -> None:
        self._pad = pad
        self._on_change = on_change
        self._on_come = on_come
        self._on_go = on_go
        self.people: list[Person] = []
        self._held: tuple[int, list[Present]] | None = None

    @property
    def others(self) -> list[Person]:
        """All but this visit. An author's other windows are among them."""
        return [person for person in self.people if not person.is_me]

    def take(self, now: int, present: list[Present]) -> None:
        """An answer to `who`. If it is of a revision that the pad has not reached, its carets wait."""
        known = {person.visit: person for person in self.people}
        self.people = [known.get(one.visit) or Person(one.author, one.visit, one.visit == self._pad.visit) for one in present]
        self._held = (now, present)
        self._place()
        if known:
            self._announce(list(known.values()))
        self._on_change()

    def _announce(self, before: list[Person]) -> None:
        """Others that came or went; a second window of one author is no news."""
        had = dict.fromkeys(person.author for person in before if not person.is_me)
        have = dict.fromkeys(person.author for person in self.others)
        for author in have:
            if author not in had:
                self._on_come(author)
        for author in had:
            if author not in have:
                self._on_go(author)

    def _place(self) -> None:
        """Puts the carets of the last answer where they belong, once the pad has that revision."""
        if self._held is None or self._held[0] > self._pad.rev:
            return
        (now, present), self._held = self._held, None
        if self._pad.base_at(now) is None:
            return
        carets = {one.visit: one.caret for one in present}
        for person in self.people:
            if person.visit in carets:
                at = self._pad.carried(carets[person.visit], now)
                if at != person._told:
                    person.at = at
                person._told = at

    def wrote(self, delta: Delta) -> None:
        """Others have changed what is shown. Where one writes at its caret, the caret is behind what came, before `who` says
        so."""
        at = 0
        for step in delta:
            if isinstance(step, Insert):
                writer = next((one for one in self.others if one.author == step.author and one.at == at), None)
                at += step.length
                if writer:
                    writer.at = at
            elif isinstance(step, Keep):
                at += step.length

    def reach(self) -> None:
        """The pad has reached another revision."""
        if self._held:
            self._place()
            self._on_change()

    def move(self, delta: Delta) -> None:
        """What is shown has changed."""
        for person in self.people:
            if person.at is not None:
                person.at = move(person.at, delta)
            if person._told is not None:
                person._told = move(person._told, delta)
