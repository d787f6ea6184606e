"""A pad as its author edits it."""
from __future__ import annotations

from collections.abc import Awaitable, Callable

from .delta import Delta, Step, authored, splice
from .difference import difference
from .sync import Pace, Reply, Sync
from .undo import Undo


class Pad(Sync):
    """A pad that is open. Places are characters of `text`, and an edit takes effect there at once.

    `Session.join` and `Session.create` make pads. Attributes:
        name: the pad's name.
        me: the author as others see it, `name@number`.
        text, runs: what is shown, and who wrote it.
        rev, base: the revision that the server's part of it is, and its text.
        now: the newest revision that is known of.
    """

    def __init__(self, name: str, me: str, ask: Callable[[Reply], Awaitable[Reply]], pace: Pace = Pace()) -> None:
        super().__init__(name, me, ask, pace)
        self._undo = Undo(me, self._time)

    def insert(self, at: int, text: str) -> None:
        """Inserts a text at a place.

        Raises:
            IndexError: there is no such place.
        """
        self.replace(at, 0, text)

    def erase(self, at: int, length: int) -> None:
        """Erases so many characters from a place on.

        Raises:
            IndexError: they are not all there.
        """
        self.replace(at, length, "")

    def replace(self, at: int, length: int, text: str) -> None:
        """Puts a text in the place of so many characters.

        Raises:
            IndexError: they are not all there.
        """
        if at < 0 or length < 0 or at + length > len(self.text):
            raise IndexError(f"{length} characters at {at} of {len(self.text)}")
        self.type(splice(at, length, text, self.me))

    def append(self, text: str) -> None:
        """Inserts a text at the end."""
        self.insert(len(self.text), text)

    def set_text(self, text: str) -> None:
        """Makes what is shown another text, by the changes that lead there: lines and words that are the same stay."""
        self.type(difference(self.text, text))

    def type(self, delta: Delta, is_remembered: bool = True) -> None:
        """Makes any change, by a delta over what is shown. A step of undo is not remembered again."""
        change, before = authored(delta, self.me), self.text
        if not change:
            return
        if is_remembered:
            self._undo.typed(change, before, self.runs)
        self.change(change)

    def undo(self) -> list[Step] | None:
        """Takes back the author's own last change: the delta over what was shown, or None if there is none."""
        return self._step(self._undo.step(self.text, self.runs))

    def redo(self) -> list[Step] | None:
        """Makes again what was last undone."""
        return self._step(self._undo.step(self.text, self.runs, is_redo=True))

    def _step(self, delta: list[Step] | None) -> list[Step] | None:
        if delta:
            self.type(delta, is_remembered=False)
        return delta

    @property
    def can_undo(self) -> bool:
        return self._undo.can_undo

    @property
    def can_redo(self) -> bool:
        return self._undo.can_redo

    def owners_of_step(self, is_redo: bool = False) -> list[str]:
        """Other authors whose words the next step would bring back, as the author's own."""
        return [author for author in self._undo.owners(is_redo) if author not in self.names]

    def _restarted(self) -> None:
        self._undo = Undo(self.me, self._time)

    def _received(self, delta: list[Step]) -> None:
        self._undo.received(delta)
