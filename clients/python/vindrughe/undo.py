"""An author's own changes, to be undone and redone.

Each step is a delta over the text that is shown once all steps above it are made, so what others change is carried down
through the steps. Words that a step brings back are noted with whose they were; they come back as the author's own.
"""
from __future__ import annotations

from collections.abc import Callable, Sequence

from .delta import Delta, Insert, Run, Step, compose, extent, restoring, transform

_MOST_STEPS = 500
_BURST = 1.0  # seconds


class Undo:
    """`time` answers seconds of some clock that never goes back."""

    def __init__(self, author: str, time: Callable[[], float]) -> None:
        self.author = author
        self._time = time
        self.undos: list[list[Step]] = []
        self.redos: list[list[Step]] = []
        self._typed_at = float("-inf")
        self._caret: int | None = None

    def typed(self, delta: Delta, text: str, runs: Sequence[Run]) -> None:
        """The author changed this text with its author runs. What is typed on at once, without a new line, is one step."""
        back = restoring(delta, text, runs)
        start, before, after = extent(delta)
        now = self._time()
        goes_on = now - self._typed_at < _BURST and self._caret in (start, before)
        starts_line = any(isinstance(step, Insert) and "\n" in step.text for step in delta)
        if goes_on and not starts_line and self.undos:
            self.undos.append(compose(back, self.undos.pop()))
        else:
            self._push(self.undos, back)
        self.redos = []
        self._typed_at = now
        self._caret = None if starts_line else after

    @staticmethod
    def _push(steps: list[list[Step]], delta: list[Step]) -> None:
        steps.append(delta)
        if len(steps) > _MOST_STEPS:
            del steps[0]

    def step(self, text: str, runs: Sequence[Run], is_redo: bool = False) -> list[Step] | None:
        """The delta over this text that takes back the last change, or None; the change itself can then be made again."""
        source, target = (self.redos, self.undos) if is_redo else (self.undos, self.redos)
        self._caret = None
        while source:
            delta = source.pop()
            if delta:
                self._push(target, restoring(delta, text, runs))
                return delta
        return None

    def owners(self, is_redo: bool = False) -> list[str]:
        """Whose words the next step would bring back."""
        steps = self.redos if is_redo else self.undos
        following: Delta = next((delta for delta in reversed(steps) if delta), [])
        return list(dict.fromkeys(step.author for step in following if isinstance(step, Insert)))

    @property
    def can_undo(self) -> bool:
        return any(self.undos)

    @property
    def can_redo(self) -> bool:
        return any(self.redos)

    def received(self, delta: Delta) -> None:
        """Others changed the text."""
        self._caret = None
        self.undos = _carried(self.undos, delta)
        self.redos = _carried(self.redos, delta)


def _carried(steps: list[list[Step]], delta: Delta) -> list[list[Step]]:
    theirs: Delta = delta
    out: list[list[Step]] = []
    for step in reversed(steps):
        carried, theirs = transform(step, theirs)
        out.append(carried)
    out.reverse()
    return out
