"""Changes of a text.

A delta is a list of steps over a text, from its start: `Keep(n)` keeps n characters, `Drop(n)` drops n, and
`Insert(text, author)` inserts. What is left at the end is kept. A drop and an insertion beside it stay in their order: it
says on which side of the dropped characters the insertion stands.

Places and lengths are in characters: Unicode scalar values, as Python counts them and the server does. No function changes
what it is given.
"""
from __future__ import annotations

import re
from collections.abc import Iterable, Iterator, Sequence
from dataclasses import dataclass
from typing import TypeAlias

_LONE_SURROGATES = re.compile("[\ud800-\udfff]")


@dataclass(frozen=True, slots=True)
class Keep:
    """Keeps so many characters."""

    length: int


@dataclass(frozen=True, slots=True)
class Drop:
    """Drops so many characters."""

    length: int


@dataclass(frozen=True, slots=True)
class Insert:
    """Inserts a text by an author, who is named as others see it: `ann@1`."""

    text: str
    author: str = ""

    @property
    def length(self) -> int:
        return len(self.text)


Step: TypeAlias = Keep | Drop | Insert
Delta: TypeAlias = Sequence[Step]
#: A stretch of one author: the author, and how many characters.
Run: TypeAlias = tuple[str, int]


def _add(delta: list[Step], step: Step) -> None:
    """Adds a step at the end, joined with the last one if both do the same."""
    if step.length == 0:
        return
    last = delta[-1] if delta else None
    if isinstance(last, Keep) and isinstance(step, Keep):
        delta[-1] = Keep(last.length + step.length)
    elif isinstance(last, Drop) and isinstance(step, Drop):
        delta[-1] = Drop(last.length + step.length)
    elif isinstance(last, Insert) and isinstance(step, Insert) and last.author == step.author:
        delta[-1] = Insert(last.text + step.text, step.author)
    else:
        delta.append(step)


def _trimmed(delta: list[Step]) -> list[Step]:
    """The same without what is kept at the end."""
    while delta and isinstance(delta[-1], Keep):
        delta.pop()
    return delta


def joined(steps: Iterable[Step]) -> list[Step]:
    """A delta with these steps, neighbours that do the same as one, and nothing kept at the end."""
    out: list[Step] = []
    for step in steps:
        _add(out, step)
    return _trimmed(out)


def splice(at: int, dropped: int, text: str, author: str = "") -> list[Step]:
    """One change: after `at` characters, `dropped` ones go and a text comes."""
    return joined((Keep(at), Drop(dropped), Insert(text, author)))


def apply(text: str, delta: Delta) -> str:
    """What a delta makes of a text."""
    out: list[str] = []
    at = 0
    for step in delta:
        if isinstance(step, Insert):
            out.append(step.text)
            continue
        if isinstance(step, Keep):
            out.append(text[at : at + step.length])
        at += step.length
    out.append(text[at:])
    return "".join(out)


def apply_runs(runs: Sequence[Run], delta: Delta) -> list[Run]:
    """What a delta makes of the author runs of a text."""
    out: list[Run] = []

    def put(author: str, length: int) -> None:
        if out and out[-1][0] == author:
            out[-1] = (author, out[-1][1] + length)
        elif length:
            out.append((author, length))

    left = iter(runs)
    author, length = next(left, ("", 0))
    for step in (*delta, Keep(sum(length for _, length in runs))):
        if isinstance(step, Insert):
            put(step.author, step.length)
            continue
        units = step.length
        while units > 0:
            if length == 0:
                author, length = next(left, ("", 0))
                if length == 0:
                    break
            taken = min(units, length)
            if isinstance(step, Keep):
                put(author, taken)
            units -= taken
            length -= taken
    return out


class _Reader:
    """Reads a delta in pieces. Behind its end it keeps everything."""

    def __init__(self, delta: Delta) -> None:
        self._steps: Iterator[Step] = iter(delta)
        self._used = 0
        self._step: Step | None = next(self._steps, None)

    @property
    def has_ended(self) -> bool:
        return self._step is None

    @property
    def drops(self) -> bool:
        return isinstance(self._step, Drop)

    @property
    def left(self) -> float:
        return float("inf") if self._step is None else self._step.length - self._used

    def take_insertion(self) -> Insert | None:
        """The next step, if it is an insertion."""
        step = self._step
        if not isinstance(step, Insert):
            return None
        self._step = next(self._steps, None)
        return step

    def skip(self, length: int) -> None:
        if self._step is None:
            return
        self._used += length
        if self._used == self._step.length:
            self._step, self._used = next(self._steps, None), 0


def transform(mine: Delta, theirs: Delta) -> tuple[list[Step], list[Step]]:
    """Two deltas over one text: mine over what theirs leads to, and theirs over what mine leads to.

    If both insert at one place, mine comes first. That is the server's rule for an insertion at an older revision: it goes
    directly after the character before it, and before everything that was inserted there since.
    """
    left, right = _Reader(mine), _Reader(theirs)
    mine_after: list[Step] = []
    theirs_after: list[Step] = []
    while not (left.has_ended and right.has_ended):
        if (inserted := left.take_insertion()) is not None:
            _add(mine_after, inserted)
            _add(theirs_after, Keep(inserted.length))
            continue
        if (inserted := right.take_insertion()) is not None:
            _add(theirs_after, inserted)
            _add(mine_after, Keep(inserted.length))
            continue
        length = int(min(left.left, right.left))
        if not right.drops:
            _add(mine_after, Drop(length) if left.drops else Keep(length))
        if not left.drops:
            _add(theirs_after, Drop(length) if right.drops else Keep(length))
        left.skip(length)
        right.skip(length)
    return _trimmed(mine_after), _trimmed(theirs_after)


def compose(first: Delta, second: Delta) -> list[Step]:
    """First one delta, then another over what it leads to."""
    out: list[Step] = []
    reader = _Reader(second)
    for step in first:
        if isinstance(step, Drop):
            _add(out, step)
            continue
        at = 0
        while at < step.length:
            if (inserted := reader.take_insertion()) is not None:
                _add(out, inserted)
                continue
            length = int(min(step.length - at, reader.left))
            if isinstance(step, Keep):
                _add(out, Drop(length) if reader.drops else Keep(length))
            elif not reader.drops:
                _add(out, Insert(step.text[at : at + length], step.author))
            reader.skip(length)
            at += length
    while not reader.has_ended:
        if (inserted := reader.take_insertion()) is not None:
            _add(out, inserted)
            continue
        length = int(reader.left)
        _add(out, Drop(length) if reader.drops else Keep(length))
        reader.skip(length)
    return _trimmed(out)


def restoring(delta: Delta, text: str, runs: Sequence[Run]) -> list[Step]:
    """What undoes a delta over a text with these author runs. What it dropped comes back as words of their authors."""
    out: list[Step] = []
    at, run, end = 0, 0, runs[0][1] if runs else 0
    for step in delta:
        if isinstance(step, Insert):
            _add(out, Drop(step.length))
            continue
        to = at + step.length
        if isinstance(step, Keep):
            _add(out, step)
            at = to
            continue
        while at < to:
            while end <= at and run + 1 < len(runs):
                run += 1
                end += runs[run][1]
            stop = min(to, end) if end > at else to
            _add(out, Insert(text[at:stop], runs[run][0] if run < len(runs) else ""))
            at = stop
    return _trimmed(out)


def invert(delta: Delta, text: str, author: str) -> list[Step]:
    """What undoes a delta over a text. What it dropped comes back as this author's words."""
    return restoring(delta, text, [(author, len(text))])


def authored(delta: Delta, author: str) -> list[Step]:
    """A delta in which one author inserts everything, and what is no character is U+FFFD."""
    return joined(Insert(well_formed(step.text), author) if isinstance(step, Insert) else step for step in delta)


def well_formed(text: str) -> str:
    """A text as the server takes it: half of a surrogate pair becomes U+FFFD."""
    return _LONE_SURROGATES.sub("\ufffd", text)


def move(place: int, delta: Delta, after: bool = False) -> int:
    """Where a place is after a delta. What is inserted at the place comes behind it, or before it with `after`."""
    at = to = 0
    for step in delta:
        if isinstance(step, Insert):
            if at == place and not after:
                return to
            to += step.length
            continue
        length = min(step.length, place - at)
        at += length
        if isinstance(step, Keep):
            to += length
        if length < step.length:
            return to
    return to + (place - at)


def move_stretch(stretch: tuple[int, int], delta: Delta) -> tuple[int, int]:
    """Where a stretch is after a delta. What is inserted at one of its ends is outside of it."""
    start = move(stretch[0], delta, after=True)
    return start, max(start, move(stretch[1], delta))


def extent(delta: Delta) -> tuple[int, int, int]:
    """What a delta changes: from the first place on, the text up to the second became that up to the third."""
    at = to = before = after = 0
    start: int | None = None
    for step in delta:
        if isinstance(step, Keep):
            at += step.length
            to += step.length
            continue
        if start is None:
            start = to
        if isinstance(step, Drop):
            at += step.length
        else:
            to += step.length
        before, after = at, to
    return start or 0, before, after


def split(delta: Delta, most_parts: int, most_characters: int) -> tuple[list[Step], list[Step]]:
    """The first part of a delta, of so many insertions and drops and so many characters in them, and the rest over what it
    leads to."""
    first: list[Step] = []
    rest: list[Step] = []
    parts = characters = 0
    is_full = False
    for step in delta:
        if is_full:
            _add(rest, step)
            continue
        if isinstance(step, Keep):
            _add(first, step)
            _add(rest, step)
            continue
        taken = min(step.length, most_characters - characters) if parts < most_parts else 0
        parts += 1
        characters += taken
        is_full = taken < step.length
        if isinstance(step, Drop):
            _add(first, Drop(taken))
            _add(rest, Drop(step.length - taken))
        else:
            _add(first, Insert(step.text[:taken], step.author))
            _add(rest, Keep(taken))
            _add(rest, Insert(step.text[taken:], step.author))
    return _trimmed(first), _trimmed(rest)
