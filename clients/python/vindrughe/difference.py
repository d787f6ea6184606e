"""The changes that lead from one text to another: few of them, so that others' words, comments and carets stay in their places."""
from __future__ import annotations

import re
from array import array
from bisect import bisect_left
from collections import Counter
from collections.abc import Iterator, Sequence

from .delta import Drop, Insert, Keep, Step, joined

_LINES = re.compile(r"[^\n]*\n|[^\n]+")
# Words and marks. Spaces are no words: most lines have them in common.
_WORDS = re.compile(r"\w+|\n|[^\w\s]")
# How much is compared for one difference, a second of it. What is left then is replaced as a whole.
_MOST_STEPS = 1_500_000
_MOST_LETTERS = 200
_ALIKE = 0.35  # below this share of equal letters, a word is replaced as a whole


def difference(before: str, after: str) -> list[Step]:
    """A delta that leads from a text to another. Equal lines stay, and within those that differ, equal words and letters."""
    if before == after:
        return []
    start = before.rfind("\n", 0, _equal_at_start(before, after)) + 1
    end = _lines_at_end(before[start:], after[start:])
    one, other = _LINES.findall(before[start : len(before) - end]), _LINES.findall(after[start : len(after) - end])
    return joined([Keep(start), *_Comparison().by_lines(one, other)])


# ---- what is equal at both ends


def _equal_at_start(one: str, other: str) -> int:
    """How many characters are equal at the start: by halves, since slices are compared faster than characters."""
    low, high = 0, min(len(one), len(other))
    while low < high:
        middle = (low + high + 1) // 2
        if one[low:middle] == other[low:middle]:
            low = middle
        else:
            high = middle - 1
    return low


def _equal_at_end(one: str, other: str) -> int:
    low, high = 0, min(len(one), len(other))
    while low < high:
        middle = (low + high + 1) // 2
        if one[len(one) - middle : len(one) - low] == other[len(other) - middle : len(other) - low]:
            low = middle
        else:
            high = middle - 1
    return low


def _lines_at_end(one: str, other: str) -> int:
    """How many characters are equal at the end, in whole lines."""
    most = _equal_at_end(one, other)
    if all(len(text) == most or text[-most - 1] == "\n" for text in (one, other)):
        return most
    line = one.find("\n", len(one) - most)
    return 0 if line < 0 else len(one) - line - 1


# ---- lines that are there once in both texts


def _anchors(one: Sequence[str], other: Sequence[str]) -> list[tuple[int, int]]:
    """Where such lines stand, as many of them as are in the same order in both. Nothing else is a change of them."""
    counts, places = Counter(other), {line: place for place, line in enumerate(other)}
    once = Counter(one)
    pairs = [(a, places[line]) for a, line in enumerate(one) if once[line] == 1 and counts[line] == 1]
    tails: list[int] = []  # the least place in `other` at which a list of each length ends
    ends: list[tuple[int, int]] = []  # the pair that it ends with
    before: dict[tuple[int, int], tuple[int, int] | None] = {}
    for pair in pairs:
        length = bisect_left(tails, pair[1])
        before[pair] = ends[length - 1] if length else None
        tails[length : length + 1], ends[length : length + 1] = [pair[1]], [pair]
    out: list[tuple[int, int]] = []
    last = ends[-1] if ends else None
    while last:
        out.append(last)
        last = before[last]
    return out[::-1]


# ---- what differs


def _replaced(before: str, after: str) -> list[Step]:
    return [Drop(len(before)), Insert(after)]


def _are_alike(one: str, other: str) -> bool:
    """Whether so many letters are in both that one is a change of the other, as "decided" is of "decides"."""
    return (Counter(one) & Counter(other)).total() >= _ALIKE * min(len(one), len(other))


class _Comparison:
    """One difference, and how much may still be compared for it."""

    def __init__(self) -> None:
        self._left = _MOST_STEPS

    def by_lines(self, one: Sequence[str], other: Sequence[str]) -> list[Step]:
        steps: list[Step] = []
        at = to = 0
        for a, b in (*_anchors(one, other), (len(one), len(other))):
            steps += self._by_words("".join(one[at:a]), "".join(other[to:b]))
            steps += [Keep(len(line)) for line in one[a : a + 1]]
            at, to = a + 1, b + 1
        return steps

    def _by_words(self, before: str, after: str) -> list[Step]:
        """Words that are in both in one order stay. What is between two of them is compared by letters."""
        one, other = list(_WORDS.finditer(before)), list(_WORDS.finditer(after))
        matches = self._matches([word[0] for word in one], [word[0] for word in other]) if before and after else None
        if matches is None:
            return _replaced(before, after)
        steps: list[Step] = []
        at = to = 0
        for a, b in matches:
            steps += [*self._by_letters(before[at : one[a].start()], after[to : other[b].start()]), Keep(len(one[a][0]))]
            at, to = one[a].end(), other[b].end()
        return steps + self._by_letters(before[at:], after[to:])

    def _by_letters(self, before: str, after: str) -> list[Step]:
        """Equal letters at both ends stay, as when somebody types on or erases there, and those between if much is equal."""
        start = _equal_at_start(before, after)
        end = _equal_at_end(before[start:], after[start:])
        old, new = before[start : len(before) - end], after[start : len(after) - end]
        is_change = bool(old and new) and max(len(old), len(new)) <= _MOST_LETTERS and _are_alike(old, new)
        matches = self._matches(old, new) if is_change else None
        if matches is None:
            return [Keep(start), *_replaced(old, new), Keep(end)]
        steps: list[Step] = [Keep(start)]
        at = to = 0
        for a, b in (*matches, (len(old), len(new))):
            steps += [*_replaced(old[at:a], new[to:b]), Keep(1 if a < len(old) else 0)]
            at, to = a + 1, b + 1
        return [*steps, Keep(end)]

    def _matches(self, one: Sequence[str], other: Sequence[str]) -> list[tuple[int, int]] | None:
        """The places of equal pieces, as many as there can be in one order: by the greedy algorithm of Myers (1986, An O(ND)
        difference algorithm and its variations), for which each diagonal of a grid of both is followed as far as it goes. None
        where too much would be compared."""
        furthest = [0] * (2 * (len(one) + len(other)) + 3)  # how far each diagonal was followed; the last ones are below zero
        trace: list[array[int]] = []
        for changes in range(len(one) + len(other) + 1):
            self._left -= changes + 1
            if self._left < 0:
                return None
            for diagonal in range(-changes, changes + 1, 2):
                is_down = diagonal == -changes or (diagonal != changes and furthest[diagonal - 1] < furthest[diagonal + 1])
                a = furthest[diagonal + 1] if is_down else furthest[diagonal - 1] + 1
                while a < len(one) and a - diagonal < len(other) and one[a] == other[a - diagonal]:
                    a += 1
                furthest[diagonal] = a
                if a >= len(one) and a - diagonal >= len(other):
                    return list(_walked_back(trace, len(one), len(other)))[::-1]
            trace.append(array("l", (furthest[diagonal] for diagonal in range(-changes, changes + 1, 2))))
        raise AssertionError("to drop all and insert all leads to the end")


def _walked_back(trace: Sequence[array[int]], a: int, b: int) -> Iterator[tuple[int, int]]:
    """The matches on the way that was found, the last one first. `trace` has how far each diagonal was followed with so many
    changes: every second one, from the lowest on."""
    for changes in range(len(trace), 0, -1):
        before, diagonal = trace[changes - 1], a - b
        number = (diagonal + changes) // 2  # of the diagonal, among those of `changes`
        is_down = diagonal == -changes or (diagonal != changes and before[number - 1] < before[number])
        start = before[number] if is_down else before[number - 1]
        while a > (start if is_down else start + 1):
            a, b = a - 1, b - 1
            yield a, b
        a, b = start, start - (diagonal + 1 if is_down else diagonal - 1)
    while a > 0:
        a, b = a - 1, b - 1
        yield a, b
