"""Etherpad's changesets: `Z:5>3=2*0+3=3$new` says of a text of 5 units that 2 are kept, 3 come by attribute 0, and 3 are kept.

Numbers have the base 36. Units are those of JavaScript's strings (UTF-16).
"""
from __future__ import annotations

import re
from dataclasses import dataclass

_HEAD = re.compile(r"Z:([0-9a-z]+)([<>])([0-9a-z]+)")
_STEP = re.compile(r"((?:\*[0-9a-z]+)*)(?:\|[0-9a-z]+)?([-+=])([0-9a-z]+)")


class BadChangeset(ValueError):
    """A text that is no changeset, or does not fit the text that it should change."""


@dataclass(frozen=True)
class Step:
    """Keeps ("="), drops ("-") or inserts ("+") so many units; `text` is what is inserted, `attributes` are numbers of the pool."""

    kind: str
    units: int
    attributes: tuple[int, ...] = ()
    text: str = ""


def units_of(text: str) -> int:
    """How many units a text has."""
    return len(text.encode("utf-16-le", "surrogatepass")) // 2


def _steps_of(text: str) -> list[Step]:
    steps, at = [], 0
    while at < len(text):
        found = _STEP.match(text, at)
        if not found:
            raise BadChangeset(f"{text[at : at + 20]!r} is no step")
        attributes, kind, units = found.groups()
        steps.append(Step(kind, int(units, 36), tuple(int(one, 36) for one in attributes.split("*")[1:])))
        at = found.end()
    return steps


def parse(text: str) -> tuple[int, list[Step]]:
    """The units of the text that a changeset changes, and its steps. What is left behind the last step is kept."""
    operations, _, bank = text.partition("$")
    head = _HEAD.match(operations)
    if not head:
        raise BadChangeset(f"{text[:20]!r} does not begin as a changeset does")
    before, difference = int(head[1], 36), int(head[3], 36)
    out, at, letters = [], 0, bank.encode("utf-16-le", "surrogatepass")
    for step in _steps_of(operations[head.end() :]):
        if step.kind == "+":
            piece = letters[2 * at : 2 * (at + step.units)]
            if len(piece) < 2 * step.units:
                raise BadChangeset(f"{text[:60]!r} inserts more than it has")
            at += step.units
            step = Step("+", step.units, step.attributes, piece.decode("utf-16-le", "surrogatepass"))
        out.append(step)
    grown = sum(step.units * {"+": 1, "-": -1, "=": 0}[step.kind] for step in out)
    if grown != (difference if head[2] == ">" else -difference) or 2 * at != len(letters):
        raise BadChangeset(f"{text[:60]!r}: its numbers do not fit its steps")
    return before, out


def attributes_of(text: str) -> list[Step]:
    """The steps of an attribute string, such as `*0+5|1+1`: who and what a text is, piece by piece."""
    return _steps_of(text)
