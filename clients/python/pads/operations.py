"""Operations of a peer from the revisions of another server's pad.

Each character gets a stamp of the peer's, counted from 1. An operation inserts texts, each behind the character that was before
it, and erases characters, as docs/PROTOCOL.md says under "Operations".
"""
from __future__ import annotations

from collections.abc import Iterator
from dataclasses import dataclass, field
from typing import Any

from vindrughe import limits

from .changeset import Step
from .etherpad import Revision
from .failure import Failure, Status

Operation = dict[str, Any]


@dataclass
class _Making:
    """An operation that is being made: its author, its parts, and how many characters are in them."""

    author: str
    parts: list[dict[str, Any]] = field(default_factory=list)
    characters: int = 0
    last: int = 0  # the stamp of the last character that it inserts

    def has_room(self, is_new_part: bool) -> bool:
        return self.characters < limits.EDIT and (not is_new_part or len(self.parts) < limits.PARTS)


class Replay:
    """A pad of another server, revision by revision. `text` is what it has now, and `authors` whose each character is."""

    def __init__(self, peer: int, names: dict[str, str], nobody: str) -> None:
        self.peer = peer
        self._names = names
        self._nobody = nobody
        self._made = 0
        self._clock = 0
        # A character beyond 16 bits stands at two units of what the other server counts.
        self._units: list[int] = []
        self._characters: list[str] = [""]  # by their stamps
        self._owners: list[str] = [""]
        self._making: _Making | None = None

    @property
    def text(self) -> str:
        return "".join(self._characters[stamp] for stamp in self._stamps())

    def runs(self) -> list[tuple[str, int]]:
        """Who wrote the text, as the server will say it."""
        runs: list[tuple[str, int]] = []
        for stamp in self._stamps():
            author = f"{self._owners[stamp]}@{self.peer}"
            if runs and runs[-1][0] == author:
                runs[-1] = (author, runs[-1][1] + 1)
            else:
                runs.append((author, 1))
        return runs

    def _stamps(self) -> Iterator[int]:
        last = 0
        for stamp in self._units:
            if stamp != last:
                yield stamp
            last = stamp

    def begin(self, text: str) -> Iterator[Operation]:
        """What the pad begins with, which is nobody's."""
        yield from self.revision(Revision(0, "", 0, [(Step("+", len(text), (), text), "")]))

    def revision(self, revision: Revision) -> Iterator[Operation]:
        """The operations of a revision: one, unless its words are of several authors, or it is too large for one.

        Raises:
            Failure: it does not fit the text.
        """
        if revision.before != len(self._units):
            raise Failure(Status.USAGE, f"revision {revision.number} changes a text of {revision.before} units, and there are {len(self._units)}")
        old, self._units = self._units, []
        at, after = 0, 0  # in the old text; the stamp of the character before
        for step, author in revision.steps:
            if step.kind == "+":
                for operation in self._insert(author, after, step.text):
                    yield operation
                after = self._clock
                continue
            passed = old[at : at + step.units]
            if len(passed) < step.units:
                raise Failure(Status.USAGE, f"revision {revision.number} goes beyond the end of the text")
            if step.kind == "=":
                self._units += passed
            else:
                yield from self._erase(revision.author, passed)
            at += step.units
            after = passed[-1] if passed else after
        self._units += old[at:]
        yield from self._end()

    def _name(self, author: str) -> str:
        return self._names.get(author, self._nobody)

    # ---- parts of an operation

    def _room(self, author: str, is_new_part: bool) -> Iterator[Operation]:
        """Ends the operation that is being made, unless it is this author's and takes more."""
        making = self._making
        if making and (making.author != author or not making.has_room(is_new_part)):
            yield from self._end()
        self._making = self._making or _Making(author)

    def _insert(self, author: str, after: int, text: str) -> Iterator[Operation]:
        name = self._name(author)
        for character in text.encode("utf-16-le", "surrogatepass").decode("utf-16-le", "replace"):
            goes_on = self._making is not None and self._making.author == name and self._making.last == after > 0
            if self._making and not goes_on and self._making.last == after > 0:
                yield from self._end()  # no part may name a character of its own operation
            yield from self._room(name, not goes_on)
            making = self._making
            assert making
            self._clock += 1
            if making.parts and making.parts[-1]["kind"] == "insert" and making.last == after > 0:
                making.parts[-1]["text"] += character
            else:
                making.parts.append({"kind": "insert", "after": [after, self.peer] if after else None, "first": [self._clock, self.peer], "text": character})
            making.characters += 1
            making.last = after = self._clock
            self._characters.append(character)
            self._owners.append(name)
            self._units += [self._clock] * (2 if ord(character) > 0xFFFF else 1)

    def _erase(self, author: str, passed: list[int]) -> Iterator[Operation]:
        """Half of a character is erased with its other half."""
        name = self._name(author)
        left = [stamp for at, stamp in enumerate(passed) if not at or passed[at - 1] != stamp]
        for stamp in left:
            if ord(self._characters[stamp]) > 0xFFFF and passed.count(stamp) == 1:
                self._units.append(stamp)
                continue
            is_new = not (self._making and self._making.author == name and self._making.parts and self._making.parts[-1]["kind"] == "delete")
            yield from self._room(name, is_new)
            making = self._making
            assert making
            if not making.parts or making.parts[-1]["kind"] != "delete":
                making.parts.append({"kind": "delete", "spans": []})
            spans = making.parts[-1]["spans"]
            if spans and spans[-1][0] + spans[-1][2] == stamp:
                spans[-1][2] += 1
            else:
                spans.append([stamp, self.peer, 1])
            making.characters += 1

    def _end(self) -> Iterator[Operation]:
        making, self._making = self._making, None
        if not making:
            return
        self._made += 1
        base = {"author": making.author, "name": [self.peer, self._made], "seen": []}
        if len(making.parts) == 1:
            yield {**base, **making.parts[0]}
        else:
            yield {**base, "kind": "edit", "parts": making.parts}
