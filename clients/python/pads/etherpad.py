"""An export of Etherpad (`.etherpad`): a pad with all its revisions, and who made them.

It is JSON: `pad:NAME` has the text, the pool of attributes and the number of the last revision, `pad:NAME:revs:N` each revision
as a changeset, and `globalAuthor:ID` the name of each author. A pad begins with one new line, which is nobody's.
"""
from __future__ import annotations

import json
import re
from collections.abc import Iterator
from dataclasses import dataclass
from typing import Any

from .changeset import BadChangeset, Step, parse
from .failure import Failure, Status

BEGIN = "\n"
NOBODY = ""


@dataclass(frozen=True)
class Revision:
    """What a revision does: its author, the units of the text before, and its steps, each insertion with whose words it is."""

    number: int
    author: str
    before: int
    steps: list[tuple[Step, str]]


@dataclass(frozen=True)
class Export:
    """A pad of Etherpad. `authors` has the names of authors by their ids; some have none."""

    name: str
    text: str
    head: int
    authors: dict[str, str]
    messages: int
    _pool: dict[str, list[str]]
    _records: dict[str, Any]

    def revisions(self) -> Iterator[Revision]:
        """All revisions, the first one first.

        Raises:
            Failure: one is missing or is no revision.
        """
        for number in range(self.head + 1):
            try:
                record = self._records[f"pad:{self.name}:revs:{number}"]
                author = record.get("meta", {}).get("author") or NOBODY
                before, steps = parse(record["changeset"])
            except (KeyError, TypeError, AttributeError, BadChangeset) as error:
                raise Failure(Status.USAGE, f"revision {number} is missing or damaged: {error}") from None
            yield Revision(number, author, before, [(step, self._whose(step, author)) for step in steps])

    def _whose(self, step: Step, author: str) -> str:
        """Whose words are inserted: an attribute says it, or they are those of the revision's author."""
        for number in step.attributes:
            key, value = (self._pool.get(str(number)) or ["", ""])[:2]
            if key == "author" and value:
                return value
        return author


def read(text: str) -> Export:
    """The pad of an export.

    Raises:
        Failure: it is no export of a pad.
    """
    try:
        records = json.loads(text)
        keys = [key for key in records if re.fullmatch(r"pad:[^:]+", key)]
        if len(keys) != 1:
            raise Failure(Status.USAGE, f"it has {len(keys)} pads, and not one: it is no export of a pad of Etherpad")
        pad, name = records[keys[0]], keys[0].removeprefix("pad:")
        authors = {key.removeprefix("globalAuthor:"): str(one.get("name") or "") for key, one in records.items() if key.startswith("globalAuthor:")}
        return Export(name, pad["atext"]["text"], int(pad["head"]), authors, int(pad.get("chatHead", -1)) + 1, pad["pool"]["numToAttrib"], records)
    except (ValueError, KeyError, TypeError, AttributeError) as error:
        raise Failure(Status.USAGE, f"it is no export of a pad of Etherpad: {error}") from None
