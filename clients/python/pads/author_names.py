"""Names for authors of elsewhere: 1 to 32 of a-z, 0-9 and -."""
from __future__ import annotations

import re
import unicodedata
from collections.abc import Iterable, Mapping

from .failure import Failure, Status

_NAME = re.compile(r"[a-z0-9-]{1,32}")
_MOST = 32


def slug(text: str) -> str:
    """A name like a text: its letters without accents, and - for what is between words. It may be empty."""
    plain = unicodedata.normalize("NFKD", text.casefold()).encode("ascii", "ignore").decode()
    return re.sub(r"[^a-z0-9]+", "-", plain).strip("-")[:_MOST].strip("-")


def names_for(authors: Iterable[tuple[str, str]], given: Mapping[str, str], nobody: str) -> dict[str, str]:
    """A name for each author, by their ids, all of them different. `given` has those that are wanted, by the names elsewhere.

    Raises:
        Failure: a name that is wanted has another form, or nobody has it there.
    """
    out: dict[str, str] = {}
    wanted = dict(given)
    listed = list(authors)
    for name in wanted:
        if name not in [there for _, there in listed]:
            there = ", ".join(sorted({there for _, there in listed if there})) or "none with a name"
            raise Failure(Status.USAGE, f"--author {name}={wanted[name]}: no author there is {name}; there are {there}")
    taken = {nobody, *wanted.values()}
    for identity, there in listed:
        name = wanted.get(there) or _free(slug(there) or "unnamed", taken)
        if not _NAME.fullmatch(name):
            raise Failure(Status.USAGE, f"--author {there}={name}: a name is 1 to 32 of a-z, 0-9 and -")
        taken.add(name)
        out[identity] = name
    return out


def _free(name: str, taken: set[str]) -> str:
    """The name, or with a number behind it where somebody has it."""
    free, number = name, 1
    while free in taken:
        number += 1
        free = f"{name[: _MOST - len(str(number)) - 1]}-{number}"
    return free
