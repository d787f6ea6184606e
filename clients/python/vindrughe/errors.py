"""What can go wrong."""
from __future__ import annotations

from typing import Any

_CLOSED = 330


class PadError(Exception):
    """What this library raises."""


class Refused(PadError):
    """The server refused a request.

    `code` and `error` say why, such as 312 and Denied: docs/PROTOCOL.md lists them. `request` is what was asked, without the
    token of a log-in.
    """

    def __init__(self, code: int, error: str, request: str = "") -> None:
        super().__init__(f"{code} {error}" + (f" ({request})" if request else ""))
        self.code = code
        self.error = error
        self.request = request

    @classmethod
    def of(cls, reply: dict[str, Any], request: str = "") -> Refused:
        kind = PadClosed if reply["code"] == _CLOSED else Refused
        return kind(reply["code"], reply["error"], request)


class PadClosed(Refused):
    """The pad is closed: nobody can change it, and only who may own it can join it."""


class Lost(PadError):
    """There is no connection, or it ended before the answer. `refusal` is what the server said before it ended it, if it did."""

    def __init__(self, text: str, refusal: Refused | None = None) -> None:
        super().__init__(f"{text}: {refusal}" if refusal else text)
        self.refusal = refusal


class LostRevisions(PadError):
    """The server has another past than this client: its store was restored from an older copy, or it is another pad."""


class Misfit(PadError):
    """An answer of the server does not fit the text that this client has of that revision."""


class Superseded(PadError):
    """Another pad was asked for before this one was open."""


class Unsaved(PadError):
    """There are changes that the server did not take, or that cannot be sent. The cause says why."""
