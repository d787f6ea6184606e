"""Why a command ends without having done what it was asked for."""
from __future__ import annotations

from enum import IntEnum

from vindrughe import Lost, PadError, Refused


class Status(IntEnum):
    """The exit statuses, which `pads --help` lists."""

    DONE = 0
    REFUSED = 1  # the server refused a request, or what was asked for is not there
    USAGE = 2  # the command line, the configuration, or a file that is named is wrong
    NO_SERVER = 3  # there is no server, or the connection was lost
    UNSAVED = 4  # something was not saved, and it is told where it is kept


class Failure(Exception):
    """A message for whoever called, and the exit status."""

    def __init__(self, status: Status, message: str) -> None:
        super().__init__(message)
        self.status = status


# What a refusal means here, by its code. docs/PROTOCOL.md has all of them.
_REFUSALS = {
    201: "the name or the token is wrong", 300: "there is no such pad", 301: "there is a pad of this name already",
    302: "the server has no room for one more pad", 303: "a pad's or an author's name is 1 to 32 of a-z, 0-9 and -",
    310: "your visit to the pad was ended, as it is when the pad is closed", 312: "you do not have the right to", 313: "too many are on the pad at the moment", 315: "the right of who made a pad stays",
    320: "there is no such revision", 322: "nothing is not enough: a text or a count is empty", 323: "that is too much at once",
    324: "the pad is full", 326: "there is no such comment", 327: "the pad is full", 328: "the pad takes no more comments",
    330: "the pad is closed",
    900: "the server is out of memory at the moment", 901: "the server's disk is full", 902: "the server is full at the moment",
}


def message_of(error: BaseException) -> str:
    """What an error means to whoever called, with the server's own word for it."""
    if isinstance(error, Refused):
        return f"{_REFUSALS.get(error.code, 'the server refused it')} ({error.code} {error.error})"
    if isinstance(error, PadError) and isinstance(error.__cause__, Refused):
        return message_of(error.__cause__)
    return str(error)


def failure_of(error: PadError) -> Failure:
    """The message and the status of an error of the library."""
    if isinstance(error, Refused) or isinstance(error.__cause__, Refused):
        return Failure(Status.REFUSED, message_of(error))
    return Failure(Status.NO_SERVER if isinstance(error, Lost) else Status.UNSAVED, message_of(error))
