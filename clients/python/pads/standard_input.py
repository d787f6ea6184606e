"""What comes by standard input: the lines of `pads append`, and the token of `pads log-in`."""
from __future__ import annotations

import getpass
import io
import signal
import sys
from collections.abc import Callable
from typing import TextIO

from .failure import Failure, Status


def read_text() -> str:
    """All of it.

    Raises:
        Failure: it is closed, or is no text in the encoding of the locale.
    """
    return _read(_stdin().read)


def read_secret(prompt: str) -> str:
    """A line of it; in a terminal, what is typed behind a prompt and not shown. Raises what `read_text` raises."""
    stdin = _stdin()
    if stdin.isatty():
        return _read(lambda: getpass.getpass(prompt))
    return _read(stdin.readline).strip()


def _stdin() -> TextIO:
    if sys.stdin is None:
        raise Failure(Status.USAGE, "standard input is closed")
    if isinstance(sys.stdin, io.TextIOWrapper):
        # In the locales C and C.UTF-8, Python would pass on bytes that are no text as other characters.
        sys.stdin.reconfigure(errors="strict")
    return sys.stdin


def _read(read: Callable[[], str]) -> str:
    """An interrupt ends the program at once: the handler of asyncio would wait until the reading is over."""
    before = signal.getsignal(signal.SIGINT)
    if before is not signal.SIG_IGN:
        signal.signal(signal.SIGINT, signal.default_int_handler)
    try:
        return read()
    except EOFError:
        return ""
    except UnicodeDecodeError as error:
        raise Failure(Status.USAGE, f"standard input is not {error.encoding.upper()}, at byte {error.start}: nothing was done") from None
    except OSError as error:
        raise Failure(Status.USAGE, f"standard input: {error.strerror}") from None
    finally:
        if before is not signal.SIG_IGN:
            signal.signal(signal.SIGINT, before)
