"""Colours of authors in a terminal, and marks where there are none."""
from __future__ import annotations

import os
import sys
import zlib
from typing import TextIO

from vindrughe.history import ComparedRun

_AUTHORS = (32, 33, 34, 35, 36, 92, 93, 94, 95, 96)  # ANSI: all but red, which is what went
_BOLD, _STRUCK, _RED, _OFF = "\033[1m", "\033[9m", "\033[31m", "\033[0m"


class Colours:
    """Whether there are any is decided by --color, NO_COLOR, and whether the output is a terminal."""

    def __init__(self, when: str = "auto", output: TextIO | None = None) -> None:
        is_terminal = (output or sys.stdout).isatty() and os.environ.get("TERM") != "dumb" and not os.environ.get("NO_COLOR")
        self.are_on = when == "always" or (when == "auto" and is_terminal)

    def author(self, author: str, text: str) -> str:
        """A text in its author's colour."""
        return f"\033[{_AUTHORS[zlib.crc32(author.encode()) % len(_AUTHORS)]}m{text}{_OFF}" if self.are_on and text else text

    def marked(self, run: ComparedRun) -> str:
        """A stretch of a comparison: what came in its author's colour and bold, or as {+words+}; what went struck out and red, or
        as [-words-]."""
        text, author, kind = run
        if kind == "keep":
            return text
        if not self.are_on:
            return f"{{+{text}+}}" if kind == "insert" else f"[-{text}-]"
        # A line that ends within a colour is drawn in it by some terminals, and by `less` not at all.
        lines = text.split("\n")
        return "\n".join(self._line(line, author, kind) for line in lines)

    def _line(self, text: str, author: str, kind: str) -> str:
        if not text:
            return ""
        return f"{_BOLD}{self.author(author, text)}" if kind == "insert" else f"{_STRUCK}{_RED}{text}{_OFF}"

    def authored(self, text: str, author: str) -> str:
        """A stretch of a text in its author's colour, line by line."""
        return "\n".join(self.author(author, line) for line in text.split("\n"))
