"""Words of the author that were not taken. They are kept, each once, until the author has them elsewhere."""
from __future__ import annotations

from dataclasses import dataclass

from .delta import Delta, move


@dataclass(slots=True)
class _Piece:
    at: int | None
    words: str


class KeptWords:
    """Where a piece stood in what is shown is remembered, so that words which were typed on there stay together."""

    def __init__(self) -> None:
        self._pieces: list[_Piece] = []

    def add(self, words: str, at: int | None = None) -> None:
        """Words that stood at a place of what is shown. If the last ones stood there, too, these go on with them."""
        last = self._pieces[-1] if self._pieces else None
        if last and at is not None and last.at == at:
            last.words += words
        elif words.strip() or at is not None:
            self._pieces.append(_Piece(at, words))

    def leave(self) -> None:
        """Another text is shown, in which they have no place."""
        for piece in self._pieces:
            piece.at = None

    def move(self, delta: Delta) -> None:
        """What is shown has changed."""
        for piece in self._pieces:
            if piece.at is not None:
                piece.at = move(piece.at, delta)

    @property
    def text(self) -> str:
        """All words, a line for each place."""
        return "\n".join(piece.words for piece in self._pieces if piece.words.strip())

    def clear(self) -> None:
        """The author has them elsewhere, or wants them no more."""
        self._pieces = []
