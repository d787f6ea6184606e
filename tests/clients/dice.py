"""Pseudo-random numbers with a seed: those of tests/web/dice.mjs."""
from collections.abc import Callable

Dice = Callable[[int], int]
_MASK = 0xFFFFFFFF


def dice(seed: int) -> Dice:
    state = (seed * 2654435761 + 12345) & _MASK

    def throw(sides: int) -> int:
        nonlocal state
        state = (state * 1664525 + 1013904223) & _MASK
        return int(((state >> 4) / 268435456) * sides)

    return throw
