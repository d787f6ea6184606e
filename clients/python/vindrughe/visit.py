"""Pads that are listed, and pads that are joined and not followed."""
from __future__ import annotations

from collections.abc import Awaitable, Callable
from typing import Any, NamedTuple

from .requests import PadRequests, Right


class ListedPad(NamedTuple):
    """A pad that the author may read: its name, the author's right on it, its newest revision, and whether it is closed."""

    name: str
    right: Right
    now: int
    is_closed: bool = False


class Visit(PadRequests):
    """A pad that is joined and not followed, for single requests: `Session.visit`. `call` asks a request."""

    def __init__(self, call: Callable[..., Awaitable[dict[str, Any]]], name: str, number: int) -> None:
        self._call = call
        self.name = name
        self.visit = number

    async def call(self, do: str, **fields: Any) -> dict[str, Any]:
        return await self._call(do, **fields, pad=self.name)
