"""The client that is tried: a program of its own, which is told what to do by lines of JSON. README.md describes them."""
from __future__ import annotations

import asyncio
import json
import os
from dataclasses import dataclass
from typing import Any

PATIENCE = 20.0  # seconds, for what a client has to show in the end
LINE = 2**24  # bytes


class Broken(Exception):
    """The client does not answer as README.md says, or has ended."""


class Unsupported(Exception):
    """The client does not do this, and says so."""


@dataclass(frozen=True)
class Shown:
    """What a client shows: the text, its author runs, and how it is."""

    text: str
    runs: list[list[Any]]
    state: str


class Client:
    def __init__(self, command: list[str]) -> None:
        self._command = command
        self._process: asyncio.subprocess.Process | None = None

    async def start(self, port: int, name: str = "ann", pad: str = "p") -> None:
        environment = {
            **os.environ, "PADS_ADDRESS": f"tcp://127.0.0.1:{port}", "PADS_NAME": name, "PADS_TOKEN": f"t{name}", "PADS_PAD": pad,
        }
        pipe = asyncio.subprocess.PIPE
        self._process = await asyncio.create_subprocess_exec(*self._command, stdin=pipe, stdout=pipe, env=environment, limit=LINE)

    async def ask(self, do: str, **fields: Any) -> dict[str, Any]:
        process = self._process
        assert process and process.stdin and process.stdout
        try:
            process.stdin.write(json.dumps({"do": do, **fields}).encode() + b"\n")
            async with asyncio.timeout(PATIENCE):
                line = await process.stdout.readline()
        except (OSError, TimeoutError) as error:
            raise Broken(f"{do} is not answered: {type(error).__name__}") from None
        if not line:
            raise Broken(f"the client has ended instead of answering {do}")
        answer: dict[str, Any] = json.loads(line)
        if answer.get("unsupported"):
            raise Unsupported(do)
        if "error" in answer:
            raise Broken(f"{do}: {answer['error']}")
        return answer

    async def shown(self) -> Shown:
        answer = await self.ask("show")
        return Shown(answer["text"], [list(run) for run in answer["runs"]], answer["state"])

    async def type(self, at: int, text: str = "", erase: int = 0) -> None:
        await self.ask("type", at=at, erase=erase, text=text)

    async def end(self) -> None:
        """Kills the client, if it has not ended."""
        if self._process and self._process.returncode is None:
            self._process.kill()
            await self._process.wait()
