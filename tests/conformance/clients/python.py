"""The library for Python as a client that tests/conformance/run can try."""
import asyncio
import json
import os
import sys
from typing import Any

sys.path.insert(0, os.path.join(os.path.dirname(os.path.realpath(__file__)), "..", "..", "..", "clients", "python"))

import vindrughe


def act(session: vindrughe.Session, do: str, at: int = 0, erase: int = 0, len: int = 0, text: str = "") -> dict[str, Any]:
    pad, comments = session.pad, session.comments
    assert pad
    if do == "show":
        return {"text": pad.text, "runs": pad.runs, "state": session.state}
    if do == "comments":
        return {"comments": [[one.author, one.text, one.start, one.end - one.start, one.is_resolved] for one in comments.all]}
    if do == "type":
        erased = pad.text[at : at + erase]
        pad.replace(at, erase, text)
        return {"erased": erased}
    if do == "comment":
        session.comment(at, at + len, text)
    else:
        return {"error": f"no such command: {do}"}
    return {}


async def main() -> None:
    reader = asyncio.StreamReader(limit=2**24)
    await asyncio.get_running_loop().connect_read_pipe(lambda: asyncio.StreamReaderProtocol(reader), sys.stdin)
    env = os.environ
    async with vindrughe.connect(env["PADS_ADDRESS"], name=env["PADS_NAME"], token=env["PADS_TOKEN"]) as session:
        await session.join(env["PADS_PAD"])
        while line := await reader.readline():
            print(json.dumps(act(session, **json.loads(line))), flush=True)


asyncio.run(main())
