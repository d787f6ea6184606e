#!/usr/bin/env python3
"""The socket of a server, with the client of Debian's python3-websockets, which nobody here wrote:

    tests/web/websockets_test.py PORT

PORT is that of the page, of a server with the account `author ann tann` and `--web-origin https://pads.example`. The last
line is `N passed, M failed`.
"""
import asyncio
import json
import sys

import websockets

LONGEST = 8_388_608
HELLO = json.dumps({"do": "hello", "name": "ann", "token": "tann"})
REVS = '{"do":"revs","pad":"p"}'
EMPTY = {"cells": 0, "length": 0, "now": 0, "ok": True}
counts = {True: 0, False: 0}


def check(name, came, wanted):
    counts[came == wanted] += 1
    print("ok     " if came == wanted else "FAILED ", name, "" if came == wanted else f"{came!r:.300}, wanted {wanted!r:.300}")


async def ask(socket, text):
    await socket.send(text)
    return json.loads(await socket.recv())


async def code_after(url, message):
    """The code with which a socket is closed after a message."""
    async with websockets.connect(url, max_size=None) as socket:
        try:
            await socket.send(message)
            return await asyncio.wait_for(socket.recv(), 15)
        except websockets.ConnectionClosed as closed:
            return closed.rcvd and closed.rcvd.code


async def status_of(url, origin):
    try:
        async with websockets.connect(url, origin=origin):
            return 101
    except websockets.InvalidHandshake as refused:  # which keeps the status here, or in its response in newer versions
        return getattr(refused, "status_code", None) or refused.response.status_code


async def session(url):
    async with websockets.connect(url, max_size=None, ping_interval=0.2) as socket:
        check("hello", await ask(socket, HELLO), {"author": "ann@1", "ok": True})
        check("create", await ask(socket, '{"do":"create","pad":"p"}'), {"now": 0, "ok": True, "visit": 1})
        await asyncio.wait_for(await socket.ping(b"anyone?"), 5)
        check("the longest message", await ask(socket, REVS + " " * (LONGEST - len(REVS))), EMPTY)
        check("a message in fragments", await ask(socket, iter([REVS[:3], REVS[3:9], REVS[9:]])), EMPTY)
        text = "é🙂語\x00\x1f</script>"
        insertion = json.dumps({"do": "insert", "pad": "p", "rev": 0, "at": 0, "text": text}, ensure_ascii=False)
        check("an insertion", await ask(socket, insertion), {"name": [1, 1], "now": 1, "ok": True})
        check("its text", (await ask(socket, '{"do":"text","pad":"p"}'))["text"], text)
        for _ in range(300):
            await socket.send('{"do":"revs","pad":"p"}')
        answers = [json.loads(await socket.recv())["length"] for _ in range(300)]
        check("300 messages at once", answers, [len(text)] * 300)
        await asyncio.sleep(1)  # the client's own pings are answered meanwhile, or it would close
        check("after a second of pings", (await ask(socket, REVS))["now"], 1)
        await socket.close(1000)
        check("the code of the close", socket.close_code, 1000)


async def main(port):
    url = f"ws://127.0.0.1:{port}/socket"
    await session(url)
    check("a message of one byte too many", await code_after(url, " " * (LONGEST + 1)), 1009)
    check("a binary message", await code_after(url, REVS.encode()), 1003)
    check("an empty message", await code_after(url, ""), 1008)
    check("a line feed", await code_after(url, f"{REVS}\n"), 1008)
    check("the page's own origin", await status_of(url, f"http://127.0.0.1:{port}"), 101)
    check("an origin that is allowed", await status_of(url, "https://pads.example"), 101)
    check("a foreign origin", await status_of(url, "https://evil.example"), 403)
    check("another path", await status_of(url.replace("/socket", "/none"), None), 404)
    print(f"{counts[True]} passed, {counts[False]} failed")
    return int(counts[False] > 0)


if __name__ == "__main__":
    sys.exit(asyncio.run(main(sys.argv[1])))
