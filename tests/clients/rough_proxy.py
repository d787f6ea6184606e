"""A proxy over TCP that can delay, hold and cut the connections that go through it. It runs in a thread of its own."""
from __future__ import annotations

import asyncio
import random
import threading

CHUNK = 65_536


class _Link:
    """One connection. Each direction keeps its order."""

    def __init__(self, proxy: RoughProxy, client: asyncio.StreamWriter, server: asyncio.StreamWriter) -> None:
        self.proxy, self.client, self.server = proxy, client, server
        self.held_until, self.is_lost, self.is_cut = 0.0, False, False

    async def pump(self, reader: asyncio.StreamReader, writer: asyncio.StreamWriter) -> None:
        loop = asyncio.get_running_loop()
        try:
            while data := await reader.read(CHUNK):
                await asyncio.sleep(self.proxy.delay())
                while (left := self.held_until - loop.time()) > 0:
                    await asyncio.sleep(left)
                if not self.is_lost:
                    writer.write(data)
                    await writer.drain()
        except OSError:
            pass
        while (left := self.held_until - loop.time()) > 0:
            await asyncio.sleep(left)
        writer.close()

    def cut(self, seconds: float, is_lost: bool) -> None:
        """The client sees the end at once. What it sent is lost, or arrives later; then the server sees the end."""
        self.is_cut, self.is_lost = True, is_lost
        self.held_until = asyncio.get_running_loop().time() + seconds
        self.client.transport.abort()


class RoughProxy:
    """In front of a port. `delay` answers how many seconds a piece takes."""

    def __init__(self, port: int, dice: random.Random, most_delay: float = 0.1) -> None:
        self._target, self._dice, self._most = port, dice, most_delay
        self._links: list[_Link] = []
        self._loop = asyncio.new_event_loop()
        started = threading.Event()

        async def start() -> None:
            server = await asyncio.start_server(self._accept, "127.0.0.1", 0)
            self.port = server.sockets[0].getsockname()[1]
            started.set()

        def run() -> None:
            self._loop.create_task(start())
            self._loop.run_forever()

        threading.Thread(target=run, daemon=True).start()
        started.wait()

    def delay(self) -> float:
        return self._dice.random() ** 3 * self._most

    async def _accept(self, reader: asyncio.StreamReader, writer: asyncio.StreamWriter) -> None:
        try:
            from_server, to_server = await asyncio.open_connection("127.0.0.1", self._target)
        except OSError:
            writer.transport.abort()
            return
        link = _Link(self, writer, to_server)
        self._links.append(link)
        await asyncio.gather(link.pump(reader, to_server), link.pump(from_server, writer))
        self._links.remove(link)

    def _on_one(self, act) -> bool:  # type: ignore[no-untyped-def]
        """Does something to one of the connections, in the proxy's thread. Returns whether there is one."""
        links = [link for link in self._links if not link.is_cut]
        if links:
            self._loop.call_soon_threadsafe(act, self._dice.choice(links))
        return bool(links)

    def hold(self, seconds: float) -> bool:
        def act(link: _Link) -> None:
            link.held_until = max(link.held_until, self._loop.time() + seconds)

        return self._on_one(act)

    def cut(self, seconds: float, is_lost: bool) -> bool:
        return self._on_one(lambda link: link.cut(seconds, is_lost))
