"""Clients type while a network holds what they sent, and their connections break: each edit is made once.

Each client of clients/python types on a pad of its own, one word after the other. At each word, with a seed, its connection is
cut: what it has sent is lost, or arrives up to three seconds later, when the client has long connected again.
"""
import asyncio
import os
import random
import sys

from harness import ROOT, Failed, Test, want
from rough_proxy import RoughProxy
from sockets import Server

CLIENTS = 8
ROUNDS = 25  # of each client
LATEST = 3.0  # seconds that the network holds what it delivers
PATIENCE = 60.0  # seconds for what has to be saved


def vindrughe():
    sys.path[:0] = [os.path.join(ROOT, "clients", "python")]
    import vindrughe as library

    return library


class Typist:
    """A client, its pad, and the proxy through which it reaches the server."""

    def __init__(self, number, server):
        self.number, self.dice = number, random.Random(f"held bytes {number}")
        self.proxy = RoughProxy(server.port, random.Random(number), most_delay=0.02)
        self.words, self.cuts = [], 0

    async def play(self, library):
        async with library.connect(f"tcp://127.0.0.1:{self.proxy.port}", name="ann", token="tann") as session:
            pad = await session.create(f"p{self.number}")
            for count in range(ROUNDS):
                await self.type(session, pad, f"{self.number}.{count} ")

    async def type(self, session, pad, word):
        """The connection is cut while the word may be under way."""
        self.words.append(word)
        pad.insert(len(pad.text), word)
        await asyncio.sleep(self.dice.random() * 0.3)
        self.cuts += self.proxy.cut(self.dice.random() * LATEST, self.dice.random() < 0.3)
        async with asyncio.timeout(PATIENCE):
            await session.saved()
        if self.dice.random() < 0.3:
            await asyncio.sleep(LATEST)  # what was held has come


async def play_all(server):
    typists = [Typist(number, server) for number in range(CLIENTS)]
    await asyncio.gather(*(typist.play(vindrughe()) for typist in typists))
    await asyncio.sleep(LATEST)
    return typists


def each_edit_is_made_once():
    server = Server("--cells 16")
    typists = asyncio.run(play_all(server))
    ann = server.author("ann")
    for typist in typists:
        ann.join(f"p{typist.number}")
        want(ann.does(do="text", pad=f"p{typist.number}")["text"], "".join(typist.words), f"the text of client {typist.number}")
    cuts = sum(typist.cuts for typist in typists)
    if cuts < CLIENTS * ROUNDS * 0.7:
        raise Failed(f"only {cuts} connections were cut")


TESTS = [Test("clients: each edit is made once over a network that holds bytes", each_edit_is_made_once, 240)]
