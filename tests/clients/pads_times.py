"""The times of `pads`, before a server of tests/conformance that is scripted: of today, and older ones."""
import asyncio
import json
import os
import sys

from harness import ROOT, want
from js_client import named
from pads_command import Pads


def before_a_model(play):
    """Plays before a server of tests/conformance, whose pad p has three letters of ann's. `play` gets the server, and what runs
    `pads`: both as coroutines can."""
    sys.path[:0] = [os.path.join(ROOT, "tests", "conformance")]
    from model import ModelPad
    from model_server import Room
    from server import Server as Scripted

    async def main():
        server = Scripted()
        room = server.model.rooms["p"] = Room(ModelPad(), {"ann": "own"})
        for at, text in enumerate("abc"):
            room.pad.edit("ann@1", at, [{"at": at, "text": text}])
        room.pad.times = [1795773600000, 1795773600999, 1795777200000]
        await server.start()
        ann = Pads(server.port, TZ="UTC")
        await play(server, lambda *words, **more: asyncio.get_running_loop().run_in_executor(None, lambda: ann.run(*words, **more)))
        server.stop()

    asyncio.run(main())


def refuse_times(server):
    """From now on it is an older one, which does not know `times`."""
    from server import refusing

    server.scripted = refusing(102, lambda request: request["do"] == "times")


def times_are_asked_of_the_server():
    async def play(server, run):
        asked = []

        def times(request):
            if request["do"] != "times":
                return None
            asked.append(request["at"])
            return {"ok": True, "now": 3, "revs": [2]}

        server.scripted = times
        told = await run("show", "p", "--at", "2026-11-27T10:00Z")
        want((told, asked), ("ab\n", [[1795773600000]]), "the text at a moment, and what was asked")
        told = await run("export", "p", "--at", "2026-11-27T10:00:00+00:00", "--format", "json")
        want(json.loads(told)["rev"], 2, "the revision that is exported")
        refuse_times(server)
        await run("show", "p", "--at", "2h", status=1, said="does not say when edits were made")

    before_a_model(play)


LISTED = "2\tann@1\tinsert\t2026-11-27T10:00:00+00:00\n3\tann@1\tinsert\t2026-11-27T11:00:00+00:00\n"


def the_history_has_times():
    """By one request, by two before a server whose entries have no times, and not at all before one that has none."""

    async def play(server, run):
        asked = lambda: [request["do"] for request in server.asked if request["do"] in ("entries", "times")]
        want((await run("history", "p", "--from", "2", "--times"), asked()), (LISTED, ["entries"]), "the revisions with their times")
        told = json.loads(await run("history", "p", "--count", "1", "--times", "--json"))
        want(told, [{"rev": 3, "author": "ann@1", "kind": "insert", "name": [1, 3], "at": 1795777200000}], "one of them as JSON")
        want(await run("history", "p", "--count", "1"), "3\tann@1\tinsert\n", "one without its time")
        server.asked.clear()
        plain = lambda request: {key: value for key, value in request.items() if key != "times"}
        old = lambda request: {"ok": True, **server.model.rooms["p"].pad.reply("ann@1", plain(request))} if request["do"] == "entries" else None
        server.scripted = old
        want((await run("history", "p", "--from", "2", "--times"), asked()), (LISTED, ["entries", "times"]), "the same before an older server")
        refuse_times(server)
        refused = server.scripted
        server.scripted = lambda request: refused(request) or old(request)
        await run("history", "p", "--times", status=1, said="does not say when edits were made")
        want(await run("history", "p", "--count", "1"), "3\tann@1\tinsert\n", "what an older server tells")

    before_a_model(play)


TESTS = [named(times_are_asked_of_the_server, 60), named(the_history_has_times, 60)]
