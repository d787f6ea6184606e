"""The rounds of tests/web/simulation.mjs with the library for Python: several clients type at random into one pad of the model,
over connections that keep their order, delay, and break, in simulated time. What a client asks in a round, and when, is what
the library for JavaScript asks."""
from __future__ import annotations

import asyncio
import copy
import json
from collections import deque
from dataclasses import dataclass, field
from typing import Any

import simulated_loop
from dice import Dice, dice as make_dice
from model import EDITS, ModelPad

from vindrughe import History, Lost, Misfit, Pace, Pad, Refused, delta

MOMENT = 1 / 1024  # of a millisecond, the shortest time
LETTERS = ["a", "b", "c", "d", "\n", "é", "🙂", "👩\u200d🚀", "語"]
Reply = dict[str, Any]
Line = tuple[Reply, asyncio.Future[Reply]]  # what is asked or answered, and the future of the answer


class Fault(Exception):
    """What a client shows is not what the model has."""


def now() -> float:
    """Milliseconds."""
    return asyncio.get_running_loop().time() * 1000


def up_to(dice: Dice, milliseconds: int) -> float:
    """A time of so many milliseconds at most."""
    return dice(milliseconds * 1024) * MOMENT


async def advance(milliseconds: float) -> None:
    await asyncio.sleep(milliseconds / 1000)


async def consequences() -> None:
    """What was just done has its consequences, at the same moment."""
    for _ in range(20):
        await asyncio.sleep(0)


class Connection:
    """One connection to the model. Each direction delays at random and keeps its order."""

    def __init__(self, dice: Dice, model: ModelPad, page: Page, seen: Seen) -> None:
        self.dice, self.model, self.page, self.seen = dice, model, page, seen
        self.inbox: deque[Line] = deque()
        self.is_broken = self.is_cut = False
        self.last_in = self.last_out = 0.0
        self.open: set[asyncio.Future[Reply]] = set()

    def _at(self, milliseconds: float, act: Any, *given: Any) -> None:
        asyncio.get_running_loop().call_at(milliseconds / 1000, act, *given)

    def ask(self, request: Reply) -> asyncio.Future[Reply]:
        reply: asyncio.Future[Reply] = asyncio.get_running_loop().create_future()
        if self.is_broken:
            reply.set_exception(Lost("lost"))
            return reply
        self.open.add(reply)
        self.page.asked.append((round(now() * 1024) / 1024, json.dumps(request, ensure_ascii=False, sort_keys=True, separators=(",", ":"))))
        self.last_in = max(self.last_in + MOMENT, now() + 1 + up_to(self.dice, 200))
        self._at(self.last_in, self._arrive, (copy.deepcopy(request), reply))
        return reply

    def _arrive(self, line: Line) -> None:
        if not self.is_cut:
            self.inbox.append(line)
            self.serve()

    def serve(self, is_time_over: bool = False) -> None:
        """Answers lines in order. A wait is over when the pad moves, when another line is there, or after its time."""
        while self.inbox:
            request, reply = self.inbox[0]
            is_idle = request.get("wait") and self.model.now == request["rev"] and len(self.inbox) == 1
            if is_idle and not is_time_over and not self.is_broken:
                self._at(now() + request["wait"] * 1000, self._end_wait, self.inbox[0])
                return
            self.inbox.popleft()
            self.seen.edits += request["do"] in EDITS
            before, answer = self.model.now, copy.deepcopy(self.model.reply(self.page.author, request))
            self.last_out = max(self.last_out + MOMENT, now() + 1 + up_to(self.dice, 200))
            self._at(self.last_out, self._answer, reply, answer)
            if self.model.now > before:
                for other in self.seen.connections:
                    if other is not self:
                        other.serve()

    def _end_wait(self, line: Line) -> None:
        if self.inbox and self.inbox[0] is line:
            self.serve(is_time_over=True)

    def _answer(self, reply: asyncio.Future[Reply], answer: Reply) -> None:
        self.open.discard(reply)
        if not self.is_broken and not reply.done():
            reply.set_result(answer)

    def break_off(self) -> None:
        """The client sees the end at once. Lines on their way may be lost, or still be served."""
        self.is_broken = True
        self.is_cut = self.dice(2) == 0
        for reply in self.open:
            if not reply.done():
                reply.set_exception(Lost("lost"))
                reply.exception()


@dataclass(eq=False)
class Page:
    """A client, and what its author would see."""

    author: str
    number: int
    shown: str = ""
    connections: int = 0
    asked: list[tuple[float, str]] = field(default_factory=list)
    connection: Connection = field(init=False)
    pad: Pad = field(init=False)
    history: History = field(init=False)

    def receive(self, change: delta.Delta) -> None:
        self.shown = delta.apply(self.shown, change)


@dataclass
class Seen:
    edits: int = 0
    checks: int = 0
    breaks: int = 0
    undone: int = 0
    restored: int = 0
    typed: int = 0
    connections: list[Connection] = field(default_factory=list)


class Round:
    """One round: the clients, what they type, and what has to hold."""

    def __init__(self, number: int) -> None:
        self.number, self.dice, self.model, self.seen = number, make_dice(number), ModelPad(), Seen()
        self.pages: list[Page] = []
        self.tasks: list[asyncio.Task[None]] = []
        self.inserts_only = self.dice(3) == 0

    def check(self, page: Page) -> None:
        """What a client believes of its revision is what the model has there, with the same authors."""
        pad, model = page.pad, self.model
        self.seen.checks += 1
        if pad.base != model.text(pad.rev):
            raise Fault(f"revision {pad.rev}: {pad.base!r}, and the model has {model.text(pad.rev)!r}")
        if pad.base_runs != model.runs(pad.rev):
            raise Fault(f"the authors of revision {pad.rev}")
        if delta.apply(delta.apply(pad.base, pad.flight or []), pad.pending) != pad.text:
            raise Fault("what is shown")

    def connect(self, page: Page) -> None:
        page.connections += 1
        dice = make_dice(10000 * self.number + 100 * page.number + page.connections)
        page.connection = Connection(dice, self.model, page, self.seen)
        self.seen.connections.append(page.connection)

    def add_page(self, k: int) -> None:
        """Now and then a page is another window of the first author."""
        author = f"u{k}@1" if self.dice(4) or self.inserts_only else "u0@1"
        page = Page(author, k)
        self.connect(page)
        pace = Pace(gather=[0.02, 0.5][self.dice(2)], rest=[0, 0.1][self.dice(2)], wait=25)
        pad = page.pad = Pad("p", author, lambda request: page.connection.ask(request), pace)
        pad.on_receive = page.receive
        pad.on_move = lambda _: self.check(page)
        page.history = History(pad)
        self.pages.append(page)
        self.tasks.append(asyncio.create_task(self.keep_going(page)))

    async def keep_going(self, page: Page) -> None:
        is_new = True
        while True:
            try:
                if not is_new:
                    await page.pad.resume(0)
                await page.pad.run()
                return
            except Lost:
                # Lines that are still on their way are served before the client looks whether its edit was made.
                await advance(500)
                self.connect(page)
                is_new = False

    def type_at(self, page: Page) -> None:
        dice, last = self.dice, len(page.pad.text)
        start = dice(last + 1)
        to = start if self.inserts_only or dice(3) else min(last, start + dice(6))
        text = ""
        if start == to or dice(2):
            for _ in range(dice(4) + 1):
                text += LETTERS[dice(len(LETTERS))]
        self.seen.typed += len(text)
        change = delta.splice(start, to - start, text, page.author)
        page.receive(change)
        page.pad.type(change)

    def undo_at(self, page: Page, is_redo: bool) -> None:
        change = page.pad.redo() if is_redo else page.pad.undo()
        if change:
            self.seen.undone += 1
            page.receive(change)

    async def restore_at(self, page: Page, rev: int, start: int) -> None:
        """The client goes back to an earlier revision. Where nothing is typed meanwhile, it has the text of that revision then."""
        pad = page.pad
        await consequences()
        try:
            change = pad.carried_delta(await page.history.back(rev, start, page.author), start)
        except Lost:
            return
        if change is None:
            return
        self.seen.restored += 1
        is_still = pad.rev == start and not pad.is_unsent
        page.receive(change)
        pad.type(change)
        if is_still and pad.text != self.model.text(rev):
            raise Fault(f"revision {rev} again: {pad.text!r}, and the model has {self.model.text(rev)!r}")

    async def advance(self, milliseconds: float) -> None:
        await consequences()
        await advance(milliseconds)
        for task in self.tasks:
            if task.done():
                task.result()

    async def play(self) -> Seen:
        dice = self.dice
        for k in range(2 + dice(3), 0, -1):
            self.add_page(k)
        await consequences()
        for _ in range(50):
            for page in self.pages:
                self.act(page)
            await self.advance(up_to(dice, 300))
        for _ in range(100):
            if all(not page.pad.is_unsent and page.pad.rev == self.model.now for page in self.pages):
                break
            await self.advance(1000)
        self.check_end()
        for task in self.tasks:
            task.cancel()
        return self.seen

    def act(self, page: Page) -> None:
        dice = self.dice
        if dice(3) == 0:
            self.type_at(page)
        if not self.inserts_only and dice(20) == 0:
            self.undo_at(page, dice(3) == 0)
        if not self.inserts_only and dice(40) == 0:
            rev = dice(page.pad.rev + 1)
            self.tasks.append(asyncio.create_task(self.restore_at(page, rev, page.pad.rev)))
        if dice(60) == 0:
            self.seen.breaks += 1
            page.connection.break_off()
        if dice(80) == 0:
            self.model.remark("u9@1")

    def check_end(self) -> None:
        """All clients show the model's text. Where nothing is erased, each typed character was made once."""
        end, made = self.model.text(self.model.now), len(self.model.order())
        for page in self.pages:
            if page.pad.text != end or page.shown != end:
                raise Fault(f"at the end: {page.pad.text!r}, {page.shown!r}, and the model has {end!r}")
            page.pad.stop()
        if self.inserts_only and made != self.seen.typed:
            raise Fault(f"{self.seen.typed} characters were typed, and {made} were made")


def play(number: int) -> Round:
    """Plays a round.

    Raises:
        Fault: a client shows what the model does not have.
    """
    async def main() -> Round:
        one = Round(number)
        try:
            await one.play()
        except (Misfit, Refused) as error:
            raise Fault(str(error)) from error
        return one

    try:
        return simulated_loop.run(main())  # type: ignore[no-any-return]
    except Fault as fault:
        raise Fault(f"round {number}: {fault}") from fault
