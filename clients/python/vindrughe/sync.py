"""One pad, kept equal to what the server has while its author types.

`base` is the text of revision `rev`, as the server has it. The flight is the one edit that was sent and is not answered, a
delta over base. What is pending was typed since, a delta over base and the flight. `text` is what is shown: base, then the
flight, then what is pending.

The answer to an edit says that it is revision n. Others made the revisions between. The pad asks for their changes, C, and
transforms the flight over C; where both insert at one place, the flight's text comes first. Why the result is the server's
text at n, character by character: the server puts an insertion of an older revision directly after the character that stood
before it, and before all that came there since. In C that character is kept or dropped, and everything that came after it
stands behind it. The transform puts the flight's text right there, before C's next insertion.

While an edit is in flight, base does not move. If it did, and another author erased the character before the flight's text,
the place would be known only by a neighbour, and a later insertion could land on its wrong side. So what a wait brings
meanwhile is held back, and used only if it ends exactly at revision n - 1.
"""
from __future__ import annotations

import asyncio
from collections.abc import Awaitable, Callable
from dataclasses import dataclass
from typing import Any

from . import limits, resume
from .delta import Delta, Insert, Run, Step, apply, apply_runs, authored, compose, move, restoring, split, transform
from .errors import Refused
from .requests import Changes, Entry, PadRequests, parts_of

_MOST_TRAIL = 8
_AT_ONCE = 1e-9  # seconds: less is no time to wait for
Reply = dict[str, Any]


@dataclass(frozen=True, slots=True)
class Pace:
    """Seconds between two edits (`gather`) and between two waits (`rest`), and of a wait."""

    gather: float = 0.5
    rest: float = 0.1
    wait: float = 25


@dataclass(frozen=True, slots=True)
class Mark:
    """What made a revision, by which a client knows after a reconnection whether the server still has its past."""

    rev: int = 0
    name: tuple[int, int] = (0, 0)
    author: str = ""


@dataclass(frozen=True, slots=True)
class _Trail:
    """A revision that base had lately, and what led from it to the next one."""

    rev: int
    base: str
    delta: list[Step]


def _ignore(_: Any) -> None:
    """Nobody is told."""


class Sync(PadRequests):
    """`on_show` is told what is shown otherwise than before, `on_receive` what of that is others', and `on_move` when `rev` has
    moved: from, to, how many comments and resolutions are between, and whether the author's own edit made the last."""

    def __init__(self, name: str, me: str, ask: Callable[[Reply], Awaitable[Reply]], pace: Pace = Pace()) -> None:
        self.name = name
        self.me = me
        self.visit = 0
        self.text = self.base = ""
        self.runs: list[Run] = []
        self.base_runs: list[Run] = []
        self.rev = self.now = 0
        self.flight: list[Step] | None = None
        self.pending: list[Step] = []
        self.sent_in = 0  # the visit in which the flight was sent
        self.last_made: list[int] | None = None  # the name of the last operation that was answered in the visit
        self.made_at = 0  # the revision that it is, by its answer
        self.trail: list[_Trail] = []
        self.mark = Mark()
        self.names = [me]
        self.is_unfit = False  # the server has another text than this client
        self.on_receive: Callable[[list[Step]], None] = _ignore
        self.on_show: Callable[[list[Step]], None] = _ignore
        self.on_move: Callable[[tuple[int, int, int, bool]], None] = _ignore
        self._ask = ask
        self._pace = pace
        self._turn = 0
        self._woken = asyncio.Event()
        self._sent_at = self._asked_at = float("-inf")
        self._is_hurried = False

    @staticmethod
    def _time() -> float:
        return asyncio.get_running_loop().time()

    async def call(self, do: str, **fields: Any) -> Reply:
        """Any request on this pad: its reply.

        Raises:
            Refused: the server refuses it.
            Lost: the connection ends before the answer. It may have been carried out.
        """
        request = {"do": do, **fields, "pad": self.name}
        reply = await self._ask(request)
        if not reply["ok"]:
            raise Refused.of(reply, do)
        self.now = max(self.now, reply["now"])
        self.last_made = reply.get("name", self.last_made)
        return reply

    @property
    def is_unsent(self) -> bool:
        """Whether there is something that the server is not known to have."""
        return self.is_unfit or self.flight is not None or bool(self.pending)

    @property
    def unsent_words(self) -> str:
        """What was typed and is not known to be made, a line for each place."""
        delta = self.pending if self.made_at else compose(self.flight or [], self.pending)
        return "\n".join(step.text for step in delta if isinstance(step, Insert) and step.text.strip())

    def change(self, delta: list[Step]) -> None:
        """The author changes what is shown."""
        self.pending = compose(self.pending, delta)
        self._show(delta)
        self._woken.set()

    # ---- what the server has

    async def load(self) -> str:
        """Reads the whole text with its authors. Returns words that were shown and are not known to be made."""
        reply = await self.read_changes(0)
        delta, words = reply.over(""), self.unsent_words
        self._start(apply("", delta), apply_runs([], delta), reply.to)
        return words

    async def load_at(self, rev: int) -> None:
        """Reads an earlier revision, and what made it (`mark`). What is typed then goes out as an edit of that one.

        Raises:
            Refused: there is no such revision (320).
        """
        delta = (await self.read_changes(0, rev)).over("")
        self._start(apply("", delta), apply_runs([], delta), rev)
        await self.read_mark()

    def _start(self, text: str, runs: list[Run], rev: int) -> None:
        self.base = self.text = text
        self.base_runs = self.runs = runs
        self.rev = rev
        self.flight, self.pending, self.made_at, self.trail = None, [], 0, []
        self.mark, self.is_unfit = Mark(), False
        self._restarted()

    async def read_mark(self) -> None:
        """Remembers what made `rev`."""
        rev = self.rev
        if rev <= self.mark.rev:
            return
        entry = await self.read_entry(rev)
        if entry and rev > self.mark.rev:
            self.mark = Mark(rev, entry.name, entry.author)

    async def read_entry(self, rev: int) -> Entry | None:
        """What made a revision, or None if there is no such revision yet."""
        return next(iter(await self.read_entries(rev, 1)), None)

    def _show(self, delta: list[Step]) -> None:
        self.text = apply(self.text, delta)
        self.runs = apply_runs(self.runs, delta)
        self.on_show(delta)

    def _receive(self, delta: list[Step]) -> None:
        if not delta:
            return
        self._show(delta)
        self._received(delta)
        self.on_receive(delta)

    def _restarted(self) -> None:
        """Another text is shown."""

    def _received(self, delta: list[Step]) -> None:
        """Others have changed what is shown."""

    def _move_base(self, delta: list[Step], rev: int) -> None:
        self.trail.append(_Trail(self.rev, self.base, delta))
        del self.trail[:-_MOST_TRAIL]
        self.base = apply(self.base, delta)
        self.base_runs = apply_runs(self.base_runs, delta)
        self.rev = rev
        self.now = max(self.now, rev)

    def advance(self, changes: Changes) -> None:
        """Nothing is in flight: others' changes lead from `rev` to another revision."""
        if changes.to == self.rev:
            return
        theirs, start = changes.over(self.base), self.rev
        self.pending, shown = transform(self.pending, theirs)
        self._move_base(theirs, changes.to)
        self._receive(shown)
        self.on_move((start, changes.to, changes.notes, False))

    def land(self, theirs: Delta, rev: int, notes: int) -> None:
        """The flight is this revision; `theirs` is what others changed before it."""
        mine, over = transform(self.flight or [], theirs)
        start = self.rev
        pending, shown = transform(self.pending, over)
        self._move_base(compose(theirs, mine), rev)
        self.flight, self.made_at, self.pending = None, 0, pending
        self._receive(shown)
        self.on_move((start, rev, notes, True))

    async def land_at(self, rev: int, held: Changes | None = None) -> None:
        """The flight is this revision by its answer. `held` is what a wait brought meanwhile."""
        if rev == self.rev + 1:
            self.land([], rev, 0)
            return
        told = held if held and held.to == rev - 1 else await self.read_changes(self.rev, rev - 1)
        if self.made_at == rev:
            self.land(told.over(self.base), rev, told.notes)

    # ---- sending and following

    async def _send(self) -> None:
        """Sends as much of what is pending as one edit can take, and learns which revision that makes."""
        self.flight, self.pending = split(self.pending, limits.PARTS, limits.EDIT)
        self.sent_in = self.visit
        self._sent_at = self._time()
        try:
            name, rev = await self.make_edit(self.rev, parts_of(self.flight))
        except Refused:
            self.unsend()
            raise
        self.made_at = rev
        self.mark = Mark(rev, name, self.me)

    def unsend(self) -> None:
        """The flight was not made: it is pending again."""
        self.pending = compose(self.flight or [], self.pending)
        self.flight = None

    async def run(self) -> None:
        """Sends what is typed and takes what others do, until `stop`.

        Raises:
            Lost: the connection has ended.
            Refused: the server refuses an edit, or to say what others do.
            Misfit: an answer does not fit the text.
        """
        self._turn += 1
        turn = self._turn
        while self._turn == turn:
            if self.made_at:
                await self.land_at(self.made_at)
            elif self._left() < _AT_ONCE:
                await self._send()
            else:
                await self._follow(turn)

    def stop(self) -> None:
        """Ends `run`, once a request that is under way is answered."""
        self._turn += 1
        self._woken.set()

    def hurry(self, is_hurried: bool) -> None:
        """Sends what is pending at once, from now on or no longer."""
        self._is_hurried = is_hurried
        self._woken.set()

    def _left(self) -> float:
        """Seconds until what is pending should be sent."""
        if not self.pending:
            return float("inf")
        return 0 if self._is_hurried else self._sent_at + self._pace.gather - self._time()

    async def _until_due(self, turn: int, told: asyncio.Task[Changes] | None = None, most: float = float("inf")) -> bool:
        """Waits until something is due, or the turn is over: True; or until `told` is done or so many seconds are over."""
        end = self._time() + most
        while True:
            left = self._left()
            if left < _AT_ONCE or self._turn != turn:
                return True
            left = min(left, end - self._time())
            if left < _AT_ONCE or (told and told.done()):
                return False
            self._woken.clear()
            woken = asyncio.create_task(self._woken.wait())
            try:
                waited = {woken, told} if told else {woken}
                await asyncio.wait(waited, timeout=None if left == float("inf") else left, return_when=asyncio.FIRST_COMPLETED)
            finally:
                woken.cancel()

    async def _follow(self, turn: int) -> None:
        """Waits for others' changes. When something of the author's is due first, it is sent at the same revision. The
        server then ends the wait, and what the wait brought is held back until the edit is answered. A refusal of one of the
        two is raised when both are answered."""
        rest = self._asked_at + self._pace.rest - self._time()
        if rest > 0:
            await self._until_due(turn, most=rest)
        if self._turn != turn or self._left() < _AT_ONCE:
            return
        self._asked_at = self._time()
        told = asyncio.create_task(self.read_changes(self.rev, wait=self._pace.wait))
        sent: asyncio.Task[None] | None = None
        try:
            is_due = await self._until_due(turn, told)
            while is_due and self._turn == turn and not self.pending:
                is_due = await self._until_due(turn, told)
            if not is_due or self._turn != turn:
                changes = await told
                if self._turn == turn:
                    self.advance(changes)
                return
            sent = asyncio.create_task(self._send())
            await asyncio.wait({told, sent})
        finally:
            for task in (told, sent):
                if task:
                    task.cancel()
        sent.result()
        held = told.result()
        if self._turn == turn:
            await self.land_at(self.made_at, held)

    def begin(self, visit: int) -> None:
        """A new visit: nothing was made in it."""
        self.visit = visit
        self.last_made = None

    async def resume(self, visit: int, me: str | None = None, is_made: bool | None = None) -> None:
        """After a new connection, over which the author has this name: finds out what the server has, and takes what came
        since. `is_made` tells whether the old visit, which has ended, has made more than was answered, or is None if that is
        not known.

        Raises:
            LostRevisions: the server has another past.
        """
        await resume.resume(self, visit, me or self.me, is_made)

    def take_name(self, me: str) -> None:
        """The server has another number, or the author another name: what is not sent yet will be under that one."""
        if me == self.me:
            return
        self.me = me
        self.names.append(me)
        self.pending = authored(self.pending, me)
        self.runs = apply_runs(self.base_runs, compose(self.flight or [], self.pending))

    def give_up(self) -> list[tuple[int, str]]:
        """Takes back what cannot be sent. Returns what it inserted, for the author to keep: words, and where they stood in
        what is shown now."""
        flight, pending = self.flight or [], self.pending
        pieces: list[tuple[int, str]] = []
        at = 0
        for step in pending:
            if isinstance(step, Insert):
                pieces.append((at, step.text))
            else:
                at += step.length
        back = restoring(pending, apply(self.base, flight), apply_runs(self.base_runs, flight))
        self.pending = []
        self._receive(back)
        return pieces

    # ---- places

    def shown(self, place: int, after: bool = False) -> int:
        """Where a place of base is in what is shown."""
        return move(move(place, self.flight or [], after), self.pending, after)

    def carried(self, place: int, rev: int, after: bool = False) -> int:
        """Where a place of an earlier revision is in what is shown, if the pad held that revision lately."""
        for step in self.trail:
            if step.rev >= rev:
                place = move(place, step.delta, after)
        return self.shown(place, after)

    def carried_delta(self, delta: Delta, rev: int) -> list[Step] | None:
        """A delta over the text of an earlier revision, as one over what is shown; None if that text is no longer known."""
        if self.base_at(rev) is None:
            return None
        steps = [step.delta for step in self.trail if step.rev >= rev]
        out: list[Step] = list(delta)
        for step in (*steps, self.flight or [], self.pending):
            out = transform(out, step)[0]
        return out

    def base_at(self, rev: int) -> str | None:
        """The text of a revision that the pad held lately, or None."""
        if rev == self.rev:
            return self.base
        return next((step.base for step in self.trail if step.rev == rev), None)
