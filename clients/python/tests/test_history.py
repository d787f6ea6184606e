"""Who made revisions and characters, when, and what revisions are named, before servers of several ages."""
import unittest
from typing import Any

from vindrughe import History, Refused
from vindrughe.requests import Birth, NamedRevision, PadRequests

MADE = range(1, 5)


class Pad(PadRequests):
    """A pad of four revisions, each made a second after the one before it, at a server that knows these requests."""

    def __init__(self, *knows: str) -> None:
        self.knows, self.asked = knows, list[tuple[str, dict[str, Any]]]()

    async def call(self, do: str, **fields: Any) -> dict[str, Any]:
        self.asked.append((do, fields))
        if do not in self.knows:
            raise Refused(102, "NotRequest")
        if do == "marks":
            return {"marks": [{"at": 5_000, "author": "ann", "rev": 2, "text": "Draft"}], "now": 4}
        if do == "birth":
            return {"author": "ann@1", "rev": fields["at"] + 1, "at": 1_000 * (fields["at"] + 1), "now": 4}
        if do == "times":
            return {"times": [1_000 * rev for rev in MADE]}
        has_times = "entries with times" in self.knows and fields.get("times")
        return {"entries": [{"rev": rev, "author": "ann@1", "kind": "insert", "name": [1, rev], **({"at": 1_000 * rev} if has_times else {})} for rev in MADE]}


class HistoryTest(unittest.IsolatedAsyncioTestCase):
    async def told(self, pad: Pad) -> tuple[list[int | None], list[str]]:
        history = History(pad)
        times = [await history.time(0), await history.time(2), await history.time(4), await history.time(9)]
        entry = await history.entry(3)
        self.assertEqual((entry and entry.author, await history.entry(0)), ("ann@1", None))
        return times, [do for do, _ in pad.asked]

    async def test_who_and_when_is_one_request(self) -> None:
        self.assertEqual(await self.told(Pad("entries", "entries with times", "times")), ([None, 2_000, 4_000, None], ["entries", "entries"]))

    async def test_it_is_two_before_an_older_server(self) -> None:
        self.assertEqual(await self.told(Pad("entries", "times")), ([None, 2_000, 4_000, None], ["entries", "times", "entries"]))

    async def test_one_without_times_is_asked_all_the_same(self) -> None:
        self.assertEqual((await self.told(Pad("entries")))[0], [None, None, None, None])

    async def test_entries_are_asked_as_ever_without_times(self) -> None:
        pad = Pad("entries", "entries with times")
        self.assertEqual([entry.time for entry in await pad.read_entries(1, 4)], [None] * 4)
        self.assertEqual([entry.time for entry in await pad.read_entries(1, 4, times=True)], [1_000, 2_000, 3_000, 4_000])
        self.assertEqual([fields for _, fields in pad.asked], [{"from": 1, "count": 4}, {"from": 1, "count": 4, "times": True}])

    async def test_the_last_birth_is_kept(self) -> None:
        pad = Pad("birth")
        history = History(pad)
        self.assertEqual([await history.birth(7, at) for at in (2, 2, 0, 2)], [Birth("ann@1", at + 1, 1_000 * (at + 1)) for at in (2, 2, 0, 2)])
        self.assertEqual([(fields["rev"], fields["at"]) for _, fields in pad.asked], [(7, 2), (7, 0), (7, 2)])

    async def test_revisions_are_named(self) -> None:
        pad = Pad("mark", "marks")
        await pad.put_mark(2, "Draft")
        self.assertEqual(await pad.read_marks(), [NamedRevision(2, "ann", 5_000, "Draft")])
        self.assertEqual(pad.asked, [("mark", {"rev": 2, "text": "Draft"}), ("marks", {})])

    async def test_an_older_server_has_no_names(self) -> None:
        with self.assertRaises(Refused) as raised:
            await Pad().read_marks()
        self.assertEqual(raised.exception.code, 102)

    async def test_an_older_server_refuses_a_birth(self) -> None:
        with self.assertRaises(Refused) as raised:
            await History(Pad()).birth(1, 0)
        self.assertEqual(raised.exception.code, 102)


if __name__ == "__main__":
    unittest.main()
