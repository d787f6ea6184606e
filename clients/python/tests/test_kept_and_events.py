"""Words that were not taken, and who listens to what."""
import asyncio
import unittest

from vindrughe.delta import splice
from vindrughe.events import Came, Ended, Event, Events, Received, StateChanged
from vindrughe.kept import KeptWords


class KeptTest(unittest.TestCase):
    def test_words_that_were_typed_on_stay_together(self) -> None:
        kept = KeptWords()
        kept.add("one", 3)
        kept.move(splice(0, 0, "xx"))
        kept.add(" more", 5)
        kept.add("two", 9)
        kept.add("  ")
        self.assertEqual(kept.text, "one more\ntwo")
        kept.clear()
        self.assertEqual(kept.text, "")


class EventsTest(unittest.IsolatedAsyncioTestCase):
    async def test_a_listener_is_told_of_its_class_until_it_ends(self) -> None:
        events, told = Events(), []
        end = events.on(Came, lambda event: told.append(event.author))
        everything: list[Event] = []
        events.on(Event, everything.append)
        events.tell(Came("bob@1"))
        events.tell(StateChanged())
        end()
        events.tell(Came("cyd@1"))
        self.assertEqual((told, len(everything)), (["bob@1"], 3))

    async def test_a_stream_ends_behind_the_end(self) -> None:
        events = Events()

        async def read() -> list[Event]:
            return [event async for event in events.stream(Received, Ended)]

        reader = asyncio.create_task(read())
        await asyncio.sleep(0)
        error = RuntimeError("gone")
        for event in (StateChanged(), Received([]), Ended(error), Received([])):
            events.tell(event)
        self.assertEqual(await reader, [Received([]), Ended(error)])


if __name__ == "__main__":
    unittest.main()
