"""An author's own changes are undone and redone, whatever others type."""
import unittest

from vindrughe.delta import Delta, apply, splice
from vindrughe.undo import Undo


class Typist:
    """Types on a text, at times of its own."""

    def __init__(self) -> None:
        self.time = 0.0
        self.text = ""
        self.steps = Undo("a", lambda: self.time)

    def type(self, delta: Delta) -> None:
        self.steps.typed(delta, self.text, [("a", len(self.text))])
        self.text = apply(self.text, delta)
        self.time += 0.1

    def write(self, words: str) -> None:
        for letter in words:
            self.type(splice(len(self.text), 0, letter, "a"))

    def back(self, is_redo: bool = False) -> str | None:
        delta = self.steps.step(self.text, [("a", len(self.text))], is_redo)
        if delta is None:
            return None
        self.text = apply(self.text, delta)
        return self.text


class UndoTest(unittest.TestCase):
    def test_bursts_are_undone_and_others_words_stay(self) -> None:
        typist = Typist()
        typist.write("one")
        typist.time += 5
        typist.write(" two")
        typist.text = apply(typist.text, splice(0, 0, "other ", "b"))
        typist.steps.received(splice(0, 0, "other ", "b"))
        self.assertEqual([typist.back(), typist.back(), typist.back()], ["other one", "other ", None])
        self.assertEqual((typist.steps.can_undo, typist.steps.can_redo), (False, True))
        self.assertEqual([typist.back(True), typist.back(True), typist.back(True)], ["other one", "other one two", None])

    def test_a_new_line_begins_a_step(self) -> None:
        typist = Typist()
        typist.write("one\ntwo")
        self.assertEqual([typist.back(), typist.back(), typist.back()], ["one\n", "one", ""])

    def test_whose_words_come_back_is_known(self) -> None:
        steps = Undo("a", lambda: 0.0)
        steps.typed(splice(0, 3, "", "a"), "abc", [("b", 2), ("a", 1)])
        self.assertEqual(steps.owners(), ["b", "a"])


if __name__ == "__main__":
    unittest.main()
