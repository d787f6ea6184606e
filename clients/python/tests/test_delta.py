"""The laws of changes, on random ones, and examples of each rule."""
import random
import unittest

from vindrughe.delta import (
    Drop, Insert, Keep, apply, apply_runs, authored, compose, extent, invert, joined, move, move_stretch, restoring, splice, split, transform,
)
from vindrughe.difference import difference
from vindrughe.errors import Misfit
from vindrughe.requests import Changes, parts_of

ROUNDS = 3000


def random_delta(dice: random.Random, length: int, author: str) -> list:
    delta: list = []
    size = length
    for _ in range(1 + dice.randrange(4)):
        at = dice.randrange(size + 1)
        dropped, text = min(dice.randrange(4), size - at), "ab🙂def"[: dice.randrange(4)]
        delta = compose(delta, splice(at, dropped, text, author))
        size += len(text) - dropped
    return delta


class Laws(unittest.TestCase):
    def test_laws_hold_at_random(self) -> None:
        dice = random.Random(3)
        changing = 0
        for _ in range(ROUNDS):
            text = "".join(dice.choice("xyz\n語") for _ in range(dice.randrange(12)))
            mine, theirs = random_delta(dice, len(text), "a"), random_delta(dice, len(text), "b")
            over_theirs, over_mine = transform(mine, theirs)
            after = apply(text, mine)
            changing += after != text
            self.assertEqual(apply(after, over_mine), apply(apply(text, theirs), over_theirs), "both ways lead to one text")
            self.assertEqual(apply(after, invert(mine, text, "a")), text, "what is inverted is taken back")
            second = random_delta(dice, len(after), "a")
            self.assertEqual(apply(text, compose(mine, second)), apply(after, second), "a composition does both")
            first, rest = split(mine, 1 + dice.randrange(3), 1 + dice.randrange(4))
            self.assertEqual(apply(apply(text, first), rest), after, "what is split is the same")
            self.assertEqual(sum(length for _, length in apply_runs([("o", len(text))], mine)), len(after), "runs have the length")
            self.assertEqual(move(len(text), mine, after=True), len(after), "the end stays the end")
        self.assertGreater(changing, ROUNDS / 2)

    def test_runs_follow_the_text(self) -> None:
        dice = random.Random(4)
        for _ in range(ROUNDS):
            text, runs = "", []
            for author in "abc":
                delta = random_delta(dice, len(text), author)
                owners = [name for name, length in runs for _ in range(length)]
                runs = apply_runs(runs, delta)
                # Each character of what comes is one that was kept, with its author, or is inserted by this one.
                at, want = 0, []
                for step in delta:
                    if isinstance(step, Insert):
                        want += [author] * step.length
                        continue
                    want += owners[at : at + step.length] if isinstance(step, Keep) else []
                    at += step.length
                text = apply(text, delta)
                self.assertEqual([name for name, length in runs for _ in range(length)], want + owners[at:])

    def test_a_difference_leads_to_the_text(self) -> None:
        dice = random.Random(5)
        words = ["one ", "two ", "three\n", "four", ".", "\n", "🙂", "one\n"]
        for _ in range(ROUNDS):
            before = "".join(dice.choice(words) for _ in range(dice.randrange(20)))
            after = before if dice.randrange(3) == 0 else "".join(dice.choice(words) for _ in range(dice.randrange(20)))
            delta = difference(before, after)
            self.assertEqual(apply(before, delta), after)
            self.assertEqual(delta == [], before == after, "equal texts have no difference")


class Examples(unittest.TestCase):
    def test_mine_comes_first_where_both_insert(self) -> None:
        mine, theirs = transform(splice(1, 0, "M", "a"), splice(1, 0, "T", "b"))
        self.assertEqual((apply("xTy", mine), apply("xMy", theirs)), ("xMTy", "xMTy"))

    def test_a_drop_and_an_insertion_keep_their_order(self) -> None:
        before = transform([Keep(2), Insert("M", "a")], [Keep(1), Insert("T", "b"), Drop(2)])[0]
        behind = transform([Keep(2), Insert("M", "a")], [Keep(1), Drop(2), Insert("T", "b")])[0]
        self.assertEqual((before, behind), ([Keep(2), Insert("M", "a")], [Keep(1), Insert("M", "a")]))

    def test_what_was_dropped_comes_back_with_its_authors(self) -> None:
        self.assertEqual(restoring([Keep(1), Drop(2)], "abc", [("a", 2), ("b", 1)]), [Keep(1), Insert("b", "a"), Insert("c", "b")])

    def test_places_move(self) -> None:
        self.assertEqual([move(2, splice(2, 0, "xy")), move(2, splice(2, 0, "xy"), after=True), move(2, splice(1, 3, "")), move(0, [])], [2, 4, 1, 0])
        self.assertEqual(move_stretch((2, 4), [Keep(2), Insert("x"), Keep(2), Insert("y")]), (3, 5))
        self.assertEqual(extent([Keep(2), Drop(1), Keep(1), Insert("xy")]), (2, 4, 5))

    def test_neighbours_are_joined(self) -> None:
        self.assertEqual(joined([Keep(1), Keep(2), Insert("a", "a"), Insert("b", "a"), Drop(0), Keep(3)]), [Keep(3), Insert("ab", "a")])

    def test_half_a_character_is_no_character(self) -> None:
        self.assertEqual(authored([Insert("a\ud83db")], "ann@1"), [Insert("a\ufffdb", "ann@1")])

    def test_an_edits_parts(self) -> None:
        self.assertEqual(parts_of([Keep(2), Drop(1), Insert("é", "a")]), [{"at": 2, "len": 1}, {"at": 3, "text": "é"}])
        self.assertEqual(parts_of([Keep(1), Insert("a", "a@1"), Insert("b", "a@2")]), [{"at": 1, "text": "ab"}])

    def test_an_answer_has_to_go_through_the_whole_text(self) -> None:
        for pieces, text in (([["keep", 1]], "ab"), ([["keep", 3]], "ab"), ([["insert", "a", "a"]], "ab")):
            with self.assertRaises(Misfit):
                Changes(1, 2, 0, pieces).over(text)
        whole = Changes(1, 2, 0, [["keep", 2], ["drop", 1], ["insert", "é", "a"], ["keep", 1]])
        self.assertEqual(whole.over("a🙂bc"), [Keep(2), Drop(1), Insert("é", "a")])

    def test_differences_are_small(self) -> None:
        cases = [
            ("the crane is red\n", "the crane is blue\n", [Keep(13), Drop(3), Insert("blue")]),
            ("one\ntwo\nthree\n", "one\nthree\n", [Keep(4), Drop(4)]),
            ("one\nthree\n", "one\ntwo\nthree\n", [Keep(4), Insert("two\n")]),
            ("colour", "color", [Keep(4), Drop(1)]),
            ("", "new", [Insert("new")]),
            ("old", "", [Drop(3)]),
        ]
        for before, after, want in cases:
            with self.subTest(before=before, after=after):
                self.assertEqual(difference(before, after), want)

    def test_a_long_text_is_compared_in_a_moment(self) -> None:
        lines = [f"line {number} of the minutes of the harbour council\n" for number in range(15_000)]
        other = [line.upper() if number % 100 == 0 else line for number, line in enumerate(lines)]
        delta = difference("".join(lines), "".join(other))
        self.assertEqual(apply("".join(lines), delta), "".join(other))
        self.assertGreater(len(delta), 250)


if __name__ == "__main__":
    unittest.main()
