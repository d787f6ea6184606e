"""Etherpad's changesets, and operations from the revisions of an export."""
import json
import random
import unittest
from collections.abc import Iterable
from typing import Any

from pads.author_names import names_for, slug
from pads.changeset import BadChangeset, Step, parse, units_of
from pads.etherpad import read
from pads.failure import Failure
from pads.operations import Replay


def base36(number: int) -> str:
    digits = ""
    while number or not digits:
        number, digit = divmod(number, 36)
        digits = "0123456789abcdefghijklmnopqrstuvwxyz"[digit] + digits
    return digits


class Receiver:
    """A pad that takes operations as docs/PROTOCOL.md says: each character has a stamp, and stands directly behind the one that it
    comes after, before what came there earlier. What it is given has to be in order, and to fit."""

    def __init__(self) -> None:
        self.order: list[tuple[int, int]] = []
        self.cells: dict[tuple[int, int], list[Any]] = {}  # character, author, is shown
        self.count = 0

    def take(self, operation: dict[str, Any]) -> None:
        self.count += 1
        assert operation["name"] == [77, self.count] and operation["seen"] == [], operation
        parts = operation["parts"] if operation["kind"] == "edit" else [operation]
        assert len(parts) <= 16 and (operation["kind"] == "edit") == (len(parts) > 1), operation
        size, known = 0, set(self.cells)
        for part in parts:
            if part["kind"] == "insert":
                assert part["after"] is None or tuple(part["after"]) in known, "a part names a character of its own operation"
                assert part["first"][0] == len(self.cells) + 1 and part["text"], part
                self.insert(part["after"], part["text"], operation["author"])
                size += len(part["text"])
            else:
                for counter, replica, length in part["spans"]:
                    size += length
                    for stamp in range(counter, counter + length):
                        assert (stamp, replica) in known, part
                        self.cells[(stamp, replica)][2] = False
        assert 1 <= size <= 10_000, size

    def insert(self, after: list[int] | None, text: str, author: str) -> None:
        at = self.order.index((after[0], after[1])) + 1 if after else 0
        for character in text:
            stamp = (len(self.cells) + 1, 77)
            self.cells[stamp] = [character, author, True]
            self.order.insert(at, stamp)
            at += 1

    def shown(self) -> list[tuple[str, str]]:
        return [(self.cells[stamp][0], self.cells[stamp][1]) for stamp in self.order if self.cells[stamp][2]]


class Etherpad:
    """A pad as Etherpad has it: units with their authors, and each revision as a changeset."""

    def __init__(self, dice: random.Random, authors: list[str]) -> None:
        self.dice, self.authors = dice, authors
        self.units: list[tuple[str, str]] = [("\n", "")]
        self.records: dict[str, Any] = {"pad:p": {}, **{f"globalAuthor:{author}": {"name": author} for author in authors}}
        self.pool = {str(number): ["author", author] for number, author in enumerate(authors)} | {"9": ["bold", "true"]}
        self.head = -1

    def text(self) -> str:
        return "".join(unit for unit, _ in self.units).encode("utf-16-le", "surrogatepass").decode("utf-16-le")

    def spots(self) -> list[int]:
        """Places that are not within a character, before the last new line."""
        return [at for at, (unit, _) in enumerate(self.units) if not 0xDC00 <= ord(unit) < 0xE000]

    def revise(self) -> None:
        """One or two splices by an author, now and then with words of another one, and some formatting."""
        author, steps, at = self.dice.choice(self.authors), "", 0
        before, out = len(self.units), []
        bank = ""
        for _ in range(1 + self.dice.randrange(2)):
            spots = [spot for spot in self.spots() if spot >= at]
            start = self.dice.choice(spots)
            end = self.dice.choice([spot for spot in spots if start <= spot <= start + 6])
            if start > at:
                steps += f"{'*9' if self.dice.randrange(4) == 0 else ''}={base36(start - at)}"
            out += self.units[at:start]
            if end > start:
                steps += f"-{base36(end - start)}"
            if end == start or self.dice.randrange(2):
                whose = author if self.dice.randrange(5) else self.dice.choice(self.authors)
                words = "".join(self.dice.choice(["a", "b", " ", "\n", "語", "🙂"]) for _ in range(1 + self.dice.randrange(5)))
                steps += f"*{base36(self.authors.index(whose))}+{base36(units_of(words))}"
                bank += words
                letters = words.encode("utf-16-le")
                out += [(letters[k : k + 2].decode("utf-16-le", "surrogatepass"), whose) for k in range(0, len(letters), 2)]
            at = end
        self.units = [*out, *self.units[at:]]
        grown = len(self.units) - before
        self.put(f"Z:{base36(before)}{'>' if grown >= 0 else '<'}{base36(abs(grown))}{steps}${bank}", author)

    def put(self, changeset: str, author: str) -> None:
        self.head += 1
        self.records[f"pad:p:revs:{self.head}"] = {"changeset": changeset, "meta": {"author": author, "timestamp": 1}}

    def export(self) -> str:
        self.records["pad:p"] = {"atext": {"text": self.text(), "attribs": ""}, "pool": {"numToAttrib": self.pool}, "head": self.head, "chatHead": -1}
        return json.dumps(self.records)


def replay(text: str) -> tuple[Receiver, Replay]:
    export = read(text)
    revisions = list(export.revisions())
    one, receiver = Replay(77, {author: author for author in export.authors}, "nobody"), Receiver()
    operations: list[Iterable[dict[str, Any]]] = [one.begin("\n"), *(one.revision(revision) for revision in revisions)]
    for made in operations:
        for operation in made:
            receiver.take(operation)
    return receiver, one


class ChangesetTest(unittest.TestCase):
    def test_the_example_of_etherpads_documentation(self) -> None:
        self.assertEqual(parse("Z:z>1|2=m=b*0|1+1$\n"), (35, [Step("=", 22), Step("=", 11), Step("+", 1, (0,), "\n")]))

    def test_what_is_no_changeset(self) -> None:
        for text in ("", "Z", "Z:1>1$", "Z:1>1+1$", "Z:1>1+1$ab", "Z:1<1=1$", "Z:1>1*0?1$a", "A:1>1+1$a"):
            with self.subTest(text=text), self.assertRaises(BadChangeset):
                parse(text)

    def test_units_are_those_of_javascript(self) -> None:
        self.assertEqual(parse("Z:1>3+3$a🙂")[1], [Step("+", 3, (), "a🙂")])


class ReplayTest(unittest.TestCase):
    def test_random_pads_of_five_authors_come_in(self) -> None:
        dice = random.Random(7)
        edits = 0
        for _ in range(60):
            pad = Etherpad(dice, ["a1", "a2", "a3", "a4", "a5"])
            pad.put("Z:1>0$", "")
            for _ in range(40):
                pad.revise()
            receiver, one = replay(pad.export())
            edits += receiver.count
            self.assertEqual("".join(character for character, _ in receiver.shown()), pad.text())
            self.assertEqual(one.text, pad.text())
            # Each character is its author's. (A pair of units is one character.)
            owners = [author or "nobody" for unit, author in pad.units if not 0xDC00 <= ord(unit) < 0xE000]
            self.assertEqual([author for _, author in receiver.shown()], owners)
            self.assertEqual([name for name, length in one.runs() for _ in range(length)], [f"{owner}@77" for owner in owners])
        self.assertGreater(edits, 60 * 40)

    def test_a_revision_that_is_too_large_for_an_operation(self) -> None:
        pad = Etherpad(random.Random(1), ["a1"])
        words = "0123456789" * 2_500
        pad.put(f"Z:1>{base36(len(words))}*0+{base36(len(words))}${words}", "a1")
        steps = "".join("=1-1" for _ in range(40))
        pad.put(f"Z:{base36(len(words) + 1)}<{base36(40)}{steps}$", "a1")
        pad.units = [(unit, "a1") for at, unit in enumerate(words) if at >= 80 or at % 2 == 0] + [("\n", "")]
        receiver, _ = replay(pad.export())
        self.assertEqual("".join(character for character, _ in receiver.shown()), pad.text())
        self.assertEqual(receiver.count, 1 + 3 + 1, "10,000 characters at most are in one; what is erased are spans of one part")

    def test_a_damaged_export_is_told(self) -> None:
        pad = Etherpad(random.Random(1), ["a1"])
        pad.put("Z:1>1*0+1$a", "a1")
        pad.put("Z:9>1*0+1$a", "a1")
        with self.assertRaisesRegex(Failure, "revision 1 changes a text of 9 units, and there are 2"):
            replay(pad.export())
        for text in ("", "[]", "{}", '{"pad:p": {}}', '{"pad:p": {"atext": {"text": "a"}, "pool": {"numToAttrib": {}}, "head": "x"}}'):
            with self.subTest(text=text), self.assertRaises(Failure):
                read(text)
        del pad.records["pad:p:revs:0"]
        with self.assertRaisesRegex(Failure, "revision 0 is missing"):
            replay(pad.export())


class NamesTest(unittest.TestCase):
    def test_names_become_well_formed(self) -> None:
        self.assertEqual([slug(text) for text in ("Ann", "Bob Åström", "  É.V.E.  ", "李", "x" * 40)], ["ann", "bob-astrom", "e-v-e", "", "x" * 32])

    def test_nobody_gets_anothers_name(self) -> None:
        authors = [("1", "Ann"), ("2", "ann"), ("3", ""), ("4", "李"), ("5", "Etherpad"), ("6", "Bob")]
        names = names_for(authors, {"Bob": "robert"}, "etherpad")
        self.assertEqual([*names.values()], ["ann", "ann-2", "unnamed", "unnamed-2", "etherpad-2", "robert"])
        self.assertEqual(names_for([("1", "Ann"), ("2", "Other")], {"Other": "ann"}, "nobody"), {"1": "ann-2", "2": "ann"})
        for given in ({"Zed": "zed"}, {"Ann": "Ann!"}):
            with self.subTest(given=given), self.assertRaises(Failure):
                names_for(authors, given, "etherpad")


if __name__ == "__main__":
    unittest.main()
