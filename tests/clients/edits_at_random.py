"""`pads edit` at 200 seeded times on pads on which two others type while the editor is open: nothing of theirs is lost.

Every character that is typed is typed once, so each can be looked for: it has to be there once, under the name of who typed it,
unless somebody erased it; and each author's text has to be in the pad in its order.
"""
import random
from concurrent.futures import ThreadPoolExecutor

from harness import Failed, want
from js_client import named
from pads_command import ACCOUNTS, Editing
from sockets import Server

FIRST, PLANE = 0x4E00, 0x20000
AT_ONCE = 6


class Letters:
    """Characters that nobody has typed yet, every fourth of them beyond 16 bits, and who typed them."""

    def __init__(self, dice):
        self.dice, self.made, self.owner = dice, 0, {}

    def word(self, author):
        letters = []
        for _ in range(1 + self.dice.randrange(4)):
            self.made += 1
            letter = chr((PLANE if self.made % 4 == 0 else FIRST) + self.made)
            self.owner[letter] = author
            letters.append(letter)
        return "".join(letters)

    def line(self, author):
        return " ".join(self.word(author) for _ in range(8 + self.dice.randrange(6)))


def of_letters(text, letters):
    return [character for character in text if character in letters.owner]


def edited(text, dice, letters):
    """What ann makes of a text in her editor: words and lines come, go and are replaced. Two lines next to each other are not
    both changed, so it is plain which words stay."""
    lines = text.split("\n")
    for at in range(len(lines) - 1 - dice.randrange(2), -1, -2):
        deed, words = dice.randrange(8), lines[at].split(" ")
        place = dice.randrange(len(words))
        if deed == 0:
            lines.insert(at, letters.line("ann"))
        elif deed == 1 and len(lines) > 2:
            del lines[at]
        elif deed == 2:
            words[place] = letters.word("ann")
        elif deed == 3:
            words.insert(place, letters.word("ann"))
        elif deed == 4:
            del words[place]
        elif deed == 5:
            words[place] += letters.word("ann")
        if 2 <= deed <= 5:
            lines[at] = " ".join(words)
    return "\n".join(lines)


def types(client, author, dice, letters, erased):
    """Another author types somewhere, or erases a few characters."""
    now = client.does(do="revs", pad=client.pad)["now"]
    text = client.does(do="text", pad=client.pad, rev=now)["text"]
    at = dice.randrange(len(text) + 1)
    if dice.randrange(3) or at == len(text):
        client.does(do="insert", pad=client.pad, rev=now, at=at, text=dice.choice(["", " ", "\n"]) + letters.word(author))
    else:
        gone = text[at : at + 1 + dice.randrange(4)]
        client.does(do="delete", pad=client.pad, rev=now, at=at, len=len(gone))
        erased.update(of_letters(gone, letters))


def is_in_order(part, whole):
    """Whether characters stand in another text in the same order."""
    rest = iter(whole)
    return all(character in rest for character in part)


def one_edit(server, seed):
    """One edit. Returns how much others typed while the editor was open, and how much ann erased of theirs."""
    dice, pad = random.Random(seed), f"e{seed}"
    letters, erased = Letters(dice), set()
    bob = server.author("bob")
    bob.does(do="create", pad=pad)
    others = {"bob": bob, "cid": server.author("cid")}
    for author in ("ann", "cid"):
        bob.does(do="grant", pad=pad, author=author, right="write")
    others["cid"].join(pad)
    for author, client in others.items():
        client.pad = pad
        now = client.does(do="revs", pad=pad)["now"]
        client.does(do="insert", pad=pad, rev=now, at=0, text="\n".join(letters.line(author) for _ in range(1 + dice.randrange(4))) + "\n")
    editing = Editing(server.port, pad)
    opened = editing.opened()
    had = set(of_letters(opened, letters))
    for _ in range(1 + dice.randrange(6)):
        author = dice.choice(["bob", "cid"])
        types(others[author], author, dice, letters, erased)
    typed = set(letters.owner) - had
    wanted = edited(opened, dice, letters)
    status, out, errors, left = editing.saves(wanted)
    want((status, errors.replace("Nothing was changed.\n", ""), left), (0, "", []), f"how edit {seed} ends")
    check(seed, bob, letters, had, typed, erased, wanted)
    return len(typed), len(had - set(wanted))


def check(seed, client, letters, had, typed, erased, wanted):
    now = client.does(do="revs", pad=client.pad)["now"]
    text, runs = client.does(do="text", pad=client.pad, rev=now)["text"], client.does(do="runs", pad=client.pad, rev=now)["runs"]
    owners = dict(zip(text, [author for author, length in runs for _ in range(length)]))
    kept = {character for character in had if character in wanted}
    mine = set(of_letters(wanted, letters)) - had
    due = (kept | typed | mine) - erased
    found = of_letters(text, letters)
    want((len(found), set(found) - due, due - set(found)), (len(due), set(), set()), f"edit {seed}: what is there too often, too much, and lost")
    wrong = {character: owners[character] for character in due if owners[character] != f"{letters.owner[character]}@1"}
    want(wrong, {}, f"edit {seed}: what is there under another name")
    want(is_in_order([one for one in of_letters(wanted, letters) if one in due], text), True, f"edit {seed}: that ann's text is in its order")


def nothing_of_others_is_lost_at_200_seeded_edits(count=200):
    server = Server(f"--cells {count + 1}", accounts=ACCOUNTS)
    with ThreadPoolExecutor(AT_ONCE) as pool:
        done = list(pool.map(lambda seed: one_edit(server, seed), range(count)))
    others, erased = (sum(one) for one in zip(*done))
    if others < 4 * count or erased < count:
        raise Failed(f"others typed {others} characters while editors were open, and {erased} of theirs were erased: that is too little")


TESTS = [named(nothing_of_others_is_lost_at_200_seeded_edits, 240)]
