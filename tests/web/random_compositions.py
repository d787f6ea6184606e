#!/usr/bin/env python3
"""An input method composes at random places of a text, cut short by keys, while another author changes it at random.

    tests/web/random_compositions.py [--disk] PROGRAM [ROUNDS [SEED]]

PROGRAM is crates/pad_server/out/pad_server. After each 20 rounds the page, its drawing and the server have to have the same
text. The last line is `N passed, M failed`.
"""
import os
import random
import sys
import tempfile

from windows import ON_DISK, Keys, Line, Server, Window, units, until

TEXT_OF_LINES = "return [...document.querySelectorAll('#text .line')].map((line) => line.textContent).join('\\n')"
# Whether each line is drawn as one block with its runs, and nothing else is in the text.
IS_PLAIN = """
return [...document.getElementById('text').children].every((group) => group.className === 'group')
&& [...document.querySelectorAll('#text .group')].flatMap((group) => [...group.children]).every((line) => line.className === 'line'
  && [...line.children].every((one) => one.nodeName === 'BR' || (one.className.startsWith('run') && one.childNodes.length === 1)))
"""
GROUP = 100  # lines of the first group, as the page begins
WORDS = ("ni", "nihao", "é", "ka", "你好", "x y", "🙂")


class Round:
    """Ann's window with an input method, and bob's connection. `done` counts what was done."""

    def __init__(self, window, line, dice):
        self.window, self.line, self.dice, self.done = window, line, dice, {}

    def compose(self, text):
        self.window.driver.execute_cdp_cmd("Input.imeSetComposition", {"text": text, "selectionStart": len(text), "selectionEnd": len(text)})

    def insert(self, text):
        self.window.driver.execute_cdp_cmd("Input.insertText", {"text": text})

    def other(self):
        """Bob inserts or erases somewhere, often near a line's end."""
        dice, line = self.dice, self.line
        text, now = line.ask(do="text", pad="random")["text"], line.ask(do="revs", pad="random")["now"]
        breaks = [at for at, letter in enumerate(text) if letter == "\n"]
        at = min(len(text), max(0, dice.choice(breaks or [0]) + dice.randrange(-1, 2)) if dice.random() < 0.4 else dice.randrange(len(text) + 1))
        if dice.random() < 0.6 or not text[at:]:
            line.ask(do="insert", pad="random", rev=now, at=at, text=dice.choice(("b", "bob ", "\n", "b\nb", "🙂")))
        else:
            line.ask(do="delete", pad="random", rev=now, at=at, len=min(len(text) - at, dice.choice((1, 1, 2, 9, 40))))

    def play(self):
        dice, window = self.dice, self.window
        text = window.text
        edge = sum(len(line) + 1 for line in text.split("\n")[:GROUP])
        at = dice.randrange(len(text) + 1) if dice.random() < 0.5 else min(len(text), max(0, edge + dice.randrange(-12, 4)))
        window.select(units(text[:at]), units(text[: at + dice.choice((0, 0, 0, 0, 3, 25))]))
        for _ in range(dice.randrange(1, 4)):
            self.compose(dice.choice(WORDS))
            if dice.random() < 0.6:
                self.other()
        end = dice.choice(("insert", "insert", "cancel", "key", "undo", "blur", "leave"))
        self.done[end] = self.done.get(end, 0) + 1
        if end == "insert":
            self.insert(dice.choice(WORDS))
        elif end == "cancel":
            self.compose("")
        elif end == "key":
            window.keys(dice.choice((Keys.ENTER, Keys.BACKSPACE, Keys.DELETE, "k")))
        elif end == "undo":
            window.keys("z", held=[Keys.CONTROL])
        elif end == "blur":
            window.run("document.getElementById('text').blur()")
        if dice.random() < 0.5:
            self.other()

    def agrees(self):
        self.window.run("document.getElementById('text').blur()")
        text = lambda: self.line.ask(do="text", pad="random")["text"]
        return until(lambda: self.window.is_saved(1) and self.window.run(TEXT_OF_LINES) == text() and self.window.run(IS_PLAIN), 20)


def main(program, rounds=100, seed=1):
    passed = failed = 0
    with tempfile.TemporaryDirectory() as home:
        server = Server(program, home)
        window = Window(server.url)
        try:
            ann, bob = Line(server.port, "ann", "t1"), Line(server.port, "bob", "t2")
            ann.ask(do="create", pad="random")
            ann.ask(do="grant", pad="random", author="bob", right="write")
            ann.ask(do="insert", pad="random", rev=0, at=0, text="first line\nsecond 🙂 line\n\nfourth line\nfifth\n" * 50)
            bob.ask(do="join", pad="random")
            window.log_in("ann", "t1")
            window.open("random")
            one = Round(window, bob, random.Random(int(seed)))
            for number in range(int(rounds)):
                one.play()
                if number % 20 < 19:
                    continue
                if one.agrees():
                    passed += 1
                    print(f"ok      after {number + 1} compositions", flush=True)
                else:
                    failed += 1
                    print(f"FAILED  after {number + 1} compositions: {window.run(TEXT_OF_LINES)!r}, {bob.ask(do='text', pad='random')['text']!r}, {window.state}, {window.run(IS_PLAIN)}", flush=True)
            # The browser's own editing of several lines writes styles, which the policy stops.
            faults = [fault for fault in window.faults() if "inline style" not in fault]
            passed, failed = passed + (not faults), failed + bool(faults)
            print("ok      without a fault" if not faults else f"FAILED  {faults}")
            passed, failed = passed + (len(one.done) == 6), failed + (len(one.done) < 6)
            print("ok     " if len(one.done) == 6 else "FAILED ", f"compositions ended in each way: {one.done}")
        finally:
            window.quit()
            server.end()
    print(f"{passed} passed, {failed} failed")
    return int(failed > 0)


if __name__ == "__main__":
    given = [word for word in sys.argv[1:] if word != ON_DISK]
    sys.exit(main(os.path.realpath(given[0]), *given[1:]))
