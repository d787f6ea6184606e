#!/usr/bin/env python3
"""Six clients at random on one pad: two pages in Chromium, two of the library for JavaScript in Node, one of the library for
Python, and `pads edit`; over connections that are held and cut, before a server that is killed and started again.

    tests/clients/six_clients_test.py PROGRAM [SECONDS [SEED]]

Every character that is typed is typed once. In the end all show the same, which is what the server has: each character that
nobody erased is there once, under the name of who typed it. The last line is `N passed, M failed`.
"""
import json
import os
import random
import subprocess
import sys
import tempfile
import threading
import time
from collections import Counter

HERE = os.path.dirname(os.path.realpath(__file__))
TOP = os.path.dirname(os.path.dirname(HERE))
sys.path[:0] = [os.path.join(TOP, "tests", "web")]
sys.dont_write_bytecode = True

from rough_proxy import RoughProxy
from windows import BROKEN, Line, Server, Window, until

PAD = "six"
TOKENS = {"ann": "t1", "bob": "t2", "cyd": "t3", "dan": "t4", "eve": "t5", "fay": "t6"}
ACCOUNTS = "".join(f"author {name} {token}\n" for name, token in TOKENS.items())
KIT = os.path.join(TOP, "tests", "conformance", "clients")
PADS = os.path.join(TOP, "clients", "python", "bin", "pads")
PYTHON = "/usr/bin/python3"
CALM = 90  # seconds, until everybody has sent everything
PATIENCE = 300  # of pads edit
# Selects something and types, as a keyboard does: nothing can come between. Answers what was erased. (A browser's own command
# execCommand would change the document without asking the page.)
TYPE = """
const [from, to, given] = arguments, root = document.getElementById('text'), places = [];
const lines = [...root.querySelectorAll('.line')], text = lines.map((line) => line.textContent).join('\\n');
const place = (unit) => {
  let left = unit;
  for (const line of lines) {
    if (left > line.textContent.length) { left -= line.textContent.length + 1; continue; }
    for (const run of line.childNodes) {
      if (run.firstChild && left <= run.textContent.length) return [run.firstChild, left];
      left -= run.textContent.length;
    }
    return [line, 0];
  }
  return [root, root.childNodes.length];
};
const isLow = (unit) => text.charCodeAt(unit) >= 0xdc00 && text.charCodeAt(unit) < 0xe000;
let [a, b] = [Math.floor(from * text.length), 0];
b = Math.min(text.length, a + to);
if (isLow(a)) a--;
if (isLow(b)) b++;
root.focus();
getSelection().setBaseAndExtent(...place(a), ...place(b));
const inputType = given ? 'insertText' : 'deleteContentBackward';
if (given || b > a) root.dispatchEvent(new InputEvent('beforeinput', { inputType, data: given || null, bubbles: true, cancelable: true }));
return text.slice(a, b);
"""


class Letters:
    """Characters that nobody has typed yet, every fourth of them beyond 16 bits, and all behind 32,768, which is before the
    surrogates begin: who typed each, and which were erased."""

    def __init__(self):
        self.lock, self.made, self.owner, self.erased = threading.Lock(), 0, {}, set()

    def word(self, author, dice):
        with self.lock:
            out = ""
            for _ in range(1 + dice.randrange(4)):
                self.made += 1
                letter = chr((0x20000 if self.made % 4 == 0 or self.made > 0x8000 else 0x4E00) + self.made)
                self.owner[letter] = author
                out += letter
            return out + dice.choice(["", "", " ", "\n"])

    def gone(self, text):
        with self.lock:
            self.erased.update(letter for letter in text if letter in self.owner)

    def never_typed(self, text):
        """What was to be typed did not come in: no client had taken it."""
        with self.lock:
            for letter in text:
                self.owner.pop(letter, None)


class Client:
    """Somebody who types for a while, in a thread of its own. What goes wrong is a fault."""

    def __init__(self, name, letters, seed):
        self.name, self.letters, self.dice, self.acts, self.fault = name, letters, random.Random(f"{name} {seed}"), 0, None
        self.is_over = threading.Event()
        self.thread = threading.Thread(target=self.play)

    def play(self):
        try:
            while not self.is_over.wait(self.pause()):
                self.act()
                self.acts += 1
        except Exception as error:  # told at the end
            self.fault = f"{type(error).__name__}: {error}"

    def pause(self):
        return self.dice.random() * 0.6

    def deed(self):
        """A place as a share of the text, how many characters are erased there, and a text that is typed there."""
        erase = self.dice.choice([0, 0, 0, 1, 3])
        return self.dice.random(), erase, "" if erase and self.dice.randrange(2) else self.letters.word(self.name, self.dice)


class Page(Client):
    """A window on the page."""

    def __init__(self, name, letters, seed, port):
        super().__init__(name, letters, seed)
        self.window = Window(f"http://127.0.0.1:{port}/")
        self.window.log_in(name, TOKENS[name], f"#{PAD}")
        if not until(lambda: self.window.is_saved(1) and self.window.get("text").is_displayed(), 30):
            raise RuntimeError(f"the page of {name} does not open the pad: {self.window.state}")

    def act(self):
        place, erase, text = self.deed()
        self.letters.gone(self.window.run(TYPE, place, erase, text))

    def shown(self):
        return self.window.text, "saved" if self.window.is_saved(1) else self.window.state

    def end(self):
        try:
            faults = self.window.faults()
            self.fault = self.fault or (f"the browser: {faults[0]}" if faults else None)
            self.window.quit()
        except BROKEN:
            pass


class Driven(Client):
    """A library, by its program for tests/conformance."""

    def __init__(self, name, letters, seed, port, command):
        super().__init__(name, letters, seed)
        environment = {**os.environ, "PADS_ADDRESS": f"tcp://127.0.0.1:{port}", "PADS_NAME": name, "PADS_TOKEN": TOKENS[name], "PADS_PAD": PAD}
        self.process = subprocess.Popen(command, env=environment, stdin=subprocess.PIPE, stdout=subprocess.PIPE, text=True)
        self.ask(do="show")

    def ask(self, **command):
        self.process.stdin.write(json.dumps(command) + "\n")
        self.process.stdin.flush()
        return json.loads(self.process.stdout.readline())

    def act(self):
        place, erase, text = self.deed()
        length = len(self.ask(do="show")["text"])
        at = int(place * length)
        answer = self.ask(do="type", at=at, erase=min(erase, length - at), text=text)
        if "erased" in answer:
            self.letters.gone(answer["erased"])
        else:
            self.letters.never_typed(text)  # others had made the text shorter

    def shown(self):
        answer = self.ask(do="show")
        return answer["text"], answer["state"]

    def end(self):
        self.process.kill()
        self.process.wait()


EDITOR = """#!/bin/sh
cp "$1" "$DIR/opened.tmp" && mv "$DIR/opened.tmp" "$DIR/opened"
while [ ! -e "$DIR/edited" ]; do sleep 0.05; done
cp "$DIR/edited" "$1"
"""


class Editor(Client):
    """`pads edit`, again and again: a line or two are changed at one place each, while others type."""

    def __init__(self, name, letters, seed, port, folder):
        super().__init__(name, letters, seed)
        self.folder, self.last = folder, ("", "saved")
        with open(f"{folder}/editor", "w", encoding="utf-8") as file:
            file.write(EDITOR)
        os.chmod(f"{folder}/editor", 0o755)
        self.environment = {
            "PATH": "/usr/bin:/bin", "HOME": folder, "TMPDIR": folder, "LC_ALL": "C.UTF-8", "DIR": folder, "EDITOR": f"{folder}/editor",
            "PADS_ADDRESS": f"tcp://127.0.0.1:{port}", "PADS_NAME": name, "PADS_TOKEN": TOKENS[name],
        }

    def act(self):
        for name in ("opened", "edited"):
            if os.path.exists(f"{self.folder}/{name}"):
                os.remove(f"{self.folder}/{name}")
        process = subprocess.Popen(
            [PYTHON, PADS, "edit", PAD, "--patience", str(PATIENCE)], env=self.environment, stdin=subprocess.DEVNULL, stdout=subprocess.PIPE, stderr=subprocess.PIPE, text=True
        )
        while not os.path.exists(f"{self.folder}/opened"):
            if process.poll() is not None:  # there is no server at the moment
                process.communicate()
                return
            time.sleep(0.02)
        with open(f"{self.folder}/opened", encoding="utf-8", newline="") as file:
            text = file.read()
        time.sleep(self.dice.random() * 2)
        edited = self.edited(text)
        with open(f"{self.folder}/edited.tmp", "w", encoding="utf-8", newline="") as file:
            file.write(edited)
        os.rename(f"{self.folder}/edited.tmp", f"{self.folder}/edited")
        _, errors = process.communicate()
        if process.returncode:
            raise RuntimeError(f"pads edit ended with {process.returncode}: {errors}")
        self.letters.gone("".join(set(text) - set(edited)))

    def edited(self, text):
        """Two lines next to each other are not both changed, so it is plain which letters stay."""
        lines = text.split("\n")
        for at in range(self.dice.randrange(3), len(lines), 3 + self.dice.randrange(3)):
            line, place, erase = lines[at], self.dice.randrange(len(lines[at]) + 1), self.dice.choice([0, 0, 2])
            word = self.letters.word(self.name, self.dice).rstrip() if not erase or self.dice.randrange(2) else ""
            lines[at] = line[:place] + word + line[place + erase :]
        return "\n".join(lines)

    def shown(self):
        """What it shows is what it opens."""
        done = subprocess.run([PYTHON, PADS, "show", PAD, "--json"], env=self.environment, capture_output=True, text=True)
        return (json.loads(done.stdout)["text"], "saved") if done.returncode == 0 else ("", done.stderr)

    def end(self):
        pass


class Play:
    def __init__(self, program, home, seconds, seed):
        self.dice, self.letters, self.seconds = random.Random(seed), Letters(), seconds
        self.seen = Counter()
        self.server = Server(program, home)
        with open(os.path.join(home, "accounts"), "w", encoding="utf-8") as file:
            file.write(ACCOUNTS)
        self.restart()
        owner = Line(self.server.port, "ann", "t1")
        owner.ask(do="create", pad=PAD)
        for name in list(TOKENS)[1:]:
            owner.ask(do="grant", pad=PAD, author=name, right="write")
        owner.ask(do="insert", pad=PAD, rev=0, at=0, text="\n".join(self.letters.word("ann", self.dice).strip() for _ in range(12)))
        self.clients, self.proxies = [], {}
        for number, name in enumerate(TOKENS):
            proxy = self.proxies[name] = RoughProxy(self.server.web if number < 2 else self.server.port, random.Random(f"{seed} {name}"))
            self.clients.append(self.client(number, name, proxy.port, seed, home))

    def client(self, number, name, port, seed, home):
        if number < 2:
            return Page(name, self.letters, seed, port)
        if number < 5:
            command = ["node", f"{KIT}/js.mjs"] if number < 4 else [PYTHON, "-B", f"{KIT}/python.py"]
            return Driven(name, self.letters, seed, port, command)
        folder = os.path.join(home, "editing")
        os.makedirs(folder)
        return Editor(name, self.letters, seed, port, folder)

    def restart(self):
        self.server.kill()
        time.sleep(self.dice.random() * 2)
        self.server.start()

    def disturb(self):
        """Now and then a connection is held or cut, and the server killed."""
        proxy = self.proxies[self.dice.choice(list(self.proxies))]
        deed = self.dice.randrange(20)
        if deed < 8:
            self.seen["held"] += proxy.hold(self.dice.random() * 8)
        elif deed < 13:
            self.seen["cut"] += proxy.cut(self.dice.random() * 8, False)
        elif deed < 17:
            self.seen["lost"] += proxy.cut(self.dice.random() * 5, True)

    def play(self):
        for client in self.clients:
            client.thread.start()
        start, killed = time.monotonic(), time.monotonic()
        while time.monotonic() < start + self.seconds:
            time.sleep(0.3 + self.dice.random())
            self.disturb()
            if time.monotonic() - killed > 9 + self.dice.random() * 20:
                self.seen["kills"] += 1
                self.restart()
                killed = time.monotonic()
        for client in self.clients:
            client.is_over.set()
        for client in self.clients:
            client.thread.join()

    # ---- in the end

    def server_has(self):
        line = Line(self.server.port, "ann", "t1")
        line.ask(do="join", pad=PAD)
        now = line.ask(do="revs", pad=PAD)["now"]
        return now, line.ask(do="text", pad=PAD, rev=now)["text"], line.ask(do="runs", pad=PAD, rev=now)["runs"]

    def check(self, tell):
        def all_show_the_same():
            text = self.server_has()[1]
            return all(client.shown() == (text, "saved") for client in self.clients)

        is_same = until(all_show_the_same, CALM)
        now, text, runs = self.server_has()
        others = {client.name: (shown, state) for client in self.clients for shown, state in [client.shown()] if (shown, state) != (text, "saved")}
        tell("all six show what the server has", is_same, "; ".join(f"{name} is {state} and {differs(shown, text)}" for name, (shown, state) in others.items()))
        letters = self.letters
        times = Counter(letter for letter in text if letter in letters.owner)
        wrong = [(letter, count) for letter, count in times.items() if count > 1]
        tell("no character is there twice", not wrong, wrong[:5])
        lost = [(letter, letters.owner[letter]) for letter in letters.owner if letter not in times and letter not in letters.erased]
        tell("each character that nobody erased is there", not lost, f"{len(lost)} of {len(letters.owner)}, such as {lost[:5]}")
        back = [(letter, letters.owner[letter]) for letter in times if letter in letters.erased]
        tell("none that was erased has come back", not back, back[:5])
        owners = zip(text, (author for author, length in runs for _ in range(length)))
        false = [(letter, author, letters.owner[letter]) for letter, author in owners if letter in letters.owner and author != f"{letters.owner[letter]}@1"]
        tell("none is under another's name", not false, false[:5])
        foreign = sorted(set(text) - set(letters.owner) - set(" \n"))
        tell("and nothing is there that nobody typed", not foreign, foreign[:5])
        for client in self.clients:
            client.end()
            tell(f"{client.name} meets no fault", client.fault is None, client.fault)
        acts = {client.name: client.acts for client in self.clients}
        print(f"       {now} revisions, {len(letters.owner)} characters typed, {len(letters.erased)} erased, {dict(self.seen)}, {acts}")
        is_much = min(acts.values()) >= self.seconds / 20 and self.seen["kills"] >= self.seconds // 40 and self.seen["cut"] + self.seen["lost"] >= self.seconds / 20
        tell("everybody has typed, connections were broken, and the server was killed", is_much)


def differs(one, other):
    at = next((at for at, (a, b) in enumerate(zip(one, other)) if a != b), min(len(one), len(other)))
    return f"shows {one[at : at + 10]!r} at {at} of {len(one)}, and not {other[at : at + 10]!r} of {len(other)}"


def main(program, seconds="25", seed="1"):
    tally = {True: 0, False: 0}

    def tell(name, holds, said=""):
        tally[bool(holds)] += 1
        print("ok     " if holds else "FAILED ", name, "" if holds else said, flush=True)

    with tempfile.TemporaryDirectory() as home:
        play = Play(program, home, float(seconds), seed)
        try:
            play.play()
            play.check(tell)
        finally:
            for client in play.clients:
                client.is_over.set()
                client.end()
            play.server.end()
    print(f"{tally[True]} passed, {tally[False]} failed")
    return int(tally[False] > 0)


if __name__ == "__main__":
    sys.exit(main(os.path.realpath(sys.argv[1]), *sys.argv[2:]))
