#!/usr/bin/env python3
"""The bindings of clients/js to a text area and to CodeMirror 5, in windows of headless Chromium beside the page.

    tests/clients/bindings_test.py PROGRAM

Each is an example of clients/js/examples, served from another origin than the pads'. The last line is `N passed, M failed`.
"""
import os
import random
import re
import sys
import tempfile

HERE = os.path.dirname(os.path.realpath(__file__))
TOP = os.path.dirname(os.path.dirname(HERE))
sys.path[:0] = [os.path.join(os.path.dirname(HERE), "web")]
sys.dont_write_bytecode = True

from compositions import compose
from keyboard import insert, text_of
from static_files import StaticFiles, read
from windows import BROKEN, Keys, Line, Server, Window, units, until

CODEMIRROR = "/usr/share/javascript/codemirror"
README = os.path.join(TOP, "clients", "js", "README.md")
PAGE_OF_README = """<!doctype html><meta charset="utf-8">
<script type="importmap">{ "imports": { "vindrughe": "/vindrughe/index.js" } }</script>
<script type="module" src="/readme.js"></script>"""


CARETS = """
const editor = document.querySelector('.CodeMirror').CodeMirror;
return editor.getAllMarks().map((mark) => [editor.indexFromPos(mark.find()), mark.replacedWith.title])
"""


class TextArea:
    """How the text area of an example is used."""

    page = "textarea.html"
    focus = "document.querySelector('#text').focus();"
    read = "return document.querySelector('#text').value"
    select = focus + "document.querySelector('#text').setSelectionRange(arguments[0], arguments[1])"
    selected = "const { value, selectionStart, selectionEnd } = document.querySelector('#text'); return value.slice(selectionStart, selectionEnd)"
    is_editable = "return !document.querySelector('#text').readOnly"


class CodeMirror:
    """How the editor of CodeMirror is used."""

    page = "codemirror5.html"
    editor = "const editor = document.querySelector('.CodeMirror').CodeMirror;"
    focus = editor + "editor.focus();"
    read = editor + "return editor.getValue()"
    select = focus + "editor.setSelection(editor.posFromIndex(arguments[0]), editor.posFromIndex(arguments[1]))"
    selected = editor + "return editor.getSelection()"
    is_editable = editor + "return !editor.getOption('readOnly')"


class Example(Window):
    """A window on an example, and its editor."""

    def __init__(self, url, socket, kind):
        super().__init__(url)
        self.kind, self.socket = kind, socket

    def open_pad(self, name, token, pad):
        self.driver.get(self.url + self.kind.page)
        for field, text in {"address": self.socket, "name": name, "token": token, "pad": pad}.items():
            self.run("document.querySelector(`[name=${arguments[0]}]`).value = arguments[1]", field, text)
        self.press(lambda: self.all("button")[0])
        until(lambda: self.state == "saved")

    @property
    def text(self):
        return self.run(self.kind.read)

    @property
    def state(self):
        return self.run("return document.querySelector('#state').value")

    @property
    def selected(self):
        return self.run(self.kind.selected)

    def select(self, start, end=None):
        self.run(self.kind.select, start, start if end is None else end)


class Play:
    """An example of ann's beside the page of bob's and a line of cyd's, on one pad."""

    def __init__(self, server, files, kind, tally):
        self.server, self.tally, self.name, self.pad = server, tally, kind.__name__, kind.__name__.lower()
        owner = Line(server.port, "bob", "t2")
        owner.ask(do="create", pad=self.pad)
        for author in ("ann", "cyd"):
            owner.ask(do="grant", pad=self.pad, author=author, right="write")
        self.owner, self.line = owner, Line(server.port, "cyd", "t3")
        self.line.ask(do="join", pad=self.pad)
        self.windows = []
        self.ann = self.keep(Example(f"{files.origin}/examples/", f"ws://127.0.0.1:{server.web}/socket", kind))
        self.page = self.keep(Window(server.url))

    def keep(self, window):
        self.windows.append(window)
        return window

    def check(self, name, holds, seen=None):
        self.tally[bool(holds)] += 1
        print("ok     " if holds else "FAILED ", f"{self.name}: {name}", *([] if holds or seen is None else [repr(seen)[:900]]), flush=True)

    @property
    def text(self):
        return text_of(self.line, self.pad)

    def becomes(self, name, wanted, shown=None):
        """The server has this text, the page shows it, and so does the editor."""
        shown = wanted if shown is None else shown
        done = until(lambda: self.text == wanted and self.ann.text == shown and self.page.text == wanted and self.ann.state == "saved")
        self.check(name, done, (self.text, self.ann.text, self.page.text, self.ann.state))

    def agree(self, name):
        same = until(lambda: self.ann.state == "saved" and self.page.is_saved(1) and self.text == self.ann.text == self.page.text, 30)
        self.check(name, same, (self.text, self.ann.text, self.page.text))

    def put(self, at, text):
        insert(self.line, self.pad, at, text)

    # ---- what is tried

    def opening(self):
        self.put(0, "one two\nthree 🙂 four")
        self.ann.open_pad("ann", "t1", self.pad)
        self.page.log_in("bob", "t2", f"#{self.pad}")
        self.becomes("shows the pad", "one two\nthree 🙂 four")

    def typing(self):
        self.ann.select(4)
        self.ann.keys("X", Keys.ENTER, "Y")
        self.becomes("what is typed is sent", "one X\nYtwo\nthree 🙂 four")
        self.ann.select(units("one X\nYtwo\nthree "), units("one X\nYtwo\nthree 🙂"))
        self.ann.keys(Keys.BACKSPACE)
        self.becomes("and what is erased", "one X\nYtwo\nthree  four")
        runs = self.line.ask(do="runs", pad=self.pad)["runs"]
        self.check("with the author's name", runs == [["cyd@1", 4], ["ann@1", 3], ["cyd@1", 15]], runs)

    def others(self):
        self.ann.select(units("one X\nY"), units("one X\nYtwo"))
        self.page.type("BOB ", 0)
        self.becomes("what others type is shown", "BOB one X\nYtwo\nthree  four")
        self.check("and the selection stays at its words", self.ann.selected == "two", self.ann.selected)
        self.ann.keys("2")
        self.becomes("so that typing replaces just these", "BOB one X\nY2\nthree  four")

    def undo(self):
        self.page.type("!", 0)
        until(lambda: self.ann.text.startswith("!"))
        self.ann.keys("z", held=[Keys.CONTROL])
        self.becomes("undo takes back the author's own change", "!BOB one X\nYtwo\nthree  four")
        self.ann.keys("z", held=[Keys.CONTROL, Keys.SHIFT])
        self.becomes("redo makes it again", "!BOB one X\nY2\nthree  four")

    def composing(self):
        self.ann.select(units("!BOB one"))
        compose(self.ann, "ni")
        self.put(0, "ABOVE ")
        self.put(len(self.text), " BELOW")
        compose(self.ann, "nihao")
        until(lambda: "nihao" in self.text)
        self.ann.driver.execute_cdp_cmd("Input.insertText", {"text": "你好"})
        self.becomes("an input method composes while others type", "ABOVE !BOB one你好 X\nY2\nthree  four BELOW")

    def returns(self):
        """Line ends of another client stay what they are."""
        start = self.text
        self.put(0, "a\r\nb\rc\r\n")
        until(lambda: self.ann.text.startswith("a\nb\nc\n"))
        self.ann.select(units("a\nb\nc"))
        self.ann.keys("!", Keys.ENTER)
        done = until(lambda: self.text == "a\r\nb\rc!\n\r\n" + start and self.ann.text == "a\nb\nc!\n\n" + start)
        self.check("line ends of another client stay", done, (self.text, self.ann.text))
        for at, text in ((1, "x"), (len("ax\r"), "y")):
            self.put(at, text)
        done = until(lambda: self.ann.text == "ax\ny\nb\nc!\n\n" + start)
        self.check("also where others type between CR and LF", done, (self.text, self.ann.text))
        self.line.ask(do="delete", pad=self.pad, rev=self.line.ask(do="revs", pad=self.pad)["now"], at=0, len=len(self.text) - len(start))
        self.becomes("and are erased with the others", start)

    def at_random(self):
        dice = random.Random(self.name)
        for _ in range(30):
            for window in (self.ann, self.page):
                length = units(window.text)
                at = dice.randrange(length + 1)
                window.select(at, min(length, at + dice.choice((0, 0, 0, 2, 9))))
                window.keys(dice.choice(("a", "bc", Keys.ENTER, Keys.BACKSPACE, Keys.DELETE * 2, Keys.END + "e")))
            if dice.randrange(3) == 0:
                self.put(dice.randrange(len(self.text) + 1), dice.choice("pqr🙂"))
        self.agree("all agree after keys at random places")

    def rights(self):
        self.owner.ask(do="grant", pad=self.pad, author="ann", right="read")
        self.check("who may only read cannot type", until(lambda: not self.ann.run(self.kind.is_editable), 20))
        self.owner.ask(do="grant", pad=self.pad, author="ann", right="write")
        self.check("and can again with the right to", until(lambda: self.ann.run(self.kind.is_editable), 20))

    @property
    def kind(self):
        return self.ann.kind

    def carets(self):
        if self.kind is not CodeMirror:
            return
        self.page.select(2)
        self.check("another author's caret is shown", until(lambda: [2, "bob@1"] in self.ann.run(CARETS)), self.ann.run(CARETS))
        self.put(0, "##")
        self.check("and moves with the text", until(lambda: [4, "bob@1"] in self.ann.run(CARETS)), self.ann.run(CARETS))

    def play(self):
        for part in (self.opening, self.typing, self.others, self.undo, self.composing, self.returns, self.at_random, self.carets, self.rights):
            part()
        faults = self.ann.faults()
        self.check("without a fault", not faults, faults)

    def end(self):
        for window in self.windows:
            try:
                window.quit()
            except BROKEN:
                pass


def readme_in_a_browser(server, files, check):
    """The bot of the README, as a page runs it."""
    owner = Line(server.port, "ann", "t1")
    owner.ask(do="create", pad="minutes")
    owner.ask(do="grant", pad="minutes", author="bob", right="write")
    owner.ask(do="insert", pad="minutes", rev=0, at=0, text="Minutes\n")
    window = Window(files.origin + "/readme.html")
    try:
        window.driver.get(window.url)
        check("README: the bot runs in a browser", until(lambda: text_of(owner, "minutes") == "0 decisions\nMinutes\n"), text_of(owner, "minutes"))
        insert(owner, "minutes", len("0 decisions\nMinutes\n"), "DECIDED: to paint it\n")
        done = until(lambda: text_of(owner, "minutes") == "1 decisions\nMinutes\nDECIDED: to paint it\n")
        check("README: and goes on while others type", done, text_of(owner, "minutes"))
    finally:
        window.quit()


def play(program, tally):
    def check(name, holds, seen=None):
        tally[bool(holds)] += 1
        print("ok     " if holds else "FAILED ", name, *([] if holds or seen is None else [repr(seen)[:900]]), flush=True)

    folders = {"vindrughe": os.path.join(TOP, "clients", "js"), "codemirror": CODEMIRROR, "examples": os.path.join(TOP, "clients", "js", "examples")}
    texts = {"/readme.html": PAGE_OF_README, "/favicon.ico": ""}
    files = StaticFiles(folders, texts)
    with tempfile.TemporaryDirectory() as home:
        server = Server(program, home, ["--web-origin", files.origin])
        code = re.search(r"^```js\n(.*?)^```", read(README).decode(), re.M | re.S)[1]
        code = code.replace("tcp://127.0.0.1:7878", f"ws://127.0.0.1:{server.web}/socket").replace('name: "bot", token: "the token of bot"', 'name: "bob", token: "t2"')
        texts["/readme.js"] = code
        try:
            readme_in_a_browser(server, files, check)
            for kind in (TextArea, CodeMirror):
                one = Play(server, files, kind, tally)
                try:
                    one.play()
                finally:
                    one.end()
        finally:
            server.end()
            files.end()


def main(program):
    tally = {True: 0, False: 0}
    try:
        play(program, tally)
    except BROKEN as error:
        print("the browser broke, and all is played again:", type(error).__name__, str(error).split("\n", 1)[0], flush=True)
        tally[True] = 0
        play(program, tally)
    print(f"{tally[True]} passed, {tally[False]} failed")
    return int(tally[False] > 0)


if __name__ == "__main__":
    sys.exit(main(os.path.realpath(sys.argv[1])))
