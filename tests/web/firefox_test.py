#!/usr/bin/env python3
"""The page in two windows of headless Firefox, before a real server that is killed and started again on the way.

    tests/web/firefox_test.py [--disk] PROGRAM

PROGRAM is crates/pad_server/out/pad_server. With --disk, the page is that on disk, and not that of the program. The last
line is `N passed, M failed`.
"""
import os
import sys
import tempfile

from firefox import ALT, BACKSPACE, CONTROL, DELETE, ENTER, Firefox, Window
from windows import ON_DISK, Line, Server, units, until

PASTE = """
const [text, hasImage] = arguments, data = new DataTransfer();
if (hasImage) data.items.add(new File([new Uint8Array(9)], 'image.png', { type: 'image/png' })); else data.setData('text/plain', text);
const given = { inputType: 'insertFromPaste', dataTransfer: data, bubbles: true, cancelable: true };
document.getElementById('text').dispatchEvent(new InputEvent('beforeinput', given));
"""
# What an input method does with the document and tells, in the order of Firefox: the word at the caret is written anew.
COMPOSE = """
const [texts, isEnded] = arguments, root = document.getElementById('text'), { focusNode, focusOffset } = getSelection();
const data = focusNode.nodeType === 3 ? focusNode : focusNode.appendChild(document.createTextNode(''));
const before = data.data.slice(0, focusOffset), after = data.data.slice(focusOffset);
root.dispatchEvent(new CompositionEvent('compositionstart', { bubbles: true }));
for (const text of texts) {
  const told = { bubbles: true, inputType: 'insertCompositionText', data: text, isComposing: true };
  root.dispatchEvent(new InputEvent('beforeinput', told));
  data.data = before + text + after;
  getSelection().collapse(data, before.length + text.length);
  root.dispatchEvent(new InputEvent('input', told));
}
if (isEnded) root.dispatchEvent(new CompositionEvent('compositionend', { bubbles: true, data: texts[texts.length - 1] }));
"""
INSIDE = """
const [unit] = arguments, root = document.getElementById('text'), words = document.createTreeWalker(root, NodeFilter.SHOW_TEXT);
root.focus();
let left = unit;
for (let node; (node = words.nextNode()); left -= node.length) if (left <= node.length) { getSelection().collapse(node, left); break; }
"""
EMOJI = "a🙂b👩‍🚀c"


class Test:
    """Two windows of two authors on one pad."""

    def __init__(self, server, browser):
        self.server, self.browser, self.passed, self.failed = server, browser, 0, 0
        self.ann, self.bob = Window(browser, server.url), Window(browser, server.url)

    def check(self, name, holds, seen=None):
        self.passed += bool(holds)
        self.failed += not holds
        print("ok     " if holds else "FAILED ", name, *([] if holds or seen is None else [repr(seen)[:600]]), flush=True)

    def server_text(self):
        line = Line(self.server.port, "ann", "t1")
        line.ask(do="join", pad="minutes")
        return line.ask(do="text", pad="minutes")["text"]

    def agree(self, name):
        ann, bob = self.ann, self.bob
        same = until(lambda: ann.is_saved(1) and bob.is_saved(1) and ann.text == bob.text == self.server_text())
        self.check(name, same, (ann.text, bob.text, self.server_text(), ann.text_of("state"), bob.text_of("state")))


def way_in(test):
    ann, bob, check = test.ann, test.bob, test.check
    check("ann logs in", ann.log_in("ann", "t1"), ann.text_of("log-in-error"))
    check("and creates a pad", ann.open("minutes", "create") and ann.is_saved(), ann.text_of("open-error"))
    line = Line(test.server.port, "ann", "t1")
    line.ask(do="join", pad="minutes")
    line.ask(do="grant", pad="minutes", author="bob", right="write")
    check("bob opens it", bob.log_in("bob", "t2") and bob.open("minutes") and bob.is_saved(), bob.text_of("open-error"))


def typing(test):
    ann, bob, check = test.ann, test.bob, test.check
    ann.select(0)
    ann.keys("First line." + ENTER + "Second line.")
    check("bob sees what ann types", until(lambda: bob.text == "First line.\nSecond line."), bob.text)
    bob.select(len("First line."))
    ann.select(units(ann.text))
    for one, other in zip(" By bob.", " By ann."):
        bob.keys(one)
        ann.keys(other)
    test.agree("both type at once, and see the same as the server")
    check("with the words of each", ann.text == "First line. By bob.\nSecond line. By ann.", ann.text)
    ann.select(len("First line. By bob.\n"))
    ann.keys(BACKSPACE)
    test.agree("lines are joined")
    ann.keys(ENTER)
    ann.select(0, len("First "))
    ann.keys(DELETE)
    check("a selection is erased", until(lambda: bob.text == "line. By bob.\nSecond line. By ann."), bob.text)
    ann.keys("z", held=[CONTROL])
    check("and undo brings it back", until(lambda: bob.text == "First line. By bob.\nSecond line. By ann."), bob.text)
    ann.keys("y", held=[CONTROL])
    ann.keys("z", held=[CONTROL])
    test.agree("redo and undo agree")


def pasting(test):
    ann, check = test.ann, test.check
    before = ann.text
    ann.select(0, 5)
    ann.run(PASTE, "", True)
    check("an image that is pasted erases nothing", ann.text == before and "Only text" in ann.text_of("notice-text"), ann.text)
    ann.run(PASTE, "1.\r\n2. ", False)
    test.agree("words are pasted")
    check("with their lines", ann.text == "1.\n2. " + before[5:], ann.text)


def composing(test):
    """The events of an input method, as a script can tell them."""
    ann, bob, check = test.ann, test.bob, test.check
    ann.select(units(ann.text))
    ann.run(COMPOSE, ["n", "ni", "nih"], False)
    bob.select(0)
    bob.keys("Q")
    check("others' lines are shown during a composition", until(lambda: ann.text.startswith("Q1.") and ann.text.endswith("nih"), 4), ann.text)
    ann.run("document.getElementById('text').dispatchEvent(new CompositionEvent('compositionend', { bubbles: true }))")
    ann.run(COMPOSE, ["ao", "你好"], True)
    test.agree("what was composed arrives")
    check("once", ann.text.startswith("Q1.\n2. ") and ann.text.endswith("By ann.nih你好"), ann.text)


def emoji(test):
    """Letters are typed at each place of a text with emoji, also where a script puts the caret into half of one."""
    ann, bob, check = test.ann, test.bob, test.check
    for unit in range(units(EMOJI) + 1):
        ann.select(0, units(ann.text))
        ann.run(PASTE, EMOJI, False)
        ann.run(INSIDE, unit)
        ann.keys("x")
        until(lambda: ann.is_saved(1) and bob.text == ann.text)
        whole = "\ufffd" not in ann.text and ann.text.replace("x", "", 1) == EMOJI
        check(f"a letter at unit {unit} breaks no character", whole and test.server_text() == ann.text, (ann.text, test.server_text()))
    ann.run(INSIDE, 2)
    ann.keys(DELETE)
    test.agree("and nothing is left of half an emoji that is erased")


def comments(test):
    ann, bob, check = test.ann, test.bob, test.check
    ann.select(0, units(ann.text))
    ann.run(PASTE, "The crane is painted.\nThe ferry leaves.", False)
    test.agree("they agree before a comment")
    ann.select(4, 9)
    ann.keys("m", held=[CONTROL, ALT])
    check("the comment's box opens", until(lambda: ann.run("return document.getElementById('comment-box').open")))
    ann.keys("Which one?")
    ann.run("document.querySelector('#comment-box button[value=send]').click()")
    check("bob sees the comment", until(lambda: "Which one?" in bob.text_of("margin")), bob.text_of("margin"))
    marked = lambda: bob.run("return [...document.querySelectorAll('#text .marked')].map(one => one.textContent).join('')")
    check("on its words", until(lambda: marked() == "crane"), marked())
    ann.select(2)
    ann.focus("rights")
    bob.select(0)
    bob.keys("!")
    check("another's letter leaves the keyboard to a button", until(lambda: ann.text.startswith("!")) and ann.run("return document.activeElement.id") == "rights")


def minutes(test):
    """Minutes by a worker, and a box that ticks in the pad."""
    ann, bob, check = test.ann, test.bob, test.check
    ann.select(0, units(ann.text))
    ann.run(PASTE, "# Minutes\n- [ ] a *task*\nThe crane is painted.", False)
    test.agree("they agree before they look at minutes")
    ann.run("document.getElementById('view-both').click()")
    html = lambda: ann.run("return document.getElementById('minutes').innerHTML")
    check("minutes are shown beside the text", until(lambda: "<h1" in html() and "<em>task</em>" in html()), html())
    ann.run("document.querySelector('#minutes input').click()")
    check("a box ticks in the pad", until(lambda: "- [x] a *task*" in bob.text), bob.text)
    ann.run("document.getElementById('view-text').click()")
    ann.select(units("# Minutes\n- [x] a *task*"))
    ann.keys(ENTER + "next")
    check("Enter goes on with a list", until(lambda: "\n- [ ] next\n" in bob.text), bob.text)


def offline(test):
    ann, bob, check = test.ann, test.bob, test.check
    before = ann.text
    test.server.kill()
    check("ann is told that she is offline", until(lambda: "offline" in ann.text_of("state"), 30), ann.text_of("state"))
    ann.select(units(before))
    ann.keys(" (ann, offline)")
    bob.select(0)
    bob.keys("(bob, offline) ")
    test.server.start()
    check("both connect again", ann.is_saved(60) and bob.is_saved(60), (ann.text_of("state"), bob.text_of("state")))
    test.agree("and have the same")
    check("with nothing lost or doubled", ann.text == f"(bob, offline) {before} (ann, offline)", ann.text)
    faults = test.browser.faults()
    check("the browser reports no fault", not faults, faults)


def reloaded(test):
    """A window is loaded again while words are not sent."""
    ann, bob, check = test.ann, test.bob, test.check
    before = ann.text
    test.server.kill()
    until(lambda: "offline" in ann.text_of("state"), 30)
    ann.select(0)
    ann.keys("kept ")
    check("words that are not sent are kept", until(lambda: "kept on this device" in ann.text_of("state")), ann.text_of("state"))
    test.server.start()
    check("ann logs in again", ann.log_in("ann", "t1") and ann.open("minutes"), ann.text_of("log-in-error"))
    check("and they are sent, once", until(lambda: test.server_text() == f"kept {before}", 30), test.server_text())


def links(test):
    """A log-in link, a window that is loaded again, and logging out."""
    ann, check = test.ann, test.check
    line = Line(test.server.port, "ann", "t1")
    line.ask(do="join", pad="minutes")
    line.ask(do="grant", pad="minutes", author="dora", right="write")
    wanted = lambda: ann.text_of("pad-name") == "minutes" and ann.text == test.server_text() and "dora" in ann.run("return document.querySelector('#here .is-me').textContent")
    ann.load("#in=dora.k7Qw%26d%3DT3.x%2541-zB9&pad=minutes", wait="none")
    check("somebody else's link logs in and opens its pad", until(wanted), (ann.text_of("log-in-error"), ann.text_of("state")))
    places = ann.run("return JSON.stringify([document.URL, history.state, { ...localStorage }, performance.getEntries().map(({ name }) => name)])")
    check("its token is gone from the page", "k7Qw" not in places and "#minutes" in places, places)
    ann.run("window.isOld = true; location.reload()")
    check("a window that is loaded again stays logged in", until(lambda: not ann.run("return window.isOld") and wanted()), ann.text_of("state"))
    ann.click("log-out")
    check("until its author logs out", until(lambda: ann.shows("log-in") and ann.run("return sessionStorage.length") == 0), ann.text_of("state"))


def guests(test):
    """A guest comes by a link to a server that takes guests, and the page is loaded again."""
    link = "#guest=minutes.k3Zt0Qm8vJx2bN5wYcR7Ag"
    secret, check = link.partition(".")[2], test.check
    with tempfile.TemporaryDirectory() as home:
        server = Server(test.server.program, home, ["--guests"])
        try:
            line = Line(server.port, "ann", "t1")
            line.ask(do="create", pad="minutes")
            line.ask(do="insert", pad="minutes", rev=0, at=0, text="The crane")
            line.ask(do="invite", pad="minutes", secret=secret, right="write")
            ben = Window(test.browser, server.url)
            is_in = lambda: ben.text == "The crane" and ben.run("return document.querySelector('#here .is-me')?.textContent") == "Ben (guest)"
            ben.load(link, wait="none")
            check("a guest is asked for a name", until(lambda: ben.shows("guest") and ben.run("return document.activeElement.id") == "guest-name"))
            ben.keys("Ben" + ENTER)
            check("and is in", until(is_in), (ben.text, ben.text_of("guest-error")))
            places = ben.run("return JSON.stringify([document.URL, history.state, performance.getEntries().map(({ name }) => name)])")
            check("the link's secret is gone from the page", secret not in places and "#minutes" in places, places)
            ben.run("window.isOld = true; location.reload()")
            check("a window that is loaded again has the same guest", until(lambda: not ben.run("return window.isOld") and is_in()) and len(line.ask(do="guests", pad="minutes")["guests"]) == 1, ben.text)
        finally:
            server.end()


def main(program):
    with tempfile.TemporaryDirectory() as home:
        server, browser = Server(program, home), None
        try:
            browser = Firefox()
            test = Test(server, browser)
            for part in (way_in, typing, pasting, composing, emoji, comments, minutes, offline, reloaded, links, guests):
                part(test)
        finally:
            if browser:
                browser.end()
            server.end()
    print(f"{test.passed} passed, {test.failed} failed")
    return int(test.failed > 0)


if __name__ == "__main__":
    given = [word for word in sys.argv[1:] if word != ON_DISK]
    sys.exit(main(os.path.realpath(given[0])))
