#!/usr/bin/env python3
"""An owner closes a pad and opens it again, in windows of headless Chromium: of the owner, of a second one, and of who may write.

    tests/web/closing_test.py [--disk] PROGRAM [FOLDER]

PROGRAM is crates/pad_server/out/pad_server. Screenshots go into FOLDER, if it is given. With --disk, the page is that on
disk, and not that of the program. The last line is `N passed, M failed`.
"""
import sys
import tempfile
import time

from page_checks import plain
from trial import MAY_TYPE, WIDTH, Trial, narrow, open_rights, speak
from windows import DORA, Keys, Line, Server, play_all, units, until

TEXT = "The crane on the east quay is to be painted.\n"
SHUT, KEPT = "An owner has closed this pad", "What you typed last was not sent. It is kept on this device"
# Types numbers at the end of the text, ten a second, as long as the page takes them. `typed` has those that it took.
TYPE = """
window.typed = '';
const root = document.getElementById('text');
let number = arguments[0];
const timer = setInterval(() => {
  if (!root.isContentEditable) { clearInterval(timer); return; }
  const lines = root.querySelectorAll('.line'), word = `${number++} `;
  root.focus();
  getSelection().selectAllChildren(lines[lines.length - 1]);
  getSelection().collapseToEnd();
  document.execCommand('insertText', false, word);
  window.typed += word;
}, 100);
"""
TYPED = "return window.typed"
# Counts the connections that the page opens from now on.
COUNT = """
window.opened = 0;
const Socket = WebSocket;
window.WebSocket = class extends Socket { constructor(...given) { super(...given); window.opened++; } };
"""
OPENED = "return window.opened"
# An older server knows no such request.
OLDER = "const { send } = WebSocket.prototype; WebSocket.prototype.send = function (text) { return send.call(this, text.replace('\"do\":\"close\"', '\"do\":\"unknown\"')); };"
ROWS = "return [...document.querySelectorAll('#pads li')].map((row) => [row.textContent, getComputedStyle(row.firstChild).borderTopStyle])"
FOCUS = "return document.activeElement.id"
# Leaves the page as a crash does: without a question.
GO = "window.addEventListener('beforeunload', (event) => event.stopImmediatePropagation(), true)"
WORDS = {"de": "geschlossen", "fr": "fermé", "es": "cerrado", "en": "closed"}


def bar(window):
    """What the bar says, or nothing where there is none."""
    nodes = window.all("#closed")
    return nodes[0].text if nodes and nodes[0].is_displayed() else ""


def is_shut(window, *words):
    return until(lambda: not window.run(MAY_TYPE) and all(word in bar(window) for word in (SHUT, *words)), 20)


def server_text(test):
    line = Line(test.server.port, "ann", "t1")
    line.ask(do="join", pad="minutes")
    return line.ask(do="text", pad="minutes")["text"]


def ask_to_close(window):
    open_rights(window)
    window.click("close-pad")
    return until(lambda: window.get("close-question").is_displayed())


def close(window):
    """An owner closes the pad, and sees it closed."""
    ask_to_close(window)
    window.click("close-yes")
    return until(lambda: "This pad is closed" in bar(window) and not window.get("rights-box").is_displayed())


def reopen(window):
    window.click("reopen")
    return until(lambda: not bar(window) and window.run(MAY_TYPE))


def begins(test):
    """Three authors are on a pad: its owner, a second owner, and one who may write."""
    ann, bob, cyd = test.ann, test.bob, test.cyd
    ann.log_in("ann", "t1")
    ann.open("minutes", "create")
    ann.type(TEXT, 0)
    ann.is_saved()
    line = Line(test.server.port, "ann", "t1")
    line.ask(do="join", pad="minutes")
    for name, right in (("bob", "write"), ("cyd", "own"), ("dora", "read")):
        line.ask(do="grant", pad="minutes", author=name, right=right)
    for window, name, token in ((bob, "bob", "t2"), (cyd, "cyd", "t3")):
        window.log_in(name, token)
        window.open("minutes")
        window.is_saved()


def asks_first(test):
    ann, bob, check = test.ann, test.bob, test.check
    open_rights(bob)
    until(lambda: "ann" in bob.get("rights-list").text)
    check("who may not own a pad is offered no way to close it", not bob.get("close-pad").is_displayed())
    bob.keys(Keys.ESCAPE)
    check("an owner is asked first", ask_to_close(ann) and "put out" in ann.get("close-question").text and "reopen" in ann.get("close-question").text, ann.get("rights-box").text)
    check("with the keyboard on the answer", ann.run(FOCUS) == "close-yes", ann.run(FOCUS))
    plain(test, ann, "the question before a pad is closed")
    test.shot(ann, "close-question")
    ann.click("close-no")
    check("and can take it back", until(lambda: not ann.get("close-question").is_displayed()) and ann.run(FOCUS) == "close-pad" and not bar(ann), ann.run(FOCUS))
    ann.keys(Keys.ESCAPE)


def closes(test):
    """The owner closes the pad while another one types."""
    ann, bob, check = test.ann, test.bob, test.check
    bob.run(COUNT)
    bob.run(TYPE, 0)
    until(lambda: len(bob.run(TYPED)) > 20)
    check("an owner closes the pad, and sees it closed", close(ann) and not ann.run(MAY_TYPE) and ann.state == "This pad is closed", (bar(ann), ann.state))
    check("who types is told in plain words, and that the words are kept", is_shut(bob, KEPT) and bob.state == "This pad is closed", (bar(bob), bob.state))
    typed = bob.run(TYPED)
    check("what was typed is still there", bob.text == TEXT + typed, (bob.text, typed))
    check("though the server has only a part of it", server_text(test) == ann.text and (TEXT + typed).startswith(ann.text) and ann.text != TEXT + typed, (ann.text, typed))
    plain(test, bob, "a pad that was closed")
    test.shot(bob, "put-out")
    before = bob.run(OPENED)
    time.sleep(6)
    check("the page does not ask again and again", before <= 3 and bob.run(OPENED) - before <= 1, (before, bob.run(OPENED)))
    before = bob.run(OPENED)
    bob.click("reopen")
    check("it asks at once if it is told to", until(lambda: "Still closed" in bar(bob)) and bob.run(OPENED) - before in (1, 2), (bar(bob), before, bob.run(OPENED)))
    check("and the text is the same", bob.text == TEXT + typed, bob.text)


def looks(test):
    """What an owner sees of a closed pad."""
    ann, check = test.ann, test.check
    disabled = lambda: [ann.get(name).get_property("disabled") for name in ("undo", "redo", "comment", "suggest", "bold")]
    check("an owner cannot write, comment or undo", disabled() == [True] * 5, disabled())
    open_rights(ann)
    until(lambda: "bob" in ann.get("rights-list").text)
    check("nor change rights, or invite", not ann.get("grant").is_displayed() and not ann.get("invite").is_displayed() and not ann.all("#rights-list select, #rights-list button"), ann.get("rights-box").text)
    check("but reopen it, there too", ann.get("close-pad").text == "Reopen", ann.get("close-pad").text)
    ann.keys(Keys.ESCAPE)
    ann.click("history")
    until(lambda: "Revision" in ann.get("rev-made").text)
    ann.run("const rev = document.getElementById('rev'); rev.value = 1; rev.dispatchEvent(new Event('input'))")
    check("the history goes on", until(lambda: "Revision 1 of" in ann.get("rev-made").text), ann.get("rev-made").text)
    check("without names, and without the way back to a revision", not ann.get("name-revision").is_displayed() and ann.get("restore").get_property("disabled"))
    ann.click("back")
    plain(test, ann, "a closed pad that an owner sees")
    test.shot(ann, "closed")


def goes_on(test):
    """The owner opens it again, and the words come once."""
    ann, bob, cyd, check = test.ann, test.bob, test.cyd, test.check
    wanted = TEXT + bob.run(TYPED)
    check("a second owner, who was here, can open it", until(lambda: bar(cyd) and cyd.get("reopen").is_displayed(), 20) and not cyd.run(MAY_TYPE), bar(cyd))
    check("the owner opens it again", reopen(ann) and ann.is_saved(), (bar(ann), ann.state))
    bob.click("reopen")
    check("who was put out goes on", until(lambda: not bar(bob) and bob.run(MAY_TYPE)) and bob.is_saved(), (bar(bob), bob.state))
    check("and what was typed comes once", until(lambda: ann.text == bob.text == wanted) and server_text(test) == wanted, (ann.text, bob.text, wanted))
    check("the second owner learns it, too", until(lambda: not bar(cyd) and cyd.run(MAY_TYPE), 20), bar(cyd))
    bob.type("Done.", units(wanted))
    check("and all type on", until(lambda: ann.text == cyd.text == f"{wanted}Done."), (ann.text, cyd.text))


def second_owner(test):
    """Another owner types when the pad is closed."""
    ann, cyd, check = test.ann, test.cyd, test.check
    had = ann.text
    cyd.run(TYPE, 100)
    until(lambda: len(cyd.run(TYPED)) > 20)
    close(ann)
    check("another owner learns that the pad is closed", until(lambda: "This pad is closed" in bar(cyd) and not cyd.run(MAY_TYPE), 20), bar(cyd))
    typed, text = cyd.run(TYPED), server_text(test)
    until(lambda: cyd.text == text)
    refused = cyd.get("notice-words").text
    check("what was refused is kept, and told", "An owner has closed this pad" in cyd.get("notice-text").text and refused != "", (cyd.get("notice-text").text, refused))
    check("nothing of it is lost or doubled", (text + refused).replace(" ", "") == (had + typed).replace(" ", "") and cyd.text == text, (had, typed, text, refused))
    test.shot(cyd, "second-owner")
    cyd.click("notice-dismiss")
    cyd.click("reopen")
    check("another owner opens it again", until(lambda: not bar(cyd) and cyd.run(MAY_TYPE)) and until(lambda: not bar(ann) and ann.run(MAY_TYPE), 20), (bar(ann), bar(cyd)))
    until(lambda: test.bob.run(MAY_TYPE), 45)


def loads_again(test):
    """Who was put out loads the page again, and comes back by the list of pads."""
    ann, bob, check = test.ann, test.bob, test.check
    bob.is_saved(40)
    had = bob.text
    bob.run(TYPE, 200)
    until(lambda: len(bob.run(TYPED)) > 20)
    close(ann)
    is_shut(bob, KEPT)
    typed = bob.run(TYPED)
    check("again more was typed than the server has", server_text(test) != had + typed)
    bob.run(GO)
    bob.driver.refresh()
    said = lambda: bob.get("open-error").text
    check("a page that is loaded again says the same", until(lambda: SHUT in said() and KEPT in said()), said())
    row = lambda: [one for one in bob.run(ROWS) if one[0].startswith("minutes")]
    check("the list says that it is closed, and what is not sent", until(lambda: row() and "closed" in row()[0][0] and "not sent" in row()[0][0]), row())
    check("also by its look", row()[0][1] == "dashed", row())
    plain(test, bob, "the list with a closed pad")
    test.shot(bob, "list")
    bob.click_first("#pads li button")
    check("and the pad does not open", until(lambda: SHUT in said()) and not bob.get("text").is_displayed(), said())
    check("other pads do", bob.open("bobs", "create") and bob.is_saved(), bob.state)
    bob.click("close")
    reopen(ann)
    until(lambda: bob.get("choose").is_displayed())
    bob.open("minutes")
    check("once it is open again, what was kept is sent", bob.is_saved() and until(lambda: ann.text == bob.text == had + typed), (ann.text, bob.text, had + typed))
    check("and once", server_text(test) == had + typed and server_text(test).count("200 ") == 1, server_text(test))
    bob.click("close")
    check("and the list says nothing of closed pads any more", until(lambda: bob.run(ROWS) and not any("closed" in name or look == "dashed" for name, look in bob.run(ROWS))), bob.run(ROWS))
    bob.open("minutes")


def leaves(test):
    """Who was put out goes back to the list."""
    ann, bob, check = test.ann, test.bob, test.check
    close(ann)
    is_shut(bob)
    bob.click("close")
    row = lambda: [one for one in bob.run(ROWS) if one[0].startswith("minutes")]
    check("who was put out can go back to the list", until(lambda: bob.get("choose").is_displayed() and row() and "closed" in row()[0][0]), (bob.state, bob.run(ROWS)))
    bob.open("minutes")
    check("is told again", until(lambda: SHUT in bob.get("open-error").text), bob.get("open-error").text)
    dora = Line(test.server.port, "dora", DORA)
    check("as are others who come", dora.ask(do="join", pad="minutes").get("code") == 330)
    reopen(ann)
    check("and comes in when it is open, over the same connection", bob.open("minutes") and bob.is_saved(), (bob.state, bob.get("open-error").text))


def suggests(test):
    """Who writes a suggestion when the pad is closed has its words still."""
    ann, bob, check = test.ann, test.bob, test.check
    bob.click("suggest")
    until(lambda: bob.get("suggest").get_attribute("aria-pressed") == "true")
    bob.select(0, 3)
    bob.keys("Other words")
    until(lambda: bob.get("suggest-words").get_property("value") == "Other words")
    close(ann)
    kept = lambda: bob.get("notice").is_displayed() and bob.get("notice-words").text
    check("a suggestion that was being written is kept", is_shut(bob) and until(lambda: kept() == "Other words") and not bob.get("suggest-box").is_displayed(), (bar(bob), kept()))
    test.shot(bob, "kept-suggestion")
    bob.click("notice-dismiss")
    reopen(ann)
    bob.click("reopen")
    check("and the pad goes on without it", until(lambda: not bar(bob) and bob.run(MAY_TYPE)) and bob.is_saved() and bob.text == ann.text and bob.get("suggest").get_attribute("aria-pressed") == "false", (bar(bob), bob.state))


def speaks(test):
    """In each language, on a phone."""
    ann, bob, check = test.ann, test.bob, test.check
    close(ann)
    is_shut(bob)
    narrow(ann)
    for language, word in WORDS.items():
        speak(ann, language)
        ann.driver.refresh()
        until(lambda: word in bar(ann).lower())
        check(f"in 360 pixels the bar fits, in {language}", word in bar(ann).lower() and word in ann.state and ann.run(WIDTH) == 360, (bar(ann), ann.state, ann.run(WIDTH)))
        test.shot(ann, f"closed-{language}")
    narrow(ann, False)
    check("in the end it is open again", reopen(ann), bar(ann))


def older(test):
    """A server that knows no closing."""
    ann, check = test.ann, test.check
    ann.run(OLDER)
    ask_to_close(ann)
    ann.click("close-yes")
    check("an older server is said to be too old", until(lambda: "too old" in ann.get("grant-error").text) and not ann.get("close-pad").is_displayed() and not bar(ann), ann.get("grant-error").text)
    faults = [one for window in test.windows for one in window.faults()]
    check("and no fault is reported of all this", not faults, faults)


def play(program, folder, tally):
    with tempfile.TemporaryDirectory() as home:
        server = Server(program, home)
        test = None
        try:
            test = Trial(server, folder, tally, ("ann", "bob", "cyd"))
            for part in (begins, asks_first, closes, looks, goes_on, second_owner, loads_again, leaves, suggests, speaks, older):
                part(test)
        finally:
            if test:
                test.end()
            server.end()


if __name__ == "__main__":
    sys.exit(play_all(play, sys.argv[1:]))
