#!/usr/bin/env python3
"""The page in two windows of headless Chromium, before a real server that is killed and started again on the way.

    tests/web/browser_test.py [--disk] PROGRAM [FOLDER]

PROGRAM is crates/pad_server/out/pad_server. Screenshots go into FOLDER, if it is given. With --disk, the page is that on
disk, and not that of the program. The last line is `N passed, M failed`.
"""
import random
import sys
import tempfile
import time

from births_checks import births
from browser_limits import browser_limits
from compositions import compositions
from drafts_checks import drafts
from find_checks import finding
from first_visit import first_visit
from hard_cases import full_pad, hostile, lost_pad
from kept_checks import kept_words
from keyboard import by_hand
from list_checks import lists
from log_in_checks import log_ins
from looks import exports, looks
from marks_checks import named_revisions
from minutes_checks import minutes
from names_checks import display_names
from page_checks import plain
from threads_checks import threads
from whole_day import whole_day
from windows import BROKEN, PAST, Keys, Line, Server, Window, play_all, units, until

BOB_MAY = "Can write"
HUES = """
return [...new Set([...document.querySelectorAll('#text .run')].map(run => run.dataset.author + ' ' + getComputedStyle(run).backgroundColor))].sort()
"""
MARKED = "return [...document.querySelectorAll('#text .marked')].map(node => node.textContent).join('')"
CARETS = "return [...document.querySelectorAll('#carets .caret')].map(node => node.dataset.author)"
OPENING = "Minutes of the harbour council\n\nPresent: Ann, Bob, Cyd.\n\n1. The crane on the east quay is to be painted before June.\n2. "


class Test:
    """Two windows of two authors on one pad. `tally` counts the checks that hold and those that do not."""

    def __init__(self, server, folder, tally):
        self.server, self.folder, self.tally = server, folder, tally
        self.ann, self.bob = Window(server.url), Window(server.url)

    def check(self, name, holds, seen=None):
        self.tally[bool(holds)] += 1
        if holds:
            print("ok     ", name, flush=True)
        else:
            print("FAILED ", name, "" if seen is None else repr(seen)[:600], flush=True)

    def agree(self, name):
        ann, bob = self.ann, self.bob
        same = until(lambda: ann.is_saved(1) and bob.is_saved(1) and ann.text == bob.text)
        self.check(name, same, (ann.text, ann.state, bob.text, bob.state))

    def end(self):
        for window in (self.ann, self.bob):
            try:
                window.quit()
            except BROKEN:  # it is gone already
                pass

    def shot(self, window, name):
        if self.folder:
            window.shot(self.folder, name)


def way_in(test):
    ann, bob, check = test.ann, test.bob, test.check
    ann.driver.get(ann.url)
    until(lambda: ann.get("log-in").is_displayed())
    plain(test, ann, "log in")
    ann.get("name").send_keys("ann")
    ann.get("token").send_keys("wrong" + Keys.ENTER)
    check("a wrong token is refused in words", until(lambda: "wrong" in ann.get("log-in-error").text), ann.get("log-in-error").text)
    ann.log_in("ann", "t1")
    check("an author without pads is told so", until(lambda: ann.get("no-pads").is_displayed()))
    ann.open("absent")
    check("an unknown pad is refused in words", until(lambda: "Create" in ann.get("open-error").text), ann.get("open-error").text)
    check("a pad is created", ann.open("minutes", "create") and ann.is_saved())
    ann.click("rights")
    ann.get("grant-name").send_keys("bob" + Keys.ENTER)
    check("bob gets a right", until(lambda: "bob" in ann.get("rights-list").text), ann.get("rights-list").text)
    test.shot(ann, "rights")
    plain(test, ann, "rights")
    ann.keys(Keys.ESCAPE)
    bob.log_in("bob", "t2")
    check("bob's list has the pad and the right", until(lambda: BOB_MAY in bob.get("pads").text and "minutes" in bob.get("pads").text), bob.get("pads").text)
    test.shot(bob, "pads")
    plain(test, bob, "pads")
    bob.click_first("#pads button")
    check("bob opens it", until(lambda: bob.get("text").is_displayed()))
    check("ann is told that bob came", until(lambda: ann.get("news").get_property("textContent") == "bob is here."))
    check("both are shown as here", until(lambda: "ann" in bob.get("here").text and "bob" in ann.get("here").text))


def typing(test):
    ann, bob, check = test.ann, test.bob, test.check
    ann.type(OPENING, 0)
    check("bob sees what ann types", until(lambda: bob.text == OPENING), bob.text)
    bob.type(" Excused: Dora.", bob.text.index("Cyd.") + 4)
    check("ann sees bob's words", until(lambda: "Excused: Dora." in ann.text), ann.text)
    ann.select(len(ann.text))
    bob.select(len("Minutes of the harbour council"))
    a, b = "The ferry leaves at 7:40 from Monday on; notices go up. ", ", 25 November, in the old customs house"
    for k in range(max(len(a), len(b))):
        ann.keys(a[k : k + 1] or Keys.NULL)
        bob.keys(b[k : k + 1] or Keys.NULL)
    test.agree("both type at once, and see the same")
    check("the words of each are whole", a in ann.text and b in ann.text, ann.text)
    end = units(ann.text)
    ann.select(end)
    bob.select(end)
    dice = random.Random(5)
    for k in range(30):
        dice.choice((ann, bob)).keys("ab"[k % 2])
    test.agree("both type at one place, and see the same")
    check("nothing of it is lost", units(ann.text) == end + 30, ann.text[end:])
    ann.select(end, end + 30)
    ann.keys(Keys.BACKSPACE)
    check("a selection is erased", until(lambda: units(bob.text) == end), bob.text)
    ann.keys("z", held=[Keys.CONTROL])
    check("undo says first that it would take over bob's words", until(lambda: "bob" in ann.get("notice-text").text), ann.get("notice-text").text)
    check("and does nothing", units(ann.text) == end, ann.text[end:])
    ann.keys("z", held=[Keys.CONTROL])
    check("undo brings it back when it is asked again", until(lambda: units(bob.text) == end + 30), bob.text)
    ann.keys("z", held=[Keys.CONTROL, Keys.SHIFT])
    check("redo erases it again", until(lambda: units(bob.text) == end), bob.text)


def unusual_typing(test):
    ann, bob, check = test.ann, test.bob, test.check
    ann.select(units(ann.text))
    ann.insert("3. Tea: 茶 🙂👩‍🚀 done.")
    check("characters beyond 16 bits arrive", until(lambda: "茶 🙂👩‍🚀 done." in bob.text), bob.text)
    bob.type("x", units(bob.text[: bob.text.index("🙂")]))
    check("and so does a letter before them", until(lambda: "茶 x🙂👩‍🚀" in ann.text), ann.text)
    bob.keys(Keys.BACKSPACE)
    ann.select(units(ann.text))
    ann.keys(Keys.ENTER, Keys.ENTER, Keys.ENTER, "4. Line", Keys.HOME, Keys.BACKSPACE)
    check("lines are split and joined", until(lambda: bob.text.endswith("done.\n4. Line")), bob.text[-30:])
    ann.keys(Keys.END, "s", Keys.LEFT, Keys.DELETE)
    ann.keys(Keys.LEFT, held=[Keys.CONTROL])
    ann.keys("x", held=[Keys.CONTROL])
    ann.keys(Keys.END, held=[Keys.SHIFT])
    ann.keys("c", held=[Keys.CONTROL])
    ann.keys(Keys.END)
    ann.keys("v", held=[Keys.CONTROL])
    check("words are copied and pasted", until(lambda: bob.text.endswith("4. LineLine")), bob.text[-30:])
    ann.keys(Keys.BACKSPACE, held=[Keys.CONTROL])
    check("a word is erased", until(lambda: bob.text.endswith("done.\n4. ")), bob.text[-30:])
    composing(test)


def composing(test):
    """An input method composes while another author types before and behind it."""
    ann, bob, check = test.ann, test.bob, test.check
    ann.select(units(ann.text))
    ann.driver.execute_cdp_cmd("Input.imeSetComposition", {"text": "nih", "selectionStart": 3, "selectionEnd": 3})
    bob.type("Q", 0)
    bob.type("R", units(bob.text))
    ann.driver.execute_cdp_cmd("Input.imeSetComposition", {"text": "nihao", "selectionStart": 5, "selectionEnd": 5})
    check("a composition is not broken by others", until(lambda: ann.text.endswith("4. nihao")), ann.text[-20:])
    ann.driver.execute_cdp_cmd("Input.insertText", {"text": "你好"})
    test.agree("what was composed arrives")
    check("and it arrives once", sorted(ann.text.split("4. ")[1]) == sorted("R你好") and ann.text.startswith("Q"), ann.text)
    bob.select(0, 1)
    bob.keys(Keys.DELETE)
    bob.select(units(bob.text) - 3, units(bob.text))
    bob.keys("Quorum: שלום עולם")
    test.agree("bob replaces it")
    directions = ann.run("return [...document.querySelectorAll('#text .line')].map(line => getComputedStyle(line).direction)")
    ann.type("\nשלום עולם", units(ann.text))
    check("right-to-left lines run from the right", until(lambda: ann.run("return getComputedStyle(document.querySelector('#text .line:last-child')).direction") == "rtl"))
    check("and others do not", set(directions) == {"ltr"}, directions)
    test.agree("they agree about it")


def comments(test):
    ann, bob, check = test.ann, test.bob, test.check
    at = ann.text.index("painted")
    ann.select(at, at + len("painted before June"))
    ann.keys("m", held=[Keys.CONTROL, Keys.ALT])
    check("the comment's box opens by the keyboard", until(lambda: ann.get("comment-text").is_displayed()))
    ann.keys("Which colour? The harbour master wants grey.")
    plain(test, ann, "a comment is written")
    bob.type("DRAFT. ", 0)
    until(lambda: ann.text.startswith("DRAFT"))
    ann.click_first("#comment-box button[value=send]")
    check("bob sees the comment", until(lambda: "Which colour?" in bob.get("margin").text), bob.get("margin").text)
    check("it is on its words, though others typed meanwhile", until(lambda: bob.run(MARKED) == "painted before June"), bob.run(MARKED))
    bob.type("2026: ", 0)
    check("and stays on them", until(lambda: ann.text.startswith("2026") and ann.run(MARKED) == "painted before June"), ann.run(MARKED))
    tops = lambda: [ann.run("return document.querySelector(arguments[0]).getBoundingClientRect().top", one) for one in ("#margin .card", "#text .marked")]
    check("its card is beside them", until(lambda: abs(tops()[0] - tops()[1]) < 12), tops())
    bob.select(bob.text.index("old customs") + 3)
    check("ann sees bob's caret", until(lambda: ann.run(CARETS) == ["bob@1"]), ann.run(CARETS))
    test.agree("they agree")
    check("two authors have two colours", len({hue.split(" ", 1)[1] for hue in ann.run(HUES)}) == 2, ann.run(HUES))
    check("the same ones in both windows", until(lambda: ann.run(HUES) == bob.run(HUES)), (ann.run(HUES), bob.run(HUES)))
    check("the legend names both", until(lambda: "ann," in ann.get("authors").text and "bob," in ann.get("authors").text), ann.get("authors").text)
    check("who wrote at the caret is said", until(lambda: bob.get("writer").text == "Written by bob"), bob.get("writer").text)
    test.shot(ann, "two-authors")
    test.shot(bob, "the-other-window")


def history(test):
    ann, bob, check = test.ann, test.bob, test.check
    made = lambda: ann.get("rev-made").text
    ann.click("history")
    until(made)
    now = int(ann.get("rev").get_property("max"))
    check("the slider begins at the present", now > 20 and made().startswith(f"Revision {now} of"), made())
    today, tomorrow = time.strftime("%b %-d, %Y"), time.time() + 86400
    check("and knows when it was made", until(lambda: today in made()), made())
    check("below it stand dates", until(lambda: ann.get("dates").text.startswith(today)), ann.get("dates").text)
    as_of = lambda moment: ann.run("""
    const moment = document.getElementById('moment');
    moment.value = arguments[0];
    moment.form.requestSubmit();
    """, time.strftime("%Y-%m-%dT%H:%M", time.localtime(moment)))
    as_of(tomorrow - 2 * 86400)
    check("yesterday the pad was empty", until(lambda: made().startswith("Revision 0 of")), made())
    as_of(tomorrow)
    check("tomorrow it will be as it is now", until(lambda: made().startswith(f"Revision {now} of")), made())
    bob.type("!", units(bob.text))
    ann.run("const rev = document.getElementById('rev'); rev.value = arguments[0]; rev.dispatchEvent(new Event('input'))", int(now * 0.6))
    check("an earlier revision is shown", until(lambda: made().startswith(f"Revision {int(now * 0.6)} of")), made())
    check("with who made it", "ann " in made() or "bob " in made(), made())
    test.shot(ann, "history")
    middle = ann.run(PAST)
    ann.get("compare-rev").clear()
    ann.get("compare-rev").send_keys("2" + Keys.ENTER)
    check("two revisions are compared", until(lambda: made().startswith("From revision 2 to ")), made())
    kept = ann.run("return [...document.querySelectorAll('#past .line')].map(line => [...line.childNodes].filter(node => node.nodeName !== 'DEL').map(node => node.textContent).join('')).join('\\n')")
    check("what was inserted is marked, and what is kept is there", kept.replace("\n", "") == middle.replace("\n", "") and ann.all("#past ins"), (kept, middle))
    test.shot(ann, "comparison")
    plain(test, ann, "comparison")
    ann.click("compare-go")
    ann.get("rev").send_keys(Keys.HOME)
    check("revision 0 is empty, by the keyboard", until(lambda: ann.run(PAST) == "" and made().startswith("Revision 0 of")), made())
    ann.get("rev").send_keys(Keys.ARROW_RIGHT)
    check("revision 1 is ann's first words", until(lambda: made().startswith("Revision 1 of") and ann.run(PAST) == "M"), (made(), ann.run(PAST)))
    ann.click("play")
    check("play goes to the present", until(lambda: made().startswith(f"Revision {now + 1} of") and ann.get("play").text == "Play", 60), made())
    ann.click("back")
    check("and back, with what came meanwhile", until(lambda: ann.text == bob.text and ann.text.endswith("!")), (ann.text, bob.text))
    bob.click_first("#margin .card button")
    check("a comment is resolved", until(lambda: not ann.all("#margin .card") and ann.get("resolved").is_displayed()))
    ann.click("resolved")
    check("and can still be read", until(lambda: "Resolved" in ann.get("margin").text), ann.get("margin").text)


def restoring(test):
    """Everything is erased, and the revision before is restored."""
    ann, bob, check = test.ann, test.bob, test.check
    before = ann.text
    bob.select(0, units(before))
    bob.keys(Keys.DELETE)
    check("everything is erased", until(lambda: ann.text == bob.text == ""), (ann.text, bob.text))
    ann.click("history")
    check("the present text cannot be restored", until(lambda: ann.get("rev-made").text) and ann.get("restore").get_property("disabled"))
    ann.click("older")
    check("an earlier one can", until(lambda: ann.get("restore").is_enabled() and ann.run(PAST) == before), ann.run(PAST))
    ann.click("restore")
    check("it is the text of both", until(lambda: ann.text == bob.text == before), (ann.text, bob.text))
    check("its words are said to be ann's, and are", "as yours" in ann.get("notice-text").text and until(lambda: ann.get("authors").text == "ann, 100 %"), (ann.get("notice-text").text, ann.get("authors").text))
    test.shot(ann, "restored")
    ann.keys("z", held=[Keys.CONTROL])
    check("undo takes it back", until(lambda: ann.text == bob.text == ""), (ann.text, bob.text))
    ann.keys("y", held=[Keys.CONTROL])
    check("and redo makes it again", until(lambda: ann.text == bob.text == before), (ann.text, bob.text))
    ann.click("notice-dismiss")


def rights(test):
    ann, bob, check = test.ann, test.bob, test.check
    ann.click("rights")
    choose = "const select = document.querySelector('#rights-list tr:last-child select'); select.value = arguments[0]; select.dispatchEvent(new Event('change'))"
    until(lambda: ann.all("#rights-list select"))
    ann.run(choose, "read")
    check("bob may only read now", until(lambda: not bob.run("return document.getElementById('text').isContentEditable") and "read" in bob.state, 20), bob.state)
    check("and cannot comment", bob.get("comment").get_property("disabled"))
    bob.click("history")
    bob.click("older")
    until(lambda: bob.run(PAST))
    check("nor restore a revision", bob.get("restore").is_displayed() and bob.get("restore").get_property("disabled"))
    bob.click("back")
    ann.run(choose, "write")
    check("bob may write again", until(lambda: bob.run("return document.getElementById('text').isContentEditable") and bob.is_saved(1), 20), bob.state)
    ann.keys(Keys.ESCAPE)


def broken(test):
    ann, bob, check = test.ann, test.bob, test.check
    before = ann.text
    test.server.kill()
    check("ann is told that she is offline", until(lambda: "offline" in ann.state), ann.state)
    ann.type(" typed while the server was away", units(ann.text))
    bob.type("[bob, offline] ", 0)
    test.shot(ann, "offline")
    test.server.start()
    check("both connect again", ann.is_saved(40) and bob.is_saved(40), (ann.state, bob.state))
    wanted = "[bob, offline] " + before + " typed while the server was away"
    check("nothing is lost or doubled", until(lambda: ann.text == bob.text == wanted), (ann.text, bob.text))
    line = Line(test.server.port, "ann", "t1")
    line.ask(do="join", pad="minutes")
    check("the server has the same", line.ask(do="text", pad="minutes")["text"] == wanted)


def random_keys(test):
    """Both press keys at random places of the text."""
    dice, presses = random.Random(11), 0
    for _ in range(70):
        window = dice.choice((test.ann, test.bob))
        length = units(window.text)
        at = dice.randrange(length + 1)
        window.select(at, min(length, at + dice.choice((0, 0, 0, 5, 30))))
        for key in dice.choice(("ab", "x", Keys.ENTER, Keys.BACKSPACE * 2, Keys.DELETE, Keys.ENTER + "z", Keys.UP + "u", Keys.END + Keys.DELETE, Keys.HOME + Keys.BACKSPACE)):
            window.keys(key)
            presses += 1
        if dice.randrange(9) == 0:
            window.keys("z", held=[Keys.CONTROL])
    test.agree(f"they agree after {presses} keys at random places")
    line = Line(test.server.port, "ann", "t1")
    line.ask(do="join", pad="minutes")
    server = line.ask(do="text", pad="minutes")["text"]
    test.check("and with the server", server == test.ann.text, (server, test.ann.text))


def play(program, folder, tally):
    """Plays all parts before a new server."""
    with tempfile.TemporaryDirectory() as home, tempfile.TemporaryDirectory() as pages, tempfile.TemporaryDirectory() as downloads:
        server = Server(program, home)
        test = None
        try:
            test = Test(server, folder, tally)
            for part in (way_in, typing, unusual_typing, comments, history, restoring, rights, broken, random_keys, looks):
                part(test)
            exports(test, downloads)
            minutes(test, downloads)
            whole_day(test)
            lists(test)
            display_names(test)
            births(test)
            named_revisions(test)
            log_ins(test)
            hostile(test)
            threads(test)
            finding(test)
            first_visit(test)
            by_hand(test)
            compositions(test)
            browser_limits(test)
            drafts(test)
            lost_pad(test)
            kept_words(test)
            full_pad(test, pages)
        finally:
            if test:
                test.end()
            server.end()


if __name__ == "__main__":
    sys.exit(play_all(play, sys.argv[1:]))
