"""What authors meet on their first visits: pads that are closed and opened, rights that come and go, and what the page says."""
import os
import signal

from windows import Keys, Line, units, until

CARDS = "return [...document.querySelectorAll('#margin .card')].map(card => card.textContent)"
HUES = """
return [...document.querySelectorAll(arguments[0])].map(node => getComputedStyle(node).getPropertyValue('--hue').trim())
"""
RIGHTS = "return [...document.querySelectorAll('#rights-list td:first-child')].map(cell => cell.textContent)"
CHOOSE = """
const [name, right] = arguments, row = [...document.querySelectorAll('#rights-list tr')].find(one => one.firstChild.textContent === name);
const select = row.querySelector('select');
select.value = right;
select.dispatchEvent(new Event('change'));
"""
SAID_OF_A_WRONG_NAME = "const field = document.getElementById(arguments[0]); field.value = 'Bob B'; field.checkValidity(); return field.validationMessage"


class Stopped:
    """A server that answers nothing for a while, and closes no connection."""

    def __init__(self, server):
        self.process = server.process

    def __enter__(self):
        os.kill(self.process.pid, signal.SIGSTOP)

    def __exit__(self, *_):
        os.kill(self.process.pid, signal.SIGCONT)


def says(window, words):
    return until(lambda: words in window.get("notice-text").text)


def is_closed(window, seconds=15):
    return until(lambda: window.get("choose").is_displayed() and not window.get("text").is_displayed(), seconds)


def closing(test):
    """Words that were typed and not sent are sent before a pad is closed, or the author is asked."""
    ann, server, check = test.ann, test.server, test.check
    ann.log_in("ann", "t1")
    ann.open("drafts", "create")
    ann.type("first ", 0)
    ann.is_saved()
    for letter in "second":
        ann.keys(letter)
    ann.run("document.getElementById('close').click()")
    is_closed(ann)
    line = Line(server.port, "ann", "t1")
    line.ask(do="join", pad="drafts")
    check("what was typed last is sent before a pad is closed", line.ask(do="text", pad="drafts")["text"] == "first second", line.ask(do="text", pad="drafts"))
    line.ask(do="create", pad="other-pad")
    ann.open("drafts")
    ann.select(units("first second"))
    for letter in " third":
        ann.keys(letter)
    ann.run("location.hash = '#other-pad'")
    check("and before a link is followed", until(lambda: ann.get("pad-name").text == "other-pad"), ann.get("pad-name").text)
    check("with nothing lost", line.ask(do="text", pad="drafts")["text"] == "first second third", line.ask(do="text", pad="drafts"))
    ann.click("close")
    is_closed(ann)
    unanswered(test, line)
    offline(test)


def unanswered(test, line):
    """The server answers nothing for some seconds."""
    ann, check = test.ann, test.check
    ann.open("drafts")
    ann.is_saved()
    with Stopped(test.server):
        ann.type(" fourth", units(ann.text))
        ann.click("close")
        check("words that are not sent keep a pad open", says(ann, "not saved yet") and ann.get("text").is_displayed(), ann.get("notice-text").text)
        check("and are shown", "fourth" in ann.get("notice-words").text, ann.get("notice-words").text)
        ann.type("!", units(ann.text))
        check("also those that are typed meanwhile", until(lambda: "fourth!" in ann.get("notice-words").text.replace("\n", "")), ann.get("notice-words").text)
        test.shot(ann, "not-saved")
    check("until the server answers", ann.is_saved() and until(lambda: not ann.get("notice").is_displayed()))
    check("with all words", line.ask(do="text", pad="drafts")["text"].endswith(" fourth!"), line.ask(do="text", pad="drafts"))
    with Stopped(test.server):
        ann.click("close")
        ann.select(0)
        ann.select(3)
    check("a pad that is left while the server is slow is closed", is_closed(ann))
    faults = ann.faults()
    check("without a fault", not faults, faults)


def offline(test):
    """The server is away."""
    ann, server, check = test.ann, test.server, test.check
    ann.open("drafts")
    ann.is_saved()
    server.kill()
    until(lambda: "offline" in ann.state)
    check("a writer is told to keep typing", "Keep typing" in ann.state, ann.state)
    check("and one who is offline sees so on people, too", "is-offline" in ann.run("return document.body.className"))
    ann.type(" fifth", units(ann.text))
    ann.run("location.hash = '#other-pad'")
    check("no link is followed away from unsent words", says(ann, "not saved yet") and ann.run("return location.hash") == "#drafts", ann.run("return location.hash"))
    ann.click("notice-close")
    check("but who wants so loses them", is_closed(ann))
    server.start()
    check("the list of pads comes again with the server", until(lambda: "drafts" in ann.get("pads").text and not ann.get("no-pads").is_displayed(), 40), ann.get("pads").text)


def other_pads(test):
    """Comments of two pads have the same names, and stand over the same words."""
    ann, check = test.ann, test.check
    line = Line(test.server.port, "bob", "t2")
    for pad, remark in (("one-pad", "a remark on one"), ("another-pad", "a remark on another")):
        line.ask(do="create", pad=pad)
        line.ask(do="grant", pad=pad, author="ann", right="write")
        line.ask(do="insert", pad=pad, rev=0, at=0, text="the same words")
        line.ask(do="comment", pad=pad, rev=1, at=4, len=4, text=remark)
    ann.log_in("ann", "t1")
    ann.open("one-pad")
    check("a pad shows its comment", until(lambda: "a remark on one" in "".join(ann.run(CARDS))), ann.run(CARDS))
    check("with the author's name as the server knows it", "bob@1" not in "".join(ann.run(CARDS)), ann.run(CARDS))
    ann.click("close")
    is_closed(ann)
    ann.open("another-pad")
    check("and another pad its own", until(lambda: "a remark on another" in "".join(ann.run(CARDS))), ann.run(CARDS))
    ann.click("close")
    is_closed(ann)


def colours(test):
    """An author has one colour in all windows, though a right was given by mistake and taken back in one of them."""
    ann, bob, check = test.ann, test.bob, test.check
    line = Line(test.server.port, "ann", "t1")
    line.ask(do="create", pad="coloured")
    line.ask(do="insert", pad="coloured", rev=0, at=0, text="by ann ")
    ann.log_in("ann", "t1")
    ann.open("coloured")
    ann.click("rights")
    for name in ("bobb", "cyd", "bob"):
        ann.get("grant-name").send_keys(name + Keys.ENTER)
        until(lambda name=name: name in ann.run(RIGHTS))
    remark = Line(test.server.port, "bob", "t2")
    remark.ask(do="join", pad="coloured")
    remark.ask(do="insert", pad="coloured", rev=1, at=7, text="by bob")
    remark.ask(do="comment", pad="coloured", rev=2, at=0, len=2, text="a remark")
    until(lambda: ann.run(CARDS))
    ann.run(CHOOSE, "bobb", "none")
    until(lambda: "bobb" not in ann.run(RIGHTS))
    ann.keys(Keys.ESCAPE)
    bob.log_in("bob", "t2")
    bob.open("coloured")
    until(lambda: bob.run(CARDS))
    for what, places in (("words", "#text .run"), ("cards", "#margin .card"), ("names", "#authors li")):
        check(f"{what} have the same colours in both windows", until(lambda places=places: ann.run(HUES, places) == bob.run(HUES, places)), (ann.run(HUES, places), bob.run(HUES, places)))
    check("an author's card has the colour of the author's words", ann.run(HUES, "#margin .card") == ann.run(HUES, "#text .run")[-1:], ann.run(HUES, "#text .run"))


def looking_on(test):
    """Bob's right on the pad is taken away while he looks on, and comes back."""
    ann, bob, check = test.ann, test.bob, test.check
    ann.click("rights")
    until(lambda: ann.all("#rights-list select"))
    ann.run(CHOOSE, "bob", "none")
    check("who has lost a right is told so", says(bob, "An owner removed your access"), bob.get("notice-text").text)
    check("and still sees the pad", bob.text == "by ann by bob", bob.text)
    ann.get("grant-name").send_keys("bob" + Keys.ENTER)
    check("and no longer, when it is back", until(lambda: not bob.get("notice").is_displayed(), 40), bob.get("notice-text").text)
    ann.keys(Keys.ESCAPE)
    bob.log_in("bob", "t2")
    bob.open("drafts")
    check("who has no right on a pad is told so", until(lambda: "don't have access to this pad" in bob.get("open-error").text), bob.get("open-error").text)


def opened_to_all(test):
    """Bob gives everybody a right, takes it away, and hands the pad over to ann."""
    bob, check = test.bob, test.check
    cyd = Line(test.server.port, "cyd", "t3")
    bob.open("ours", "create")
    bob.click("rights")
    until(lambda: "Everybody" in bob.run(RIGHTS))
    denied = cyd.ask(do="join", pad="ours")
    bob.run(CHOOSE, "Everybody", "read")
    check("everybody is given a right", says(bob, "Everybody: can read.") or until(lambda: cyd.ask(do="join", pad="ours")["ok"]), denied)
    check("and has it", cyd.ask(do="pads")["pads"][-1][:2] == ["ours", "read"], cyd.ask(do="pads"))
    bob.run(CHOOSE, "Everybody", "none")
    check("until it is taken away", denied["code"] == 312 and until(lambda: not any(pad == "ours" for pad, *_ in cyd.ask(do="pads")["pads"])), denied)
    bob.get("grant-name").send_keys("ann" + Keys.ENTER)
    until(lambda: "ann" in bob.run(RIGHTS))
    bob.click_first("#rights-list button")
    question = bob.get("hand-question").text
    check("the page asks before a pad is handed over", "Hand this pad over to ann?" in question, question)
    test.shot(bob, "hand")
    bob.click("hand-no")
    check("and takes no for an answer", not bob.get("hand").is_displayed() and bob.run(RIGHTS)[0] == "bob", bob.run(RIGHTS))
    bob.click_first("#rights-list button")
    bob.click("hand-yes")
    check("then the other author is in charge", until(lambda: bob.run(RIGHTS) == ["ann", "bob"]), bob.run(RIGHTS))
    check("and the one before may write", not bob.all("#rights-list select") and "Can write" in bob.get("rights-list").text, bob.get("rights-list").text)
    bob.keys(Keys.ESCAPE)


def words(test):
    """What the page says where a new author goes wrong, and what its buttons can do."""
    ann, check = test.ann, test.check
    is_disabled = lambda name: ann.get(name).get_property("disabled")
    check("nothing is to be undone at first", is_disabled("undo") and is_disabled("redo"))
    ann.type("Hello ", 0)
    check("what was typed can be undone", until(lambda: not is_disabled("undo") and is_disabled("redo")))
    ann.click("undo")
    check("and then be done again", until(lambda: is_disabled("undo") and not is_disabled("redo")))
    ann.select(0)
    ann.keys("m", held=[Keys.CONTROL, Keys.ALT])
    check("a comment needs words", says(ann, "Select the words"), ann.get("notice-text").text)
    ann.select(0, 2)
    ann.keys("m", held=[Keys.CONTROL, Keys.ALT])
    check("and when they are selected, this is not said any more", until(lambda: ann.get("comment-text").is_displayed() and not ann.get("notice").is_displayed()))
    ann.keys(Keys.ESCAPE)
    ann.click("rights")
    check("the dialog of rights has the pad's address", ann.get("pad-address").get_property("value").endswith("#coloured"), ann.get("pad-address").get_property("value"))
    rule = ann.run(SAID_OF_A_WRONG_NAME, "grant-name")
    check("a wrong name is told the rule", "lowercase letters" in rule and "hyphens" in rule, rule)
    test.shot(ann, "address")
    ann.keys(Keys.ESCAPE)
    ann.click("history")
    until(lambda: ann.get("rev-made").text)
    last = int(ann.get("rev").get_property("value"))
    compared = lambda: ann.get("compare-rev").get_property("value")
    ann.click("older")
    check("a revision is compared with the one before it", until(lambda: compared() == str(last - 2)), (compared(), last))
    ann.get("compare-rev").clear()
    ann.get("compare-rev").send_keys("1")
    ann.click("newer")
    check("unless the author has named another", until(lambda: f"Revision {last} of" in ann.get("rev-made").text) and compared() == "1", compared())
    ann.click("back")
    ann.click_first("#margin .card button")
    until(lambda: ann.get("resolved").is_displayed())
    shown = ann.get("resolved").text
    ann.click("resolved")
    check("resolved comments are shown and hidden", shown.startswith("Show 1") and until(lambda: ann.get("resolved").text.startswith("Hide 1")), (shown, ann.get("resolved").text))
    faults = ann.faults()
    check("and all that without a fault", not [fault for fault in faults if "ERR_CONNECTION" not in fault], faults)


def first_visit(test):
    for part in (closing, other_pads, colours, looking_on, opened_to_all, words):
        part(test)
