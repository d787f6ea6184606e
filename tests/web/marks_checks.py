"""The names of revisions in the history: marks on the slider, the list that leads to them, and the field that names the one that is
shown."""
import time

from births_checks import GO
from keyboard import WATCH, make
from page_checks import plain
from windows import PAST, Keys, Line, until

PAD = "marks"
# What is shown of names: the list, the marks on the slider in percent, whether a name can be given, and whether all of it is there.
SHOWN = """
const get = (id) => document.getElementById(id);
return {
  rows: get('names').hidden ? null : [...document.querySelectorAll('#names-list li')].map((row) => row.textContent.replace(/, [^,]*, \\d{4}.*/, '')),
  count: get('names-count').textContent,
  marks: [...document.querySelectorAll('#marks span')].map((mark) => Math.round(parseFloat(mark.style.insetInlineStart))),
  here: [...document.querySelectorAll('#names-list [aria-current="true"] b')].map((name) => name.textContent),
  mayName: !get('name-revision').hidden && !get('name-it').disabled, isThere: !get('named').hidden,
}
"""
# The middle of a mark, and the middle of the thumb once the slider is at that revision.
MIDDLES = """
const of = (node) => { const { left, right } = node.getBoundingClientRect(); return (left + right) / 2; };
const track = document.getElementById('rev').getBoundingClientRect();
return [...document.querySelectorAll('#marks span')].map((mark) => [of(mark), track.left, track.right]);
"""
# Whether the page and the list are as wide as their contents.
WIDTHS = "return [document.documentElement, document.getElementById('names-list')].map((node) => node.scrollWidth <= node.clientWidth)"
# From now on the server is an older one, which knows neither request.
OLDER = """
const { send } = WebSocket.prototype;
WebSocket.prototype.send = function (data) { return send.call(this, data.replace(/"do":"marks?"/, '"do":"unknown"')); };
"""


def shown(window, **due):
    """What is shown, once it has these parts."""
    have = lambda: window.run(SHOWN)
    until(lambda: all(have()[key] == value for key, value in due.items()))
    return have()


def checks(test, window, name, **due):
    seen = shown(window, **due)
    test.check(name, all(seen[key] == value for key, value in due.items()), seen)


def say_name(window, text):
    window.get("revision-name").clear()
    window.get("revision-name").send_keys(text + Keys.ENTER)


def open_history(window, rev=None):
    window.click("history")
    until(lambda: window.get("rev-made").text)
    if rev is not None:
        window.run(GO, rev)
        until(lambda: window.get("rev-made").text.startswith(f"Revision {rev} "))


def naming(test, bob):
    ann, check = test.ann, test.check
    for at, text in enumerate(("two\n", "three\n", "four\n")):
        bob.ask(do="insert", pad=PAD, rev=at + 1, at=0, text=text)
    until(lambda: ann.text.startswith("four"))
    open_history(ann, 2)
    checks(test, ann, "a pad without names has a field to give one, and no list", rows=None, marks=[], mayName=True, isThere=True)
    ann.run(WATCH)
    say_name(ann, "   ")
    say_name(ann, "Approved on 9 December")
    checks(test, ann, "the revision that is shown gets a name", rows=["Approved on 9 December · revision 2 ann"], count="1 named revision", marks=[50], here=["Approved on 9 December"])
    made = lambda: ann.get("rev-made").text
    check("which is said", until(lambda: "“Approved on 9 December”" in made()) and ann.run("return window.told.some((text) => text.includes('“Approved'))"), made())
    check("the field is empty then", ann.run("return document.getElementById('revision-name').value") == "")
    told = bob.ask(do="marks", pad=PAD)["marks"]
    check("the server has it", [(one["rev"], one["author"], one["text"]) for one in told] == [(2, "ann", "Approved on 9 December")], told)
    ann.run(GO, 3)
    check("another revision is not called so", until(lambda: made().startswith("Revision 3 ") and "“" not in made()), made())
    say_name(ann, "🙂 <b>" + "x" * 120)
    long = "🙂 <b>" + "x" * 94
    check("a name has at most 100 characters, and is text", until(lambda: ann.run(SHOWN)["here"] == [long]), ann.run(SHOWN))


def leading(test, bob):
    ann, check = test.ann, test.check
    bob.ask(do="mark", pad=PAD, rev=4, text="Printed")
    bob.ask(do="mark", pad=PAD, rev=0, text="Before all")
    ann.click("back")
    open_history(ann)
    names = ["Before all", "Approved on 9 December", "🙂 <b>" + "x" * 94, "Printed"]
    checks(test, ann, "names of others are there when the history is opened, by revision", marks=[0, 50, 75, 100], count="4 named revisions", here=["Printed"])
    check("each with who gave it", [row.rsplit(" ", 1)[1] for row in ann.run(SHOWN)["rows"]] == ["bob", "ann", "ann", "bob"], ann.run(SHOWN)["rows"])
    ann.click("names-count")
    check("the list has them all", until(lambda: [node.text for node in ann.all("#names-list b")] == names), [node.text for node in ann.all("#names-list b")])
    plain(test, ann, "the names of revisions")
    check("none of them is wider than its place", ann.run(WIDTHS) == [True, True], ann.run(WIDTHS))
    test.shot(ann, "named-revisions")
    ann.press(lambda: ann.all("#names-list button")[1])
    check("a name leads to its revision", until(lambda: ann.run(PAST) == "two\none\n") and ann.run(SHOWN)["here"] == [names[1]], ann.run(PAST))
    check("and keeps the keyboard", ann.run("return document.activeElement.textContent").startswith(names[1]), ann.run("return document.activeElement.textContent"))
    ann.press(lambda: ann.all("#marks span")[2])
    check("so does a mark on the slider", until(lambda: ann.run(PAST) == "three\ntwo\none\n"), ann.run(PAST))
    check("which is called as its revision", ann.all("#marks span")[2].get_attribute("title") == f"“{names[2]}” · revision 3", ann.all("#marks span")[2].get_attribute("title"))
    (first, left, right), *_, (last, _, _) = ann.run(MIDDLES)
    check("the marks begin and end where the thumb does", 4 < first - left < 14 and 4 < right - last < 14, (first - left, right - last))
    ann.get("compare-rev").clear()
    ann.get("compare-rev").send_keys("2" + Keys.ENTER)
    checks(test, ann, "two compared revisions get no name", mayName=False, isThere=True)
    bob.ask(do="insert", pad=PAD, rev=4, at=0, text="five\n")
    checks(test, ann, "the marks move with a new revision", marks=[0, 40, 60, 80])
    ann.click("back")


def who_may(test, bob):
    """Who may only read sees names and gives none; a full pad says so."""
    ann, check = test.ann, test.check
    line = Line(test.server.port, "ann", "t1")
    line.ask(do="join", pad=PAD)
    for number in range(200 - len(line.ask(do="marks", pad=PAD)["marks"])):
        bob.ask(do="mark", pad=PAD, rev=1, text=f"number {number}")
    open_history(ann, 5)
    checks(test, ann, "a pad can have 200 names", count="200 named revisions")
    say_name(ann, "one more")
    check("which is said of one more", until(lambda: "200 named revisions" in ann.get("rev-made").text), ann.get("rev-made").text)
    test.shot(ann, "named-revisions-200")
    ann.click("back")
    line.ask(do="hand", pad=PAD, author="bob")
    bob.ask(do="grant", pad=PAD, author="ann", right="read")
    until(lambda: not ann.run("return document.getElementById('text').isContentEditable"), 20)
    open_history(ann, 2)
    checks(test, ann, "who may only read sees the names, and gives none", count="200 named revisions", mayName=False, isThere=True)
    ann.click("back")


def on_a_phone(test):
    ann, check = test.ann, test.check
    ann.driver.execute_cdp_cmd("Emulation.setDeviceMetricsOverride", {"width": 360, "height": 740, "deviceScaleFactor": 2, "mobile": True})
    ann.click("tools-button")
    open_history(ann, 2)
    time.sleep(0.3)
    check("the names fit a phone", ann.run(WIDTHS) == [True, True], ann.run(WIDTHS))
    ann.run("document.getElementById('named').scrollIntoView()")
    test.shot(ann, "named-revisions-phone")
    ann.run("scrollTo(0, 0)")
    ann.driver.execute_cdp_cmd("Emulation.clearDeviceMetricsOverride", {})
    ann.click("back")


def before_an_older_server(test):
    ann, check = test.ann, test.check
    make(test, "marks-older", "one\n")
    ann.run(OLDER)
    open_history(ann, 1)
    time.sleep(0.5)
    checks(test, ann, "an older server's page shows nothing of names", rows=None, marks=[], isThere=False)
    ann.click("back")
    faults = ann.faults()
    check("and all that without a fault", not faults, faults)


def named_revisions(test):
    bob = make(test, PAD, "one\n")
    naming(test, bob)
    leading(test, bob)
    who_may(test, bob)
    on_a_phone(test)
    before_an_older_server(test)
