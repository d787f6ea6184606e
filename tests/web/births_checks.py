"""Who wrote a character: the card at the pointer, in the text and in earlier revisions, and what keys, the menu and taps tell."""
import time

from keyboard import WATCH, make
from page_checks import plain
from windows import PAST, Keys, until

CARD = "const card = document.getElementById('who-card'); return card.hidden ? null : card.textContent"
BOX = "const { left, right, top, bottom } = document.getElementById('who-card').getBoundingClientRect(); return [left >= 0, right <= innerWidth, top >= 0, bottom <= innerHeight]"
# The middle of a character on the screen: so many units behind the first place where these words are.
MIDDLE = """
const [id, words, offset] = arguments, walker = document.createTreeWalker(document.getElementById(id), NodeFilter.SHOW_TEXT), nodes = [];
while (walker.nextNode()) nodes.push(walker.currentNode);
let at = nodes.map((node) => node.data).join('').indexOf(words) + offset;
for (const node of nodes) {
  if (at < node.length) {
    const range = document.createRange();
    range.setStart(node, at);
    range.setEnd(node, at + (/[\\ud800-\\udbff]/.test(node.data[at]) ? 2 : 1));
    const { left, right, top, bottom } = range.getBoundingClientRect();
    return [(left + right) / 2, (top + bottom) / 2];
  }
  at -= node.length;
}
return null;
"""
# The pointer passes over some characters, told by the page itself, whose clock does not wait for the test.
PASS = """
const done = arguments[arguments.length - 1], points = arguments[0], next = () => {
  const [x, y] = points.shift() ?? [3, 400];
  document.elementFromPoint(x, y).dispatchEvent(new PointerEvent('pointermove', { bubbles: true, clientX: x, clientY: y, pointerType: 'mouse' }));
  if (x === 3) setTimeout(done, 800); else setTimeout(next, 30);
};
next();
"""
# What is asked of the server from now on.
RECORD = """
window.sent = [];
const { send } = WebSocket.prototype;
WebSocket.prototype.send = function (data) { window.sent.push(JSON.parse(data)); return send.call(this, data); };
"""
# From now on the server is an older one, which does not know the request.
OLDER = """
const { send } = WebSocket.prototype;
WebSocket.prototype.send = function (data) { return send.call(this, data.replace('"do":"birth"', '"do":"unknown"')); };
"""
BIRTHS = "return window.sent.filter((request) => request.do === 'birth').map(({ rev, at }) => [rev, at])"
GO = "const rev = document.getElementById('rev'); rev.value = arguments[0]; rev.dispatchEvent(new Event('input'))"
FIRST, SECOND, THIRD = "Ann wrote this.\n", "Bob 🙂 wrote that. ", "zz"


def point(window, words, offset=0, where="text"):
    """Moves the pointer to a character."""
    x, y = window.run(MIDDLE, where, words, offset)
    window.driver.execute_cdp_cmd("Input.dispatchMouseEvent", {"type": "mouseMoved", "x": x, "y": y})


def away(window):
    window.driver.execute_cdp_cmd("Input.dispatchMouseEvent", {"type": "mouseMoved", "x": 3, "y": 400})


def is_told(window, author, rev):
    """Whether the card says that this author has written it, today, in this revision."""
    today = time.strftime("%b %-d, %Y")
    says = lambda text: text is not None and text.startswith(f"{author} · {today}") and text.endswith(f" · revision {rev}")
    return until(lambda: says(window.run(CARD)))


def open_births(test):
    """Revision 1 is ann's, 2 and 3 are bob's: a line before hers, in which he then inserts; in 4 bob erases the end of hers."""
    bob = make(test, "births", FIRST)
    bob.ask(do="insert", pad="births", rev=1, at=0, text=SECOND)
    bob.ask(do="insert", pad="births", rev=2, at=4, text=THIRD)
    bob.ask(do="delete", pad="births", rev=3, at=len(SECOND + THIRD + FIRST) - 2, len=1)
    until(lambda: test.ann.text == "Bob zz🙂 wrote that. Ann wrote this\n")
    point(test.ann, "Bob")
    test.check("a card comes where the pointer rests", is_told(test.ann, "bob", 2), test.ann.run(CARD))
    away(test.ann)
    test.ann.run(RECORD)


def at_the_pointer(test):
    ann, check = test.ann, test.check
    ann.driver.execute_async_script(PASS, [ann.run(MIDDLE, "text", "Ann wrote", at) for at in range(12)])
    check("a pointer that passes asks for nothing", ann.run(BIRTHS) == [] and ann.run(CARD) is None, (ann.run(BIRTHS), ann.run(CARD)))
    point(ann, "Ann wrote", 4)
    check("where it rests, a card says who wrote the character, when, and in which revision", is_told(ann, "ann", 1), ann.run(CARD))
    check("by one request, for a place in characters", ann.run(BIRTHS) == [[4, 24]], ann.run(BIRTHS))
    check("the card is on the screen, and the words of the page are as they were", ann.run(BOX) == [True] * 4 and ann.is_saved(), ann.run(BOX))
    plain(test, ann, "who wrote this")
    test.shot(ann, "who-wrote")
    away(ann)
    check("it goes with the pointer", until(lambda: ann.run(CARD) is None), ann.run(CARD))
    point(ann, "Ann wrote", 4)
    check("and is there again without another request", is_told(ann, "ann", 1) and len(ann.run(BIRTHS)) == 1, ann.run(BIRTHS))
    point(ann, "wrote that")
    check("the other author's words are the other author's", is_told(ann, "bob", 2), ann.run(CARD))
    point(ann, "zz", 1)
    check("so are those that came between them, in a revision of their own", is_told(ann, "bob", 3), ann.run(CARD))
    point(ann, "🙂")
    check("a character of two units is one", is_told(ann, "bob", 2), ann.run(CARD))
    ann.keys(Keys.SHIFT)
    check("a key closes the card", until(lambda: ann.run(CARD) is None), ann.run(CARD))


def by_keys(test):
    ann, check = test.ann, test.check
    away(ann)
    ann.run(WATCH)
    told = lambda: ann.run("return window.told.filter((text) => text.startsWith('news:') && text.includes('revision'))")
    ann.select(ann.text.index("zz") + 1)
    ann.keys("w", held=[Keys.CONTROL, Keys.ALT])
    check("the keys tell of the character before the caret", is_told(ann, "bob", 3), ann.run(CARD))
    check("and it is said", until(lambda: [text[:10] for text in told()] == ["news: bob,"]) and "revision 3" in told()[0], told())
    point(ann, "Ann wrote")
    away(ann)
    check("the pointer leaves that card alone", is_told(ann, "bob", 3), ann.run(CARD))
    at = ann.run("return [...document.querySelectorAll('#text .line')].map((line) => line.textContent).join('\\n').indexOf('Ann')")
    ann.select(at, at + 9)
    ann.click("who-wrote")
    check("the button tells of the first character that is selected", is_told(ann, "ann", 1), ann.run(CARD))
    check("and leaves the keyboard to the text", ann.run("return document.activeElement.id") == "text", ann.run("return document.activeElement.id"))
    ann.select(at)
    ann.insert("new")
    check("what was typed now is a revision of its own", ann.is_saved(1))
    ann.keys("w", held=[Keys.CONTROL, Keys.ALT])
    check("of which it is told, too", is_told(ann, "ann", 5), ann.run(CARD))


def in_the_past(test):
    ann, check = test.ann, test.check
    ann.click("history")
    until(lambda: ann.get("rev-made").text)
    ann.run(GO, 3)
    check("an earlier revision is shown", until(lambda: ann.run(PAST) == "Bob zz🙂 wrote that. Ann wrote this.\n"), ann.run(PAST))
    point(ann, "this.", 4, "past")
    check("its words are told of, also those that are erased by now", is_told(ann, "ann", 1), ann.run(CARD))
    test.shot(ann, "who-wrote-past")
    point(ann, "🙂", 0, "past")
    check("and those of the other author", is_told(ann, "bob", 2), ann.run(CARD))
    ann.run(GO, 2)
    check("another revision closes the card", until(lambda: ann.run(CARD) is None and "zz" not in ann.run(PAST)), ann.run(CARD))
    ann.run("getSelection().removeAllRanges(); document.getElementById('past').focus()")
    ann.keys(*[Keys.ARROW_RIGHT] * 3)
    check("the arrows go from character to character", is_told(ann, "bob", 2) and ann.run("return getSelection().toString()") == "b", ann.run("return getSelection().toString()"))
    ann.run(GO, 5)
    until(lambda: "new" in ann.run(PAST))
    ann.get("compare-rev").clear()
    ann.get("compare-rev").send_keys("3" + Keys.ENTER)
    until(lambda: ann.all("#past ins"))
    point(ann, "newAnn", 0, "past")
    check("in a comparison, what came is told of", is_told(ann, "ann", 5), ann.run(CARD))
    point(ann, "this.", 4, "past")
    check("and what went", is_told(ann, "ann", 1), ann.run(CARD))
    point(ann, "newAnn", 3, "past")
    check("and what stayed", is_told(ann, "ann", 1), ann.run(CARD))
    ann.click("back")


def on_a_phone(test):
    ann, check = test.ann, test.check
    away(ann)
    ann.driver.execute_cdp_cmd("Emulation.setDeviceMetricsOverride", {"width": 360, "height": 740, "deviceScaleFactor": 2, "mobile": True})
    ann.driver.execute_cdp_cmd("Emulation.setTouchEmulationEnabled", {"enabled": True})
    ann.select(ann.text.index("zz") + 2)
    ann.click("tools-button")
    ann.click("menu-who-wrote")
    check("the menu tells of the character before the caret", is_told(ann, "bob", 3), ann.run(CARD))
    check("beside it, within a phone's width", ann.run(BOX) == [True] * 4 and ann.run("return document.documentElement.scrollWidth <= innerWidth"), ann.run(BOX))
    test.shot(ann, "who-wrote-phone")
    ann.click("tools-button")
    ann.click("history")
    until(lambda: ann.get("rev-made").text)
    ann.run(GO, 3)
    until(lambda: ann.run(PAST).endswith("this.\n"))
    ann.run("document.getElementById('past').scrollIntoView({ block: 'center' })")
    time.sleep(0.3)
    x, y = ann.run(MIDDLE, "past", "Ann wrote", 0)
    for kind, points in (("touchStart", [{"x": x, "y": y}]), ("touchEnd", [])):
        ann.driver.execute_cdp_cmd("Input.dispatchTouchEvent", {"type": kind, "touchPoints": points})
    check("a tap on a character of an earlier revision tells who wrote it", is_told(ann, "ann", 1), ann.run(CARD))
    ann.driver.execute_cdp_cmd("Emulation.setTouchEmulationEnabled", {"enabled": False})
    ann.driver.execute_cdp_cmd("Emulation.clearDeviceMetricsOverride", {})
    ann.click("back")


def before_an_older_server(test):
    ann, check = test.ann, test.check
    ann.run(OLDER)
    ann.run("document.getElementById('text').scrollIntoView({ block: 'center' })")
    point(ann, "zz", 1)
    check("an older server's page says who, which it knows, and not when", until(lambda: ann.run(CARD) == "bob"), ann.run(CARD))
    away(ann)
    faults = ann.faults()
    check("and all that without a fault", not faults, faults)


def births(test):
    open_births(test)
    for part in (at_the_pointer, by_keys, in_the_past, on_a_phone, before_an_older_server):
        part(test)
