"""What an author does by keyboard, by mouse and by a screen reader, while others write."""
import time

from windows import Keys, Line, units, until

FOCUS = "const { activeElement } = document; return activeElement.id || activeElement.closest('.card')?.className || activeElement.nodeName"
# What live regions were told since the page began to watch them.
WATCH = """
window.told = [];
for (const node of document.querySelectorAll('[role=status], [role=alert], [aria-live]')) {
  new MutationObserver(() => window.told.push(`${node.id}: ${node.textContent}`)).observe(node, { childList: true, characterData: true, subtree: true });
}
"""
LINE = "return document.querySelectorAll('#text .line')[arguments[0]].getBoundingClientRect().toJSON()"


def make(test, pad, text):
    """A pad of ann's with this text, which ann opens. Answers bob's connection to it."""
    line, other = Line(test.server.port, "ann", "t1"), Line(test.server.port, "bob", "t2")
    line.ask(do="create", pad=pad)
    line.ask(do="grant", pad=pad, author="bob", right="write")
    line.ask(do="insert", pad=pad, rev=0, at=0, text=text)
    other.ask(do="join", pad=pad)
    open_pad(test.ann, pad)
    return other


def open_pad(ann, pad):
    ann.log_in("ann", "t1")
    ann.open(pad)
    until(lambda: ann.get("pad-name").text == pad and ann.is_saved(1))


def insert(line, pad, at, text):
    line.ask(do="insert", pad=pad, rev=line.ask(do="revs", pad=pad)["now"], at=at, text=text)


def text_of(line, pad):
    return line.ask(do="text", pad=pad)["text"]


def saved(test, line, pad, wanted):
    """Whether the page shows this text, and the server has it."""
    return until(lambda: test.ann.text == wanted and test.ann.is_saved(1) and text_of(line, pad) == wanted)


def focus(test):
    """The keyboard stays where the author has put it, whatever others type."""
    ann, check = test.ann, test.check
    bob = make(test, "focus", "some words of a line\nother words")
    ann.select(4)
    ann.run("document.getElementById('rights').focus()")
    insert(bob, "focus", 1, "X")
    until(lambda: ann.text.startswith("sXome"))
    check("a letter of another author leaves the keyboard to a button", ann.run(FOCUS) == "rights", ann.run(FOCUS))
    ann.keys(Keys.ENTER)
    check("which is then pressed", until(lambda: ann.get("rights-box").is_displayed()) and "\n" not in ann.text[:20], ann.text)
    ann.keys(Keys.ESCAPE)
    ann.run("document.getElementById('text').focus()")
    ann.keys("Y")
    check("and the caret is where it was", saved(test, bob, "focus", "sXomeY words of a line\nother words"), ann.text)
    bob.ask(do="comment", pad="focus", rev=bob.ask(do="revs", pad="focus")["now"], at=7, len=5, text="a remark")
    until(lambda: ann.all("#margin .card"))
    ann.select(9)
    visited = []
    for _ in range(3):
        ann.keys(Keys.TAB)
        time.sleep(0.2)
        visited.append(ann.run(FOCUS))
    check("Tab goes from commented words to their card", "text" not in visited and any("card" in one for one in visited), visited)


def keys(test):
    """Shortcuts on a Cyrillic keyboard, whose keys type other letters."""
    ann, check = test.ann, test.check
    bob = make(test, "keys", "words")

    def press(key, code, number, modifiers):
        for kind in ("rawKeyDown", "keyUp"):
            ann.driver.execute_cdp_cmd("Input.dispatchKeyEvent", {"type": kind, "key": key, "code": code, "windowsVirtualKeyCode": number, "modifiers": modifiers})

    ann.type("one ", 0)
    press("я", "KeyZ", 90, 2)
    check("Ctrl and the key of Z undoes on a Cyrillic keyboard", saved(test, bob, "keys", "words"), ann.text)
    press("Я", "KeyZ", 90, 10)
    check("with Shift, it redoes", saved(test, bob, "keys", "one words"), ann.text)
    ann.select(0, 3)
    press("ь", "KeyM", 77, 3)
    check("Ctrl, Alt and the key of M comments", until(lambda: ann.get("comment-box").is_displayed()))
    ann.keys(Keys.ESCAPE)
    ann.click("history")
    until(lambda: ann.get("rev-made").text)
    ann.keys(Keys.ESCAPE)
    check("Escape closes the history", until(lambda: not ann.get("slider").is_displayed() and ann.get("text").is_displayed()))


def clicked(test):
    """A line that is clicked three times."""
    ann, check = test.ann, test.check
    bob = make(test, "clicked", "one line\ntwo line\nthree line")

    def click_thrice(number):
        rect = ann.run(LINE, number)
        for count in (1, 2, 3):
            for kind in ("mousePressed", "mouseReleased"):
                ann.driver.execute_cdp_cmd("Input.dispatchMouseEvent", {
                    "type": kind, "x": rect["left"] + 30, "y": rect["top"] + 12, "button": "left", "clickCount": count})

    click_thrice(0)
    ann.keys("X")
    check("what is typed over a line of three clicks leaves its end", saved(test, bob, "clicked", "X\ntwo line\nthree line"), ann.text)
    click_thrice(1)
    ann.keys(Keys.DELETE)
    check("and so does Delete", saved(test, bob, "clicked", "X\n\nthree line"), ann.text)
    click_thrice(2)
    ann.keys("x", held=[Keys.CONTROL])
    check("and to cut it out", saved(test, bob, "clicked", "X\n\n"), ann.text)


def dragged(test):
    """Words that are dragged in the text, and from outside."""
    ann, check = test.ann, test.check
    bob = make(test, "dragged", "X\n\nthree line")
    drop = """
    const [from, to, number, isOutside] = arguments, root = document.getElementById('text'), data = new DataTransfer();
    document.caretRangeFromPoint = undefined; // as in a browser that has not this function, but the standard one
    const rect = document.querySelectorAll('#text .line')[number].getBoundingClientRect();
    const event = (kind) => new DragEvent(kind, { bubbles: true, cancelable: true, dataTransfer: data, clientX: rect.left + 2, clientY: rect.top + 12 });
    if (isOutside) data.setData('text/plain', 'outside '); else root.dispatchEvent(event('dragstart'));
    root.dispatchEvent(event('drop'));
    if (!isOutside) root.dispatchEvent(event('dragend'));
    """
    ann.select(3, 9)
    ann.run(drop, 3, 9, 0, False)
    check("words that are dragged move", saved(test, bob, "dragged", "three X\n\nline"), ann.text)
    ann.keys("z", held=[Keys.CONTROL])
    check("which one step undoes", saved(test, bob, "dragged", "X\n\nthree line"), ann.text)
    ann.run(drop, 0, 0, 2, True)
    check("words from outside are inserted where they are dropped", saved(test, bob, "dragged", "X\n\noutside three line"), ann.text)


def pasted(test):
    """A paste without a text."""
    ann, check = test.ann, test.check
    bob = make(test, "pasted", "keep these words")
    ann.select(5, 10)
    ann.run("""
    const data = new DataTransfer();
    data.items.add(new File([new Uint8Array(9)], 'image.png', { type: 'image/png' }));
    const given = { inputType: 'insertFromPaste', dataTransfer: data, bubbles: true, cancelable: true };
    document.getElementById('text').dispatchEvent(new InputEvent('beforeinput', given));
    """)
    check("an image that is pasted erases nothing", saved(test, bob, "pasted", "keep these words"), ann.text)
    check("and the page says that it takes text only", "Only text" in ann.get("notice-text").text, ann.get("notice-text").text)


def screen_reader(test):
    """Names, headings, languages and what is announced."""
    ann, check = test.ann, test.check
    bob = make(test, "spoken", "words of bob and more")
    bob.ask(do="comment", pad="spoken", rev=1, at=0, len=5, text="מה זה?")
    until(lambda: ann.all("#margin .card"))
    check("a pad's name is a heading", ann.get("pad-name").tag_name == "h2", ann.get("pad-name").tag_name)
    mark = ann.run("const mark = document.querySelector('#text .marked'); return [mark.getAttribute('role'), document.getElementById(mark.getAttribute('aria-details'))?.className.split(' ')[0] ?? null]")
    check("commented words are marked for a screen reader, and lead to their comment", mark == ["mark", "card"], mark)
    direction = ann.run("return getComputedStyle(document.querySelector('#margin .card-words')).direction")
    check("a comment runs in its own direction", direction == "rtl", direction)
    languages = ann.run("const text = document.getElementById('text'); return [document.documentElement.lang, text.lang === navigator.language, text.translate]")
    check("the text is in the reader's language, and no browser translates it", languages == ["en", True, False], languages)
    ann.run(WATCH)
    for letter in "typed words":
        ann.type(letter, units(ann.text))
        time.sleep(0.3)
    ann.is_saved()
    told = ann.run("return window.told")
    check("what is typed and saved is not announced each time", len(told) <= 2, told)
    test.server.kill()
    until(lambda: "offline" in ann.state)
    test.server.start()
    ann.is_saved(40)
    told = " ".join(ann.run("return window.told"))
    check("a lost connection is, and its end", "offline" in told and "All changes are saved" in told, told)


def low_window(test):
    """A window at a zoom of 400 %."""
    ann, check = test.ann, test.check
    make(test, "low", "a line of some words\n" * 40)
    ann.driver.execute_cdp_cmd("Emulation.setDeviceMetricsOverride", {"width": 320, "height": 215, "deviceScaleFactor": 1, "mobile": False})
    ann.run("document.querySelectorAll('#text .line')[20].scrollIntoView({ block: 'center' })")
    bottom = lambda: ann.run("return document.getElementById('bar').getBoundingClientRect().bottom")
    check("the bar of a low window scrolls away", until(lambda: bottom() <= 0), bottom())
    ann.select(units("a line of some words\n" * 20))
    ann.keys("Z")
    seen = ann.run("const { top, bottom } = document.querySelectorAll('#text .line')[20].getBoundingClientRect(); return [top, bottom, innerHeight]")
    check("and what is typed there can be seen", 0 <= seen[0] < seen[1] <= seen[2], seen)
    ann.driver.execute_cdp_cmd("Emulation.clearDeviceMetricsOverride", {})


def by_hand(test):
    for part in (focus, keys, clicked, dragged, pasted, screen_reader, low_window):
        part(test)
