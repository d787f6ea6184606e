"""Suggestions, replies and names in comments, as authors see them in two windows."""
import time

from first_visit import says
from keyboard import FOCUS, make, open_pad, saved, text_of
from page_checks import plain
from windows import Keys, Line, until

TEXT = "The crane on the east quay is to be painted.\n\nThe ferry leaves at 7:30.\n"
DRAWN = "return [[...document.querySelectorAll('#text .goes')].map(node => node.textContent).join(''), [...document.querySelectorAll('#text .comes')].map(node => node.dataset.words).join('')]"
CARDS = "return [...document.querySelectorAll('#margin .card')].map(card => card.innerText.split('\\n').filter(line => line.trim()))"
BUTTONS = "return [...document.querySelectorAll('#margin .card button')].map(button => button.textContent)"


def said(line, pad):
    """The comments that are open, as any other client has them."""
    return [one["text"] for one in line.ask(do="comments", pad=pad)["comments"] if not one["resolved"]]


def press(window, words, number=0):
    window.press(lambda: [one for one in window.all("#margin .card button") if one.text == words][number])


def suggesting(test):
    """Bob may only comment. What he types is a suggestion, which ann accepts."""
    ann, bob, check = test.ann, test.bob, test.check
    line = make(test, "suggested", TEXT)
    owner = Line(test.server.port, "ann", "t1")
    owner.ask(do="join", pad="suggested")
    owner.ask(do="grant", pad="suggested", author="bob", right="comment")
    bob.log_in("bob", "t2")
    bob.open("suggested")
    until(lambda: "comment" in bob.state)
    check("who may only comment cannot type", not bob.run("return document.getElementById('text').isContentEditable"))
    bob.keys("s", held=[Keys.CONTROL, Keys.ALT])
    check("but can suggest", until(lambda: bob.run("return document.getElementById('text').isContentEditable")) and bob.get("suggest").get_attribute("aria-pressed") == "true")
    at = bob.text.index("7:30")
    bob.select(at, at + 4)
    bob.keys("7:40")
    check("what is typed is in a box", until(lambda: bob.get("suggest-words").get_property("value") == "7:40"), bob.get("suggest-words").get_property("value"))
    check("and in its place, struck and proposed", until(lambda: bob.run(DRAWN) == ["7:30", "7:40"]), bob.run(DRAWN))
    check("while the text stays", bob.text == TEXT == text_of(line, "suggested"), bob.text)
    plain(test, bob, "a suggestion is written")
    test.shot(bob, "suggesting")
    bob.keys(Keys.ENTER)
    wanted = 'Suggestion: "7:30" → "7:40"'
    check("Enter sends it as a comment that anybody can read", until(lambda: said(line, "suggested") == [wanted]), said(line, "suggested"))
    check("ann sees it in the text", until(lambda: ann.run(DRAWN) == ["7:30", "7:40"]), ann.run(DRAWN))
    check("which is not another text", ann.text == TEXT, ann.text)
    check("and in its card", until(lambda: ann.run(CARDS)[0][:3] == ["bob", "suggests", "7:30 7:40"]), ann.run(CARDS))
    check("bob may not accept it", bob.run(BUTTONS) == ["Reject", "Reply"] and ann.run(BUTTONS) == ["Accept", "Reject", "Reply"], (bob.run(BUTTONS), ann.run(BUTTONS)))
    plain(test, ann, "a suggestion")
    test.shot(ann, "suggestion")
    press(ann, "Accept")
    check("ann accepts it", saved(test, line, "suggested", TEXT.replace("7:30", "7:40")) and until(lambda: said(line, "suggested") == []), (ann.text, said(line, "suggested")))
    ann.run("document.getElementById('text').focus()")
    ann.keys("z", held=[Keys.CONTROL])
    check("one step of undo takes back both", saved(test, line, "suggested", TEXT) and until(lambda: said(line, "suggested") == [wanted + "\n(bob@1)"]), (ann.text, said(line, "suggested")))
    press(ann, "Reject")
    check("who rejects it leaves the text", until(lambda: said(line, "suggested") == []) and ann.text == TEXT, said(line, "suggested"))
    other_ways(test, line)


def other_ways(test, line):
    """Insertions, deletions, pastes and input methods."""
    ann, bob, check = test.ann, test.bob, test.check

    def is_suggested(name, wanted):
        bob.keys(Keys.ENTER)
        check(name, until(lambda: said(line, "suggested") == [wanted]) and bob.text == TEXT == text_of(line, "suggested"), (said(line, "suggested"), bob.text))
        until(lambda: "Reject" in bob.run(BUTTONS))
        press(bob, "Reject")
        until(lambda: not said(line, "suggested") and not bob.run(CARDS))
        until(lambda: bob.run(DRAWN) == ["", ""])

    bob.select(TEXT.index("quay") + 4)
    bob.keys(" wall")
    check("an insertion is shown where it comes", until(lambda: bob.run(DRAWN) == ["", " wall"]), bob.run(DRAWN))
    is_suggested("and is suggested with the word before it", 'Suggestion: "quay" → "quay wall"')
    bob.select(TEXT.index("east "), TEXT.index("quay"))
    bob.keys(Keys.DELETE)
    is_suggested("a deletion is suggested", 'Suggestion: "east " → ""')
    bob.select(TEXT.index("crane"), TEXT.index("crane") + 5)
    bob.run("""
    const data = new DataTransfer();
    data.setData('text/plain', 'two cranes');
    const given = { inputType: 'insertFromPaste', dataTransfer: data, bubbles: true, cancelable: true };
    document.getElementById('text').dispatchEvent(new InputEvent('beforeinput', given));
    """)
    is_suggested("and a paste", 'Suggestion: "crane" → "two cranes"')
    bob.select(TEXT.index("painted"))
    bob.driver.execute_cdp_cmd("Input.imeSetComposition", {"text": "n", "selectionStart": 1, "selectionEnd": 1})
    until(lambda: bob.get("suggest-words").is_displayed())
    bob.driver.execute_cdp_cmd("Input.insertText", {"text": "你"})
    check("what an input method writes goes into the box", until(lambda: "你" in bob.get("suggest-words").get_property("value")) and bob.text == TEXT, (bob.get("suggest-words").get_property("value"), bob.text))
    bob.keys(Keys.ESCAPE)
    check("Escape suggests nothing", until(lambda: not bob.get("suggest-box").is_displayed()) and not said(line, "suggested") and bob.run(DRAWN) == ["", ""], bob.run(DRAWN))
    bob.select(0)
    bob.keys("x" * 5)
    ann.type("New. ", 0)
    until(lambda: bob.text.startswith("New."))
    check("others may type meanwhile", bob.get("suggest-words").get_property("value").startswith("xxxxx"))
    bob.keys(Keys.ENTER)
    until(lambda: said(line, "suggested"))
    press(ann, "Accept")
    check("and it comes where it belongs", saved(test, line, "suggested", "New. xxxxx" + TEXT), ann.text)
    bob.click("suggest")
    check("who ends the mode cannot type any more", until(lambda: not bob.run("return document.getElementById('text').isContentEditable")))


def replying(test):
    """A thread of comments, and a name in one."""
    ann, bob, check = test.ann, test.bob, test.check
    line = make(test, "replied", TEXT)
    line.ask(do="comment", pad="replied", rev=1, at=4, len=5, text="Which one?")
    until(lambda: "Reply" in ann.run(BUTTONS))
    ann.run("document.querySelector('#margin .card').focus()")
    ann.keys(Keys.TAB, Keys.TAB)
    check("a card's buttons are reached by keyboard", ann.run("return document.activeElement.textContent") == "Reply", ann.run(FOCUS))
    ann.keys(Keys.ENTER)
    until(lambda: ann.get("comment-text").is_displayed())
    ann.press(lambda: [one for one in ann.all("#mention button") if one.text == "@bob"][0])
    ann.keys("the blue one, I think")
    plain(test, ann, "a reply is written")
    ann.click_first("#comment-box button[value=send]")
    check("a reply names its comment for any other client", until(lambda: "Reply to [1,2]: @bob the blue one, I think" in said(line, "replied")), said(line, "replied"))
    check("and is shown in its thread", until(lambda: ann.run(CARDS) == [["bob", "crane", "Which one?", "ann", "@bob the blue one, I think", "Resolve", "Reply"]]), ann.run(CARDS))
    test.shot(ann, "thread")
    bob.log_in("bob", "t2")
    bob.open("replied")
    check("bob is told that he is addressed when he opens the pad", says(bob, "ann addresses you"), bob.get("notice-text").text)
    test.shot(bob, "addressed")
    bob.click("notice-see")
    check("and shown where", until(lambda: "card" in bob.run("return document.activeElement.className")), bob.run("return document.activeElement.className"))
    bob.log_in("bob", "t2")
    bob.open("replied")
    until(lambda: bob.run(CARDS))
    time.sleep(0.5)
    check("once", "addresses" not in bob.get("notice-text").text, bob.get("notice-text").text)
    line.ask(do="comment", pad="replied", rev=line.ask(do="revs", pad="replied")["now"], at=0, len=3, text="@ann please look")
    check("and at once if the pad is open", says(ann, "bob addresses you"), ann.get("notice-text").text)
    ann.click("notice-dismiss")
    press(ann, "Resolve", 1)
    check("a thread is resolved as a whole", until(lambda: len(ann.run(CARDS)) == 1 and ann.get("resolved").is_displayed()), ann.run(CARDS))


def threads(test):
    for part in (suggesting, replying):
        part(test)
    for window in (test.ann, test.bob):
        faults = window.faults()
        test.check("and no fault is reported of all this", not faults, faults)
