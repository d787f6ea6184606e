"""What authors typed or remarked stays, or they are asked: pads that are clicked one shortly after the other, comments without a
connection, words that were refused, and characters of two units."""
from first_visit import CARDS, Stopped, is_closed, says
from windows import Keys, Line, units, until

CLICK_BOTH = """
const named = (name) => [...document.querySelectorAll('#pads button')].find(button => button.querySelector('b').textContent === name);
named(arguments[0]).click();
named(arguments[1]).click();
"""
WOULD_ASK = "const event = new Event('beforeunload', { cancelable: true }); dispatchEvent(event); return event.defaultPrevented"


def kept_words(test):
    two_pads(test)
    unsent_comments(test)
    refused_words(test)
    whole_characters(test)


def two_pads(test):
    ann, check = test.ann, test.check
    line = Line(test.server.port, "ann", "t1")
    for pad in ("left-pad", "right-pad"):
        line.ask(do="create", pad=pad)
        line.ask(do="insert", pad=pad, rev=0, at=0, text=f"the {pad}")
    ann.log_in("ann", "t1")
    until(lambda: "right-pad" in ann.get("pads").text)
    ann.run(CLICK_BOTH, "left-pad", "right-pad")
    check("of two pads that are clicked the last one is open", until(lambda: ann.get("pad-name").text == "right-pad" and ann.text == "the right-pad"), ann.text)
    line.ask(do="insert", pad="left-pad", rev=1, at=0, text="words of another pad ")
    line.ask(do="insert", pad="right-pad", rev=1, at=0, text="now ")
    check("and shows what comes in it", until(lambda: ann.text == "now the right-pad"), ann.text)
    check("the other one is left", until(lambda: len(line.ask(do="who", pad="left-pad")["who"]) == 1), line.ask(do="who", pad="left-pad"))
    ann.click("close")
    is_closed(ann)


def unsent_comments(test):
    ann, server, check = test.ann, test.server, test.check
    ann.open("unsent-remarks", "create")
    ann.type("alpha beta gamma", 0)
    ann.is_saved()
    server.kill()
    until(lambda: "offline" in ann.state)
    ann.type("I ", 0)
    for word, remark in (("alpha", "on alpha"), ("gamma", "on gamma")):
        at = ann.text.index(word)
        ann.select(at, at + len(word))
        ann.click("comment")
        ann.get("comment-text").send_keys(remark)
        ann.click_first("#comment-box button[value=send]")
    unsent = lambda: [card for card in ann.run(CARDS) if "Not sent yet" in card]
    check("comments that are not sent are shown as such", until(lambda: len(unsent()) == 2), ann.run(CARDS))
    check("and leaving is stopped", ann.run(WOULD_ASK))
    test.shot(ann, "comments-not-sent")
    server.start()
    check("they are sent when the server is back", ann.is_saved(40) and until(lambda: "Not sent yet" not in "".join(ann.run(CARDS))), ann.run(CARDS))
    line = Line(server.port, "ann", "t1")
    line.ask(do="join", pad="unsent-remarks")
    text = line.ask(do="text", pad="unsent-remarks")["text"]
    made = sorted((one["text"], text[one["at"] : one["at"] + one["len"]]) for one in line.ask(do="comments", pad="unsent-remarks")["comments"])
    check("each on its own words, once", made == [("on alpha", "alpha"), ("on gamma", "gamma")], made)
    check("and nothing stops leaving", not ann.run(WOULD_ASK))
    ann.click("close")
    is_closed(ann)


def refused_words(test):
    ann, check = test.ann, test.check
    line = Line(test.server.port, "bob", "t2")
    line.ask(do="create", pad="refused-words")
    line.ask(do="grant", pad="refused-words", author="ann", right="write")
    ann.click("log-out")
    ann.log_in("ann", "t1")
    ann.open("refused-words")
    line.ask(do="grant", pad="refused-words", author="ann", right="none")
    with Stopped(test.server):
        for letter in "a decision":
            ann.keys(letter)
    words = lambda: ann.get("notice-words").text
    check("words that are refused are kept", until(lambda: words() == "a decision"), words())
    check("and stop leaving", ann.run(WOULD_ASK))
    ann.click("close")
    kept = says(ann, "Copy or dismiss") and ann.get("text").is_displayed() and words() == "a decision"
    check("and closing, with a question", kept, (ann.get("notice-text").text, words()))
    ann.click("notice-copy")
    ann.click("close")
    check("until they are copied", is_closed(ann))


def whole_characters(test):
    ann, check = test.ann, test.check
    ann.open("whole-characters", "create")
    ann.insert("x" + "🙂" * 5_200 + "TAIL of another sentence")
    ann.is_saved(60)
    ann.select(0, 10_401)
    ann.keys(Keys.BACKSPACE)
    line = Line(test.server.port, "ann", "t1")
    line.ask(do="join", pad="whole-characters")
    check("a long deletion erases whole characters", ann.is_saved(60) and ann.text == "TAIL of another sentence", ann.text[:80])
    text = line.ask(do="text", pad="whole-characters")["text"]
    check("also at the server", text == "TAIL of another sentence", text[:80])
    ann.select(0)
    ann.run("document.execCommand('insertText', false, 'half \\ud83d ')")
    check("half a character is shown as what is sent", until(lambda: ann.is_saved() and ann.text.startswith("half \ufffd TAIL")), ann.text)
    text = line.ask(do="text", pad="whole-characters")["text"]
    check("and the server has it", text == ann.text and units(text) == units(ann.text), text)
    faults = ann.faults()
    check("no fault is reported of all this", not faults, faults)
    ann.click("close")
    is_closed(ann)
