"""What a browser keeps and shows: log-ins, storage that is blocked, and pads with many comments and many lines."""
import time

from keyboard import make, open_pad
from windows import Keys, Line, until

BLOCKED = "Object.defineProperty(window, 'localStorage', { get() { throw new DOMException('Access is denied for this document.', 'SecurityError'); } });"
COMMENTS = 305
LINES = 10_000
LONGEST = 3  # seconds for Ctrl+A and Delete, also on a busy machine


def log_in_twice(test):
    """The button is clicked twice."""
    ann, check = test.ann, test.check
    ann.begin()
    ann.run("""
    document.getElementById('name').value = 'ann';
    document.getElementById('token').value = 't1';
    const form = document.getElementById('log-in');
    form.requestSubmit();
    form.requestSubmit();
    """)
    shown = until(lambda: ann.get("choose").is_displayed(), 10)
    check("a double click on the button logs in once", shown and ann.get("log-in-error").text == "", ann.get("log-in-error").text)


def log_out(test):
    """Nothing of the pads stays in the browser."""
    ann, check = test.ann, test.check
    bob = make(test, "secret-project", "words")
    bob.ask(do="comment", pad="secret-project", rev=1, at=0, len=5, text="@ann, look")
    keys = lambda: ann.run("return Object.keys(localStorage).filter(key => key !== 'view')")
    check("the page keeps which comments it has shown", until(lambda: "seen @ann secret-project" in keys(), 12), keys())
    ann.click("close")
    ann.click("log-out")
    check("an author who logs out leaves no pad's name behind", until(lambda: ann.get("log-in").is_displayed() and not keys()), keys())


def blocked_storage(test):
    """A browser that keeps nothing."""
    ann, check = test.ann, test.check
    script = ann.driver.execute_cdp_cmd("Page.addScriptToEvaluateOnNewDocument", {"source": BLOCKED})["identifier"]
    bob = make(test, "blocked", "words are shown")
    check("a pad opens where the browser keeps nothing", until(lambda: ann.text == "words are shown"), ann.text)
    ann.type("And typed. ", 0)
    check("and takes what is typed", ann.is_saved() and bob.ask(do="text", pad="blocked")["text"].startswith("And typed."), ann.state)
    faults = ann.faults()
    check("without a fault", not faults, faults)
    ann.driver.execute_cdp_cmd("Page.removeScriptToEvaluateOnNewDocument", {"identifier": script})


def many_comments(test):
    """More comments than there are cards."""
    ann, check = test.ann, test.check
    line = Line(test.server.port, "ann", "t1")
    line.ask(do="create", pad="many-remarks")
    line.ask(do="insert", pad="many-remarks", rev=0, at=0, text="".join(f"line {number}\n" for number in range(COMMENTS)))
    text = line.ask(do="text", pad="many-remarks")["text"]
    for number in range(COMMENTS):
        line.ask(do="comment", pad="many-remarks", rev=1, at=text.index(f"line {number}\n"), len=4, text=f"remark {number}.")
    open_pad(ann, "many-remarks")
    has = lambda number: ann.run("return [...document.querySelectorAll('#margin .card-words')].some((one) => one.textContent === arguments[0])", f"remark {number}.")
    check("the first comments are shown", until(lambda: has(0)))
    said = ann.run("return document.getElementById('side').innerText")
    check("and how many are not", f"of {COMMENTS} comments" in said, said[:80])
    ann.run("document.querySelectorAll('#text .line')[299].scrollIntoView()")
    check("the newest are shown beside their words", until(lambda: has(COMMENTS - 1)))
    ann.run("scrollTo(0, 0)")
    until(lambda: has(0))
    ann.run("document.getElementById('all-comments')?.click()")
    count = lambda: len(ann.all("#margin .card"))
    check("and all if the author wants so", until(lambda: count() == COMMENTS), count())


def many_lines(test):
    """All of a long text is selected and erased."""
    ann, check = test.ann, test.check
    line = Line(test.server.port, "ann", "t1")
    line.ask(do="create", pad="long")
    for rev in range(LINES // 5_000):
        line.ask(do="insert", pad="long", rev=rev, at=0, text="x\n" * 5_000)
    open_pad(ann, "long")
    ann.select(0)
    start = time.time()
    ann.keys("a", held=[Keys.CONTROL])
    ann.keys(Keys.DELETE)
    is_empty = ann.text == ""
    took = time.time() - start
    check(f"{LINES} lines are erased in {LONGEST} seconds", is_empty and took < LONGEST, (is_empty, took))


def browser_limits(test):
    for part in (log_in_twice, log_out, blocked_storage, many_comments, many_lines):
        part(test)
