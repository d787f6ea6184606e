"""Log-in links, a tab that stays logged in, and logging out."""
from first_visit import is_closed, says
from keyboard import text_of
from page_checks import plain
from windows import DORA, Keys, Line, units, until

# The token with each character that means something in an address as RFC 3986 writes it, by hand.
LINK = "#in=dora.k7Qw%26d%3DT3.x%2541-zB9"
BLOCKED = "for (const name of ['localStorage', 'sessionStorage']) Object.defineProperty(window, name, { get() { throw new DOMException('Access is denied for this document.', 'SecurityError'); } });"
# All that is sent is kept for the test.
HEARD = "const { send } = WebSocket.prototype; window.sent = []; WebSocket.prototype.send = function (line) { window.sent.push(line); return send.call(this, line); };"
KEPT = "return { session: { ...sessionStorage }, local: { ...localStorage } }"
PLACES = """
const names = performance.getEntries().map(({ name }) => name);
return JSON.stringify([document.URL, document.documentURI, document.baseURI, document.referrer, document.title, document.cookie, name, history.state, { ...localStorage }, names]);
"""
FIELD = "const field = document.getElementById(arguments[0]); return [field.form.tagName, field.type, field.autocomplete, field.form.contains(field.form.querySelector('button.strong'))]"
PHONE = {"width": 360, "height": 740, "deviceScaleFactor": 2, "mobile": True}


class Before:
    """A script runs before those of each page that is loaded."""

    def __init__(self, window, source):
        self.window, self.source = window, source

    def __enter__(self):
        self.script = self.window.driver.execute_cdp_cmd("Page.addScriptToEvaluateOnNewDocument", {"source": self.source})["identifier"]

    def __exit__(self, *_):
        self.window.driver.execute_cdp_cmd("Page.removeScriptToEvaluateOnNewDocument", {"identifier": self.script})


def make(test, pad, text):
    """A pad of ann's, on which dora may write. Answers dora's connection to it."""
    ann, dora = Line(test.server.port, "ann", "t1"), Line(test.server.port, "dora", DORA)
    ann.ask(do="create", pad=pad)
    ann.ask(do="grant", pad=pad, author="dora", right="write")
    ann.ask(do="insert", pad=pad, rev=0, at=0, text=text)
    dora.ask(do="join", pad=pad)
    return dora


def me(window):
    """Who is logged in, by the list of pads or by an open pad."""
    return window.run("return document.querySelector('#here .is-me')?.checkVisibility() ? document.querySelector('#here .is-me').textContent : document.getElementById('state').textContent")


def has(window, pad, text, who="dora"):
    return until(lambda: window.get("pad-name").text == pad and window.text == text and window.is_saved(1) and me(window) == who)


def asks(window):
    return until(lambda: window.get("log-in").is_displayed() and not window.get("choose").is_displayed() and not window.get("work").is_displayed())


def addresses(window):
    """The entries of the tab's history."""
    return [entry["url"] for entry in window.driver.execute_cdp_cmd("Page.getNavigationHistory", {})["entries"]]


def without_token(text):
    return not any(part in str(text) for part in ("k7Qw", "zB9", "in=dora"))


def hidden(test, window, pad, where):
    check = test.check
    check(f"{where}: the address has the pad alone", window.driver.current_url == f"{window.url}#{pad}", window.driver.current_url)
    places = window.run(PLACES)
    check(f"{where}: the token is in no address, entry, title or storage that outlives the tab", without_token(places) and f"#{pad}" in places, places)
    check(f"{where}: nor in the tab's history", without_token(addresses(window)) and f"{window.url}#{pad}" in addresses(window), addresses(window))


def followed(test):
    """A link is opened, and the tab goes back and forth."""
    ann, check = test.ann, test.check
    make(test, "linked", "words of the link")
    with Before(ann, HEARD):
        ann.begin(f"{LINK}&pad=linked")
        check("a link logs in and opens its pad", has(ann, "linked", "words of the link"), (ann.state, ann.get("log-in-error").text, ann.text))
        told = [line for line in ann.run("return window.sent") if not without_token(line)]
        check("the token is sent in one hello", told == [f'{{"do":"hello","name":"dora","token":"{DORA}"}}'], told)
    hidden(test, ann, "linked", "a link")
    length = ann.run("return history.length")
    ann.driver.back()
    ann.driver.forward()
    check("back and forth, it is not there again", has(ann, "linked", "words of the link") and ann.driver.current_url == f"{ann.url}#linked" and ann.run("return history.length") == length, ann.driver.current_url)
    hidden(test, ann, "linked", "back and forth")
    ann.begin()
    asks(ann)
    ann.run("location.hash = arguments[0]", f"{LINK}&pad=linked")
    check("a link that is followed on the page logs in, too", has(ann, "linked", "words of the link"), (ann.state, ann.text))
    hidden(test, ann, "linked", "on the page")
    ann.begin(LINK)
    check("a link without a pad shows the list", until(lambda: ann.get("choose").is_displayed() and me(ann) == "Logged in as dora"), me(ann))
    check("and leaves no fragment", ann.driver.current_url == ann.url and without_token(ann.run(PLACES)), ann.driver.current_url)


def stayed(test):
    """A tab is loaded again."""
    ann, check = test.ann, test.check
    ann.begin(f"{LINK}&pad=linked")
    has(ann, "linked", "words of the link")
    ann.driver.refresh()
    check("a page that is loaded again is logged in, with its pad", has(ann, "linked", "words of the link"), (ann.state, ann.text))
    kept = ann.run(KEPT)
    check("the tab has the token, and what outlives it has not", DORA in kept["session"].get("log-in", "") and without_token(kept["local"]), kept)
    ann.begin()
    check("the choice to stay is there, and made", asks(ann) and ann.get("stay").is_selected())
    plain(test, ann, "a choice")
    ann.click("stay")
    ann.get("name").send_keys("dora")
    ann.get("token").send_keys(DORA + Keys.ENTER)
    until(lambda: ann.get("choose").is_displayed())
    kept = ann.run(KEPT)
    check("who does not want to stay leaves no token in the browser", kept["session"] == {} and without_token(kept["local"]), kept)
    ann.driver.refresh()
    check("and is asked again", asks(ann) and ann.get("token").get_property("value") == "", ann.state)


def refused(test):
    """Links and tabs with a token that is wrong, or is not any more."""
    ann, check = test.ann, test.check
    said = lambda: ann.get("log-in-error").text
    ann.begin("#in=dora.k7Qw&pad=linked")
    check("a link with a wrong token shows the form", asks(ann) and until(lambda: said().startswith("The name or the token is wrong")), said())
    check("with the author's name", ann.get("name").get_property("value") == "dora", ann.get("name").get_property("value"))
    check("and keeps nothing", ann.run(KEPT)["session"] == {} and ann.driver.current_url == f"{ann.url}#linked", (ann.run(KEPT), ann.driver.current_url))
    ann.get("token").clear()
    ann.get("token").send_keys(DORA + Keys.ENTER)
    check("the right token opens the link's pad", has(ann, "linked", "words of the link"), ann.state)
    for broken, name in (("#in=dora", "dora"), ("#in=", ""), ("#in=Dora.k7Qw", ""), ("#pad=linked&in=k7Qw", "")):
        ann.begin(broken)
        seen = until(lambda: asks(ann) and said()), ann.get("name").get_property("value"), ann.driver.current_url.split("#")[0]
        check(f"a link that is cut off is said to be wrong: {broken}", seen == (said(), name, ann.url) and "wrong" in said() and "in=" not in ann.driver.current_url, (seen, said()))
    ann.begin()
    ann.run("sessionStorage.setItem('log-in', JSON.stringify({ name: 'dora', token: 'k7Qw' }))")
    ann.driver.refresh()
    check("a token that is refused is not kept", asks(ann) and until(lambda: "wrong" in said()) and ann.run(KEPT)["session"] == {}, (said(), ann.run(KEPT)))
    ann.driver.refresh()
    check("and not tried again", asks(ann) and said() == "" and ann.get("name").get_property("value") == "", said())


def logged_out(test):
    """From a pad, by mouse, by keyboard and on a phone."""
    ann, check = test.ann, test.check
    ann.begin(f"{LINK}&pad=linked")
    has(ann, "linked", "words of the link")
    ann.click("log-out")
    check("who logs out of a pad is asked who it is", asks(ann) and ann.driver.current_url == ann.url, (ann.state, ann.driver.current_url))
    check("and the tab forgets", ann.run(KEPT)["session"] == {}, ann.run(KEPT))
    ann.driver.refresh()
    check("also when it is loaded again", asks(ann) and ann.run(KEPT)["session"] == {}, ann.state)
    ann.begin(LINK)
    until(lambda: ann.get("choose").is_displayed())
    for _ in range(60):
        if ann.run("return document.activeElement.id") == "log-out":
            break
        ann.keys(Keys.TAB)
    seen = ann.run("return [document.activeElement.id, document.activeElement.innerText]")
    ann.keys(Keys.ENTER)
    check("by keyboard, too", seen == ["log-out", "Log out"] and asks(ann), seen)
    ann.driver.execute_cdp_cmd("Emulation.setDeviceMetricsOverride", PHONE)
    for language, words in (("de", "Abmelden"), ("fr", "Se déconnecter"), ("es", "Salir"), ("en", "Log out")):
        ann.run("localStorage.setItem('language', arguments[0])", language)
        ann.begin(f"{LINK}&pad=linked")
        until(lambda: ann.get("pad-name").text == "linked" and ann.text)
        ann.click("tools-button")
        until(lambda: ann.get("menu-log-out").is_displayed())
        seen = ann.get("menu-log-out").text, ann.run("return document.documentElement.scrollWidth"), ann.get("log-out").is_displayed()
        ann.click("menu-log-out")
        check(f"in 360 pixels, in {language}", seen == (words, 360, False) and asks(ann) and ann.run(KEPT)["session"] == {}, seen)
    ann.run("localStorage.removeItem('language')")
    ann.driver.execute_cdp_cmd("Emulation.clearDeviceMetricsOverride", {})


def unsent(test):
    """Words wait while the author logs out, and while somebody else's link is followed."""
    ann, server, check = test.ann, test.server, test.check
    line = make(test, "waiting", "saved. ")
    ann.log_in("ann", "t1", "#waiting")
    has(ann, "waiting", "saved. ", "ann")
    server.kill()
    until(lambda: "offline" in ann.state)
    ann.type("not sent", units("saved. "))
    ann.click("log-out")
    check("who logs out with unsent words is told so", says(ann, "not saved yet") and ann.get("text").is_displayed() and "not sent" in ann.get("notice-words").text, ann.get("notice-text").text)
    ann.click("notice-dismiss")
    ann.run("location.hash = arguments[0]", f"{LINK}&pad=linked")
    check("and so is who follows somebody else's link", says(ann, "not saved yet") and ann.text == "saved. not sent", ann.get("notice-text").text)
    hidden(test, ann, "waiting", "with unsent words")
    server.start()
    check("the words are sent when the server is back", ann.is_saved(40), ann.state)
    ann.run(f"{HEARD} addEventListener('pagehide', () => sessionStorage.setItem('sent', JSON.stringify(window.sent)))")
    ann.run("location.hash = arguments[0]", f"{LINK}&pad=linked")
    check("and then the link is followed", has(ann, "linked", "words of the link"), (ann.state, ann.text))
    hidden(test, ann, "linked", "another author")
    sent = ann.run("return sessionStorage.getItem('sent')")
    check("the author before only leaves", sent is not None and '\\"leave\\"' in sent and "linked" not in sent and "hello" not in sent, sent)
    line = Line(server.port, "dora", DORA)
    line.ask(do="join", pad="waiting")
    check("with nothing lost", text_of(line, "waiting") == "saved. not sent", text_of(line, "waiting"))
    ann.driver.refresh()
    check("the tab stays the other author's", has(ann, "linked", "words of the link"), ann.state)
    ann.run("window.isSame = true")
    ann.run("location.hash = arguments[0]", f"{LINK}&pad=waiting")
    check("an author's own link opens its pad without a new page", has(ann, "waiting", "saved. not sent") and ann.run("return window.isSame === true"), ann.state)
    hidden(test, ann, "waiting", "an own link")
    ann.click("close")
    is_closed(ann)


def away(test):
    """A tab that has stayed logged in is loaded again without a connection."""
    ann, server, check = test.ann, test.server, test.check
    ann.begin(f"{LINK}&pad=waiting")
    has(ann, "waiting", "saved. not sent")
    ann.type("All ", 0)
    ann.is_saved()
    server.kill()
    until(lambda: "offline" in ann.state)
    ann.driver.refresh()
    check("without a connection the form says so, and is filled in", asks(ann) and until(lambda: "does not answer" in ann.get("log-in-error").text) and ann.get("token").get_property("value") == DORA, ann.get("log-in-error").text)
    ann.press(lambda: next(button for button in ann.all("#kept-pads button") if "waiting" in button.text))
    until(lambda: ann.text == "All saved. not sent")
    check("who is not logged in cannot log out", not ann.get("log-out").is_displayed() and ann.get("log-in-again").is_displayed())
    ann.type("More, ", 0)
    server.start()
    ann.run("location.hash = arguments[0]", f"{LINK}&pad=waiting")
    check("the author's link sends what was typed meanwhile", has(ann, "waiting", "More, All saved. not sent"), (ann.state, ann.text))
    check("and then one can log out", until(lambda: ann.get("log-out").is_displayed()) and not ann.get("log-in-again").is_displayed())
    hidden(test, ann, "waiting", "without a connection")


def blocked(test):
    """A browser that keeps nothing, not even for a tab."""
    ann, check = test.ann, test.check
    with Before(ann, BLOCKED):
        ann.begin(f"{LINK}&pad=linked")
        check("a link works where the browser keeps nothing", has(ann, "linked", "words of the link"), ann.state)
        ann.run("location.hash = '#in=ann.t1&pad=waiting'")
        check("and so does another author's", has(ann, "waiting", "More, All saved. not sent", "ann"), (ann.state, me(ann)))
        ann.driver.refresh()
        check("but the page asks when it is loaded again", asks(ann) and ann.driver.current_url == f"{ann.url}#waiting", ann.state)
        ann.get("name").send_keys("dora")
        ann.get("token").send_keys(DORA + Keys.ENTER)
        check("and the form works there", has(ann, "waiting", "More, All saved. not sent"), ann.state)
        ann.run("location.hash = '#in=ann.t2'")
        check("another author's link with a wrong token shows the form", asks(ann) and until(lambda: "wrong" in ann.get("log-in-error").text) and ann.get("name").get_property("value") == "ann" and not ann.get("log-out").is_displayed(), ann.get("log-in-error").text)
        ann.get("token").clear()
        ann.get("token").send_keys("t1" + Keys.ENTER)
        until(lambda: ann.get("choose").is_displayed())
        ann.click("log-out")
        check("and one can log out there", asks(ann), ann.state)


def offered(test):
    """What browsers that keep passwords look at."""
    ann, check = test.ann, test.check
    ann.begin()
    asks(ann)
    wanted = {"name": ["FORM", "text", "username", True], "token": ["FORM", "password", "current-password", True],
              "again-name": ["FORM", "text", "username", True], "again-token": ["FORM", "password", "current-password", True]}
    for field, is_like in wanted.items():
        check(f"the field {field} is offered to what keeps passwords", ann.run(FIELD, field) == is_like, ann.run(FIELD, field))
    ann.run("document.getElementById('log-in').addEventListener('submit', () => { window.submitted = (window.submitted ?? 0) + 1 })")
    ann.get("name").send_keys("dora")
    ann.get("token").send_keys(DORA + Keys.ENTER)
    check("Enter submits the form, which goes away", until(lambda: ann.get("choose").is_displayed()) and ann.run("return window.submitted") == 1 and not ann.get("log-in").is_displayed())
    ann.click("log-out")
    asks(ann)
    faults = [fault for fault in ann.faults() if "ERR_" not in fault]
    check("and no fault is reported of all this", not faults, faults)


def log_ins(test):
    for part in (followed, stayed, refused, logged_out, unsent, away, blocked, offered):
        part(test)
