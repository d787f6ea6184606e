"""What is typed outlives the tab: a reload without a connection, pads that are opened without a log-in, and what stays after one
logs out."""
from first_visit import is_closed, says
from windows import Keys, Line, units, until

KEPT = "return [...document.querySelectorAll('#kept-pads button')].map(button => button.textContent)"
STORED = """
const done = arguments[0], request = indexedDB.open('pads');
request.onsuccess = () => {
  const base = request.result, names = [...base.objectStoreNames], sizes = names.map((name) => base.transaction(name).objectStore(name).count());
  Promise.all(sizes.map((one) => new Promise((next) => { one.onsuccess = () => next(one.result); }))).then((all) => { base.close(); done(all); });
};
"""
# Leaves the page as a crash does: without a question.
GO = "window.addEventListener('beforeunload', (event) => event.stopImmediatePropagation(), true)"
WORKER = "return navigator.serviceWorker.ready.then((one) => one.active.state)"
WHOLE = "return caches.keys().then(async (names) => (await Promise.all(names.map(async (name) => (await caches.open(name)).match('/files.txt')))).filter(Boolean).length)"


def server_text(test, pad):
    line = Line(test.server.port, "ann", "t1")
    line.ask(do="join", pad=pad)
    return line.ask(do="text", pad=pad)["text"]


def reloaded(test):
    """A tab is loaded again while words are not sent."""
    ann, server, check = test.ann, test.server, test.check
    ann.log_in("ann", "t1")
    ann.open("reloaded", "create")
    ann.type("first line", 0)
    ann.is_saved()
    ann.run(WORKER)
    check("a service worker keeps the page's files", until(lambda: ann.run(WHOLE) >= 1), ann.run(WHOLE))
    server.kill()
    until(lambda: "offline" in ann.state)
    check("a writer without a connection is told that the words are kept", until(lambda: "kept on this device" in ann.state), ann.state)
    ann.type(" and words that nobody has", units("first line"))
    ann.run(GO)
    if server.page:
        server.page.end()
    ann.driver.get(ann.url)
    check("the page opens without a server", until(lambda: ann.get("log-in").is_displayed()))
    check("and names the pads of this device", until(lambda: any("reloaded" in one and "not sent yet" in one for one in ann.run(KEPT))), ann.run(KEPT))
    test.shot(ann, "kept-pads")
    ann.press(lambda: next(button for button in ann.all("#kept-pads button") if "reloaded" in button.text))
    check("which it opens", until(lambda: ann.text == "first line and words that nobody has"), ann.text)
    check("and says how old they are", "Not logged in" in ann.state and "2026" in ann.state or "20" in ann.state, ann.state)
    ann.type("More, ", 0)
    test.shot(ann, "away")
    if server.page:
        server.page.start()
    server.start()
    ann.click("log-in-again")
    until(lambda: ann.get("again-token").is_displayed())
    ann.get("again-token").send_keys("wrong" + Keys.ENTER)
    check("a wrong token is told", until(lambda: "wrong" in ann.get("again-error").text), ann.get("again-error").text)
    ann.get("again-token").send_keys("t1" + Keys.ENTER)
    check("the right one sends what was typed", ann.is_saved(30), ann.state)
    wanted = "More, first line and words that nobody has"
    check("once", until(lambda: server_text(test, "reloaded") == wanted == ann.text), server_text(test, "reloaded"))
    ann.click("close")
    is_closed(ann)


def crashed(test):
    """A tab ends shortly after the last key, and the pad is opened again by hand."""
    ann, check = test.ann, test.check
    ann.open("crashed", "create")
    ann.type("saved. ", 0)
    ann.is_saved()
    test.server.kill()
    until(lambda: "offline" in ann.state)
    ann.type("not sent", units("saved. "))
    ann.run(GO)
    ann.driver.get("about:blank")
    test.server.start()
    ann.log_in("ann", "t1")
    check("the list names pads with changes that are not sent", until(lambda: "not sent yet" in ann.get("pads").text), ann.get("pads").text)
    ann.open("crashed")
    check("what was not sent is told", says(ann, "had not been sent"), ann.get("notice-text").text)
    test.shot(ann, "merged")
    check("and sent", ann.is_saved(20) and until(lambda: server_text(test, "crashed") == "saved. not sent" == ann.text), ann.text)
    ann.keys("z", held=[Keys.CONTROL])
    check("undo takes it back", until(lambda: ann.text == "saved. "), ann.text)
    ann.click("close")
    is_closed(ann)


def other_pad(test):
    """The right to the pad is taken away meanwhile."""
    ann, check = test.ann, test.check
    bob = Line(test.server.port, "bob", "t2")
    bob.ask(do="create", pad="taken-away")
    bob.ask(do="grant", pad="taken-away", author="ann", right="write")
    ann.open("taken-away")
    ann.is_saved()
    test.server.kill()
    until(lambda: "offline" in ann.state)
    ann.type("my decision", 0)
    ann.run(GO)
    ann.driver.get("about:blank")
    test.server.start()
    bob = Line(test.server.port, "bob", "t2")
    bob.ask(do="join", pad="taken-away")
    bob.ask(do="grant", pad="taken-away", author="ann", right="none")
    ann.log_in("ann", "t1")
    ann.open("taken-away")
    offered = lambda: ann.get("notice-words").get_property("textContent")
    check("words for a pad that cannot be opened are offered to be copied", until(lambda: offered() == "my decision"), offered())
    ann.run("location.hash = '#in=bob.t2'")
    check("and keep the author from somebody else's link", until(lambda: ann.get("notice-text").text.startswith("These changes were not accepted")) and offered() == "my decision" and ann.state == "Logged in as ann", (ann.get("notice-text").text, ann.state))
    ann.log_in("ann", "t1", "#taken-away")
    check("again the next time", until(lambda: offered() == "my decision"), offered())
    ann.click("log-out")
    check("who logs out is told that they would be lost", says(ann, "taken-away"), ann.get("notice-text").text)
    ann.click("notice-dismiss")
    ann.log_in("ann", "t1", "#taken-away")
    check("until they are dismissed", until(lambda: "access" in ann.get("open-error").text) and offered() == "", offered())


def logged_out(test):
    """Nothing of a pad stays."""
    ann, check = test.ann, test.check
    ann.click("log-out")
    if until(lambda: ann.get("notice-log-out").is_displayed(), 2):  # changes of an earlier part of this test were not sent
        ann.click("notice-log-out")
    until(lambda: ann.get("log-in").is_displayed() and not ann.get("choose").is_displayed())
    stored = ann.driver.execute_async_script(STORED)
    check("nothing of a pad is kept after one logs out", stored == [0, 0] and not ann.run(KEPT), (stored, ann.run(KEPT)))
    faults = [fault for fault in ann.faults() if "ERR_" not in fault and "status of 4" not in fault and "fetch" not in fault]
    check("and no fault is reported of all this", not faults, faults)


def drafts(test):
    for part in (reloaded, crashed, other_pad, logged_out):
        part(test)
