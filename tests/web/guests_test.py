#!/usr/bin/env python3
"""Guests in windows of headless Chromium, before a server with `--guests`: an owner makes a link, and others come by it.

    tests/web/guests_test.py [--disk] PROGRAM [FOLDER]

PROGRAM is crates/pad_server/out/pad_server. Screenshots go into FOLDER, if it is given. With --disk, the page is that on
disk, and not that of the program. The last line is `N passed, M failed`.
"""
import os
import re
import sys
import tempfile

from first_visit import CHOOSE, RIGHTS
from page_checks import plain
from trial import MAY_TYPE, WIDTH, Trial, narrow, shown, speak
from windows import Keys, Line, Server, play_all, units, until

TEXT = "The crane on the east quay is to be painted.\n"
NAME, MARKED = "Ben Müller", "Ben Müller (guest)"
# Where a browser keeps addresses and what a page was loaded with.
PLACES = "return JSON.stringify([document.URL, document.referrer, document.title, document.cookie, name, history.state, performance.getEntries().map((one) => one.name)])"
OPTIONS = "return [...document.querySelectorAll('#rights-list tr')].map((row) => [row.firstChild.textContent, [...row.querySelectorAll('option')].map((one) => one.value).join(' '), row.querySelectorAll('button').length])"
KEPT = "return [Object.keys(sessionStorage), Object.keys(localStorage).filter((key) => key.includes('guest'))]"


class Guests(Trial):
    """A server that takes guests, an owner's window, and those of two guests."""

    def __init__(self, server, folder, tally, downloads):
        super().__init__(server, folder, tally, ("ann", "ben", "eve"))
        self.downloads, self.link = downloads, ""


def asks(window):
    return until(lambda: window.get("guest").is_displayed() and not window.get("work").is_displayed())


def fault(window):
    return window.get("guest-error").text


def me(window):
    return window.run("return document.querySelector('#here .is-me')?.textContent ?? ''")


def come(window, link, name):
    """A guest follows the link and chooses a name."""
    window.begin(link)
    asks(window)
    window.get("guest-name").clear()
    window.get("guest-name").send_keys(name + Keys.ENTER)
    return is_in(window, name)


def is_in(window, name, text=TEXT):
    return until(lambda: window.get("text").is_displayed() and window.text == text and me(window) == f"{name} (guest)")


def set_right(ann, name, right):
    """The owner changes a right in the dialog, which is open."""
    ann.run(CHOOSE, name, right)


def links(ann):
    return [name for name in ann.run(RIGHTS) if name.startswith("Guests by a link")]


def invites(test):
    """The owner makes a link."""
    ann, check = test.ann, test.check
    ann.log_in("ann", "t1")
    ann.open("minutes", "create")
    ann.type(TEXT, 0)
    ann.is_saved()
    ann.click("rights")
    until(lambda: ann.get("invite").is_displayed())
    check("before a link is made, none is shown", not ann.get("invited").is_displayed() and links(ann) == [])
    ann.press(lambda: ann.all("#invite button")[0])
    until(lambda: ann.get("invite-link").is_displayed())
    address = ann.get("invite-link").get_property("value")
    form = re.fullmatch(re.escape(ann.url) + r"(#guest=minutes\.[A-Za-z0-9_-]{22})", address)
    check("the link names the pad and has a secret", form is not None, address)
    test.link = form[1] if form else "#guest=minutes."
    check("it is selected, to be copied", ann.run("const { activeElement: field } = document; return field.id === 'invite-link' && field.selectionEnd - field.selectionStart === field.value.length"))
    rows = until(lambda: [row for row in ann.run(OPTIONS) if row[0].startswith("Guests by a link (…")])
    check("the list has it, with the rights that it can have, and nobody hands a pad over to it", bool(rows) and rows[0][1:] == ["write comment read none", 0], ann.run(OPTIONS))
    check("its right is the one that was chosen", "Can comment" in ann.run("return [...document.querySelectorAll('#rights-list select')].map((one) => one.selectedOptions[0].textContent)"))
    plain(test, ann, "a link for guests")
    test.shot(ann, "invite")
    ann.keys(Keys.ESCAPE)
    ann.click("rights")
    until(lambda: ann.get("invite").is_displayed())
    check("and then the link is not shown again", not ann.get("invited").is_displayed() and ann.get("invite-link").get_property("value") == "" and len(links(ann)) == 1)
    ann.keys(Keys.ESCAPE)


def comes(test):
    """A guest opens the link, and chooses a name."""
    ben, check, secret = test.ben, test.check, test.link.partition(".")[2]
    ben.begin(test.link)
    check("a guest is asked for a name, and not for a token", asks(ben) and not ben.get("log-in").is_displayed() and not ben.get("choose").is_displayed())
    check("and told which pad it is", "minutes" in ben.get("guest-pad").text, ben.get("guest-pad").text)
    plain(test, ben, "the form for guests")
    test.shot(ben, "guest")
    addresses = [entry["url"] for entry in ben.driver.execute_cdp_cmd("Page.getNavigationHistory", {})["entries"]]
    places = ben.run(PLACES)
    check("the secret is in no address", ben.driver.current_url == f"{ben.url}#minutes" and secret not in places, (ben.driver.current_url, places))
    check("nor in the tab's history", not any(secret in one for one in addresses) and f"{ben.url}#minutes" in addresses, addresses)
    ben.get("guest-name").send_keys("   " + Keys.ENTER)
    check("a name of spaces is none", until(lambda: "Choose a name" in fault(ben)) and asks(ben), fault(ben))
    ben.get("guest-name").clear()
    ben.get("guest-name").send_keys(NAME + Keys.ENTER)
    check("then the pad is open", is_in(ben, NAME), (ben.state, ben.text, me(ben)))
    check("and the secret is not in the address", ben.driver.current_url == f"{ben.url}#minutes" and secret not in ben.run(PLACES), ben.driver.current_url)
    check("a guest who may comment cannot type", not ben.run(MAY_TYPE) and "read and comment" in ben.state, ben.state)
    check("and has no list of pads to go back to", not ben.get("close").is_displayed() and not ben.get("choose").is_displayed())
    plain(test, ben, "a pad that a guest sees")


def comments(test):
    """What the owner sees of the guest."""
    ann, ben, check = test.ann, test.ben, test.check
    ben.select(4, 9)
    ben.click("comment")
    until(lambda: ben.get("comment-box").is_displayed())
    ben.get("comment-text").send_keys("which crane?")
    ben.press(lambda: ben.all("#comment-box button.strong")[0])
    card = lambda: shown(ann, "#margin .card-head b")
    check("the guest comments, and the owner sees whose comment it is", until(lambda: [text for text, _ in card()] == [MARKED]), card())
    account = card()[0][1] if card() else ""
    check("with the account name as a hint", re.fullmatch(r"guest-[a-z0-9]{26}", account) is not None, account)
    test.account = account
    check("so has the list of who is here", until(lambda: [MARKED, f"{NAME} (guest, {account})"] in shown(ann, "#here li")), shown(ann, "#here li"))
    ben.select(2)
    check("and a caret", until(lambda: [MARKED, account] in shown(ann, "#carets .caret span")), shown(ann, "#carets .caret span"))
    ann.click("history")
    check("and the history", until(lambda: f"{MARKED} commented" in ann.get("rev-made").text), ann.get("rev-made").text)
    ann.click("back")
    test.shot(ann, "guest-comment")
    exports(test, account)


def exports(test, account):
    ann, check = test.ann, test.check
    ann.driver.execute_cdp_cmd("Browser.setDownloadBehavior", {"behavior": "allow", "downloadPath": test.downloads})
    for button, ending, wanted in (("as-markdown", ".md", f"**{MARKED}**"), ("as-html", ".html", f"{NAME} (guest, {account})")):
        ann.click("export")
        ann.click(button)
        text = until(lambda: downloaded(test.downloads, ending)) or ""
        check(f"and the export as {ending}", wanted in text, text)


def downloaded(folder, ending):
    """The text of a file that was downloaded, or None as long as there is none: Chromium makes the file before it writes it."""
    for name in os.listdir(folder):
        if name.endswith(ending):
            with open(os.path.join(folder, name), encoding="utf-8") as file:
                return file.read() or None
    return None


def stays(test):
    """The guest's tab is loaded again, and the guest comes again by the same link."""
    ann, ben, check = test.ann, test.ben, test.check
    ben.driver.refresh()
    check("a page that is loaded again has the guest and the pad", is_in(ben, NAME), (ben.state, me(ben)))
    ben.begin(test.link)
    check("by the same link the browser knows the name", asks(ben) and ben.get("guest-name").get_property("value") == NAME, ben.get("guest-name").get_property("value"))
    ben.get("guest-name").send_keys(Keys.ENTER)
    check("and it is the same guest", is_in(ben, NAME) and until(lambda: [title for text, title in shown(ann, "#here li") if text == MARKED] == [f"{NAME} (guest, {test.account})"]), shown(ann, "#here li"))
    test.server.kill()
    check("without a connection the page says so", until(lambda: "offline" in ben.state), ben.state)
    test.server.start()
    check("when it is back, the guest is", until(lambda: "read and comment" in ben.state, 40) and ann.is_saved(40) and me(ben) == MARKED, (ben.state, me(ben)))


def several(test):
    """Two guests come by one link. Names are what they choose."""
    ann, eve, check = test.ann, test.eve, test.check
    check("another browser is another guest, also of the same name", come(eve, test.link, NAME), (eve.state, fault(eve)))
    hints = lambda: {title for text, title in shown(ann, "#here li") if text == MARKED}
    check("whom the owner can tell apart", until(lambda: len(hints()) == 2) and f"{NAME} (guest, {test.account})" in hints(), hints())
    eve.begin(test.link)
    asks(eve)
    eve.get("guest-name").clear()
    eve.get("guest-name").send_keys("ann" + Keys.ENTER)
    check("who takes the name of an account is still a guest", is_in(eve, "ann") and until(lambda: ["ann (guest)"] == [text for text, title in shown(ann, "#here li") if title.startswith("ann (guest")]), shown(ann, "#here li"))
    speak(ann, "de")
    ann.driver.refresh()
    until(lambda: ann.get("text").is_displayed() and ann.text == TEXT)
    check("and so it is in another language", until(lambda: {"ann (Gast)", f"{NAME} (Gast)", "ann"} <= {text for text, _ in shown(ann, "#here li")}), shown(ann, "#here li"))
    ann.run("localStorage.removeItem('language')")
    ann.driver.refresh()
    until(lambda: ann.get("text").is_displayed() and ann.text == TEXT)


def writes(test):
    """The owner gives the link another right."""
    ann, ben, check = test.ann, test.ben, test.check
    ann.click("rights")
    until(lambda: links(ann))
    set_right(ann, links(ann)[0], "write")
    check("guests may type once the link has the right to write", until(lambda: ben.run(MAY_TYPE), 20), ben.state)
    ann.keys(Keys.ESCAPE)
    ben.type("Painted in May.", units(TEXT))
    wanted = TEXT + "Painted in May."
    check("and the owner sees what they type", until(lambda: ann.text == wanted), ann.text)
    share = f"{MARKED}, {round(100 * 15 / len(wanted))} %"
    check("with the name in the legend", until(lambda: [share, test.account] in shown(ann, "#authors li")), shown(ann, "#authors li"))


def away(test):
    """The guest's page is loaded again without a connection."""
    ann, ben, check = test.ann, test.ben, test.check
    before = ben.text
    test.server.kill()
    until(lambda: "offline" in ben.state)
    ben.driver.refresh()
    check("without a connection the form says so", asks(ben) and until(lambda: "does not answer" in fault(ben)) and ben.get("guest-name").get_property("value") == NAME, fault(ben))
    check("and the pad that the browser keeps is there, with the guest's name", until(lambda: MARKED in ben.get("kept-pads").text), ben.get("kept-pads").text)
    ben.click_first("#kept-pads button")
    until(lambda: ben.text == before)
    ben.type("Or in June: ", 0)
    test.server.start()
    ben.click("log-in-again")
    check("what was typed meanwhile is sent once the guest is back", ben.is_saved(40) and until(lambda: ann.text == f"Or in June: {before}", 40), (ben.state, ben.text, ann.text))
    check("as the same guest", until(lambda: [MARKED, test.account] in [[text.partition(",")[0], title] for text, title in shown(ann, "#authors li")]) and me(ben) == MARKED, shown(ann, "#authors li"))
    ben.driver.refresh()
    check("and the tab has the guest again", is_in(ben, NAME, f"Or in June: {before}"), (ben.state, fault(ben)))


def revoked(test):
    """The owner ends the link."""
    ann, ben, eve, check = test.ann, test.ben, test.eve, test.check
    ann.click("rights")
    until(lambda: links(ann))
    set_right(ann, links(ann)[0], "none")
    for window, who in ((ben, "a guest"), (eve, "and another one")):
        check(f"{who} is shut out once the link has no right", until(lambda: "removed your access" in window.get("notice-text").text and not window.run(MAY_TYPE), 30), (window.get("notice-text").text, window.state))
    ann.keys(Keys.ESCAPE)
    ben.driver.refresh()
    check("and cannot come again", asks(ben) and until(lambda: "don't have access" in fault(ben)), fault(ben))
    test.shot(ben, "no-access")
    ben.get("guest-name").send_keys(Keys.ENTER)
    check("nor by another try", until(lambda: asks(ben) and "don't have access" in fault(ben)), fault(ben))
    check("what guests wrote stays theirs", until(lambda: any(text.startswith(MARKED) for text, _ in shown(ann, "#authors li"))), shown(ann, "#authors li"))


def logs_out(test):
    """A guest who logs out leaves the browser to others."""
    ann, ben, check = test.ann, test.ben, test.check
    ann.click("rights")
    until(lambda: ann.get("invite").is_displayed())
    ann.press(lambda: ann.all("#invite button")[0])
    until(lambda: ann.get("invite-link").get_property("value"))
    link = "#" + ann.get("invite-link").get_property("value").partition("#")[2]
    ann.keys(Keys.ESCAPE)
    ben.begin()
    check("a browser that was a guest's asks others for their account", until(lambda: ben.get("log-in").is_displayed() and not ben.get("guest").is_displayed()))
    ben.run("location.hash = arguments[0]", link)
    check("a link that is followed on the page is one, too", asks(ben) and link.partition(".")[2] not in ben.driver.current_url, ben.driver.current_url)
    ben.get("guest-name").send_keys("Ben" + Keys.ENTER)
    check("and opens its pad", until(lambda: me(ben) == "Ben (guest)"), (me(ben), fault(ben)))
    first = shown(ben, "#here .is-me")[0][1]
    ben.click("log-out")
    check("a guest can log out", until(lambda: ben.get("log-in").is_displayed()) and ben.driver.current_url == ben.url, ben.driver.current_url)
    check("and the browser forgets who it was", ben.run(KEPT) == [[], []], ben.run(KEPT))
    ben.begin(link)
    check("so the name is asked anew", asks(ben) and ben.get("guest-name").get_property("value") == "", ben.get("guest-name").get_property("value"))
    ben.get("guest-name").send_keys("Ben" + Keys.ENTER)
    check("and it is another guest", until(lambda: me(ben) == "Ben (guest)") and shown(ben, "#here .is-me")[0][1] != first, shown(ben, "#here .is-me"))
    faults = [one for window in (ann, ben, test.eve) for one in window.faults() if "ERR_" not in one]
    check("and no fault is reported of all this", not faults, faults)


def wrong(test):
    """Links that are none."""
    eve, check = test.eve, test.check
    for broken in ("#guest=minutes", "#guest=minutes.short", "#guest=Minutes.AAAAAAAAAAAAAAAAAAAAAA", "#guest="):
        eve.begin(broken)
        said = until(lambda: eve.get("log-in-error").text)
        check(f"a link that is cut off is said to be wrong: {broken}", said == "This link is not complete. Ask for it again." and "guest=" not in eve.driver.current_url, (said, eve.driver.current_url))
    for link in ("#guest=minutes.AAAAAAAAAAAAAAAAAAAAAA", "#guest=nowhere.AAAAAAAAAAAAAAAAAAAAAA"):
        eve.begin(link)
        asks(eve)
        eve.get("guest-name").send_keys("Eve" + Keys.ENTER)
        check(f"a link that nobody made opens nothing: {link}", until(lambda: asks(eve) and "don't have access" in fault(eve)), fault(eve))


def small(test):
    """On a phone, in each language."""
    ann, eve, check = test.ann, test.eve, test.check
    for window in (ann, eve):
        narrow(window)
    for language, word in (("de", "Gast"), ("fr", "invité"), ("es", "invitado"), ("en", "guest")):
        for window in (ann, eve):
            speak(window, language)
        eve.begin(test.link)
        seen = asks(eve), eve.run(WIDTH), word in eve.get("guest").text.lower() or word in eve.get("guest").text
        check(f"in 360 pixels the form for guests fits, in {language}", seen == (True, 360, True), seen)
        ann.driver.refresh()
        until(lambda: ann.get("text").is_displayed())
        ann.click("tools-button")
        ann.click("rights")
        until(lambda: ann.get("invite").is_displayed())
        ann.press(lambda: ann.all("#invite button")[0])
        until(lambda: ann.get("invite-link").get_property("value"))
        seen = ann.run("const box = document.getElementById('rights-box'); return [document.documentElement.scrollWidth, box.scrollWidth <= box.clientWidth]")
        check(f"and so does the dialog of rights, in {language}", seen == [360, True], seen)
        test.shot(ann, f"invite-{language}")
        ann.keys(Keys.ESCAPE)
    for window in (ann, eve):
        narrow(window, False)


def without(test, program):
    """A server that takes no guests."""
    eve, check = test.eve, test.check
    with tempfile.TemporaryDirectory() as home:
        server = Server(program, home)
        try:
            ann = Line(server.port, "ann", "t1")
            ann.ask(do="create", pad="minutes")
            eve.url = server.url
            eve.begin("#guest=minutes.AAAAAAAAAAAAAAAAAAAAAA")
            asks(eve)
            eve.get("guest-name").send_keys("Eve" + Keys.ENTER)
            check("a server without --guests says so", until(lambda: asks(eve) and fault(eve) == "This server takes no guests."), fault(eve))
            eve.log_in("ann", "t1")
            eve.open("minutes")
            eve.click("rights")
            until(lambda: eve.get("invite").is_displayed())
            eve.press(lambda: eve.all("#invite button")[0])
            said = until(lambda: eve.get("grant-error").text)
            check("and to an owner who invites", said == "This server takes no guests." and not eve.get("invited").is_displayed(), said)
            check("and then no link is made", [name for name, _ in ann.ask(do="rights", pad="minutes")["rights"]] == ["ann"], ann.ask(do="rights", pad="minutes"))
        finally:
            server.end()


def play(program, folder, tally):
    with tempfile.TemporaryDirectory() as home, tempfile.TemporaryDirectory() as downloads:
        server = Server(program, home, ["--guests"])
        test = None
        try:
            test = Guests(server, folder, tally, downloads)
            for part in (invites, comes, comments, stays, several, writes, away, revoked, logs_out, wrong, small):
                part(test)
            without(test, program)
        finally:
            if test:
                test.end()
            server.end()


if __name__ == "__main__":
    sys.exit(play_all(play, sys.argv[1:]))
