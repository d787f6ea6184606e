"""A whole day's work on the page, done three times: by keyboard alone, by the accessibility tree, and in a window 360 pixels wide.

Each logs in, creates a pad, writes headings and tasks, comments, suggests, accepts, restores, exports, prints, and finds the
pad again. The first presses keys only. The second finds each control by its role and its name, as a screen reader tells them.
The third clicks what is seen, without a keyboard for it, and nothing may be wider than the window.
"""
import os
import tempfile

from keyboard import text_of
from windows import Keys, Line, Window, until

FOCUS = "return document.activeElement?.id || document.activeElement?.className || document.activeElement?.textContent"
FOCUS_WORDS = "return document.activeElement?.textContent ?? ''"
# The pad of the line that was found, and has the keyboard.
FOUND_IN = "return document.activeElement.closest('#texts-found section')?.querySelector('h3').textContent ?? null"
WRITTEN = "# Crane\n- [ ] Ann asks for offers\n- [ ] Bob writes\n\nThe crane is grey"
# The controls of the day by their ids, with the roles and names that a screen reader tells.
CONTROLS = {
    "name": ("textbox", "Name"), "token": ("textbox", "Token"), "log-in": ("button", "Log in"),
    "pad": ("textbox", "Open or create"), "create": ("button", "Create"), "text": ("textbox", "Text of the pad"),
    "heading": ("button", "Heading"), "task": ("button", "Task"),
    "comment": ("button", "Comment"), "comment-text": ("textbox", "Your comment"), "send": ("button", "Send"),
    "suggest": ("button", "Suggest"), "suggest-words": ("textbox", "Instead of “grey”"),
    "history": ("button", "History"), "older": ("button", "One revision earlier"), "restore": ("button", "Restore"),
    "export": ("button", "Export"), "as-html": ("button", "Minutes, as a web page (HTML)"), "print": ("button", "Print"),
    "close": ("button", "Close"), "pads-search": ("searchbox", "Search your pads"), "find-words": ("searchbox", "Find in the text"),
}
SELECTORS = {"log-in": "#log-in button.strong", "send": "#comment-box button[value=send]"}


class Keyboard:
    """Presses keys only. A control is reached by Tab, and pressed by Enter."""

    name, width = "by keyboard", 1280

    def __init__(self, window):
        self.window = window

    def reach(self, control, most=90):
        """Goes to a control by Tab. Escape leaves a list in the text."""
        for key in (Keys.ESCAPE, *[Keys.TAB] * most):
            if self.window.run("return document.activeElement.matches(arguments[0])", SELECTORS.get(control, f"#{control}")):
                return
            if key == Keys.ESCAPE and self.window.run("return document.activeElement.id") != "text":
                continue
            self.window.keys(key)
        raise AssertionError(f"{control} is not reached by Tab, but {self.window.run(FOCUS)!r}")

    def fill(self, control, words):
        self.reach(control)
        self.window.keys(words)

    def press(self, control):
        self.reach(control)
        self.window.keys(Keys.ENTER)

    def make_heading(self):
        self.window.keys("7", held=[Keys.CONTROL, Keys.SHIFT])

    def make_task(self):
        self.window.keys("9", held=[Keys.CONTROL, Keys.SHIFT])

    def card_button(self, words, about):
        """Goes to the next comment, and to the button on its card."""
        self.window.keys("n", held=[Keys.CONTROL, Keys.ALT])
        for _ in range(6):
            if self.window.run(FOCUS_WORDS) == words:
                self.window.keys(Keys.ENTER)
                return
            self.window.keys(Keys.TAB)
        raise AssertionError(f"no {words} is reached by Tab, but {self.window.run(FOCUS)!r}")

    def select_last_word(self):
        """In the text: End of the text, and then a word to the left."""
        self.reach("text")
        self.window.keys(Keys.END, held=[Keys.CONTROL])
        self.window.keys(Keys.LEFT, held=[Keys.CONTROL, Keys.SHIFT])


class Tree(Keyboard):
    """Finds controls by role and name in the accessibility tree, and acts on them as a screen reader does."""

    name = "by the accessibility tree"

    def node(self, role, name):
        def found():
            tree = self.window.driver.execute_cdp_cmd("Accessibility.getFullAXTree", {})["nodes"]
            fits = lambda one: not one.get("ignored") and one.get("role", {}).get("value") == role and one.get("name", {}).get("value") == name
            return [one for one in tree if fits(one)]

        nodes = until(found, 8)
        if not nodes:
            raise AssertionError(f"the accessibility tree has no {role} {name!r}")
        return nodes[0]["backendDOMNodeId"]

    def act(self, role, name, function):
        node = self.node(role, name)
        answer = self.window.driver.execute_cdp_cmd("DOM.resolveNode", {"backendNodeId": node})
        given = {"objectId": answer["object"]["objectId"], "functionDeclaration": function, "userGesture": True}
        self.window.driver.execute_cdp_cmd("Runtime.callFunctionOn", given)

    def reach(self, control, most=0):
        self.act(*CONTROLS[control], "function () { this.focus(); }")

    def press(self, control):
        self.act(*CONTROLS[control], "function () { this.click(); }")

    def make_heading(self):
        self.press("heading")

    def make_task(self):
        self.press("task")

    def card_button(self, words, about):
        """The button's name says which words it is about."""
        self.act("button", f"{words}: {about}", "function () { this.click(); }")


class Phone(Keyboard):
    """Clicks what is seen in a narrow window. What is covered or outside cannot be clicked."""

    name, width = "in 360 pixels", 360

    def __init__(self, window):
        super().__init__(window)
        metrics = {"width": 360, "height": 740, "deviceScaleFactor": 2, "mobile": True}
        window.driver.execute_cdp_cmd("Emulation.setDeviceMetricsOverride", metrics)

    def element(self, control):
        return self.window.all(SELECTORS.get(control, f"#{control}"))[0]

    def reach(self, control, most=0):
        self.press(control)

    def press(self, control):
        if self.window.run("return document.querySelector('#tools').contains(document.getElementById(arguments[0]))", control):
            if not self.element(control).is_displayed():
                self.window.click("tools-button")
        self.window.press(lambda: self.element(control))

    def make_heading(self):
        self.press("heading")

    def make_task(self):
        self.press("task")

    def card_button(self, words, about):
        """The comments are a sheet, which is opened and closed."""
        self.press("comments-button")
        self.window.press(lambda: [one for one in self.window.all("#margin .card button") if one.text == words][0])
        if self.window.get("comments-close").is_displayed():
            self.window.click("comments-close")

    def select_last_word(self):
        """As the handles of a phone's selection do."""
        text = self.window.text
        self.window.select(text.rindex(" ") + 1, len(text))


class Day:
    """The day of one author."""

    def __init__(self, test, way, downloads):
        self.test, self.way, self.window, self.downloads = test, way, way.window, downloads
        self.pad = {Keyboard: "day-keys", Tree: "day-tree", Phone: "day-phone"}[type(way)]

    def check(self, words, holds, seen=None):
        self.test.check(f"{self.way.name}: {words}", holds, seen)
        if self.way.width < 400:
            wide = self.window.run("return [document.documentElement.scrollWidth, innerWidth]")
            if wide[0] > self.way.width:
                self.test.check(f"{self.way.name}: {words}: nothing is wider than the window", False, wide)

    def saved(self, wanted):
        return until(lambda: self.window.text == wanted and text_of(self.line, self.pad) == wanted)

    def log_in(self):
        way, window = self.way, self.window
        window.driver.get(window.url)
        until(lambda: window.get("name").is_displayed())
        way.fill("name", "ann")
        way.fill("token", "t1")
        way.press("log-in")
        self.check("an author logs in", until(lambda: window.get("choose").is_displayed()), window.get("log-in-error").text)
        way.fill("pad", self.pad)
        way.press("create")
        self.check("creates a pad", until(lambda: window.get("text").is_displayed() and window.get("pad-name").text == self.pad))
        self.line = Line(self.test.server.port, "ann", "t1")
        self.line.ask(do="join", pad=self.pad)

    def write(self):
        way, window = self.way, self.window
        way.reach("text")
        window.keys("Crane")
        way.make_heading()
        window.keys(Keys.END, Keys.ENTER, "Ann asks for offers")
        way.make_task()
        window.keys(Keys.END, Keys.ENTER, "Bob writes", Keys.ENTER, Keys.ENTER, Keys.ENTER, "The crane is grey")
        self.check("writes a heading and tasks", self.saved(WRITTEN), window.text)
        self.test.shot(window, f"{self.pad}-written")

    def comment(self):
        way, window = self.way, self.window
        way.select_last_word()
        way.press("comment")
        until(lambda: window.get("comment-text").is_displayed())
        way.fill("comment-text", "Which grey?")
        self.test.shot(window, f"{self.pad}-comment")
        way.press("send")
        texts = lambda: [one["text"] for one in self.line.ask(do="comments", pad=self.pad)["comments"]]
        self.check("comments on words", until(lambda: texts() == ["Which grey?"]), texts())
        way.card_button("Resolve", "Which grey?")
        self.check("and resolves it", until(lambda: self.line.ask(do="comments", pad=self.pad)["comments"][0]["resolved"]))

    def suggest(self):
        way, window = self.way, self.window
        way.press("suggest")
        way.select_last_word()
        window.keys("r")
        until(lambda: window.get("suggest-words").is_displayed())
        window.keys("ed")
        self.test.shot(window, f"{self.pad}-suggest")
        window.keys(Keys.ENTER)
        texts = lambda: [one["text"] for one in self.line.ask(do="comments", pad=self.pad)["comments"]][1:]
        self.check("suggests other words", until(lambda: texts() == ['Suggestion: "grey" → "red"']), texts())
        self.check("which are not the text yet", text_of(self.line, self.pad) == WRITTEN == window.text, window.text)
        way.press("suggest")
        way.card_button("Accept", "red")
        self.check("accepts them", self.saved(WRITTEN.replace("grey", "red")), window.text)

    def restore(self):
        way, window = self.way, self.window
        made = lambda: window.get("rev-made").text
        way.press("history")
        until(made)
        for _ in range(3):  # the change, and the suggestion and its resolution before it
            before = made()
            way.press("older")
            until(lambda: made() != before)
        self.test.shot(window, f"{self.pad}-history")
        way.press("restore")
        self.check("restores a revision", self.saved(WRITTEN), window.text)

    def give_out(self):
        way, window = self.way, self.window
        window.driver.execute_cdp_cmd("Browser.setDownloadBehavior", {"behavior": "allow", "downloadPath": self.downloads})
        way.press("export")
        way.press("as-html")
        files = lambda: [name for name in os.listdir(self.downloads) if name.startswith(self.pad) and name.endswith(".html")]
        until(files)
        text = ""
        for name in files():
            with open(os.path.join(self.downloads, name), encoding="utf-8") as file:
                text = file.read()
        self.check("exports minutes", "<h1" in text and text.count('type="checkbox"') == 2 and "The crane is grey" in text, text[-600:])
        window.run("window.print = () => { window.printed = document.body.className }")
        way.press("export")
        way.press("print")
        self.check("and prints them", until(lambda: "prints-minutes" in (window.run("return window.printed") or "")))
        window.run("dispatchEvent(new Event('afterprint'))")

    def find_again(self):
        way, window = self.way, self.window
        way.press("close")
        until(lambda: window.get("choose").is_displayed())
        line = lambda: next((one for one in window.get("pads").text.split("\n") if "last: " in one and "ann" in one), "")
        self.check("closes it, and sees in the list who changed it last", until(line), window.get("pads").text)
        self.test.shot(window, f"{self.pad}-list")
        way.fill("pads-search", "crane is grey" + Keys.ENTER)
        found = lambda: window.run("return [...document.querySelectorAll('#texts-found section')].map((one) => one.innerText.replace(/\\s+/g, ' '))")
        mine = lambda: [one for one in found() if one.startswith(f"{self.pad} ") and "Line 5" in one]
        self.check("finds its words among all pads", until(lambda: mine() and "found" in window.get("texts-state").text), (found(), window.get("texts-state").text))
        self.test.shot(window, f"{self.pad}-found")
        for _ in range(60):
            window.keys(Keys.TAB)
            if window.run(FOUND_IN) == self.pad:
                break
        window.keys(Keys.ENTER)
        self.check("and opens it at them", until(lambda: window.get("find-words").get_property("value") == "crane is grey" and window.get("find-count").text == "1 of 1"), window.run(FOCUS))

    def work(self):
        for part in (self.log_in, self.write, self.comment, self.suggest, self.restore, self.give_out, self.find_again):
            try:
                part()
            except Exception as error:  # the day ends here
                self.test.shot(self.window, f"{self.pad}-failed")
                self.check(part.__name__, False, error)
                return
        faults = self.window.faults()
        self.check("and the browser reports no fault", not faults, faults)


def languages(test):
    """What is longer in another language has room in a narrow window, too."""
    window = Window(test.server.url)
    phone = Phone(window)
    line = Line(test.server.port, "ann", "t1")
    line.ask(do="create", pad="narrow")
    line.ask(do="insert", pad="narrow", rev=0, at=0, text="# Narrow\n\n- [ ] a task\n")
    line.ask(do="comment", pad="narrow", rev=1, at=2, len=6, text="a remark")
    width = lambda: window.run("return document.documentElement.scrollWidth")
    try:
        for language in ("de", "fr", "es", "en"):
            window.driver.get(window.url)
            window.run("localStorage.setItem('language', arguments[0])", language)
            window.log_in("ann", "t1")
            seen = [(window.run("return document.documentElement.lang"), width())]
            window.open("narrow")
            window.click("tools-button")
            seen.append(("menu", width()))
            test.shot(window, f"narrow-{language}")
            for control in ("comments-button", "history", "find"):
                phone.press(control)
                until(lambda: window.run("return document.body.getAnimations({ subtree: true }).length === 0"))
                seen.append((control, width()))
                if control == "comments-button":
                    window.click("comments-close")
            test.check(f"in 360 pixels: {language} has room", seen[0][0] == language and all(wide <= 360 for _, wide in seen), seen)
    finally:
        window.quit()


def whole_day(test):
    for kind in (Keyboard, Tree, Phone):
        window = Window(test.server.url, width=1280, height=860)
        with tempfile.TemporaryDirectory() as downloads:
            try:
                Day(test, kind(window), downloads).work()
            finally:
                window.quit()
    languages(test)
