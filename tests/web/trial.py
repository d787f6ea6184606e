"""A trial of several windows before one server, of which each check is told and counted; and what such trials look at."""
from windows import BROKEN, Window, until

# What is shown of each element, and its hint.
SHOWN = "return [...document.querySelectorAll(arguments[0])].map((node) => [node.textContent, node.title])"
MAY_TYPE = "return document.getElementById('text').isContentEditable"
PHONE = {"width": 360, "height": 740, "deviceScaleFactor": 2, "mobile": True}
WIDTH = "return document.documentElement.scrollWidth"


class Trial:
    """A server, and some windows by their names. `tally` counts the checks that hold and those that do not."""

    def __init__(self, server, folder, tally, names):
        self.server, self.folder, self.tally = server, folder, tally
        self.windows = []
        for name in names:
            self.windows.append(Window(server.url))
            setattr(self, name, self.windows[-1])

    def check(self, name, holds, seen=None):
        self.tally[bool(holds)] += 1
        print("ok     " if holds else "FAILED ", name, "" if holds or seen is None else repr(seen)[:600], flush=True)

    def shot(self, window, name):
        if self.folder:
            window.shot(self.folder, name)

    def end(self):
        for window in self.windows:
            try:
                window.quit()
            except BROKEN:  # it is gone already
                pass


def shown(window, selector):
    return window.run(SHOWN, selector)


def open_rights(window):
    """Opens the dialog of rights, as an owner sees it."""
    window.click("rights")
    return until(lambda: window.get("rights-box").is_displayed())


def narrow(window, is_narrow=True):
    """The window of a phone, or as it was before."""
    if is_narrow:
        window.driver.execute_cdp_cmd("Emulation.setDeviceMetricsOverride", PHONE)
    else:
        window.driver.execute_cdp_cmd("Emulation.clearDeviceMetricsOverride", {})


def speak(window, language):
    """The page's next words in this window are of this language, once it is loaded again."""
    window.run("localStorage.setItem('language', arguments[0])", language)
