#!/usr/bin/env python3
"""A window of headless Chromium on a page behind a single sign-on:

    tests/web/user_window.py URL

The server has the author ann for the user ann@school.example, and none for eve@school.example. URL/oauth2/start?who=USER logs the
browser in as USER. The last line is `N passed, M failed`.
"""
import sys

from windows import Keys, Window, until


def main(url):
    window, counts = Window(url), {True: 0, False: 0}

    def check(name, holds, seen=None):
        counts[bool(holds)] += 1
        print("ok     " if holds else "FAILED ", name, "" if holds else repr(seen)[:300])

    def is_shown(name):
        return window.get(name).is_displayed()

    try:
        window.driver.get(f"{url}oauth2/start?who=eve@school.example")
        check("eve, who has no line, is told so", until(lambda: "eve@school.example" in window.get("log-in-error").text), window.get("log-in-error").text)
        check("she is shown the form", is_shown("log-in"), window.state)
        window.driver.get(f"{url}oauth2/start?who=ann@school.example")
        check("ann is on the list of pads without a form", until(lambda: is_shown("choose")) and not is_shown("log-in"), window.state)
        check("as herself", until(lambda: window.get("state").text == "Logged in as Ann Example"), window.get("state").text)
        check("and has no button to log out", not is_shown("log-out"), window.state)
        check("she creates a pad", window.open("shared", "create") and window.is_saved(), window.state)
        window.type("Typed by ann." + Keys.ENTER, 0)
        check("what she types is saved", until(lambda: window.text == "Typed by ann.\n") and window.is_saved(), (window.text, window.state))
        check("nothing of the log-in is kept in the tab", window.run("return sessionStorage.getItem('log-in')") is None)
        window.driver.refresh()
        check("a reload goes on as ann", until(lambda: window.text == "Typed by ann.\n") and window.is_saved(), (window.text, window.state))
        check("the form does not come back", not is_shown("log-in"), window.state)
    finally:
        window.quit()
    print(f"{counts[True]} passed, {counts[False]} failed")
    return int(counts[False] > 0)


if __name__ == "__main__":
    sys.exit(main(sys.argv[1]))
