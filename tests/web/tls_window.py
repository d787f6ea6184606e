#!/usr/bin/env python3
"""A window of headless Chromium on a page behind TLS, whose certificate nobody signed:

    tests/web/tls_window.py URL

The server has the account `author ann tann`. The last line is `N passed, M failed`.
"""
import sys

from windows import Keys, Window, until


def main(url):
    window, counts = Window(url, "--ignore-certificate-errors"), {True: 0, False: 0}

    def check(name, holds, seen=None):
        counts[bool(holds)] += 1
        print("ok     " if holds else "FAILED ", name, "" if holds else repr(seen)[:300])

    try:
        check("ann logs in over a socket within TLS", window.log_in("ann", "tann"), window.get("log-in-error").text)
        check("she creates a pad", window.open("secret", "create") and window.is_saved(), window.state)
        window.type("Typed over TLS." + Keys.ENTER, 0)
        check("what she types is saved", until(lambda: window.text == "Typed over TLS.\n") and window.is_saved(), (window.text, window.state))
        is_secure = window.run("return isSecureContext && location.protocol === 'https:'")
        check("the page is secure", is_secure, is_secure)
        faults = window.faults()
        check("the browser reports no fault", not faults, faults)
    finally:
        window.quit()
    print(f"{counts[True]} passed, {counts[False]} failed")
    return int(counts[False] > 0)


if __name__ == "__main__":
    sys.exit(main(sys.argv[1]))
