"""What a pad looks like in the dark, on a phone and on paper, and the files that it is exported to."""
import os

from page_checks import drawn_lines, plain
from windows import until


def exports(test, downloads):
    ann, check = test.ann, test.check
    ann.driver.execute_cdp_cmd("Browser.setDownloadBehavior", {"behavior": "allow", "downloadPath": downloads})
    for button, ending in (("as-text", ".txt"), ("as-markdown", ".md")):
        ann.click("export")
        ann.click(button)
        name = until(lambda: next((name for name in os.listdir(downloads) if name.endswith(ending)), None))
        text = ""
        if name:
            with open(os.path.join(downloads, name), encoding="utf-8", newline="") as file:
                text = file.read()
        check(f"{ending}: the pad is exported", text == ann.text if ending == ".txt" else "[^1]: **ann**" in text and "<sup>bob</sup>" in text, text)


def looks(test):
    ann, bob, check = test.ann, test.bob, test.check
    plain(test, ann, "the pad")
    ann.dark()
    test.shot(ann, "dark")
    ann.dark(False)
    check("lines are drawn like those of a new page", drawn_lines(ann) == "", drawn_lines(ann))
    bob.driver.execute_cdp_cmd("Emulation.setDeviceMetricsOverride", {"width": 375, "height": 740, "deviceScaleFactor": 2, "mobile": True})
    check("a phone's width is enough", until(lambda: bob.run("return document.documentElement.scrollWidth <= innerWidth")), bob.run("return [document.documentElement.scrollWidth, innerWidth]"))
    test.shot(bob, "phone")
    bob.driver.execute_cdp_cmd("Emulation.clearDeviceMetricsOverride", {})
    bob.driver.execute_cdp_cmd("Emulation.setEmulatedMedia", {"media": "print"})
    bob.run("dispatchEvent(new Event('beforeprint'))")
    seen = [name for name in ("bar", "keys", "text", "print-head") if bob.get(name).is_displayed()]
    check("a print has a head and the text only", seen == ["text", "print-head"], seen)
    test.shot(bob, "print")
    bob.driver.execute_cdp_cmd("Emulation.setEmulatedMedia", {"media": ""})
    for window in (ann, bob):
        faults = window.faults()
        check("the browser reports no fault", not faults, faults)
