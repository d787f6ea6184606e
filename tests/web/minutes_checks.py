"""Minutes as they are seen: beside the text and in its place, with boxes that tick in the pad, on paper, and as a file."""
import base64
import os
import re
import subprocess
import time

from keyboard import make, open_pad, saved, text_of
from page_checks import plain
from windows import Keys, Line, until

PAD = """# Minutes of the harbour council

Present: Ann, **Bob**.

## 1. Crane

- [ ] Bob asks for *three* offers
- [x] Ann writes

## 2. Ferry

| Boat | Leaves |
|------|--------|
| Ada  | 7:40   |

<script>window.hacked = 1</script> <img src=x onerror="window.hacked = 1">
"""
HTML = "return [...document.querySelectorAll('#minutes .leaf')].map(leaf => leaf.innerHTML).join('')"
BOXES = "return [...document.querySelectorAll('#minutes input')].map(box => [box.checked, box.getAttribute('aria-label'), box.disabled])"
TOPS = """
const [words] = arguments, at = (root) => [...document.querySelectorAll(root)].find((node) => node.textContent.includes(words)).getBoundingClientRect().top;
return [at('#text .line'), at('#minutes .leaf')];
"""
# The box of these words, wherever it is by then.
PRESS = "[...document.querySelectorAll('#minutes input')].find((box) => box.getAttribute('aria-label').startsWith(arguments[0])).click()"


def views(test):
    ann, check = test.ann, test.check
    bob = make(test, "as-minutes", PAD)
    check("a pad is seen as a text first", ann.get("text").is_displayed() and not ann.get("minutes").is_displayed())
    heads = ann.run("return [...document.querySelectorAll('#text .md-heading')].map(line => line.textContent)")
    check("in which headings look like headings", heads == ["# Minutes of the harbour council", "## 1. Crane", "## 2. Ferry"], heads)
    ann.click("view-both")
    html = lambda: ann.run(HTML)
    check("minutes are shown beside the text", until(lambda: "<h2" in html() and "<table>" in html()) and ann.get("text").is_displayed(), html())
    check("without markup of authors", "&lt;script&gt;" in html() and not ann.run("return window.hacked ?? document.querySelector('#minutes :is(script, img)')"), html())
    bob.ask(do="insert", pad="as-minutes", rev=1, at=0, text="Draft\n\n")
    check("they follow what others type", until(lambda: ">Draft</p>" in html()), html()[:80])
    check("boxes are as the text says", ann.run(BOXES) == [[False, "Bob asks for three offers", False], [True, "Ann writes", False]], ann.run(BOXES))
    bob.ask(do="insert", pad="as-minutes", rev=2, at=0, text="More.\n\n- [ ] another\n")
    ann.run(PRESS, "Bob asks")
    wanted = "More.\n\n- [ ] another\nDraft\n\n" + PAD.replace("[ ] Bob", "[x] Bob")
    check("a box ticks in the pad, also where others typed before it", saved(test, bob, "as-minutes", wanted), text_of(bob, "as-minutes"))
    ann.run("document.getElementById('text').focus()")
    ann.keys("z", held=[Keys.CONTROL])
    check("and one step takes that back", saved(test, bob, "as-minutes", wanted.replace("[x] Bob", "[ ] Bob")), text_of(bob, "as-minutes"))
    plain(test, ann, "text and minutes")
    test.shot(ann, "both")
    ann.click("view-minutes")
    check("minutes are shown in place of the text", until(lambda: ann.get("minutes").is_displayed() and not ann.get("text").is_displayed()))
    plain(test, ann, "minutes")
    test.shot(ann, "minutes")
    rights = Line(test.server.port, "ann", "t1")
    rights.ask(do="join", pad="as-minutes")
    ann.click("outline")
    names = ann.run("return [...document.querySelectorAll('#headings button')].map(button => button.textContent)")
    check("the outline lists the headings", names == ["Minutes of the harbour council", "1. Crane", "2. Ferry"], names)
    ann.press(lambda: ann.all("#headings button")[2])
    focused = lambda: ann.run("return document.activeElement.textContent")
    check("and goes to one in the minutes", until(lambda: focused() == "2. Ferry"), focused())
    ann.click("view-text")
    ann.click("outline")
    ann.press(lambda: ann.all("#headings button")[1])
    ann.keys(Keys.HOME, "Z")
    check("or in the text", until(lambda: "Z## 1. Crane" in ann.text), ann.text)
    ann.keys(Keys.BACKSPACE)
    ann.is_saved()


def scrolled(test):
    ann, check = test.ann, test.check
    text = "".join(f"## Item {number}\n\nwords of item {number}\n\n{'a longer paragraph of words. ' * 6}\n\n" for number in range(40))
    make(test, "scrolled", text)
    ann.click("view-both")
    until(lambda: "Item 39" in ann.run(HTML))
    ann.run("document.getElementById('paper').dispatchEvent(new Event('pointerenter'))")
    ann.run("[...document.querySelectorAll('#text .line')].find((line) => line.textContent === '## Item 20').scrollIntoView(); scrollBy(0, -150)")
    near = lambda: abs(ann.run(TOPS, "Item 20")[0] - ann.run(TOPS, "Item 20")[1])
    check("the minutes scroll with the text", until(lambda: near() < 160), ann.run(TOPS, "Item 20"))
    ann.run("document.getElementById('minutes').dispatchEvent(new Event('pointerenter')); [...document.querySelectorAll('#minutes .leaf')].find((leaf) => leaf.textContent.trim() === 'Item 33').scrollIntoView()")
    far = lambda: abs(ann.run(TOPS, "Item 33")[0] - ann.run(TOPS, "Item 33")[1])
    check("and the text with the minutes", until(lambda: far() < 160), ann.run(TOPS, "Item 33"))
    ann.click("view-text")
    check("who goes from one view to another stays at the place", until(lambda: 0 < ann.run(TOPS, "Item 33")[0] < 500), ann.run(TOPS, "Item 33"))


def written(test):
    ann, check = test.ann, test.check
    bob = make(test, "written", "Agenda\n")
    ann.select(0)
    ann.click("heading")
    ann.keys(Keys.END, Keys.ENTER, "- [ ] first", Keys.ENTER, "second", Keys.ENTER, Keys.TAB, "inner", Keys.ENTER, Keys.TAB, "deep")
    ann.keys(Keys.TAB, held=[Keys.SHIFT])
    ann.keys(Keys.ENTER, Keys.ENTER, "end")
    wanted = "# Agenda\n- [ ] first\n- [ ] second\n    - [ ] inner\n    - [ ] deep\nend\n"
    check("Enter and Tab go on with a list", saved(test, bob, "written", wanted), ann.text)
    end = ann.text.rindex("end")
    ann.select(end, end + 3)
    ann.keys("b", held=[Keys.CONTROL])
    ann.keys("i", held=[Keys.CONTROL])
    check("keys make words strong and emphasized", saved(test, bob, "written", wanted.replace("\nend", "\n***end***")), ann.text)
    ann.keys("z", held=[Keys.CONTROL])
    ann.keys("z", held=[Keys.CONTROL])
    check("which steps take back", saved(test, bob, "written", wanted), ann.text)
    ann.select(ann.text.index("deep"))
    ann.keys(Keys.ESCAPE, Keys.TAB)
    check("behind Escape, Tab leaves the text", ann.run("return document.activeElement.id") != "text", ann.run("return document.activeElement.id"))
    ann.select(ann.text.index("Agenda"))
    ann.keys(Keys.TAB)
    check("and so it does where there is no list", ann.run("return document.activeElement.id") != "text" and ann.text == wanted, ann.text)
    ann.run("document.getElementById('text').focus()")
    ann.select(end, end + 3)
    for name in ("bold", "list", "task", "link"):
        ann.click(name)
    check("and buttons do all of it", saved(test, bob, "written", wanted.replace("\nend", "\n- [ ] **[end](https://)**")), ann.text)


def on_paper(test):
    """The minutes as a PDF, whose words are read."""
    ann, check = test.ann, test.check
    make(test, "on-paper", PAD.replace("## 2. Ferry", "## 2. Ferry\n\n" + "A paragraph of many words, so that there are several pages. " * 150))
    ann.run("window.print = () => { window.printed = document.body.className }")
    ann.keys("p", held=[Keys.CONTROL])
    check("Ctrl+P waits for the minutes", until(lambda: "prints-minutes" in (ann.run("return window.printed") or "")), ann.run("return window.printed"))
    ann.run("dispatchEvent(new Event('beforeprint'))")
    data = ann.driver.execute_cdp_cmd("Page.printToPDF", {"preferCSSPageSize": True})["data"]
    path = os.path.join(test.server.folder, "minutes.pdf")
    with open(path, "wb") as file:
        file.write(base64.b64decode(data))
    try:
        words = subprocess.run(["pdftotext", "-layout", path, "-"], stdout=subprocess.PIPE, text=True, check=True).stdout
    except FileNotFoundError:
        words = None
    if words is not None:
        pages = words.count("\f")
        check("pages have numbers", pages > 2 and all(re.search(rf"^\s*{page} ?/ ?{pages}\s*$", words, re.M) for page in range(1, pages + 1)), words[-200:])
        check("above the minutes are revision, date and participants", "on-paper, revision 1" in words and "Participants: ann" in words, words[:300])
        check("and they are rendered", "**" not in words and "##" not in words and "Bob" in words and "<script>" in words, words[:300])
    ann.run("dispatchEvent(new Event('afterprint'))")


def as_file(test, downloads):
    ann, check = test.ann, test.check
    make(test, "as-file", PAD)
    ann.driver.execute_cdp_cmd("Browser.setDownloadBehavior", {"behavior": "allow", "downloadPath": downloads})
    ann.click("export")
    ann.click("as-html")
    name = until(lambda: next((name for name in os.listdir(downloads) if name.endswith(".html")), None))
    text = ""
    if name:
        with open(os.path.join(downloads, name), encoding="utf-8") as file:
            text = file.read()
    check("the minutes are exported as a file of HTML", name == "as-file-1.html" and "<h2" in text and "<table>" in text, text[:400])
    away = re.findall(r"<(?:script|img|link|iframe)\b|<[^>]*\ssrc=|url\(", text)
    check("that needs nothing else, and runs nothing", not away and "default-src 'none'" in text, away)
    check("with boxes, date and participants", text.count("<input") == 2 and "checked" in text and "Participants: ann" in text, text[:400])
    ann.driver.get("file://" + os.path.join(downloads, name or ""))
    seen = ann.run("return [document.querySelectorAll('h1').length, document.querySelector('h2').textContent, getComputedStyle(document.body).maxWidth, window.hacked ?? null]")
    check("and opens by itself", seen == [1, "1. Crane", "748px", None] or (seen[0] == 1 and seen[3] is None and seen[2] != "none"), seen)


def minutes(test, downloads):
    for part in (views, scrolled, written, on_paper):
        part(test)
    as_file(test, downloads)
    faults = test.ann.faults()
    test.check("and no fault is reported of all this", not faults, faults)
