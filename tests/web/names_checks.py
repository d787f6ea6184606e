"""Display names: what the page shows in place of an author's name, with the name as a hint, and where it keeps to the name."""
import os

from births_checks import CARD, away, point
from page_checks import plain
from windows import Keys, Line, until

# What is shown of each element, and its hint.
SHOWN = "return [...document.querySelectorAll(arguments[0])].map((node) => [node.textContent, node.title])"
DISPLAY = "Zed <i>of</i> the Fen ✎"


def display_names(test):
    """zed gets a line `person` in the accounts file while the server runs, and ann has none."""
    ann, check = test.ann, test.check
    own, zed = Line(test.server.port, "ann", "t1"), Line(test.server.port, "zed", "t5")
    with open(os.path.join(test.server.folder, "accounts"), "a", encoding="utf-8") as file:
        file.write(f"person zed - {DISPLAY}\n")
    told = lambda: own.ask(do="people", authors=["zed", "ann"]).get("people")
    check("the server tells the display name", until(lambda: told() == [{"author": "zed", "name": DISPLAY}], 20), told())
    own.ask(do="create", pad="named")
    own.ask(do="grant", pad="named", author="zed", right="write")
    zed.ask(do="join", pad="named")
    zed.ask(do="insert", pad="named", rev=0, at=0, text="A boat.\n")
    zed.ask(do="comment", pad="named", rev=1, at=2, len=4, text="whose?")
    ann.log_in("ann", "t1")
    shown = lambda selector: ann.run(SHOWN, selector)
    row = lambda: next((node.text for node in ann.all("#choose li") if "named" in node.text), "")
    check("the list names who changed a pad by the display name", until(lambda: f"last: {DISPLAY}" in row()), row())
    ann.open("named")
    check("the legend has the display name, and the name as a hint", until(lambda: shown("#authors li") == [[f"{DISPLAY}, 100 %", "zed"]]), shown("#authors li"))
    check("so has the list of who is here, with both as a hint", until(lambda: [DISPLAY, f"{DISPLAY} (zed)"] in shown("#here li")), shown("#here li"))
    check("who has no display name is named as before", until(lambda: any(text == "ann" for text, _ in shown("#here li"))), shown("#here li"))
    check("a comment has it", until(lambda: shown("#margin .card-head b") == [[DISPLAY, "zed"]]), shown("#margin .card-head b"))
    zed.ask(do="caret", pad="named", rev=2, at=3)
    check("a caret has it", until(lambda: [DISPLAY, "zed"] in shown("#carets .caret span")), shown("#carets .caret span"))
    words = ann.run("return [...document.querySelectorAll('#text .run')].map((node) => node.dataset.author)")
    check("words stay attributed to the name", set(words) == {"zed@1"}, words)
    point(ann, "boat")
    check("so has the card of who wrote a character", until(lambda: (ann.run(CARD) or "").startswith(f"{DISPLAY} · ")) and shown("#who-card b") == [[DISPLAY, "zed"]], ann.run(CARD))
    away(ann)
    ann.click("rights")
    cells = lambda: [text for text, _ in shown("#rights-list td:first-child")]
    check("the dialog of rights has both", until(lambda: cells() == ["ann", "Everybody", f"{DISPLAY} zed"]), cells())
    plain(test, ann, "rights of somebody with a display name")
    ann.keys(Keys.ESCAPE)
    zed.ask(do="mark", pad="named", rev=1, text="Found")
    ann.click("history")
    named = lambda: [(text.split(", ")[0], hint) for text, hint in shown("#names-list span")]
    check("so has the list of named revisions", until(lambda: named() == [(DISPLAY, "zed")]), named())
    ann.click("back")
