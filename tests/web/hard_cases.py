"""What a window makes of hostile words, of a server that has lost a pad, and of a pad that is full."""
import os
import shutil

from windows import PAST, ChangedPage, Keys, Line, units, until

# All control characters but those that end a line, marks that change the direction, and markup.
HOSTILE = "".join(map(chr, range(0x20))).replace("\n", "").replace("\r", "") + (
    "\x7f\u202e\u2066\ufeff\"'`<script>window.hacked = 1</script><img src=x onerror=\"window.hacked = 1\">"
    "<svg onload='window.hacked = 1'>&lt;b&gt;&amp;<i>x</i></div></span><a href=\"javascript:window.hacked = 1\">x</a>\\u003cscript>"
)
MADE = """
return ['script', 'img', 'svg', 'a', 'i'].flatMap(name => ['#text', '#margin', '#past', '#comment-box', '#here', '#notice', '#authors', '#pads']
  .map(place => `${place} ${name}`)).filter(selector => document.querySelector(selector))
"""


def hostile(test):
    """Markup, quotation marks and control characters in a text, a comment, a log-in and a pad's name are words like others."""
    ann, check = test.ann, test.check
    line = Line(test.server.port, "ann", "t1")
    line.ask(do="create", pad="hostile")
    line.ask(do="insert", pad="hostile", rev=0, at=0, text=HOSTILE)
    line.ask(do="comment", pad="hostile", rev=1, at=40, len=8, text=HOSTILE)
    line.ask(do="insert", pad="hostile", rev=2, at=len(HOSTILE), text="\n" + HOSTILE)
    ann.log_in("ann", "t1", "#%3Cscript%3Ewindow.hacked=1%3C/script%3E")
    check("an address with markup opens no pad", until(lambda: ann.get("choose").is_displayed()) and not ann.get("text").is_displayed())
    ann.open("hostile")
    check("a hostile text is shown as it is", until(lambda: ann.text == HOSTILE + "\n" + HOSTILE), ann.text)
    words = lambda: ann.run("return document.querySelector('#margin .card').textContent")
    check("a hostile comment, too", until(lambda: HOSTILE in words()), words())
    ann.click("history")
    until(lambda: ann.get("rev-made").text)
    check("and in its history", until(lambda: ann.run(PAST) == HOSTILE + "\n" + HOSTILE), ann.run(PAST))
    ann.click("back")
    until(lambda: ann.text)
    ann.type(HOSTILE[-40:], 0)
    check("typed markup is text", ann.is_saved() and ann.text.startswith(HOSTILE[-40:]), ann.text[:60])
    is_hacked = lambda: ann.run("return window.hacked ?? null")
    made = ann.run(MADE)
    check("nothing of it becomes an element or runs", not made and not is_hacked(), made)
    ann.log_in("<script>", "\"><script>window.hacked = 1</script>")
    check("and nothing of a log-in", not ann.run(MADE) and not is_hacked(), ann.run(MADE))
    faults = [fault for fault in ann.faults() if "status of 4" not in fault]
    check("and the policy has nothing to stop", not faults, faults)


def lost_pad(test):
    """The server comes back with an older copy of its store."""
    ann, server, check = test.ann, test.server, test.check
    store, copy = os.path.join(server.folder, "store"), os.path.join(server.folder, "copy")
    ann.log_in("ann", "t1")
    ann.open("restored", "create")
    ann.type("old words", 0)
    ann.is_saved()
    server.kill()
    shutil.copytree(store, copy)
    server.start()
    check("the page connects again", ann.is_saved(40), ann.state)
    ann.type(" and new ones", units("old words"))
    check("and saves more", until(lambda: ann.text == "old words and new ones") and ann.is_saved(), ann.state)
    server.kill()
    shutil.rmtree(store)
    os.rename(copy, store)
    ann.type("!", units(ann.text))
    server.start()
    told = until(lambda: "restored from an older copy" in ann.get("notice-text").text, 40)
    check("an older copy is told of, and the words stay", told and ann.text == "old words and new ones!", (ann.get("notice-text").text, ann.text))
    line = Line(server.port, "ann", "t1")
    line.ask(do="join", pad="restored")
    text = line.ask(do="text", pad="restored")["text"]
    check("nothing is sent to it", text == "old words", text)


def full_pad(test, folder):
    """A page that believes in smaller limits."""
    library = os.path.join(folder, "clients", "js", "src")
    os.makedirs(library)
    with open(os.path.join(library, "limits.js"), "w", encoding="utf-8") as file:
        file.write("export const LIMITS = { operations: 40, characters: 4e6, comments: 1e4, edit: 1e4, parts: 16, comment: 2e3, entries: 100 };\n")
    ann, check = test.ann, test.check
    changed = ChangedPage(test.server, folder)
    ann.url = changed.url
    ann.log_in("ann", "t1", "#minutes")
    check("an address opens its pad", until(lambda: ann.get("pad-name").text == "minutes" and ann.is_saved(1)))
    ann.click("close")
    check("a pad is closed", until(lambda: ann.get("choose").is_displayed()))
    ann.open("small", "create")
    line = Line(test.server.port, "ann", "t1")
    line.ask(do="join", pad="small")
    for rev in range(37):
        line.ask(do="insert", pad="small", rev=rev, at=rev, text="x")
    check("from 90 % on the page says so", until(lambda: "% full" in ann.get("notice-text").text), ann.get("notice-text").text)
    test.shot(ann, "nearly-full")
    ann.click("notice-go-on")
    until(lambda: ann.get("go-on-box").is_displayed())
    ann.get("go-on-name").send_keys(Keys.ENTER)
    wanted = "Continues the pad “small” after its revision 37.\n\n" + "x" * 37
    check("and the pad goes on in a new one", until(lambda: ann.get("pad-name").text == "small-2" and ann.text == wanted), (ann.get("pad-name").text, ann.text))
    faults = ann.faults()
    check("without a fault", not faults, faults)
    changed.end()
