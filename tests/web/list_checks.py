"""The list of pads: who changed each last, own and shared ones, a search in names and texts, and what new pads begin with."""
from keyboard import text_of
from page_checks import plain
from windows import Keys, Line, until

ROWS = "return [...document.querySelectorAll(`#pads-${arguments[0]} button`)].map((button) => [...button.children].map((part) => part.textContent))"
FOUND = "return [...document.querySelectorAll('#texts-found section')].map((one) => [one.querySelector('h3').textContent, ...[...one.querySelectorAll('button')].map((button) => button.textContent)])"
CHOOSE = "const select = document.getElementById('template'); select.value = arguments[0]; return select.value"
HEADS = "return [...document.getElementById('template').options].map((option) => option.textContent)"
TEMPLATE = "# Harbour council\n\n- [ ] invite Dora\n"


def make(line, pad, text, **rights):
    line.ask(do="create", pad=pad)
    line.ask(do="insert", pad=pad, rev=0, at=0, text=text)
    for name, right in rights.items():
        line.ask(do="grant", pad=pad, author=name, right=right)


def rows(window, group, name):
    """The line of a pad in a part of the list, or an empty one."""
    return next((said for pad, said in window.run(ROWS, group) if pad == name), "")


def listed(test):
    ann, check = test.ann, test.check
    own, other = Line(test.server.port, "ann", "t1"), Line(test.server.port, "bob", "t2")
    make(own, "harbour-one", "The quay is long.\nA lighthouse stands there.\n", bob="write")
    make(own, "template-council", TEMPLATE)
    make(other, "harbour-two", "No word of it.\n\nTwo lighthouses, and a LIGHTHOUSE keeper.\nlighthouse\n", ann="read")
    make(other, "harbour-three", "A lighthouse that ann may not see.\n")
    other.ask(do="join", pad="harbour-one")
    other.ask(do="delete", pad="harbour-one", rev=1, at=0, len=4)
    ann.log_in("ann", "t1")
    check("the list says who changed a pad last", until(lambda: "last: bob erased" in rows(ann, "own", "harbour-one")), rows(ann, "own", "harbour-one"))
    shared = lambda: rows(ann, "shared", "harbour-two")
    check("pads of others are apart, and their right is told", until(lambda: "Can read" in shared() and "last: bob typed" in shared()), shared())
    check("who looks at the list is not on its pads", len(own.ask(do="who", pad="harbour-one")["who"]) == 2, own.ask(do="who", pad="harbour-one"))
    ann.get("pads-search").send_keys("harbour-t")
    names = lambda: [name for group in ("own", "shared") for name, _ in ann.run(ROWS, group)]
    check("a search by name shows pads at once", until(lambda: names() == ["harbour-two"]), names())
    check("and says how many", ann.get("pads-found").text == "1 pad found", ann.get("pads-found").text)


def searched(test):
    ann, check = test.ann, test.check
    ann.get("pads-search").clear()
    ann.get("pads-search").send_keys("lighthouse" + Keys.ENTER)
    wanted = [["harbour-one", "Line 2A lighthouse stands there."], ["harbour-two", "Line 3Two lighthouses, and a LIGHTHOUSE keeper.", "Line 4lighthouse"]]
    found = lambda: sorted(ann.run(FOUND))
    check("a search in the texts finds lines of pads that one may read", until(lambda: ann.get("texts-state").text == "3 lines found") and found() == wanted, (ann.get("texts-state").text, found()))
    plain(test, ann, "what was found")
    test.shot(ann, "found")
    ann.press(lambda: [one for one in ann.all("#texts-found button") if "keeper" in one.text][0])
    check("one opens the pad", until(lambda: ann.get("pad-name").text == "harbour-two"))
    check("with the words found at their place", until(lambda: (ann.get("find-words").get_property("value"), ann.get("find-count").text) == ("lighthouse", "1 of 3")), ann.get("find-count").text)
    ann.click("close")
    until(lambda: ann.get("choose").is_displayed())
    check("nothing of a search is left in the list", not ann.run(FOUND) and ann.get("texts-state").text == "", ann.run(FOUND))


def templates(test):
    ann, check = test.ann, test.check
    line = Line(test.server.port, "ann", "t1")
    check("a new pad begins with one's templates", until(lambda: ann.run(HEADS) == ["nothing", "an agenda", "minutes", "council"]), ann.run(HEADS))
    for value, pad, begins in (("#template-council", "from-council", TEMPLATE), ("minutesTemplate", "from-minutes", "# Minutes\n\nDate: "), ("blank", "from-nothing", "")):
        until(lambda: ann.run(CHOOSE, value) == value)
        ann.open(pad, "create")
        check(f"{pad} begins as its template", until(lambda: ann.get("pad-name").text == pad and ann.is_saved(1) and ann.text.startswith(begins) and (ann.text == begins or value == "minutesTemplate")), ann.text)
        line.ask(do="join", pad=pad)
        check("and is the author's", until(lambda: text_of(line, pad) == ann.text) and [who for who, _ in line.ask(do="runs", pad=pad)["runs"]] == ["ann@1"] * bool(begins), text_of(line, pad))
        ann.click("close")
        until(lambda: ann.get("choose").is_displayed())


def lists(test):
    for part in (listed, searched, templates):
        part(test)
