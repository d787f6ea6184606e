"""Words are found and replaced in the text, and found in an earlier revision."""
from keyboard import make, saved, text_of
from page_checks import plain
from windows import Keys, PAST, until

TEXT = "The crane on the quay.\nA Crane is a crane.\n" + "words\n" * 80 + "The last crane.\n"
HIGHLIGHTS = "return [CSS.highlights.get('found').size, [...CSS.highlights.get('found-now')].map(range => range.toString()).join('')]"
PLACE = "const [range] = CSS.highlights.get('found-now'), { top } = range.getBoundingClientRect(); return top > 0 && top < innerHeight"


def finding(test):
    ann, check = test.ann, test.check
    line = make(test, "found", TEXT)
    count = lambda: ann.get("find-count").text
    ann.select(0)
    ann.keys("f", held=[Keys.CONTROL, Keys.ALT])
    check("the keys open the bar", until(lambda: ann.get("find-words").is_displayed() and ann.run("return document.activeElement.id") == "find-words"))
    ann.keys("crane")
    check("all places are found, whatever their case", until(lambda: count() == "1 of 4"), count())
    check("and marked, one of them as the present one", ann.run(HIGHLIGHTS) == [4, "crane"], ann.run(HIGHLIGHTS))
    plain(test, ann, "find")
    test.shot(ann, "find")
    ann.keys(Keys.ENTER)
    check("Enter goes to the next one", until(lambda: count() == "2 of 4" and ann.run(HIGHLIGHTS)[1] == "Crane"), (count(), ann.run(HIGHLIGHTS)))
    ann.keys(Keys.ENTER, Keys.ENTER)
    check("which is scrolled to", until(lambda: count() == "4 of 4" and ann.run(PLACE)), count())
    ann.keys(Keys.ENTER)
    check("and then to the first again", until(lambda: count() == "1 of 4"), count())
    ann.keys(Keys.ENTER, held=[Keys.SHIFT])
    check("Shift+Enter goes back", until(lambda: count() == "4 of 4"), count())
    line.ask(do="insert", pad="found", rev=1, at=0, text="A crane. ")
    check("what others type is found, too", until(lambda: count() == "5 of 5"), count())
    ann.click("find-exact")
    check("large and small letters can differ", until(lambda: count().endswith("of 4")), count())
    ann.get("replace-words").send_keys("tower")
    ann.click("replace-all")
    wanted = ("A crane. " + TEXT).replace("crane", "tower")
    check("all are replaced", saved(test, line, "found", wanted) and "4 places" in count(), (ann.text[:80], count()))
    ann.run("document.getElementById('text').focus()")
    ann.keys("z", held=[Keys.CONTROL])
    until(lambda: "bob" in ann.get("notice-text").text)  # whose word comes back as hers
    ann.keys("z", held=[Keys.CONTROL])
    check("by one step of undo", saved(test, line, "found", "A crane. " + TEXT), ann.text[:80])
    ann.run("document.getElementById('find-words').focus()")
    ann.keys(Keys.ENTER)
    ann.get("replace-words").send_keys(Keys.ENTER)
    check("or one by one", until(lambda: text_of(line, "found").count("tower") == 1), text_of(line, "found")[:80])
    ann.run("document.getElementById('find-words').focus()")
    ann.keys(Keys.ESCAPE)
    check("Escape closes the bar, and selects what was found", until(lambda: not ann.get("find-bar").is_displayed()) and ann.run("return getSelection().toString()") == "crane", ann.run("return getSelection().toString()"))
    check("and nothing is marked any more", ann.run(HIGHLIGHTS) == [0, ""], ann.run(HIGHLIGHTS))
    past(test)


def past(test):
    ann, check = test.ann, test.check
    ann.click("history")
    until(lambda: ann.get("rev-made").text)
    ann.run("const rev = document.getElementById('rev'); rev.value = 1; rev.dispatchEvent(new Event('input'))")
    until(lambda: ann.run(PAST) == TEXT)
    ann.click("find")
    check("words of an earlier revision are found", until(lambda: ann.get("find-count").text.endswith("of 3") and ann.run(HIGHLIGHTS)[1] == "crane"), (ann.get("find-count").text, ann.run(HIGHLIGHTS)))
    check("and cannot be replaced", ann.get("replace").get_property("disabled") and ann.get("replace-words").get_property("disabled"))
    ann.click("find-close")
    ann.run("document.getElementById('back').click()")
    faults = ann.faults()
    check("and all that without a fault", not faults, faults)
