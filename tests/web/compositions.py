"""An input method composes, while others write and the browser changes the document."""
import time

from keyboard import insert, make, saved, text_of
from windows import units, until

TRANSLATE = """
for (const node of [...document.querySelectorAll('#text .line')].slice(1).flatMap((line) => [...line.childNodes])) {
  const font = document.createElement('font');
  font.textContent = 'TRANSLATED';
  node.replaceChildren(font);
}
"""


def compose(window, text):
    window.driver.execute_cdp_cmd("Input.imeSetComposition", {"text": text, "selectionStart": len(text), "selectionEnd": len(text)})


def others(test):
    """Others' words in other lines are shown at once, and those in the composed line when the input method rests."""
    ann, check = test.ann, test.check
    bob = make(test, "composed", "first\nsecond \nthird")
    ann.select(units("first\nsecond "))
    compose(ann, "ni")
    until(lambda: "ni" in ann.text)
    insert(bob, "composed", 0, "ABOVE ")
    insert(bob, "composed", len(text_of(bob, "composed")), " BELOW")
    start = time.time()
    shown = until(lambda: ann.text.startswith("ABOVE first\nsecond ni\n") and ann.text.endswith("third BELOW"), 4)
    check("others' lines are shown during a composition", shown, (ann.text, time.time() - start))
    compose(ann, "nihao")
    check("which goes on", until(lambda: ann.text == "ABOVE first\nsecond nihao\nthird BELOW"), ann.text)
    insert(bob, "composed", len("ABOVE "), "(bob)\n")
    until(lambda: "(bob)" in ann.text)
    ann.driver.execute_cdp_cmd("Input.insertText", {"text": "你好"})
    check("and ends with all words once", saved(test, bob, "composed", "ABOVE (bob)\nfirst\nsecond 你好\nthird BELOW"), ann.text)
    compose(ann, "wo")
    until(lambda: "你好wo" in ann.text)
    at = text_of(bob, "composed").index("second")
    insert(bob, "composed", at, "BESIDE ")
    check("words in the composed line are shown when it rests", until(lambda: "BESIDE second 你好wo" in ann.text, 9), ann.text)
    check("and nothing of it is lost", saved(test, bob, "composed", "ABOVE (bob)\nfirst\nBESIDE second 你好wo\nthird BELOW"), ann.text)


def translated(test):
    """A browser that translates changes the document, and that is no edit of the author."""
    ann, check = test.ann, test.check
    bob = make(test, "translated", "eins\nzwei\ndrei")
    ann.select(4)
    ann.run(TRANSLATE)
    compose(ann, "a")
    ann.driver.execute_cdp_cmd("Input.insertText", {"text": "é"})
    check("only composed lines are read", until(lambda: text_of(bob, "translated") == "einsé\nzwei\ndrei"), text_of(bob, "translated"))
    ann.is_saved()
    time.sleep(0.6)
    check("and no translation is sent", text_of(bob, "translated") == "einsé\nzwei\ndrei", text_of(bob, "translated"))


def compositions(test):
    others(test)
    translated(test)
