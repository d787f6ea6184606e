#!/usr/bin/env python3
"""How fast the page is on a pad of 105,000 characters with some 2,000 author runs, and on one of a million.

    tests/web/large_pad.py [--disk] PROGRAM

PROGRAM is crates/pad_server/out/pad_server. Prints milliseconds, and fails if a letter takes more than 50 to the next frame,
or if the page works for more than 3,000 to open the million characters, for more than 50 for a letter among them, or for more
than 3,000 to select and erase them. Lines out of sight are not laid out: the browser's find, its keys and its printing have to
reach them nevertheless. With --disk, the page is that on disk.
"""
import os
import random
import sys
import tempfile
import time

from windows import ON_DISK, Keys, Line, Server, Window, until

WATCH = """
const isNew = !window.took;
window.took = [];
if (isNew) document.getElementById('text').addEventListener('keydown', () => {
  const start = performance.now();
  let made = 0;
  setTimeout(() => { made = performance.now() - start; });
  requestAnimationFrame(() => { const { port1, port2 } = new MessageChannel(); port1.onmessage = () => window.took.push([made, performance.now() - start]); port2.postMessage(0); });
}, true);
"""
WORDS = "the council notes that quays and cranes are to be painted before the ships return from the northern harbours".split()


def write(ann, pad, inserts, dice):
    """Makes a pad of so many insertions of some 9,900 characters. Answers its revision."""
    ann.ask(do="create", pad=pad)
    for rev in range(inserts):
        text = ""
        while len(text) < 9900:
            text += dice.choice(WORDS) + (" " if dice.random() > 0.06 else ".\n\n")
        ann.ask(do="insert", pad=pad, rev=rev, at=0, text=text[:10000])
    return inserts


def fill(ann, bob, pad):
    dice = random.Random(1)
    rev = write(ann, pad, 10, dice)
    ann.ask(do="grant", pad=pad, author="bob", right="write")
    rev = bob.ask(do="join", pad=pad)["now"]
    for _ in range(63):
        parts = [{"at": dice.randrange(90000), "text": "(bob) "} for _ in range(16)]
        rev = bob.ask(do="edit", pad=pad, rev=rev, parts=parts)["now"]
    ann.ask(do="comment", pad=pad, rev=rev, at=50000, len=20, text="here")
    return rev + 1


def letters(window):
    """Types 30 letters: for each, when it was handled and when its frame was drawn, in milliseconds after the key."""
    window.run(WATCH)
    for _ in range(30):
        window.keys("x")
        time.sleep(0.1)
    return window.run("return window.took")


def busy(window):
    """How many milliseconds the page's thread has run so far, by the processor's time: other programs do not count."""
    metrics = window.driver.execute_cdp_cmd("Performance.getMetrics", {})["metrics"]
    return 1000 * next(one["value"] for one in metrics if one["name"] == "ThreadTime")


def open_million(window, ann):
    """How many milliseconds the page works to open a million characters. Prints also when it has them."""
    write(ann, "huge", 101, random.Random(2))
    window.log_in("ann", "t1")
    window.driver.execute_cdp_cmd("Performance.enable", {"timeDomain": "threadTicks"})
    start, had = time.time(), busy(window)
    window.open("huge")
    until(lambda: window.get("pad-name").text == "huge" and window.is_saved(1), 60)
    opened = 1000 * (time.time() - start)
    time.sleep(2)
    worked = busy(window) - had
    print(f"a million characters are opened after {opened:.0f} ms, in which the page works for {worked:.0f}")
    return worked


def letter_among(window, at):
    """How many milliseconds the page works for a letter at a place of a million characters. Prints also when its frame is drawn."""
    window.select(at)
    time.sleep(1)
    had = busy(window)
    frame = sorted(one[1] for one in letters(window))
    worked = (busy(window) - had) / len(frame)
    print(f"a letter among a million: next frame after {frame[len(frame) // 2]:.1f} ms (median), {frame[-1]:.1f} ms (worst); the page works for {worked:.1f}")
    return worked


def erase_all(window):
    """How many milliseconds the page works to select and erase a million characters, or None if it fails. Prints also when it has."""
    start, had = time.time(), busy(window)
    window.keys("a", held=[Keys.CONTROL])
    window.keys(Keys.DELETE)
    is_erased, erased = window.text == "", 1000 * (time.time() - start)
    worked = busy(window) - had
    print(f"a million characters are erased after {erased:.0f} ms, in which the page works for {worked:.0f}" if is_erased else "a million characters are not erased")
    return worked if is_erased else None


# The place of the caret, and how high it is in the window.
CARET = """
const { focusNode, focusOffset } = getSelection(), lines = [...document.querySelectorAll('#text .line')], range = document.createRange();
const line = lines.findIndex((one) => one.contains(focusNode));
range.setStart(lines[line], 0);
range.setEnd(focusNode, focusOffset);
return [line, range.toString().length, lines.length, lines[line].textContent.length, lines[line].getBoundingClientRect().top, innerHeight];
"""
# Puts the caret at an end of the last block of a group of lines, or of the first, and scrolls it out of sight.
EDGE = """
const [at, isLast] = arguments, group = document.querySelectorAll('#text .group')[at], block = isLast ? group.lastChild : group.firstChild;
getSelection().selectAllChildren(block);
if (isLast) getSelection().collapseToEnd(); else getSelection().collapseToStart();
scrollTo(0, 0);
return [...document.querySelectorAll('#text .line')].indexOf(block);
"""
LAID_OUT = """
const lines = [...document.querySelectorAll('#text .line')];
return [lines.filter((line) => line.firstChild.checkVisibility({ contentVisibilityAuto: true })).length, lines.length];
"""


def reached(window, ann):
    """What of the lines out of sight the browser does not reach, by name."""
    missed = []

    def see(name, is_right, *came):
        if not is_right:
            missed.append((name, came))

    def caret(*keys, held=()):
        window.keys(*keys, held=held)
        time.sleep(0.5)
        return window.run(CARET)

    out, all_lines = window.run(LAID_OUT)
    see("most lines are not laid out", out < all_lines / 10, out, all_lines)
    line, at, count, length, top, height = caret(Keys.END, held=[Keys.CONTROL])
    see("Ctrl End goes to the end", (line, at) == (count - 1, length) and 0 < top < height, line, at, count, length, top)
    line, at, _, _, top, height = caret(Keys.HOME, held=[Keys.CONTROL])
    see("Ctrl Home goes to the start", (line, at) == (0, 0) and 0 < top < height, line, at, top)
    for group, is_last, key, step in ((60, True, Keys.ARROW_DOWN, 1), (90, True, Keys.ARROW_RIGHT, 1), (120, False, Keys.ARROW_UP, -1), (150, False, Keys.ARROW_LEFT, -1)):
        had = window.run(EDGE, group, is_last)
        time.sleep(0.5)
        line, _, _, _, top, height = caret(key)
        see(f"an arrow from group {group} goes to the next line", line == had + step and 0 < top < height, had, line, top)
    window.keys(Keys.HOME, held=[Keys.CONTROL])
    ann.ask(do="insert", pad="huge", rev=ann.ask(do="revs", pad="huge")["now"], at=700_000, text="zebra")
    see("another's word comes", until(lambda: "zebra" in window.text))
    see("the browser finds it", window.run("return window.find('zebra')"))
    time.sleep(0.5)
    _, _, _, _, top, height = window.run(CARET)
    see("what it finds is seen", 0 < top < height, top)
    window.driver.execute_cdp_cmd("Emulation.setEmulatedMedia", {"media": "print"})
    out, all_lines = window.run(LAID_OUT)
    window.driver.execute_cdp_cmd("Emulation.setEmulatedMedia", {"media": ""})
    see("all lines are printed", out == all_lines, out, all_lines)
    return missed


def main(program):
    with tempfile.TemporaryDirectory() as folder:
        server = Server(program, folder)
        window = Window(server.url)
        try:
            ann, bob = Line(server.port, "ann", "t1"), Line(server.port, "bob", "t2")
            rev = fill(ann, bob, "large")
            runs = ann.ask(do="runs", pad="large")["runs"]
            print(f"{sum(length for _, length in runs)} characters, {len(runs)} runs")
            window.log_in("ann", "t1")
            start = time.time()
            window.open("large")
            window.is_saved()
            print(f"opened after {1000 * (time.time() - start):.0f} ms")
            time.sleep(3)
            window.select(50000)
            took = letters(window)
            handler, frame = (sorted(one[k] for one in took) for k in (0, 1))
            print(f"a letter: handled in {handler[15]:.1f} ms, next frame after {frame[15]:.1f} ms (median), {frame[-1]:.1f} ms (worst of 30)")
            window.is_saved()
            rev = ann.ask(do="revs", pad="large")["now"]
            start = time.time()
            bob.ask(do="insert", pad="large", rev=rev, at=10, text="LIVE ")
            until(lambda: window.run("return document.querySelector('#text').textContent.slice(0, 60).includes('LIVE ')"))
            print(f"another's edit is shown after {1000 * (time.time() - start):.0f} ms")
            window.click("history")
            until(lambda: window.get("rev-made").text)
            start = time.time()
            window.run("const rev = document.getElementById('rev'); rev.value = 20; rev.dispatchEvent(new Event('input'))")
            until(lambda: window.get("rev-made").text.startswith("Revision 20 "))
            print(f"the slider shows another revision after {1000 * (time.time() - start):.0f} ms")
            opened = open_million(window, ann)
            worked = max(letter_among(window, at) for at in (0, 500_000))
            missed = reached(window, ann)
            for name, came in missed:
                print(f"FAILED {name}: {came}")
            erased = erase_all(window)
            failed = sum((frame[15] > 50, opened > 3_000, worked > 50, bool(missed), not erased or erased > 3_000))
            print(f"{5 - failed} passed, {failed} failed")
            return int(failed > 0)
        finally:
            window.quit()
            server.end()


if __name__ == "__main__":
    given = [word for word in sys.argv[1:] if word != ON_DISK]
    sys.exit(main(os.path.realpath(given[0])))
