#!/usr/bin/env python3
"""Chromium is killed at random moments while an author types, with and without a connection, and opened again.

    tests/web/killed_browser.py [--disk] PROGRAM [KILLS [SEED]]

PROGRAM is crates/pad_server/out/pad_server. Each character is typed once. What was typed until shortly before a kill has to be
on the pad in the end, once, and what was typed in the last moments at most once; nothing is under another author's name. With
--disk, the page is that on disk. The last line is `N passed, M failed`.
"""
import os
import random
import signal
import sys
import tempfile
import time

from windows import BROKEN, ON_DISK, Line, Server, Window, until

# Seconds that a character may take from the key to the browser's disk.
MOMENT = 0.05
FIRST_LETTER, FIRST_OF_BOB = 0x4E00, 0xAC00
AWAY = "return !document.getElementById('log-in-again').hidden"


def kill_browser(folder):
    """Kills every process of the browser whose profile is in this folder."""
    for name in os.listdir("/proc"):
        try:
            with open(f"/proc/{name}/cmdline", "rb") as file:
                words = file.read().split(b"\0")
            if f"--user-data-dir={folder}".encode() in words:
                os.kill(int(name), signal.SIGKILL)
        except (OSError, ValueError):
            pass


class Killed:
    def __init__(self, program, home, profile, seed):
        self.dice, self.profile, self.home = random.Random(seed), profile, home
        self.server = Server(program, home)
        self.due, self.maybe, self.by_bob = [], [], []
        self.failures, self.seen = [], {"kills": 0, "offline": 0, "away": 0, "kept": 0}
        line = Line(self.server.port, "ann", "t1")
        line.ask(do="create", pad="killed")
        line.ask(do="grant", pad="killed", author="bob", right="write")
        line.ask(do="insert", pad="killed", rev=0, at=0, text="Minutes of a browser that is killed.\n")

    def open_window(self):
        for name in ("SingletonLock", "SingletonCookie", "SingletonSocket"):
            try:
                os.unlink(os.path.join(self.profile, name))
            except FileNotFoundError:
                pass
        return Window(self.server.url, f"--user-data-dir={self.profile}")

    def open_pad(self, window):
        window.log_in("ann", "t1")
        window.open("killed")
        until(lambda: window.get("pad-name").text == "killed")

    def type(self, window, count):
        """Types characters that nobody has typed before, as a keyboard for them would."""
        out = []
        for _ in range(count):
            letter = chr(FIRST_LETTER + len(self.due) + len(self.maybe) + len(out))
            window.driver.execute_cdp_cmd("Input.dispatchKeyEvent", {"type": "char", "text": letter})
            out.append((letter, time.time()))
            time.sleep(self.dice.choice((0, 0.01, 0.03, 0.12)))
        return out

    def bob_types(self):
        line = Line(self.server.port, "bob", "t2")
        now = line.ask(do="join", pad="killed")["now"]
        letter = chr(FIRST_OF_BOB + len(self.by_bob))
        length = line.ask(do="revs", pad="killed")["length"]
        line.ask(do="insert", pad="killed", rev=now, at=self.dice.randrange(length + 1), text=letter)
        self.by_bob.append(letter)

    def stop_server(self):
        self.server.kill()
        if self.server.page:
            self.server.page.end()

    def start_server(self):
        self.server.start()
        if self.server.page:
            self.server.page.start()

    def kill(self, window, typed):
        """Kills the browser a moment after the last key."""
        time.sleep(self.dice.choice((0, 0, 0.02, 0.06, 0.2, 0.5, 0.9)))
        end = time.time()
        kill_browser(self.profile)
        self.seen["kills"] += 1
        for letter, at in typed:
            (self.due if at < end - MOMENT else self.maybe).append(letter)
        try:
            window.quit()
        except BROKEN:
            pass

    def play(self, kills):
        window = self.look()
        while self.seen["kills"] < kills and len(self.failures) < 3:
            self.play_round(window)
            window = self.look()
        window.quit()

    def play_round(self, window):
        """An author types, with or without a connection, and the browser is killed."""
        is_offline = self.dice.random() < 0.5
        window.select(self.dice.randrange(len(window.text) + 1))
        if self.dice.random() < 0.5:
            self.bob_types()
        if is_offline:
            self.seen["offline"] += 1
            self.stop_server()
            until(lambda: "offline" in window.state)
        self.kill(window, self.type(window, 1 + self.dice.randrange(25)))
        if is_offline and self.dice.random() < 0.5:
            self.play_away()
        elif is_offline:
            self.start_server()

    def play_away(self):
        """The pad is opened without a connection. More is typed, and the author logs in once there is a server, or the browser is killed again."""
        window = self.open_window()
        window.driver.get(self.server.url)
        until(lambda: window.all("#kept-pads button"))
        window.click_first("#kept-pads button")
        if not until(lambda: window.run(AWAY)):
            self.failures.append(f"a kept pad is not shown without a connection: {window.state}")
        self.seen["away"] += 1
        window.select(self.dice.randrange(len(window.text) + 1))
        typed = self.type(window, 1 + self.dice.randrange(10))
        if self.dice.random() < 0.5:
            self.kill(window, typed)
            self.start_server()
            return
        self.start_server()
        window.click("log-in-again")
        until(lambda: window.get("again-token").is_displayed())
        window.get("again-token").send_keys("t1")
        window.click("again-go")
        if not window.is_saved(30):
            self.failures.append(f"what was typed without a connection is not saved: {window.state}")
        self.due += [letter for letter, _ in typed]
        window.quit()

    def look(self):
        """The pad is opened again: everything that is due is there, once. Answers the window."""
        window = self.open_window()
        self.open_pad(window)
        if "had not been sent" in window.get("notice-text").text:
            self.seen["kept"] += 1
        is_saved = window.is_saved(40)
        offered = window.get("notice-words").get_property("textContent")
        line = Line(self.server.port, "ann", "t1")
        line.ask(do="join", pad="killed")
        text, runs = line.ask(do="text", pad="killed")["text"], line.ask(do="runs", pad="killed")["runs"]
        shown = until(lambda: window.text == text)
        wrong = [letter for letter in self.due if text.count(letter) + offered.count(letter) != 1]
        wrong += [letter for letter in self.maybe if text.count(letter) + offered.count(letter) > 1]
        wrong += [letter for letter in self.by_bob if text.count(letter) != 1]
        authors = [author for author, length in runs for _ in range(length)]
        foreign = [letter for letter, author in zip(text, authors) if author != ("bob@1" if letter in self.by_bob else "ann@1")]
        if not is_saved or not shown or wrong or foreign:
            self.failures.append(f"{window.state!r} {shown}, lost or doubled {wrong}, another author's {foreign}, of {len(self.due)}")
        return window

    def end(self):
        kill_browser(self.profile)
        self.server.end()


def main(program, kills=12, seed=1):
    with tempfile.TemporaryDirectory() as home, tempfile.TemporaryDirectory(ignore_cleanup_errors=True) as profile:
        test = Killed(program, home, profile, int(seed))
        try:
            test.play(int(kills))
        finally:
            test.end()
    print(", ".join(f"{count} {what}" for what, count in test.seen.items()), f"{len(test.due)} characters due, {len(test.maybe)} typed in a last moment")
    for failure in test.failures:
        print("FAILED", failure[:600])
    is_whole = test.seen["offline"] > 0 and test.seen["kept"] > 0 and len(test.due) > 3 * int(kills)
    if not is_whole:
        print("FAILED the kills have not met what they should")
    failed = len(test.failures) + (not is_whole)
    print(f"{test.seen['kills']} passed, {failed} failed")
    return int(failed > 0)


if __name__ == "__main__":
    given = [word for word in sys.argv[1:] if word != ON_DISK]
    sys.exit(main(os.path.realpath(given[0]), *given[1:]))
