#!/usr/bin/env python3
"""Two windows of headless Chromium in which two authors type while the script `serve` hands over from the unproved server to
the proved one: each character that was typed is there once.

    tests/web/handover_test.py

It needs crates/pad_server/out/pad_server, which stands for both servers. The last line is `N passed, M failed`.
"""
import os
import signal
import sys
import tempfile
import threading
import time

HERE = os.path.dirname(os.path.realpath(__file__))
sys.dont_write_bytecode = True
sys.path[:0] = [os.path.dirname(HERE), HERE]

from fresh_machine import Machine, begun, touch, wait_until
from windows import BROKEN, Window, until

READY = "serve: log in at http://127.0.0.1:"
FEWEST = 40  # characters that each author types before the hand-over, and after it


class Typist:
    """An author who types one character after the other in a window, in a line of the text that nobody else writes in, and rests for
    so many seconds after each."""

    def __init__(self, window, letters, rest=0):
        self.window, self.letters, self.rest, self.typed, self.is_over = window, letters, rest, "", False
        self.thread = threading.Thread(target=self.type)
        self.thread.start()

    def type(self):
        while not self.is_over:
            letter = self.letters[len(self.typed) % len(self.letters)]
            self.window.keys(letter)
            self.typed += letter
            time.sleep(self.rest)

    def end(self):
        self.is_over = True
        self.thread.join()


def open_windows(machine):
    """Two windows of ann and bob on one pad, which has two empty lines: the caret of each is in a line of its own."""
    owner = machine.author()
    owner.does(do="create", pad="p")
    owner.does(do="grant", pad="p", author="bob", right="write")
    owner.does(do="insert", pad="p", rev=0, at=0, text="\n")
    with open("accounts", encoding="utf-8") as file:
        tokens = dict(line.split()[1:3] for line in file)
    windows = [Window(f"http://127.0.0.1:{machine.web}/") for _ in range(2)]
    for window, name, place in zip(windows, ["ann", "bob"], [0, 1]):
        window.log_in(name, tokens[name])
        window.open("p")
        until(lambda window=window: window.text == "\n")
        window.select(place)
    return windows


def let_proofs_end(typists):
    """Lets the proofs of the toolchain that is not a real one end when both have typed."""
    wait_until(lambda: all(len(it.typed) >= FEWEST for it in typists) and begun("pad_core"), "that both have typed")
    touch("GO")


def hand_over(machine, typists):
    """Waits until both have typed on at the proved server."""
    machine.said("serve: everything is proved: the proved server takes over")
    wait_until(lambda: sum(READY in line for line in machine.lines) == 2, "that the proved server listens")
    typed = [len(it.typed) for it in typists]
    wait_until(lambda: all(len(it.typed) >= was + FEWEST for it, was in zip(typists, typed)), "that both have typed on")


def notice_of(window):
    """What a window says below everything else."""
    return window.run("return document.getElementById('unproved').textContent")


def text_of(machine):
    reader = machine.author()
    reader.does(do="join", pad="p")
    return reader.does(do="text", pad="p")["text"]


def judge(play, prefix):
    """Plays in a folder of its own, and tells of each check. The status is 1 if one has failed."""
    tally = {True: 0, False: 0}

    def check(name, holds, seen):
        tally[bool(holds)] += 1
        print("ok     " if holds else "FAILED ", name, "" if holds else repr(seen)[:900], flush=True)

    with tempfile.TemporaryDirectory(prefix=prefix) as folder:
        os.chdir(folder)
        play(check)
        os.chdir(HERE)
    print(f"{tally[True]} passed, {tally[False]} failed")
    return int(tally[False] > 0)


def play(check):
    machine = Machine(BUILD="BUILD", GO="GO")
    touch("BUILD")
    play_with(check, machine, let_proofs_end)


def play_with(check, machine, begin=lambda typists: None, rest=0):
    """Plays at a machine whose script has been started. `begin` is done when both authors type."""
    windows = []
    try:
        machine.said(READY)
        windows = open_windows(machine)
        for window, name in zip(windows, ["ann", "bob"]):
            check(f"{name}'s window says that nothing is proved", until(lambda: "without proofs" in notice_of(window)), notice_of(window))
        letters = ["0123456789", "abcdefghijklmnopqrstuvwxyz"]
        typists = [Typist(window, its, rest) for window, its in zip(windows, letters)]
        try:
            begin(typists)
            hand_over(machine, typists)
        finally:
            for typist in typists:
                typist.end()
        due = "\n".join(typist.typed for typist in typists)
        for window, name in zip(windows, ["ann", "bob"]):
            check(f"{name}'s window is saved", until(window.is_saved), window.state)
            check(f"{name}'s window no longer says that nothing is proved", until(lambda: notice_of(window) == ""), notice_of(window))
            check(f"each character is there once in {name}'s window", until(lambda: window.text == due), (window.text, due))
        check("each character is there once at the server", text_of(machine) == due, (text_of(machine), due))
    finally:
        for window in windows:
            try:
                window.quit()
            except BROKEN:  # it is gone already
                pass
        machine.ends(signal.SIGTERM)


if __name__ == "__main__":
    sys.exit(judge(play, "handover-"))
