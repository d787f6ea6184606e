#!/usr/bin/env python3
"""A window of headless Chromium on the page of a server that says on how many machines it keeps what is saved: what the
foot says of each number, also when it changes with a new connection, and that it says nothing where the server does not.

    /usr/bin/python3 tests/web/machines_test.py [SHOTS]

It needs crates/pad_server/out/pad_server and node, which serves web/ as it is on the disk. With SHOTS, pictures are put
there. The last line is `N passed, M failed`.
"""
import os
import subprocess
import sys

HERE = os.path.dirname(os.path.realpath(__file__))
sys.dont_write_bytecode = True
sys.path[:0] = [os.path.dirname(HERE), HERE]

from handover_test import judge
from peers import free_ports
from sockets import Server
from windows import BROKEN, Window, until

SAID = {
    0: ("Not kept: this server has no store", "lost when the server ends"),
    1: ("Kept on one machine only", "no second machine confirms"),
    2: ("Kept on two machines", "on that of its standby"),
}
SHOTS = os.path.abspath(sys.argv[1]) if len(sys.argv) > 1 else None


class Page:
    """web/ at a port, before a server over TCP; it says at /kept what `tell` was given."""

    def __init__(self, server):
        self.server, self.port, self.process = server, free_ports(1)[0], None
        os.makedirs("folder", exist_ok=True)

    @property
    def url(self):
        return f"http://127.0.0.1:{self.port}/"

    def tell(self, text):
        with open("folder/kept", "w", encoding="utf-8") as file:
            file.write(text)

    def start(self):
        words = ["node", f"{HERE}/dev.mjs", str(self.port), str(self.server.port), "folder"]
        self.process = subprocess.Popen(words, stdout=subprocess.DEVNULL)

    def stop(self):
        self.process.kill()
        self.process.wait()


def number(count):
    return '{"machines":%d}' % count


def foot(window):
    """What the foot says of it, and in which words it explains that."""
    return window.run("const node = document.getElementById('machines'); return [node.textContent, node.title]")


def news(window):
    """What a screen reader was told last."""
    return window.run("return document.getElementById('news').textContent")


def says(window, count):
    text, hint = SAID[count]
    return until(lambda: foot(window)[0] == text and hint in foot(window)[1])


def break_connection(page, window, text):
    """The connection is lost, and back at a server that says something else. Until then, the foot says nothing."""
    page.stop()
    gone = until(lambda: foot(window) == ["", ""])
    page.tell(text)
    page.start()
    return gone


def play_number(check, page, count):
    page.tell(number(count))
    window = Window(page.url)
    try:
        window.log_in("ann", "tann")
        window.open("p")
        check(f"the foot says that there are {count} machines", says(window, count), foot(window))
        check(f"a screen reader is not told of {count} machines at first", SAID[count][0] != news(window), news(window))
        if SHOTS:
            window.shot(SHOTS, f"machines-{count}")
    finally:
        window.quit()


def play_changes(check, page):
    page.tell(number(2))
    window = Window(page.url)
    try:
        window.log_in("ann", "tann")
        window.open("p")
        check("there are two machines at first", says(window, 2), foot(window))
        check("nothing is said without a connection", break_connection(page, window, number(1)), foot(window))
        check("then there is one", says(window, 1), foot(window))
        check("a screen reader is told that it is worse", until(lambda: news(window) == SAID[1][0]), news(window))
        break_connection(page, window, number(2))
        check("then there are two again", says(window, 2), foot(window))
        check("a screen reader is not told that it is better", news(window) != SAID[2][0], news(window))
        break_connection(page, window, "Not Found")
        check("the page is connected to a server that does not say it", until(window.is_saved), window.state)
        check("and then the foot says nothing", foot(window) == ["", ""], foot(window))
        check("the page has no fault", window.faults() == [], window.faults())
    except BROKEN as error:
        check("the browser goes on", False, error)
    finally:
        window.quit()


def play(check):
    server = Server()
    ann = server.author("ann")
    ann.does(do="create", pad="p")
    ann.close()
    page = Page(server)
    page.tell(number(0))
    page.start()
    try:
        for count in SAID:
            play_number(check, page, count)
        play_changes(check, page)
    finally:
        page.stop()
        server.process.kill()


if __name__ == "__main__":
    sys.exit(judge(play, "machines-"))
