#!/usr/bin/env python3
"""Two windows of headless Chromium behind HAProxy, in which two authors type while the main server is killed, its store deleted, and its
standby promoted: each character that was typed is there once. It says how long after the loss each window is saved again.

    tests/web/failover_test.py

It needs crates/pad_server/out/pad_server and Debian's haproxy. The last line is `N passed, M failed`.
"""
import os
import re
import shutil
import subprocess
import sys
import time

HERE = os.path.dirname(os.path.realpath(__file__))
sys.dont_write_bytecode = True
sys.path[:0] = [os.path.dirname(HERE), HERE]

from handover_test import Typist, judge
from harness import ROOT, Failed
from peers import free_ports, wait_for
from two_machines import Machines
from windows import BROKEN, Window, until

HAPROXY = "/usr/sbin/haproxy"
FEWEST = 30  # characters that each author types before the loss, and after it
WITHIN = 30  # seconds after the loss, until a window is saved again
LONGEST = 60  # seconds after the loss in which that is waited for
# HAProxy's own surroundings, before the lines of docs/STANDBY.md.
AROUND = """
defaults
    mode http
    timeout connect 1s
    timeout client 2m
    timeout server 2m
frontend page
    bind 127.0.0.1:%d
    default_backend pads
"""


def shown_configuration():
    """The `backend` of docs/STANDBY.md."""
    with open(f"{ROOT}/docs/STANDBY.md", encoding="utf-8") as page:
        found = re.search(r"^    backend pads\n(?:        .*\n)+", page.read(), re.M)
    if not found:
        raise Failed("docs/STANDBY.md shows no configuration of HAProxy")
    return re.sub("^    ", "", found[0], flags=re.M)


class Proxy:
    """HAProxy before the web addresses of both machines, with the lines that docs/STANDBY.md shows."""

    def __init__(self, webs):
        self.port = free_ports(1)[0]
        lines = shown_configuration()
        for address, port in zip(("10.0.0.1:8080", "10.0.0.2:8080"), webs):
            if address not in lines:
                raise Failed(f"the configuration in docs/STANDBY.md has no {address}")
            lines = lines.replace(address, f"127.0.0.1:{port}")
        with open("haproxy.cfg", "w", encoding="utf-8") as file:
            file.write(AROUND % self.port + lines)
        self.process = subprocess.Popen([HAPROXY, "-db", "-f", "haproxy.cfg"], stderr=subprocess.DEVNULL, stdout=subprocess.DEVNULL)

    def stop(self):
        self.process.kill()
        self.process.wait()


def open_windows(machines, proxy):
    owner = machines.author("ann")
    owner.does(do="create", pad="p")
    owner.does(do="grant", pad="p", author="bob", right="write")
    owner.does(do="insert", pad="p", rev=0, at=0, text="\n")
    owner.close()
    windows = [Window(f"http://127.0.0.1:{proxy.port}/") for _ in range(2)]
    for window, name, place in zip(windows, ["ann", "bob"], [0, 1]):
        window.log_in(name, f"t{name}")
        window.open("p")
        until(lambda window=window: window.text == "\n")
        window.select(place)
    return windows


def kept_on(window):
    """What a window says of the number of machines."""
    return window.run("return document.getElementById('machines').textContent")


def listed(window):
    """The authors in a window's legend, each without the share of the text."""
    shares = window.run("return [...document.querySelectorAll('#authors li')].map((one) => one.textContent)")
    return sorted(share.split()[0].rstrip(",:") for share in shares)


def lose_the_main_server(machines, web, typists):
    """While both type, the main machine is lost and the standby promoted; then both type on. Returns the time of the loss."""
    wait_for("both have typed", lambda: all(len(it.typed) >= FEWEST for it in typists))
    lost = time.monotonic()
    machines.kill(1)
    shutil.rmtree("main")
    machines.kill(2)
    machines.promoted(f"--web 127.0.0.1:{web}")
    typed = [len(it.typed) for it in typists]
    wait_for("both have typed on", lambda: all(len(it.typed) >= was + FEWEST for it, was in zip(typists, typed)))
    return lost


def seconds_until_saved(windows, lost):
    """How long after the loss each window is saved, in which nobody types any more. None: it is not in time."""
    found = [None] * len(windows)
    while None in found and time.monotonic() < lost + LONGEST:
        for place, window in enumerate(windows):
            if found[place] is None and window.is_saved(0):
                found[place] = time.monotonic() - lost
        time.sleep(0.05)
    return found


def play(check):
    machines, windows, proxy = Machines(), [], None
    webs = free_ports(2)
    try:
        machines.standby()
        machines.main("strict", f"--web 127.0.0.1:{webs[0]}")
        proxy = Proxy(webs)
        windows = open_windows(machines, proxy)
        for window, name in zip(windows, ["ann", "bob"]):
            is_said = until(lambda: kept_on(window) == "Kept on two machines")
            check(f"{name}'s window says that words are on two machines", is_said, kept_on(window))
        typists = [Typist(window, letters) for window, letters in zip(windows, ["0123456789", "abcdefghijklmnopqrstuvwxyz"])]
        try:
            lost = lose_the_main_server(machines, webs[1], typists)
        finally:
            for typist in typists:
                typist.end()
        due = "\n".join(typist.typed for typist in typists)
        for window, name, seconds in zip(windows, ["ann", "bob"], seconds_until_saved(windows, lost)):
            took = "never" if seconds is None else f"{seconds:.1f} s"
            is_soon = seconds is not None and seconds <= WITHIN
            check(f"{name}'s window is saved within {WITHIN} s of the loss: {took}", is_soon, window.state)
            is_said = until(lambda: kept_on(window) == "Kept on one machine only")
            check(f"{name}'s window says that words are on one machine", is_said, kept_on(window))
            check(f"each character is there once in {name}'s window", until(lambda: window.text == due), (window.text, due))
            is_said = until(lambda: listed(window) == ["ann", "bob"])
            check(f"{name}'s window shows each author once", is_said, listed(window))
        reader = machines.author("ann", "p", 2)
        text = reader.does(do="text", pad="p")["text"]
        check("each character is there once at the promoted server", text == due, (text, due))
        runs = reader.does(do="runs", pad="p")["runs"]
        check("authors of both numbers", {name for name, _ in runs} == {"ann@1", "bob@1", "ann@2", "bob@2"}, runs)
    finally:
        for window in windows:
            try:
                window.quit()
            except BROKEN:  # it is gone already
                pass
        if proxy:
            proxy.stop()
        for number, process in machines.processes.items():
            if process.poll() is None:
                machines.kill(number)


if __name__ == "__main__":
    sys.exit(judge(play, "failover-"))
