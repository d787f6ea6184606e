#!/usr/bin/env python3
"""The hand-over of handover_test.py with the real toolchain: `./serve` in an empty clone of what is committed, with all its proofs.
It takes an hour or two, prints how long each part took, and no other test calls it.

    tests/web/first_start.py

The last line is `N passed, M failed`.
"""
import os
import subprocess
import sys
import time

HERE = os.path.dirname(os.path.realpath(__file__))
sys.dont_write_bytecode = True
sys.path[:0] = [os.path.dirname(HERE), HERE]

import fresh_machine
import handover_test

PATIENCE = 4 * 3600  # seconds, for what is to come
REST = 1  # seconds of an author after each letter: an hour of typing shall not take the processors from the proofs


class Clone(fresh_machine.Machine):
    """The script `serve` in an empty clone."""

    def __init__(self):
        subprocess.run(["git", "clone", "-q", fresh_machine.ROOT, "clone"], check=True)
        os.chdir("clone")
        self.variables, self.lines = dict(os.environ), []
        self.port, self.web = fresh_machine.free_port(), fresh_machine.free_port()
        self.begun = time.monotonic()
        self.start()

    def read(self, process):
        for line in process.stdout:
            print(f"{time.monotonic() - self.begun:7.0f} s  {line.rstrip()}", flush=True)
            self.lines.append(line.rstrip())


def play(check):
    handover_test.play_with(check, Clone(), rest=REST)


if __name__ == "__main__":
    fresh_machine.PATIENCE = PATIENCE
    sys.exit(handover_test.judge(play, "first-start-"))
