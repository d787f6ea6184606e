"""A main server with `--confirm 5` goes on alone after its standby is lost, and is then lost itself: what it answered before is
there."""
import math
import os
import random
import shutil
import signal
import time

from faults import Faults
from harness import Failed, Test
from standby_cuts import CutMachines
from two_machines import NAMES
from writers import Writer, begin_pads, check_answered

MANY = 20  # how often each of the losses is played in the long run
SIZES = "--cells 4096 --present 200"
# An answer that came this many seconds before the server was seen to be alone was confirmed. None comes in the five seconds
# before, so this is only more than the time after which a message is seen.
MARGIN = 0.5


class WeakMachines(CutMachines):
    """Two machines with a connection that can be broken off, and a standby whose disk can be full."""

    def __init__(self, seed):
        super().__init__(seed)
        self.cutter.cuts_on = False
        self.faults = Faults()

    def variables(self, number):
        return self.faults.variables if number == 2 else None

    def signal(self, sign):
        os.kill(self.processes[2].pid, sign)

    def goes_on_alone(self):
        """Waits until the main server is alone. Returns a time by which each answer was confirmed."""
        self.wait_until_said(1, "goes on alone")
        return time.monotonic() - MARGIN


def the_standby_is_stopped(machines, _):
    machines.signal(signal.SIGSTOP)


def the_standby_is_killed(machines, _):
    machines.kill(2)


def the_connection_is_lost(machines, dice):
    """Behind some bytes, so mostly in the middle of a line."""
    machines.cutter.break_off(dice.randrange(1, 3_000))


def its_disk_is_full(machines, dice):
    machines.faults.set("room", dice.randrange(1, 20_000))


def under_load(dice, seed):
    """Two machines of which the first confirms what it answers, and fifteen authors who have written for a while."""
    machines = WeakMachines(seed)
    machines.run(2, "copy", f"--standby-of 1 {SIZES}")
    machines.main("5", SIZES)
    machines.wait_until_said(1, "has everything that is stored here")
    begin_pads(machines)
    writers = [Writer(machines, name, f"{seed} {name}") for name in NAMES]
    time.sleep(dice.uniform(0.5, 2))
    return machines, writers


def lose_both(lose_the_standby, seed):
    """Returns how many answers were confirmed, and how many were given alone."""
    dice = random.Random(f"{lose_the_standby.__name__} {seed}")
    machines, writers = under_load(dice, seed)
    lose_the_standby(machines, dice)
    until = machines.goes_on_alone()
    time.sleep(dice.uniform(0.2, 1))
    return promoted_has(machines, writers, until)


def promoted_has(machines, writers, until):
    """The main server and its store are lost, and the standby is promoted, wherever it is: it has what was answered by a time."""
    machines.kill(1)
    shutil.rmtree("main")
    for writer in writers:
        writer.join()
    if machines.processes[2].poll() is None:
        machines.kill(2)
    machines.faults.set("room", 0)
    machines.run(2, "copy", f"--new-replica {SIZES}")
    confirmed = check_answered(machines, writers, until)
    alone = sum(it.at > until for writer in writers for it in writer.made)
    machines.kill(2)
    shutil.rmtree("copy")
    for name in ("said1", "said2"):
        os.remove(name)
    return confirmed, alone


def both_are_lost(lose_the_standby, rounds):
    counts = [lose_both(lose_the_standby, seed) for seed in range(rounds)]
    confirmed, alone = (sum(column) for column in zip(*counts))
    if confirmed < 50 * rounds or alone == 0:
        raise Failed(f"only {confirmed} answers were confirmed in {rounds} rounds, and {alone} given alone")


def the_standby_comes_back(rounds):
    """It is stopped, goes on, and catches up: then everything that was answered is there, also what was answered alone."""
    for seed in range(rounds):
        machines, writers = under_load(random.Random(f"back {seed}"), seed)
        machines.signal(signal.SIGSTOP)
        until = machines.goes_on_alone()
        time.sleep(0.5)
        machines.signal(signal.SIGCONT)
        machines.wait_until_said(1, "goes on alone no longer")
        alone = sum(it.at > until for writer in writers for it in writer.made)
        time.sleep(0.5)
        promoted_has(machines, writers, math.inf)
        if alone == 0:
            raise Failed("nothing was answered while the server was alone")


LOSSES = [
    ("it is stopped", the_standby_is_stopped),
    ("it is killed", the_standby_is_killed),
    ("its connection is lost", the_connection_is_lost),
    ("its disk is full", its_disk_is_full),
]


def tests(more, rounds, seconds):
    """A test of each loss, and of a standby that comes back."""
    table = [
        Test(f"standby: {what}, and the main machine is lost{more}", lambda lose=lose: both_are_lost(lose, rounds), seconds)
        for what, lose in LOSSES
    ]
    back = Test(f"standby: it comes back, and the main machine is lost{more}", lambda: the_standby_comes_back(rounds), seconds)
    return [*table, back]


TESTS = tests("", 1, 120)
LONG_TESTS = tests(f", {MANY} times", MANY, 2_000)
