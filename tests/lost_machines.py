"""The main machine is lost under load, and the standby is killed under load."""
import random
import shutil
import time

from harness import Failed, Test, want
from two_machines import NAMES, Machines, files_of, wait_until_copied
from writers import Writer, begin_pads, check_answered

LOSSES = 4  # how often the main machine is lost under load
MANY_LOSSES = 100
KILLS = 6  # how often the standby is killed under load


def lose_the_machine(seed, confirm, seconds):
    machines = Machines()
    machines.standby()
    machines.main(confirm, "--cells 4096 --present 200")
    begin_pads(machines)
    writers = [Writer(machines, name, f"{seed} {name}") for name in NAMES]
    time.sleep(seconds)
    machines.kill(1)
    shutil.rmtree("main")
    for writer in writers:
        writer.join()
    machines.kill(2)
    machines.promoted("--cells 4096 --present 200")
    answered = check_answered(machines, writers)
    machines.kill(2)
    shutil.rmtree("copy")
    return answered, sum(writer.taken for writer in writers)


def the_machine_is_lost(rounds):
    dice = random.Random(2026)
    answered, taken = 0, 0
    for round_number in range(rounds):
        counts = lose_the_machine(round_number, "strict", dice.uniform(0.3, 2.5))
        answered, taken = answered + counts[0], taken + counts[1]
    if answered < 50 * rounds or taken == 0:
        raise Failed(f"only {answered} answers came before the losses, and {taken} to rights that were taken away")


def the_machine_is_lost_under_load():
    the_machine_is_lost(LOSSES)


def the_machine_is_lost_many_times():
    the_machine_is_lost(MANY_LOSSES)


def a_killed_standby_goes_on():
    """The standby is killed at any moment, and started again: its files stay beginnings of the main server's."""
    machines = Machines()
    machines.standby()
    machines.main("", "--cells 4096 --present 200")
    begin_pads(machines)
    writers = [Writer(machines, name, f"kill {name}") for name in NAMES[:6]]
    dice = random.Random(7)
    for _ in range(KILLS):
        time.sleep(dice.uniform(0.1, 0.6))
        machines.kill(2)
        machines.standby()
        for name, bytes_of_copy in files_of("copy").items():
            with open(f"main/{name}", "rb") as file:
                want(file.read(len(bytes_of_copy)) == bytes_of_copy, True, f"that the copy of {name} is the beginning of the file")
    time.sleep(0.5)
    machines.kill(1)
    for writer in writers:
        writer.join()
    machines.main("", "--cells 4096")
    wait_until_copied()


TESTS = [
    Test("standby: the machine is lost under load", the_machine_is_lost_under_load, 120),
    Test("standby: it is killed, and goes on", a_killed_standby_goes_on, 90),
]

LONG_TESTS = [Test("standby: the machine is lost under load, 100 times", the_machine_is_lost_many_times, 3000)]
