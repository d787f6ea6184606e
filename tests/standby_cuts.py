"""A standby whose connection is cut anywhere, also in the middle of a line, and power cuts of both machines."""
import glob
import os
import random
import shutil
import socket
import threading
import time

from harness import Failed, Test, put_files, want
from two_machines import NAMES, Machines, files_of, logged_in, power_cut, wait_until_copied
from writers import Writer, begin_pads, check_answered

CUTS = 12  # how often the connection is cut under load
BOTH_CUT = 4  # how often both machines lose their power
SIZES = "--cells 4096 --present 200"


class Cutter(threading.Thread):
    """Passes bytes on between the main server and its standby, and cuts each connection behind some number of them."""

    def __init__(self, to, seed):
        super().__init__(daemon=True)
        self.to, self.dice = to, random.Random(seed)
        self.listener = socket.create_server(("127.0.0.1", 0))
        self.port = self.listener.getsockname()[1]
        self.cuts, self.cuts_on, self.is_broken = 0, True, False
        # How many bytes the main server's connection may still send; None: any number.
        self.left = None
        self.start()

    def run(self):
        while True:
            main, _ = self.listener.accept()
            try:
                if self.is_broken:
                    raise OSError
                standby = socket.create_connection(("127.0.0.1", self.to))
            except OSError:
                main.close()
                continue
            # Enough for the greeting and the list of copies, most often, and then for some rounds.
            self.left = self.dice.randrange(200, 60_000) if self.cuts_on else None
            back = threading.Thread(target=self.pass_on, args=(standby, main, False), daemon=True)
            back.start()
            self.pass_on(main, standby, True)
            back.join()

    def break_off(self, left):
        """Lets the main server send so many more bytes, and then nothing, over no other connection either."""
        self.is_broken, self.left = True, left

    def pass_on(self, source, sink, is_counted):
        """Passes bytes on, as many as are left where they are counted, and then breaks both connections off."""
        try:
            while not is_counted or self.left is None or self.left > 0:
                some = source.recv(4_096)
                if not some:
                    break
                if is_counted and self.left is not None:
                    some = some[: self.left]
                    self.left -= len(some)
                sink.sendall(some)
        except OSError:
            pass
        if is_counted and self.left == 0:
            self.cuts += 1
        for end in (source, sink):
            try:
                end.shutdown(socket.SHUT_RDWR)
            except OSError:
                pass


class CutMachines(Machines):
    """Two machines, of which the main server reaches its standby through a cutter."""

    def __init__(self, seed):
        super().__init__()
        self.cutter = Cutter(self.ports[2], seed)
        lines = [f"author {name} t{name}\n" for name in NAMES]
        lines += [f"peer 1 secret 127.0.0.1:{self.ports[1]}\n", f"peer 2 secret 127.0.0.1:{self.cutter.port}\n"]
        put_files((("accounts", "".join(lines)),))


def the_connection_is_cut_under_load():
    machines = CutMachines("cut")
    machines.run(2, "copy", f"--standby-of 1 {SIZES}")
    # A connection that was cut is made again after a second, which is within the time that replies wait.
    machines.main("60", SIZES)
    begin_pads(machines)
    writers = [Writer(machines, name, f"cut {name}") for name in NAMES]
    ends = time.monotonic() + 120
    while machines.cutter.cuts < CUTS and time.monotonic() < ends:
        time.sleep(0.1)
    if machines.cutter.cuts < CUTS:
        raise Failed(f"the connection was cut {machines.cutter.cuts} times in two minutes")
    machines.kill(1)
    for writer in writers:
        writer.join()
    want("goes on alone" in machines.said(1), False, "that the main server went on alone")
    for name, copied in files_of("copy").items():
        with open(f"main/{name}", "rb") as file:
            want(file.read(len(copied)) == copied, True, f"that the copy of {name} is the beginning of the file")
    shutil.rmtree("main")
    machines.kill(2)
    machines.run(2, "copy", f"--new-replica {SIZES}")
    answered = check_answered(machines, writers)
    if answered < 50:
        raise Failed(f"only {answered} answers came before the loss")


def bytes_in(store):
    """How many bytes of each file a standby has, in the file or in its log."""
    found = {name: len(bytes_of_file) for name, bytes_of_file in files_of(store).items()}
    for pad, begins, count in logged_in(store):
        found[f"{pad}.pad"] = max(found.get(f"{pad}.pad", 0), begins + count)
    return found


def tear_tails(store, least, seed):
    """What the main server had not synced may be lost or zeros: anything behind what its standby has."""
    dice = random.Random(seed)
    for path in sorted(glob.glob(f"{store}/*.pad")):
        size, kept = os.path.getsize(path), least.get(os.path.basename(path), 0)
        if kept == 0 or size <= kept:
            continue
        at = dice.randint(kept, size)
        with open(path, "r+b") as file:
            if dice.random() < 0.5:
                file.truncate(at)
            else:
                file.seek(at)
                file.write(bytes(size - at))


def both_lose_their_power(seed):
    """Both machines lose their power under load, start again, and then the main machine is lost."""
    machines = Machines()
    machines.run(2, "copy", f"--standby-of 1 {SIZES}")
    machines.main("60", SIZES)
    begin_pads(machines)
    writers = [Writer(machines, name, f"both {seed} {name}") for name in NAMES[:8]]
    time.sleep(random.Random(seed).uniform(0.5, 2))
    machines.kill(1)
    machines.kill(2)
    for writer in writers:
        writer.join()
    tear_tails("main", bytes_in("copy"), seed)
    power_cut("copy", seed)
    machines.run(2, "copy", f"--standby-of 1 {SIZES}")
    machines.main("60", SIZES)
    machines.wait_until_said(1, "the standby 2 has everything that is stored here")
    wait_until_copied()
    machines.kill(1)
    shutil.rmtree("main")
    machines.kill(2)
    machines.run(2, "copy", f"--new-replica {SIZES}")
    answered = check_answered(machines, writers)
    machines.kill(2)
    shutil.rmtree("copy")
    os.remove("said1")
    os.remove("said2")
    return answered


def the_power_of_both_is_cut():
    answered = sum(both_lose_their_power(seed) for seed in range(BOTH_CUT))
    if answered < 20 * BOTH_CUT:
        raise Failed(f"only {answered} answers came before {BOTH_CUT} cuts")


TESTS = [
    Test("standby: its connection is cut under load", the_connection_is_cut_under_load, 240),
    Test("standby: the power of both is cut under load", the_power_of_both_is_cut, 240),
]
