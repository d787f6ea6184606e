"""Measures a server with a thousand pads beside one with the same operations on as few pads as hold them: how long it takes
to start, and its memory; 500 writers on its pads; and how long a server that has none of them takes to get them all."""
import json
import os
import socket
import subprocess
import tempfile
import time
from pathlib import Path

from crowd import Client
from kept import MOST, write_pad
from listen import DRIVE, OUT, SERVER, build

WRITERS = 500
PRESENT = 1_024  # on a pad at once: the writers and their owner, where there is one pad
# A start that takes at most so many times the memory that is in use after it is aimed at.
START_AIM = 1.2
ACCOUNTS = "author owner t\n" + "".join(f"author w{writer} t\n" for writer in range(WRITERS))


class Served:
    """A server with a store, from its start on."""

    def __init__(self, folder, cells, listen="127.0.0.1:0", replica=1, accounts="accounts"):
        words = ["--listen", listen, "--replica", replica, "--cells", cells, "--present", PRESENT, "--store", folder, "--accounts", accounts]
        began = time.monotonic()
        command = [SERVER, *[str(word) for word in words]]
        self.process = subprocess.Popen(command, stdout=subprocess.PIPE, stderr=subprocess.DEVNULL)
        line = self.process.stdout.readline().decode()
        self.start = time.monotonic() - began
        if not line.startswith("listening on "):
            raise SystemExit(f"bench/run: the server of {folder} does not start")
        self.address = line.split()[-1]
        self.memory, self.peak = self.mib("VmRSS"), self.mib("VmHWM")

    def mib(self, name):
        for line in Path(f"/proc/{self.process.pid}/status").read_text().splitlines():
            if line.startswith(f"{name}:"):
                return int(line.split()[1]) / 1024
        raise SystemExit("bench/run: a server has ended")

    def end(self):
        self.process.kill()
        self.process.wait()
        self.process.stdout.close()


class Owner(Client):
    """The owner of all pads."""

    def __init__(self, address):
        super().__init__(address)
        self.file = self.socket.makefile("rb")
        self.ask('{"do":"hello","name":"owner","token":"t"}')

    def operations(self):
        """How many operations all pads have."""
        self.socket.sendall(b'{"do":"pads"}\n')
        return sum(pad[2] for pad in json.loads(self.file.readline())["pads"])


def write_store(folder, pads, each, replica=1):
    """The size of a new store, in MiB."""
    os.mkdir(folder)
    for pad in range(pads):
        write_pad(folder, f"p{pad}", each, "owner", replica)
    return sum(file.stat().st_size for file in Path(folder).iterdir()) / 2**20


def print_start(name, pads, size, served):
    peak = served.peak / served.memory
    print(f"{name:<16}{pads:>6}{size:>10.0f}{served.start:>10.2f}{served.memory:>10.0f}{peak:>10.2f}", flush=True)


def print_writers(name, pads, served, each, requests):
    """Replies a second to 500 writers on pads that are there, and three times from a line to its reply."""
    words = [DRIVE, served.address, "kept", WRITERS, pads, each, requests]
    said = subprocess.run([str(word) for word in words], capture_output=True, check=True, text=True).stdout
    rate, *times = [float(word) for word in said.split()]
    print(f"{name:<16}{pads:>6}{rate:>12.0f}" + "".join(f"{time:>12.1f}" for time in times), flush=True)


def free_ports():
    """Two ports that nobody listens at; other programs seldom take one in between."""
    listeners = [socket.create_server(("127.0.0.1", 0)) for _ in range(2)]
    ports = [listener.getsockname()[1] for listener in listeners]
    for listener in listeners:
        listener.close()
    return ports


def exchange(folder, pads, each):
    """Seconds until a server that starts with empty pads of the same names has all operations of another one."""
    ports = free_ports()
    for number, port in ((1, ports[1]), (2, ports[0])):
        Path(f"accounts{number}").write_text(f"{ACCOUNTS}peer {3 - number} s 127.0.0.1:{port}\n", encoding="utf-8")
    write_store(f"{folder}-away", pads, 0, 2)
    first = Served(folder, pads, f"127.0.0.1:{ports[0]}", 1, "accounts1")
    second = Served(f"{folder}-away", pads, f"127.0.0.1:{ports[1]}", 2, "accounts2")
    began = time.monotonic()
    owner, all_of_them = Owner(second.address), Owner(first.address).operations()
    while owner.operations() < all_of_them:
        time.sleep(0.2)
    taken = time.monotonic() - began
    second.end()
    first.end()
    return taken


def measure(flags, requests, pads=1_000, each=2_000):
    build(flags)
    # (a full pad would refuse what the writers write, and a pad has at most 256 authors)
    few = max(2, pads * each // (MOST * 9 // 10) + 1)
    stores = [("many pads", pads, each), ("as few as hold it", few, pads * each // few)]
    print(f"load {os.getloadavg()[0]:.1f} on {os.cpu_count()} processors, {pads * each} operations")
    with tempfile.TemporaryDirectory(dir=OUT) as room:
        os.chdir(room)
        Path("accounts").write_text(ACCOUNTS, encoding="utf-8")
        print(f"{'':<16}{'pads':>6}{'file MiB':>10}{'start s':>10}{'MiB then':>10}{'peak':>10}, aims {START_AIM}")
        for name, count, operations in stores:
            size = write_store(f"store{count}", count, operations)
            served = Served(f"store{count}", count)
            print_start(name, count, size, served)
            served.end()
        print(f"{'':<16}{'pads':>6}{'replies/s':>12}{'p50 us':>12}{'p99 us':>12}{'p99.9 us':>12}")
        for name, count, operations in stores:
            served = Served(f"store{count}", count)
            print_writers(name, count, served, operations, max(1, requests * 15 // WRITERS))
            served.end()
        for name, count, operations in stores:
            print(f"{name:<16}{count:>6}: a second server has all after {exchange(f'store{count}', count, operations):.1f} s", flush=True)
