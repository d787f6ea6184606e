"""Drives `pad_server --listen` by writers beside clients that are connected and say nothing, or wait for changes."""
import os
import resource
import socket
import subprocess
import tempfile
import time
from pathlib import Path

import listen

# How many clients are beside the writers, and whether they wait for changes.
CASES = [(0, False), (200, False), (200, True), (1_000, False), (1_000, True), (5_000, False)]
WRITERS, SIZE = 15, 5_000
CLIENTS_A_PAD = 60
PADS = 60
FILES = 20_000
KIB_AIM = 4


def resident(process):
    for line in Path(f"/proc/{process.pid}/status").read_text().splitlines():
        if line.startswith("VmRSS:"):
            return int(line.split()[1])
    raise SystemExit("bench/run: the server has ended")


class Client:
    def __init__(self, address):
        host, port = address.rsplit(":", 1)
        self.socket = socket.create_connection((host, int(port)))

    def ask(self, line):
        self.socket.sendall(line.encode() + b"\n")
        got = b""
        while not got.endswith(b"\n"):
            more = self.socket.recv(65_536)
            if not more:
                raise SystemExit(f"bench/run: the connection was closed at {line}")
            got += more
        if b'"ok":true' not in got:
            raise SystemExit(f"bench/run: {line} was answered {got.decode()}")


def prepare(address):
    """Pads that the clients may join, besides the one that the writers type into."""
    owner = Client(address)
    owner.ask('{"do":"hello","name":"owner","token":"t"}')
    for pad in range(PADS):
        owner.ask(f'{{"do":"create","pad":"idle{pad}"}}')
        owner.ask(f'{{"do":"grant","pad":"idle{pad}","author":"idle","right":"read"}}')
        owner.ask(f'{{"do":"leave","pad":"idle{pad}"}}')
    return owner


def crowd(address, count, waits):
    """Clients that have logged in, and joined a pad as far as there is room; where they wait, for its next revision."""
    clients = []
    for number in range(count):
        client = Client(address)
        client.ask('{"do":"hello","name":"idle","token":"t"}')
        pad = number // CLIENTS_A_PAD
        if pad < PADS:
            client.ask(f'{{"do":"join","pad":"idle{pad}"}}')
            if waits:
                client.socket.sendall(f'{{"do":"changes","pad":"idle{pad}","rev":0,"wait":60}}\n'.encode())
        clients.append(client)
    return clients


def beside(accounts, count, waits, requests):
    """KiB for each client, and what the driver measured of the writers."""
    words = ["--listen", "127.0.0.1:0", "--replica", "1", "--accounts", accounts]
    process = subprocess.Popen([listen.SERVER, *words], stdout=subprocess.PIPE)
    try:
        address = process.stdout.readline().decode().split()[-1]
        owner = prepare(address)
        before = resident(process)
        clients = crowd(address, count, waits)
        time.sleep(1)
        each = (resident(process) - before) / count if count else 0.0
        words = [listen.DRIVE, address, "pads", WRITERS, 1, SIZE, requests]
        said = subprocess.run([str(word) for word in words], capture_output=True, check=True, text=True).stdout
        owner.ask('{"do":"pads"}')
        for client in clients:
            client.socket.close()
        return each, [float(word) for word in said.split()]
    finally:
        process.kill()
        process.wait()


def measure(flags, requests):
    listen.build(flags)
    resource.setrlimit(resource.RLIMIT_NOFILE, (FILES, FILES))
    print(f"load {os.getloadavg()[0]:.1f} on {os.cpu_count()} processors, {requests} requests of each of {WRITERS} writers")
    print(f"{'clients':<16}{'KiB each':>10}{'replies/s':>12}{'p50 us':>10}{'p99 us':>10}{'p99.9 us':>11}{'of none':>9}")
    with tempfile.NamedTemporaryFile("w", suffix=".accounts") as accounts:
        names = ["owner", "idle", *[f"w{writer}" for writer in range(WRITERS)]]
        accounts.write("".join(f"author {name} t\n" for name in names))
        accounts.flush()
        alone = None
        for count, waits in CASES:
            each, row = beside(accounts.name, count, waits, requests)
            alone = alone or row[0]
            name = f"{count} {'waiting' if waits else 'idle'}" if count else "none"
            figures = "".join(f"{figure:>{width}.{digits}f}" for figure, width, digits in zip(row, (12, 10, 10, 11), (0, 1, 1, 1)))
            print(f"{name:<16}{each:>10.2f}{figures}{row[0] / alone:>9.2f}", flush=True)
    print(f"aim: at most {KIB_AIM} KiB for each client, and no loss that can be seen")
