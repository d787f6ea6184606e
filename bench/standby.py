"""Drives `pad_server --listen --store` by one writer and by 15 on one pad: alone, with a standby that follows, and with one that
confirms each reply before it is written."""
import os
import socket
import subprocess
import tempfile
from pathlib import Path

from listen import OUT, SERVER, build as build_listen, drive, print_row

# The replies a second of 15 writers with a standby that confirms over those without one, and the medians of one writer.
RATE_AIM, P50_AIM = 0.6, 3.0

KINDS = [("alone", None), ("followed", []), ("confirmed", ["--confirm", "strict"])]


def free_port():
    with socket.create_server(("127.0.0.1", 0)) as listener:
        return listener.getsockname()[1]


def accounts(ports):
    lines = ["author owner t\n"] + [f"author w{writer} t\n" for writer in range(15)]
    lines += [f"peer {number} secret 127.0.0.1:{port}\n" for number, port in ports.items()]
    return "".join(lines)


def serve(name, confirm, writers, requests):
    """A run of one kind, with stores of its own."""
    ports = {1: free_port(), 2: free_port()}
    os.mkdir(name)
    Path(f"{name}/accounts").write_text(accounts(ports))
    common = ["--accounts", f"{name}/accounts"]
    standby = None
    words = ["--listen", "127.0.0.1:0", "--replica", "1", "--cells", "16", "--store", f"{name}/main"]
    if confirm is not None:
        words += ["--standby", "2", *confirm]
        standby = subprocess.Popen(
            [SERVER, "--listen", f"127.0.0.1:{ports[2]}", "--replica", "2", "--store", f"{name}/copy", "--standby-of", "1", *common],
            stdout=subprocess.PIPE, stderr=subprocess.DEVNULL,
        )
        standby.stdout.readline()
    try:
        process = subprocess.Popen(
            [SERVER, *words, "--connections", str(writers + 1), *common], stdout=subprocess.PIPE, stderr=subprocess.DEVNULL
        )
        return drive(process, "pads", writers, 1, requests)
    finally:
        if standby is not None:
            standby.kill()
            standby.wait()


def measure(flags, requests):
    build_listen(flags)
    print(f"load {os.getloadavg()[0]:.1f} on {os.cpu_count()} processors, {requests} requests of each writer, both stores on one disk")
    print(f"{'':<14}{'writers':>8}{'pads':>6}{'size':>9}{'replies/s':>12}{'p50 us':>10}{'p99 us':>10}{'p99.9 us':>11}")
    found = {}
    with tempfile.TemporaryDirectory(dir=OUT) as folder:
        os.chdir(folder)
        for writers in (1, 15):
            for kind, confirm in KINDS:
                found[kind, writers] = serve(f"{kind}{writers}", confirm, writers, requests)
                print_row(kind, writers, 1, found[kind, writers])
    for kind in ("followed", "confirmed"):
        rate = found[kind, 15][0] / found["alone", 15][0]
        median = found[kind, 1][1] / found["alone", 1][1]
        print(f"{kind}: replies a second of 15 writers {rate:.2f} times, aims {RATE_AIM}; p50 of one writer {median:.2f} times, aims {P50_AIM}")
