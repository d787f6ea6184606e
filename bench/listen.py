"""Drives `pad_server --listen` by writers that send one request at a time each, beside lines that it refuses unread."""
import os
import subprocess
import sys
import tempfile
from pathlib import Path

TOP = Path(__file__).resolve().parent.parent
OUT = TOP / "bench" / "out"
DRIVE = OUT / "drive"
SERVER = TOP / "crates" / "pad_server" / "out" / "pad_server"

# Writers, how many pads they are spread over, and how many characters a pad has before they begin.
CASES = [(1, 1, 5_000), (4, 1, 5_000), (15, 1, 5_000), (15, 15, 5_000), (15, 1, 100_000), (500, 50, 5_000)]

# So many requests are made by all writers at most, for each that one writer is asked for.
MOST = 15

# Of the replies a second to lines that are no JSON from their first byte on, this part is aimed at, and so many microseconds
# for 99 of 100 replies, of 15 writers on one pad.
RATE_AIM, P99_AIM = 1 / 3, 5_000


def build(flags):
    command = ["rt", "run", "--", "--help"]
    subprocess.run(command, cwd=SERVER.parent.parent, stdin=subprocess.DEVNULL, stdout=sys.stderr, check=True)
    OUT.mkdir(exist_ok=True)
    subprocess.run(["rustc", *flags, "-o", DRIVE, TOP / "bench" / "drive" / "main.rs"], check=True)


def drive(process, kind, writers, pads, requests, size=5_000):
    """What the driver measured: replies a second, and three times in microseconds."""
    address = process.stdout.readline().decode().split()[-1]
    words = [DRIVE, address, kind, writers, pads, size, requests]
    said = subprocess.run([str(word) for word in words], capture_output=True, check=True, text=True).stdout
    if process.wait(60) != 0:
        raise SystemExit(f"bench/run: the server of `{kind}` ended with status {process.returncode}")
    return [float(word) for word in said.split()]


def serve(accounts, kind, writers, pads, requests, size):
    words = ["--listen", "127.0.0.1:0", "--replica", "1"]
    # One more makes the pads.
    words += ["--connections", str(writers + (kind == "pads")), "--accounts", accounts]
    return drive(subprocess.Popen([SERVER, *words], stdout=subprocess.PIPE), kind, writers, pads, requests, size)


def print_row(name, writers, pads, row, size=5_000):
    print(f"{name:<14}{writers:>8}{pads:>6}{size:>9}{row[0]:>12.0f}{row[1]:>10.1f}{row[2]:>10.1f}{row[3]:>11.1f}", flush=True)


def measure(flags, requests):
    build(flags)
    print(f"load {os.getloadavg()[0]:.1f} on {os.cpu_count()} processors, {requests} requests of each writer")
    print(f"{'':<14}{'writers':>8}{'pads':>6}{'size':>9}{'replies/s':>12}{'p50 us':>10}{'p99 us':>10}{'p99.9 us':>11}")
    with tempfile.NamedTemporaryFile("w", suffix=".accounts") as accounts:
        accounts.write("author owner t\n" + "".join(f"author w{writer} t\n" for writer in range(500)))
        accounts.flush()
        for writers, pads, size in CASES:
            each = requests if writers <= MOST else requests * MOST // writers
            bare, ours = (serve(accounts.name, kind, writers, pads, each, size) for kind in ("refused", "pads"))
            print_row("refused", writers, pads, bare, size)
            print_row("pads", writers, pads, ours, size)
            aims = f", aims {RATE_AIM:.2f} and a p99 below {P99_AIM} us" if (writers, pads) == (15, 1) else ""
            print(f"{'ratio':<14}{'':>8}{'':>6}{'':>9}{ours[0] / bare[0]:>12.3f}{aims}", flush=True)
