"""Drives `pad_server --listen --store` by one writer and by 15 on one pad, beside an echo that writes and syncs as many bytes, and
by 500 on 1,000 pads; and an older program, if one is named, by the same writers in turn. On a disk whose syncs take a given time,
if one is given (drive/disk.c)."""
import os
import shutil
import statistics
import subprocess
import sys
import tempfile
from pathlib import Path

from listen import DRIVE, OUT, SERVER, TOP, build as build_listen, drive, print_row

sys.path.insert(0, str(TOP / "tests"))
from faults import Faults

SYNCED = OUT / "synced"
DISK = OUT / "disk.so"

# So many answered edits for each sync are aimed at with 15 writers, so many times the replies a second of one writer, and so many times
# the echo's median for one writer.
EDITS_AIM, RATE_AIM, P50_AIM = 6, 3, 1.5

# Writers, on how many pads, of how many characters, and how many times the replies a second of an older program are aimed at. Each
# program has so many turns.
TURNS = 3
CASES = [(1, 1, 5_000, 1), (15, 1, 5_000, 2), (500, 1_000, 200, 2)]


def serve(accounts, folder, writers, requests, variables, program=SERVER, pads=1, size=5_000):
    words = ["--listen", "127.0.0.1:0", "--replica", "1", "--cells", str(max(16, pads)), "--store", folder]
    words += ["--connections", str(writers + 1), "--accounts", accounts]
    environment = {**os.environ, **variables}
    process = subprocess.Popen([program, *words], stdout=subprocess.PIPE, env=environment)
    return drive(process, "pads", writers, pads, requests, size)


def compare(before, requests, variables):
    """Drives both programs in turn, and prints each turn, the medians of each program and their ratio."""
    programs = {"before": before, "now": SERVER} if before else {"now": SERVER}
    for writers, pads, size, aim in CASES:
        each = max(1, requests * min(writers, 15) // writers)
        taken = {name: [] for name in programs}
        for turn in range(TURNS):
            for name, program in programs.items():
                folder = f"{name}-{writers}-{turn}"
                taken[name].append(serve("accounts", folder, writers, each, variables, program, pads, size))
                print_row(f"{name} {turn + 1}", writers, pads, taken[name][-1], size)
                shutil.rmtree(folder)
        rows = {name: [statistics.median(column) for column in zip(*rounds)] for name, rounds in taken.items()}
        for name, row in rows.items():
            print_row(f"{name} median", writers, pads, row, size)
        if before:
            print(f"replies a second now over before {rows['now'][0] / rows['before'][0]:.2f}, aims {aim}")


def echo(folder, size, requests, variables):
    os.mkdir(folder)
    process = subprocess.Popen([SYNCED, folder, str(size), "1"], stdout=subprocess.PIPE, env={**os.environ, **variables})
    return drive(process, "echo", 1, 1, requests)


def syncs_of(accounts, folder, writers, requests):
    """How many syncs a run makes."""
    faults = Faults()
    serve(accounts, folder, writers, requests, faults.variables)
    return faults.get("syncs_made")


def disk_of(sync):
    """What lets the syncs of a server take so many microseconds, or None for those of the disk."""
    if sync is None:
        return {}
    subprocess.run(["cc", "-shared", "-fPIC", "-O2", "-o", DISK, TOP / "bench" / "drive" / "disk.c"], check=True)
    return {"LD_PRELOAD": str(DISK), "SYNC_NANOSECONDS": str(sync * 1_000)}


def measure(flags, requests, before, sync):
    """`before` is another server's program, to be compared with in the same run. A sync takes `sync` microseconds, or as long as the
    disk takes."""
    build_listen(flags)
    variables = disk_of(sync)
    subprocess.run(["rustc", *flags, "-o", SYNCED, TOP / "bench" / "drive" / "synced.rs"], check=True)
    print(f"load {os.getloadavg()[0]:.1f} on {os.cpu_count()} processors, {requests} requests of each writer")
    print(f"{'':<14}{'writers':>8}{'pads':>6}{'size':>9}{'replies/s':>12}{'p50 us':>10}{'p99 us':>10}{'p99.9 us':>11}")
    with tempfile.TemporaryDirectory(dir=OUT) as folder:
        os.chdir(folder)
        Path("accounts").write_text("author owner t\n" + "".join(f"author w{writer} t\n" for writer in range(500)))
        one = serve("accounts", "one", 1, requests, variables)
        size = os.path.getsize("one/p0.pad") // requests
        bare = echo("bare", size, requests, variables)
        many = serve("accounts", "many", 15, requests, variables)
        edits = 15 * requests / syncs_of("accounts", "counted", 15, requests)
        compare(before, requests, variables)
    print_row("synced echo", 1, 1, bare)
    print_row("pad_server", 1, 1, one)
    print_row("pad_server", 15, 1, many)
    print(f"{size} bytes a record; p50 of one writer over the echo's {one[1] / bare[1]:.2f}, aims {P50_AIM}")
    print(f"replies a second of 15 writers over those of one {many[0] / one[0]:.2f}, aims {RATE_AIM}")
    print(f"answered edits a sync with 15 writers {edits:.2f}, aims {EDITS_AIM}")
