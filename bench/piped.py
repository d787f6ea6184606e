"""Drives `pad_server --stdin` with the traces of BlockSeq as request lines, all piped at once, beside the plain-Rust twin behind the
same lines."""
import os
import random
import statistics
import subprocess
import sys
import tempfile
from pathlib import Path

TOP = Path(__file__).resolve().parent.parent
TWIN = TOP / "bench" / "out" / "twin"
SERVER = TOP / "crates" / "pad_server" / "out" / "pad_server"
PROGRAMS = {"twin": [TWIN, "lines"], "pad_server": [SERVER, "--stdin", "--replica", "1"]}
TRACES = ["append", "forward", "random", "stale4"]
SIZES = [10_000, 100_000]

# Of the twin's replies a second this part is aimed at, and what an edit of the larger size takes over one of the smaller, as a
# multiple of the twin's own.
RATE_AIM, GROWTH_AIM = 1 / 3, 1.3

# So many insertions of four characters leave 80,000 blocks. Then so many requests are timed, whose revision is the present or
# lies so far behind, and of an insertion at most so many times the time of a `revs` is aimed at.
TYPED, BEHIND = 50_000, {"at the present": (0, 3.0), "4 behind": (4, 3.5)}


def insert(rev, at, text):
    return f'{{"at":{at},"do":"insert","pad":"p","rev":{rev},"text":"{text}"}}\n'


def requests(trace, size):
    """The lines of a trace: a pad, and then so many edits of it."""
    dice = random.Random(1)
    yield '{"do":"create","pad":"p"}\n'
    lengths = [0]
    for rev in range(size):
        length = lengths[-1]
        if trace == "append":
            line, grown = insert(rev, length, "x"), 1
        elif trace == "forward":
            line, grown = insert(rev, max(length - 1, 0), "x"), 1
        elif trace == "random" and rev % 8 == 7:
            line, grown = f'{{"at":{dice.randrange(length)},"do":"delete","len":1,"pad":"p","rev":{rev}}}\n', -1
        else:
            seen = max(rev - 4, 0) if trace == "stale4" else rev
            line, grown = insert(seen, dice.randrange(lengths[seen] + 1), "text"), 4
        yield line
        lengths.append(length + grown)


def typed(dice):
    """The lines of a pad of some 80,000 blocks."""
    yield '{"do":"create","pad":"p"}\n'
    for rev in range(TYPED):
        yield insert(rev, dice.randrange(4 * rev + 1), "text")


def more(dice, behind):
    """The lines of as many insertions of a character there."""
    for count in range(TYPED):
        seen = max(count - behind, 0)
        yield insert(TYPED + seen, dice.randrange(4 * TYPED + seen + 1), "x")


def beside_revs(folder, rounds):
    """What an insertion among 80,000 blocks and more takes, in times of a `revs` in the same run: both without what the typing takes."""
    path, dice = Path(folder, "lines"), random.Random(2)
    front = "".join(typed(dice))
    works = {"typing": "", "revs": '{"do":"revs","pad":"p"}\n' * TYPED}
    works |= {name: "".join(more(dice, behind)) for name, (behind, _) in BEHIND.items()}
    taken = {name: [] for name in works}
    for _ in range(rounds):
        for name, lines in works.items():
            path.write_text(front + lines)
            taken[name].append(run("pad_server", path, Path(folder, "replies"))[0])
    median = {name: statistics.median(times) for name, times in taken.items()}
    each = {name: (time - median["typing"]) / TYPED for name, time in median.items()}
    for name, (_, aim) in BEHIND.items():
        print(f"an insertion among 80,000 blocks and more, {name}: {each[name] * 1e6:.1f} us, {each[name] / each['revs']:.2f} revs (aim: {aim})")


def run(program, path, replies):
    """Seconds of processor time and KiB at most of a run over a file of lines, whose replies go to another one."""
    with open(path, "rb") as lines, open(replies, "wb") as answers:
        process = subprocess.Popen(PROGRAMS[program], stdin=lines, stdout=answers, stderr=subprocess.DEVNULL)
        _, status, usage = os.wait4(process.pid, 0)
    process.returncode = os.waitstatus_to_exitcode(status)
    if process.returncode != 0:
        raise SystemExit(f"bench/run: {program} ended with status {process.returncode}")
    return usage.ru_utime + usage.ru_stime, usage.ru_maxrss


def compare(folder, trace, size, rounds):
    """The median seconds and the memory of each program, which take turns and answer alike."""
    path = Path(folder, "lines")
    path.write_text("".join(requests(trace, size)))
    taken = {name: [] for name in PROGRAMS}
    for _ in range(rounds):
        for name in PROGRAMS:
            taken[name].append(run(name, path, Path(folder, name)))
        if Path(folder, "twin").read_bytes() != Path(folder, "pad_server").read_bytes():
            raise SystemExit(f"bench/run: the replies of {trace} {size} differ")
    return {name: (statistics.median(each[0] for each in runs), max(each[1] for each in runs)) for name, runs in taken.items()}


def build(flags):
    command = ["rt", "run", "--", "--help"]
    subprocess.run(command, cwd=SERVER.parent.parent, stdin=subprocess.DEVNULL, stdout=sys.stderr, check=True)
    TWIN.parent.mkdir(exist_ok=True)
    subprocess.run(["rustc", *flags, "-o", TWIN, TOP / "bench" / "twin" / "main.rs"], check=True)


def measure(flags, rounds):
    build(flags)
    print(f"load {os.getloadavg()[0]:.1f} on {os.cpu_count()} processors, median processor time of {rounds} rounds")
    print(f"{'trace':<10}{'edits':>8}{'twin s':>9}{'ours s':>9}{'rate':>8}{'growth':>8}{'twin KiB':>10}{'our KiB':>10}")
    with tempfile.TemporaryDirectory() as folder:
        for trace in TRACES:
            each = []
            for size in SIZES:
                done = compare(folder, trace, size, rounds)
                (twin, least), (ours, most) = done["twin"], done["pad_server"]
                each.append((ours / size, twin / size))
                growth = f"{each[1][0] / each[0][0] / (each[1][1] / each[0][1]):8.2f}" if len(each) == 2 else f"{'':>8}"
                print(f"{trace:<10}{size:>8}{twin:>9.3f}{ours:>9.3f}{twin / ours:>8.2f}{growth}{least:>10}{most:>10}", flush=True)
        beside_revs(folder, rounds)
    print(f"aims: a rate of {RATE_AIM:.2f} of the twin's at least, growth of {GROWTH_AIM} times the twin's at most")
