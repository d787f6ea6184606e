"""Times what `pad_server --stdin` answers to `changes` of a pad of 1,000,000 characters, beside the plain-Rust twin with the same
slides, and beside `text` and `revs` of that pad."""
import os
import random

import piped
import reads

# So many operations make the pad, every eighth of which erases one character of the present and the others type six there.
OPERATIONS, TYPED = 196_000, "sixsix"
BEHIND = [1, 4, 64, 1_000]

# At most so many times the twin's time, so many times that of `revs` for one revision, and this part of `text` for 1,000.
TWIN_AIM, REVS_AIM, TEXT_AIM = 2.0, 3.0, 1 / 20


def edits():
    dice = random.Random(3)
    yield '{"do":"create","pad":"p"}\n'
    length = 0
    for rev in range(OPERATIONS):
        if rev % 8 == 7:
            yield f'{{"at":{dice.randrange(length)},"do":"delete","len":1,"pad":"p","rev":{rev}}}\n'
            length -= 1
        else:
            yield piped.insert(rev, dice.randrange(length + 1), TYPED)
            length += len(TYPED)


def changes(rev, to=None):
    end = "" if to is None else f',"to":{to}'
    return f'{{"do":"changes","pad":"p","rev":{rev}{end}}}\n'


def readings():
    """Each by its name: its line, how often it is made in a round, and what its time is compared with besides the twin's."""
    for behind in BEHIND:
        yield f"{behind} behind", changes(OPERATIONS - behind), 200, {1: "revs", 1_000: "text"}.get(behind)
        if behind > 4:
            yield f"{behind} to 4 behind", changes(OPERATIONS - behind, OPERATIONS - 4), 200, None
    yield "from 0", changes(0), 1, "text"


def measure(flags, rounds):
    piped.build(flags)
    print(f"load {os.getloadavg()[0]:.1f} on {os.cpu_count()} processors, median of {rounds} rounds, one after the other")
    twin, ours = (reads.Asked(piped.PROGRAMS[name], edits()) for name in ("twin", "pad_server"))
    bases = {}
    for name, line in {"revs": '{"do":"revs","pad":"p"}\n', "text": reads.TEXT}.items():
        bases[name], reply = ours.time(line, 100 if name == "revs" else rounds)
        print(f"{name:<20}{bases[name] * 1e3:>10.3f} ms")
    print(f"{'changes':<20}{'twin ms':>10}{'ours ms':>10}{'ratio':>8}{'beside':>14}")
    for name, line, times, other in readings():
        (plain, wanted), (taken, came) = (program.time(line, max(times, rounds)) for program in (twin, ours))
        if wanted != came:
            raise SystemExit(f"bench/run: the changes differ: {name}")
        beside = f"{taken / bases[other]:8.2f} {other}" if other else ""
        print(f"{name:<20}{plain * 1e3:>10.3f}{taken * 1e3:>10.3f}{taken / plain:>8.2f}{beside:>14}", flush=True)
    print(f"aims: {TWIN_AIM} of the twin at most, {REVS_AIM} of revs for 1 behind, {TEXT_AIM} of text for 1,000 behind")
    twin.end()
    ours.end()
