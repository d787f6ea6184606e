"""Times what `pad_server --stdin` answers of a pad of 1,000,000 characters, beside the present text by the plain-Rust twin, and
of a pad in as many blocks as there can be, beside the same pad in few."""
import json
import os
import random
import statistics
import subprocess
import time

import piped

# So many insertions of so many characters each, at random places of the present, make the pad. Then so many comments.
INSERTIONS, CHARACTERS, COMMENTS = 100_000, 10, 1_000
TEXT = '{"do":"text","pad":"p"}\n'
READINGS = {
    "text": TEXT,
    "text, old": f'{{"do":"text","pad":"p","rev":{INSERTIONS // 2}}}\n',
    "runs": '{"do":"runs","pad":"p"}\n',
    "comments": '{"do":"comments","pad":"p"}\n',
}


# A full pad is typed in so many operations. Then every second character is erased, so many in each edit, from its end on.
FULL, LONGEST, ERASED = 4_000_000, 10_000, 16


def full_pad():
    yield '{"do":"create","pad":"p"}\n'
    for rev in range(FULL // LONGEST):
        yield piped.insert(rev, rev * LONGEST, "x" * LONGEST)


def cuts(length, rev):
    for end in range(length - 1, 0, -2 * ERASED):
        parts = ",".join(f'{{"at":{at},"len":1}}' for at in range(end, max(end - 2 * ERASED, 0), -2))
        yield f'{{"do":"edit","pad":"p","parts":[{parts}],"rev":{rev}}}\n'
        rev += 1


def edits():
    dice = random.Random(1)
    yield '{"do":"create","pad":"p"}\n'
    for rev in range(INSERTIONS):
        yield piped.insert(rev, dice.randrange(rev * CHARACTERS + 1), "x" * CHARACTERS)


def comments():
    dice = random.Random(2)
    for _ in range(COMMENTS):
        at = dice.randrange(INSERTIONS * CHARACTERS - 20)
        yield f'{{"at":{at},"do":"comment","len":20,"pad":"p","rev":{INSERTIONS},"text":"a note"}}\n'


class Asked:
    """A program that has read the edits, and answers one line after the other."""

    def __init__(self, command, lines):
        self.process = subprocess.Popen(command, stdin=subprocess.PIPE, stdout=subprocess.PIPE, stderr=subprocess.DEVNULL)
        for line in lines:
            self.ask(line)

    def ask(self, line):
        self.process.stdin.write(line.encode())
        self.process.stdin.flush()
        return self.process.stdout.readline()

    def time(self, line, rounds):
        """The median seconds of a reading, and its last reply."""
        taken = []
        for _ in range(rounds):
            begun = time.perf_counter()
            reply = self.ask(line)
            taken.append(time.perf_counter() - begun)
        return statistics.median(taken), json.loads(reply)

    def end(self):
        self.process.stdin.close()
        if self.process.wait(60) != 0:
            raise SystemExit(f"bench/run: a program ended with status {self.process.returncode}")


def measure(flags, rounds):
    piped.build(flags)
    print(f"load {os.getloadavg()[0]:.1f} on {os.cpu_count()} processors, median of {rounds} readings, one after the other")
    twin, ours = (Asked(piped.PROGRAMS[name], edits()) for name in ("twin", "pad_server"))
    base, shown = twin.time(TEXT, rounds)
    print(f"{'':<12}{'ms':>9}{'ratio':>8}")
    print(f"{'twin: text':<12}{base * 1e3:>9.1f}")
    if ours.time(TEXT, 1)[1]["text"] != shown["text"]:
        raise SystemExit("bench/run: the texts differ")
    for line in comments():
        ours.ask(line)
    for name, line in READINGS.items():
        taken, reply = ours.time(line, rounds)
        if not reply["ok"]:
            raise SystemExit(f"bench/run: {name} was refused: {reply}")
        print(f"{name:<12}{taken * 1e3:>9.1f}{taken / base:>8.2f}", flush=True)
    twin.end()
    ours.end()
    measure_blocks(rounds)


def measure_blocks(rounds):
    """`text`, `runs` and a deletion of one character, before a full pad is cut into a block for each character and after."""
    ours = Asked(piped.PROGRAMS["pad_server"], full_pad())
    asked = {"text": TEXT, "runs": READINGS["runs"]}
    few = {name: ours.time(line, rounds)[0] for name, line in asked.items()}
    deletion = '{{"at":0,"do":"delete","len":1,"pad":"p","rev":{}}}\n'.format
    rev = FULL // LONGEST
    few["deletion"] = ours.time(deletion(rev), 1)[0]
    for line in cuts(FULL - 1, rev + 1):
        rev = json.loads(ours.ask(line))["now"]
    many = {name: ours.time(line, rounds)[0] for name, line in asked.items()}
    many["deletion"] = ours.time(deletion(rev), 1)[0]
    print(f"a pad of {FULL:,} characters in {FULL // LONGEST:,} blocks, and in one block for each")
    for name in few:
        print(f"{name:<12}{few[name] * 1e3:>9.2f}{many[name] * 1e3:>9.2f}{many[name] / few[name]:>8.2f}", flush=True)
    ours.end()
