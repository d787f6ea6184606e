"""What a power cut leaves of the files of a store: cuts, zeros, and pages of other times behind what was synced.

The files are made here, line by line, as the server writes them: a record that is written when a line before it is not
synced yet says that they stand together. One start reads many files, each of a pad of its own.
"""
import hashlib
import json
import os
import random
import subprocess

from harness import Failed, Test, put_files, start, want
from sockets import LISTEN, Client
from stores import STORE, kill, lines_of, refused, restarted

LETTERS = "abcdefghijklmnopqrstuvwxyz"
FILES = 60  # in one start
TAILS = 2_000
PAGES = (512, 4_096)
STREAMS = {"stdin": subprocess.DEVNULL, "stdout": subprocess.PIPE, "stderr": subprocess.DEVNULL}


def compact(value):
    return json.dumps(value, separators=(",", ":"), sort_keys=True).encode()


def operations(count):
    """The records of insertions that each type one letter at the end, as a server writes them."""
    server = restarted()
    ann = server.author("ann")
    ann.does(do="create", pad="p")
    for number in range(count):
        ann.does(do="insert", pad="p", rev=number, at=number, text=LETTERS[number])
    kill(server)
    texts = lines_of("p")
    os.remove("kept/p.pad")
    return [text for text in texts if text.get("kind") == "delivered"]


def file_of(pad, records, together):
    """The lines of a pad's file: those of these records stand together with a line before them, or do not."""
    texts = [
        {"format": 1, "pad": pad, "replica": 1},
        {"at": 1, "kind": "named", "name": pad, "owner": "ann", "together": True},
    ]
    for record, is_together in zip(records, together):
        texts.append({**record, "together": True} if is_together else record)
    before, lines = b"", []
    for text in map(compact, texts):
        before = hashlib.sha256(before + text).hexdigest().encode()
        lines.append(b"[" + text + b',"' + before + b'"]\n')
    return lines


def put(pad, content):
    with open(f"kept/{pad}.pad", "wb") as file:
        file.write(content)


def clear():
    for name in os.listdir("kept"):
        os.remove(f"kept/{name}")


class Reader:
    """Asks a server for what its pads have: a peer's session counts operations, which leaves no record, an author's reads."""

    def __init__(self):
        put_files([("accounts", "author ann tann\npeer 1 pone 127.0.0.1:1\n")])
        self.process = start("pad_server", f"{LISTEN} {STORE}", **STREAMS)
        port = int(self.process.stdout.readline().decode().rsplit(":", 1)[1])
        self.peer, self.ann = Client(port), Client(port)
        self.peer.does(do="peer", number=1, token="pone", version=2)
        self.ann.does(do="hello", name="ann", token="tann")

    def count(self, pad):
        """How many operations a pad has; None: there is no such pad."""
        answer = self.peer.ask(do="vector", pad=pad)
        if not answer["ok"]:
            want(answer["code"], 300, f"the refusal of {pad}")
            return None
        return answer["now"]

    def text(self, pad):
        self.ann.join(pad)
        text = self.ann.does(do="text", pad=pad)["text"]
        self.ann.does(do="leave", pad=pad)
        return text

    def end(self):
        self.process.kill()
        self.process.wait()
        self.process.stdout.close()


def all_read(files, wanted):
    """The server starts with these files, and has of each what is wanted: how many operations at least, and at most."""
    for pad, content in files.items():
        put(pad, content)
    reader = Reader()
    for number, (pad, (least, most)) in enumerate(wanted.items()):
        count = reader.count(pad)
        if count is None:
            want(least, None, f"that {pad} is there, with as many operations")
        elif not (least or 0) <= count <= most:
            raise Failed(f"{pad} has {count} operations, wanted {least} to {most}: {files[pad][-300:]!r}")
        elif number % 8 == 0:
            want(reader.text(pad), LETTERS[:count], f"the text of {pad}")
    reader.end()
    clear()


def in_starts(cases):
    """Plays cases (content, least, most) by many pads at once."""
    for first in range(0, len(cases), FILES):
        some = cases[first : first + FILES]
        files, wanted = {}, {}
        for number, (content_of, least, most) in enumerate(some):
            pad = f"p{number}"
            files[pad] = content_of(pad)
            wanted[pad] = (least, most)
        all_read(files, wanted)


def each_cut_and_run_of_zeros_over_the_last_two_lines():
    """A cut or zeros over the last lines take these lines alone. The damage of a line before a whole one stops the start."""
    count = 4
    records = operations(count)
    lines = file_of("p0", records, [False] * count)
    whole = sum(map(len, lines))
    end = whole - len(lines[-1])
    start = end - len(lines[-2])
    cases, others, stops = [], [], []

    def contents(change):
        """The file of any pad, changed: pads' names differ in length by a digit at most, so places are counted from the end."""
        return lambda pad: change(b"".join(file_of(pad, records, [False] * count)))

    for back in range(whole - start + 1):
        # So many bytes at the end are cut off, or are zeros.
        kept = count if back == 0 else count - 1 if back <= len(lines[-1]) else count - 2
        cases.append((contents(lambda content, back=back: content[: len(content) - back]), kept, kept))
        if back:
            cases.append((contents(lambda content, back=back: content[: len(content) - back] + bytes(back)), kept, kept))
    for back in range(1, whole - start + 1):
        for length in (1, 16, 100):
            behind = back - length  # so many bytes stand behind the zeros

            def change(content, back=back, length=length, behind=behind):
                return content[: len(content) - back] + bytes(length) + content[len(content) - behind :]

            if behind > len(lines[-1]):
                stops.append(change)  # the last line stands whole behind the damage
            elif behind > 0:
                kept = count - 1 if back <= len(lines[-1]) else count - 2
                others.append((contents(change), kept, kept))
    in_starts(cases + random.Random(2).sample(others, 240))
    for change in random.Random(3).sample(stops, 12):
        content = change(b"".join(file_of("p0", records, [False] * count)))
        put("p0", content)
        refused(1, f"p0.pad: line {count + 1}:", "is damaged")
        with open("kept/p0.pad", "rb") as file:
            want(file.read(), content, "the damaged file")


def left_of(content, synced, dice):
    """What a power cut leaves: all that was synced, and behind it whatever pages were written."""
    size = dice.choice(PAGES)
    left = bytearray(content)
    kind = dice.choice(["cut", "zeros", "pages", "pages", "pages"])
    if kind == "zeros":
        place = dice.randint(synced, len(content))
        left[place:] = bytes(len(content) - place)
    elif kind == "pages":
        for page in range(synced // size, len(content) // size + 1):
            if dice.random() < 0.5:
                end = min((page + 1) * size, len(content))
                older = dice.randint(max(synced, page * size), max(synced, end))
                left[older:end] = bytes(max(0, end - older))
    length = dice.randint(synced, len(content)) if kind == "cut" or dice.random() < 0.3 else len(content)
    return bytes(left[:length])


def a_power_cut_loses_no_synced_line():
    """Two thousand tails: the start is never stopped, and all that was synced is there."""
    dice = random.Random(21)
    count = len(LETTERS)
    records = operations(count)
    cases, torn = [], 0
    for _ in range(TAILS):
        synced_lines = dice.choice([0, 2, *range(3, count + 1)])
        written = dice.randint(0, count) if synced_lines == 0 else dice.randint(synced_lines - 2, count)
        # The first note behind a sync says that it begins a batch, if that sync had ended by then.
        together = [dice.random() < 0.5 for _ in range(max(synced_lines - 2, 0))]
        together += [number > 0 or dice.random() < 0.5 for number in range(written - len(together))]
        if synced_lines == 0:
            together = [True] * written
        seed = dice.random()

        def content_of(pad, together=together, written=written, synced_lines=synced_lines, seed=seed):
            lines = file_of(pad, records[:written], together)
            return left_of(b"".join(lines), sum(map(len, lines[:synced_lines])), random.Random(seed))

        content = content_of("p0")
        torn += content != b"".join(file_of("p0", records[:written], together))
        cases.append((content_of, synced_lines - 2 if synced_lines else None, written))
    want(torn > TAILS // 2, True, "that most files are torn")
    in_starts(cases)


TESTS = [
    Test("power cut: each cut and run of zeros over the last two lines", each_cut_and_run_of_zeros_over_the_last_two_lines, 240),
    Test("power cut: two thousand tails lose no synced line", a_power_cut_loses_no_synced_line, 240),
]
