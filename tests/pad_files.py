"""pad_store: any changed byte of a file, a pad that another program rebuilds, a terminal, and what takes long."""
import json
import os
import pty
import random
import re
import subprocess
import time

from harness import Failed, Test, put_files, start, want
from replay import runs_of, text_of
from sample_pad import AT, LINES, SUMS, VALUES, WHOLE, ask, checked, delivered, lines_of
from sockets import NAMES, Server
from stores import STORE, kill

BYTES = 250  # so many places of a file are changed; tests/changed_bytes tries 2,000
EDITS = 240
LONG = 4_000
PIPE = 1 << 16


def line_at(place):
    """The number of the line that has the byte at a place, and where that line starts."""
    number, begin = 1, 0
    while place >= begin + len(LINES[number - 1]):
        begin += len(LINES[number - 1])
        number += 1
    return number, begin


def told_of(content):
    """What `check` says of a file: its status, and its line on standard output or standard error."""
    put_files([("p.pad", content)])
    process = start("pad_store", "check p.pad", stdout=subprocess.PIPE, stderr=subprocess.PIPE)
    wrote, told = process.communicate()
    return process.returncode, (wrote + told).decode()


def change_is_found(place, value):
    """A file with another byte at a place is damaged in the line of that byte. Where no line from there on has the form of a
    line any more, the file counts as cut off before it: so in the last line, and at the line feed before the last line."""
    content = bytearray(WHOLE)
    content[place] ^= value
    number, begin = line_at(place)
    is_end = number == len(LINES) or place == len(WHOLE) - len(LINES[-1]) - 1
    damaged = (1, f"pad_store: p.pad: line {number}: it was changed, or lines before it are missing\n")
    cut = (0, checked("p", number - 5, 4, SUMS[number - 2], len(WHOLE) - begin))
    told = told_of(bytes(content))
    if told != damaged and not (is_end and told == cut):
        raise Failed(f"byte {place}, changed by {value}, in line {number}: {told}")
    return told == damaged


def changed_bytes_are_found(count):
    dice = random.Random(7)
    places = dice.sample(range(len(WHOLE)), min(count, len(WHOLE)))
    places += [dice.randrange(len(WHOLE)) for _ in range(count - len(places))]
    damaged = [change_is_found(place, dice.randrange(1, 256)) for place in places]
    want(sum(damaged) > 0.8 * count, True, "that most changes are damage")


def some_changed_bytes_are_found():
    changed_bytes_are_found(BYTES)


def edit_somewhere(dice, client, made):
    """An author changes the pad p as one of its last revisions shows it."""
    rev = max(0, made - dice.randrange(4))
    length = len(client.does(do="text", pad="p", rev=rev)["text"])
    at, kind = dice.randrange(length + 1), dice.choice(["insert", "insert", "delete", "edit"])
    many = min(dice.randrange(1, 4), length - at)
    if kind == "insert" or many == 0:
        text = "".join(dice.choice("aeiou ü𝄞\n") for _ in range(dice.randrange(1, 6)))
        client.does(do="insert", pad="p", rev=rev, at=at, text=text)
        return "insert"
    if kind == "delete":
        client.does(do="delete", pad="p", rev=rev, at=at, len=many)
    else:
        client.does(do="edit", pad="p", rev=rev, parts=[{"at": at, "len": many}, {"at": at, "text": "X"}])
    return kind


def an_export_rebuilds_any_pad():
    """Three authors edit old revisions at once. From the lines of the export, tests/replay.py finds each revision's text
    and authors, and the sums are those of the file."""
    dice, server = random.Random(3), Server(STORE)
    ann = server.author("ann")
    ann.does(do="create", pad="p")
    authors = [ann]
    for name in NAMES[1:3]:
        ann.does(do="grant", pad="p", author=name, right="write")
        authors.append(server.author(name, "p"))
    kinds = [edit_somewhere(dice, dice.choice(authors), made) for made in range(EDITS)]
    want(all(kinds.count(kind) > EDITS / 10 for kind in ["insert", "delete", "edit"]), True, "edits of each kind")
    runs = ann.does(do="runs", pad="p")["runs"]
    texts = {rev: ann.does(do="text", pad="p", rev=rev)["text"] for rev in range(0, EDITS + 1, 7)}
    kill(server)
    lines = [json.loads(line) for line in ask("export kept/p.pad").splitlines()]
    want([line["rev"] for line in lines], list(range(1, EDITS + 1)), "the revisions")
    ops = [line["op"] for line in lines]
    want(runs_of(ops), runs, "the authors that are rebuilt")
    for rev, text in texts.items():
        want(text_of(ops[:rev]), text, f"the text of revision {rev} that is rebuilt")
        want(ask(f"show kept/p.pad --rev {rev}"), text, f"the text of revision {rev} that is shown")
    with open("kept/p.pad", "rb") as file:
        in_file = [json.loads(line) for line in file]
    sums = [sum for text, sum in in_file if text.get("kind") == "delivered"]
    want([line["sum"] for line in lines], sums, "the sums")


def on_a_terminal(args):
    """What the program writes to a terminal."""
    ours, theirs = pty.openpty()
    process = start("pad_store", args, stdin=subprocess.DEVNULL, stdout=theirs)
    os.close(theirs)
    wrote = b""
    try:
        while chunk := os.read(ours, PIPE):
            wrote += chunk
    except OSError:
        pass  # the other end is closed
    want(process.wait(), 0, "the status")
    return wrote.decode()


def colours_on_a_terminal():
    put_files([("p.pad", WHOLE)])
    want(on_a_terminal("diff p.pad 1 3"), "h\033[31m[-ell-]\033[m\033[32m{+ey+}\033[mo\r\n", "what came and went")
    want(on_a_terminal("show p.pad --rev 1"), "hello", "a text")


def typed(count):
    """A file in which ann typed so many letters, one by one."""
    ops = [
        delivered(number, AT, "ann", kind="insert", after=[number - 1, 1] if number > 1 else None, first=[number, 1], text="x")
        for number in range(1, count + 1)
    ]
    return b"".join(lines_of([*VALUES[:2], *ops])[0])


def long_output_is_reported():
    """While nobody takes the output for more than a second, the program waits; then it says how far it is."""
    put_files([("p.pad", typed(LONG))])
    for args in ["log p.pad", "export p.pad"]:
        process = start("pad_store", args, stdout=subprocess.PIPE, stderr=subprocess.PIPE)
        time.sleep(1.5)
        wrote, told = process.communicate()
        want((process.returncode, wrote.count(b"\n")), (0, LONG), f"the status of {args}, and its lines")
        far = re.fullmatch(r"pad_store: revision (\d+) of 4000\n", told.decode())
        want(bool(far) and 0 < int(far[1]) < LONG, True, f"how far {args} is: {told.decode()!r}")


def a_slow_folder_is_reported():
    """A pipe is in the place of a file, and gives its bytes after more than a second."""
    put_files([("a.pad", typed(1)), ("q.pad", typed(1))])
    os.mkfifo("p.pad")
    process = start("pad_store", "check .", stdout=subprocess.PIPE, stderr=subprocess.PIPE)
    with open("p.pad", "wb") as pipe:
        time.sleep(1.2)
        pipe.write(typed(1))
    wrote, told = process.communicate()
    want(wrote.decode().split()[:2], ["p", "operations=1"], "the pad that is no other's")
    other = "it is the file of another pad"
    lines = [f"pad_store: ./a.pad: {other}", "pad_store: file 2 of 3", f"pad_store: ./q.pad: {other}", ""]
    want((process.returncode, told.decode().split("\n")), (1, lines), "the status, and what is said")


def a_large_file_is_announced():
    with open("p.pad", "wb") as file:
        file.truncate(17 << 20)
    process = start("pad_store", "show p.pad", stdout=subprocess.PIPE, stderr=subprocess.PIPE)
    want(process.communicate(), (b"", b"pad_store: p.pad: reading 17 MiB\npad_store: p.pad: no pad was named\n"), "what is said")


def a_folder_in_a_folder_is_reported():
    os.mkdir("q.pad")
    put_files([("p.pad", WHOLE)])
    process = start("pad_store", "check .", stdout=subprocess.PIPE, stderr=subprocess.PIPE)
    wrote, told = process.communicate()
    want(wrote.decode(), checked("p", 5, 4, SUMS[-1]), "the file beside it")
    want((process.returncode, told), (1, b"pad_store: ./q.pad: Is a directory (os error 21)\n"), "the status, and what is said")


TESTS = [
    Test("pad_store: a changed byte is found", some_changed_bytes_are_found, 60),
    Test("pad_store: an export rebuilds any pad", an_export_rebuilds_any_pad, 60),
    Test("pad_store: colours on a terminal", colours_on_a_terminal),
    Test("pad_store: output that takes long is reported", long_output_is_reported),
    Test("pad_store: a folder that takes long is reported", a_slow_folder_is_reported),
    Test("pad_store: a large file is announced", a_large_file_is_announced),
    Test("pad_store: a folder in a folder is reported", a_folder_in_a_folder_is_reported),
]
