"""How many steps a request takes, where no clause counts them: calls of functions, counted by valgrind's callgrind."""
import collections
import random
import re
import socket
import subprocess

from harness import Failed, Test, path_of, put_files, want

ARGS = ["--replica", "1", "--cells", "2", "--accounts", "accounts"]
COMMENTS = 100
EDITS = 120  # since the revision whose comments are listed


CALLGRIND = ["valgrind", "--tool=callgrind", "--callgrind-out-file=calls"]


def calls_of(program, args, given):
    """How often each function called each other one."""
    try:
        done = subprocess.run([*CALLGRIND, path_of(program), *args], input=given.encode(), capture_output=True)
    except FileNotFoundError:
        raise Failed("valgrind is not there, which counts the calls")
    want(done.returncode, 0, "the status")
    want(b'"ok":false' in done.stdout, False, "that a request was refused")
    names, calls, caller, called = {}, collections.Counter(), None, None

    def name_of(text):
        """A name is written once, behind its number, and from then on the number alone."""
        number, name = re.fullmatch(r"\((\d+)\)(?: (.*))?", text).groups()
        if name:
            names[number] = name
        return names[number]

    for line in open("calls"):
        line = line.rstrip("\n")
        if line.startswith("fn="):
            caller = name_of(line[3:])
        elif line.startswith("cfn="):
            called = name_of(line[4:])
        elif line.startswith("calls="):
            calls[caller, called] += int(line[6:].split()[0])
    return calls


def story():
    """Comments on a thousand characters, edits at random places, and the comments as they stood before the edits."""
    dice = random.Random(5)
    lines = ["=== comments of an older revision", 'solo\t{"do":"hello","name":"solo","token":"solo"}', 'solo\t{"do":"create","pad":"p"}']
    rev = length = 0

    def edits(fields):
        nonlocal rev
        lines.append(f'solo\t{{"pad":"p","rev":{rev},{fields}}}')
        rev += 1

    for _ in range(500):
        edits(f'"do":"insert","at":{dice.randint(0, length)},"text":"xy"')
        length += 2
    for _ in range(COMMENTS):
        edits(f'"do":"comment","at":{dice.randint(0, length - 3)},"len":3,"text":"c"')
    older = rev
    for _ in range(EDITS // 2):
        edits(f'"do":"insert","at":{dice.randint(0, length)},"text":"z"')
        edits(f'"do":"delete","at":{dice.randint(0, length - 1)},"len":2')
        length -= 1
    lines.append(f'solo\t{{"do":"comments","pad":"p","rev":{older}}}')
    return "\n".join(lines) + "\n"


def places_of_an_older_revision_are_guessed():
    """Where a character stood at an older revision is guessed by what changed since, and the guess is looked at from both
    sides. Where it is wrong a bisection follows, which takes ten looks in a thousand characters."""
    put_files([("accounts", "author solo solo\n")])
    calls = calls_of("pad_replay", ARGS, story())
    front, look = "block_seq::row_past::count_front", "block_seq::row_past::find_visible"
    asked = sum(count for (_, called), count in calls.items() if called == front)
    want(asked, 2 * COMMENTS, "how often a place at the older revision is asked for")
    looks = calls[front, look]
    want(asked <= looks <= 3 * asked, True, f"that {asked} places take two looks each, mostly, and not {looks} in all")


def instructions_for(lines):
    """How many instructions a server executes that has one client, who sends these lines."""
    words = [*CALLGRIND, path_of("pad_server"), "--listen", "127.0.0.1:0", "--connections", "1", *ARGS]
    try:
        server = subprocess.Popen(words, stdout=subprocess.PIPE, stderr=subprocess.DEVNULL)
    except FileNotFoundError:
        raise Failed("valgrind is not there, which counts the instructions")
    port = int(server.stdout.readline().decode().rsplit(":", 1)[1])
    with socket.create_connection(("127.0.0.1", port)) as client:
        client.sendall(lines.encode())
        client.shutdown(socket.SHUT_WR)
        replies = b"".join(iter(lambda: client.recv(65_536), b""))
    want(server.wait(60), 0, "the status")
    want((replies.count(b"\n"), b'"ok":false' in replies), (3, False), "that three requests are answered and none refused")
    return next(int(line.split()[1]) for line in open("calls") if line.startswith("totals:"))


def a_long_line_in_pieces_is_searched_once():
    """A line twice as long, which comes in twice as many pieces, takes twice as many instructions. If each piece were
    searched from the beginning of the line, it would take three times as many."""
    put_files([("accounts", "author solo solo\n")])
    first = '{"do":"hello","name":"solo","token":"solo"}\n{"do":"create","pad":"p"}\n'
    short, long = (instructions_for(first + '{"do":"revs","pad":"p"' + " " * size + "}\n") for size in (4_000_000, 8_000_000))
    want(long < 2.2 * short, True, f"that 8 MB take twice as many instructions as 4 MB, and not {long} for {short}")


TESTS = [Test("steps: places of an older revision are guessed", places_of_an_older_revision_are_guessed, 120), Test("steps: a long line in pieces is searched once", a_long_line_in_pieces_is_searched_once, 180)]
