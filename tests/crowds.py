"""Many connections at once: thousands that are silent, some that read nothing, long lines, too many clients, pauses, waiting."""
import json
import resource
import socket
import subprocess
import threading
import time

from harness import Case, Failed, Has, Test, want
from sockets import ACCOUNTS, LISTEN, NAMES, TOO_LONG, Client, Server

FULL = b'{"code":902,"error":"Full","ok":false}\n'
BAD_TOKEN = {"code": 201, "error": "BadToken", "ok": False}
TEXT = '{"do":"text","pad":"p"}\n'


def resident(server):
    """The server's memory in KiB."""
    with open(f"/proc/{server.process.pid}/status") as status:
        return next(int(line.split()[1]) for line in status if line.startswith("VmRSS"))


def threads_of(server):
    with open(f"/proc/{server.process.pid}/status") as status:
        return next(int(line.split()[1]) for line in status if line.startswith("Threads"))


def two_thousand_clients_beside_fifteen_that_type():
    server = Server("--workers 2")
    owner = server.author("ann")
    owner.does(do="create", pad="p")
    for name in NAMES[1:]:
        owner.does(do="grant", pad="p", author=name, right="write")
    before, silent = resident(server), []
    for number in range(2_000):
        silent.append(server.author(NAMES[number % len(NAMES)]))
    each = (resident(server) - before) / len(silent)
    want(each < 4, True, f"less than 4 KiB for each silent client, not {each:.1f}")
    want(threads_of(server) <= 6, True, f"few threads, not {threads_of(server)}")
    typists = [server.author(NAMES[number % len(NAMES)], "p") for number in range(15)]
    problems = []

    def type_some(client):
        try:
            for _ in range(40):
                rev = client.does(do="revs", pad="p")["now"]
                client.does(do="insert", pad="p", rev=rev, at=0, text="x")
        except BaseException as problem:
            problems.append(repr(problem))

    threads = [threading.Thread(target=type_some, args=(client,)) for client in typists]
    for thread in threads:
        thread.start()
    for thread in threads:
        thread.join()
    want(problems, [], "what went wrong")
    want(len(owner.does(do="text", pad="p")["text"]), 600, "letters at the end")
    for client in silent[::97]:
        client.wants({"do": "pads"}, client.does(do="pads"))
    owner.wants({"do": "who", "pad": "q"}, {"code": 300, "error": "NoPad", "ok": False})


def one_that_reads_nothing_holds_up_nobody_and_takes_no_memory():
    server = Server("--workers 1", stderr=subprocess.PIPE)
    greedy = server.author("ann")
    greedy.does(do="create", pad="p")
    greedy.does(do="insert", pad="p", rev=0, at=0, text="x" * 10_000)
    before = resident(server)
    asked = 20_000
    sender = threading.Thread(target=lambda: greedy.overwhelm(TEXT * asked), daemon=True)
    sender.start()
    other = server.author("ann", "p")
    for _ in range(20):
        began = time.monotonic()
        want(other.does(do="revs", pad="p")["now"], 1, "the revision")
        want(time.monotonic() - began < 2, True, "an answer within two seconds")
        time.sleep(0.05)
    more = resident(server) - before
    want(more < 4_096, True, f"less than 4 MiB more, not {more} KiB")
    for _ in range(asked):
        if not greedy.replies.readline().endswith(b'"ok":true,"rev":1,"text":"' + b"x" * 10_000 + b'"}\n'):
            raise Failed("a reply that was taken late is not whole")
    # What was written is not kept: 200 MB were.
    more = resident(server) - before
    want(more < 8_192, True, f"less than 8 MiB more once all was read, not {more} KiB")


def lines_that_come_byte_by_byte():
    server = Server("--workers 1 --connections 1")
    client = server.connect()
    lines = '{"do":"hello","name":"ann","token":"tann"}\r\n\n{"do":"create","pad":"p"}\nnonsense\n{"do":"revs","pad":"p"}'
    for byte in lines.encode():
        client.socket.sendall(bytes([byte]))
        time.sleep(0.0005)
    told = '{"author":"ann@1","ok":true}\n{"now":0,"ok":true,"visit":1}\n{"code":101,"error":"NotJson","ok":false}\n'
    want(client.finish(), told + '{"cells":0,"length":0,"now":0,"ok":true}\n', "the answers")
    server.ends()


def many_lines_in_one_piece():
    """More than one turn answers, in both ways of sending an end."""
    server = Server("--workers 1 --connections 1")
    client = server.author("ann")
    client.does(do="create", pad="p")
    client.send('{"do":"revs","pad":"p"}\n' * 5_000)
    want(client.finish(), '{"cells":0,"length":0,"now":0,"ok":true}\n' * 5_000, "the answers")
    server.ends()


def long_lines_hold_up_nobody():
    """Lines of 8 MiB, of which one has no end, beside an author; who sent one is answered, and served on afterwards."""
    server = Server("--workers 1", stderr=subprocess.DEVNULL)
    author = server.author("ann")
    author.does(do="create", pad="p")
    hostile = [server.connect() for _ in range(4)]
    long = "[" + "0," * (4 * 1024 * 1024 - 16) + "0]\n"
    senders = [threading.Thread(target=client.overwhelm, args=(long,), daemon=True) for client in hostile]
    for sender in senders:
        sender.start()
    times = []
    end = time.monotonic() + 20
    while any(sender.is_alive() for sender in senders) and time.monotonic() < end:
        began = time.monotonic()
        author.does(do="revs", pad="p")
        times.append(time.monotonic() - began)
        time.sleep(0.01)
    want(max(times) < 3, True, f"each answer within three seconds, not {max(times):.2f}")
    for client in hostile:
        want(client.replies.readline(), b'{"code":102,"error":"NotRequest","ok":false}\n', "the answer to a long line")
        client.wants({"do": "hello", "name": "ann", "token": "tann"}, {"author": "ann@1", "ok": True})
    endless = server.connect()
    endless.send("x" * (8 * 1024 * 1024 + 1))
    want(endless.replies.read().decode(), TOO_LONG, "the answer to a line without an end")
    author.does(do="revs", pad="p")


def a_long_line_between_short_ones():
    server = Server("--workers 2 --connections 1")
    client = server.author("ann")
    client.does(do="create", pad="p")
    spaces = " " * 70_000
    revs = '{"do":"revs","pad":"p"}\n'
    client.send((revs * 40 + spaces + revs + revs + spaces + spaces + revs) * 10)
    want(client.finish(), '{"cells":0,"length":0,"now":0,"ok":true}\n' * 430, "the answers in order")
    server.ends()


def a_client_that_breaks_off_in_the_middle_of_a_line():
    """At the one worker, and at the worker for long lines."""
    server = Server("--workers 1", stderr=subprocess.PIPE)
    keeps = server.author("ann")
    keeps.does(do="create", pad="p")
    for part in ['{"do":"ins', " " * 100_000]:
        breaks = server.author("ann", "p")
        breaks.send(part)
        time.sleep(0.1)
        breaks.reset()
        said = server.says()
        want("510 ReadFault" in said, True, f"what {said!r} says")
        want(len(keeps.does(do="who", pad="p")["who"]), 1, "who is there")


def one_client_too_many():
    server = Server("--workers 2 --clients 3", stderr=subprocess.PIPE)
    clients = [server.author("ann") for _ in range(3)]
    for _ in range(3):
        late = server.connect()
        want(late.replies.read(), FULL, "what one too many is told")
    clients.pop().close()
    time.sleep(0.3)
    server.author("ann").does(do="create", pad="p")
    server.process.kill()
    said = server.process.stderr.read().decode()
    want(said.count("connection 4 is refused: 3 clients are connected"), 1, f"what {said!r} says")
    want(said.count("is refused"), 1, "how often it is said in a minute")


def wrong_tokens_are_answered_after_pauses():
    """The first two at once, the third after 0.1 s, then 0.2 s; nobody else is held up, and nothing else of that client."""
    server = Server("--workers 1", stderr=subprocess.PIPE)
    other = server.author("ann")
    guesses = server.connect()
    times = []
    for _ in range(5):
        began = time.monotonic()
        guesses.wants({"do": "hello", "name": "bob", "token": "x"}, BAD_TOKEN)
        times.append(time.monotonic() - began)
    # The server counts whole milliseconds.
    pauses = [time + 0.001 for time in times[2:]]
    want(pauses[0] >= 0.1 and pauses[1] >= 0.2 and pauses[2] >= 0.4, True, f"pauses of 0.1, 0.2 and 0.4 s, not {times}")
    want(max(times[:2]) < 0.1, True, f"no pauses at first, not {times}")
    guesses.send('{"do":"hello","name":"bob","token":"y"}\n{"do":"hello","name":"bob","token":"tbob"}\n')
    began = time.monotonic()
    other.does(do="pads")
    want(time.monotonic() - began < 0.5, True, "another's answer while the client is held back")
    want(json.loads(guesses.replies.readline()), BAD_TOKEN, "the answer to the wrong token")
    want(json.loads(guesses.replies.readline()), {"author": "bob@1", "ok": True}, "the answer to the right one")
    want(time.monotonic() - began >= 0.8, True, "a pause of 0.8 s")
    said = server.says()
    want([part for part in ["connection 2 from 127.0.0.1:", "for bob"] if part not in said], [], f"what {said!r} lacks")


def pad_of_two(server):
    """Two authors who have joined a pad, and its revision."""
    ann, bob = server.author("ann"), server.author("bob")
    ann.does(do="create", pad="p")
    ann.does(do="grant", pad="p", author="bob", right="write")
    bob.join("p")
    return ann, bob, ann.does(do="revs", pad="p")["now"]


def changes(rev, wait):
    return json.dumps({"do": "changes", "pad": "p", "rev": rev, "wait": wait}) + "\n"


def waiting_ends_with_a_change():
    server = Server("--workers 2")
    ann, bob, rev = pad_of_two(server)
    for number in range(20):
        bob.send(changes(rev + number, 30))
        time.sleep(0.02)
        began = time.monotonic()
        ann.does(do="insert", pad="p", rev=rev + number, at=0, text="x")
        answer = json.loads(bob.replies.readline())
        want((answer["rev"], answer["to"]), (rev + number, rev + number + 1), "from which revision to which")
        want(time.monotonic() - began < 2, True, "an answer within two seconds of the change")


def waiting_ends_when_its_time_is_over():
    server = Server("--workers 1")
    ann, bob, rev = pad_of_two(server)
    began = time.monotonic()
    bob.send(changes(rev, 1))
    answer = json.loads(bob.replies.readline())
    took = time.monotonic() - began
    want((answer["rev"], answer["to"]), (rev, rev), "from which revision to which")
    want(1 <= took < 3, True, f"an answer after a second, not {took:.2f} s")


def waiting_ends_with_another_line():
    server = Server("--workers 1")
    ann, bob, rev = pad_of_two(server)
    began = time.monotonic()
    bob.send(changes(rev, 30))
    time.sleep(0.2)
    bob.send('{"do":"revs","pad":"p"}\n')
    want(json.loads(bob.replies.readline())["to"], rev, "to which revision")
    want(json.loads(bob.replies.readline())["now"], rev, "the answer to the other line")
    bob.send(changes(rev, 30) + changes(rev, 0))
    want([json.loads(bob.replies.readline())["to"] for _ in range(2)], [rev, rev], "two at once")
    want(time.monotonic() - began < 5, True, "answers within five seconds")


def waiting_ends_with_the_input():
    server = Server("--workers 1")
    ann, bob, rev = pad_of_two(server)
    bob.send(changes(rev, 30))
    time.sleep(0.2)
    began = time.monotonic()
    want(json.loads(bob.finish())["to"], rev, "to which revision")
    want(time.monotonic() - began < 5, True, "an answer within five seconds")


def waiting_is_only_for_the_present_revision():
    server = Server("--workers 1")
    ann, bob, rev = pad_of_two(server)
    ann.does(do="insert", pad="p", rev=rev, at=0, text="x")
    began = time.monotonic()
    bob.send(changes(rev, 30))
    want(json.loads(bob.replies.readline())["to"], rev + 1, "to which revision")
    bob.send(changes(rev + 9, 30))
    want(json.loads(bob.replies.readline())["code"], 320, "the answer to a revision that is not there")
    want(time.monotonic() - began < 5, True, "answers within five seconds")


def who_waits_is_not_silent():
    server = Server("--workers 1 --idle 2")
    ann, bob, rev = pad_of_two(server)
    bob.send(changes(rev, 4))
    want(json.loads(bob.replies.readline())["to"], rev, "to which revision")


def a_hundred_wait_for_one_change():
    server = Server("--workers 3")
    ann, bob, rev = pad_of_two(server)
    waiting = [server.author("bob", "p") for _ in range(50)]
    for _ in range(5):
        for client in waiting:
            client.send(changes(rev, 30))
        time.sleep(0.1)
        ann.does(do="insert", pad="p", rev=rev, at=0, text="x")
        rev += 1
        for client in waiting:
            want(json.loads(client.replies.readline())["to"], rev, "to which revision")


def a_pad_with_64_sessions_is_crowded():
    server = Server()
    owner = server.author("ann")
    owner.does(do="create", pad="p")
    guests = [server.author("ann", "p") for _ in range(63)]
    last = server.author("ann")
    last.wants({"do": "join", "pad": "p"}, {"code": 313, "error": "Crowded", "ok": False})
    guests[0].does(do="leave", pad="p")
    last.join("p")


def three_are_present(server, pad):
    """Three sessions of ann's are present on a pad that she creates, a fourth is refused until one leaves."""
    owner = server.author("ann")
    owner.does(do="create", pad=pad)
    guests = [server.author("ann", pad) for _ in range(2)]
    last = server.author("ann")
    last.wants({"do": "join", "pad": pad}, {"code": 313, "error": "Crowded", "ok": False})
    guests[0].does(do="leave", pad=pad)
    last.join(pad)


def a_pad_is_as_large_as_the_server_says():
    """Without a store; with one; and where the store is read again with another number."""
    three_are_present(Server("--present 3"), "p")
    server = Server("--present 3 --store kept")
    three_are_present(server, "p")
    server.process.kill()
    server.process.wait()
    again = Server("--present 2 --store kept")
    guests = [again.author("ann", "p") for _ in range(2)]
    last = again.author("ann")
    last.wants({"do": "join", "pad": "p"}, {"code": 313, "error": "Crowded", "ok": False})
    guests[0].does(do="leave", pad="p")
    last.join("p")


def an_assembly_of_1024():
    """A thousand and twenty-four are present, and `who` tells all of them."""
    server = Server("--present 1024 --clients 1100 --workers 4")
    owner = server.author("ann")
    owner.does(do="create", pad="p")
    guests = [server.author("ann", "p") for _ in range(1023)]
    last = server.author("ann")
    last.wants({"do": "join", "pad": "p"}, {"code": 313, "error": "Crowded", "ok": False})
    who = owner.does(do="who", pad="p")["who"]
    want([visit["visit"] for visit in who], list(range(1, 1025)), "the visits that are present")
    guests[500].does(do="leave", pad="p")
    want(last.join("p"), 1025, "the visit of the last one")


def refused(name, args, *parts):
    return Case(f"crowds: {name}", args, status=2, stderr=Has(*parts), files=ACCOUNTS)


CASES = [refused(f"clients {text}", f"{LISTEN} --clients={text}", "--clients") for text in ["0", "-1", "x"]]

FUNCTIONS = [
    one_that_reads_nothing_holds_up_nobody_and_takes_no_memory,
    lines_that_come_byte_by_byte,
    many_lines_in_one_piece,
    long_lines_hold_up_nobody,
    a_long_line_between_short_ones,
    a_client_that_breaks_off_in_the_middle_of_a_line,
    one_client_too_many,
    wrong_tokens_are_answered_after_pauses,
    waiting_ends_with_a_change,
    waiting_ends_when_its_time_is_over,
    waiting_ends_with_another_line,
    waiting_ends_with_the_input,
    waiting_is_only_for_the_present_revision,
    who_waits_is_not_silent,
    a_hundred_wait_for_one_change,
    a_pad_with_64_sessions_is_crowded,
    a_pad_is_as_large_as_the_server_says,
    an_assembly_of_1024,
]

TESTS = [case.test() for case in CASES]
TESTS += [Test(f"pad_server: crowds: {function.__name__.replace('_', ' ')}", function, 60, alone=True) for function in FUNCTIONS]
TESTS += [Test("pad_server: crowds: two thousand clients beside fifteen that type", two_thousand_clients_beside_fifteen_that_type, 120, alone=True)]
