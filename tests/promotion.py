"""A standby that is promoted while it runs: it takes no more copies, and the same process then serves the pads."""
import http.client
import itertools
import os
import random
import shutil
import subprocess
import sys
import time

from faults import Faults
from harness import Failed, ROOT, Test, put_files, want
from peers import free_ports
from sockets import Client
from two_machines import NAMES, Machines, entries_of, files_of, shown
from writers import Writer, begin_pads, check_answered

GREETING = {"do": "peer", "number": 1, "token": "secret", "version": 2}
GREETED = {"ok": True, "replica": 2, "version": 2}
LOADS = 3  # how often a standby is promoted under load
MANY_LOADS = 100
SIZES = "--cells 4096 --present 200"


def greeted(machines, number=2):
    """A connection to a machine that has greeted as its main server."""
    client = Client(machines.ports[number])
    client.wants(GREETING, {**GREETED, "replica": number})
    return client


def promote(machines):
    """Promotes the standby, and reads what the process prints next."""
    client = greeted(machines)
    client.wants({"do": "promote"}, {"ok": True})
    wants_listening(machines)


def wants_listening(machines):
    line = machines.processes[2].stdout.readline().decode()
    said = machines.said(2)
    want(line, f"listening on 127.0.0.1:{machines.ports[2]}\n", f"the line after the promotion, where it said {said!r}")


def failover(*words):
    """What the script says and its status."""
    run = subprocess.run([sys.executable, f"{ROOT}/failover", *words], capture_output=True, text=True, timeout=60)
    return run.stdout + run.stderr, run.returncode


def promotes(machines, number=2, main="1"):
    return failover("promote", "--at", f"127.0.0.1:{machines.ports[number]}", "--accounts", "accounts", "--main", main)


def writes_at_the_promoted(machines, count):
    """One author writes at the promoted server; her answers."""
    client = machines.author("ann", number=2)
    made = []
    client.join("p0")
    for number in range(count):
        now = client.does(do="revs", pad="p0")["now"]
        made.append(client.does(do="insert", pad="p0", rev=now, at=0, text=f"new{number} ")["now"])
    client.close()
    return made


def promote_under_load(seed):
    dice = random.Random(f"promoted {seed}")
    machines = Machines()
    machines.run(2, "copy", f"--standby-of 1 {SIZES}")
    main = machines.main("strict", SIZES)
    begin_pads(machines)
    writers = [Writer(machines, name, f"{seed} {name}") for name in NAMES]
    time.sleep(dice.uniform(0.2, 1.2))
    promote(machines)
    # The promoted server is written to at once, while the old one may still be up.
    made = writes_at_the_promoted(machines, 10)
    for writer in writers:
        writer.join()
    want(main.wait(), 1, "the status of the old main server")
    machines.wait_until_said(1, "pad_server: the standby 2 does not answer")
    answered = check_answered(machines, writers)
    entries = entries_of(machines.author("ann", "p0", 2), "p0")
    want([entries[now - 1][1] for now in made], ["ann@2"] * len(made), "who made the edits at the promoted server")
    machines.kill(2)
    # The number is no new one any more.
    machines.run(2, "copy", SIZES)
    want(check_answered(machines, writers), answered, "what is there after a restart")
    want(entries_of(machines.author("ann", "p0", 2), "p0"), entries, "the operations of p0 after a restart")
    machines.kill(2)
    for store in ("main", "copy"):
        shutil.rmtree(store)
    return answered, sum(writer.taken for writer in writers)


def under_load(rounds):
    counts = [promote_under_load(seed) for seed in range(rounds)]
    answered, taken = (sum(column) for column in zip(*counts))
    if answered < 20 * rounds or taken == 0:
        raise Failed(f"only {answered} answers came before {rounds} promotions, and {taken} to rights that were taken away")


def begun():
    """A main server with one pad and a standby that has it."""
    machines = Machines()
    machines.standby()
    machines.main("5")
    ann = machines.author("ann")
    ann.does(do="create", pad="p")
    ann.does(do="grant", pad="p", author="bob", right="write")
    ann.does(do="insert", pad="p", rev=0, at=0, text="before")
    return machines, ann


def nobody_is_connected():
    """The main server is lost, and then its standby promoted: it serves at once, with its page and its own settings."""
    machines = Machines()
    (web,) = free_ports(1)
    standby = machines.run(2, "copy", f"--standby-of 1 --web 127.0.0.1:{web} --cells 70 --clients 50 --workers 2")
    machines.main("5")
    ann = machines.author("ann")
    ann.does(do="create", pad="p")
    ann.does(do="insert", pad="p", rev=0, at=0, text="before")
    before, made = shown(ann), entries_of(ann, "p")
    machines.kill(1)
    shutil.rmtree("main")
    machines.wait_until_said(2, "the main server 1 is gone")
    try:
        http.client.HTTPConnection("127.0.0.1", web, timeout=5).request("GET", "/")
        raise Failed("a standby opens its web address before it is promoted")
    except ConnectionRefusedError:
        pass
    said = f"failover: the standby at 127.0.0.1:{machines.ports[2]} is promoted\n"
    want(promotes(machines), (said, 0), "what was said of the promotion, and its status")
    wants_listening(machines)
    want(standby.stdout.readline().decode(), f"web on http://127.0.0.1:{web}/\n", "the second line")
    page = http.client.HTTPConnection("127.0.0.1", web, timeout=5)
    page.request("GET", "/")
    want(page.getresponse().status, 200, "the status of the page")
    ann = machines.author("ann", "p", 2)
    want(shown(ann), before, "what the promoted server shows")
    want(entries_of(ann, "p"), made, "the operations of the promoted server")
    want(ann.does(do="insert", pad="p", rev=1, at=0, text="x")["name"], [2, 1], "the name of the first new edit")
    for number in range(69):
        ann.does(do="create", pad=f"q{number}")
    want(ann.ask(do="create", pad="r").get("code"), 302, "the answer for one pad more than --cells")
    want(os.path.exists("copy/rounds"), False, "that the log is left")


def strangers_do_not_promote():
    machines, ann = begun()
    for lines, answer in [
        (['{"do":"promote"}'], ['{"code":102,"error":"NotRequest","ok":false}']),
        (
            ['{"do":"hello","name":"ann","token":"tann"}', '{"do":"promote"}'],
            ['{"code":341,"error":"IsStandby","ok":false}'],
        ),
        (
            ['{"do":"peer","number":1,"token":"wrong","version":2}', '{"do":"promote"}'],
            ['{"code":201,"error":"BadToken","ok":false}'],
        ),
        (
            ['{"do":"peer","number":2,"token":"secret","version":2}', '{"do":"promote"}'],
            ['{"code":341,"error":"IsStandby","ok":false}'],
        ),
        (
            ['{"do":"peer","number":1,"token":"secret","version":2}', '{"do":"promoted"}'],
            ['{"ok":true,"replica":2,"version":2}', '{"code":102,"error":"NotRequest","ok":false}'],
        ),
    ]:
        client = Client(machines.ports[2])
        client.send("\n".join(lines) + "\n")
        told = [client.replies.readline().decode().rstrip("\n") for _ in answer]
        want(told, answer, f"the answers to {lines}")
        client.close()
    put_files((("wrong", "peer 1 other 127.0.0.1:1\n"),))
    address = f"127.0.0.1:{machines.ports[2]}"
    refused = f"failover: the standby at {address} is not promoted:"
    said = f"{refused} the token of the line `peer 1` is not the one that it knows (201 BadToken)\n"
    told = failover("promote", "--at", address, "--accounts", "wrong", "--main", "1")
    want(told, (said, 1), "what was said of a wrong token, and the status")
    said = f"{refused} it is a standby of another server than 2 (341 IsStandby)\n"
    want(promotes(machines, main="2"), (said, 1), "what was said of another number, and the status")
    # It is a standby all the while.
    ann.does(do="insert", pad="p", rev=1, at=0, text="still ")
    want(files_of("copy"), files_of("main"), "the copies")


def a_promotion_comes_first():
    """Behind another request, `promote` is refused."""
    machines = Machines()
    machines.standby()
    client = greeted(machines)
    client.wants({"do": "copies"}, {"ok": True})
    client.wants({"do": "promote"}, {"code": 102, "error": "NotRequest", "ok": False})
    want(client.finish(), "", "what comes behind a refusal")
    promote(machines)


def a_silent_one_holds_up_no_copies():
    machines, ann = begun()
    silent = [Client(machines.ports[2]) for _ in range(3)]
    began = time.monotonic()
    for rev in range(1, 20):
        ann.does(do="insert", pad="p", rev=rev, at=0, text="quick ")
    if time.monotonic() - began > 2:
        raise Failed(f"19 edits took {time.monotonic() - began} s beside silent connections")
    want("goes on alone" in machines.said(1), False, "that the main server went on alone")
    # They are let go one after the other, and then the promotion is heard.
    promote(machines)
    for client in silent:
        client.close()


def a_new_connection_takes_the_seat():
    """A main server that connects again need not wait until the standby finds its old connection dead."""
    machines = Machines()
    machines.standby()
    old = greeted(machines)
    old.wants({"do": "copies"}, {"ok": True})
    new = greeted(machines)
    new.wants({"do": "copies"}, {"ok": True})
    new.wants({"do": "sync", "mark": 7}, {"mark": 7, "ok": True})
    want(old.replies.readline(), b"", "what the old connection hears")


def nothing_is_taken_behind_a_promotion():
    """A connection that was taking copies is broken off, and a new one finds no standby."""
    machines = Machines()
    machines.standby()
    old = greeted(machines)
    old.wants({"do": "copies"}, {"ok": True})
    old.wants({"do": "sync", "mark": 1}, {"mark": 1, "ok": True})
    promote(machines)
    try:
        old.send('{"do":"sync","mark":2}\n')
        told = old.replies.readline()
    except OSError:
        told = b""
    want(told, b"", "what the old connection hears")
    greeted(machines).wants({"do": "copies"}, {"code": 102, "error": "NotRequest", "ok": False})


def a_server_is_not_promoted():
    """`promote` to a server that is no standby, and a second time to one that was."""
    machines, _ = begun()
    client = Client(machines.ports[1])
    client.wants({**GREETING, "number": 2}, {"ok": True, "replica": 1, "version": 2})
    client.wants({"do": "promote"}, {"code": 102, "error": "NotRequest", "ok": False})
    address = f"127.0.0.1:{machines.ports[1]}"
    want(
        promotes(machines, 1, "2"),
        (f"failover: the server at {address} is no standby: it serves pads already\n", 3),
        "what was said of the main server",
    )
    promote(machines)
    address = f"127.0.0.1:{machines.ports[2]}"
    want(
        promotes(machines),
        (f"failover: the server at {address} is no standby: it serves pads already\n", 3),
        "what was said of a second promotion",
    )
    machines.kill(2)
    said, status = promotes(machines)
    is_told = said.startswith(f"failover: the standby at {address} is not promoted: ")
    want((is_told, status), (True, 1), f"that this was said where nobody listens, and the status: {said!r}")


def started_again_as_a_standby():
    """The unit has the old words: the promoted server starts as a standby. It takes nothing over its own pads."""
    machines, ann = begun()
    promote(machines)
    there = machines.author("ann", "p", 2)
    there.does(do="insert", pad="p", rev=1, at=0, text="new ")
    there.does(do="create", pad="only-here")
    before, was = shown(there), files_of("copy")
    machines.kill(2)
    machines.standby()
    ann.does(do="insert", pad="p", rev=1, at=0, text="old ")
    ann.does(do="create", pad="only-there")
    machines.wait_until_said(1, "the standby 2 has another past of the pad ")
    want(files_of("copy"), was, "the files of the promoted server")
    # Promoted once more, it goes on where it was. The old server is off: as a peer it would merge its edits.
    machines.kill(1)
    promote(machines)
    there = machines.author("ann", "p", 2)
    want(shown(there), before, "what it shows")
    there.does(do="insert", pad="p", rev=2, at=0, text="newer ")
    there.join("only-here")


def the_script_says_what_is_wrong():
    machines = Machines()
    address, nowhere = f"127.0.0.1:{machines.ports[2]}", "http://127.0.0.1:1"
    for words, said, status in [
        (["promote", "--at", address, "--accounts", "none", "--main", "1"],
         "failover: cannot read the accounts file none: [Errno 2] No such file or directory: 'none'\n", 1),
        (["promote", "--at", address, "--accounts", "accounts", "--main", "7"],
         "failover: the accounts file accounts has no line `peer 7`\n", 1),
        (["promote", "--at", "here", "--accounts", "accounts", "--main", "1"],
         "failover: here is no address: HOST:PORT is needed, such as 127.0.0.1:7878\n", 2),
        (["hold", "--etcd", nowhere, "--serves", address, "--ttl", "4"],
         "failover: --ttl needs at least 5 seconds\n", 2),
        (["hold", "--etcd", nowhere, "--serves", address],
         f"failover: no node of etcd answers at {nowhere}: <urlopen error [Errno 111] Connection refused>\n", 1),
    ]:
        want(failover(*words), (said, status), f"what failover {' '.join(words)} says, and its status")


class FaultyStandby(Machines):
    """Two machines, of which the standby finds no memory where `faults` says so."""

    def __init__(self):
        super().__init__()
        self.faults = Faults()

    def variables(self, number):
        return self.faults.variables if number == 2 else None


def serves(machines):
    """Whether the promoted server answers an author."""
    try:
        machines.author("ann", "p", 2).close()
        return True
    except (OSError, ValueError):
        return False


def told_to(client):
    """All that a client gets until its connection ends, or is reset since the server has not read all."""
    told = b""
    try:
        while some := client.socket.recv(4_096):
            told += some
    except ConnectionResetError:
        pass
    return told.decode()


def memory_that_is_refused():
    """An allocation of the promotion is refused: the standby is promoted or not, it may end, and has everything."""
    refused = 0
    for allocation in itertools.chain(range(1, 9), (12, 50, 200)):
        machines = FaultyStandby()
        standby = machines.standby()
        machines.main("5")
        ann = machines.author("ann")
        ann.does(do="create", pad="p")
        ann.does(do="insert", pad="p", rev=0, at=0, text="before")
        machines.kill(1)
        machines.wait_until_said(2, "the main server 1 is gone")
        machines.faults.set("everywhere", 1)
        machines.faults.set("allocations", allocation)
        client = Client(machines.ports[2])
        client.send('{"do":"peer","number":1,"token":"secret","version":2}\n{"do":"promote"}\n')
        told = told_to(client)
        answers = ('{"ok":true,"replica":2,"version":2}\n', '{"ok":true,"replica":2,"version":2}\n{"ok":true}\n', "",
                   '{"code":900,"error":"Memory","ok":false}\n')
        want(told in answers, True, f"that whole lines were told, and not {told!r}")
        if told.endswith('{"ok":true}\n'):
            standby.stdout.readline()  # nothing, where it ends before it listens
            machines.faults.set("allocations", 0)
            if not serves(machines):
                want(standby.wait(), 1, "the status of a server that found no memory to start")
                machines.promoted()
        else:
            machines.faults.set("allocations", 0)
            want(standby.poll(), None, "the status of a standby that was not promoted")
            promote(machines)
        text = machines.author("ann", "p", 2).does(do="text", pad="p")["text"]
        want(text, "before", f"the text of the promoted server, with allocation {allocation} refused")
        refused += machines.faults.failed()
        machines.kill(2)
        for store in ("main", "copy"):
            shutil.rmtree(store)
    if refused < 5:
        raise Failed(f"only {refused} allocations were refused")


TESTS = [
    Test("promotion: under load", lambda: under_load(LOADS), 120),
    Test("promotion: while nobody is connected", nobody_is_connected, 60),
    Test("promotion: by strangers", strangers_do_not_promote, 60),
    Test("promotion: behind another request", a_promotion_comes_first, 60),
    Test("promotion: silent connections", a_silent_one_holds_up_no_copies, 60),
    Test("promotion: a main server that connects again", a_new_connection_takes_the_seat, 60),
    Test("promotion: nothing is taken behind it", nothing_is_taken_behind_a_promotion, 60),
    Test("promotion: of a server that is no standby", a_server_is_not_promoted, 60),
    Test("promotion: started again as a standby", started_again_as_a_standby, 60),
    Test("promotion: the script says what is wrong", the_script_says_what_is_wrong, 60),
    Test("promotion: memory that is refused", memory_that_is_refused, 120),
]

LONG_TESTS = [Test("promotion: under load, a hundred times", lambda: under_load(MANY_LOADS), 3_000)]
