"""A standby: it has every line of the main server's files, and what was confirmed survives the loss of the main server."""
import os
import shutil
import signal
import time

from harness import Case, Failed, Has, Test, want
from scripts_test import PYTHON, script
from sockets import Client
from two_machines import Machines, entries_of, files_of, power_cut, shown, wait_until_copied


def the_copy_is_the_file():
    machines = Machines()
    machines.standby()
    machines.main("5")
    ann = machines.author("ann")
    ann.does(do="create", pad="p")
    ann.does(do="grant", pad="p", author="bob", right="write")
    ann.does(do="grant", pad="p", author="cid", right="read")
    bob = machines.author("bob", "p")
    ann.does(do="insert", pad="p", rev=0, at=0, text="one ü 𝄞\n")
    bob.does(do="insert", pad="p", rev=1, at=0, text="two")
    ann.does(do="comment", pad="p", rev=2, at=0, len=3, text="why?")
    ann.does(do="grant", pad="p", author="cid", right="none")
    # Each of these was confirmed before it was answered.
    want(files_of("copy"), files_of("main"), "the copies")
    before, made = shown(ann), entries_of(ann, "p")
    machines.kill(2)
    machines.kill(1)
    shutil.rmtree("main")
    machines.promoted()
    ann = machines.author("ann", "p", 2)
    want(shown(ann), before, "what the promoted server shows")
    want(entries_of(ann, "p"), made, "the operations of the promoted server")
    want(machines.author("cid", number=2).ask(do="join", pad="p").get("code"), 312, "the answer to cid, whose right was taken away")
    want(ann.does(do="insert", pad="p", rev=3, at=0, text="x")["name"], [2, 1], "the name of the first edit under the new number")


def what_was_there_before_is_copied():
    """A server that had a store for a while gets a standby: the files are copied byte for byte, several rounds long."""
    machines = Machines()
    machines.run(1, "main")
    ann = machines.author("ann")
    for number in range(30):
        ann.does(do="create", pad=f"p{number}")
        for rev in range(20):
            ann.does(do="insert", pad=f"p{number}", rev=rev, at=0, text="abcdefghij" * 250)
    machines.kill(1)
    if sum(map(len, files_of("main").values())) < 1_200_000:
        raise Failed("the store fits into one round")
    machines.standby()
    machines.main("strict")
    # A strict server serves nobody before the standby has everything.
    ann = machines.author("ann")
    want(files_of("copy") == files_of("main"), True, "that the copy has everything at the start")
    ann.does(do="join", pad="p7")
    ann.does(do="insert", pad="p7", rev=20, at=0, text="more")
    wait_until_copied()
    machines.kill(1)
    machines.kill(2)
    # The standby finds its files as they were, and goes on from there.
    machines.standby()
    machines.main()
    machines.wait_until_said(1, "the standby 2 has everything that is stored here")
    want(files_of("copy") == files_of("main"), True, "that the copy has everything after a restart of both")


def a_power_cut_of_the_standby():
    """What was confirmed is there, whatever a power cut leaves of the files behind the log."""
    for seed in range(5):
        machines = Machines()
        machines.standby()
        machines.main("5")
        ann = machines.author("ann")
        for number in range(4):
            ann.does(do="create", pad=f"p{number}")
            for rev in range(30):
                ann.does(do="insert", pad=f"p{number}", rev=rev, at=0, text=f"{rev} ")
        before = [shown(ann, f"p{number}") for number in range(4)]
        machines.kill(2)
        machines.kill(1)
        want(power_cut("copy", seed), 4, "how many pads the log has")
        if seed % 2 == 0:  # the standby starts again before it is promoted
            machines.standby()
            want(files_of("copy") == files_of("main"), True, "that the standby completes its files")
            machines.kill(2)
        machines.promoted()
        ann = machines.author("ann", number=2)
        for number in range(4):
            ann.join(f"p{number}")
            want(shown(ann, f"p{number}"), before[number], f"what p{number} shows")
        want(os.path.exists("copy/rounds"), False, "that the log is left")
        machines.kill(2)
        shutil.rmtree("main")
        shutil.rmtree("copy")


def a_file_that_is_gone_takes_nothing_of_the_others():
    """After a power cut somebody moves one file of the copy aside: the other files are completed from the log all the same."""
    machines = Machines()
    pads = [f"p{number}" for number in range(4)]
    machines.standby()
    machines.main("5")
    ann = machines.author("ann")
    for pad in pads:
        ann.does(do="create", pad=pad)
        ann.does(do="insert", pad=pad, rev=0, at=0, text="first ")
    machines.kill(2)
    machines.standby()  # from here on the log begins behind what the files have
    machines.wait_until_said(1, "the standby 2: ")
    wait_until_copied()
    for rev in range(1, 10):
        for pad in pads:
            ann.does(do="insert", pad=pad, rev=rev, at=0, text=f"{rev} ")
    wait_until_copied()
    before = [shown(ann, pad) for pad in pads]
    machines.kill(2)
    machines.kill(1)
    want(power_cut("copy", 1), len(pads), "how many pads the log has")
    os.remove("copy/p0.pad")
    machines.promoted()
    ann = machines.author("ann", number=2)
    want(ann.ask(do="join", pad="p0").get("code"), 300, "the answer of the pad whose file is gone")
    for pad, seen in list(zip(pads, before))[1:]:
        ann.join(pad)
        want(shown(ann, pad), seen, f"what {pad} shows")


def a_standby_that_does_not_answer():
    machines = Machines()
    standby = machines.standby()
    machines.main("1")
    ann = machines.author("ann")
    ann.does(do="create", pad="p")
    standby.send_signal(signal.SIGSTOP)
    began = time.monotonic()
    ann.does(do="insert", pad="p", rev=0, at=0, text="alone")
    waited = time.monotonic() - began
    if not 0.9 <= waited <= 8:
        raise Failed(f"the reply came after {waited} s, and was to wait one second for the standby")
    began = time.monotonic()
    ann.does(do="insert", pad="p", rev=1, at=0, text="still ")
    if time.monotonic() - began > 0.9:
        raise Failed("the second reply waited again")
    want(machines.said(1).count("the standby does not answer: this server goes on alone"), 1, "how often it was said")
    standby.send_signal(signal.SIGCONT)
    machines.wait_until_said(1, "the standby 2 answers again: this server goes on alone no longer")
    wait_until_copied()
    ann.does(do="insert", pad="p", rev=2, at=0, text="both ")
    want(files_of("copy"), files_of("main"), "the files, once the server waits again")


def wants_no_answer(client, line):
    """The connection ends before anything is answered."""
    client.send(line)
    try:
        answer = client.replies.readline()
    except OSError:
        answer = b""
    want(answer, b"", f"what was answered to {line!r}")


def a_strict_server_ends():
    machines = Machines()
    standby = machines.standby()
    main = machines.main("strict")
    ann = machines.author("ann")
    ann.does(do="create", pad="p")
    standby.send_signal(signal.SIGSTOP)
    wants_no_answer(ann, '{"do":"insert","pad":"p","rev":0,"at":0,"text":"lost"}\n')
    want(main.wait(), 1, "the status")
    machines.wait_until_said(1, "pad_server: the standby 2 does not answer\n")


def a_promoted_server_takes_nothing():
    """The fence: once the standby serves pads itself, the old main server confirms nothing any more, and ends."""
    machines = Machines()
    machines.standby()
    main = machines.main("strict")
    ann = machines.author("ann")
    ann.does(do="create", pad="p")
    ann.does(do="insert", pad="p", rev=0, at=0, text="before")
    machines.kill(2)
    machines.promoted()
    wants_no_answer(ann, '{"do":"insert","pad":"p","rev":1,"at":0,"text":"fork"}\n')
    want(main.wait(), 1, "the status of the old server")
    machines.wait_until_said(1, "the server 2 is no standby: it serves pads itself")
    want(machines.author("ann", "p", 2).does(do="text", pad="p")["text"], "before", "the text of the promoted server")


def another_past_is_told_and_not_repaired():
    machines = Machines()
    machines.standby()
    machines.main("5")
    ann = machines.author("ann")
    for pad in ("p", "q"):
        ann.does(do="create", pad=pad)
        ann.does(do="insert", pad=pad, rev=0, at=0, text="the same")
    machines.kill(1)
    machines.kill(2)
    machines.promoted()
    ann = machines.author("ann", "q", 2)
    ann.does(do="insert", pad="q", rev=1, at=0, text="only here ")
    machines.kill(2)
    machines.standby()
    was = files_of("copy")
    machines.run(1, "main", "--standby 2")
    ann = machines.author("ann", "q")
    ann.does(do="insert", pad="q", rev=1, at=0, text="only there ")
    # The promoted server has begun to write to each file.
    machines.wait_until_said(1, "the standby 2 has another past of the pad p: nothing is sent to it")
    want(files_of("copy"), was, "the copies")


def strangers_are_refused():
    machines = Machines()
    machines.standby()
    for request, answer in [
        ('{"do":"hello","name":"ann","token":"tann"}', '{"code":341,"error":"IsStandby","ok":false}\n'),
        ('{"do":"peer","number":1,"token":"wrong","version":2}', '{"code":201,"error":"BadToken","ok":false}\n'),
        ('{"do":"peer","number":2,"token":"secret","version":2}', '{"code":341,"error":"IsStandby","ok":false}\n'),
        ("{", '{"code":101,"error":"NotJson","ok":false}\n'),
    ]:
        client = Client(machines.ports[2])
        client.send(request + "\n")
        want(client.finish(), answer, f"the answer to {request}")
    client = Client(machines.ports[2])
    client.send('{"do":"peer","number":1,"token":"secret","version":2}\n')
    want(client.replies.readline(), b'{"ok":true,"replica":2,"version":2}\n', "the answer to the main server")
    client.send('{"do":"copies"}\n{"bytes":3,"do":"keep","from":0,"pad":"../x"}\nabc{"do":"sync","mark":1}\n')
    want(client.finish(), '{"ok":true}\n{"code":303,"error":"BadName","ok":false}\n', "the answers to a wrong name")
    client = Client(machines.ports[2])
    client.send('{"do":"peer","number":1,"token":"secret","version":2}\n{"bytes":6,"do":"keep","from":0,"pad":"p"}\nwrong\n{"do":"sync","mark":1}\n')
    want(
        client.finish(),
        '{"ok":true,"replica":2,"version":2}\n{"code":340,"error":"OtherPast","ok":false}\n',
        "the answers to a line that is not linked",
    )
    want(files_of("copy"), {}, "the copies")


def two_windows_type_through_a_loss():
    script(PYTHON, "failover_test.py")


def misused(name, args, message):
    return Case(f"standby: {name}", args, "", "", 2, f"pad_server: {message}\n", (("accounts", "author ann t1\npeer 2 t 127.0.0.1:1\n"),)).test()


LISTENING = "--listen 127.0.0.1:0 --replica 1 --accounts accounts"
WRONG_WORDS = [
    misused("on standard input", "--stdin --replica 1 --standby 2", "--standby <N> and --standby-of <N> need --listen <ADDR>"),
    misused("of standard input", "--stdin --replica 1 --standby-of 2", "--standby <N> and --standby-of <N> need --listen <ADDR>"),
    misused("without a store", f"{LISTENING} --standby 2", "--standby <N> and --standby-of <N> need --store <DIR>"),
    misused("of a server, without a store", f"{LISTENING} --standby-of 2", "--standby <N> and --standby-of <N> need --store <DIR>"),
    misused("itself", f"{LISTENING} --store kept --standby 1", "--standby <N> and --standby-of <N> name another server than --replica <N>"),
    misused("of itself", f"{LISTENING} --store kept --standby-of 1", "--standby <N> and --standby-of <N> name another server than --replica <N>"),
    misused(
        "with one of its own",
        f"{LISTENING} --store kept --standby-of 2 --standby 3",
        "--standby-of <N> goes with neither --standby nor --new-replica: a standby serves no pads before it is promoted",
    ),
    misused(
        "under a new number",
        f"{LISTENING} --store kept --standby-of 2 --new-replica",
        "--standby-of <N> goes with neither --standby nor --new-replica: a standby serves no pads before it is promoted",
    ),
    misused("a confirmation without one", f"{LISTENING} --store kept --confirm 5", "--confirm <WHEN> needs --standby <N>"),
    misused(
        "no seconds",
        f"{LISTENING} --store kept --standby 2 --confirm 0",
        '--confirm: "0" is neither a number of seconds, 1 to 86400, nor `strict`',
    ),
    misused(
        "a word",
        f"{LISTENING} --store kept --standby 2 --confirm always",
        '--confirm: "always" is neither a number of seconds, 1 to 86400, nor `strict`',
    ),
]
NO_PEER = [
    Case(
        f"standby: {name}", f"{LISTENING} --store kept {word} 7", "", "", 1,
        Has("pad_server: the accounts file has no line for peer 7\n"), (("accounts", "author ann t1\n"),),
    ).test()
    for name, word in [("not in the accounts file", "--standby"), ("of nobody in the accounts file", "--standby-of")]
]

TESTS = [
    Test("standby: the copy is the file", the_copy_is_the_file),
    Test("standby: what was there before is copied", what_was_there_before_is_copied, 60),
    Test("standby: a power cut", a_power_cut_of_the_standby, 60),
    Test("standby: a file that is gone", a_file_that_is_gone_takes_nothing_of_the_others, 60),
    Test("standby: it does not answer", a_standby_that_does_not_answer, 60),
    Test("standby: a strict server ends without it", a_strict_server_ends, 60),
    Test("standby: once promoted, it takes nothing", a_promoted_server_takes_nothing, 60),
    Test("standby: another past is told", another_past_is_told_and_not_repaired, 60),
    Test("standby: strangers", strangers_are_refused),
    Test("standby: two windows type through the loss of the main server", two_windows_type_through_a_loss, 240),
    *WRONG_WORDS,
    *NO_PEER,
]
