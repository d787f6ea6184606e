"""Replies that wait for the standby are held, and no worker is: with one worker, all other clients are served meanwhile."""
import http.client
import signal
import time

from harness import Failed, Test, want
from peers import wait_for
from sockets import Client
from two_machines import NAMES, Machines, files_of, wait_until_copied
from web_server import read_web


def begin(confirm, more=""):
    """A main server with one worker, a pad, and an author for each name who has joined it."""
    machines = Machines()
    standby = machines.standby()
    main = machines.main(confirm, f"--workers 1 {more}")
    ann = machines.author("ann")
    ann.does(do="create", pad="p")
    for name in NAMES[1:]:
        ann.does(do="grant", pad="p", author=name, right="write")
    authors = [ann] + [machines.author(name, "p") for name in NAMES[1:]]
    return machines, standby, main, authors


def types(author, number):
    author.send(f'{{"do":"insert","pad":"p","rev":0,"at":0,"text":"edit{number};"}}\n')


def wants_silence(clients):
    """Nothing has come to any of these."""
    for number, client in enumerate(clients):
        client.socket.setblocking(False)
        try:
            got = client.socket.recv(100)
            raise Failed(f"client {number} got {got!r}, and the standby has confirmed nothing")
        except BlockingIOError:
            pass
        client.socket.settimeout(20)


def threads_of(process):
    with open(f"/proc/{process.pid}/status", encoding="ascii") as file:
        return next(line.split()[1] for line in file if line.startswith("Threads:"))


def wait_until_stored(count):
    """All edits are in the main server's file, although none was answered."""
    texts = [f"edit{number};".encode() for number in range(count)]
    wait_for("all edits are stored", lambda: all(text in files_of("main")["p.pad"] for text in texts))


def machines_told(port):
    """What the page is told about on how many machines its words are kept."""
    connection = http.client.HTTPConnection("127.0.0.1", port, timeout=20)
    connection.request("GET", "/kept")
    told = connection.getresponse().read()
    connection.close()
    return told


def one_worker_serves_all_while_replies_wait():
    machines, standby, main, authors = begin("60", "--web 127.0.0.1:0")
    web = read_web(main)
    threads = threads_of(main)
    want(machines_told(web), b'{"machines":2}', "what the page is told before")
    standby.send_signal(signal.SIGSTOP)
    for number, author in enumerate(authors):
        types(author, number)
    wait_until_stored(len(authors))
    wants_silence(authors)
    # Somebody who comes meanwhile is read too, and waits as well, since the answer could reveal what is not confirmed.
    late = Client(machines.ports[1])
    late.send('{"do":"hello","name":"bob","token":"tbob"}\n')
    time.sleep(0.3)
    wants_silence([late])
    want(threads_of(main), threads, "the threads of the server while replies wait")
    want(machines_told(web), b'{"machines":2}', "what the page is told while replies wait")
    standby.send_signal(signal.SIGCONT)
    for author in authors:
        want(author.replies.readline().endswith(b'"ok":true}\n'), True, "that an edit is answered once it is confirmed")
    want(late.replies.readline(), b'{"author":"bob@1","ok":true}\n', "the answer to who came meanwhile")
    wait_until_copied()
    now = authors[0].does(do="revs", pad="p")["now"]
    want(now, len(authors), "the revision")


def who_waits_is_neither_silent_nor_slow():
    """A limit on silence does not end a client whose reply the server itself keeps."""
    _, standby, _, authors = begin("60", "--idle 2")
    standby.send_signal(signal.SIGSTOP)
    types(authors[0], 0)
    time.sleep(6)
    standby.send_signal(signal.SIGCONT)
    want(authors[0].replies.readline(), b'{"name":[1,1],"now":1,"ok":true}\n', "the answer after six seconds")


def who_leaves_while_waiting_leaves_nothing():
    """A client that ends while its reply is held leaves its pad once the reply can go."""
    _, standby, _, authors = begin("60")
    standby.send_signal(signal.SIGSTOP)
    for number, author in enumerate(authors[1:]):
        types(author, number)
    wait_until_stored(len(authors) - 1)
    for author in authors[1:]:
        author.close()
    standby.send_signal(signal.SIGCONT)
    ann = authors[0]
    wait_for("ann alone is present", lambda: len(ann.does(do="who", pad="p")["who"]) == 1)
    want(ann.does(do="revs", pad="p")["now"], len(authors) - 1, "the revision")


def all_go_on_alone_together():
    machines, standby, _, authors = begin("2")
    standby.send_signal(signal.SIGSTOP)
    began = time.monotonic()
    for number, author in enumerate(authors):
        types(author, number)
    for author in authors:
        want(author.replies.readline().endswith(b'"ok":true}\n'), True, "that an edit is answered after two seconds")
    waited = time.monotonic() - began
    if not 1.9 <= waited <= 9:
        raise Failed(f"the last reply came after {waited} s, and was to wait two seconds for the standby")
    want(machines.said(1).count("the standby does not answer: this server goes on alone"), 1, "how often it was said")
    standby.send_signal(signal.SIGCONT)
    machines.wait_until_said(1, "the standby 2 answers again: this server goes on alone no longer")
    wait_until_copied()


TESTS = [
    Test("standby: one worker serves all while replies wait", one_worker_serves_all_while_replies_wait, 60),
    Test("standby: who waits is neither silent nor slow", who_waits_is_neither_silent_nor_slow, 60),
    Test("standby: who leaves while waiting leaves nothing", who_leaves_while_waiting_leaves_nothing, 60),
    Test("standby: all go on alone together", all_go_on_alone_together, 60),
]
