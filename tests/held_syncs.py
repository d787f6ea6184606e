"""A sync that takes long holds up no worker while several authors write: with one worker, others are served meanwhile."""
import http.client
import subprocess

from faults import Faults
from harness import Test, put_files, start, want
from held_replies import types, wants_silence
from peers import wait_for
from sockets import ACCOUNTS, LISTEN, Client
from stores import STORE
from web_server import read_web

MADE = b'"ok":true}\n'


def begin():
    """A server with one worker, whose syncs can be held, and two authors of a pad."""
    put_files(ACCOUNTS)
    faults = Faults()
    process = start(
        "pad_server",
        f"{LISTEN} {STORE} --workers 1 --web 127.0.0.1:0",
        faults.variables,
        stdin=subprocess.DEVNULL,
        stdout=subprocess.PIPE,
        stderr=subprocess.PIPE,
    )
    port = int(process.stdout.readline().decode().rsplit(":", 1)[1])
    authors = []
    for name in ["ann", "bob"]:
        authors.append(Client(port))
        authors[-1].does(do="hello", name=name, token=f"t{name}")
    ann, bob = authors
    ann.does(do="create", pad="p")
    ann.does(do="grant", pad="p", author="bob", right="write")
    bob.join("p")
    return faults, read_web(process), ann, bob


def status_of_page(port):
    connection = http.client.HTTPConnection("127.0.0.1", port, timeout=20)
    connection.request("GET", "/")
    status = connection.getresponse().status
    connection.close()
    return status


def one_worker_serves_all_while_a_sync_takes_long():
    faults, web, ann, bob = begin()
    # Two edits in one turn: this is no single author, for whom the worker would sync itself.
    ann.send('{"do":"insert","pad":"p","rev":0,"at":0,"text":"a"}\n{"do":"insert","pad":"p","rev":1,"at":1,"text":"b"}\n')
    for _ in range(2):
        want(ann.replies.readline()[-len(MADE):], MADE, "the end of a reply")
    faults.set("held", 1)
    types(ann, 0)
    wait_for("a sync is held", lambda: faults.get("held") == 2)
    types(bob, 1)
    want(status_of_page(web), 200, "the status of the page while a sync is held")
    wants_silence([ann, bob])
    faults.set("held", 0)
    for author in (ann, bob):
        want(author.replies.readline()[-len(MADE):], MADE, "the end of a reply once the sync is over")
    want(ann.does(do="text", pad="p")["now"], 4, "the revision")


TESTS = [Test("store: a long sync holds up no worker", one_worker_serves_all_while_a_sync_takes_long, 60)]
