"""A store and the replica number of its server: another number is refused, and --new-replica goes on under a new one."""
import subprocess

from harness import Test, want
from sockets import LISTEN, Server
from stores import STORE, kill, lines_of, path, restarted


def other_replica():
    server = restarted()
    server.author("ann").does(do="create", pad="p")
    kill(server)
    process = subprocess.run(
        [path("pad_server"), *f"{LISTEN} {STORE}".replace("--replica 1", "--replica 2").split()],
        stdin=subprocess.DEVNULL,
        capture_output=True,
        timeout=15,
    )
    want(process.returncode, 2, "the status")
    want(b"replica number 1" in process.stderr, True, "that the number is told")
    want(b"--new-replica" in process.stderr, True, "that the flag is told")


def start_again(number, *more):
    """A start of the store by another number, which ends at once where it is refused."""
    words = f"{LISTEN} {STORE}".replace("--replica 1", f"--replica {number}").split()
    return subprocess.run([path("pad_server"), *words, *more], stdin=subprocess.DEVNULL, capture_output=True, timeout=15)


def new_replica():
    """A store goes on under a new number, and from then on is that number's."""
    server = restarted()
    ann = server.author("ann")
    ann.does(do="create", pad="p")
    ann.does(do="insert", pad="p", rev=0, at=0, text="one")
    kill(server)
    for _ in range(2):
        server = Server(STORE.replace("--store", "--new-replica --store"), number=2)
        ann = server.connect()
        ann.wants({"do": "hello", "name": "ann", "token": "tann"}, {"author": "ann@2", "ok": True})
        ann.join("p")
        now = ann.does(do="revs", pad="p")["now"]
        answer = ann.does(do="insert", pad="p", rev=now, at=0, text="two")
        want(answer["name"], [2, now], "the name of the next operation")
        kill(server)
    texts = lines_of("p")
    headers = [text for text in texts if "format" in text]
    want(headers, [{"format": 1, "pad": "p", "replica": number} for number in (1, 2)], "the headers")
    for number, more, told in (
        (1, (), b"replica number 2"),
        (3, (), b"replica number 2"),
        (1, ("--new-replica",), b"has operations of a server with replica number 1"),
    ):
        process = start_again(number, *more)
        want(process.returncode, 2, f"the status with number {number} and {more}")
        want(told in process.stderr, True, f"that {told} stands in {process.stderr}")


TESTS = [
    Test("store: another replica number", other_replica),
    Test("store: a new replica number", new_replica),
]
