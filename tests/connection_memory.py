"""Memory that is refused to connections: as one begins, as a long line comes, and as its client moves to another worker."""
import errno
import itertools
import json
import time

from harness import Failed, Test, want
from memory import LINE, NO_MEMORY, Server

NOT_JSON = {"code": 101, "error": "NotJson", "ok": False}


def a_connection_without_memory_ends_alone():
    """The first allocation of a connection that begins is refused, then the second, until one is served."""
    server = Server("--workers 1")
    server.author("ann").finish()
    for allocation in itertools.count(1):
        client, refused = server.refuses_one(allocation, lambda: ask_once(server))
        if not refused:
            want(client, '{"author":"ann@1","ok":true}\n', "the answer to hello")
            break
        # Memory that is given back may stay as it is: nobody is told of that.
        if client not in ("", LINE, '{"author":"ann@1","ok":true}\n'):
            raise Failed(f"with allocation {allocation} refused a connection is told {client!r}")
    if allocation == 1:
        raise Failed("no allocation was refused")


def ask_once(server):
    """What a new connection is told until it ends."""
    try:
        client = server.connect()
        client.send('{"do":"hello","name":"ann","token":"tann"}\n')
        return client.finish()
    except (ConnectionResetError, BrokenPipeError):
        return ""
    except OSError as error:
        if error.errno != errno.ENOTCONN:
            raise
        return ""


def ask_or_lose(client, request):
    """The answer; None where the connection was ended before, such as while the line was still being sent."""
    try:
        client.send(json.dumps(request) + "\n")
        answer = client.replies.readline()
        return json.loads(answer) if answer else None
    except (ConnectionResetError, BrokenPipeError):
        return None


def a_long_line_without_memory_is_told():
    """Where the line itself finds no memory, 900 is the last reply."""
    server = Server("--workers 2")
    ann = server.author("ann")
    ann.does(do="create", pad="p")
    request = {"do": "insert", "pad": "p", "rev": 0, "at": 0, "text": "x" * 300_000}
    for allocation in itertools.count(1):
        bob = server.author("bob")
        answer, refused = server.refuses_one(allocation, lambda: ask_or_lose(bob, request))
        if not refused:
            want(answer["code"], 310, "the code of the answer")
            break
        # The buffer that is given back behind the line may stay as long as it is: nobody is told of that.
        if answer is not None and answer != NO_MEMORY:
            want(answer["code"], 310, f"the code of the answer with allocation {allocation} refused")
        bob.close()
    if allocation < 5:
        raise Failed(f"only {allocation - 1} allocations were refused")
    ann.wants({"do": "text", "pad": "p"}, {"now": 0, "ok": True, "rev": 0, "text": ""})


def who_moves_without_memory_leaves_its_pads():
    """A long line begins, and its client moves to another worker. Whichever allocation fails then, nobody stays behind,
    and who finds no memory on the way is told so. A client whose bytes find none as they are read ends without a word."""
    told = []
    for allocation in itertools.count(1):
        # What a worker has made room for it keeps, so each time it is another server.
        server = Server("--workers 2")
        ann = server.author("ann")
        ann.does(do="create", pad="p")
        ann.does(do="grant", pad="p", author="bob", right="write")
        server.faults.set("everywhere", 1)
        bob = server.author("bob")
        bob.join("p")
        answer, refused = server.refuses_one(allocation, lambda: begin_long_line(bob))
        told.append(answer)
        bob.close()
        end = time.monotonic() + 10
        while "bob@1" in visitors(server):
            if time.monotonic() > end:
                raise Failed(f"with allocation {allocation} refused, who has gone is still on the pad")
            time.sleep(0.02)
        server.process.kill()
        if not refused:
            break
    if allocation < 5:
        raise Failed(f"only {allocation - 1} allocations were refused")
    want(told[-1], None, "what is told with all memory")
    want(set(told) <= {None, b"", LINE.encode()}, True, f"900 or nothing, and not {told}")
    want(LINE.encode() in told, True, f"that who finds no memory on the way is told so, and not {told}")


def visitors(server):
    """Who is on the pad p, asked by a connection of its own: on a busy machine the refused allocation may be one of another client's."""
    ann = server.author("ann")
    ann.join("p")
    present = [visit["author"] for visit in ann.does(do="who", pad="p")["who"]]
    ann.close()
    return present


def begin_long_line(client):
    """Sends the beginning of a long line. What the client is told until its end, or None if the server goes on."""
    try:
        client.send(" " * 120_000)
    except (ConnectionResetError, BrokenPipeError):
        pass
    client.socket.settimeout(0.3)
    told = b""
    try:
        while part := client.socket.recv(4_096):
            told += part
    except TimeoutError:
        return None
    except ConnectionResetError:
        pass
    return told


def the_room_of_a_long_line_is_given_back():
    """Four connections send a line of 8 MiB each, are answered, and wait: no large block is left of those lines."""
    server = Server()
    served = server.served()
    before = server.faults.get("large")
    clients = []
    for number in range(4):
        client = server.connect()
        client.send("x" * (8 * 1024 * 1024) + "\n")
        want(json.loads(client.replies.readline()), NOT_JSON, f"the answer to long line {number}")
        clients.append(client)
    deadline = time.monotonic() + 10
    while server.faults.get("large") > before and time.monotonic() < deadline:
        time.sleep(0.05)
    want(server.faults.get("large"), before, "the bytes of large blocks while all connections wait")
    for client in [served, *clients]:
        client.wants({"do": "text", "pad": "p"}, {"code": 200, "error": "NoSession", "ok": False})


TESTS = [
    Test("memory: a connection that finds none ends alone", a_connection_without_memory_ends_alone, 60, alone=True),
    Test("memory: a long line that finds none", a_long_line_without_memory_is_told, 60, alone=True),
    Test("memory: who moves to the worker for long lines leaves its pads", who_moves_without_memory_leaves_its_pads, 60, alone=True),
    Test("memory: the room of a long line is given back", the_room_of_a_long_line_is_given_back, 60, alone=True),
]
