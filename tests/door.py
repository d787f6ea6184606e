"""Clients before they have logged in: how much memory they take, how many there may be, and how long guessing takes."""
import json
import re
import socket
import subprocess
import time

from harness import Case, Failed, Has, Test, want
from sockets import ACCOUNTS, LISTEN, WAIT, Client, Server
from web_server import WebServer, handshake_of

FULL = b'{"code":902,"error":"Full","ok":false}\n'
BAD_TOKEN = {"code": 201, "error": "BadToken", "ok": False}
UNFINISHED = 4_096  # bytes that are read of an unfinished line before the client has logged in
MOST_LONG = 16  # clients that are read beyond that at once


def resident(server):
    """The server's memory in KiB."""
    with open(f"/proc/{server.process.pid}/status", encoding="ascii") as status:
        return int(re.search(r"VmRSS:\s+(\d+)", status.read())[1])


def connect_from(server, address):
    """A connection whose address, as the server sees it, is this one of the loopback network."""
    connection = socket.create_connection(("127.0.0.1", server.port), timeout=WAIT, source_address=(address, 0))
    client = Client.__new__(Client)
    client.socket, client.replies = connection, connection.makefile("rb")
    return client


def hello(client, name, token):
    """What a log-in is answered, and after how many seconds."""
    began = time.monotonic()
    answer = client.ask(do="hello", name=name, token=token)
    return answer, time.monotonic() - began


def push(connection, bytes_left):
    """Sends as many bytes as the socket takes at once. Returns how many are left."""
    while bytes_left > 0:
        try:
            bytes_left -= connection.send(b"x" * min(bytes_left, 65_536))
        except BlockingIOError:
            return bytes_left
    return 0


def handshake_status(server, *fields):
    """The status of the answer to a handshake with these fields."""
    connection = socket.create_connection(("127.0.0.1", server.web), timeout=WAIT)
    connection.sendall(handshake_of(server.host, *fields).encode())
    line = connection.makefile("rb").readline()
    connection.close()
    return int(line.split(b" ")[1])


def ten_thousand_unfinished_lines_take_little_memory():
    """Each has sent 64 KiB of a line without an end, or as much of it as the system takes; an author types on."""
    server = Server("--workers 2 --clients 40000", stderr=subprocess.DEVNULL)
    author = server.author("ann")
    author.does(do="create", pad="p")
    before, silent = resident(server), []
    for number in range(10_000):
        # So many connections to one port need more than one address to come from.
        client = connect_from(server, f"127.0.0.{2 + number % 8}")
        client.socket.setblocking(False)
        push(client.socket, 65_536)
        silent.append(client)
        if number % 100 == 0:
            began = time.monotonic()
            author.does(do="insert", pad="p", rev=number // 100, at=0, text="x")
            want(time.monotonic() - began < 1, True, "an answer to the author within a second")
    time.sleep(1.5)
    more = resident(server) - before
    want(more < 100 * 1024, True, f"less than 100 MiB for {len(silent)} clients, not {more} KiB")
    want(author.does(do="text", pad="p")["text"], "x" * 100, "the text")


def unfinished_messages_take_little_memory():
    """The same of 400 sockets of browsers, of whose first message 64 KiB came in two fragments, and none was the last."""
    server = WebServer("--workers 2", stderr=subprocess.DEVNULL)
    before, silent = resident(server), []
    for _ in range(400):
        page = server.open()
        page.socket.setblocking(False)
        for head in (b"\x01", b"\x00"):
            fragment = head + bytes([0x80 | 126]) + (32_768).to_bytes(2, "big") + bytes(4) + b"x" * 32_768
            try:
                page.socket.send(fragment)
            except BlockingIOError:
                break
        silent.append(page)
    time.sleep(1)
    each = (resident(server) - before - MOST_LONG * 300) / len(silent)
    want(each < 16, True, f"less than 16 KiB for each, not {each:.1f}")


def sixteen_may_send_a_long_line():
    """Of twenty clients that have not logged in, sixteen are read on; the others follow when these have ended."""
    server = Server("--workers 1", stderr=subprocess.DEVNULL)
    size = 1_000_000
    clients = [server.connect() for _ in range(MOST_LONG + 4)]
    left = [size] * len(clients)
    for client in clients:
        client.socket.setblocking(False)
        client.socket.setsockopt(socket.SOL_SOCKET, socket.SO_SNDBUF, 65_536)
    end = time.monotonic() + 15
    while left.count(0) < MOST_LONG and time.monotonic() < end:
        left = [push(client.socket, more) for client, more in zip(clients, left)]
        time.sleep(0.02)
    time.sleep(2)
    left = [push(client.socket, more) for client, more in zip(clients, left)]
    want(left.count(0), MOST_LONG, "how many have sent a long line without an end")
    for client, more in zip(clients, left):
        if more == 0:
            client.socket.setblocking(True)
            client.send("\n")
            want(client.replies.readline(), b'{"code":101,"error":"NotJson","ok":false}\n', "the answer to a long line")
    end = time.monotonic() + 15
    while any(left) and time.monotonic() < end:
        left = [push(client.socket, more) for client, more in zip(clients, left)]
        time.sleep(0.05)
    want(left.count(0), len(clients), "how many have sent a long line in the end")


def who_has_logged_in_sends_long_lines_beside_them():
    """Sixteen that have not logged in have begun long lines; an author's long line is read and answered all the same."""
    server = Server("--workers 1", stderr=subprocess.DEVNULL)
    author = server.author("ann")
    author.does(do="create", pad="p")
    begun = [server.connect() for _ in range(MOST_LONG)]
    for client in begun:
        client.send("x" * 100_000)
    author.send(" " * 200_000 + '{"do":"revs","pad":"p"}\n')
    want(json.loads(author.replies.readline())["now"], 0, "the answer to a long line")


def a_quarter_may_not_have_logged_in():
    """Of 80 clients 20. One more is refused, until one of these has logged in."""
    server = Server("--workers 1 --clients 80", stderr=subprocess.DEVNULL)
    authors = [server.author("ann") for _ in range(5)]
    silent = [server.connect() for _ in range(20)]
    want(server.connect().replies.readline(), FULL, "the answer to one too many")
    want(authors[0].does(do="create", pad="p")["visit"], 1, "an author's visit")
    silent[0].wants({"do": "hello", "name": "bob", "token": "tbob"}, {"author": "bob@1", "ok": True})
    want(server.author("cid").does(do="pads")["pads"], [], "the pads of who came in its place")
    silent[1].close()
    end = time.monotonic() + WAIT
    while server.connect().ask(do="pads") == json.loads(FULL):
        if time.monotonic() > end:
            raise Failed("the place of one that has gone stays taken")
        time.sleep(0.05)


def few_clients_may_all_be_strangers():
    """With at most 16 clients in all, as many may be connected before any has logged in."""
    server = Server("--workers 1 --clients 16", stderr=subprocess.DEVNULL)
    clients = [server.connect() for _ in range(16)]
    for client in clients:
        client.wants({"do": "hello", "name": "ann", "token": "tann"}, {"author": "ann@1", "ok": True})


def sockets_of_browsers_count_too():
    """Sixteen silent sockets of 64 clients: one more handshake is refused as 503, while the page is served."""
    server = WebServer("--workers 1 --clients 64", stderr=subprocess.DEVNULL)
    silent = [server.open() for _ in range(16)]
    want(handshake_status(server), 503, "the status of one handshake too many")
    want(server.get("/").status, 200, "the status of the page")
    silent[0].ask(do="hello", name="ann", token="tann")
    want(handshake_status(server), 101, "the status once one has logged in")


def wrong_tokens_of_an_address_make_it_wait():
    """Three on connections of their own; then every log-in from there waits, and none from another address."""
    server = Server("--workers 2", stderr=subprocess.PIPE)
    for _ in range(3):
        want(hello(connect_from(server, "127.0.0.2"), "bob", "wrong")[0], BAD_TOKEN, "the answer to a wrong token")
    answer, seconds = hello(connect_from(server, "127.0.0.2"), "ann", "tann")
    want((answer, 0.199 <= seconds < 2), ({"author": "ann@1", "ok": True}, True), f"a right token from there, after {seconds:.2f} s")
    answer, seconds = hello(connect_from(server, "127.0.0.3"), "bob", "tbob")
    want((answer, seconds < 0.1), ({"author": "bob@1", "ok": True}, True), f"the right one from elsewhere, after {seconds:.2f} s")
    said = server.says()
    want([part for part in ["from 127.0.0.2:", "for bob", "3 from this address", "3 since the start"] if part not in said], [], f"what {said!r} lacks")


def the_wait_of_an_address_grows_and_cannot_be_passed():
    """Not by a new connection, by a second line, by ending the input or by leaving out the line feed."""
    server = Server("--workers 2", stderr=subprocess.DEVNULL)
    for _ in range(5):
        hello(connect_from(server, "127.0.0.2"), "bob", "wrong")
    line = '{"do":"hello","name":"bob","token":"tbob"}'
    for name, sent, ends in [
        ("a second line", f"{line}\n{{}}\n", False),
        ("the end of the input", f"{line}\n", True),
        ("no line feed", line, True),
        ("spaces", " " * 5_000 + f"{line}\n", False),
    ]:
        client = connect_from(server, "127.0.0.2")
        began = time.monotonic()
        client.send(sent)
        if ends:
            client.socket.shutdown(socket.SHUT_WR)
        want(client.replies.readline(), b'{"author":"bob@1","ok":true}\n', f"the answer with {name}")
        seconds = time.monotonic() - began
        want(0.799 <= seconds < 3, True, f"0.8 s with {name}, not {seconds:.2f}")


def wrong_tokens_for_a_name_make_guesses_wait():
    """One from each of three addresses; from a fourth a wrong one waits, and the right one does not."""
    server = Server("--workers 2", stderr=subprocess.DEVNULL)
    for number in range(3):
        want(hello(connect_from(server, f"127.0.0.{10 + number}"), "bob", "wrong")[0], BAD_TOKEN, "the answer")
    answer, seconds = hello(connect_from(server, "127.0.0.20"), "bob", "wrong")
    want((answer, 0.199 <= seconds < 2), (BAD_TOKEN, True), f"a wrong token for the name, after {seconds:.2f} s")
    answer, seconds = hello(connect_from(server, "127.0.0.21"), "bob", "tbob")
    want((answer, seconds < 0.1), ({"author": "bob@1", "ok": True}, True), f"the right token, after {seconds:.2f} s")
    answer, seconds = hello(connect_from(server, "127.0.0.22"), "ann", "wrong")
    want((answer, seconds < 0.1), (BAD_TOKEN, True), f"a first wrong token for another name, after {seconds:.2f} s")


def an_address_takes_as_many_connections_as_it_may():
    server = Server("--workers 1 --clients-per-address 3", stderr=subprocess.DEVNULL)
    clients = [connect_from(server, "127.0.0.2") for _ in range(3)]
    want(clients[0].ask(do="hello", name="ann", token="tann")["ok"], True, "whether one of them is served")
    want(connect_from(server, "127.0.0.2").replies.readline(), FULL, "the answer to the fourth")
    want(connect_from(server, "127.0.0.3").ask(do="hello", name="bob", token="tbob")["ok"], True, "whether another address is served")
    clients[0].close()
    end = time.monotonic() + WAIT
    while connect_from(server, "127.0.0.2").ask(do="pads") == json.loads(FULL):
        if time.monotonic() > end:
            raise Failed("the place of one that has gone stays taken")
        time.sleep(0.05)


def short_tokens_are_warned_of():
    accounts = (("accounts", "author ann abcdefghijk\nauthor bob abcdefghijkl\npeer 2 short 127.0.0.1:1\n# author x y\n"),)
    server = Server("--workers 1", accounts=accounts, stderr=subprocess.PIPE)
    said = server.process.stderr.readline().decode()
    want([part for part in ["accounts", "the token of ann and of 1 more", "fewer than 12 characters"] if part not in said], [], f"what {said!r} lacks")


def an_origin_that_is_empty_or_repeated_is_refused():
    for more in ("", "--web-origin https://pads.example"):
        server = WebServer(more, stderr=subprocess.DEVNULL)
        own = f"Origin: http://{server.host}"
        want(handshake_status(server, own), 101, "the status with the server's own origin")
        for fields in (("Origin:",), ("Origin: ",), (own, own), (own, "Origin: https://evil.example"), ("Origin:", own)):
            want(handshake_status(server, *fields), 403, f"the status with {fields} and {more!r}")


def no_origin(text):
    args = f"{LISTEN} --web 127.0.0.1:0 --web-origin={text}"
    return Case(f"door: origin {text!r}", args, status=2, stderr=Has("--web-origin", "is not an origin", "https://pads.example"), files=ACCOUNTS)


ORIGINS = ["", "*", "pads.example", "https://", "https://pads.example/", "https://pads.example/p", "ftp://pads.example", "https://ann@pads.example", "https://a.example,,https://b.example"]

CASES = [no_origin(text) for text in ORIGINS]

FUNCTIONS = [
    unfinished_messages_take_little_memory,
    sixteen_may_send_a_long_line,
    who_has_logged_in_sends_long_lines_beside_them,
    a_quarter_may_not_have_logged_in,
    few_clients_may_all_be_strangers,
    sockets_of_browsers_count_too,
    wrong_tokens_of_an_address_make_it_wait,
    the_wait_of_an_address_grows_and_cannot_be_passed,
    wrong_tokens_for_a_name_make_guesses_wait,
    an_address_takes_as_many_connections_as_it_may,
    short_tokens_are_warned_of,
    an_origin_that_is_empty_or_repeated_is_refused,
]

TESTS = [case.test() for case in CASES]
TESTS += [Test(f"pad_server: door: {function.__name__.replace('_', ' ')}", function, 60, alone=True) for function in FUNCTIONS]
TESTS += [Test("pad_server: door: ten thousand unfinished lines take little memory", ten_thousand_unfinished_lines_take_little_memory, 120, alone=True)]
