"""Many visits at once: half handshakes by the thousand, silent and greedy sockets, and what a server that ends tells them."""
import select
import socket
import subprocess
import threading
import time

from crowds import resident, threads_of
from faults import Faults
from harness import Failed, Test, put_files, start, want
from sockets import ACCOUNTS, LISTEN, NAMES, Client
from web_server import LONGEST, TEXT, Socket, WebServer, files, frame, handshake_of, parse_response, read_web

REQUEST_TIME = 10  # seconds, for the head of a request
MOST_VISITS = 512
SLOWEST = 2  # seconds, for an answer to an author meanwhile


def pad_of_typists(server):
    """An owner of a pad on which all authors may write."""
    owner = server.author("ann")
    owner.does(do="create", pad="p")
    for name in NAMES[1:]:
        owner.does(do="grant", pad="p", author=name, right="write")
    return owner


class Typing:
    """Clients type letters until they are told to stop. What they met, and the slowest answer, are kept."""

    def __init__(self, clients):
        self.stopped, self.problems, self.typed, self.slowest = threading.Event(), [], [0] * len(clients), 0
        self.threads = [threading.Thread(target=self.run, args=pair, daemon=True) for pair in enumerate(clients)]
        for thread in self.threads:
            thread.start()

    def run(self, number, client):
        try:
            while not self.stopped.is_set():
                began = time.monotonic()
                rev = client.does(do="revs", pad="p")["now"]
                client.does(do="insert", pad="p", rev=rev, at=0, text="x")
                self.slowest = max(self.slowest, (time.monotonic() - began) / 2)
                self.typed[number] += 1
                time.sleep(0.2)
        except BaseException as problem:
            self.problems.append(repr(problem))

    def stop(self, least):
        self.stopped.set()
        for thread in self.threads:
            thread.join(20)
        want(self.problems, [], "what went wrong")
        want(min(self.typed) >= least, True, f"at least {least} letters by each, not {self.typed}")
        want(self.slowest < SLOWEST, True, f"each answer within {SLOWEST} s, not {self.slowest:.2f}")
        return sum(self.typed)


def start_half(port, number):
    """A connection that sends part of a handshake, of one of many lengths. None: the server closed it at once."""
    head = handshake_of("a", f"X-Padding: {'x' * (number % 7_000)}").encode()
    connection = socket.create_connection(("127.0.0.1", port), timeout=15)
    try:
        connection.sendall(head[: -1 - number % len(head[:-1])])
    except OSError:
        connection.close()
        return None
    return connection


def ends(connections, seconds):
    """How many of the connections were answered with each status, until all have ended. One that was reset is None's."""
    counts, waiting, end = {}, {one.fileno(): (one, b"") for one in connections}, time.monotonic() + seconds
    poller = select.poll()
    for number in waiting:
        poller.register(number, select.POLLIN)
    while waiting and time.monotonic() < end:
        for number, _ in poller.poll(200):
            one, came = waiting[number]
            try:
                chunk = one.recv(65_536)
            except OSError:
                chunk = b""
            if chunk:
                waiting[number] = (one, came + chunk)
                continue
            poller.unregister(number)
            del waiting[number]
            one.close()
            status = parse_response(came).status if came else None
            counts[status] = counts.get(status, 0) + 1
    if waiting:
        raise Failed(f"{len(waiting)} half handshakes were still open after {seconds} s; of the others {counts}")
    return counts


def half_handshakes_by_the_thousand():
    """All end, refused or in their time. Authors type meanwhile (some 0.2 MiB a wave), and the memory of one wave is
    used again by the next."""
    server = WebServer("--workers 2", stderr=subprocess.DEVNULL)
    owner = pad_of_typists(server)
    typing = Typing([server.author("bob", "p"), server.author("cid", "p"), server.page("dan", "p"), server.page("eve", "p")])
    memory = []
    for _ in range(2):
        halves = [one for one in (start_half(server.web, number) for number in range(2_500)) if one]
        counts = ends(halves, REQUEST_TIME + 10)
        late, refused = counts.get(None, 0), counts.get(503, 0)
        want((late + refused, late <= MOST_VISITS), (len(halves), True), f"that {MOST_VISITS} at most wait, and others are refused: {counts}")
        memory.append(resident(server))
    want(memory[1] - memory[0] < 1_024, True, f"less than 1 MiB more after another wave, not {memory} KiB")
    want(threads_of(server) <= 6, True, f"few threads, not {threads_of(server)}")
    typed = typing.stop(20)
    want(len(owner.does(do="text", pad="p")["text"]), typed, "letters at the end")
    want(server.get("/").body == files()["/"], True, "that the page is served afterwards")


def a_thousand_silent_sockets_beside_authors_that_type():
    server = WebServer("--workers 2")
    owner = pad_of_typists(server)
    before, silent = resident(server), []
    for number in range(1_000):
        silent.append(server.page(NAMES[number % len(NAMES)]))
    each = (resident(server) - before) / len(silent)
    want(each < 4, True, f"less than 4 KiB for each silent socket, not {each:.1f}")
    typing = Typing([server.page(NAMES[number % len(NAMES)], "p") for number in range(15)])
    time.sleep(3)
    want(len(owner.does(do="text", pad="p")["text"]) > 0, True, "that letters come")
    typed = typing.stop(5)
    want(len(owner.does(do="text", pad="p")["text"]), typed, "letters at the end")
    for page in silent[::97]:
        want(page.ask(do="who", pad="q"), {"code": 300, "error": "NoPad", "ok": False}, "the answer to one that was silent")


def a_socket_that_reads_nothing_holds_up_nobody_and_takes_no_memory():
    server = WebServer("--workers 1", stderr=subprocess.DEVNULL)
    greedy = server.page("ann")
    greedy.does(do="create", pad="p")
    greedy.does(do="insert", pad="p", rev=0, at=0, text="x" * 10_000)
    before, asked = resident(server), 5_000
    flood = frame(TEXT, '{"do":"text","pad":"p"}') * asked
    threading.Thread(target=overwhelm, args=(greedy, flood), daemon=True).start()
    other = server.page("ann", "p")
    for _ in range(20):
        began = time.monotonic()
        want(other.does(do="revs", pad="p")["now"], 1, "the revision")
        want(time.monotonic() - began < SLOWEST, True, f"an answer within {SLOWEST} s")
        time.sleep(0.05)
    more = resident(server) - before
    want(more < 4_096, True, f"less than 4 MiB more, not {more} KiB")
    ending = '"ok":true,"rev":1,"text":"' + "x" * 10_000 + '"}'
    for _ in range(asked):
        if not greedy.read_text().endswith(ending):
            raise Failed("a reply that was taken late is not whole")


def overwhelm(page, data):
    """Sends for as long as the server takes it."""
    try:
        page.socket.settimeout(None)
        page.send(data)
    except OSError:
        pass


def pings_that_nobody_reads_take_no_memory():
    server = WebServer("--workers 1", stderr=subprocess.DEVNULL)
    other = server.page("ann")
    other.does(do="create", pad="p")
    greedy, before = server.open(), resident(server)
    threading.Thread(target=overwhelm, args=(greedy, frame(9, b"x" * 125) * 400_000), daemon=True).start()
    for _ in range(30):
        other.does(do="revs", pad="p")
        time.sleep(0.1)
    more = resident(server) - before
    want(more < 4_096, True, f"less than 4 MiB more, not {more} KiB")


def messages_that_never_end_hold_up_nobody():
    """Sockets that send a message of 8 MiB in many fragments, and never its last one."""
    server = WebServer("--workers 1", stderr=subprocess.DEVNULL)
    author = server.page("ann")
    author.does(do="create", pad="p")
    part = frame(TEXT, b"[", fin=False) + frame(0, b" " * 1_000, fin=False) * (LONGEST // 1_000)
    for _ in range(4):
        threading.Thread(target=overwhelm, args=(server.open(), part), daemon=True).start()
    slowest, end = 0, time.monotonic() + 5
    while time.monotonic() < end:
        began = time.monotonic()
        author.does(do="revs", pad="p")
        slowest = max(slowest, time.monotonic() - began)
        time.sleep(0.02)
    want(slowest < SLOWEST, True, f"each answer within {SLOWEST} s, not {slowest:.2f}")


def long_messages_hold_up_nobody():
    """Messages of 8 MiB that are hard to parse, beside an author; who sent one is answered, and served on afterwards."""
    server = WebServer("--workers 1", stderr=subprocess.DEVNULL)
    author, hostile = server.page("ann"), [server.open() for _ in range(4)]
    author.does(do="create", pad="p")
    long = frame(TEXT, "[" + "0," * (LONGEST // 2 - 16) + "0]")
    senders = [threading.Thread(target=overwhelm, args=(page, long), daemon=True) for page in hostile]
    for sender in senders:
        sender.start()
    slowest, end = 0, time.monotonic() + 20
    while any(sender.is_alive() for sender in senders) and time.monotonic() < end:
        began = time.monotonic()
        author.does(do="revs", pad="p")
        slowest = max(slowest, time.monotonic() - began)
        time.sleep(0.01)
    want(slowest < 3, True, f"each answer within three seconds, not {slowest:.2f}")
    for page in hostile:
        want(page.read_text(), '{"code":102,"error":"NotRequest","ok":false}', "the answer to a long message")
        want(page.ask(do="hello", name="ann", token="tann"), {"author": "ann@1", "ok": True}, "the answer to a short one")
    author.does(do="revs", pad="p")


def a_server_that_ends_tells_its_sockets():
    """Its store fails; a close with 1001 is what each socket reads last."""
    faults = Faults()
    put_files(ACCOUNTS)
    args = f"{LISTEN} --web 127.0.0.1:0 --store kept"
    process = start(
        "pad_server", args, faults.variables, stdin=subprocess.DEVNULL, stdout=subprocess.PIPE, stderr=subprocess.PIPE
    )
    port = int(process.stdout.readline().decode().rsplit(":", 1)[1])
    web, author = read_web(process), Client(port)
    author.does(do="hello", name="ann", token="tann")
    author.does(do="create", pad="p")
    pages = [Socket(web) for _ in range(5)]
    for page in pages:
        page.does(do="hello", name="ann", token="tann")
    faults.set("syncs", 1)
    author.send('{"do":"insert","pad":"p","rev":0,"at":0,"text":"x"}\n')
    want([page.closing() for page in pages], [1001] * 5, "the codes of the closes")
    want(process.wait(), 1, "the status")


def a_silent_socket_is_closed_where_the_server_says_so():
    server = WebServer("--idle 2", stderr=subprocess.DEVNULL)
    speaks, silent = server.page("ann"), server.page("bob")
    end = time.monotonic() + 4
    while time.monotonic() < end:
        speaks.does(do="pads")
        time.sleep(0.2)
    want(silent.closing(), 1001, "the code of the close")


def a_request_that_drips_ends_in_its_time():
    server = WebServer(stderr=subprocess.DEVNULL)
    connection, began = socket.create_connection(("127.0.0.1", server.web), timeout=15), time.monotonic()
    try:
        for byte in handshake_of("a", f"X: {'x' * 200}").encode():
            connection.sendall(bytes([byte]))
            time.sleep(0.1)
    except OSError:
        pass
    took = time.monotonic() - began
    want(REQUEST_TIME - 1 < took < REQUEST_TIME + 6, True, f"an end some seconds after {REQUEST_TIME} s, not after {took:.1f}")


def a_socket_of_nobody_is_closed_after_a_minute():
    server = WebServer(stderr=subprocess.DEVNULL)
    nobody, began = server.open(), time.monotonic()
    nobody.socket.settimeout(80)
    want(nobody.closing(), 1001, "the code of the close")
    took = time.monotonic() - began
    want(58 < took < 65, True, f"an end after 60 s, not {took:.1f}")


FUNCTIONS = [
    half_handshakes_by_the_thousand,
    a_thousand_silent_sockets_beside_authors_that_type,
    a_socket_that_reads_nothing_holds_up_nobody_and_takes_no_memory,
    pings_that_nobody_reads_take_no_memory,
    messages_that_never_end_hold_up_nobody,
    long_messages_hold_up_nobody,
    a_server_that_ends_tells_its_sockets,
    a_silent_socket_is_closed_where_the_server_says_so,
]
LONG_ONES = [a_request_that_drips_ends_in_its_time, a_socket_of_nobody_is_closed_after_a_minute]

TESTS, LONG_TESTS = (
    [Test(f"pad_server: web visits: {function.__name__.replace('_', ' ')}", function, 120, alone=True) for function in functions]
    for functions in (FUNCTIONS, LONG_ONES)
)
