"""Memory that is refused to a server while a browser is served: each allocation once, and everybody else is served on."""
import itertools
import socket

from harness import Failed, Test, want
from memory import Server
from web_server import TEXT, Response, Socket, files, frame, head_of, read_response, read_web

HELLO = '{"do":"hello","name":"ann","token":"tann"}'
LOGGED_IN = '{"author":"ann@1","ok":true}'
MOST = 200  # allocations: a request that needs more is not what is tried here


def connect(port):
    return socket.create_connection(("127.0.0.1", port), timeout=15)


def get_page(port):
    """The page as it is served, a refusal, or None: the connection was closed without a byte."""
    connection = connect(port)
    connection.sendall(head_of("GET / HTTP/1.1", "Host: a").encode())
    try:
        return read_response(connection)
    except Failed as problem:
        if "no response: b''" in str(problem):
            return None
        raise


def see_page(answer):
    if answer is not None and answer.status not in (200, 503):
        raise Failed(f"the page is answered {answer.status}")
    if answer is not None and answer.status == 200:
        want(answer.body == files()["/"], True, "that a page with status 200 is whole")


def talk(port):
    """What a new socket reads after two messages, the first one in fragments: texts, until it is closed."""
    told = []
    try:
        page = Socket(port)
        page.send(frame(TEXT, HELLO[:9], fin=False) + frame(0, HELLO[9:]))
        told.append(page.read_text())
        page.say('{"do":"text","pad":"p"}')
        told.append(page.read_text())
        page.close()
    except (Failed, OSError) as problem:
        told.append(problem)
    return told


def see_talk(told):
    """Each text is the right answer, or 900. What is no text is an end: of the handshake, or of the socket."""
    right = [LOGGED_IN, '{"code":310,"error":"NotJoined","ok":false}']
    none = '{"code":900,"error":"Memory","ok":false}'
    for came, wanted in zip(told, right):
        if isinstance(came, str):
            want(came in (wanted, none), True, f"that {came!r} is {wanted!r} or 900")
            if came == none:
                return


def each_allocation_fails_once(act, see):
    server = Server("--web 127.0.0.1:0 --workers 1")
    web, keeps = read_web(server.process), server.author("bob")
    keeps.does(do="create", pad="p")
    act(web)
    for allocation in itertools.count(1):
        answer, refused = server.refuses_one(allocation, lambda: act(web))
        see(answer)
        want(keeps.does(do="revs", pad="p")["now"], 0, "the revision that another reads")
        see_whole(act(web))
        if not refused:
            break
        want(allocation < MOST, True, f"fewer than {MOST} allocations")
    want(allocation > 3, True, f"that some allocations were refused, of which there were {allocation - 1}")


def see_whole(answer):
    """What is answered while memory is there."""
    if isinstance(answer, Response):
        want((answer.status, answer.body == files()["/"]), (200, True), "the page when memory is there")
    else:
        want(answer[:1], [LOGGED_IN], "the answer of a socket when memory is there")


def the_page():
    each_allocation_fails_once(get_page, see_page)


def a_socket():
    each_allocation_fails_once(talk, see_talk)


TESTS = [
    Test("pad_server: web memory: each allocation for the page fails once", the_page, 120),
    Test("pad_server: web memory: each allocation for a socket fails once", a_socket, 120),
]
