"""The socket of a page: messages as lines, and what RFC 6455 and docs/PROTOCOL.md say of every other frame."""
import json
import socket
import struct
import threading
import time

from harness import Failed, Test, want
from sockets import FIRST_STEPS
from web_server import BINARY, CLOSE, CONTINUATION, LONGEST, PING, PONG, TEXT, WebServer, frame, handshake_of

REVS = '{"do":"revs","pad":"p"}'
NO_SESSION = {"code": 200, "error": "NoSession", "ok": False}
AGAIN = '{"code":202,"error":"HaveSession","ok":false}'


def padded(size):
    """A request of so many bytes."""
    return REVS + " " * (size - len(REVS))


def a_session_is_answered_as_over_tcp():
    server = WebServer()
    page = server.open()
    for asked, told in FIRST_STEPS:
        page.say(asked)
        want(page.read_text(), told, f"the answer to {asked}")
    page.close()
    page = server.open()
    page.send(b"".join(frame(TEXT, asked) for asked, _ in FIRST_STEPS[:1] * 500))
    want(page.read_text(), FIRST_STEPS[0][1], "the first answer to messages that come at once")
    want({page.read_text() for _ in range(499)}, {AGAIN}, "the other answers")


def pages_and_clients_over_tcp_share_a_pad():
    server = WebServer()
    ann = server.author("ann")
    ann.does(do="create", pad="p")
    ann.does(do="grant", pad="p", author="bob", right="write")
    bob = server.page("bob", "p")
    bob.say('{"do":"changes","pad":"p","rev":0,"wait":30}')
    time.sleep(0.2)
    began = time.monotonic()
    ann.does(do="insert", pad="p", rev=0, at=0, text="é🙂\n\"<b>")
    want(json.loads(bob.read_text())["changes"], [["insert", "é🙂\n\"<b>", "ann@1"]], "what the wait brings")
    want(time.monotonic() - began < 2, True, "that it is brought at once")
    bob.does(do="insert", pad="p", rev=1, at=2, text="語")
    want(ann.does(do="text", pad="p")["text"], "é🙂語\n\"<b>", "the text")
    bob.close()
    end = time.monotonic() + 10
    while len(ann.does(do="who", pad="p")["who"]) > 1:
        if time.monotonic() > end:
            raise Failed("a visit is there 10 s after its socket was closed")
        time.sleep(0.05)


def the_longest_message_is_answered():
    server = WebServer()
    page = server.page("ann")
    page.does(do="create", pad="p")
    whole = padded(LONGEST).encode()
    parts = [whole[:1], whole[1:3_000_000], whole[3_000_000:]]
    for data in (frame(TEXT, whole), fragments(parts)):
        page.send(data)
        want(json.loads(page.read_text()), {"cells": 0, "length": 0, "now": 0, "ok": True}, "the answer to the longest message")
    page.does(do="revs", pad="p")


def fragments(parts, first=TEXT):
    kinds = [first] + [CONTINUATION] * (len(parts) - 1)
    return b"".join(frame(kind, part, fin=number == len(parts) - 1) for number, (kind, part) in enumerate(zip(kinds, parts)))


def a_longer_message_closes_the_socket():
    server = WebServer()
    whole = padded(LONGEST + 1).encode()
    for data in (frame(TEXT, whole), fragments([whole[:5_000_000], whole[5_000_000:]]), endless()):
        page = server.page("ann")
        threading.Thread(target=send_all, args=(page, data), daemon=True).start()
        want(page.closing(), 1009, "the code after a message of one byte too many")


def endless():
    """The head of a frame of 2^62 bytes."""
    return struct.pack("!BBQ", 0x80 | TEXT, 0x80 | 127, 1 << 62) + b"mask"


def send_all(page, data):
    try:
        page.send(data)
    except OSError:
        pass


PAD = REVS.encode()
CLOSINGS = [
    ("a frame without a mask", frame(TEXT, PAD, masked=False), 1002),
    ("a ping without a mask", frame(PING, b"", masked=False), 1002),
    *[(f"the reserved bit {bit}", frame(TEXT, PAD, reserved=bit), 1002) for bit in (1, 2, 4)],
    *[(f"the opcode {opcode}", frame(opcode, PAD), 1002) for opcode in (3, 4, 5, 6, 7, 11, 12, 13, 14, 15)],
    ("a continuation of nothing", frame(CONTINUATION, PAD), 1002),
    ("a text within a text in fragments", frame(TEXT, PAD[:5], fin=False) + frame(TEXT, PAD), 1002),
    ("a ping in fragments", frame(PING, b"a", fin=False), 1002),
    ("a ping of 126 bytes", frame(PING, b"a" * 126), 1002),
    ("a close of one byte", frame(CLOSE, b"\x03"), 1002),
    ("a close with a code that no frame may have", frame(CLOSE, struct.pack("!H", 1005)), 1002),
    ("a close with a reason that is not UTF-8", frame(CLOSE, struct.pack("!H", 1000) + b"\xff"), 1007),
    ("a binary message", frame(BINARY, PAD), 1003),
    ("a text that is not UTF-8", frame(TEXT, b'{"do":"\xff"}'), 1007),
    ("half a surrogate pair in UTF-8", frame(TEXT, b"\xed\xa0\x80"), 1007),
    ("a text that ends within a character", frame(TEXT, "é".encode()[:1]), 1007),
    ("an empty message", frame(TEXT, b""), 1008),
    ("a line feed", frame(TEXT, PAD + b"\n"), 1008),
    ("two lines in one message", frame(TEXT, PAD + b"\n" + PAD), 1008),
    ("a close", frame(CLOSE, struct.pack("!H", 1000)), 1000),
    ("a close with a reason", frame(CLOSE, struct.pack("!H", 4321) + "bye".encode()), 4321),
    ("a close without a code", frame(CLOSE), None),
]


def each_fault_closes_its_socket_with_its_code():
    server = WebServer()
    keeps = server.page("ann")
    keeps.does(do="create", pad="p")
    for name, data, code in CLOSINGS:
        page = server.page("ann")
        page.send(data + frame(TEXT, REVS) * 2)
        want(page.closing(), code, f"the code after {name}")
    keeps.does(do="revs", pad="p")
    want(len(keeps.does(do="who", pad="p")["who"]), 1, "who is there")


def pings_are_answered_also_between_fragments():
    page = WebServer().open()
    for data in (b"", b"hello", b"\x00\xff" * 62, b"a" * 125):
        page.send(frame(PING, data))
        want(page.read_frame(), (PONG, data), "the answer to a ping")
    page.send(frame(PONG, b"unasked"))
    text = '{"do":"revs","pad":"é🙂"}'.encode()
    pieces = [text[at : at + 1] for at in range(len(text))]
    page.send(b"".join(frame(CONTINUATION if at else TEXT, one, fin=False) + frame(PING, one) for at, one in enumerate(pieces)))
    page.send(frame(CONTINUATION, b""))
    for one in pieces:
        want(page.read_frame(), (PONG, one), "the answer to a ping within a message")
    want(json.loads(page.read_text()), NO_SESSION, "the answer to a message in fragments that cut characters")


def frames_may_come_byte_by_byte():
    page = WebServer().open()
    for byte in frame(TEXT, '{"do":"hello","name":"ann","token":"tann"}') + frame(PING, b"p") + fragments([b"nonsense", b"", b"!"]):
        page.send(bytes([byte]))
        time.sleep(0.0005)
    want(page.read_text(), '{"author":"ann@1","ok":true}', "the first answer")
    want(page.read_frame(), (PONG, b"p"), "the pong")
    want(page.read_text(), '{"code":101,"error":"NotJson","ok":false}', "the second answer")


def frames_may_come_with_the_handshake():
    server = WebServer()
    connection = socket.create_connection(("127.0.0.1", server.web), timeout=15)
    connection.sendall(handshake_of(server.host).encode() + frame(TEXT, '{"do":"pads"}') + frame(CLOSE, struct.pack("!H", 1001)))
    came = b""
    while chunk := connection.recv(4096):
        came += chunk
    head, _, rest = came.partition(b"\r\n\r\n")
    want(head.split(b" ")[1], b"101", "the status")
    told = json.dumps(NO_SESSION, separators=(",", ":")).encode()
    want(rest, bytes([0x81, len(told)]) + told + b"\x88\x02\x03\xe9", "the frames behind the handshake")


def messages_before_a_close_are_answered_before_it():
    """RFC 6455, section 5.5.1: no data follows a close."""
    server = WebServer()
    told = json.dumps(NO_SESSION, separators=(",", ":")).encode()
    for faulty, code in ((frame(CLOSE, struct.pack("!H", 1000)), 1000), (frame(BINARY, b""), 1003)):
        for count in (1, 2, 40):
            page = server.open()
            page.send(frame(TEXT, '{"do":"pads"}') * count + faulty)
            want([page.read_frame() for _ in range(count)], [(TEXT, told)] * count, f"the answers to {count} messages before a close")
            want(page.closing(), code, "the code of the close")


def control_characters_and_markup_come_back_as_they_were():
    """Each scalar value below 0x20, quotation marks, and markup, in a text, a comment and a refusal."""
    page = WebServer().page("ann")
    page.does(do="create", pad="p")
    hostile = "".join(map(chr, range(0x20))) + "\x7f\u2028\u2029\u202e\ufeff\U0010ffff\"'<script>alert(1)</script><!--]]>&amp;\\"
    page.does(do="insert", pad="p", rev=0, at=0, text=hostile)
    page.does(do="comment", pad="p", rev=1, at=0, len=3, text=hostile)
    want(page.does(do="text", pad="p")["text"], hostile, "the text")
    want(page.does(do="comments", pad="p")["comments"][0]["text"], hostile, "the comment")
    want(page.ask(do="create", pad="<script>")["ok"], False, "that such a name is created")
    want(page.ask(do="hello", name="\n\"<b>", token="\x00")["ok"], False, "that such an author logs in")


FUNCTIONS = [
    a_session_is_answered_as_over_tcp,
    pages_and_clients_over_tcp_share_a_pad,
    the_longest_message_is_answered,
    a_longer_message_closes_the_socket,
    each_fault_closes_its_socket_with_its_code,
    pings_are_answered_also_between_fragments,
    frames_may_come_byte_by_byte,
    frames_may_come_with_the_handshake,
    messages_before_a_close_are_answered_before_it,
    control_characters_and_markup_come_back_as_they_were,
]

TESTS = [Test(f"pad_server: web socket: {function.__name__.replace('_', ' ')}", function, 60) for function in FUNCTIONS]
