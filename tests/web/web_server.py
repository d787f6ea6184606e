"""A server with its page, and clients of it that send raw bytes: HTTP requests, and frames as RFC 6455 has them."""
import base64
import hashlib
import json
import os
import socket
import struct
from dataclasses import dataclass

from harness import ROOT, Failed, want
from sockets import WAIT, Server
from squeeze import served

WEB, LIBRARY = os.path.join(ROOT, "web"), os.path.join(ROOT, "clients/js/src")
CONTINUATION, TEXT, BINARY, CLOSE, PING, PONG = 0, 1, 2, 8, 9, 10
LONGEST = 8_388_608  # bytes of a message
GREETING = "web on http://127.0.0.1:"
# RFC 6455, sections 1.3 and 4.2.2: an example of a key and of its answer.
KEY, ACCEPT = "dGhlIHNhbXBsZSBub25jZQ==", "s3pPLMBiTxaQ9kYGzzhZRbK+xOo="


class WebServer(Server):
    """A server that has a page as well, at a free port of this machine."""

    def __init__(self, more="", number=1, **streams):
        super().__init__(f"--web 127.0.0.1:0 {more}", number, **streams)
        self.web = read_web(self.process)

    @property
    def host(self):
        return f"127.0.0.1:{self.web}"

    def request(self, text):
        """Sends a request, and returns the response once the connection has ended."""
        connection = socket.create_connection(("127.0.0.1", self.web), timeout=WAIT)
        connection.sendall(text if isinstance(text, bytes) else text.encode())
        return read_response(connection)

    def get(self, path="/", *fields, method="GET"):
        return self.request(head_of(f"{method} {path} HTTP/1.1", f"Host: {self.host}", *fields))

    def handshake(self, *fields, **changed):
        """The response to a handshake with these fields changed or left out (None), and more fields."""
        return self.request(handshake_of(self.host, *fields, **changed))

    def open(self, *fields):
        return Socket(self.web, *fields)

    def page(self, name, pad=None):
        """A socket of this author, who has joined a pad."""
        page = self.open()
        want(page.ask(do="hello", name=name, token=f"t{name}"), {"author": f"{name}@1", "ok": True}, "the answer to hello")
        if pad is not None:
            page.does(do="join", pad=pad)
        return page


def read_web(process):
    """The port of the page, which a server's second line says."""
    line = process.stdout.readline().decode()
    if not (line.startswith(GREETING) and line.endswith("/\n")):
        raise Failed(f"the server's second line: {line!r}")
    return int(line[len(GREETING) : -2])


def head_of(*lines):
    return "\r\n".join([*lines, "", ""])


def handshake_of(address, *more, **changed):
    fields = {
        "Host": address, "Connection": "Upgrade", "Upgrade": "websocket", "Sec-WebSocket-Version": "13", "Sec-WebSocket-Key": KEY,
    }
    changed = {name.replace("_", "-").lower(): value for name, value in changed.items()}
    lines = [f"{name}: {changed.get(name.lower(), value)}" for name, value in fields.items() if changed.get(name.lower(), value)]
    return head_of("GET /socket HTTP/1.1", *lines, *more)


@dataclass
class Response:
    status: int
    fields: dict
    body: bytes


def parse_response(bytes_):
    head, gap, body = bytes_.partition(b"\r\n\r\n")
    if not gap or not head.startswith(b"HTTP/1.1 "):
        raise Failed(f"no response: {bytes_[:300]!r}")
    status, *lines = head.decode("latin-1").split("\r\n")
    pairs = [line.split(":", 1) for line in lines]
    fields = {name.lower(): value.strip() for name, value in pairs}
    want(len(fields), len(pairs), f"that no field comes twice in {head!r}")
    return Response(int(status.split(" ")[1]), fields, body)


def read_response(connection):
    """The response of a connection that the server then closes. A reset behind a whole response is no fault."""
    came = b""
    try:
        while chunk := connection.recv(65_536):
            came += chunk
    except ConnectionResetError:
        pass
    connection.close()
    return parse_response(came)


def mask(data, key):
    """RFC 6455, section 5.3."""
    size = len(data)
    keys = (key * (size // 4 + 1))[:size]
    return (int.from_bytes(data, "big") ^ int.from_bytes(keys, "big")).to_bytes(size, "big")


def frame(opcode, data=b"", fin=True, reserved=0, masked=True):
    """RFC 6455, section 5.2. `reserved` has the three bits, the first one as 4."""
    data = data.encode() if isinstance(data, str) else data
    size, bit = len(data), 0x80 if masked else 0
    head = bytes([0x80 * fin | reserved << 4 | opcode])
    if size < 126:
        head += bytes([bit | size])
    elif size < 65_536:
        head += struct.pack("!BH", bit | 126, size)
    else:
        head += struct.pack("!BQ", bit | 127, size)
    if not masked:
        return head + data
    key = os.urandom(4)
    return head + key + mask(data, key)


class Socket:
    """A WebSocket at the server."""

    def __init__(self, port, *fields, host=None, wrap=None):
        plain = socket.create_connection(("127.0.0.1", port), timeout=WAIT)
        plain.setsockopt(socket.IPPROTO_TCP, socket.TCP_NODELAY, 1)
        self.socket = wrap(plain) if wrap else plain
        key = base64.b64encode(os.urandom(16)).decode()
        self.send(handshake_of(host or f"127.0.0.1:{port}", *fields, sec_websocket_key=key).encode())
        self.bytes = self.socket.makefile("rb")
        head = b""
        while not head.endswith(b"\r\n\r\n"):
            line = self.bytes.readline()
            if not line:
                raise Failed(f"no socket: {head!r}")
            head += line
        response = parse_response(head)
        accept = base64.b64encode(hashlib.sha1((key + "258EAFA5-E914-47DA-95CA-C5AB0DC85B11").encode()).digest()).decode()
        want((response.status, response.fields.get("sec-websocket-accept")), (101, accept), "the answer to the handshake")

    def send(self, data):
        self.socket.sendall(data)

    def say(self, text):
        self.send(frame(TEXT, text))

    def read_frame(self):
        """The next frame's opcode and data. The server masks none, and sends each message whole."""
        head = self.bytes.read(2)
        if len(head) < 2:
            raise Failed(f"the connection ended before a frame: {head!r}")
        if head[0] & 0xF0 != 0x80 or head[1] & 0x80:
            raise Failed(f"a frame begins with {head!r}")
        size = head[1]
        if size > 125:
            size = int.from_bytes(self.bytes.read(2 if size == 126 else 8), "big")
        data = self.bytes.read(size)
        want(len(data), size, "the bytes of a frame")
        return head[0] & 0x0F, data

    def read_text(self):
        opcode, data = self.read_frame()
        want(opcode, TEXT, f"the opcode of the frame with {data[:200]!r}")
        return data.decode()

    def ask(self, **request):
        self.say(json.dumps(request))
        return json.loads(self.read_text())

    def does(self, **request):
        answer = self.ask(**request)
        if not answer["ok"]:
            raise Failed(f"{request} is answered {answer}")
        return answer

    def closing(self):
        """The code of the close that comes next. Then the connection ends."""
        opcode, data = self.read_frame()
        want(opcode, CLOSE, f"the opcode of the frame with {data[:200]!r}")
        try:
            want(self.bytes.read(), b"", "what follows the close")
        except ConnectionResetError:
            pass
        return struct.unpack("!H", data[:2])[0] if data else None

    def close(self):
        self.bytes.close()
        self.socket.close()


def files():
    """The files of web/ with those of the library, as they are served, by their paths, and the list of them."""
    out = {}
    for top, below in ((WEB, WEB), (ROOT, LIBRARY)):
        for folder, _, names in os.walk(below):
            for name in names:
                path = os.path.relpath(os.path.join(folder, name), top)
                with open(os.path.join(top, path), encoding="utf-8", newline="") as file:
                    out["/" if path == "index.html" else f"/{path}"] = served(path, file.read()).encode()
    listed = sorted((path for path in out if path not in ("/unproved.txt", "/sw.js")), key=lambda path: (path != "/", path))
    out["/files.txt"] = "".join(f'"{hashlib.sha256(out[path]).hexdigest()[:32]}" {path}\n' for path in listed).encode()
    return out
