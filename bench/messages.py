"""Times a letter over the WebSocket beside one over TCP: one author types on a pad, a request after the reply to the one before,
in rounds that take turns."""
import base64
import os
import socket
import statistics
import subprocess
import tempfile
import time
from pathlib import Path

from listen import OUT, SERVER, build as build_listen

# A letter over the WebSocket takes at most so many times as long as one over TCP.
AIM = 1.15

HANDSHAKE = "GET /socket HTTP/1.1\r\nHost: {host}\r\nConnection: Upgrade\r\nUpgrade: websocket\r\nSec-WebSocket-Version: 13\r\nSec-WebSocket-Key: {key}\r\nOrigin: http://{host}\r\n\r\n"


def connected(address):
    one = socket.create_connection(address)
    one.setsockopt(socket.IPPROTO_TCP, socket.TCP_NODELAY, 1)
    return one


class Lines:
    def __init__(self, address):
        self.socket = connected(address)

    def form(self, line):
        return line + b"\n"

    def ask(self, formed):
        self.socket.sendall(formed)
        reply = b""
        while not reply.endswith(b"\n"):
            reply += self.socket.recv(1 << 16)
        return reply


class Messages:
    def __init__(self, address):
        self.socket = connected(address)
        key = base64.b64encode(os.urandom(16)).decode()
        self.socket.sendall(HANDSHAKE.format(host=f"{address[0]}:{address[1]}", key=key).encode())
        head = b""
        while not head.endswith(b"\r\n\r\n"):
            head += self.socket.recv(1)
        if b" 101 " not in head.split(b"\r\n")[0]:
            raise SystemExit(f"bench/run: no WebSocket: {head!r}")

    def form(self, line):
        """A masked frame with one message."""
        mask = b"\x01\x02\x03\x04"
        length = bytes([0x80 | len(line)]) if len(line) < 126 else bytes([0x80 | 126]) + len(line).to_bytes(2, "big")
        return b"\x81" + length + mask + bytes(byte ^ mask[place % 4] for place, byte in enumerate(line))

    def ask(self, formed):
        self.socket.sendall(formed)
        reply = self.socket.recv(1 << 16)
        while len(reply) < 2 or len(reply) < 2 + reply[1]:
            reply += self.socket.recv(1 << 16)
        return reply[2:]


def serve(folder, more):
    Path(f"{folder}/accounts").write_text(f"author ann {'t' * 12}\n")
    words = ["--listen", "127.0.0.1:0", "--web", "127.0.0.1:0", "--replica", "1", "--cells", "16", "--accounts", f"{folder}/accounts"]
    process = subprocess.Popen([SERVER, *words, *more], stdout=subprocess.PIPE, stderr=subprocess.DEVNULL)
    return process, [("127.0.0.1", int(process.stdout.readline().decode().strip().rstrip("/").rpartition(":")[2])) for _ in range(2)]


def round_of(client, pad, letters):
    """The median time in microseconds from a letter to its reply, on a new pad."""
    client.ask(client.form(f'{{"do":"create","pad":"{pad}"}}'.encode()))
    asked = [client.form(f'{{"at":0,"do":"insert","pad":"{pad}","rev":{rev},"text":"a"}}'.encode()) for rev in range(letters)]
    taken = []
    for request in asked:
        began = time.perf_counter()
        reply = client.ask(request)
        taken.append(time.perf_counter() - began)
        if b'"ok":true' not in reply:
            raise SystemExit(f"bench/run: a letter is refused: {reply!r}")
    return 1e6 * statistics.median(taken)


def measure(flags, requests, rounds=7):
    build_listen(flags)
    print(f"load {os.getloadavg()[0]:.1f} on {os.cpu_count()} processors, {requests} letters a round, medians of {rounds} rounds in turns")
    for kind, more in (("no store", []), ("a store", ["--store", "kept"])):
        with tempfile.TemporaryDirectory(dir=OUT) as folder:
            process, (lines, web) = serve(folder, [f"{folder}/{word}" if word == "kept" else word for word in more])
            try:
                clients = {"TCP": Lines(lines), "WebSocket": Messages(web)}
                for client in clients.values():
                    client.ask(client.form(f'{{"do":"hello","name":"ann","token":"{"t" * 12}"}}'.encode()))
                found = {name: [] for name in clients}
                for turn in range(rounds):
                    for name, client in clients.items():
                        found[name].append(round_of(client, f"{name.lower()}{turn}", requests))
                tcp, socket_time = (statistics.median(found[name]) for name in clients)
                print(f"{kind:<10} TCP {tcp:8.1f} us, WebSocket {socket_time:8.1f} us, ratio {socket_time / tcp:.2f}, aim {AIM}", flush=True)
            finally:
                process.kill()
                process.wait()
