"""Servers that exchange the operations of their pads by themselves, over TCP."""
import json
import os
import re
import socket
import subprocess
import threading
import time

from harness import Failed, Test, put_files, start, want
from sockets import Client

PATIENCE = 40  # seconds, until servers have come to the same text


def free_ports(count):
    """Ports that nobody listens at; other programs seldom take one in between."""
    listeners = [socket.create_server(("127.0.0.1", 0)) for _ in range(count)]
    ports = [listener.getsockname()[1] for listener in listeners]
    for listener in listeners:
        listener.close()
    return ports


class Server:
    """A server with this number, which knows some authors and its peers."""

    def __init__(self, number, ports, authors, peers, more="", **streams):
        lines = [f"author {name} t{name}\n" for name in authors]
        lines += [f"peer {peer} secret 127.0.0.1:{ports[peer]}\n" for peer in peers]
        put_files(((f"accounts{number}", "".join(lines)),))
        args = f"--listen 127.0.0.1:{ports[number]} --replica {number} --accounts accounts{number} {more}"
        self.number, self.port = number, ports[number]
        self.process = start("pad_server", args, stdin=subprocess.DEVNULL, stdout=subprocess.PIPE, **streams)
        want(self.process.stdout.readline().decode(), f"listening on 127.0.0.1:{self.port}\n", "the first line")

    def author(self, name, pad=None):
        client = Client(self.port)
        client.wants({"do": "hello", "name": name, "token": f"t{name}"}, {"author": f"{name}@{self.number}", "ok": True})
        if pad is not None:
            client.join(pad)
        return client

    def stop(self):
        self.process.kill()
        self.process.wait()


def text(client):
    return client.does(do="text", pad="p")["text"]


def shows(client):
    """What a reader of the pad sees."""
    return [client.does(do=act, pad="p")[field] for act, field in (("text", "text"), ("runs", "runs"), ("comments", "comments"))]


def types(client, letters):
    """Puts letters at the front of the pad, one after the other."""
    for letter in letters:
        now = client.does(do="revs", pad="p")["now"]
        client.does(do="insert", pad="p", rev=now, at=0, text=letter)


def wait_for(what, is_so):
    """Asks again and again until it is so."""
    end = time.monotonic() + PATIENCE
    while not is_so():
        if time.monotonic() > end:
            raise Failed(f"{what}: not after {PATIENCE} s")
        time.sleep(0.05)


def two_servers_come_to_the_same_text():
    ports = dict(zip((1, 2), free_ports(2)))
    first = Server(1, ports, ["ann"], [2])
    second = Server(2, ports, ["bob"], [1])
    ann, bob = first.author("ann"), second.author("bob")
    ann.does(do="create", pad="p")
    bob.does(do="create", pad="p")
    ann.does(do="insert", pad="p", rev=0, at=0, text="one")
    wait_for("ann's text at bob's server", lambda: text(bob) == "one")
    bob.does(do="insert", pad="p", rev=0, at=0, text="two")
    wait_for("bob's text at ann's server", lambda: text(ann) == "twoone")
    want(shows(bob), shows(ann), "what bob sees")
    want(shows(ann), ["twoone", [["bob@2", 3], ["ann@1", 3]], []], "what ann sees")
    first.stop()
    second.stop()


def a_server_that_was_away_is_caught_up_with():
    ports = dict(zip((1, 2), free_ports(2)))
    with open("said", "wb") as said:
        first = Server(1, ports, ["ann"], [2], stderr=said)
        ann = first.author("ann")
        ann.does(do="create", pad="p")
        types(ann, "abc")
        time.sleep(3.5)
        want(text(ann), "cba", "the text while the other server is down")
        second = Server(2, ports, ["bob"], [1])
        bob = second.author("bob")
        bob.does(do="create", pad="p")
        wait_for("ann's text at bob's server, without a word of hers", lambda: text(bob) == "cba")
        first.stop()
        second.stop()
    with open("said", "rb") as said:
        lines = [line for line in said.read().decode().splitlines() if "peer 2" in line]
    want(len(lines), 1, f"the lines that tell of the failed rounds, among {lines}")
    want("peer 2: no connection: " in lines[0], True, f"that it says so, in {lines[0]!r}")


def exchange(numbers, links):
    """Servers that are linked so, each with two authors who type, erase and comment at once. In the end all show the same."""
    ports = dict(zip(numbers, free_ports(len(numbers))))
    servers = [Server(number, ports, [f"ann{number}", f"bob{number}"], links[number]) for number in numbers]
    clients = []
    for server in servers:
        ann, bob = server.author(f"ann{server.number}"), server.author(f"bob{server.number}")
        ann.does(do="create", pad="p")
        ann.does(do="grant", pad="p", author=f"bob{server.number}", right="write")
        bob.join("p")
        clients += [ann, bob]
    for step in range(12):
        for place, client in enumerate(clients):
            types(client, chr(ord("a") + place))
            now = client.does(do="revs", pad="p")
            if step % 4 == 3 and now["length"] > 1:
                client.does(do="delete", pad="p", rev=now["now"], at=1, len=1)
            if step == 5:
                now = client.does(do="revs", pad="p")["now"]
                client.does(do="comment", pad="p", rev=now, at=0, len=1, text="here")
    seen = len(servers) * 2 * (12 + 3 + 1)
    wait_for("as many revisions at each server", lambda: all(client.does(do="revs", pad="p")["now"] == seen for client in clients))
    first = shows(clients[0])
    for client in clients[1:]:
        want(shows(client), first, "what another author sees")
    want(len(first[2]), len(clients), "how many comments there are")
    for server in servers:
        server.stop()


def three_servers_in_a_line():
    exchange((1, 2, 3), {1: [2], 2: [1, 3], 3: [2]})


def three_servers_in_a_ring():
    exchange((1, 2, 3), {1: [2, 3], 2: [3, 1], 3: [1, 2]})


class Wire:
    """Stands between two servers, passes on what they send, and keeps the requests."""

    def __init__(self, port):
        self.to, self.listener = port, socket.create_server(("127.0.0.1", 0))
        self.port, self.requests, self.connections = self.listener.getsockname()[1], [], 0
        threading.Thread(target=self.accept, daemon=True).start()

    def accept(self):
        while True:
            one, _ = self.listener.accept()
            try:
                other = socket.create_connection(("127.0.0.1", self.to))
            except OSError:  # the server is not there yet
                one.close()
                continue
            self.connections += 1
            for pair in ((one, other, True), (other, one, False)):
                threading.Thread(target=self.carry, args=pair, daemon=True).start()

    def carry(self, source, target, asks):
        for line in source.makefile("rb"):
            if asks:
                self.requests.append(json.loads(line))
            target.sendall(line)
        target.close()


def a_letter_costs_a_peer_one_request():
    """Of 40 pads one is typed on: the other server is sent the letter, over the connection that there is, and neither asks the
    other anything. The other server does not send the letter back."""
    ports = dict(zip((1, 2), free_ports(2)))
    wire, back = Wire(ports[2]), Wire(ports[1])
    second = Server(2, {1: back.port, 2: ports[2]}, ["bob"], [1])
    first = Server(1, {1: ports[1], 2: wire.port}, ["ann"], [2])
    ann, bob = first.author("ann"), second.author("bob")
    for number in range(40):
        bob.does(do="create", pad=f"p{number}")
        ann.does(do="create", pad=f"p{number}")
    wait_for("a first round of the other server", lambda: len(back.requests) > 40)
    for round in range(3):
        time.sleep(1.5)
        before, before_back, connections = len(wire.requests), len(back.requests), wire.connections
        ann.does(do="insert", pad="p7", rev=round, at=0, text="a")
        wait_for("the letter at bob's server", lambda: bob.does(do="text", pad="p7")["text"] == "a" * (round + 1))
        time.sleep(1.5)
        asked = wire.requests[before:]
        want([request["do"] for request in asked], ["push"], f"what is asked in round {round}")
        want({request["pad"] for request in asked}, {"p7"}, "about which pads")
        want(back.requests[before_back:], [], f"what is asked back in round {round}")
        want((connections, wire.connections), (1, 1), "the connections")
    first.stop()
    second.stop()


class Liar:
    """A peer that says of each operation that it was delivered, and lacks all of them again; or one that says nothing."""

    def __init__(self, speaks):
        self.speaks, self.listener, self.kept = speaks, socket.create_server(("127.0.0.1", 0)), []
        self.port = self.listener.getsockname()[1]
        threading.Thread(target=self.accept, daemon=True).start()

    def accept(self):
        while True:
            one, _ = self.listener.accept()
            self.kept.append(one)
            if self.speaks:
                threading.Thread(target=self.answer, args=(one,), daemon=True).start()

    def answer(self, one):
        said = {
            "peer": {"ok": True, "replica": 3, "version": 2}, "pull": {"now": 0, "ok": True, "ops": []},
            "vector": {"now": 0, "ok": True, "seen": []}, "push": {"dropped": 0, "now": 1, "ok": True, "released": 0, "state": "delivered"},
        }
        try:
            for line in one.makefile("rb"):
                one.sendall(json.dumps(said[json.loads(line)["do"]], separators=(",", ":")).encode() + b"\n")
        except OSError:
            pass


def neither_a_silent_peer_nor_a_liar_delays_another():
    """Nor does either delay an author."""
    ports = dict(zip((1, 4), free_ports(2)))
    ports |= {2: Liar(False).port, 3: Liar(True).port}
    first = Server(1, ports, ["ann"], [2, 3, 4])
    second = Server(4, ports, ["bob"], [1])
    ann, bob = first.author("ann"), second.author("bob")
    bob.does(do="create", pad="p")
    ann.does(do="create", pad="p")
    for round in range(5):
        began = time.monotonic()
        ann.does(do="insert", pad="p", rev=round, at=0, text="a")
        answered = time.monotonic() - began
        wait_for("the letter at bob's server", lambda: text(bob) == "a" * (round + 1))
        taken = time.monotonic() - began
        want(answered < 2 and taken < 5, True, f"that {answered:.2f} s for the author and {taken:.2f} s for the other server are short")
    first.stop()
    second.stop()


def a_connection_that_was_closed_is_made_again():
    """The other server closes connections that are silent: the next letter comes through all the same, and nothing is logged."""
    ports = dict(zip((1, 2), free_ports(2)))
    with open("said", "wb") as said:
        second = Server(2, ports, ["bob"], [1], "--idle 1")
        bob = second.author("bob")
        bob.does(do="create", pad="p")
        first = Server(1, ports, ["ann"], [2], stderr=said)
        ann = first.author("ann")
        ann.does(do="create", pad="p")
        for round in range(2):
            time.sleep(3.5)
            ann.does(do="insert", pad="p", rev=round, at=0, text="a")
            wait_for("the letter at bob's server", lambda: text(second.author("bob", "p")) == "a" * (round + 1))
        first.stop()
        second.stop()
    with open("said", "rb") as said:
        want(b"peer 2" in said.read(), False, "that something is said of the peer")


TESTS = [
    Test("peers: two servers come to the same text", two_servers_come_to_the_same_text, 60),
    Test("peers: a server that was away is caught up with", a_server_that_was_away_is_caught_up_with, 90),
    Test("peers: three servers in a line", three_servers_in_a_line, 120),
    Test("peers: three servers in a ring", three_servers_in_a_ring, 120),
    Test("peers: a letter costs a peer one request", a_letter_costs_a_peer_one_request, 60),
    Test("peers: neither a silent peer nor a liar delays another", neither_a_silent_peer_nor_a_liar_delays_another, 120),
    Test("peers: a connection that was closed is made again", a_connection_that_was_closed_is_made_again, 60),
]
