"""Servers that are killed while authors write, again and again: whatever was answered is there, in the order in which it was made."""
import random
import threading
import time

from harness import Failed, Test, want
from peers import Server, free_ports, wait_for

AUTHORS = [f"w{number}" for number in range(4)]

# Rounds on one pad. Then the next one is made, so that no pad comes near its limits.
ROUNDS_ON_A_PAD = 10

# Rounds of the short and of the long test.
SHORT, LONG = 6, 200


class Writers:
    """Authors who type on a pad of a server, each one letter after the other, until the server is killed or they are told to end."""

    def __init__(self, server, pad):
        self.server, self.pad, self.answered, self.over = server, pad, [], threading.Event()
        self.threads = [threading.Thread(target=self.write, args=(name,)) for name in AUTHORS]
        for thread in self.threads:
            thread.start()

    def write(self, name):
        kept = []
        try:
            client = self.server.author(name, self.pad)
            rev = client.does(do="revs", pad=self.pad)["now"]
            while not self.over.is_set():
                answer = client.does(do="insert", pad=self.pad, rev=rev, at=0, text=name[-1])
                kept.append(tuple(answer["name"]))
                rev = answer["now"]
        except (OSError, ValueError, Failed, KeyError):
            pass
        self.answered += kept

    def end(self):
        """The names of the operations that were answered."""
        self.over.set()
        for thread in self.threads:
            thread.join()
        return self.answered


def names_on(server, pad):
    """The names of a pad's operations, in the order in which the server has them."""
    client, found = server.author(AUTHORS[0], pad), []
    while some := client.does(do="entries", pad=pad, **{"from": len(found) + 1, "count": 100})["entries"]:
        found += [tuple(entry["name"]) for entry in some]
    return found


def shown(server, pad):
    client = server.author(AUTHORS[0], pad)
    return [client.does(do=act, pad=pad)[field] for act, field in (("text", "text"), ("runs", "runs"))]


def in_order(names, what):
    """Each origin's operations come in the order of their numbers, without a gap, and none twice."""
    for origin in {name[0] for name in names}:
        numbers = [number for other, number in names if other == origin]
        want(numbers, list(range(1, len(numbers) + 1)), f"the numbers of server {origin}, {what}")


def make_pad(server, pad):
    owner = server.author(AUTHORS[0])
    owner.does(do="create", pad=pad)
    for name in AUTHORS[1:]:
        owner.does(do="grant", pad=pad, author=name, right="write")


def killed(numbers, rounds):
    """One of these servers is killed in each round, and started again; then all of them show everything that any has answered."""
    ports = dict(zip(numbers, free_ports(len(numbers))))

    def started(number):
        peers = [other for other in numbers if other != number]
        return Server(number, ports, AUTHORS, peers, f"--cells 64 --store kept{number}")

    servers, chance, answered, total = {number: started(number) for number in numbers}, random.Random(11), set(), 0
    for turn in range(rounds):
        pad = f"p{turn // ROUNDS_ON_A_PAD}"
        if turn % ROUNDS_ON_A_PAD == 0:
            answered = set()
            for server in servers.values():
                make_pad(server, pad)
        writers = [Writers(server, pad) for server in servers.values()]
        time.sleep(chance.uniform(0.05, 0.2))
        victim = chance.choice(numbers)
        servers[victim].stop()
        made = {name for each in writers for name in each.end()}
        answered, total = answered | made, total + len(made)
        servers[victim] = started(victim)

        def lacking():
            return {number: answered - set(names_on(server, pad)) for number, server in servers.items()}

        wait_for(f"in round {turn}, everything that was answered, on each server", lambda: not any(lacking().values()))
        wait_for(f"in round {turn}, one text on all servers", lambda: len({str(shown(server, pad)) for server in servers.values()}) == 1)
        for number, server in servers.items():
            in_order(names_on(server, pad), f"as server {number} has them after round {turn}")
    want(total > rounds * len(AUTHORS), True, f"that enough was answered, with {total}")
    for server in servers.values():
        server.stop()


TESTS = [Test("kill -9: one of two servers, again and again", lambda: killed([1, 2], SHORT), 120)]
LONG_TESTS = [
    Test("kill -9: one server, 200 times", lambda: killed([1], LONG), 1_200),
    Test("kill -9: one of two servers, 200 times", lambda: killed([1, 2], LONG), 2_400),
]
