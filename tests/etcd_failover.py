"""Three nodes of etcd, and the script `failover` beside a main server and its standby: a loss is mended by itself."""
import os
import random
import shutil
import signal
import subprocess
import sys
import time
import urllib.request

from harness import Failed, ROOT, Test, path_of, want
from peers import free_ports, wait_for
from sockets import Client
from two_machines import NAMES, Machines
from writers import Writer, begin_pads, check_answered

NODES = ("one", "two", "three")
TTL = 5  # seconds that a key outlives its machine
ELECTION = 2  # seconds in which a node that was the leader may still renew keys, before it finds that it is alone
WITHIN = 20  # seconds, until pads are served again
SIZES = "--cells 4096 --present 200"
LOSSES = ("machine", "node and server", "machine and node", "hung server")
MANY_LOSSES = 30


class Cluster:
    """Three nodes of etcd on this machine."""

    def __init__(self):
        ports = free_ports(6)
        self.clients = dict(zip(NODES, ports[:3]))
        self.peers = dict(zip(NODES, ports[3:]))
        self.processes = {name: self.start(name) for name in NODES}
        wait_for("etcd answers", self.is_healthy)

    def start(self, name):
        here, there = f"http://127.0.0.1:{self.clients[name]}", f"http://127.0.0.1:{self.peers[name]}"
        cluster = ",".join(f"{node}=http://127.0.0.1:{port}" for node, port in self.peers.items())
        words = ["--name", name, "--data-dir", f"etcd-{name}", "--initial-cluster", cluster, "--log-level", "error"]
        words += ["--listen-client-urls", here, "--advertise-client-urls", here]
        words += ["--listen-peer-urls", there, "--initial-advertise-peer-urls", there]
        words += ["--heartbeat-interval", "100", "--election-timeout", "1000"]
        with open(f"etcd-{name}.log", "ab") as said:
            return subprocess.Popen(["/usr/bin/etcd", *words], stdin=subprocess.DEVNULL, stdout=said, stderr=said)

    def is_healthy(self):
        try:
            for port in self.clients.values():
                with urllib.request.urlopen(f"http://127.0.0.1:{port}/health", timeout=2) as answer:
                    if b'"true"' not in answer.read():
                        return False
            return True
        except OSError:
            return False

    def kill(self, name):
        self.processes[name].kill()
        self.processes[name].wait()

    def urls(self):
        return ",".join(f"http://127.0.0.1:{port}" for port in self.clients.values())


class Guarded(Machines):
    """The two machines, each with the script `failover` beside its server."""

    def __init__(self):
        super().__init__()
        self.etcd = Cluster()
        self.scripts = {}

    def guard(self, number, command, store, more):
        """Starts the script with a server."""
        address = f"127.0.0.1:{self.ports[number]}"
        server = [path_of("pad_server"), "--listen", address, "--replica", str(number), "--accounts", "accounts"]
        self.script(number, command, ["--", *server, "--store", store, *more.split()])

    def script(self, number, command, server):
        """Starts the script, with words that say how the server is started or killed."""
        address = f"127.0.0.1:{self.ports[number]}"
        words = [command, "--etcd", self.etcd.urls(), "--name", f"machine {number}", "--ttl", str(TTL)]
        standby = ["--at", address, "--accounts", "accounts", "--main", "1"]
        words += ["--serves", address] if command == "hold" else standby
        with open(f"said{number}", "ab") as said:
            self.scripts[number] = subprocess.Popen(
                [sys.executable, f"{ROOT}/failover", *words, *server],
                stdin=subprocess.DEVNULL, stdout=said, stderr=said,
            )

    def begin(self):
        self.guard(2, "wait", "copy", f"--standby-of 1 {SIZES}")
        self.guard(1, "hold", "main", f"--standby 2 --confirm strict {SIZES}")
        self.wait_until_said(1, f"failover: the server at 127.0.0.1:{self.ports[1]} serves")
        self.wait_until_said(2, "failover: machine 1 has the key /vindrughe/main")

    def server_of(self, number):
        """The process that the script of a machine has started."""
        script = self.scripts[number].pid
        with open(f"/proc/{script}/task/{script}/children", encoding="ascii") as file:
            return int(file.read().split()[0])

    def lose(self, number):
        """The machine is lost: the script ends at once, and its server with it."""
        self.scripts[number].kill()
        self.scripts[number].wait()

    def serves_again(self):
        """The seconds until the second machine serves pads."""
        began = time.monotonic()
        while time.monotonic() < began + WITHIN:
            try:
                self.author("ann", number=2).close()
                return time.monotonic() - began
            except (OSError, ValueError, Failed):
                time.sleep(0.1)
        said = f"it said {self.said(2)!r}, and machine 1 {self.said(1)!r}"
        raise Failed(f"machine 2 serves nobody after {WITHIN} s: {said}")

    def end(self, number):
        """Ends the script by TERM, as systemd does, and so its server."""
        self.scripts[number].terminate()
        return self.scripts[number].wait()


def lose(seed, loss):
    """One loss under load. Returns how many answers came before it, and how long nobody was served."""
    dice = random.Random(f"etcd {seed}")
    machines = Guarded()
    machines.begin()
    begin_pads(machines)
    writers = [Writer(machines, name, f"{seed} {name}") for name in NAMES[:8]]
    time.sleep(dice.uniform(0.3, 1.5))
    if "node" in loss:
        machines.etcd.kill(dice.choice(NODES))
    if loss == "node and server":
        # The main server goes on without one node, and only its own process is killed later.
        time.sleep(TTL + 1)
        said = machines.said(1)
        want(machines.scripts[1].poll(), None, f"the status of the script beside the main server, which said {said!r}")
        os.kill(machines.server_of(1), signal.SIGKILL)
    elif loss == "hung server":
        os.kill(machines.server_of(1), signal.SIGSTOP)
    else:
        machines.lose(1)
    if "machine" in loss:
        shutil.rmtree("main")
    seconds = machines.serves_again()
    for writer in writers:
        writer.join()
    answered = check_answered(machines, writers)
    machines.wait_until_said(2, f"failover: the server at 127.0.0.1:{machines.ports[2]} serves")
    if loss in ("node and server", "hung server"):
        want(machines.scripts[1].wait(), 1, "the status of the script beside the old main server")
    want(machines.end(2), 0, "the status of the script after TERM")
    want(serves(machines, 2), False, "that the promoted server goes on after its script")
    for name, node in machines.etcd.processes.items():
        node.kill()
        node.wait()
        shutil.rmtree(f"etcd-{name}")
    shutil.rmtree("copy")
    shutil.rmtree("main", ignore_errors=True)
    for number in (1, 2):
        os.remove(f"said{number}")
    return answered, seconds


def serves(machines, number):
    try:
        Client(machines.ports[number]).close()
        return True
    except OSError:
        return False


def losses(kinds):
    answered = 0
    for seed, loss in enumerate(kinds):
        count, _ = lose(seed, loss)
        answered += count
    if answered < 5 * len(kinds):
        raise Failed(f"only {answered} answers came before {len(kinds)} losses")


def many_losses():
    return [LOSSES[seed % len(LOSSES)] for seed in range(MANY_LOSSES)]


def without_a_majority():
    """Two nodes are lost: the main server is killed before its lease can lapse, and nobody is promoted."""
    machines = Guarded()
    machines.begin()
    server = machines.server_of(1)
    for name in NODES[:2]:
        machines.etcd.kill(name)
    began = time.monotonic()
    wait_for("the server is killed", lambda: not os.path.exists(f"/proc/{server}"))
    seconds = time.monotonic() - began
    if seconds > TTL + ELECTION:
        raise Failed(f"the server was killed {seconds} s after the loss of the nodes, and the lease has {TTL} s")
    want(machines.scripts[1].wait(), 1, "the status of the script beside the main server")
    want("could not be kept" in machines.said(1), True, f"that the script says why, and not {machines.said(1)!r}")
    time.sleep(2)
    client = Client(machines.ports[2])
    client.wants({"do": "hello", "name": "ann", "token": "tann"}, {"code": 341, "error": "IsStandby", "ok": False})
    # The nodes come back, and the key is free in the end: the standby serves.
    for name in NODES[:2]:
        machines.etcd.processes[name] = machines.etcd.start(name)
    machines.serves_again()


def a_key_that_is_not_free():
    """A main server is not started while another machine has the key; a standby waits for the first one that has it."""
    machines = Guarded()
    machines.guard(2, "wait", "copy", "--standby-of 1")
    machines.wait_until_said(2, "failover: nobody has the key /vindrughe/main")
    time.sleep(1)
    client = Client(machines.ports[2])
    client.wants({"do": "hello", "name": "ann", "token": "tann"}, {"code": 341, "error": "IsStandby", "ok": False})
    machines.guard(1, "hold", "main", "--standby 2 --confirm strict")
    machines.wait_until_said(1, f"failover: the server at 127.0.0.1:{machines.ports[1]} serves")
    words = ["hold", "--etcd", machines.etcd.urls(), "--serves", "127.0.0.1:1", "--", "/bin/false"]
    run = subprocess.run([sys.executable, f"{ROOT}/failover", *words], capture_output=True, text=True, timeout=30)
    said = "failover: the key /vindrughe/main is not free, machine 1 has it: the server is not started\n"
    told = run.stdout + run.stderr
    want((told, run.returncode), (said, 1), "what the script of a second main server says, and its status")
    # TERM ends the main server, and the standby takes over at once.
    want(machines.end(1), 0, "the status after TERM")
    if machines.serves_again() > TTL:
        raise Failed("the standby waited for the lease of a main server that had ended")


def servers_that_are_watched():
    """The scripts watch servers that others have started. One that hangs is killed by the command that they have."""
    machines = Guarded()
    standby = machines.standby()
    main = machines.main("strict")
    ann = machines.author("ann")
    ann.does(do="create", pad="p")
    ann.does(do="insert", pad="p", rev=0, at=0, text="kept")
    for number, command, server in ((2, "wait", standby), (1, "hold", main)):
        machines.script(number, command, ["--kill", f"kill -9 {server.pid}"])
    machines.wait_until_said(1, f"failover: the server at 127.0.0.1:{machines.ports[1]} serves")
    machines.wait_until_said(2, "failover: machine 1 has the key /vindrughe/main")
    main.send_signal(signal.SIGSTOP)
    machines.serves_again()
    want(main.wait(), -signal.SIGKILL, "the status of the main server")
    want(machines.scripts[1].wait(), 1, "the status of the script beside it")
    want(machines.author("ann", "p", 2).does(do="text", pad="p")["text"], "kept", "the text of the promoted server")
    want(machines.end(2), 0, "the status of the script beside the standby after TERM")
    want(standby.wait(), -signal.SIGKILL, "the status of the promoted server")


TESTS = [
    Test("etcd failover: a machine is lost", lambda: losses(LOSSES[:3]), 200, alone=True),
    Test("etcd failover: without a majority", without_a_majority, 60, alone=True),
    Test("etcd failover: a key that is not free", a_key_that_is_not_free, 60),
    Test("etcd failover: servers that are watched", servers_that_are_watched, 60),
]

LONG_TESTS = [Test("etcd failover: thirty losses", lambda: losses(many_losses()), 1_200)]
