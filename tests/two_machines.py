"""Two machines: a main server and its standby, and what is in their stores."""
import glob
import json
import os
import random
import subprocess

from harness import Failed, put_files, start
from peers import free_ports, wait_for
from sockets import Client

NAMES = ["ann", "bob", "cid", "dan", "eve", "fay", "gus", "hal", "ida", "jon", "kim", "leo", "mia", "ned", "oda"]


class Machines:
    """Two machines: 1 is the main server with the store `main`, 2 its standby with the store `copy`."""

    def __init__(self):
        self.ports = dict(zip((1, 2), free_ports(2)))
        lines = [f"author {name} t{name}\n" for name in NAMES]
        lines += [f"peer {number} secret 127.0.0.1:{port}\n" for number, port in self.ports.items()]
        put_files((("accounts", "".join(lines)),))
        self.processes = {}

    def run(self, number, store, more=""):
        """Starts a program at the address of a machine."""
        args = f"--listen 127.0.0.1:{self.ports[number]} --replica {number} --accounts accounts --store {store} {more}"
        with open(f"said{number}", "ab") as said:
            process = start(
                "pad_server", args, self.variables(number), stdin=subprocess.DEVNULL, stdout=subprocess.PIPE, stderr=said
            )
        line = process.stdout.readline().decode()
        if line != f"listening on 127.0.0.1:{self.ports[number]}\n":
            raise Failed(f"the first line of machine {number}: {line!r}, and it said {self.said(number)}")
        self.processes[number] = process
        return process

    def variables(self, number):
        """What the environment of a machine's program has."""
        return None

    def main(self, confirm="", more=""):
        return self.run(1, "main", f"--standby 2 {'--confirm ' + confirm if confirm else ''} {more}")

    def standby(self):
        return self.run(2, "copy", "--standby-of 1")

    def promoted(self, more=""):
        return self.run(2, "copy", f"--new-replica {more}")

    def kill(self, number):
        self.processes[number].kill()
        self.processes[number].wait()
        self.processes[number].stdout.close()

    def said(self, number):
        with open(f"said{number}", encoding="utf-8") as file:
            return file.read()

    def wait_until_said(self, number, text):
        wait_for(f"machine {number} says {text!r}", lambda: text in self.said(number))

    def author(self, name, pad=None, number=1):
        client = Client(self.ports[number])
        client.wants({"do": "hello", "name": name, "token": f"t{name}"}, {"author": f"{name}@{number}", "ok": True})
        if pad is not None:
            client.join(pad)
        return client


def files_of(store):
    """The files of pads in a store."""
    found = {}
    for path in glob.glob(f"{store}/*.pad"):
        with open(path, "rb") as file:
            found[os.path.basename(path)] = file.read()
    return found


def wait_until_copied():
    wait_for("the copy has what the main server has", lambda: files_of("copy") == files_of("main"))


def shown(client, pad="p"):
    """What a reader sees of a pad, but for the number of the server in names."""
    acts = ("text", "runs", "comments", "rights", "revs")
    return [client.does(do=act, pad=pad) for act in acts]


def entries_of(client, pad):
    found = []
    while True:
        some = client.does(do="entries", pad=pad, **{"from": len(found) + 1, "count": 100})["entries"]
        if not some:
            return found
        found += [(tuple(entry["name"]), entry["author"], entry["kind"]) for entry in some]


def logged_in(store):
    """The whole stretches of a standby's log: a pad, the place where the stretch begins, and the number of its bytes."""
    with open(f"{store}/rounds", "rb") as file:
        log = file.read()
    stretches, at = [], 0
    while (end := log.find(b"\n", at)) >= 0:
        told = json.loads(log[at:end])
        at = end + 1 + told["bytes"]
        if at > len(log):
            break
        stretches.append((told["pad"], told["from"], told["bytes"]))
    return stretches


def power_cut(store, seed):
    """Takes what a standby had not synced: of the files, anything behind the first stretch of each in the log."""
    dice = random.Random(seed)
    firsts = {}
    for pad, begins, _ in logged_in(store):
        firsts.setdefault(pad, begins)
    for pad, synced in firsts.items():
        path = f"{store}/{pad}.pad"
        if not os.path.exists(path):
            continue
        size = os.path.getsize(path)
        with open(path, "r+b") as file:
            fate = dice.randrange(3)
            if fate == 0:
                file.truncate(synced + dice.randint(0, size - synced))
            elif fate == 1:
                file.seek(synced)
                file.write(bytes(dice.randint(0, size - synced)))
            else:
                middle = synced + (size - synced) // 2
                file.seek(synced)
                file.write(bytes(middle - synced))
    return len(firsts)
