"""The script `serve` on a fresh machine: an unproved server serves, the proofs run behind it, and the proved one takes over."""
import hashlib
import os
import shutil
import signal
import socket
import subprocess
import threading
import time

from fresh_machine import Machine, begun, ends_machines, make_machine, notes, nothing_is_left, touch, wait_until
from harness import Failed, Test, path_of, put_files, want
from scripts_test import PYTHON, script

READY = "serve: log in at http://127.0.0.1:"


class Typist:
    """An author who types without pause, one character after the other, and connects again as a page does."""

    def __init__(self, machine):
        self.machine, self.is_over, self.answered, self.found = machine, False, 0, None
        self.client = machine.author()
        self.client.does(do="create", pad="p")
        self.thread = threading.Thread(target=self.type)
        self.thread.start()

    def type(self):
        while not self.is_over:
            try:
                self.answered = self.client.does(do="insert", pad="p", rev=self.answered, at=self.answered, text="x")["now"]
            except (OSError, ValueError, Failed):
                self.found = self.before = self.connect_again()

    def connect_again(self):
        """What the proved server has of the pad: at least all that was answered."""
        before = self.answered
        while not self.is_over:
            try:
                self.client = self.machine.author()
                self.client.does(do="join", pad="p")
                self.answered = self.client.does(do="text", pad="p")["now"]
                return before, self.answered
            except (OSError, ValueError):
                time.sleep(0.01)
        return None

    def end(self):
        self.is_over = True
        self.thread.join()


def takes_over_while_an_author_types():
    machine = Machine(BUILD="BUILD", GO="GO")
    machine.said("builds the server without proofs")
    time.sleep(1.5)
    want([row[0] for row in notes()], ["try"], "what the toolchain is called for before somebody is served")
    touch("BUILD")
    machine.said(f"serve: NOT PROVED: the server on 127.0.0.1:{machine.port} is an unproved build")
    machine.said(READY)
    typist = Typist(machine)
    wait_until(lambda: typist.answered > 20 and begun("pad_core"), "that edits are answered, and pad_core is being proved")
    before = len(machine.lines)
    touch("GO")
    machine.said("serve: everything is proved: the proved server takes over", before)
    machine.said(READY, before)
    wait_until(lambda: typist.found and typist.answered > typist.found[1] + 20, "that the author types on")
    typist.end()
    was_answered, was_found = typist.found
    want(was_found in (was_answered, was_answered + 1), True, f"that of {was_answered} edits {was_found} were found")
    author = machine.author()
    author.does(do="join", pad="p")
    want(author.does(do="text", pad="p")["text"], "x" * typist.answered, "the text")
    want({row[2] for row in notes() if row[0] == "begin"}, {"19"}, "the priority of the proofs")
    want(os.readlink(f"/proc/{machine.process.pid}/exe"), f"{os.getcwd()}/crates/pad_server/out/pad_server", "the program")
    nothing_is_left()
    want(machine.ends(signal.SIGTERM), -signal.SIGTERM, "the status")


def a_later_start_serves_at_once():
    machine = Machine()
    machine.said("serve: everything is proved")
    machine.said("web on ")
    machine.ends(signal.SIGTERM)
    before, told = len(notes()), len(machine.lines)
    machine.start()
    machine.said(READY, told)
    machine.author()
    want(notes()[before:], [], "what the toolchain is called for")
    want([line for line in machine.lines[told:] if "PROVED" in line], [], "what is said of proofs")
    machine.ends(signal.SIGTERM)


def a_proof_fails():
    machine = Machine(FAILS="pad_core")
    machine.said("fn pad_core::f: not proved")
    machine.said("prove: pad_core is not proved, or not built")
    machine.said("serve: THE PROOF HAS FAILED: an unproved server goes on serving")
    machine.said(READY)
    machine.author().does(do="create", pad="p")
    want(machine.ends(signal.SIGTERM), 143, "the status")
    nothing_is_left()


def a_proof_is_killed():
    machine = Machine(GO="GO")
    machine.said(READY)
    wait_until(lambda: begun("pad_core"), "that pad_core is being proved")
    os.kill(int(begun("pad_core")[0][-1]), signal.SIGKILL)
    machine.said("serve: THE PROOF HAS FAILED")
    machine.author()
    want(machine.ends(signal.SIGTERM), 143, "the status")
    nothing_is_left()


def ended_by(number, whole_group):
    """All that was started ends, nothing of what was kept is lost, and the next start goes on from there."""
    machine = Machine(GO="GO")
    machine.said(READY)
    wait_until(lambda: begun("pad_core"), "that pad_core is being proved")
    want(machine.ends(number, whole_group), 128 + number, "the status")
    nothing_is_left()
    for name in ["pad_model", "pad_core"]:
        want(os.path.exists(f"crates/{name}/out/incremental/kept"), True, f"that what {name} has kept is there")
    want(os.path.exists("crates/pad_model/out/rlib/stamp"), True, "that the library of pad_model is there")
    try:
        machine.author()
    except OSError:
        return
    raise Failed("the server goes on")


def the_unproved_server_is_killed():
    machine = Machine(GO="GO")
    machine.said(READY)
    os.kill(int(next(row[-1] for row in notes() if row[0] == "try")), signal.SIGKILL)
    machine.said("serve: the unproved server has ended, with status 137")
    before = len(machine.lines)
    touch("GO")
    machine.said(READY, before)
    machine.author()
    machine.ends(signal.SIGTERM)


def proved_waits_for_the_proof():
    machine = Machine("--proved", GO="GO")
    wait_until(lambda: begun("pad_core"), "that pad_core is being proved")
    try:
        machine.author()
        raise Failed("a server listens before the proof")
    except OSError:
        touch("GO")
    machine.said(READY)
    machine.author()
    want([row for row in notes() if row[0] == "try"], [], "the unproved builds")
    want({row[2] for row in notes() if row[0] == "begin"}, {"0"}, "the priority of the proofs")
    machine.ends(signal.SIGTERM)


def unproved_proves_nothing():
    machine = Machine("--unproved")
    machine.said(READY)
    machine.author()
    want([row[0] for row in notes()], ["try"], "what the toolchain is called for")
    want(machine.ends(signal.SIGTERM), 143, "the status")
    nothing_is_left()


def a_source_that_changes_meanwhile_is_said():
    machine = Machine(GO="GO")
    machine.said(READY)
    wait_until(lambda: begun("pad_core"), "that pad_core is being proved")
    touch("crates/pad_model/src/lib.rt")
    os.utime("crates/pad_model/src/lib.rt", (2 * time.time(), 2 * time.time()))
    touch("GO")
    machine.said("serve: a source has changed since its proof began")
    machine.said("serve: THE PROOF HAS FAILED")
    machine.ends(signal.SIGTERM)


def the_program_is_compared_with_that_of_a_release():
    with open(path_of("pad_server"), "rb") as file:
        right = hashlib.sha256(file.read()).hexdigest()
    name = "crates/pad_server/out/pad_server"
    for text, part in [
        (f"# commit c\n{right}  {name}\n", "serve: the program that was proved and built here is that of the release in RELEASE, byte for byte"),
        (f"{right[::-1]}  {name}\n{right}  crates/pad_store/out/pad_store\n", f"is NOT that of the release in RELEASE: its SHA-256 is {right}"),
        ("", "is NOT that of the release in RELEASE"),
    ]:
        put_files([("RELEASE", text)])
        machine = Machine("--proved")
        machine.said(part)
        machine.said(READY)
        machine.ends(signal.SIGTERM)
        os.remove("RELEASE")
        shutil.rmtree("crates")
        shutil.rmtree("bin")


def taken_addresses_are_refused():
    variables = make_machine()
    needs = "serve: an unproved server needs HOST:PORT in --listen, with a port of 1 to 65535 (or use --proved)"
    with socket.socket() as taken:
        taken.bind(("127.0.0.1", 0))
        taken.listen()
        other = f"127.0.0.1:{taken.getsockname()[1]}"
        for address, status, part in [
            (other, 1, f"serve: something listens on {other} already: stop it, or name another address with --listen"),
            ("7878", 2, needs),
            ("127.0.0.1:80000", 2, needs),
            ("127.0.0.1:0", 2, needs),
        ]:
            for words in [[], ["--unproved"]]:
                done = subprocess.run(["./serve", *words, "--listen", address], env=variables, capture_output=True, text=True)
                want((done.returncode, done.stderr.splitlines()[-1]), (status, part), f"the status and the message of {address}")
    want(notes(), [], "what the toolchain is called for")


def two_pages_type_meanwhile():
    script(PYTHON, "handover_test.py")


def named(name, function, seconds=240):
    return Test(f"handover: {name}", ends_machines(function), seconds)


TESTS = [
    named("the proved server takes over while an author types", takes_over_while_an_author_types),
    named("a later start serves at once", a_later_start_serves_at_once),
    named("a proof fails", a_proof_fails),
    named("a proof is killed", a_proof_is_killed),
    named("Ctrl-C ends all", lambda: ended_by(signal.SIGINT, True)),
    named("TERM ends all", lambda: ended_by(signal.SIGTERM, False)),
    named("a closed terminal ends all", lambda: ended_by(signal.SIGHUP, True)),
    named("the unproved server is killed", the_unproved_server_is_killed),
    named("--proved waits for the proof", proved_waits_for_the_proof),
    named("--unproved proves nothing", unproved_proves_nothing),
    named("a source that changes meanwhile is said", a_source_that_changes_meanwhile_is_said),
    named("the program is compared with that of a release", the_program_is_compared_with_that_of_a_release),
    named("taken addresses are refused", taken_addresses_are_refused),
    named("two pages type while the proved server takes over", two_pages_type_meanwhile, 300),
]
