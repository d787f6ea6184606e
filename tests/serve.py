"""The script `serve`: an accounts file with random tokens, a server with a store, and how to log in."""
import os
import re
import signal
import stat
import subprocess

from fresh_machine import make_machine, notes
from harness import ROOT, Failed, Test, path_of, put_files, want
from sockets import Client
from web_server import Socket, read_web

ACCOUNT = re.compile(r"author ([a-z]+) ([A-Za-z0-9_-]{24})")
LOGIN = re.compile(r"serve: log in at http://127\.0\.0\.1:(?P<port>\d+)/ as (?P<name>[a-z]+) with the token (?P<token>\S+) ")


class Served:
    """The script, which is killed with the test. It finds the server that is built, and no toolchain to build another."""

    def __init__(self, *words, script=f"{ROOT}/serve", variables=None):
        path_of("pad_server")
        command = [script, "--listen", "127.0.0.1:0", "--web", "127.0.0.1:0", *words]
        streams = {"stdout": subprocess.PIPE, "stderr": subprocess.PIPE}
        self.process = subprocess.Popen(command, env=variables or {"PATH": "/usr/bin:/bin"}, **streams)
        line = self.process.stdout.readline().decode()
        if not line.startswith("listening on 127.0.0.1:"):
            raise Failed(f"the first line: {line!r}, and {self.process.stderr.read()!r}")
        self.port = int(line.rsplit(":", 1)[1])
        self.web = read_web(self.process)

    def told(self):
        """The message that says how to log in."""
        for line in self.process.stderr:
            if line.startswith(b"serve: log in at "):
                return line.decode()
        raise Failed("no message says how to log in")

    def page(self):
        """A socket of the page, logged in as the message says."""
        told = LOGIN.match(self.told())
        want(int(told["port"]), self.web, "the port of the page that the message names")
        socket = Socket(self.web, f"Origin: http://127.0.0.1:{self.web}")
        answer = socket.ask(do="hello", name=told["name"], token=told["token"])
        want(answer, {"author": f"{told['name']}@1", "ok": True}, "the answer to hello")
        return socket

    def end(self):
        """It ends by the signal, as the server itself does."""
        self.process.send_signal(signal.SIGTERM)
        want(self.process.wait(), -signal.SIGTERM, "the status")


def accounts_of(path):
    with open(path, encoding="utf-8") as file:
        lines = file.read().splitlines()
    return [ACCOUNT.fullmatch(line).groups() for line in lines]


def log_in(port, name, token):
    client = Client(port)
    client.wants({"do": "hello", "name": name, "token": token}, {"author": f"{name}@1", "ok": True})
    return client


def three_authors_can_log_in():
    served = Served()
    told = served.told()
    want(stat.S_IMODE(os.stat("accounts").st_mode), 0o600, "the mode of the accounts file")
    accounts = accounts_of("accounts")
    want([name for name, _ in accounts], ["ann", "bob", "cyd"], "the authors")
    want(len({token for _, token in accounts}), 3, "how many tokens are different")
    want(all(word in told for word in accounts[0]), True, f"that {told!r} says who logs in, and by which token")
    for name, token in accounts:
        log_in(served.port, name, token)
    served.end()


def a_second_start_keeps_accounts_and_pads():
    served = Served("--store", "kept", "--accounts", "who")
    accounts = accounts_of("who")
    ann = log_in(served.port, *accounts[0])
    ann.does(do="create", pad="p")
    ann.does(do="insert", pad="p", rev=0, at=0, text="hello")
    served.end()
    served = Served("--store", "kept", "--accounts", "who")
    want(accounts_of("who"), accounts, "the accounts")
    ann = log_in(served.port, *accounts[0])
    ann.join("p")
    want(ann.does(do="text", pad="p")["text"], "hello", "the text")
    served.end()


def the_page_has_its_pads_after_a_restart():
    """Whoever opens the page that is named, with the name and the token that are named, can write; also after a kill."""
    served = Served()
    page = served.page()
    page.does(do="create", pad="minutes")
    page.does(do="insert", pad="minutes", rev=0, at=0, text="Present: Ann")
    served.process.kill()
    served.process.wait()
    served = Served()
    page = served.page()
    page.does(do="join", pad="minutes")
    want(page.does(do="text", pad="minutes")["text"], "Present: Ann", "the text")
    served.end()


def another_accounts_file_is_taken():
    put_files([("accounts", "author zoe tzoe\n")])
    served = Served()
    want("as zoe with the token tzoe " in served.told(), True, "that zoe is named")
    log_in(served.port, "zoe", "tzoe")
    served.end()


def a_failing_proof_ends_it():
    variables = make_machine(FAILS="pad_core")
    done = subprocess.run(["./serve", "--proved"], env=variables, capture_output=True, text=True)
    want((done.returncode, done.stdout), (1, ""), "the status, and standard output")
    lines = done.stderr.splitlines()
    want(lines[-2:], ["fn pad_core::f: not proved", "prove: pad_core is not proved, or not built"], "the last messages")
    want([row for row in notes() if row[1] == "pad_server"], [], "that the server is proved")


def words_are_refused():
    for words, status, part in [
        (["--all"], 2, "serve: unknown word: --all"),
        (["--store"], 2, "serve: --store needs a value"),
        (["--unproved"], 1, "serve: rt, the toolchain that proves and builds the server, is not on the path"),
    ]:
        done = subprocess.run([f"{ROOT}/serve", *words], env={"PATH": "/usr/bin:/bin"}, capture_output=True, text=True)
        want((done.returncode, part in done.stderr), (status, True), f"serve {words}: {done.stderr}")
    done = subprocess.run([f"{ROOT}/serve", "--help"], env={"PATH": "/usr/bin:/bin"}, capture_output=True, text=True)
    want((done.returncode, done.stdout.startswith("Usage: ./serve ")), (0, True), "serve --help")


TESTS = [
    Test("serve: three authors can log in", three_authors_can_log_in),
    Test("serve: a second start keeps accounts and pads", a_second_start_keeps_accounts_and_pads),
    Test("serve: the page has its pads after a restart", the_page_has_its_pads_after_a_restart),
    Test("serve: another accounts file is taken", another_accounts_file_is_taken),
    Test("serve: a failing proof ends it", a_failing_proof_ends_it),
    Test("serve: wrong words", words_are_refused),
]
