"""The command line `pads`, as a user runs it, before the server."""
import json
import os
import re
import subprocess
import tempfile
import time

from harness import ROOT, Failed, put_files, want
from js_client import named
from scripts_test import PYTHON
from sockets import NAMES, WAIT, Server

HERE = os.path.dirname(os.path.realpath(__file__))
PADS = os.path.join(ROOT, "clients", "python", "bin", "pads")
ACCOUNTS = (("accounts", "".join(f"author {name} t{name}\n" for name in NAMES) + "peer 77 p77 127.0.0.1:1\n"),)


class Pads:
    """Runs `pads` as an author, with a home of its own."""

    def __init__(self, port, name="ann", **variables):
        home = os.path.abspath(f"home-{name}")
        os.makedirs(home, exist_ok=True)
        self.environment = {
            "PATH": "/usr/bin:/bin", "HOME": home, "TMPDIR": home, "LC_ALL": "C.UTF-8", "PYTHONDONTWRITEBYTECODE": "1",
            "PADS_ADDRESS": f"tcp://127.0.0.1:{port}", "PADS_NAME": name, "PADS_TOKEN": f"t{name}", **variables,
        }

    def start(self, *words, **more):
        return subprocess.Popen(
            [PYTHON, PADS, *words], env=self.environment, stdin=more.pop("stdin", subprocess.DEVNULL), stdout=subprocess.PIPE, stderr=subprocess.PIPE, text=True, **more
        )

    def run(self, *words, stdin=None, status=0, said=""):
        """What it prints. `said` has to be in what it says on standard error, which is empty otherwise."""
        process = self.start(*words, stdin=subprocess.PIPE)
        out, errors = process.communicate(stdin or "")
        want((process.returncode, said in errors, bool(errors)), (status, True, bool(said)), f"pads {' '.join(words)}: {out!r} {errors!r}")
        return out


def begin(more="", **variables):
    server = Server(more, accounts=ACCOUNTS, stderr=subprocess.DEVNULL)
    return server, Pads(server.port, **variables)


def pads_are_listed_written_and_read():
    server, ann = begin()
    want(ann.run("list"), "", "the list of no pads")
    ann.run("create", "agenda")
    ann.run("append", "agenda", "one", "two 🙂")
    ann.run("append", "agenda", stdin="three\n")
    ann.run("append", "agenda", stdin="four")
    want(ann.run("show", "agenda"), "one\ntwo 🙂\nthree\nfour\n", "the pad")
    want(ann.run("show", "agenda", "--rev", "1"), "one\ntwo 🙂\n", "its first revision")
    want(json.loads(ann.run("show", "--json", "agenda")), {"pad": "agenda", "rev": 3, "text": "one\ntwo 🙂\nthree\nfour\n", "runs": [["ann@1", 21]]}, "the pad as JSON")
    want(ann.run("list"), "agenda\town\t3\n", "the list")
    want(json.loads(ann.run("list", "--json")), [{"name": "agenda", "right": "own", "now": 3}], "the list as JSON")
    want(ann.run("grant", "agenda", "bob", "write"), "", "a grant")
    want(ann.run("grant", "agenda"), "ann\town\nbob\twrite\n", "the rights")
    bob = Pads(server.port, "bob")
    bob.run("append", "agenda", "five")
    want(ann.run("show", "agenda", "--authors"), 'ann@1: "one\\ntwo 🙂\\nthree\\nfour\\n"\nbob@1: "five\\n"\n', "whose words are whose")
    want(ann.run("history", "agenda", "--count", "2"), "3\tann@1\tinsert\n4\tbob@1\tinsert\n", "the last revisions")
    want(json.loads(ann.run("history", "agenda", "--from", "4", "--json")), [{"rev": 4, "author": "bob@1", "kind": "insert", "name": [1, 4]}], "them as JSON")
    want(ann.run("diff", "agenda", "2", "4"), "one\ntwo 🙂\nthree\n{+four\n+}{+five\n+}\n", "what came")
    want(json.loads(ann.run("diff", "agenda", "3", "--json"))["runs"][-1], {"text": "five\n", "author": "bob@1", "kind": "insert"}, "that as JSON")
    want("\033[" in ann.run("diff", "agenda", "3", "--color", "always"), True, "that there are colours if they are asked for")


def comments_are_made_listed_and_resolved():
    _, ann = begin()
    ann.run("create", "p")
    ann.run("append", "p", "one two one")
    want(json.loads(ann.run("comment", "p", "which?", "--on", "two", "--json")), {"name": [1, 2]}, "a comment")
    ann.run("comment", "p", "the second", "--on", "one", "--nth", "2")
    want(ann.run("comment", "p"), "1-2\tann@1\topen\ttwo\twhich?\n1-3\tann@1\topen\tone\tthe second\n", "the comments")
    ann.run("comment", "p", "--resolve", "1-2")
    listed = json.loads(ann.run("comment", "p", "--json"))
    want(listed[0], {"name": [1, 2], "author": "ann@1", "at": 4, "length": 3, "text": "which?", "resolved": True}, "it is resolved")
    want(listed[1]["at"], 8, "the place of the second one")
    for words, status, said in (
        (["x", "--on", "one"], 2, "2 times"), (["x", "--on", "six"], 1, "does not have"), (["x"], 2, "--on"), (["--resolve", "12"], 2, "no comment's name"),
        (["--resolve", "1-9"], 1, "326"), (["x", "--on", "one", "--nth", "3"], 2, "--nth 3"),
    ):
        ann.run("comment", "p", *words, status=status, said=said)


def what_is_wrong_is_told_by_the_status():
    server, ann = begin()
    ann.run("create", "p")
    for words, status, said in (
        ([], 2, "no command"), (["pad"], 2, "no command pad"), (["show"], 2, "PAD"), (["show", "p", "--rev", "x"], 2, "--rev"),
        (["show", "p", "--rev", "1", "--at", "2h"], 2, "one of the two"), (["show", "p", "--at", "soon"], 2, "no time"),
        (["show", "none"], 1, "no such pad (300 NoPad)"), (["create", "p"], 1, "301"), (["show", "p", "--rev", "9"], 1, "320"), (["create", "P"], 1, "303"),
        (["grant", "p", "bob"], 2, "which right"), (["grant", "p", "bob", "all"], 2, "RIGHT"), (["grant", "p", "ann", "read"], 1, "315"),
        (["diff", "p", "3", "1"], 2, "earlier"), (["history", "p", "--count", "0"], 2, "at least 1"), (["export", "p", "-o", "no/such/file"], 2, "No such file"),
        (["list", "--token", "tann"], 2, "--token"), (["list", "--server", "office"], 2, "no server office"),
    ):
        ann.run(*words, status=status, said=said)
    Pads(server.port, "bob").run("show", "p", status=1, said="do not have the right")
    Pads(server.port, PADS_TOKEN="no").run("list", status=1, said="token is wrong (201 BadToken)")
    Pads(1).run("list", status=3, said="not connected")
    Pads(server.port, PADS_ADDRESS="http://127.0.0.1").run("list", status=2, said="an address is")
    Pads(server.port, PADS_TOKEN="").run("list", status=2, said="no name and token")
    want(ann.run("--version"), "pads 0.1.0\n", "the version")
    head = subprocess.run(f"{PYTHON} {PADS} --help | head -1", shell=True, env=ann.environment, capture_output=True, text=True)
    want((head.stdout.count("\n"), head.stderr), (1, ""), "what a reader that goes away is told")


def tokens_are_kept_where_nobody_else_reads_them():
    server, _ = begin()
    ann = Pads(server.port, PADS_ADDRESS="", PADS_NAME="", PADS_TOKEN="")
    file = f"{ann.environment['HOME']}/.config/vindrughe"
    ann.run("log-in", f"tcp://127.0.0.1:{server.port}", "ann", stdin="wrong\n", status=1, said="201")
    want(os.path.exists(file), False, "that a wrong token is kept")
    told = ann.run("log-in", f"tcp://127.0.0.1:{server.port}", "ann", stdin="tann\n")
    want(("ann@1" in told, "tann" in told, oct(os.stat(file).st_mode & 0o777)), (True, False, "0o600"), "what log-in says, and the file's mode")
    ann.run("create", "p")
    want(ann.run("list"), "p\town\t0\n", "what is done with it")
    os.chmod(file, 0o644)
    ann.run("list", status=2, said="others may read the tokens")


FOLLOWED = {
    (): ["2\tbob@1\t1: one{+ and+} two\n", "3\tbob@1\t2: [-th-]ree\n"],
    ("--color", "always"): ["1: one\033[1m\033[COLOURm and\033[0m two\n", "2: \033[9m\033[31mth\033[0mree\n"],
    ("--json",): [
        '{"rev": 2, "authors": ["bob@1"], "changes": [{"text": " and", "author": "bob@1", "kind": "insert"}]}\n',
        '{"rev": 3, "authors": ["bob@1"], "changes": [{"text": "th", "author": "ann@1", "kind": "drop"}]}\n',
    ],
}


def follow_prints_what_comes():
    server, ann = begin()
    for number, (words, lines) in enumerate(FOLLOWED.items()):
        pad = f"p{number}"
        ann.run("create", pad)
        ann.run("append", pad, "one two", "three")
        ann.run("grant", pad, "bob", "write")
        bob = server.author("bob", pad)
        process = ann.start("follow", pad, *words)
        wait_for_visits(bob, pad, 2)
        bob.does(do="insert", pad=pad, rev=1, at=3, text=" and")
        first = process.stdout.readline()
        bob.does(do="delete", pad=pad, rev=2, at=12, len=2)
        for got, due in zip((first, process.stdout.readline()), lines):
            is_coloured = "\033" in due
            pattern = (".*" if is_coloured else "") + re.escape(due).replace("COLOUR", r"\d+")
            want(re.fullmatch(pattern, got, re.S) is not None, True, f"that pads follow prints {due!r}: {got!r}")
        process.terminate()
        process.wait()


def wait_for_visits(client, pad, count):
    end = time.monotonic() + WAIT
    while len(client.does(do="who", pad=pad)["who"]) != count:
        if time.monotonic() > end:
            raise Failed(f"there are not {count} visits after {WAIT} s")
        time.sleep(0.05)
    time.sleep(0.5)  # it has the text, and waits for changes


EDITOR = """#!/bin/sh
# Says that the file is open, and waits until it is to be saved.
cp "$1" "$DIR/opened.tmp" && mv "$DIR/opened.tmp" "$DIR/opened"
while [ ! -e "$DIR/go" ]; do sleep 0.02; done
if [ -e "$DIR/edited" ]; then cp "$DIR/edited" "$1"; fi
exit "$(cat "$DIR/go")"
"""


class Editing:
    """`pads edit` with an editor that waits until it is told what the author makes of the text."""

    def __init__(self, port, pad, name="ann", words=()):
        self.folder = tempfile.mkdtemp(prefix=f"editing-{name}-{pad}-", dir=os.getcwd())
        put_files([(f"{self.folder}/editor", EDITOR)])
        os.chmod(f"{self.folder}/editor", 0o755)
        self.pads = Pads(port, name, EDITOR=f"{self.folder}/editor", DIR=self.folder, TMPDIR=self.folder)
        self.process = self.pads.start("edit", pad, *words)

    def opened(self):
        """The text that the editor shows, once it is there."""
        end = time.monotonic() + WAIT
        while not os.path.exists(f"{self.folder}/opened"):
            if time.monotonic() > end or self.process.poll() is not None:
                raise Failed(f"the editor was not opened: {self.process.poll()} {self.process.stderr.read() if self.process.poll() is not None else ''}")
            time.sleep(0.01)
        with open(f"{self.folder}/opened", encoding="utf-8", newline="") as file:
            return file.read()

    def saves(self, text=None, status=0):
        """The editor ends, with this text and status. What pads edit says, its status, and the files that it leaves."""
        if text is not None:
            put_files([(f"{self.folder}/edited", text)])
        put_files([(f"{self.folder}/go.tmp", str(status))])
        os.rename(f"{self.folder}/go.tmp", f"{self.folder}/go")
        out, errors = self.process.communicate()
        left = [name for name in os.listdir(self.folder) if name not in ("editor", "opened", "edited", "go")]
        return self.process.returncode, out, errors, left


def edits_go_out_as_edits_of_what_was_opened():
    server, ann = begin()
    ann.run("create", "p")
    ann.run("append", "p", "The crane is red.", "Ann pays.")
    ann.run("grant", "p", "bob", "write")
    bob = server.author("bob", "p")
    editing = Editing(server.port, "p", words=["--json"])
    want(editing.opened(), "The crane is red.\nAnn pays.\n", "what the editor shows")
    wait_for_visits(bob, "p", 1)
    bob.does(do="insert", pad="p", rev=1, at=0, text="Minutes\n")
    bob.does(do="insert", pad="p", rev=2, at=8 + len("The crane is red"), text=" and tall")
    bob.does(do="delete", pad="p", rev=3, at=8 + len("The crane is red and tall.\n"), len=3)
    status, out, errors, left = editing.saves("The crane is blue.\nAnn pays. Bob agrees.\n")
    want((status, errors, left), (0, "", []), "how pads edit ends")
    text = "Minutes\nThe crane is blue and tall.\n pays. Bob agrees.\n"
    want(bob.does(do="text", pad="p")["text"], text, "both authors' words")
    want(json.loads(out), {"rev": 5}, "the revision that it made")
    want(bob.does(do="runs", pad="p")["runs"], [["bob@1", 8], ["ann@1", 17], ["bob@1", 9], ["ann@1", 21]], "whose words are whose")


def an_editor_that_changes_nothing_or_fails_changes_nothing():
    server, ann = begin()
    ann.run("create", "p")
    ann.run("append", "p", "text")
    editing = Editing(server.port, "p")
    editing.opened()
    status, _, errors, left = editing.saves()
    want((status, errors, left), (0, "Nothing was changed.\n", []), "an editor that changes nothing")
    editing = Editing(server.port, "p", words=["--patience", "5"])
    editing.opened()
    status, _, errors, left = editing.saves("other", status=3)
    want((status, "ended with status 3" in errors, len(left)), (4, True, 1), f"an editor that fails: {errors}")
    want(ann.run("show", "p"), "text\n", "the pad")
    ann.environment["EDITOR"] = "no-such-editor"
    ann.run("edit", "p", status=2, said="cannot be started")


def what_cannot_be_saved_is_kept_in_a_file():
    server, ann = begin()
    ann.run("create", "p")
    ann.run("append", "p", "text")
    ann.run("grant", "p", "bob", "write")
    editing = Editing(server.port, "p", "bob")
    editing.opened()
    ann.run("grant", "p", "bob", "read")
    status, _, errors, left = editing.saves("text of bob\n")
    want((status, "312" in errors, len(left)), (4, True, 1), f"an edit without the right: {errors}")
    with open(os.path.join(editing.folder, left[0]), encoding="utf-8") as file:
        want((file.read(), left[0] in errors, oct(os.stat(file.name).st_mode & 0o777)), ("text of bob\n", True, "0o600"), "the file that is kept")
    want(ann.run("show", "p"), "text\n", "the pad")
    bob = Pads(server.port, "bob")
    bob.run("append", "p", "more", status=4, said="Your text is in")
    gone = Editing(server.port, "p", "ann", words=["--patience", "1"])
    gone.opened()
    server.process.kill()
    status, _, errors, left = gone.saves("text of ann\n")
    want((status, "not connected" in errors, len(left)), (4, True, 1), f"an edit without a server: {errors}")


def another_past_is_not_mixed_with_what_was_opened():
    server, ann = begin("--store store")
    ann.run("create", "p")
    ann.run("append", "p", "text")
    editing = Editing(server.port, "p")
    editing.opened()
    server.process.kill()
    server.process.wait()
    subprocess.run(["rm", "-r", "store"], check=True)
    other = Server(accounts=ACCOUNTS, stderr=subprocess.DEVNULL)
    for one in (ann.environment, editing.pads.environment):
        one["PADS_ADDRESS"] = f"tcp://127.0.0.1:{other.port}"
    ann.run("create", "p")
    ann.run("append", "p", "other")
    status, _, errors, left = editing.saves("text of ann\n")
    want((status, len(left)), (4, 1), f"how it ends: {errors}")
    want(ann.run("show", "p"), "other\n", "the other pad")


def the_manual_page_has_all_options():
    page = subprocess.run([f"{ROOT}/docs/man", "pads"], capture_output=True, text=True)
    want((page.returncode, page.stderr), (0, ""), "the status of docs/man pads")
    _, ann = begin()
    commands = re.findall(r"^  ([a-z-]+)  ", ann.run("--help").split("Commands:")[1].split("\n\n")[0], re.M)
    want(len(commands) >= 13, True, f"the commands: {commands}")
    for command in commands:
        for option in set(re.findall(r"--[a-z-]+", ann.run(command, "--help"))):
            want(option.replace("-", "\\-") in page.stdout, True, f"that the page has {option} of pads {command}")
    want(re.findall(r'^\.SH "?([A-Z ]+)"?$', page.stdout, re.M)[:3], ["NAME", "SYNOPSIS", "DESCRIPTION"], "the sections")
    lint = subprocess.run(["man", "--warnings", "-l", "-"], input=page.stdout, capture_output=True, text=True) if os.path.exists("/usr/bin/man") else None
    want(lint is None or lint.stderr == "", True, f"what man says: {lint and lint.stderr}")


TESTS = [
    named(pads_are_listed_written_and_read, 90),
    named(comments_are_made_listed_and_resolved, 60),
    named(what_is_wrong_is_told_by_the_status, 90),
    named(tokens_are_kept_where_nobody_else_reads_them, 60),
    named(follow_prints_what_comes, 90),
    named(edits_go_out_as_edits_of_what_was_opened, 60),
    named(an_editor_that_changes_nothing_or_fails_changes_nothing, 60),
    named(what_cannot_be_saved_is_kept_in_a_file, 90),
    named(another_past_is_not_mixed_with_what_was_opened, 120),
    named(the_manual_page_has_all_options, 60),
]
