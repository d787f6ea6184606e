"""What `pads` cannot save, or cannot read: it ends with its status and a message, soon enough, and words are left in a file. Before a
server of tests/conformance, whose pad p has the text abc."""
import asyncio
import os
import pty
import signal
import subprocess
import time

from harness import put_files, want
from js_client import named
from pads_command import PADS, Pads
from pads_times import before_a_model
from scripts_test import PYTHON
from sockets import WAIT

HOME = "home-ann"
BYTES = b"caf\xe9"  # as ISO 8859-1 has it, and no UTF-8


def kept(text, begins):
    """There is one file with words, which only its owner may read, and it is taken away."""
    files = [name for name in os.listdir(HOME) if name.endswith(".txt")]
    want([name.startswith(begins) for name in files], [True], f"the files that are kept: {files}")
    with open(f"{HOME}/{files[0]}", encoding="utf-8") as file:
        want((file.read(), oct(os.stat(file.name).st_mode & 0o777)), (text, "0o600"), "what is kept, and its mode")
    os.remove(f"{HOME}/{files[0]}")


def now_of(server, pad="p"):
    """The text of a pad of the server."""
    one = server.model.rooms[pad].pad
    return one.text(one.now)


def what_append_has_read_is_kept_in_a_file():
    async def play(server, run):
        unsaved = {"status": 4, "said": "Your text is in"}
        for pad, begins in (("a/b", "a-b-"), ("../up", "up-"), ("..", "pad-"), ("none", "none-")):
            await run("append", pad, stdin="minutes\n", **unsaved)
            kept("minutes\n", begins)
        server.stop()
        await run("append", "p", "--patience", "0.5", stdin="minutes\n", **unsaved)
        kept("minutes\n", "p-")
        await run("append", "p", "--patience", "0.5", "one", "two", **unsaved)
        kept("one\ntwo", "p-")

    before_a_model(play)


def append_waits_for_a_server():
    async def play(server, run):
        server.stop()
        appending = asyncio.ensure_future(run("append", "p", stdin="minutes\n"))
        await asyncio.sleep(1)
        await server.start()
        await appending
        want(now_of(server), "abc\nminutes\n", "the pad")

    before_a_model(play)


def what_is_no_text_changes_nothing():
    """In any locale: some would have Python pass on the bytes as halves of surrogate pairs."""

    async def play(server, _):
        for variables in ({"LC_ALL": "C.UTF-8"}, {"LC_ALL": "C"}, {"PYTHONIOENCODING": "utf-8:strict"}):
            ann = Pads(server.port, **variables)
            put_files([("words", BYTES)])
            for words, said in (
                (["append", "p"], "standard input is not UTF-8, at byte 3"), (["append", "p", BYTES], "argument TEXT: it is not UTF-8"),
                (["comment", "p", BYTES, "--on", "b"], "argument TEXT: it is not UTF-8"), (["mark", "p", BYTES], "argument TEXT: it is not UTF-8"),
            ):
                with open("words", "rb") as file:
                    done = await asyncio.to_thread(subprocess.run, [PYTHON, PADS, *words], env=ann.environment, stdin=file, capture_output=True, text=True)
                want((done.returncode, said in done.stderr, done.stderr.count("\n")), (2, True, 1), f"pads {words} with {variables}: {done.stderr}")
        for words in (["append", "p"], ["log-in", f"tcp://127.0.0.1:{server.port}", "ann"]):
            closed = ["sh", "-c", 'exec "$@" <&-', "sh", PYTHON, PADS, *words]
            done = await asyncio.to_thread(subprocess.run, closed, env=ann.environment, capture_output=True, text=True)
            want((done.returncode, done.stderr), (2, "pads: standard input is closed\n"), f"pads {words} without standard input")
        want((now_of(server), server.model.rooms["p"].marks, server.model.rooms["p"].pad.now), ("abc", [], 3), "the pad")

    before_a_model(play)


def a_wrong_address_is_told_before_anything_is_read():
    ann = Pads(1, PADS_ADDRESS="http://127.0.0.1")
    process = ann.start("append", "p", stdin=subprocess.PIPE)
    want((process.wait(), "an address is" in process.stderr.read()), (2, True), "how pads append ends while its standard input is open")


def a_comment_that_cannot_be_made_is_given_up():
    async def play(server, run):
        from server import refusing

        is_comment = lambda request: request["do"] == "comment"
        words = ["comment", "p", "why so?", "--on", "b", "--patience", "1"]
        server.scripted = refusing(312, is_comment)
        await run(*words, status=1, said="312")
        server.scripted = refusing(901, is_comment)
        await run(*words, status=4, said="not known to be saved: the server's disk is full (901 StoreFull). Your text is in")
        kept("why so?", "p-")
        server.scripted = lambda request: server.stop() if is_comment(request) else None
        await run(*words, status=4, said="not known to be saved: there was no connection for 1 seconds. Your text is in")
        kept("why so?", "p-")
        server.scripted = lambda request: None
        await server.start()
        want(await run(*words, "--json"), '{"name": [1, 4]}\n', "a comment")

    before_a_model(play)


def an_import_that_ends_early_says_that_a_part_may_be_there():
    async def play(server, run):
        from server import refusing

        edits = []
        put_files([("long.txt", "0123456789" * 6_000)])

        def cut(request):
            if request["do"] in ("insert", "edit"):
                edits.append(request)
                if len(edits) == 2:
                    server.stop()

        server.scripted = cut
        await run("import", "long.txt", "q", "--patience", "1", status=4, said="q may have only a part of long.txt: there was no connection for 1 seconds")
        want(0 < len(now_of(server, "q")) < 60_000, True, "that a part is there")
        await server.start()
        full = server.scripted = refusing(901, lambda request: request["do"] in ("insert", "edit"))
        process = Pads(server.port).start("import", "long.txt", "r")
        want(await server.until(lambda: any(full(request) for request in server.asked if request.get("pad") == "r")), True, "that an edit of r is sent")
        process.send_signal(signal.SIGINT)
        out, errors = await asyncio.to_thread(process.communicate)
        due = (4, "", "pads: r may have only a part of long.txt: it was interrupted. Import it again under another name\n")
        want((process.returncode, out, errors), due, "an import that is interrupted")

    before_a_model(play)


def a_package_that_is_not_there_is_told():
    os.mkdir("without")
    put_files([("without/websockets.py", "raise ModuleNotFoundError('No module named websockets')\n")])
    ann = Pads(1, PYTHONPATH=os.path.abspath("without"), PADS_ADDRESS="ws://127.0.0.1:1/socket")
    ann.run("log-in", "ws://127.0.0.1:1/socket", "ann", stdin="tann\n", status=2, said="need the package websockets")
    ann.run("list", status=2, said="need the package websockets")


def an_interrupt_ends_a_log_in_at_once():
    terminal, inner = pty.openpty()
    process = Pads(1).start("log-in", "tcp://127.0.0.1:1", "ann", stdin=inner, start_new_session=True)
    want(process.stderr.read(len("Token of ann: ")), "Token of ann: ", "what it asks for")
    process.send_signal(signal.SIGINT)
    end = time.monotonic() + WAIT
    while process.poll() is None and time.monotonic() < end:
        time.sleep(0.02)
    want(process.returncode, 130, "its status")
    os.close(inner)
    os.close(terminal)


FUNCTIONS = [
    what_append_has_read_is_kept_in_a_file, append_waits_for_a_server, what_is_no_text_changes_nothing, a_wrong_address_is_told_before_anything_is_read,
    a_comment_that_cannot_be_made_is_given_up, an_import_that_ends_early_says_that_a_part_may_be_there, a_package_that_is_not_there_is_told,
    an_interrupt_ends_a_log_in_at_once,
]
TESTS = [named(function, 120) for function in FUNCTIONS]
