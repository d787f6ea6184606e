"""Closed pads for those who use a client: `pads close`, `reopen` and `list`, and the library for Python, whose session goes on by another
connection where somebody else has ended its visit."""
import json
import os
import subprocess

from harness import ROOT, Failed, want
from js_client import named
from pads_command import Editing, Pads, begin
from pads_times import before_a_model
from peers import wait_for
from scripts_test import PYTHON
from sockets import Server


def pads_closes_and_reopens():
    server, ann = begin()
    for pad in ("agenda", "minutes"):
        ann.run("create", pad)
        ann.run("append", pad, "one")
        ann.run("grant", pad, "bob", "write")
    bob, cid = Pads(server.port, "bob"), Pads(server.port, "cid")
    for command in ("close", "reopen"):
        bob.run(command, "minutes", status=1, said="do not have the right")
        cid.run(command, "minutes", status=1, said="do not have the right")
        ann.run(command, "other", status=1, said="no such pad (300 NoPad)")
        ann.run(command, status=2, said="PAD")
    want((ann.run("close", "minutes"), ann.run("close", "minutes")), ("", ""), "what close prints, also of a closed pad")
    want((ann.run("list"), bob.run("list")), ("agenda\town\t1\nminutes\town\t1\tclosed\n", "agenda\twrite\t1\nminutes\twrite\t1\tclosed\n"), "the lists")
    due = [{"name": "agenda", "right": "own", "now": 1}, {"name": "minutes", "right": "own", "now": 1, "closed": True}]
    want(json.loads(ann.run("list", "--json")), due, "the list as JSON")
    want((ann.run("show", "minutes"), ann.run("grant", "minutes")), ("one\n", "ann\town\nbob\twrite\n"), "what an owner reads")
    ann.run("grant", "minutes", "bob", "read", status=1, said="the pad is closed (330 PadClosed)")
    ann.run("mark", "minutes", "x", status=1, said="the pad is closed (330 PadClosed)")
    ann.run("append", "minutes", "two", status=4, said="the pad is closed (330 PadClosed)")
    bob.run("show", "minutes", status=1, said="the pad is closed (330 PadClosed)")
    bob.run("append", "minutes", "two", status=4, said="the pad is closed (330 PadClosed)")
    cid.run("show", "minutes", status=1, said="do not have the right")
    ann.run("create", "minutes", status=1, said="301")
    want((ann.run("reopen", "minutes"), ann.run("reopen", "minutes"), ann.run("list")), ("", "", "agenda\town\t1\nminutes\town\t1\n"), "what reopen prints, and the list")
    bob.run("append", "minutes", "two")
    want(bob.run("show", "minutes"), "one\ntwo\n", "the pad that is open again")


def an_edit_of_a_pad_that_was_closed_is_kept():
    server, ann = begin()
    ann.run("create", "p")
    ann.run("append", "p", "text")
    ann.run("grant", "p", "bob", "write")
    editing = Editing(server.port, "p", "bob")
    editing.opened()
    ann.run("close", "p")
    status, _, errors, left = editing.saves("text of bob\n")
    want((status, "the pad is closed (330 PadClosed)" in errors, len(left)), (4, True, 1), f"how pads edit ends: {errors}")
    with open(os.path.join(editing.folder, left[0]), encoding="utf-8") as file:
        want(file.read(), "text of bob\n", "the file that is kept")
    want(ann.run("show", "p"), "text\n", "the pad")


def pads_follows_a_pad_that_is_closed_and_opened_again():
    server, ann = begin()
    ann.run("create", "p")
    ann.run("grant", "p", "bob", "write")
    owner = server.author("ann", "p")
    process = Pads(server.port, "bob").start("follow", "p")
    want(process.stderr.readline(), "Following p, at revision 0.\n", "what pads follow says first")
    wait_for("bob is there", lambda: len(owner.does(do="who", pad="p")["who"]) == 2)
    owner.does(do="close", pad="p")
    want(process.stderr.readline(), "The pad is closed.\n", "what it says of the closed pad")
    owner.does(do="reopen", pad="p")
    owner.does(do="insert", pad="p", rev=0, at=0, text="one")
    want((process.stderr.readline(), process.stdout.readline()), ("The pad is open again.\n", "1\tann@1\t1: {+one+}\n"), "what it says and prints then")
    process.terminate()
    process.wait()


def pads_says_that_an_older_server_closes_no_pads():
    async def play(server, run):
        from server import refusing

        server.scripted = refusing(102, lambda request: request["do"] in ("close", "reopen"))
        await run("close", "p", status=1, said="closes no pads")
        await run("reopen", "p", status=1, said="closes no pads")

    before_a_model(play)


def said_by(code, port, seconds=90):
    """What a program in Python prints, that the library is for."""
    environment = {**os.environ, "PYTHONPATH": f"{ROOT}/clients/python", "PYTHONDONTWRITEBYTECODE": "1"}
    done = subprocess.run([PYTHON, "-c", HEAD + code, str(port)], capture_output=True, text=True, env=environment, timeout=seconds)
    if done.returncode:
        raise Failed(f"the program ended with {done.returncode}: {done.stdout[-500:]} {done.stderr[-1_500:]}")
    return [json.loads(line) for line in done.stdout.splitlines()]


HEAD = """
import asyncio, json, sys, vindrughe
def to(name):
    return vindrughe.connect(f"tcp://127.0.0.1:{sys.argv[1]}", name=name, token=f"t{name}")
def told(*values):
    print(json.dumps(values), flush=True)
async def until(what, seconds=60):
    async with asyncio.timeout(seconds):
        while not what():
            await asyncio.sleep(0.02)
async def begin(ann, bob):
    pad = await ann.create("p")
    await ann.grant("bob", "write")
    return pad, await bob.join("p")
"""

PUT_OUT = """
async def main():
    async with to("ann") as ann, to("bob") as bob:
        hers, his = await begin(ann, bob)
        his.append("one ")
        await bob.saved()
        await ann.close_pad()
        told(ann.state, ann.is_closed, ann.right, ann.may_write, [tuple(pad) for pad in await ann.pads()])
        his.append("two ")
        await until(lambda: bob.state == "closed")
        told(bob.is_closed, bob.may_write, bob.is_unsent, his.text, hers.text)
        try:
            async with to("bob") as other:
                await other.join("p")
        except vindrughe.PadClosed as refusal:
            told(refusal.code, refusal.error, isinstance(refusal, vindrughe.Refused))
        await ann.reopen_pad()
        await bob.saved()
        await until(lambda: hers.text == his.text)
        await until(lambda: not bob.is_closed)
        told(bob.state, bob.may_write, ann.is_closed, hers.text)
asyncio.run(main())
"""

AT_ONCE = """
async def main():
    async with to("ann") as ann, to("bob") as bob:
        hers, his = await begin(ann, bob)
        await ann.close_pad()
        await ann.reopen_pad()
        his.append("one ")
        bob.comment(0, 3, "why?")
        await bob.saved()
        await until(lambda: hers.text == his.text)
        told(hers.text, [one.text for one in await hers.read_comments()], bob.kept.text, bob.state)
asyncio.run(main())
"""

OWNER = """
async def main():
    async with to("ann") as ann, to("ann") as other:
        pad = await ann.create("p")
        pad.append("one")
        await ann.saved()
        await other.join("p")
        await other.close_pad()
        refused = []
        ann.on(vindrughe.WordsRefused, lambda event: refused.append([event.refusal.code, type(event.refusal).__name__, event.words]))
        pad.append(" two")
        await until(lambda: refused)
        await until(lambda: ann.is_closed)
        told(refused, pad.text, ann.kept.text, ann.state)
        try:
            await ann.saved()
        except vindrughe.Unsaved as error:
            told(error.__cause__.code)
        await other.reopen_pad()
        pad.append(" three")
        await ann.saved()
        told((await pad.read_text())[1], (await pad.read_access()).is_closed)
asyncio.run(main())
"""

ANOTHER_PAD = """
async def main():
    async with to("ann") as ann, to("bob") as bob:
        await begin(ann, bob)
        await ann.close_pad()
        await until(lambda: bob.state == "closed")
        his = await bob.create("q")
        his.append("elsewhere")
        await bob.saved()
        told(bob.pad.name, bob.state, bob.is_closed, [tuple(pad) for pad in await bob.pads()])
asyncio.run(main())
"""

LEFT = """
async def main():
    async with to("ann") as ann, to("bob") as bob:
        hers, his = await begin(ann, bob)
        await ann.close_pad()
        his.append("one ")
        await until(lambda: bob.state == "closed")
        try:
            await bob.create("q")
        except vindrughe.Unsaved as error:
            told(type(error).__name__)
        async with asyncio.timeout(10):
            await bob.leave()
            told((await bob.create("q")).name, bob.state)
asyncio.run(main())
"""

A_VISIT = """
async def main():
    async with to("ann") as ann, to("bob") as bob:
        hers = await ann.create("p")
        await ann.grant("bob", "write")
        async with bob.visit("p") as visit:
            await ann.close_pad()
            try:
                await visit.read_text()
            except vindrughe.Refused as refusal:
                told(refusal.code)
        await ann.reopen_pad()
        pad = await bob.join("p")
        pad.append("again")
        await bob.saved()
        told(await hers.read_text())
asyncio.run(main())
"""


def played(code):
    server = Server()
    return said_by(code, server.port), server


def words_of_who_was_put_out_are_sent_when_the_pad_is_open_again():
    lines, server = played(PUT_OUT)
    want(lines[0], ["saved", True, "own", False, [["p", "own", 1, True]]], "the owner, who has closed the pad")
    want(lines[1], [True, False, True, "one two ", "one "], "who was put out, and has typed")
    want(lines[2], [330, "PadClosed", True], "the refusal of another session")
    want(lines[3], ["saved", True, False, "one two "], "both, when it is open again")
    want(server.author("ann", "p").does(do="runs", pad="p")["runs"], [["bob@1", 8]], "whose the words are")


def a_visit_that_was_ended_is_no_end():
    lines, _ = played(AT_ONCE)
    want(lines, [["one ", ["why?"], "", "saved"]], "the words and the comment of who was put out for a moment")


def what_an_owner_types_on_a_closed_pad_is_kept_for_the_owner():
    lines, _ = played(OWNER)
    want(lines, [[[[330, "PadClosed", " two"]], "one", " two", "saved"], [330], ["one three", False]], "what becomes of an owner's words")


def who_was_put_out_can_open_another_pad():
    lines, _ = played(ANOTHER_PAD)
    want(lines[0], ["q", "saved", False, [["p", "write", 0, True], ["q", "own", 1, False]]], "the other pad, and the list")


def who_was_put_out_with_unsent_words_leaves_them_first():
    lines, _ = played(LEFT)
    want(lines, [["Unsaved"], ["q", "saved"]], "another pad with unsent words in the closed one, and without that one")


def a_connection_that_was_put_out_is_given_up_for_a_join():
    lines, _ = played(A_VISIT)
    want(lines, [[310], [[1, "again"]]], "a request of the visit that was ended, and the text of who has joined again")


FUNCTIONS = [
    pads_closes_and_reopens, an_edit_of_a_pad_that_was_closed_is_kept, pads_follows_a_pad_that_is_closed_and_opened_again,
    pads_says_that_an_older_server_closes_no_pads, words_of_who_was_put_out_are_sent_when_the_pad_is_open_again, a_visit_that_was_ended_is_no_end,
    who_was_put_out_with_unsent_words_leaves_them_first, what_an_owner_types_on_a_closed_pad_is_kept_for_the_owner, who_was_put_out_can_open_another_pad,
    a_connection_that_was_put_out_is_given_up_for_a_join,
]
TESTS = [named(function, 120) for function in FUNCTIONS]
