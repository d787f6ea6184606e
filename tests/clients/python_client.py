"""The library in clients/python: its own tests, its types, its README's bot, and the rounds of the model tests."""
import json
import os
import re
import subprocess
import sys

from harness import ROOT, Failed, Test, want
from js_client import code_of_readme, named
from scripts_test import NODE, PYTHON
from sockets import Server

HERE = os.path.dirname(os.path.realpath(__file__))
LIBRARY = os.path.join(ROOT, "clients", "python")


def run(*words, **more):
    """What a program prints; it has to end with status 0."""
    try:
        done = subprocess.run([*map(str, words)], capture_output=True, text=True, **more)
    except FileNotFoundError:
        raise Failed(f"{words[0]} is not installed") from None
    if done.returncode:
        raise Failed(f"{words[0]} ended with {done.returncode}: {(done.stdout + done.stderr)[-2_000:]}")
    return done.stdout


def its_own_tests_pass():
    environment = {**os.environ, "PYTHONDONTWRITEBYTECODE": "1"}
    done = subprocess.run([PYTHON, "-m", "unittest", "discover", "-s", "tests", "-t", "."], cwd=LIBRARY, env=environment, capture_output=True, text=True)
    passed = re.search(r"^Ran (\d+) tests", done.stderr, re.M)
    want((done.returncode, passed is not None and int(passed[1]) > 15), (0, True), f"that all pass: {done.stderr[-2_000:]}")


def mypy_finds_nothing():
    want(run("mypy", "--strict", "--cache-dir", os.getcwd(), f"{LIBRARY}/vindrughe"), "Success: no issues found in %d source files\n" % source_files(), "what mypy says")


def source_files():
    return sum(name.endswith(".py") for _, _, names in os.walk(f"{LIBRARY}/vindrughe") for name in names)


def python_asks_what_javascript_asks(first=1, last=60):
    """Round by round of the model test: each request of each client at its moment, and the text in the end."""
    sys.path[:0] = [LIBRARY, HERE, os.path.join(ROOT, "tests", "conformance")]
    import simulation

    lines = run(NODE, f"{HERE}/rounds.mjs", first, last).splitlines()
    want(len(lines), last - first + 1, "how many rounds there are")
    asked = 0
    for line in lines:
        theirs, ours = json.loads(line), simulation.play(json.loads(line)["number"])
        number = theirs["number"]
        want(ours.model.text(ours.model.now), theirs["end"], f"the text at the end of round {number}")
        for page, other in zip(ours.pages, theirs["pages"], strict=True):
            want(page.author, other["author"], f"an author of round {number}")
            for mine, request in zip([list(one) for one in page.asked], other["asked"]):
                want(mine, request, f"a request of {page.author} in round {number}")
            want(len(page.asked), len(other["asked"]), f"how often {page.author} asks in round {number}")
            asked += len(page.asked)
    want(asked > 60 * (last - first), True, f"that much is asked: {asked}")


def the_bot_of_the_readme_runs():
    server = Server(stderr=subprocess.DEVNULL)
    owner = server.author("ann")
    owner.does(do="create", pad="minutes")
    owner.does(do="grant", pad="minutes", author="bob", right="write")
    owner.does(do="insert", pad="minutes", rev=0, at=0, text="Minutes\n")
    code = code_of_readme(f"{LIBRARY}/README.md", "python")
    want(len([line for line in code.splitlines() if line.strip()]) <= 24, True, "that the bot has some twenty lines")
    for passage, other in (("tcp://127.0.0.1:7878", f"tcp://127.0.0.1:{server.port}"), ('name="bot", token="the token of bot"', 'name="bob", token="tbob"')):
        want(code.count(passage), 1, f"how often the bot says {passage}")
        code = code.replace(passage, other)
    with open("bot.py", "w", encoding="utf-8") as file:
        file.write(code)
    environment = {**os.environ, "PYTHONPATH": LIBRARY, "PYTHONDONTWRITEBYTECODE": "1"}
    bot = subprocess.Popen([PYTHON, "-u", "bot.py"], env=environment, stdout=subprocess.PIPE, text=True)
    want([bot.stdout.readline(), bot.stdout.readline()], ["0 decisions\n", "Minutes\n"], "what the bot prints")
    owner.does(do="insert", pad="minutes", rev=2, at=len("0 decisions\nMinutes\n"), text="DECIDED: to paint it\n")
    owner.does(do="changes", pad="minutes", rev=3, wait=15)
    want(owner.does(do="text", pad="minutes")["text"], "1 decisions\nMinutes\nDECIDED: to paint it\n", "the text that the bot keeps up to date")
    want(owner.does(do="runs", pad="minutes")["runs"][0], ["bob@1", len("1 decisions\n")], "who wrote the first line")
    run("mypy", "--strict", "--cache-dir", os.getcwd(), "bot.py", env={**os.environ, "MYPYPATH": LIBRARY})


TESTS = [
    named(its_own_tests_pass, 60),
    named(mypy_finds_nothing, 120),
    named(python_asks_what_javascript_asks, 120),
    named(the_bot_of_the_readme_runs, 60),
]

# These take minutes: tests/run --long.
LONG_TESTS = [named(lambda: python_asks_what_javascript_asks(1, 1_000), 600, "1000 rounds of Python ask what JavaScript asks")]
