"""The library in clients/js: its README's bot in Node, its types, and its bindings in a browser."""
import os
import re
import subprocess

from harness import ROOT, Failed, Test, path_of, want
from sockets import Server
from scripts_test import NODE, PYTHON, script

HERE = os.path.dirname(os.path.realpath(__file__))
LIBRARY = os.path.join(ROOT, "clients", "js")
TSC = ["tsc", "--strict", "--noEmit", "--target", "es2020", "--lib", "es2021,dom"]
MODES = {"sample.mts": ["--module", "node16", "--moduleResolution", "node16"], "bundled.ts": ["--module", "es2020", "--moduleResolution", "node"]}
BUNDLED = 'import { connect } from "vindrughe";\nconnect("ws://a", { name: "a", token: "b" }).then((session) => session.join("a"));\n'


def install():
    """The library as a dependency of the test's folder."""
    os.makedirs("node_modules", exist_ok=True)
    os.symlink(LIBRARY, "node_modules/vindrughe")


def code_of_readme(path, language):
    """The first block of code in a page that is in this language."""
    with open(path, encoding="utf-8") as page:
        return re.search(rf"^```{language}\n(.*?)^```", page.read(), re.M | re.S)[1]


def the_bot_of_the_readme_runs_in_node():
    install()
    server = Server(stderr=subprocess.DEVNULL)
    owner = server.author("ann")
    owner.does(do="create", pad="minutes")
    owner.does(do="grant", pad="minutes", author="bob", right="write")
    owner.does(do="insert", pad="minutes", rev=0, at=0, text="Minutes\n")
    code = code_of_readme(f"{LIBRARY}/README.md", "js")
    want(len([line for line in code.splitlines() if line.strip()]) <= 22, True, "that the bot has some twenty lines")
    for passage, other in (("tcp://127.0.0.1:7878", f"tcp://127.0.0.1:{server.port}"), ('name: "bot", token: "the token of bot"', 'name: "bob", token: "tbob"')):
        want(code.count(passage), 1, f"how often the bot says {passage}")
        code = code.replace(passage, other)
    with open("bot.mjs", "w", encoding="utf-8") as file:
        file.write(code)
    bot = subprocess.Popen([NODE, "bot.mjs"], stdout=subprocess.PIPE, text=True)
    want([bot.stdout.readline(), bot.stdout.readline()], ["0 decisions\n", "Minutes\n"], "what the bot prints")
    owner.does(do="insert", pad="minutes", rev=2, at=len("0 decisions\nMinutes\n"), text="DECIDED: to paint it\n")
    text = owner.does(do="changes", pad="minutes", rev=3, wait=15) and owner.does(do="text", pad="minutes")["text"]
    want(text, "1 decisions\nMinutes\nDECIDED: to paint it\n", "the text that the bot keeps up to date")
    runs = owner.does(do="runs", pad="minutes")["runs"]
    want(runs[0], ["bob@1", len("1 decisions\n")], "who wrote the first line")


def tsc_takes_what_users_write():
    install()
    with open(f"{HERE}/types_sample.ts", encoding="utf-8") as file:
        sample = file.read()
    for name, text in (("sample.mts", sample), ("bundled.ts", BUNDLED)):
        with open(name, "w", encoding="utf-8") as file:
            file.write(text)
        try:
            done = subprocess.run([*TSC, *MODES[name], name], capture_output=True, text=True)
        except FileNotFoundError:
            raise Failed("tsc is not installed") from None
        want((done.stdout, done.returncode), ("", 0), f"what tsc says of {name}")


def the_types_name_what_is_there():
    script(NODE, f"{HERE}/types_test.mjs")


def editors_in_a_browser():
    script(PYTHON, f"{HERE}/bindings_test.py", path_of("pad_server"))


def named(function, seconds, name=None):
    return Test(f"clients: {name or function.__name__.replace('_', ' ')}", function, seconds)


TESTS = [
    named(the_bot_of_the_readme_runs_in_node, 40),
    named(the_types_name_what_is_there, 20),
    named(tsc_takes_what_users_write, 60),
    named(editors_in_a_browser, 300),
]
