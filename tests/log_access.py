"""The log of who has logged in, and from where."""
import re
import subprocess

from harness import Test, want
from sockets import Server

ACCOUNTS = (("accounts", "author ann tann-long-enough\nauthor bob tbob-long-enough\npeer 2 secret-of-two 127.0.0.1:1\n"),)
LOGGED = r"\d{4}-\d\d-\d\dT\d\d:\d\d:\d\dZ pad_server: note: connection (\d+) from 127\.0\.0\.1:(\d+): (.*) has logged in\n"


def logged(server):
    """Of the next line about a log-in: the connection, the port that it came from, and who logged in."""
    while True:
        line = server.process.stderr.readline().decode()
        found = re.fullmatch(LOGGED, line)
        if found is not None:
            return found.groups()
        want(line != "" and "logged in" not in line, True, f"a line of another form: {line!r}")


def each_log_in_is_logged():
    server = Server("--log-access", accounts=ACCOUNTS, stderr=subprocess.PIPE)
    greetings = [
        ({"do": "hello", "name": "ann", "token": "tann-long-enough"}, "ann"),
        ({"do": "hello", "name": "bob", "token": "tbob-long-enough"}, "bob"),
        ({"do": "peer", "number": 2, "token": "secret-of-two", "version": 2}, "peer 2"),
        ({"do": "hello", "name": "ann", "token": "tann-long-enough"}, "ann"),
    ]
    for number, (greeting, who) in enumerate(greetings):
        client = server.connect()
        # A wrong token before, and what is asked without a log-in, are no log-ins.
        want(client.ask(do="text", pad="p")["code"], 200, "the answer to who has not logged in")
        want(client.ask(do="hello", name="ann", token="wrong")["code"], 201, "the answer to a wrong token")
        want(client.ask(**greeting)["ok"], True, f"the log-in of {who}")
        want(client.ask(**greeting)["code"], 202, "a second log-in")
        port = client.socket.getsockname()[1]
        want(logged(server)[1:], (str(port), who), f"the log-in {number}")


def without_the_option_nobody_is_logged():
    server = Server("--connections 1", accounts=ACCOUNTS, stderr=subprocess.PIPE)
    client = server.connect()
    want(client.ask(do="hello", name="ann", token="tann-long-enough")["ok"], True, "the log-in of ann")
    client.close()
    want("logged in" in server.process.stderr.read().decode(), False, "that a log-in is told")


TESTS = [
    Test("log access: each log-in is logged", each_log_in_is_logged, 60),
    Test("log access: without the option nobody is logged", without_the_option_nobody_is_logged),
]
