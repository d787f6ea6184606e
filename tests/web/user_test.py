"""Users whom a proxy has logged in: nginx with basic authentication, and before a stand-in for a single sign-on, with the
configurations that docs/RUNNING.md shows; and what a server takes from whom."""
import http.server
import json
import os
import random
import re
import shutil
import socket
import subprocess
import threading
import time
from base64 import b64encode
from hashlib import sha1
from http.cookies import SimpleCookie

from harness import ROOT, Case, Failed, Has, Test, put_files, want
from peers import free_ports
from proxy_test import AROUND, NGINX, replaced
from scripts_test import NODE, PYTHON, script
from sockets import WAIT
from web_server import Socket, WebServer, head_of, read_response

ACCOUNTS = (("accounts", """author ann tann-long-enough
person ann ann@school.example Ann Example
person bob-b bob Bob Builder
person carl - Carl
"""),)
USERS = "--user-header X-User"
PASSWORDS = "".join(f"{name}:{{SHA}}{b64encode(sha1(f'secret-of-{name}'.encode()).digest()).decode()}\n" for name in ("bob", "mallory"))
HAVE_SESSION = {"code": 202, "error": "HaveSession", "ok": False}
NO_SESSION = {"code": 200, "error": "NoSession", "ok": False}
CREATED = {"now": 0, "ok": True, "visit": 1}


def shown_configurations():
    """Each `server { .. }` of the section of docs/RUNNING.md about users of a proxy."""
    with open(f"{ROOT}/docs/RUNNING.md", encoding="utf-8") as page:
        section = page.read().partition("\n## Logging in by a proxy\n")[2].partition("\n## ")[0]
    found = re.findall(r"^    server \{\n(?:(?:    .*)?\n)*?    \}\n", section, re.M)
    if len(found) != 2:
        raise Failed(f"docs/RUNNING.md shows {len(found)} configurations of nginx for users, and not two")
    return found


class Nginx:
    """nginx with this configuration before a server, at a free port."""

    def __init__(self, server, shown, *pairs):
        if not shutil.which(NGINX):
            raise Failed(f"{NGINX} is not installed")
        (self.port,) = free_ports(1)
        here = os.getcwd()
        shown = replaced(shown, [("listen 127.0.0.1:8000", f"listen 127.0.0.1:{self.port}"), ("127.0.0.1:8080", server.host), *pairs])
        put_files((("nginx.conf", AROUND % shown), ("users", PASSWORDS)))
        os.chmod(here, 0o711)  # where root runs the tests, nobody reads the passwords
        self.process = subprocess.Popen([NGINX, "-p", here, "-c", "nginx.conf"], stdin=subprocess.DEVNULL, stderr=subprocess.PIPE)
        self.host = f"127.0.0.1:{self.port}"
        end = time.monotonic() + WAIT
        while time.monotonic() < end and self.process.poll() is None:
            try:
                socket.create_connection(("127.0.0.1", self.port), timeout=WAIT).close()
                return
            except OSError:
                time.sleep(0.05)
        raise Failed(f"nginx has not started: {self.process.stderr.read(2_000) if self.process.poll() is not None else 'it is silent'}")

    def get(self, path, *fields):
        connection = socket.create_connection(("127.0.0.1", self.port), timeout=WAIT)
        connection.sendall(head_of(f"GET {path} HTTP/1.0", f"Host: {self.host}", *fields).encode())
        return read_response(connection)

    def open(self, *fields):
        return Socket(self.port, f"Origin: http://{self.host}", *fields, host=self.host)


class SocketAt(Socket):
    """A socket that is asked for at another target."""

    def __init__(self, port, target):
        self.target = target.encode()
        super().__init__(port)

    def send(self, data):
        super().send(data.replace(b"GET /socket ", b"GET %s " % self.target))


def basic(name, password=None):
    word = b64encode(f"{name}:{password or f'secret-of-{name}'}".encode()).decode()
    return f"Authorization: Basic {word}"


def said(response):
    return json.loads(response.body)


def is_signed_in(page, author, pad):
    """The socket's session is this author's from the start, and stays so whatever it says."""
    want(page.ask(do="create", pad=pad), CREATED, f"the answer to {author}'s first request")
    want(page.ask(do="hello", name="ann", token="tann-long-enough"), HAVE_SESSION, "the answer to hello")
    name = author.split("@")[0]
    want(page.ask(do="rights", pad=pad)["rights"], [[name, "own"]], f"that the pad is {name}'s")


def basic_authentication():
    server = WebServer(USERS, accounts=ACCOUNTS)
    proxy = Nginx(server, shown_configurations()[0], ("/etc/pads/users", f"{os.getcwd()}/users"))
    want(proxy.get("/").status, 401, "the status without a password")
    want(proxy.get("/me", basic("bob", "wrong")).status, 401, "the status with a wrong password")
    want(proxy.get("/", basic("bob")).status, 200, "the status of the page")
    want(said(proxy.get("/me", basic("bob"))), {"author": "bob-b@1", "ok": True}, "who bob is")
    is_signed_in(proxy.open(basic("bob")), "bob-b@1", "bobs")
    # nginx sets the field itself: what a browser puts there goes no further.
    want(said(proxy.get("/me", basic("bob"), "X-User: ann@school.example")), {"author": "bob-b@1", "ok": True}, "who bob is with a field of his own")
    is_signed_in(proxy.open(basic("bob"), "X-User: ann@school.example"), "bob-b@1", "bobs2")


def a_user_without_a_line_is_refused_in_words():
    server = WebServer(USERS, accounts=ACCOUNTS)
    proxy = Nginx(server, shown_configurations()[0], ("/etc/pads/users", f"{os.getcwd()}/users"))
    refused = proxy.get("/me", basic("mallory"))
    want(refused.status, 403, "the status of somebody without a line")
    want('"mallory"' in refused.body.decode() and "no person line" in refused.body.decode(), True, f"the words: {refused.body!r}")
    want(server.handshake("X-User: mallory").status, 403, "the status of the handshake")
    # `-` in the file says that there is no ID, so it is nobody's; a name is no ID, nor is a part of one.
    for user in ("-", "carl", "bob-b", "bo", "bobb", "BOB", "ann@school", ""):
        want(server.handshake(f"X-User: {user}").status, 403, f"the status of {user!r}")
    want(server.get("/", "X-User: mallory").status, 200, "the status of the page, which everybody may load")


class SignOn(http.server.BaseHTTPRequestHandler):
    """A stand-in for a single sign-on: /oauth2/start sets a cookie for whoever asks, and /oauth2/auth says whose it is."""

    def do_GET(self):
        path, _, who = self.path.partition("?who=")
        cookie = SimpleCookie(self.headers.get("Cookie", "")).get("session")
        if path == "/oauth2/start":
            self.answer(302, ("Set-Cookie", f"session={who}; Path=/"), ("Location", "/"))
        elif path == "/oauth2/auth" and cookie:
            self.answer(202, ("X-Auth-Request-Email", cookie.value))
        else:
            self.answer(401 if path == "/oauth2/auth" else 403)

    def answer(self, status, *fields):
        self.send_response(status)
        for name, value in (*fields, ("Content-Length", "0")):
            self.send_header(name, value)
        self.end_headers()

    def log_message(self, *_):
        pass


def single_sign_on():
    server = WebServer(USERS, accounts=ACCOUNTS)
    sign_on = http.server.ThreadingHTTPServer(("127.0.0.1", 0), SignOn)
    threading.Thread(target=sign_on.serve_forever, daemon=True).start()
    proxy = Nginx(server, shown_configurations()[1], ("127.0.0.1:4180", f"127.0.0.1:{sign_on.server_port}"))
    want(proxy.get("/").status, 403, "the status without a session, which is that of the sign-in page")
    want(proxy.get("/me", "X-User: ann@school.example").status, 403, "the status with a field of one's own alone")
    started = proxy.get("/oauth2/start?who=ann@school.example")
    want((started.status, started.fields["location"]), (302, "/"), "where the sign-on leads")
    cookie = f"Cookie: {started.fields['set-cookie'].partition(';')[0]}"
    want(proxy.get("/", cookie).status, 200, "the status of the page")
    want(said(proxy.get("/me", cookie, "X-User: bob")), {"author": "ann@1", "ok": True}, "who ann is")
    is_signed_in(proxy.open(cookie, "X-User: bob"), "ann@1", "anns")
    want(proxy.get("/me", "Cookie: session=nobody@school.example").status, 403, "the status of somebody without a line")


def a_window_behind_a_single_sign_on():
    server = WebServer(USERS, accounts=ACCOUNTS)
    sign_on = http.server.ThreadingHTTPServer(("127.0.0.1", 0), SignOn)
    threading.Thread(target=sign_on.serve_forever, daemon=True).start()
    proxy = Nginx(server, shown_configurations()[1], ("127.0.0.1:4180", f"127.0.0.1:{sign_on.server_port}"))
    script(PYTHON, "user_window.py", f"http://{proxy.host}/")


def a_page_is_its_user_through_broken_connections():
    script(NODE, "users_test.mjs")


def only_the_field_of_a_proxy_counts():
    server = WebServer(USERS, accounts=ACCOUNTS)
    want(server.handshake("X-User: bob", "X-User: bob").status, 403, "the status of two fields")
    want(server.handshake("X-User: bob", "x-user: ann@school.example").status, 403, "the status of two users")
    want(said(server.get("/me")), NO_SESSION, "who nobody is")
    for fields in ((), ("Remote-User: bob",), ("X-Users: bob",), ("Cookie: X-User=bob",), (basic("bob"),)):
        page = server.open(*fields)
        want(page.ask(do="create", pad="p"), NO_SESSION, f"the answer to a socket with {fields}")
        want(page.ask(do="hello", name="ann", token="tann-long-enough"), {"author": "ann@1", "ok": True}, "a log-in by token")
    for target in ("/socket?X-User=bob", "/socket?user=bob"):
        want(SocketAt(server.web, target).ask(do="create", pad="p"), NO_SESSION, f"the answer at {target}")
    # Whatever a message says, it is no field.
    page = server.open()
    want(page.ask(do="create", pad="p", user="bob", **{"X-User": "bob"})["code"] in (200, 400), True, "a message with a field")
    want(server.get("/me", method="HEAD").status, 400, "the status of HEAD /me")
    want(server.get("/me", method="POST").status, 405, "the status of POST /me")


def a_field_from_elsewhere_is_refused():
    server = WebServer(f"{USERS} --trusted-proxy 127.0.0.7,::1", accounts=ACCOUNTS)
    for path in ("/", "/me", "/kept", "/style.css", "/none"):
        want(server.get(path, "X-User: bob").status, 403, f"the status of {path} with the field from another address")
        want(server.get(path).status != 403, True, f"that {path} without it is answered")
    want(server.handshake("X-User: bob").status, 403, "the status of a handshake with the field")
    want(server.handshake("X-User:").status, 403, "the status of a handshake with an empty field")
    want(server.handshake("x-uSER: bob").status, 403, "the status of a handshake with the field in other letters")
    trusted = socket.create_connection(("127.0.0.1", server.web), timeout=WAIT, source_address=("127.0.0.7", 0))
    trusted.sendall(head_of("GET /me HTTP/1.1", f"Host: {server.host}", "X-User: bob").encode())
    want(said(read_response(trusted)), {"author": "bob-b@1", "ok": True}, "who bob is, by a trusted proxy")


def without_the_option_no_field_counts():
    server = WebServer(accounts=ACCOUNTS)
    want(said(server.get("/me", "X-User: bob")), NO_SESSION, "who bob is")
    page = server.open("X-User: bob")
    want(page.ask(do="create", pad="p"), NO_SESSION, "the answer to a socket with a field")


def log_ins_by_a_proxy_are_logged():
    server = WebServer(f"{USERS} --log-access", accounts=ACCOUNTS, stderr=subprocess.PIPE)
    server.get("/me", "X-User: bob")
    want(server.handshake("X-User: mallory").status, 403, "the status of mallory")
    page = server.open("X-User: bob")
    want(page.ask(do="create", pad="p"), CREATED, "the answer to bob")
    line = server.process.stderr.readline().decode()
    found = re.fullmatch(r".* connection \d+ from 127\.0\.0\.1:\d+: bob-b has logged in by the proxy\n", line)
    want(bool(found), True, f"the line {line!r}")


def users_need_no_place_among_those_who_have_not_logged_in():
    """More signed-in sockets than clients that may be there without a log-in."""
    server = WebServer(f"{USERS} --clients 40", accounts=ACCOUNTS)
    pages = [server.open("X-User: bob") for _ in range(30)]
    for page in pages:
        want(page.ask(do="pads"), {"ok": True, "pads": []}, "the list of pads")
    server.open("X-User: bob").close()


def the_file_changes_under_a_user():
    server = WebServer(USERS, accounts=ACCOUNTS)
    page = server.open("X-User: bob")
    want(page.ask(do="create", pad="p"), CREATED, "the answer to bob")
    put_files((("accounts", ACCOUNTS[0][1].replace("person bob-b bob Bob Builder\n", "person dan bob Dan\n")),))
    end = time.monotonic() + 30
    while said(server.get("/me", "X-User: bob")) != {"author": "dan@1", "ok": True}:
        want(time.monotonic() < end, True, "that the file is read again")
        time.sleep(0.2)
    want(page.ask(do="hello", name="dan", token="x"), HAVE_SESSION, "that the session stays")
    want(page.ask(do="rights", pad="p")["rights"], [["bob-b", "own"]], "whose it is")
    want(server.open("X-User: bob").ask(do="join", pad="p")["code"], 312, "the answer to dan, who has no right")


# Users, and the authors that they are with --any-user, by the table of docs/RUNNING.md.
ANYBODY = [
    ("ann@school.example", "ann"), ("bob", "bob-b"), ("mallory", "mallory"), ("7", "7"), ("bob-b", "bob--b"),
    ("ann.b@school.example", "ann-pb-tschool-pexample"), ("a_b+c", "a-ub-sc"), ("Ann", "-x41nn"), ("a b", "a-x20b"), ("a/b", "a-x2fb"),
    ("~!", "-x7e-x21"), ("-pb", "--pb"), ("é", "-xc3-xa9"), ("a" * 32, "a" * 32), ("-" * 16, "-" * 32), ("@" * 16, "-t" * 16),
]
NO_NAME, TAKEN = "no name of an author", "to somebody else"


def any_user_is_an_author():
    server = WebServer(f"{USERS} --any-user", accounts=ACCOUNTS)
    for user, name in ANYBODY:
        want(said(server.get("/me", f"X-User: {user}")), {"author": f"{name}@1", "ok": True}, f"who {user!r} is")
    is_signed_in(server.open("X-User: zoe@school.example"), "zoe-tschool-pexample@1", "zoes")
    # A socket without the field, and one of somebody who has a token, are as ever.
    page = server.open()
    want(page.ask(do="create", pad="p"), NO_SESSION, "the answer to a socket without the field")
    want(page.ask(do="hello", name="zoe", token=""), {"code": 201, "error": "BadToken", "ok": False}, "a log-in without a line")
    want(page.ask(do="hello", name="ann", token="tann-long-enough"), {"author": "ann@1", "ok": True}, "a log-in by token")


def no_two_users_are_one_author():
    server = WebServer(f"{USERS} --any-user", accounts=ACCOUNTS)
    rng, users = random.Random(58), set()
    while len(users) < 300:
        users.add("".join(rng.choice("abp-.@_+xA416tu") for _ in range(rng.randint(1, 5))))
    names = {}
    for user in sorted(users):
        author = said(server.get("/me", f"X-User: {user}"))["author"]
        want(names.setdefault(author, user), user, f"the user who is {author}")
        want(bool(re.fullmatch("[a-z0-9-]{1,32}@1", author)), True, f"that {author} can be an author's name")


def users_without_a_name_are_refused():
    server = WebServer(f"{USERS} --any-user", accounts=ACCOUNTS, stderr=subprocess.PIPE)
    for user, words in (("", NO_NAME), ("a" * 33, NO_NAME), ("." * 17, NO_NAME), ("A" * 9, NO_NAME), ("ann", TAKEN), ("carl", TAKEN)):
        refused = server.get("/me", f"X-User: {user}")
        want(refused.status, 403, f"the status of {user!r}")
        want(f'"{user}"' in refused.body.decode() and words in refused.body.decode(), True, f"the words for {user!r}: {refused.body!r}")
        want(server.handshake(f"X-User: {user}").status, 403, f"the status of a handshake of {user!r}")
    line = server.process.stderr.readline().decode()
    told = r".* warning: connection \d+: a user of the proxy is refused: the accounts file gives the name ann to somebody else\n"
    want(bool(re.fullmatch(told, line)), True, f"the line {line!r}")
    server.process.stderr.close()


def names_of_users_are_shown():
    server = WebServer(f"{USERS} --any-user", accounts=ACCOUNTS)
    asked = ["zoe-tschool-pexample", "zoe", "ann", "carl", "-x41nn", "-x61", "-x4", "a--b", "-x07", "-xc3", "-xc3-xa9", "a-"]
    shown = [["zoe-tschool-pexample", "zoe@school.example"], ["ann", "Ann Example"], ["carl", "Carl"], ["-x41nn", "Ann"],
             ["a--b", "a-b"], ["-xc3-xa9", "é"]]
    page = server.open("X-User: bob")
    people = page.ask(do="people", authors=asked)["people"]
    want([[person["author"], person["name"]] for person in people], shown, "what is shown")
    plain = WebServer(USERS, 2, accounts=ACCOUNTS)
    people = plain.open("X-User: bob").ask(do="people", authors=asked)["people"]
    want([person["author"] for person in people], ["ann", "carl"], "of whom something is shown without the option")


def any_user_stays_one_when_the_file_changes():
    server = WebServer(f"{USERS} --any-user", accounts=ACCOUNTS)
    page = server.open("X-User: eve@x")
    want(page.ask(do="create", pad="p"), CREATED, "the answer to eve")
    put_files((("accounts", ACCOUNTS[0][1] + "person eve-tx - Another Eve\nperson dan dan@x Dan\n"),))
    end = time.monotonic() + 30
    while said(server.get("/me", "X-User: dan@x")) != {"author": "dan@1", "ok": True}:
        want(time.monotonic() < end, True, "that the file is read again")
        time.sleep(0.2)
    want(page.ask(do="rights", pad="p")["rights"], [["eve-tx", "own"]], "that the session stays")
    want(server.handshake("X-User: eve@x").status, 403, "the status of one whose name is somebody else's now")
    want(said(server.get("/me", "X-User: fay@x")), {"author": "fay-tx@1", "ok": True}, "who fay is after the change")


FUNCTIONS = [
    basic_authentication,
    a_user_without_a_line_is_refused_in_words,
    single_sign_on,
    a_window_behind_a_single_sign_on,
    a_page_is_its_user_through_broken_connections,
    only_the_field_of_a_proxy_counts,
    a_field_from_elsewhere_is_refused,
    without_the_option_no_field_counts,
    log_ins_by_a_proxy_are_logged,
    users_need_no_place_among_those_who_have_not_logged_in,
    the_file_changes_under_a_user,
    any_user_is_an_author,
    no_two_users_are_one_author,
    users_without_a_name_are_refused,
    names_of_users_are_shown,
    any_user_stays_one_when_the_file_changes,
]

LISTEN_WEB = "--listen 127.0.0.1:0 --replica 1 --accounts accounts --web 127.0.0.1:0"


def misuse(name, args, *parts):
    return Case(f"web: users: {name}", args, status=2, stderr=Has(*parts), files=ACCOUNTS)


CASES = [
    misuse("--user-header with --stdin", "--stdin --replica 1 --user-header X-User", "--user-header", "--web"),
    misuse("--user-header without --web", "--listen 127.0.0.1:0 --replica 1 --accounts accounts --user-header X-User", "--user-header", "--web"),
    misuse("--trusted-proxy with --stdin", "--stdin --replica 1 --trusted-proxy 10.0.0.7", "--trusted-proxy", "--user-header"),
    misuse("--trusted-proxy without --user-header", f"{LISTEN_WEB} --trusted-proxy 10.0.0.7", "--trusted-proxy", "--user-header"),
    misuse("--any-user with --stdin", "--stdin --replica 1 --any-user", "--any-user", "--user-header"),
    misuse("--any-user without --user-header", f"{LISTEN_WEB} --any-user", "--any-user", "--user-header"),
    misuse("--any-user with a value", f"{LISTEN_WEB} --user-header X-User --any-user=yes", "--any-user"),
    misuse("--user-header without a name", f"{LISTEN_WEB} --user-header", "--user-header"),
    misuse("--user-header twice", f"{LISTEN_WEB} --user-header A --user-header B", "--user-header"),
    *(misuse(f"the header {name!r}", f"{LISTEN_WEB} --user-header={name}", "is not the name of a header", "X-Forwarded-User")
      for name in ("", "X:User", "X.User", "User/1", "Jörg")),
    *(misuse(f"the proxies {text!r}", f"{LISTEN_WEB} --user-header X-User --trusted-proxy={text}", "is not an IP address", "2001:db8::7")
      for text in ("", "localhost", "10.0.0.0/8", "10.0.0.7:80", "10.0.0", "[::1]", "10.0.0.7,", "10.0.0.7;10.0.0.8", "256.0.0.1", ":::1")),
    misuse("17 proxies", f"{LISTEN_WEB} --user-header X-User --trusted-proxy={','.join(f'10.0.0.{n}' for n in range(17))}", "more than 16 addresses"),
]

TESTS = [*[case.test() for case in CASES], *[Test(f"web: users: {function.__name__.replace('_', ' ')}", function, 60) for function in FUNCTIONS]]
