"""Debian's nginx before a server, with TLS and the configuration that docs/RUNNING.md shows."""
import json
import os
import re
import shutil
import socket
import ssl
import subprocess
import time

from harness import ROOT, Failed, Test, put_files, want
from peers import free_ports
from scripts_test import PYTHON, script
from sockets import FIRST_STEPS, WAIT
from web_server import LONGEST, PING, PONG, TEXT, Socket, WebServer, files, frame, handshake_of, head_of, read_response

NGINX = "/usr/sbin/nginx"
MAKE_CERTIFICATE = "openssl req -x509 -newkey rsa:2048 -nodes -days 1 -subj /CN=pads.example -keyout key.pem -out certificate.pem"
# nginx's own surroundings, for one that is started in a folder by whoever runs the tests.
AROUND = """
daemon off;
pid nginx.pid;
error_log error.log;
events {}
http {
    access_log off;
    client_body_temp_path body;
    proxy_temp_path proxy;
    fastcgi_temp_path fastcgi;
    uwsgi_temp_path uwsgi;
    scgi_temp_path scgi;
%s
}
"""


def shown_configuration():
    """The `server { .. }` of docs/RUNNING.md."""
    with open(f"{ROOT}/docs/RUNNING.md", encoding="utf-8") as page:
        found = re.search(r"^    server \{\n(?:(?:    .*)?\n)*?    \}\n", page.read(), re.M)
    if not found:
        raise Failed("docs/RUNNING.md shows no configuration of nginx")
    return found[0]


def replaced(text, pairs):
    for old, new in pairs:
        if old not in text:
            raise Failed(f"the configuration in docs/RUNNING.md has no {old!r}")
        text = text.replace(old, new)
    return text


class Proxy:
    """nginx before a server, at a free port."""

    def __init__(self, server):
        if not shutil.which(NGINX):
            raise Failed(f"{NGINX} is not installed")
        subprocess.run(MAKE_CERTIFICATE.split(), check=True, capture_output=True)
        (self.port,) = free_ports(1)
        here = os.getcwd()
        shown = replaced(shown_configuration(), [
            ("listen 443 ssl", f"listen 127.0.0.1:{self.port} ssl"),
            ("127.0.0.1:8080", server.host),
            ("/etc/pads/certificate.pem", f"{here}/certificate.pem"),
            ("/etc/pads/key.pem", f"{here}/key.pem"),
        ])
        put_files((("nginx.conf", AROUND % shown),))
        self.process = subprocess.Popen([NGINX, "-p", here, "-c", "nginx.conf"], stdin=subprocess.DEVNULL, stderr=subprocess.PIPE)
        self.host = f"pads.example:{self.port}"
        self.context = ssl.create_default_context(cafile="certificate.pem")
        self.await_start()

    def await_start(self):
        end = time.monotonic() + WAIT
        while time.monotonic() < end and self.process.poll() is None:
            try:
                socket.create_connection(("127.0.0.1", self.port), timeout=WAIT).close()
                return
            except OSError:
                time.sleep(0.05)
        raise Failed(f"nginx has not started: {self.process.stderr.read(2_000) if self.process.poll() is not None else 'it is silent'}")

    def wrap(self, plain):
        return self.context.wrap_socket(plain, server_hostname="pads.example")

    def send(self, text):
        connection = self.wrap(socket.create_connection(("127.0.0.1", self.port), timeout=WAIT))
        connection.sendall(text.encode())
        return connection

    def request(self, text):
        return read_response(self.send(text))

    def status_of(self, text):
        """The status of a response after which nginx keeps the connection."""
        return int(self.send(text).makefile("rb").readline().split()[1])

    def open(self, origin=None):
        return Socket(self.port, f"Origin: {origin or f'https://{self.host}'}", host=self.host, wrap=self.wrap)


def nginx_serves_the_page_over_tls():
    server = WebServer("--unproved")
    proxy = Proxy(server)
    for path, text in files().items():
        response = proxy.request(head_of(f"GET {path} HTTP/1.1", f"Host: {proxy.host}", "Connection: close"))
        want((response.status, response.body == text), (200, True), f"the status of {path}, and that it is the file")
        direct = server.get(path)
        for name in ("content-type", "content-security-policy", "etag", "x-content-type-options"):
            want(response.fields[name], direct.fields[name], f"{name} of {path}")
        want("max-age=" in response.fields["strict-transport-security"], True, f"that {path} asks for TLS from now on")
    missing = proxy.request(head_of("GET /none HTTP/1.1", f"Host: {proxy.host}", "Connection: close"))
    want(missing.status, 404, "the status of no file")


def nginx_passes_the_socket_on():
    server = WebServer()
    proxy = Proxy(server)
    page = proxy.open()
    for asked, told in FIRST_STEPS:
        page.say(asked)
        want(page.read_text(), told, f"the answer to {asked}")
    revs = '{"do":"revs","pad":"p"}'
    page.say(revs + " " * (LONGEST - len(revs)))
    want(json.loads(page.read_text())["now"], 3, "the answer to the longest message")
    page.send(frame(PING, b"still there?"))
    want(page.read_frame(), (PONG, b"still there?"), "the answer to a ping")
    other = server.author("bob")
    page.does(do="grant", pad="p", author="bob", right="write")
    other.join("p")
    page.say('{"do":"changes","pad":"p","rev":3,"wait":30}')
    time.sleep(0.3)
    began = time.monotonic()
    other.does(do="insert", pad="p", rev=3, at=0, text="!")
    want(json.loads(page.read_text())["to"], 4, "to which revision")
    want(time.monotonic() - began < 2, True, "that a wait is answered at once through the proxy")
    page.send(frame(TEXT, b""))
    want(page.closing(), 1008, "the code after an empty message")


def nginx_serves_a_window_over_tls():
    proxy = Proxy(WebServer())
    script(PYTHON, "tls_window.py", f"https://127.0.0.1:{proxy.port}/")


def nginx_keeps_foreign_pages_out():
    proxy = Proxy(WebServer())
    for origin in ("https://evil.example", "null", f"http://evil.example:{proxy.port}"):
        want(proxy.status_of(handshake_of(proxy.host, f"Origin: {origin}")), 403, f"the status of a page of {origin}")
    proxy.open().close()


FUNCTIONS = [
    nginx_serves_the_page_over_tls,
    nginx_passes_the_socket_on,
    nginx_serves_a_window_over_tls,
    nginx_keeps_foreign_pages_out,
]

TESTS = [Test(f"web: {function.__name__.replace('_', ' ')}", function, 60) for function in FUNCTIONS]
