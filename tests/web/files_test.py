"""The page's files over HTTP: what is served with which fields, and which requests are refused with which status."""
import re
import socket
import subprocess
import time

from harness import Case, Has, Test, want
from sockets import ACCOUNTS, LISTEN, WAIT
from web_server import ACCEPT, WebServer, files, handshake_of, head_of, read_response

KINDS = {"/": "text/html", ".css": "text/css", ".js": "text/javascript", ".svg": "image/svg+xml", ".txt": "text/plain"}
# What a page may do: load its own files and open its own socket.
POLICY = {
    "default-src": "'none'", "script-src": "'self'", "style-src": "'self'", "img-src": "'self'", "connect-src": "'self'",
    "base-uri": "'none'", "form-action": "'none'", "frame-ancestors": "'none'",
}
FIELDS = {
    "x-content-type-options": "nosniff", "referrer-policy": "no-referrer", "cache-control": "no-cache", "connection": "close",
    "cross-origin-opener-policy": "same-origin", "cross-origin-resource-policy": "same-origin",
}
LONGEST_HEAD, MOST_FIELDS = 8_192, 64


def policy_of(response):
    return dict(part.split(" ", 1) for part in response.fields["content-security-policy"].split("; "))


def each_file_is_served():
    server = WebServer("--unproved")
    for path, text in files().items():
        response = server.get(path)
        kind = KINDS["/" if path == "/" else path[path.rindex(".") :]]
        want((response.status, response.body == text), (200, True), f"the status of {path}, and that it is the file of web/")
        want(response.fields["content-type"], f"{kind}; charset=utf-8", f"the type of {path}")
        want(response.fields["content-length"], str(len(text)), f"the length of {path}")
        want({name: response.fields.get(name) for name in FIELDS}, FIELDS, f"the fields of {path}")


def a_proved_program_does_not_say_that_it_is_unproved():
    response = WebServer().get("/unproved.txt")
    want((response.status, response.body), (200, b""), "the status and the text of /unproved.txt")


def the_policy_allows_the_page_alone_and_nothing_unsafe():
    server = WebServer()
    for path in files():
        response = server.get(path)
        want(policy_of(response), POLICY, f"the policy of {path}")
        want("unsafe" in response.fields["content-security-policy"], False, "that something unsafe is allowed")
    page = server.get("/").body.decode()
    want(re.findall(r"<script(?![^>]*\bsrc=)|<style|\sstyle=|\son[a-z]+=|javascript:", page), [], "scripts and styles in the page itself")
    away = [address for address in re.findall(r"(?:src|href)=\"([^\"]*)\"", page) if not re.match(r"[/#](?!/)", address)]
    want(away, [], "addresses elsewhere")


def a_head_alone_has_the_same_fields():
    server = WebServer()
    for path in files():
        whole, head = server.get(path), server.get(path, method="HEAD")
        want((head.status, head.fields, head.body), (200, whole.fields, b""), f"the answer to HEAD {path}")
    want((server.get("/none", method="HEAD").status, server.get("/none", method="HEAD").body), (404, b""), "HEAD of no file")


def a_known_tag_is_answered_304():
    server = WebServer()
    tags = {path: server.get(path).fields["etag"] for path in files()}
    want(len(set(tags.values())), len(tags), "different tags")
    for path, tag in tags.items():
        for known in [tag, f'"other", {tag}', f"W/{tag}", "*"]:
            response = server.get(path, f"If-None-Match: {known}")
            want((response.status, response.body, response.fields["etag"]), (304, b"", tag), f"the answer to {known} of {path}")
    want(server.get("/", 'If-None-Match: "other"').status, 200, "the status for another tag")
    want(server.get("/", f"If-None-Match: {tags['/style.css']}").status, 200, "the status for another file's tag")


HOST = "Host: a"
PADDING = "x" * LONGEST_HEAD


def whole_head(size):
    """A request whose head has so many bytes."""
    lines = head_of("GET / HTTP/1.1", HOST, "X: ")
    return lines.replace("X: ", "X: " + "x" * (size - len(lines)))


REFUSALS = [
    (404, head_of("GET /none HTTP/1.1", HOST)),
    (404, head_of("GET /index.html HTTP/1.1", HOST)),
    (404, head_of("GET /../accounts HTTP/1.1", HOST)),
    (404, head_of("GET //style.css HTTP/1.1", HOST)),
    *[(405, head_of(f"{method} / HTTP/1.1", HOST)) for method in ("POST", "PUT", "DELETE", "OPTIONS", "TRACE", "BREW")],
    (405, head_of("POST /socket HTTP/1.1", HOST)),
    (413, head_of("GET / HTTP/1.1", HOST, "Content-Length: 1") + "x"),
    (413, head_of("GET / HTTP/1.1", HOST, "Content-Length: 99999999999")),
    (413, head_of("GET / HTTP/1.1", HOST, "Transfer-Encoding: chunked") + "0\r\n\r\n"),
    (400, head_of("GET / HTTP/1.1")),
    (400, head_of("GET / HTTP/1.1", HOST, HOST)),
    (400, head_of("GET / HTTP/1.1", HOST, " folded: x")),
    (400, head_of("GET /", HOST)),
    (400, head_of("GET / HTTP/1.1", HOST, "no colon")),
    (400, head_of("nonsense")),
    (414, head_of(f"GET /{PADDING} HTTP/1.1", HOST)),
    (431, whole_head(LONGEST_HEAD + 1)),
    (431, head_of("GET / HTTP/1.1", HOST, f"X: {PADDING}")),
    (431, head_of("GET / HTTP/1.1", HOST, *[f"X{number}: x" for number in range(MOST_FIELDS)])),
    (426, head_of("GET /socket HTTP/1.1", HOST)),
    (426, handshake_of("a", upgrade=None)),
    (426, handshake_of("a", upgrade="h2c")),
    (426, handshake_of("a", connection="close")),
    (426, handshake_of("a", sec_websocket_version=None)),
    (400, handshake_of("a", sec_websocket_key=None)),
    (400, handshake_of("a", sec_websocket_key="c2hvcnQ=")),
    (400, handshake_of("a", host=None)),
    (400, handshake_of("a").replace("GET", "HEAD", 1)),
]


def other_requests_are_refused_with_their_status():
    server = WebServer()
    for status, request in REFUSALS:
        response = server.request(request)
        want(response.status, status, f"the status of {request[:200]!r}")
        want(response.fields["connection"], "close", f"the connection after {request[:200]!r}")
    want(server.get("/", method="PUT").fields["allow"], "GET, HEAD", "the methods that 405 names")
    want(server.get("/socket").fields["sec-websocket-version"], "13", "the version that 426 names")
    want(server.handshake(sec_websocket_version="8").status in (400, 426), True, "that another version is refused")
    want(server.get("/").status, 200, "the status of the page afterwards")


def a_head_at_each_limit_is_answered():
    server = WebServer()
    want(server.request(whole_head(LONGEST_HEAD)).status, 200, "the status of the longest head")
    most = head_of("GET / HTTP/1.1", HOST, *[f"X{number}: x" for number in range(MOST_FIELDS - 1)])
    want(server.request(most).status, 200, "the status of the most fields")
    long = head_of(f"GET /?{'x' * (LONGEST_HEAD - 100)} HTTP/1.1", HOST)
    want(server.request(long).status, 200, "the status of a long target")


def a_request_may_come_byte_by_byte():
    server = WebServer()
    connection = socket.create_connection(("127.0.0.1", server.web), timeout=WAIT)
    for byte in head_of("GET /?pad=p HTTP/1.1", HOST).encode():
        connection.sendall(bytes([byte]))
        time.sleep(0.0005)
    response = read_response(connection)
    want((response.status, response.body == files()["/"]), (200, True), "the status, and that it is the page")



def a_page_of_another_origin_gets_no_socket():
    server = WebServer("--web-origin https://pads.example,http://other.example:8000")
    allowed = [
        f"http://{server.host}", f"https://{server.host}", "https://pads.example", "http://other.example:8000",
    ]
    foreign = [
        "https://evil.example", "null", "http://pads.example", "https://pads.example:8443", "https://pads.example.evil.example",
        "http://other.example", f"http://127.0.0.1:{server.port}", "http://localhost", f"ftp://{server.host}", "",
    ]
    for name in allowed:
        page = server.open(f"Origin: {name}")
        want(page.ask(do="pads")["code"], 200, f"the answer to a page of {name}")
        page.close()
    for name in foreign:
        want(server.handshake(f"Origin: {name}").status, 403, f"the status of a page of {name!r}")
    plain = WebServer()
    want(plain.handshake("Origin: https://pads.example").status, 403, "the status without --web-origin")
    server.open().close()


def the_answer_to_the_key_is_that_of_the_standard():
    server = WebServer()
    connection = socket.create_connection(("127.0.0.1", server.web), timeout=WAIT)
    connection.sendall(handshake_of(server.host).encode())
    head = connection.makefile("rb")
    lines = [head.readline().decode().strip() for _ in range(4)]
    offers = handshake_of(server.host, "Sec-WebSocket-Protocol: chat", "Sec-WebSocket-Extensions: permessage-deflate")
    other = socket.create_connection(("127.0.0.1", server.web), timeout=WAIT)
    other.sendall(offers.encode())
    agreed = other.recv(4_096).lower()
    want((b" 101 " in agreed, b"protocol:" in agreed, b"extensions:" in agreed), (True, False, False), f"what is agreed to: {agreed}")
    want((lines[0].split(" ")[1], [line.split(": ")[1] for line in lines if "accept" in line.lower()]), ("101", [ACCEPT]), f"the answer {lines}")


def one_too_many_is_told_so_in_words():
    server = WebServer("--clients 2", stderr=subprocess.DEVNULL)
    line, page = server.author("ann"), server.page("ann")
    for response in (server.get("/"), server.handshake()):
        want((response.status, response.fields["content-type"]), (503, "text/plain; charset=utf-8"), "the status and the type")
        want(b"The server is full" in response.body, True, f"what {response.body!r} says")
    page.close()
    end = time.monotonic() + WAIT
    while server.get("/").status == 503 and time.monotonic() < end:
        time.sleep(0.05)
    want(server.get("/").status, 200, "the status when there is room again")
    line.does(do="pads")


def a_server_ends_after_its_last_connection():
    """Requests for files count, and so does a socket, whose end is waited for."""
    server = WebServer("--connections 4")
    want([server.get("/").status, server.get("/none").status], [200, 404], "two requests")
    page, line = server.page("ann"), server.author("bob")
    page.does(do="create", pad="p")
    want(line.finish(), "", "what a client over TCP reads at its end")
    page.does(do="revs", pad="p")
    page.close()
    server.ends()


def misuse(name, args, *parts, status=2):
    return Case(f"web: {name}", args, status=status, stderr=Has(*parts), files=ACCOUNTS)


CASES = [
    misuse("--web with --stdin", "--stdin --replica 1 --web 127.0.0.1:0", "--web"),
    misuse("--web twice", f"{LISTEN} --web 127.0.0.1:0 --web 127.0.0.1:0", "--web"),
    misuse("--web without an address", f"{LISTEN} --web", "--web"),
    misuse("--web-origin with --stdin", "--stdin --replica 1 --web-origin https://a", "--web-origin"),
    misuse("--web-origin without --web", f"{LISTEN} --web-origin https://a", "--web-origin", "--web"),
    Case(
        "web: an address without a port", f"{LISTEN} --web 127.0.0.1", status=1, files=ACCOUNTS,
        stderr=Has("pad_server: cannot listen at 127.0.0.1"),
    ),
]

FUNCTIONS = [
    each_file_is_served,
    a_proved_program_does_not_say_that_it_is_unproved,
    the_policy_allows_the_page_alone_and_nothing_unsafe,
    a_head_alone_has_the_same_fields,
    a_known_tag_is_answered_304,
    other_requests_are_refused_with_their_status,
    a_head_at_each_limit_is_answered,
    a_request_may_come_byte_by_byte,
    a_page_of_another_origin_gets_no_socket,
    the_answer_to_the_key_is_that_of_the_standard,
    one_too_many_is_told_so_in_words,
    a_server_ends_after_its_last_connection,
]

TESTS = [case.test() for case in CASES]
TESTS += [Test(f"pad_server: web: {function.__name__.replace('_', ' ')}", function, 60) for function in FUNCTIONS]
