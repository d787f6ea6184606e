"""What a server says of itself at its web address: at `/kept` on how many machines an edit is kept once it is answered, and at
`/earlier-numbers` which numbers it had before."""
import http.client

from harness import Test, want
from peers import free_ports, wait_for
from sockets import WAIT
from stores import STORE
from two_machines import Machines
from web_server import WebServer

FIELDS = {
    "content-type": "application/json", "cache-control": "no-store", "content-length": "14", "connection": "close",
    "x-content-type-options": "nosniff", "cross-origin-resource-policy": "same-origin",
}


def body_of(number):
    return b'{"machines":%d}' % number


def told(port, path="/kept"):
    """What a server answers at this port."""
    connection = http.client.HTTPConnection("127.0.0.1", port, timeout=WAIT)
    connection.request("GET", path)
    response = connection.getresponse()
    return response.status, response.read()


def wait_until_told(port, number):
    wait_for(f"the server says {number}", lambda: told(port) == (200, body_of(number)))


def says(server, number):
    response = server.get("/kept")
    want((response.status, response.body), (200, body_of(number)), "what is told")
    want({name: response.fields.get(name) for name in FIELDS}, FIELDS, "its fields")
    want(server.get("/kept", method="HEAD").body, b"", "what HEAD is told")
    want([server.get("/kept", method="POST").status, server.get("/kept/").status], [405, 404], "other requests")
    want(server.request("GET /kept HTTP/1.1\r\n\r\n").status, 400, "a request without a Host")


def a_server_without_a_store():
    says(WebServer(), 0)


def a_server_with_a_store():
    says(WebServer(STORE), 1)


def a_standby_that_confirms():
    machines, (web,) = Machines(), free_ports(1)
    machines.standby()
    machines.main("1", f"--web 127.0.0.1:{web}")
    wait_until_told(web, 2)
    ann = machines.author("ann")
    ann.does(do="create", pad="p")
    machines.kill(2)
    # The reply waits for a second. Then the server goes on alone.
    ann.does(do="insert", pad="p", rev=0, at=0, text="x")
    want(told(web), (200, body_of(1)), "what a server that goes on alone says")
    machines.standby()
    wait_until_told(web, 2)


def a_standby_for_which_no_reply_waits():
    machines, (web,) = Machines(), free_ports(1)
    machines.standby()
    machines.main("", f"--web 127.0.0.1:{web}")
    machines.wait_until_said(1, "the standby 2 has everything that is stored here")
    want(told(web), (200, body_of(1)), "what is told without --confirm")


def a_promoted_standby():
    machines, (web, other) = Machines(), free_ports(2)
    machines.standby()
    machines.main("strict", f"--web 127.0.0.1:{web}")
    want(told(web), (200, body_of(2)), "what a strict server says from its start on")
    machines.kill(1)
    machines.kill(2)
    machines.promoted(f"--web 127.0.0.1:{other}")
    want(told(other), (200, body_of(1)), "what the promoted server says")


def earlier_numbers():
    machines, webs = Machines(), free_ports(3)
    machines.standby()
    machines.main("strict", f"--web 127.0.0.1:{webs[0]}")
    ann = machines.author("ann")
    ann.does(do="create", pad="p")
    want(told(webs[0], "/earlier-numbers"), (200, b'{"numbers":[]}'), "what a server says that has its first number")
    machines.kill(1)
    machines.kill(2)
    machines.promoted(f"--web 127.0.0.1:{webs[1]}")
    want(told(webs[1], "/earlier-numbers"), (200, b'{"numbers":[1]}'), "what the promoted server says")
    machines.kill(2)
    # Its files say so too when it starts with the number that it has now.
    machines.run(2, "copy", f"--web 127.0.0.1:{webs[2]}")
    want(told(webs[2], "/earlier-numbers"), (200, b'{"numbers":[1]}'), "what it says after a restart")


def no_earlier_number_without_a_store():
    response = WebServer().get("/earlier-numbers")
    want((response.status, response.body), (200, b'{"numbers":[]}'), "what is told")
    want(response.fields.get("cache-control"), "no-store", "what a browser may do with a copy")


FUNCTIONS = [
    a_server_without_a_store, a_server_with_a_store,
    a_standby_that_confirms, a_standby_for_which_no_reply_waits, a_promoted_standby,
    earlier_numbers, no_earlier_number_without_a_store,
]

TESTS = [Test(f"pad_server: kept: {function.__name__.replace('_', ' ')}", function, 60) for function in FUNCTIONS]
