"""The tests of the page that are scripts: in node, and in Debian's Python, for which Chromium's driver and a client of sockets are packaged."""
import os
import re
import subprocess

import peers
from harness import Failed, Test, path_of
from sockets import Server
from web_server import WebServer, read_web

HERE = os.path.dirname(os.path.realpath(__file__))
NODE = "node"
PYTHON = "/usr/bin/python3"  # Debian's, beside which its packages are
PAGES = 40
RAISED = re.compile(r"[\w.]+(Error|Exception)\b")  # the line of a Python traceback that says what was raised


def script(runner, name, *words):
    """Runs a script whose last line is `N passed, M failed`. What failed is told in its own words."""
    try:
        done = subprocess.run(
            [*runner.split(), os.path.join(HERE, name), *map(str, words)], stdin=subprocess.DEVNULL,
            stdout=subprocess.PIPE, stderr=subprocess.STDOUT, text=True, errors="replace",
        )
    except FileNotFoundError:
        raise Failed(f"{runner} is not installed") from None
    lines = done.stdout.splitlines()
    failed = [line for line in lines if line.startswith("FAILED") or RAISED.match(line)]
    if done.returncode or failed or not lines or not lines[-1].endswith(" passed, 0 failed") or lines[-1].startswith("0 "):
        raise Failed("; ".join(failed + lines[-3:])[:3_000] + f" (status {done.returncode})")


def the_pages_show_what_a_model_of_the_server_has(rounds=300):
    script(NODE, "model_test.mjs", rounds)


def the_parts_of_the_page_keep_their_laws():
    script(NODE, "parts_test.mjs")


def who_wrote_a_character_is_asked_of_servers_of_each_age():
    script(NODE, "births_test.mjs")


def what_is_served_is_what_the_page_is_on_disk():
    script(f"{NODE} --expose-internals", "squeezed_test.mjs")


def no_words_of_an_author_are_lost_by_the_page():
    script(NODE, "lost_words_test.mjs")


def nor_what_the_server_did_not_take():
    script(NODE, "kept_words_test.mjs")


def nor_what_stands_in_a_pad_that_is_closed_at_a_bad_moment():
    script(NODE, "closed_late_test.mjs")


def threads_and_suggestions_come_once():
    script(NODE, "threads_test.mjs")


def looks_at_other_pads_disturb_no_pad_that_is_open():
    script(NODE, "glances_test.mjs")


def minutes_are_what_markdown_says():
    script(NODE, "minutes_test.mjs")


def what_is_typed_outlives_the_page():
    script(NODE, "drafts_test.mjs")


def a_browser_is_killed_while_its_author_types(kills=12, seed=1):
    script(PYTHON, "killed_browser.py", path_of("pad_server"), kills, seed)


def pages_agree_with_a_model_over_a_bad_network(rounds=40):
    script(NODE, "storm_test.mjs", rounds)


def pages_whose_connections_break_make_each_character_once(seconds=6):
    script(NODE, "server_test.mjs", f"ws://{WebServer(stderr=subprocess.DEVNULL).host}/socket", seconds)


def pads_are_closed_and_opened_again():
    script(NODE, "closed_test.mjs", f"ws://{WebServer(stderr=subprocess.DEVNULL).host}/socket")
    script(NODE, "closed_test.mjs", Server(stderr=subprocess.DEVNULL).port)


def pages_agree_while_pads_are_closed(rounds=12):
    script(NODE, "storm_closing.mjs", rounds)


def the_same_over_tcp(seconds=6):
    script(NODE, "server_test.mjs", Server(stderr=subprocess.DEVNULL).port, seconds)


def forty_pages_type_beside_a_peer(seconds=15):
    ports = dict(zip((1, 2), peers.free_ports(2)))
    first = peers.Server(1, ports, [f"a{number}" for number in range(PAGES)], [2], "--web 127.0.0.1:0")
    web = read_web(first.process)
    peers.Server(2, ports, ["zed"], [1])
    script(NODE, "crowd_test.mjs", f"ws://127.0.0.1:{web}/socket", ports[2], PAGES, seconds)


def pages_outlive_a_server_that_is_killed(seconds):
    script(NODE, "killed_test.mjs", path_of("pad_server"), seconds)


def another_client_library_speaks_with_the_socket():
    script(PYTHON, "websockets_test.py", WebServer("--web-origin https://pads.example").web)


def two_windows_of_a_browser():
    script(PYTHON, "browser_test.py", path_of("pad_server"))


def guests_come_by_a_link():
    script(PYTHON, "guests_test.py", path_of("pad_server"))


def owners_close_pads_and_open_them_again():
    script(PYTHON, "closing_test.py", path_of("pad_server"))


def compositions_at_random(rounds=100):
    script(PYTHON, "random_compositions.py", path_of("pad_server"), rounds)


def two_windows_of_firefox():
    script(PYTHON, "firefox_test.py", path_of("pad_server"))


def a_large_pad_in_a_browser():
    script(PYTHON, "large_pad.py", path_of("pad_server"))


def named(function, seconds, name=None, alone=False):
    return Test(f"web: {name or function.__name__.replace('_', ' ')}", function, seconds, alone)


TESTS = [
    named(the_parts_of_the_page_keep_their_laws, 60),
    named(who_wrote_a_character_is_asked_of_servers_of_each_age, 60),
    named(what_is_served_is_what_the_page_is_on_disk, 60),
    named(the_pages_show_what_a_model_of_the_server_has, 120),
    named(no_words_of_an_author_are_lost_by_the_page, 60),
    named(nor_what_the_server_did_not_take, 60),
    named(nor_what_stands_in_a_pad_that_is_closed_at_a_bad_moment, 60),
    named(threads_and_suggestions_come_once, 60),
    named(looks_at_other_pads_disturb_no_pad_that_is_open, 60),
    named(minutes_are_what_markdown_says, 60),
    named(what_is_typed_outlives_the_page, 60),
    named(pages_agree_with_a_model_over_a_bad_network, 300),
    named(pages_whose_connections_break_make_each_character_once, 150),
    named(pads_are_closed_and_opened_again, 120),
    named(pages_agree_while_pads_are_closed, 400),
    named(another_client_library_speaks_with_the_socket, 60),
    named(forty_pages_type_beside_a_peer, 180),
    named(two_windows_of_a_browser, 1_200),
    named(two_windows_of_firefox, 200),
    named(guests_come_by_a_link, 400),
    named(owners_close_pads_and_open_them_again, 400),
    named(a_browser_is_killed_while_its_author_types, 300, alone=True),
]

# These take minutes: tests/run --long.
LONG_TESTS = [
    named(lambda: the_pages_show_what_a_model_of_the_server_has(5_000), 600, "5,000 rounds with the model"),
    named(lambda: pages_agree_with_a_model_over_a_bad_network(300), 900, "300 rounds over a bad network"),
    named(lambda: pages_whose_connections_break_make_each_character_once(60), 400, "connections break for two minutes"),
    named(lambda: the_same_over_tcp(30), 300, "connections over TCP break for a minute"),
    named(lambda: forty_pages_type_beside_a_peer(60), 400, "forty pages type for a minute beside a peer"),
    named(lambda: a_browser_is_killed_while_its_author_types(60, 7), 900, "a browser is killed sixty times"),
    named(lambda: pages_outlive_a_server_that_is_killed(90), 500, "pages outlive a server that is killed"),
    named(a_large_pad_in_a_browser, 400),
    named(lambda: compositions_at_random(400), 400, "400 compositions at random"),
]
