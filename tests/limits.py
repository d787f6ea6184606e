"""The table of docs/LIMITS.md: each number in it is that of the code."""
import re

from harness import ROOT, Failed, Test, want

# The beginning of a row, and the constant whose value its number is: a file of crates/ and the name there.
ROWS = [
    ("clients connected at once", "pad_server/src/options.rt", "DEFAULT_CLIENTS"),
    ("clients that have not logged in", "event_loop/src/limits.rt", "FEWEST_NEWCOMERS"),
    ("bytes of an unfinished line", "event_loop/src/limits.rt", "UNFINISHED"),
    ("clients that are read beyond that", "event_loop/src/limits.rt", "MOST_LONG"),
    ("threads that serve them", "tcp_server/src/threads.rt", "MAX_WORKERS"),
    ("requests for the page's files at once", "tcp_server/src/room.rt", "PAGE_REQUESTS"),
    ("bytes in a line over TCP", "wire_lines/src/feed.rt", "MAX_LINE"),
    ("bytes in a message of a WebSocket", "web_wire/src/frames.rt", "LONGEST_MESSAGE"),
    ("pads on a server", "server_core/src/limits.rt", "MAX_CELLS"),
    ("accounts, authors and peers together", "sessions/src/accounts.rt", "MAX_ACCOUNTS"),
    ("persons with a display name", "sessions/src/people.rt", "MAX_PEOPLE"),
    ("characters in a display name", "sessions/src/line.rt", "MAX_DISPLAY"),
    ("bytes in the ID of a person", "sessions/src/line.rt", "MAX_ID"),
    ("display names asked for at once", "pad_core/src/request.rt", "MAX_PEOPLE_ASKED"),
    ("times of revisions asked for at once", "pad_core/src/reads.rt", "MAX_TIMES"),
    ("moments asked for at once", "pad_core/src/reads.rt", "MAX_MOMENTS"),
    ("proxies that `--trusted-proxy` names", "pad_server/src/users.rt", "MAX_PROXIES"),
    ("names with a right on a pad", "rights/src/book.rt", "MAX_GRANTS"),
    ("sessions present on a pad", "presence/src/presence.rt", "MAX_PRESENT"),
    ("visits to a pad in all", "presence/src/presence.rt", "MAX_VISITS"),
    ("operations on a pad in all", "pad_model/src/limits.rt", "MAX_OPERATIONS"),
    ("comments on a pad", "pad_model/src/limits.rt", "MAX_COMMENTS"),
    ("named revisions of a pad", "named_revisions/src/list.rt", "MAX_NAMED_REVISIONS"),
    ("guests of a pad with a display name", "guests/src/book.rt", "MAX_GUESTS"),
    ("characters in a guest's display name", "guests/src/book.rt", "MAX_GUEST_DISPLAY"),
    ("characters in a pad", "pad_model/src/limits.rt", "MAX_CHARACTERS"),
    ("characters in one insertion, deletion or edit", "pad_model/src/limits.rt", "MAX_TEXT"),
    ("changes in one edit", "pad_model/src/limits.rt", "MAX_PARTS"),
    ("characters in a comment", "pad_model/src/limits.rt", "MAX_COMMENT"),
    ("characters in the name of a revision", "named_revisions/src/list.rt", "MAX_REVISION_NAME"),
    ("characters in the name of a pad or an author", "pad_model/src/limits.rt", "MAX_NAME"),
    ("operations of other servers that a pad holds back", "holdback/src/held.rt", "MAX_HELD"),
    ("operations that a server gives another one at once", "pad_core/src/exchange.rt", "MAX_BATCH"),
    ("bytes of these operations, if they are several", "pad_core/src/exchange.rt", "MAX_BATCH_BYTES"),
    ("seconds of `--confirm`", "pad_server/src/confirm.rt", "MAX_SECONDS"),
    ("seconds that a reply waits with `--confirm strict`", "store_files/src/copying.rt", "STRICT_PATIENCE"),
    ("bytes of files in a round", "standby/src/rounds.rt", "ROUND"),
    ("bytes of files that a standby takes in a round", "standby/src/taking.rt", "LARGEST_ROUND"),
    ("bytes of a standby's log", "store_files/src/round_log.rt", "LONGEST"),
    ("bytes of a line to a standby", "standby/src/taking.rt", "LONGEST_LINE"),
    ("seconds between two rounds", "standby/src/rounds.rt", "BEAT"),
    ("seconds that a main server waits for its standby", "standby/src/connect.rt", "PATIENCE"),
    ("seconds that a standby waits for its main server", "tcp_server/src/standby_server.rt", "SILENCE"),
    ("reads in which a greeting comes", "standby/src/taking.rt", "FIRST_READS"),
    ("seconds that a read of that first request takes", "tcp_server/src/standby_server.rt", "FIRST_REQUEST"),
    ("seconds before a connection that broke", "standby/src/sending.rt", "PAUSE"),
    ("seconds before one that was refused", "standby/src/sending.rt", "LONG_PAUSE"),
    ("bytes of a request for the status", "tcp_server/src/status.rt", "LONGEST_HEAD"),
    ("milliseconds for a request for the status", "tcp_server/src/status.rt", "PATIENCE"),
]


def value_of(path, name):
    with open(f"{ROOT}/crates/{path}", encoding="utf-8") as file:
        found = re.search(rf"const {name}: \w+ = ([0-9_]+);", file.read())
    if not found:
        raise Failed(f"crates/{path} has no constant {name} that is a number")
    return int(found[1].replace("_", ""))


def rows_of_page():
    with open(f"{ROOT}/docs/LIMITS.md", encoding="utf-8") as file:
        lines = file.read().splitlines()
    rows = [line.strip("| ").split(" | ") for line in lines if line.startswith("| ")]
    return [row for row in rows if row[1] != "At most"]  # without the titles


def numbers_are_those_of_the_code():
    rows = rows_of_page()
    want(len(rows), len(ROWS), "how many rows the table has")
    for (what, most), (begin, path, name) in zip(rows, ROWS):
        want(what[: len(begin)], begin, "what a row limits")
        numbers = [int(number.replace(",", "")) for number in re.findall(r"[0-9][0-9,]*", most)]
        want(numbers, [value_of(path, name)], f"the limit of {what}")


TESTS = [Test("limits: docs/LIMITS.md has those of the code", numbers_are_those_of_the_code)]
