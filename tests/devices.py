"""Standard input and output that are closed, full, a folder or a pipe without a reader; and when a reply comes."""
import subprocess

from harness import CLOSED, FOLDER, FULL, UNREAD, Case, Has, Test, put_files, start, want

ARGS = "--stdin --replica 1"
CREATE = '{"do":"create","pad":"p"}\n'
CREATED = '{"now":0,"ok":true,"visit":1}\n'
TEXT = '{"do":"text","pad":"p"}\n'
ACCOUNTS = (("accounts", "author ann t1\n"),)
STORY = "--replica 1 --cells 1 --accounts accounts"
NO_ROOM = "No space left on device (os error 28)"

SERVER = [
    Case("output closed", ARGS, CREATE, status=1, to=CLOSED, stderr=Has("pad_server: 511 WriteFault")),
    Case("output full", ARGS, CREATE, status=1, to=FULL, stderr=Has("pad_server: 511 WriteFault", NO_ROOM)),
    Case("output that is not read", ARGS, CREATE, status=1, to=UNREAD, stderr=Has("pad_server: 511 WriteFault", "Broken pipe")),
    Case("output closed, and nothing to write", ARGS, "", to=CLOSED),
    Case("output full, and nothing to write", ARGS, "\n", to=FULL),
    Case("output full, standard error closed", ARGS, CREATE, status=1, to=FULL, errors_to=CLOSED),
    Case("input is a folder", ARGS, FOLDER, status=1, stderr=Has("pad_server: 510 ReadFault", "Is a directory (os error 21)")),
    Case("input closed", ARGS, CLOSED, status=1, stderr=Has("pad_server: 510 ReadFault", "Bad file descriptor (os error 9)")),
    Case("input is a folder, standard error closed", ARGS, FOLDER, status=1, errors_to=CLOSED),
    Case("standard error closed, and nothing to say", ARGS, CREATE, CREATED, errors_to=CLOSED),
]

REPLAY = [
    Case(name, STORY, stdin, status=1, stderr=Has("pad_replay: ", cause), files=ACCOUNTS, program="pad_replay", **streams)
    for name, stdin, cause, streams in [
        ("output closed", "# x\n", "Bad file descriptor", {"to": CLOSED}),
        ("output full", "# x\n", NO_ROOM, {"to": FULL}),
        ("output that is not read", "# x\n", "Broken pipe", {"to": UNREAD}),
        ("input is a folder", FOLDER, "Is a directory (os error 21)", {}),
    ]
]


def talk(program, args, exchanges):
    """Writes each text only once all before it were answered, and wants each answer before the input ends."""
    process = start(program, args, stdin=subprocess.PIPE, stdout=subprocess.PIPE)
    for asked, answered in exchanges:
        process.stdin.write(asked.encode())
        process.stdin.flush()
        for line in answered.encode().splitlines(keepends=True):
            want(process.stdout.readline(), line, f"the answer to {asked!r}")
    process.stdin.close()
    want(process.stdout.read(), b"", "what was written at the end")
    want(process.wait(), 0, "the status")


def server_answers_at_once():
    empty = '{"now":0,"ok":true,"rev":0,"text":""}\n'
    talk("pad_server", ARGS, [(CREATE, CREATED), (TEXT[:5], ""), (TEXT[5:], empty), (TEXT + TEXT, empty * 2), ("\n" + TEXT, empty)])


def replay_answers_at_once():
    put_files(ACCOUNTS)
    hello = 'a\t{"do":"hello","name":"ann","token":"t1"}\n'
    talk(
        "pad_replay",
        STORY,
        [
            ("=== title\n", "=== title\n"),
            (hello, 'a\t{"author":"ann@1","ok":true}\n'),
            ("!a\n# note\n", "# note\n"),
            ("a\t" + TEXT, 'a\t{"code":200,"error":"NoSession","ok":false}\n'),
        ],
    )


def replies_until_the_reader_goes():
    """A client that goes away ends the server, with what it was sent before."""
    process = start("pad_server", ARGS, stdin=subprocess.PIPE, stdout=subprocess.PIPE, stderr=subprocess.PIPE)
    process.stdin.write(CREATE.encode())
    process.stdin.flush()
    want(process.stdout.readline().decode(), CREATED, "the first reply")
    process.stdout.close()
    process.stdin.write(TEXT.encode())
    process.stdin.flush()
    said = process.stderr.read().decode()
    want(process.wait(), 1, "the status")
    want(said.startswith("pad_server: 511 WriteFault"), True, f"a write fault on standard error, which has {said!r}")


TESTS = [case.test() for case in SERVER + REPLAY] + [
    Test("pad_server: each line is answered before the next is read", server_answers_at_once),
    Test("pad_replay: each line is answered before the next is read", replay_answers_at_once),
    Test("pad_server: the reader goes away", replies_until_the_reader_goes),
]
