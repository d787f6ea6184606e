"""The tool for the files of pads: what it verifies and prints, of files that are whole, torn, damaged or no files of pads.

Moments are in pad_moments.py, and `beyond` is in pad_beyond.py.
"""
import datetime
import json
import os
import shutil
import subprocess
import time

from harness import FULL, UNREAD, Has, Starts, Test, put_files, start, want
from sample_pad import AT, DAMAGED, EXPORT, FIRST, LINES, LOG, OPERATIONS, SUMS, TEXTS, VALUES, WHOLE
from sample_pad import ask, checked, delivered, lines_of, program, refused, time_of
from sockets import Server
from stores import STORE, kill

USAGE = """Usage: pad_store check <DIR|FILE>
       pad_store show <FILE> [--rev <N>|--at <MOMENT>] [--authors] [--comments] [--markdown]
       pad_store log <FILE> [--from <N>] [--by <AUTHOR>] [--since <MOMENT>] [--until <MOMENT>]
       pad_store diff <FILE> <REV|MOMENT> <REV|MOMENT>
       pad_store export <FILE> [--rev <N>|--at <MOMENT>] [--sum <SUM>]
       pad_store beyond <OLD> <NEW>
"""

NO_SUM = "0" * 64

EDITS = [
    delivered(2, AT + 2, "ann", kind="edit", parts=[
        {"kind": "delete", "spans": [[2, 1, 3]]},
        {"kind": "insert", "after": [4, 1], "first": [6, 1], "text": "ey"},
    ]),
    delivered(3, AT + 3, "ann", kind="edit", parts=[
        {"kind": "insert", "after": None, "first": [8, 1], "text": "A\n"},
        {"kind": "insert", "after": [5, 1], "first": [10, 1], "text": "\"ü𝄞"},
    ]),
]
EDITED = b"".join(lines_of([*VALUES[: FIRST + 1], *EDITS])[0])
# The pad is handed over, and whoever created it may no longer read it.
HANDED = [
    {"at": AT + 86402, "kind": "handed", "owner": "bob"},
    {"at": AT + 86403, "author": "ann", "kind": "granted", "right": "none"},
]
HANDED_LINES, HANDED_SUMS = lines_of([*VALUES, *HANDED])
COMMENT = '[1,4] ann@1 on "he": "nice"'
MARKDOWN = "# p\n\nRevision 5\n\n"
RUNS = ['ann@1 "h"\n', 'bob@1 "ey"\n', 'ann@1 "o"\n']

# Bob names revision 3 at 22:01:40 on the second day.
NAMED = b"".join(lines_of([*VALUES, {"at": AT + 86500, "author": "bob", "kind": "marked", "ms": 7, "rev": 3, "text": "First\ndraft"}])[0])
NAME = f'- {time_of(AT + 86500)} bob mark 3 "First\\ndraft"\n'


def again(values):
    """A record that no pad takes where it stands: its line is linked, and what it says is refused."""
    return b"".join(lines_of(values)[0])


CASES = [
    program(
        "help", "--help", files=(),
        stdout=Has(USAGE, "--rev <N>", "--at <MOMENT>", "--by <AUTHOR>", "--since <MOMENT>", "--until <MOMENT>", "--sum <SUM>", "'2026-12-09 20:00'"),
    ),
    program("version", "--version", stdout="pad_store 0.1.0\n", files=()),
    refused("no words", "", "required"),
    refused("no path", "check", "required"),
    refused("another command", "repair p.pad", "the command is check, show, log, diff, export or beyond\n"),
    refused("--rev with log", "log p.pad --rev 1", "--rev <N> is for show and export\n"),
    refused("--from with show", "show p.pad --from 1", "--from <N> is for log\n"),
    *(
        refused(f"--at with {command}", f"{command} --at 2026-11-24", "--at <MOMENT> is for show and export\n")
        for command in ["check p.pad", "log p.pad", "diff p.pad 1 2", "beyond p.pad p.pad"]
    ),
    *(
        refused(f"--at and --rev with {command}", f"{command} p.pad --at 2026-11-24 --rev 1", "--rev <N> and --at <MOMENT> each name a revision: give only one of them\n")
        for command in ["show", "export"]
    ),
    *(
        refused(f"{option} with {command}", f"{command} {option}", "--by <AUTHOR>, --since <MOMENT> and --until <MOMENT> are for log\n")
        for option in ["--by ann", "--since 2026-11-24", "--until 2026-11-24"]
        for command in ["check p.pad", "show p.pad", "diff p.pad 1 2", "export p.pad", "beyond p.pad p.pad"]
    ),
    *(
        refused(f"--sum with {command}", f"{command} --sum a", "--sum <SUM> is for export, without --rev <N> and --at <MOMENT>\n")
        for command in ["show p.pad", "export p.pad --rev 1", "export p.pad --at 2026-11-24"]
    ),
    refused("--authors with log", "log p.pad --authors", "--authors, --comments and --markdown are for show\n"),
    refused("revisions with show", "show p.pad 1", "only diff takes two more words, and only beyond takes one\n"),
    *(
        refused(f"diff{words}", f"diff p.pad{words}", "diff needs two revisions: numbers, or moments as 2026-12-09 or '2026-12-09 20:00'\n")
        for words in ["", " 1", " 1 x", " x 1", " 2026-11-24 2026-13-01", " 1 4294967296", " 1 1795471201000"]
    ),
    *(
        refused(f"diff backwards, {words}", f"diff p.pad {words}", "diff needs the older revision first\n")
        for words in ["3 1", "2026-11-24 2", "2 2026-11-23", "2026-11-24 2026-11-23"]
    ),
    refused("a revision that is no number", "show p.pad --rev x", "--rev <N>"),
    program("a file that is missing", "show q.pad", status=1, stderr="pad_store: q.pad: No such file or directory (os error 2)\n"),
    program("a folder that is missing", "check kept", status=1, stderr="pad_store: kept: No such file or directory (os error 2)\n"),
    program("a file is checked", "check p.pad", stdout=checked("p", 5, 4, SUMS[-1])),
    program("a file under any name is checked", "check copy", [("copy", WHOLE)], stdout=checked("p", 5, 4, SUMS[-1])),
    program(
        "a pad that was handed over", "check p.pad", [("p.pad", b"".join(HANDED_LINES))],
        stdout=checked("p", 5, 4, HANDED_SUMS[-1]),
    ),
    program(
        "half a hand-over at the end", "check p.pad", [("p.pad", b"".join(HANDED_LINES[:-1])[:-9])],
        stdout=checked("p", 5, 4, SUMS[-1], len(HANDED_LINES[-2]) - 9),
    ),
    program("half a line at the end", "check p.pad", [("p.pad", WHOLE + b"[{")], stdout=checked("p", 5, 4, SUMS[-1], 2)),
    program(
        "half of the last line", "check p.pad", [("p.pad", WHOLE[:-30])],
        stdout=checked("p", 4, 4, SUMS[-2], len(LINES[-1]) - 30),
    ),
    program("zeros at the end", "check p.pad", [("p.pad", WHOLE + bytes(9))], stdout=checked("p", 5, 4, SUMS[-1], 9)),
    program("a pad without operations", "check p.pad", [("p.pad", b"".join(LINES[:2]))], stdout=checked("p", 0, 0, SUMS[1])),
    program("a folder without pads", "check .", [("lock", b""), ("p.pad.unnamed-1", b"x")]),
    program(
        "a folder with damage", "check .",
        [("a.pad", WHOLE), ("p.pad", WHOLE), ("q.pad", DAMAGED[0][1]), ("r.pad", b"".join(lines_of([{"format": 1, "pad": "r", "replica": 1}])[0]))],
        stdout=checked("p", 5, 4, SUMS[-1]),
        status=1,
        stderr="pad_store: ./a.pad: it is the file of another pad\n"
        "pad_store: ./q.pad: line 5: it was changed, or lines before it are missing\n"
        "pad_store: ./r.pad: no pad was named\n",
    ),
    *(
        program(
            f"damage of {name}", "check p.pad", [("p.pad", content)], status=1,
            stderr=f"pad_store: p.pad: line {line}: it was changed, or lines before it are missing\n",
        )
        for name, content, line in DAMAGED
    ),
    program(
        "an operation that is there twice", "check p.pad", [("p.pad", again(VALUES + [OPERATIONS[0]]))], status=1,
        stderr=f"pad_store: p.pad: line {len(VALUES) + 1}: 403 PeerFault\n",
    ),
    program(
        "a record of an unknown kind", "check p.pad", [("p.pad", again(VALUES + [{"at": 1, "kind": "sung"}]))], status=1,
        stderr=f"pad_store: p.pad: line {len(VALUES) + 1}: it is no record\n",
    ),
    program("a file of something else", "show p.pad", [("p.pad", b"hello\nworld\n")], status=1, stderr=Starts("pad_store: p.pad: line 1: ")),
    program("an empty file", "show p.pad", [("p.pad", b"")], status=1, stderr="pad_store: p.pad: no pad was named\n"),
    program("the present revision", "show p.pad", stdout="heyo"),
    *(program(f"revision {rev}", f"show p.pad --rev {rev}", stdout=text) for rev, text in enumerate(TEXTS)),
    program("a revision that is missing", "show p.pad --rev 6", status=1, stderr="pad_store: p.pad: 320 NoRevision\n"),
    program("no revision of a damaged file", "show p.pad --rev 1", [("p.pad", DAMAGED[2][1])], status=1, stderr=Has("line 6: ")),
    program("authors", "show p.pad --authors", stdout="".join(RUNS)),
    program("authors of revision 1", "show p.pad --authors --rev 1", stdout='ann@1 "hello"\n'),
    program("comments", "show p.pad --comments", stdout=f"heyo\n\n{COMMENT}, resolved\n"),
    program("comments of revision 4", "show p.pad --comments --rev 4", stdout=f"heyo\n\n{COMMENT}\n"),
    program("comments of revision 3", "show p.pad --comments --rev 3", stdout="heyo\n\n"),
    program("Markdown", "show p.pad --markdown", stdout=MARKDOWN + "heyo\n"),
    program(
        "Markdown with all", "show p.pad --markdown --authors --comments",
        stdout=MARKDOWN + "".join(f"- {run}" for run in RUNS) + f"\n## Comments\n\n- {COMMENT}, resolved\n",
    ),
    program("authors of a missing revision", "show p.pad --authors --rev 9", status=1, stderr="pad_store: p.pad: 320 NoRevision\n"),
    program("the log", "log p.pad", stdout="".join(LOG)),
    program("the log from revision 4 on", "log p.pad --from 4", stdout="".join(LOG[3:])),
    program("the log from behind the end on", "log p.pad --from 6"),
    program("the log of bob", "log p.pad --by bob", stdout=LOG[2]),
    program("the log of ann", "log p.pad --by ann", stdout="".join(LOG[:2] + LOG[3:])),
    program("the log of nobody", "log p.pad --by an"),
    *(
        program(f"the log of a pad with a named revision{options}", f"log p.pad{options}", [("p.pad", NAMED)], stdout="".join(lines))
        for options, lines in [
            ("", [*LOG, NAME]),
            (" --by bob", [LOG[2], NAME]),
            (" --by ann", LOG[:2] + LOG[3:]),
            (" --from 5", [LOG[4], NAME]),
            (" --from 6", []),
            (" --since 2026-11-24T22:01:40.007Z", [NAME]),
            (" --since 2026-11-24T22:01:40.008Z", []),
            (" --until 2026-11-24T22:01:40Z", LOG),
        ]
    ),
    program("the present revision is not the named one", "show p.pad --markdown", [("p.pad", NAMED)], stdout=MARKDOWN + "heyo\n"),
    program(
        "the log of edits", "log p.pad --from 2", [("p.pad", EDITED)],
        stdout=f'2 {time_of(AT + 2)} ann@1 edit -"ell" +"ey"\n3 {time_of(AT + 3)} ann@1 edit +"A\\n" +"\\"ü𝄞"\n',
    ),
    program("the text of edits", "show p.pad", [("p.pad", EDITED)], stdout='A\nheyo"ü𝄞'),
    program("what came in several places", "diff p.pad 2 3", [("p.pad", EDITED)], stdout='{+A\n+}heyo{+"ü𝄞+}\n'),
    program("what came and went", "diff p.pad 1 3", stdout="h[-ell-]{+ey+}o\n"),
    program("what came and went from the start", "diff p.pad 0 3", stdout="{+h+}{+ey+}{+o+}\n"),
    program("nothing came or went", "diff p.pad 3 5", stdout="heyo\n"),
    program("what went", "diff p.pad 1 2", stdout="h[-ell-]o\n"),
    program("diff to a missing revision", "diff p.pad 1 6", status=1, stderr="pad_store: p.pad: 320 NoRevision\n"),
    program("the operations", "export p.pad", stdout=b"".join(EXPORT)),
    program("the operations up to revision 2", "export p.pad --rev 2", stdout=b"".join(EXPORT[:2])),
    program("no operations", "export p.pad --rev 0"),
    program("operations up to a missing revision", "export p.pad --rev 6", status=1, stderr="pad_store: p.pad: 320 NoRevision\n"),
    program("the sum of the last line", f"export p.pad --sum {SUMS[-1]}", stdout=f"line {len(SUMS)}\n"),
    program("the sum of the first line", f"export p.pad --sum {SUMS[0]}", stdout="line 1\n"),
    program("no such sum", f"export p.pad --sum {NO_SUM}", status=1, stderr="pad_store: p.pad: no line has this sum\n"),
    program("a sum behind the whole lines", f"export p.pad --sum {SUMS[-1]}", [("p.pad", WHOLE[:-1])], status=1, stderr=Has("no line has this sum")),
    *(
        program(f"{command} into a pipe that is closed", f"{command} p.pad{more}", to=UNREAD)
        for command, more in [("check", ""), ("show", ""), ("log", ""), ("diff", " 1 3"), ("export", "")]
    ),
    program("a full device", "show p.pad", to=FULL, status=1, stderr="pad_store: standard output: No space left on device (os error 28)\n"),
    program("want of memory", "show p.pad", [("p.pad", bytes(1 << 28))], memory=1 << 27, status=1, stderr="pad_store: 900 Memory\n"),
]


def the_store_of_a_server():
    """A running server's files, a copy of them, and those that it continues after a restart show what it answers."""
    server = Server(STORE)
    ann = server.author("ann")
    ann.does(do="create", pad="p")
    ann.does(do="create", pad="q")
    ann.does(do="insert", pad="p", rev=0, at=0, text="one ü 𝄞\n")
    time.sleep(0.05)
    between = datetime.datetime.now(datetime.timezone.utc).isoformat(timespec="milliseconds")
    time.sleep(0.05)
    ann.does(do="insert", pad="p", rev=1, at=4, text="und ")
    ann.does(do="comment", pad="p", rev=2, at=0, len=3, text="warum?")
    text = ann.does(do="text", pad="p")["text"]
    want(ask("show kept/p.pad"), text, "the text in the file of a running server")
    want(ask(f"show kept/p.pad --at {between}"), "one ü 𝄞\n", "the text before the second edit")
    want(ask(f"log kept/p.pad --until {between}").count("\n"), 1, "the operations that were made until then")
    shutil.copytree("kept", "backup")
    kill(server)
    server = Server(f"{STORE} --new-replica", number=2)
    ann = server.connect()
    ann.does(do="hello", name="ann", token="tann")
    ann.join("p")
    ann.does(do="delete", pad="p", rev=3, at=0, len=8)
    later = ann.does(do="text", pad="p")["text"]
    kill(server)
    want(ask("show kept/p.pad"), later, "the text after the restart")
    want(ask("show kept/p.pad --rev 3"), text, "the revision before it")
    want(ask("show backup/p.pad"), text, "the text of the copy")
    last = ask("check backup").split("sum=")[1].split()[0]
    want(ask(f"export kept/p.pad --sum {last}"), f"line {len(open('backup/p.pad', 'rb').readlines())}\n", "the line of the copy's last sum")
    want(ask("show kept/q.pad"), "", "the text of a pad that has none")
    want([line.split()[0] for line in ask("check kept").splitlines()], ["p", "q"], "the pads that are checked")


def an_export_rebuilds_the_pad():
    """From the lines of an export, another program finds the text: here one that knows insertions at the end alone."""
    server = Server(STORE)
    ann = server.author("ann")
    ann.does(do="create", pad="p")
    for number, word in enumerate(["to ", "be ", "or "]):
        ann.does(do="insert", pad="p", rev=number, at=3 * number, text=word)
    kill(server)
    lines = [json.loads(line) for line in ask("export kept/p.pad").splitlines()]
    want([line["rev"] for line in lines], [1, 2, 3], "the revisions")
    want("".join(line["op"]["text"] for line in lines), "to be or ", "the texts of the operations")
    in_file = [json.loads(line)[1] for line in open("kept/p.pad", "rb")]
    want([line["sum"] for line in lines], in_file[2:], "the sums")


def nothing_is_changed():
    put_files([("p.pad", WHOLE + b"[{"), ("q.pad", DAMAGED[0][1])])
    before = {name: (os.stat(name).st_mtime_ns, open(name, "rb").read()) for name in os.listdir(".")}
    files = ["check .", "show p.pad", "log p.pad", "diff p.pad 1 2", "export p.pad", "show q.pad"]
    for args in [*files, "beyond . .", "beyond p.pad q.pad"]:
        start("pad_store", args, stdout=subprocess.DEVNULL, stderr=subprocess.DEVNULL).wait()
    after = {name: (os.stat(name).st_mtime_ns, open(name, "rb").read()) for name in os.listdir(".")}
    want(after, before, "the files")


TESTS = [case.test() for case in CASES] + [
    Test("pad_store: the store of a server, a copy, and after a restart", the_store_of_a_server),
    Test("pad_store: an export rebuilds the pad", an_export_rebuilds_the_pad),
    Test("pad_store: nothing is changed", nothing_is_changed),
]
