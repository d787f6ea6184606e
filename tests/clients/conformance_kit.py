"""tests/conformance: both libraries pass it, and it finds mistakes that are planted into one."""
import os
import re
import shutil
import subprocess
from concurrent.futures import ThreadPoolExecutor

from harness import ROOT, Failed, put_files, want
from js_client import named
from scripts_test import NODE, PYTHON

KIT = os.path.join(ROOT, "tests", "conformance")
JS, PY = [NODE, f"{KIT}/clients/js.mjs"], [PYTHON, f"{KIT}/clients/python.py"]
LIBRARIES = {"js": ("js", "src", JS), "py": ("python", "vindrughe", PY)}
ENVIRONMENT = {**os.environ, "PYTHONDONTWRITEBYTECODE": "1"}

# A mistake in one of the libraries, by the end of its file's name: the file, a passage that is there once, what stands there instead,
# and the case that has to fail.
MISTAKES = [
    ("resume.js", "const found = await look();", "const found = null;", "an unanswered edit that was made is not sent again"),
    ("resume.js", "isGone = !who.some((one) => one.visit === visit);", "isGone = true;", "an unanswered edit that comes late is not sent again"),
    ("resume.js", "  await compare(pad);\n", "", "another past with as many revisions"),
    ("sync.js", "held?.to === n - 1 ? held", "held ? held", "what a wait brought is used only where it fits"),
    ("resume.js", "if (mark.rev > 0 && !isSame(mark, await entryOf(pad, mark.rev)))", "if (false)", "another past with the same text"),
    ("delta.js", "    if (left.inserts) {", "    if (left.inserts && !right.inserts) {", "text of others at the same place comes behind"),
    ("units.js", "  if (!hasPairs(text)) return to - from;\n  let characters", "  return to - from;\n  let characters", "what is typed is sent"),
    ("sync.js", "const [mine, over] = transform(this.flight, theirs), [pending, shown] = transform(this.pending, over)",
     "const [mine, over] = transform(this.flight, theirs), [shown, pending] = transform(over, this.pending)", "what is typed where others type stays in its place"),
    ("limits.js", "edit: 10000", "edit: 30000", "a long text is sent in pieces"),
    ("limits.js", "parts: 16", "parts: 99", "many places are sent in pieces"),
    ("connection.js", "CROWDED, NOT_JOINED].includes", "NOT_JOINED].includes", "a crowded pad is tried again"),
    ("session.js", "if (PASSING.includes(reply.code)) this.heldBy = reply;\n    else {\n      this.refusal", "{\n      this.refusal", "a full disk passes"),
    ("open_pad.py", "                if refusal.code == NOT_JOINED:\n                    self._session.renew()\n                    return\n", "", "a visit that somebody ended is no end"),
    ("connection.py", "_CLOSED_PAUSE = 0.3, 5.0, 30.0", "_CLOSED_PAUSE = 0.3, 5.0, 0.3", "words for a closed pad are not called saved"),
    ("session.py", 'return "closed" if self._is_shut else "lost"', 'return "saved" if self._is_shut else "lost"', "words for a closed pad are not called saved"),
    ("unsent.js", "if (comment.sent && (await this.wasMade(comment, turn))) return true;", "", "an unanswered comment is made once"),
]


def play(command, *options):
    """What the kit prints of a client, and its status."""
    done = subprocess.run([PYTHON, f"{KIT}/run", *options, "--", *command], capture_output=True, text=True, env=ENVIRONMENT)
    return done.returncode, done.stdout.splitlines(), done.stderr


def passes(command, *options):
    status, lines, said = play(command, *options)
    failed = [line for line in lines if not line.startswith("ok ")]
    last = re.fullmatch(r"(\d+) passed, 0 failed", failed[-1]) if failed else None
    want((status, len(failed), last is not None and int(last[1]) >= 30), (0, 1, True), f"that all cases pass: {failed} {said[-500:]}")


def the_library_for_javascript_conforms():
    passes(JS)


def the_library_for_python_conforms():
    passes(PY)


def plant(number, file, passage, other):
    """A copy of a library with a mistake, and its program for the kit."""
    top, (language, folder, command) = os.path.abspath(f"planted-{number}"), LIBRARIES[file.rpartition(".")[2]]
    shutil.copytree(f"{ROOT}/clients/{language}", f"{top}/clients/{language}")
    os.makedirs(f"{top}/tests/conformance/clients")
    shutil.copy(command[1], f"{top}/tests/conformance/clients")
    path = f"{top}/clients/{language}/{folder}/{file}"
    with open(path, encoding="utf-8") as source:
        text = source.read()
    want(text.count(passage), 1, f"how often {file} has {passage!r}")
    with open(path, "w", encoding="utf-8") as source:
        source.write(text.replace(passage, other))
    return [command[0], f"{top}/tests/conformance/clients/{os.path.basename(command[1])}"]


def the_kit_finds_mistakes_that_are_planted():
    def finds(number):
        file, passage, other, case = MISTAKES[number]
        status, lines, said = play(plant(number, file, passage, other), "--only", case)
        has_failed = status == 1 and any(line.startswith(f"FAILED {case}") for line in lines)
        return None if has_failed else f"{case} passes with {other!r} in {file}: {lines} {said[-300:]}"

    with ThreadPoolExecutor(len(MISTAKES)) as pool:
        missed = [problem for problem in pool.map(finds, range(len(MISTAKES))) if problem]
    if missed:
        raise Failed("; ".join(missed))


def a_client_that_does_nothing_fails():
    """It answers each command that it does not do that."""
    put_files([("nothing.py", "import sys\nfor line in sys.stdin:\n    print('{\"unsupported\":true}', flush=True)\n")])
    status, lines, _ = play([PYTHON, "nothing.py"])
    failed = [line for line in lines if re.fullmatch(r"FAILED .*: the client does not show", line)]
    want((status, lines[-1], len(failed) >= 30), (1, f"0 passed, {len(failed)} failed", True), f"how the cases end: {lines}")


def a_client_need_not_make_comments():
    command = plant(len(MISTAKES), "session.py", "import asyncio\n", "import asyncio\n")
    with open(command[1], encoding="utf-8") as file:
        program = file.read()
    put_files([(command[1], program.replace('    if do == "show":\n', '    if do.startswith("comment"):\n        return {"unsupported": True}\n    if do == "show":\n'))])
    status, lines, said = play(command, "--only", "comment", "--only", "what is typed is sent")
    left_out = [line for line in lines if line.startswith("left out ")]
    due = [f"{len(left_out)} left out, which are neither passed nor failed", "1 passed, 0 failed"]
    want((status, len(left_out) >= 3, lines[-2:], "ok     what is typed is sent" in lines), (0, True, due, True), f"how the cases end: {lines} {said[-500:]}")


def a_wrong_command_line_is_told():
    for words in ([], ["--list", "--only", "no such case"], ["--"]):
        done = subprocess.run([PYTHON, f"{KIT}/run", *words], capture_output=True, text=True, env=ENVIRONMENT)
        is_listed = "--list" in words
        want((done.returncode, bool(done.stderr)), (0, False) if is_listed else (2, True), f"the status of {words}, and whether it says why")


TESTS = [
    named(the_library_for_javascript_conforms, 120),
    named(the_library_for_python_conforms, 120),
    named(the_kit_finds_mistakes_that_are_planted, 120),
    named(a_client_that_does_nothing_fails, 60),
    named(a_client_need_not_make_comments, 60),
    named(a_wrong_command_line_is_told, 20),
]

# These take minutes: tests/run --long.
LONG_TESTS = [
    named(lambda: passes(JS, "--slow"), 400, "the library for JavaScript conforms, slow cases too"),
    named(lambda: passes(PY, "--slow"), 400, "the library for Python conforms, slow cases too"),
]
