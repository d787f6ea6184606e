"""What every test here stands on: starting a program, comparing what it did, and running tests so that each of them ends.

A test is a function that takes no argument and raises `Failed` where something is not as it should be. It runs in a
process of its own, in an empty folder of its own, with a time limit of its own. When it has ended, or its time is over,
every process that it started is killed.
"""
import os
import resource
import shlex
import shutil
import signal
import subprocess
import sys
import tempfile
import time
import traceback
from dataclasses import dataclass
from typing import Callable, Optional, Tuple, Union

ROOT = os.path.dirname(os.path.dirname(os.path.realpath(__file__)))
SECONDS = 20
LONGEST = 20  # tests whose times are told at the end


class Failed(Exception):
    """Something is not as the test wants it."""


@dataclass(frozen=True)
class Test:
    """One thing to try. `seconds` is how long it may take; `alone` says that no other test may run meanwhile, since it measures
    short times."""

    name: str
    function: Callable[[], None]
    seconds: float = SECONDS
    alone: bool = False


@dataclass(frozen=True)
class Has:
    """A text that has to hold each of these parts, where its exact words are not promised."""

    parts: Tuple[str, ...]

    def __init__(self, *parts):
        object.__setattr__(self, "parts", parts)


class Starts(Has):
    """The same of a text that starts with the first of the parts."""


# What standard input, output or error can be, beside bytes that are given or read.
CLOSED = "closed"  # no such descriptor
FULL = "/dev/full"  # a device with no room
FOLDER = "folder"  # the folder of the test, opened for reading
UNREAD = "unread"  # a pipe whose reader has gone


@dataclass(frozen=True)
class Case:
    """A run of a program: what it gets, and what it has to do.

    `files` are put into the test's folder, in which the program runs. `stdin` is a text or bytes, or one of the devices
    CLOSED and FOLDER; `to` and `errors_to` may be CLOSED, FULL or UNREAD, and then nothing of that stream is compared.
    `memory` is how many bytes the program may map, its own code among them.
    """

    name: str
    args: str
    stdin: Union[str, bytes] = ""
    stdout: Union[str, bytes, Has] = ""
    status: int = 0
    stderr: Union[str, Has] = ""
    files: Tuple[Tuple[str, Union[str, bytes]], ...] = ()
    program: str = "pad_server"
    to: Optional[str] = None
    errors_to: Optional[str] = None
    memory: Optional[int] = None
    seconds: float = SECONDS

    def test(self):
        return Test(f"{self.program}: {self.name}", lambda: play(self), self.seconds)


def path_of(program):
    """The program as `rt ci` and `rt run` leave it."""
    path = f"{ROOT}/crates/{program}/out/{program}"
    if not os.path.isfile(path):
        raise Failed(f"crates/{program}/out/{program} is not there: rt ci leaves it, and so does rt run in crates/{program}")
    return path


def as_bytes(text):
    return text.encode() if isinstance(text, str) else text


def put_files(files):
    for name, content in files:
        with open(name, "wb") as file:
            file.write(as_bytes(content))


def start(program, args, variables=None, **streams):
    """Starts a program in the folder of the test, with no environment but a path and these variables."""
    words = shlex.split(args) if isinstance(args, str) else args
    environment = {"PATH": "/usr/bin:/bin", **(variables or {})}
    return subprocess.Popen([path_of(program), *words], env=environment, **streams)


def open_output(device):
    """A descriptor for what a program writes, or None where its output is read."""
    if device is None:
        return subprocess.PIPE
    if device == UNREAD:
        reader, writer = os.pipe()
        os.close(reader)
        return writer
    return os.open(FULL if device == FULL else os.devnull, os.O_WRONLY)


def play(case):
    """Runs a case, and compares."""
    put_files(case.files)
    given = as_bytes(case.stdin)
    stdin = subprocess.PIPE
    if case.stdin == FOLDER:
        stdin = os.open(".", os.O_RDONLY)
    if case.stdin == CLOSED:
        stdin = subprocess.DEVNULL
    process = start(
        case.program,
        case.args,
        stdin=stdin,
        stdout=open_output(case.to),
        stderr=open_output(case.errors_to),
        preexec_fn=lambda: set_up(case),
    )
    wrote, said = process.communicate(given if stdin == subprocess.PIPE else None)
    said = (said or b"").decode(errors="replace")
    problems = []
    if process.returncode != case.status:
        problems.append(f"status {process.returncode}, wanted {case.status}")
    if case.to is None:
        problems += differences("standard output", wrote, case.stdout)
    if case.errors_to is None:
        problems += differences("standard error", said.encode(), case.stderr)
    if problems:
        raise Failed("; ".join(problems) + (f" (standard error: {said.strip()[:300]!r})" if said else ""))


def set_up(case):
    """In the program's process, once the streams stand in their places, and before it begins."""
    for number, device in enumerate([case.stdin, case.to, case.errors_to]):
        if device == CLOSED:
            os.close(number)
    if case.memory is not None:
        resource.setrlimit(resource.RLIMIT_AS, (case.memory, case.memory))


def differences(what, got, wanted):
    """Where bytes differ from those that are wanted; an empty list if they are equal."""
    if isinstance(wanted, Has):
        text = got.decode(errors="replace")
        start = isinstance(wanted, Starts) and not text.startswith(wanted.parts[0])
        return [f"{what} lacks {part!r}" for part in wanted.parts if part not in text] + [f"{what} starts otherwise"] * start
    got_lines, wanted_lines = got.split(b"\n"), as_bytes(wanted).split(b"\n")
    if got_lines == wanted_lines:
        return []
    for number in range(max(len(got_lines), len(wanted_lines))):
        ours = wanted_lines[number] if number < len(wanted_lines) else None
        theirs = got_lines[number] if number < len(got_lines) else None
        if ours != theirs:
            return [f"{what}, line {number + 1}: {shown(theirs)}, wanted {shown(ours)}"]
    return []


def shown(line):
    return "no such line" if line is None else repr(line.decode(errors="backslashreplace"))[:300]


def want(got, wanted, what):
    if got != wanted:
        raise Failed(f"{what}: {got!r}, wanted {wanted!r}")


# ---- running


class Run:
    """A test that runs in a process and a folder of its own."""

    def __init__(self, test, seconds):
        self.test, self.folder, self.problem = test, tempfile.mkdtemp(prefix="pads-"), None
        self.seconds, self.began = seconds, time.monotonic()
        self.reader, writer = os.pipe()
        self.child = os.fork()
        if self.child == 0:
            os.close(self.reader)
            run_child(test, self.folder, writer)
        os.close(writer)

    def has_ended(self):
        """Whether it has ended, or has no time left; `problem` then says what is wrong, if anything is."""
        ended, status = os.waitpid(self.child, os.WNOHANG)
        self.took = time.monotonic() - self.began
        if not ended and self.took <= self.seconds:
            return False
        try:
            os.killpg(self.child, signal.SIGKILL)
        except OSError:
            if not ended:
                os.kill(self.child, signal.SIGKILL)
        if ended:
            word = os.read(self.reader, 65536)
            if word != b"ok":
                self.problem = word.decode(errors="replace") or f"its process ended with status {status}"
        else:
            os.waitpid(self.child, 0)
            self.problem = f"it had not ended after {self.seconds} seconds"
        os.close(self.reader)
        shutil.rmtree(self.folder, ignore_errors=True)
        return True


def run_child(test, folder, writer):
    """The test's own process: a word for what is wrong goes to the pipe."""
    problem = b""
    try:
        os.setsid()
        resource.setrlimit(resource.RLIMIT_CORE, (0, 0))
        most = resource.getrlimit(resource.RLIMIT_NOFILE)[1]
        resource.setrlimit(resource.RLIMIT_NOFILE, (most, most))
        os.chdir(folder)
        test.function()
    except Failed as failed:
        problem = str(failed).encode(errors="backslashreplace")
    except BaseException:
        problem = traceback.format_exc().encode(errors="backslashreplace")
    try:
        os.write(writer, (problem or b"ok")[:4000])
    finally:
        os._exit(0)


def run_side_by_side(tests, lanes):
    """Runs so many tests at a time, and gives each when it has ended. Those that share the machine have twice their time."""
    waiting, running = list(reversed(tests)), []
    while waiting or running:
        while waiting and len(running) < lanes:
            test = waiting.pop()
            running.append(Run(test, test.seconds * min(lanes, 2)))
        ended = [run for run in running if run.has_ended()]
        running = [run for run in running if run not in ended]
        yield from ended
        if not ended:
            time.sleep(0.002)


def run_all(tests, lanes=1):
    """Runs so many tests at a time, those that may take long first, and then one by one those that are to be alone. One that fails
    beside others is tried once more alone, and both are told: a busy machine can be too slow for it. Says which took longest. The
    last line says how many passed and failed."""
    names = [test.name for test in tests]
    passed = failed = 0
    for name in sorted({name for name in names if names.count(name) > 1}):
        print(f"FAILED {name}: two tests have this name")
        failed += 1
    together = sorted((test for test in tests if not test.alone), key=lambda test: -test.seconds)
    alone = [test for test in tests if test.alone]
    took = {}
    for run in run_side_by_side(together, lanes):
        took[run.test.name] = run.took
        if run.problem is None:
            passed += 1
        else:
            alone.append(run.test)
            print(f"once more, alone: {run.test.name}: {run.problem}", flush=True)
    for run in run_side_by_side(alone, 1):
        took[run.test.name] = run.took
        if run.problem is None:
            passed += 1
        else:
            failed += 1
            print(f"FAILED {run.test.name}: {run.problem}", flush=True)
    if len(took) > LONGEST:
        for name in sorted(took, key=took.get, reverse=True)[:LONGEST]:
            print(f"{took[name]:5.0f} s  {name}")
    print(f"{passed} passed, {failed} failed")
    return 1 if failed or not passed else 0
