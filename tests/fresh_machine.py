"""A copy of the scripts `serve` and `prove` with nothing built, and a toolchain of a few lines that locks as the real one
does."""
import os
import signal
import socket
import subprocess
import threading
import time

from harness import ROOT, Failed, path_of, put_files, want
from sockets import Client

# Notes what it is called for, its priority and its process; what it builds is the server that is built already.
RT = '''#!/usr/bin/python3
import fcntl, os, shutil, sys, time

def note(*words):
    with open(os.environ["NOTES"], "a") as file:
        file.write(" ".join(words) + "\\n")

def wait_for(variable):
    end = time.monotonic() + 90
    while os.environ.get(variable) and not os.path.exists(os.environ[variable]) and time.monotonic() < end:
        time.sleep(0.02)

def below(name):
    return {other for it in uses[name] for other in {it} | below(it)}

crate, verb = os.path.basename(os.getcwd()), sys.argv[1]
if verb == "try":
    note("try", crate, str(os.getpid()))
    wait_for("BUILD")
    os.execv(os.environ["BUILT"], ["pad_server", *sys.argv[sys.argv.index("--") + 1 :]])
heads = [line.partition("#")[0] for line in open("../../crates.txt").read().splitlines()]
lines = [head.partition(":") for head in heads if ":" in head]
listed = {name for name, _, _ in lines}
uses = {name: [it for it in rest.split() if it in listed] for name, _, rest in lines}
# Each rt locks the folders of its crate and of all below it, for its whole run.
held = [os.open(f"../{name}", os.O_RDONLY) for name in sorted(below(crate) | {crate})]
for folder in held:
    fcntl.flock(folder, fcntl.LOCK_EX)
os.makedirs("out/incremental", exist_ok=True)
with open("out/incremental/kept", "a") as file:
    file.write("one run\\n")
# A test that kills what has begun asks what it kept, so that is there before.
note("begin", crate, str(os.getpriority(os.PRIO_PROCESS, 0)), str(os.getpid()))
lacking = [name for name in uses[crate] if not os.path.exists(f"../{name}/out/rlib/stamp")]
for name in lacking:
    print(f"{name} is not built")
if crate == "pad_core":
    wait_for("GO")
while crate in os.environ.get("TOGETHER", "").split():
    begun = [line.split()[1] for line in open(os.environ["NOTES"]) if line.startswith("begin ")]
    if all(it in begun for it in os.environ["TOGETHER"].split()):
        break
    time.sleep(0.02)
if crate == os.environ.get("FAILS") or lacking:
    print(f"fn {crate}::f: not proved")
    sys.exit(1)
if verb == "lib":
    os.makedirs("out/rlib", exist_ok=True)
    open("out/rlib/stamp", "w").close()
else:
    shutil.copy(os.environ["BUILT"], "out/new")
    os.rename("out/new", "out/pad_server")
note("end", crate)
'''

PATIENCE = 150  # seconds, for what is to come; a busy machine takes long


def free_port():
    with socket.socket() as free:
        free.bind(("127.0.0.1", 0))
        return free.getsockname()[1]


def crates_below():
    """What each crate of this repository depends on, of this repository and of the kit."""
    with open(f"{ROOT}/crates.txt", encoding="utf-8") as file:
        heads = [line.partition("#")[0] for line in file]
    rows = [head.partition(":") for head in heads if ":" in head]
    return {head.split()[0]: rest.split() for head, _, rest in rows}


def make_machine(**more):
    """Puts the scripts, the list of crates and the toolchain into the folder of the test. Returns the environment."""
    for name in ["serve", "prove", "crates.txt"]:
        with open(f"{ROOT}/{name}", "rb") as file:
            put_files([(name, file.read())])
        os.chmod(name, 0o755)
    for name in crates_below():
        os.makedirs(f"crates/{name}/src")
    os.mkdir("bin")
    put_files([("bin/rt", RT), ("notes", ""), ("crates/pad_server/src/main.rt", '"web"')])
    os.chmod("bin/rt", 0o755)
    here = os.getcwd()
    variables = {"PATH": f"{here}/bin:/usr/bin:/bin", "NOTES": f"{here}/notes", "BUILT": path_of("pad_server")}
    return {**variables, **{name: f"{here}/{value}" if name in ("GO", "BUILD") else value for name, value in more.items()}}


def notes():
    """What the toolchain has noted, each as a list of words."""
    with open("notes", encoding="utf-8") as file:
        return [line.split() for line in file.read().splitlines()]


def touch(name):
    put_files([(name, "")])


def is_running(pid):
    try:
        with open(f"/proc/{pid}/stat", encoding="utf-8") as file:
            return file.read().rpartition(")")[2].split()[0] != "Z"
    except FileNotFoundError:
        return False


def left_running():
    """What the toolchain has started and still runs."""
    return [row for row in notes() if row[0] in ("begin", "try") and is_running(row[-1])]


def begun(name):
    return [row for row in notes() if row[:2] == ["begin", name]]


def wait_until(is_so, what):
    end = time.monotonic() + PATIENCE
    while not is_so():
        if time.monotonic() > end:
            raise Failed(f"it has not come to this: {what}")
        time.sleep(0.02)


def nothing_is_left():
    wait_until(lambda: not left_running(), f"that nothing of the toolchain runs: {left_running()}")
    want(os.listdir("out/rooms") if os.path.exists("out/rooms") else [], [], "the rooms that are left")


MACHINES = []  # those that a test has started


def ends_machines(function):
    """The test, after which nothing runs on: what the script starts is in groups of its own, which no test's end would reach."""

    def tried():
        try:
            function()
        finally:
            for machine in MACHINES:
                if machine.process.poll() is None:
                    machine.ends(signal.SIGTERM)
            for row in left_running() if os.path.exists("notes") else []:
                os.kill(int(row[-1]), signal.SIGKILL)

    return tried


def hear_signals():
    """What was started in the background may have been told to ignore Ctrl-C and a closed terminal, and passes that on."""
    for number in (signal.SIGINT, signal.SIGHUP):
        signal.signal(number, signal.SIG_DFL)


class Machine:
    """The script `serve` on a machine with nothing built. What it says is read as it comes."""

    def __init__(self, *words, **more):
        self.variables = make_machine(**more)
        self.port, self.web, self.lines = free_port(), free_port(), []
        MACHINES.append(self)
        self.start(*words)

    def start(self, *words):
        addresses = ["--listen", f"127.0.0.1:{self.port}", "--web", f"127.0.0.1:{self.web}"]
        streams = {"stdin": subprocess.DEVNULL, "stdout": subprocess.PIPE, "stderr": subprocess.STDOUT}
        self.process = subprocess.Popen(
            ["./serve", *addresses, *words], env=self.variables, text=True, start_new_session=True, preexec_fn=hear_signals, **streams
        )
        threading.Thread(target=self.read, args=(self.process,), daemon=True).start()

    def read(self, process):
        for line in process.stdout:
            self.lines.append(line.rstrip())

    def said(self, part, behind=0):
        """Waits until a line behind the first so many has this part."""
        end = time.monotonic() + PATIENCE
        while time.monotonic() < end:
            if any(part in line for line in self.lines[behind:]):
                return
            time.sleep(0.02)
        raise Failed(f"it has not said {part!r}: {self.lines}")

    def author(self):
        """A connection of the first author of the accounts file."""
        with open("accounts", encoding="utf-8") as file:
            _, name, token = file.readline().split()
        client = Client(self.port)
        client.does(do="hello", name=name, token=token)
        return client

    def ends(self, number, whole_group=False):
        """Ends the script by a signal, to it alone or to all that runs with it, and returns its status."""
        (os.killpg if whole_group else os.kill)(self.process.pid, number)
        return self.process.wait()

