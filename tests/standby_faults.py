"""A standby whose disk fails, is full, or that finds no memory, and a main server that finds none to send with: what was confirmed is
there, and in the end the copy is the file."""
import errno
import itertools
import shutil
import time

from faults import Faults
from harness import Failed, Test, want
from two_machines import Machines, files_of, wait_until_copied

EDITS = 6

# In a run of all tests, every second call fails, and every 19th allocation is refused, in 22 runs at most. In the long run, every
# call fails, and every seventh allocation is refused.
CALL_STEP, ALLOCATION_STEP, MOST = 2, 19, 22
LONG_CALL_STEP, LONG_ALLOCATION_STEP, LONG_MOST = 1, 7, 60


class FaultyMachines(Machines):
    """The same two machines, of which calls of one fail."""

    def __init__(self, faulty):
        super().__init__()
        self.faults, self.faulty = Faults(), faulty

    def variables(self, number):
        return self.faults.variables if number == self.faulty else None

    def revive(self):
        """The main server starts again where it has ended."""
        if self.processes[1].poll() is not None:
            self.main("1")


class Patient:
    """An author who asks again where memory is refused, also over a new connection: one that finds no memory ends without a word,
    and a server that finds none for what it has to store ends."""

    def __init__(self, machines):
        self.machines, self.client = machines, None

    def asks(self, **request):
        """The answer, or None where the connection ended before it."""
        try:
            self.client = self.client or self.machines.author("ann")
            return self.client.ask(**request)
        except (OSError, ValueError, Failed):
            self.client = None
            time.sleep(0.2)  # a server that is to end does so meanwhile
            self.machines.revive()
            return None

    def does(self, is_done, **request):
        for _ in range(20):
            answer = self.asks(**request)
            if answer and answer["ok"] or is_done():
                return
        raise Failed(f"{request} is answered {answer} again and again")

    def revision(self):
        """How many operations the pad has; None where that is not answered."""
        self.asks(do="join", pad="p")
        answer = self.asks(do="revs", pad="p")
        return answer["now"] if answer and answer["ok"] else None


def edits(machines):
    """Makes a pad and types into it, and returns how many edits were confirmed: answered while the server did not go on alone."""
    ann = Patient(machines)
    confirmed = 0
    ann.does(lambda: ann.revision() is not None, do="create", pad="p")
    for rev in range(EDITS):
        ann.does(lambda: (ann.revision() or 0) > rev, do="insert", pad="p", rev=rev, at=0, text=f"{rev} ")
        if "goes on alone" not in machines.said(1):
            confirmed = rev + 1
    if ann.client:
        ann.client.close()
    return confirmed


def operations_in(store):
    data = files_of(store).get("p.pad", b"")
    return data.count(b'"kind":"delivered"') if data.endswith(b"\n") else data.rpartition(b"\n")[0].count(b'"kind":"delivered"')


def is_front(store):
    for name, copied in files_of(store).items():
        with open(f"main/{name}", "rb") as file:
            whole = copied[: copied.rfind(b"\n") + 1]
            want(file.read(len(whole)) == whole, True, f"that the whole lines of the copy of {name} are the beginning of the file")


def begin_again(machines):
    for number, process in machines.processes.items():
        if process.poll() is None:
            machines.kill(number)
        open(f"said{number}", "w").close()
    machines.processes = {}
    for store in ("main", "copy"):
        shutil.rmtree(store, ignore_errors=True)


def run_with(machines, call, number, more=()):
    """One run in which a call fails. Returns whether it did, and what was confirmed."""
    before = machines.faults.failed()
    machines.standby()
    machines.main("1")
    machines.wait_until_said(1, "the standby 2 has everything")
    for field, value in more:
        machines.faults.set(field, value)
    machines.faults.set(call, number)
    confirmed = edits(machines)
    machines.faults.set(call, 0)
    return machines.faults.failed() > before, confirmed


def check_copy(machines, confirmed):
    """The standby starts again, has what was confirmed, and then everything."""
    if machines.processes[2].poll() is None:
        machines.kill(2)
    machines.standby()
    is_front("copy")
    if operations_in("copy") < confirmed:
        raise Failed(f"{confirmed} edits were confirmed, and the copy has {operations_in('copy')}")
    wait_until_copied()


def each_confirmation_is_synced():
    """One edit after the other, each confirmed: the standby has made a sync for each."""
    machines = FaultyMachines(2)
    machines.standby()
    machines.main("5")
    machines.wait_until_said(1, "the standby 2 has everything")
    before = machines.faults.get("syncs_made")
    want(edits(machines), EDITS, "how many edits were confirmed")
    made = machines.faults.get("syncs_made") - before
    if made < EDITS + 1:  # the pad was made, too
        raise Failed(f"the standby made {made} syncs for {EDITS + 1} confirmed steps")


def calls_of_the_standby_fail(step):
    machines = FaultyMachines(2)
    for call, error in [("syncs", 0), ("writes", 0), ("writes", errno.ENOSPC)]:
        for number in itertools.count(1, step):
            has_failed, confirmed = run_with(machines, call, number, [("error", error)])
            if has_failed:
                check_copy(machines, confirmed)
            begin_again(machines)
            machines.faults.set("error", 0)
            if not has_failed:
                break
        if number < 3:
            raise Failed(f"only {number - 1} {call} failed")


def memory_is_refused(machines, step, most):
    refused = 0
    for number in itertools.count(1, step):
        has_failed, confirmed = run_with(machines, "allocations", number, [("everywhere", 1)])
        if has_failed:
            refused += 1
            check_copy(machines, confirmed)
        begin_again(machines)
        if not has_failed or refused == most:
            break
    if refused < 10:
        raise Failed(f"only {refused} allocations were refused")


STANDBY, MAIN = 2, 1
TESTS = [
    Test("standby: each confirmation is synced", each_confirmation_is_synced),
    Test("standby: calls of it fail", lambda: calls_of_the_standby_fail(CALL_STEP), 240),
    Test("standby: memory is refused to it", lambda: memory_is_refused(FaultyMachines(STANDBY), ALLOCATION_STEP, MOST), 240),
    Test(
        "standby: memory is refused to the main server",
        lambda: memory_is_refused(FaultyMachines(MAIN), ALLOCATION_STEP, MOST),
        240,
    ),
]
LONG_TESTS = [
    Test("standby: each call of it fails", lambda: calls_of_the_standby_fail(LONG_CALL_STEP), 900),
    Test(
        "standby: memory is refused to it often",
        lambda: memory_is_refused(FaultyMachines(STANDBY), LONG_ALLOCATION_STEP, LONG_MOST),
        900,
    ),
]
