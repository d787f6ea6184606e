"""The script `prove`: crates are proved side by side, each in a room of its own, and it says how many minutes remain."""
import importlib.machinery
import importlib.util
import os
import signal
import subprocess

from fresh_machine import begun, crates_below, ends_machines, make_machine, notes, nothing_is_left, touch, wait_until
from harness import ROOT, Test, want


def a_killed_run_loses_nothing():
    """After a kill of the proofs, their rooms are left; the next start gives the crates back what was kept there."""
    variables = make_machine(GO="GO")
    process = subprocess.Popen(["./prove"], env=variables, stderr=subprocess.DEVNULL)
    wait_until(lambda: begun("pad_core"), "that pad_core is being proved")
    process.kill()
    process.wait()
    os.kill(int(begun("pad_core")[0][-1]), signal.SIGKILL)
    want(os.path.exists("crates/pad_core/out"), False, "that the crate has what its room has")
    want("pad_core" in os.listdir("out/rooms"), True, "that the room is left")
    touch("GO")
    want(subprocess.run(["./prove"], env=variables, capture_output=True).returncode, 0, "the status of the second run")
    nothing_is_left()
    for name, runs in [("pad_core", 2), ("pad_server", 1)]:
        with open(f"crates/{name}/out/incremental/kept", encoding="utf-8") as file:
            want(file.read().count("one run"), runs, f"how many runs the work that {name} keeps has seen")


def crates_that_share_one_are_proved_at_the_same_time():
    """comments and text_history both stand on pad_model, which a proof of either locks; each waits here until the other has begun."""
    below = crates_below()
    want(all("pad_model" in below[name] for name in ["comments", "text_history"]), True, "that both stand on pad_model")
    variables = make_machine(TOGETHER="comments text_history")
    done = subprocess.run(["./prove", "--jobs", "2", "comments", "text_history"], env=variables, capture_output=True, text=True)
    want((done.returncode, done.stderr.splitlines()[-1]), (0, "prove: all 3 crates are proved"), "the status and the last line")
    nothing_is_left()


def everything_is_proved_lowest_first():
    below = crates_below()
    done = subprocess.run(["./prove", "--jobs", "4"], env=make_machine(), capture_output=True, text=True)
    want(done.returncode, 0, f"the status, with {done.stderr}")
    told = notes()
    crates = [row[1] for row in told if row[0] == "begin"]
    want((len(set(crates)), crates[-1]), (len(crates), "pad_server"), "how many crates are proved, each once, and the last one")
    for number, (word, name, *_) in enumerate(told):
        if word == "begin":
            ended = [row[1] for row in told[:number] if row[0] == "end"]
            want([other for other in below[name] if other in below and other not in ended], [], f"what is missing below {name}")
    largest = max(sum(row[0] == "begin" for row in told[:at]) - sum(row[0] == "end" for row in told[:at]) for at in range(len(told)))
    want(largest <= 4, True, f"that {largest} at once are at most four")


def script():
    """The script as a module."""
    loader = importlib.machinery.SourceFileLoader("prove", f"{ROOT}/prove")
    module = importlib.util.module_from_spec(importlib.util.spec_from_loader("prove", loader))
    loader.exec_module(module)
    return module


def played(lanes, factor):
    """Plays all proofs of the server, each of which takes so many times what the script has in its table. Returns the minutes
    that have passed and those that were told, every five minutes and after each proof."""
    proofs = script().Proofs(["pad_server"], lanes)
    rows, now, began = [(0, proofs.estimate.tell({}, {}))], 0, {}
    while len(proofs.took) < len(proofs.order):
        for name in proofs.ready()[: lanes - len(began)]:
            began[name] = proofs.running[name] = now
        ends = {name: began[name] + factor * proofs.estimate.seconds(name) for name in began}
        first = min(ends, key=ends.get)
        now = min(ends[first], now + 300)
        if now == ends[first]:
            proofs.took[first] = now - began.pop(first)
            proofs.running.pop(first)
        runs = {name: now - since for name, since in began.items()}
        rows.append((now / 60, proofs.estimate.tell(proofs.took, runs)))
    return rows


def minutes_count_down():
    for lanes, factor in [(1, 1), (2, 1), (4, 1), (2, 0.5), (4, 0.5)]:
        rows = played(lanes, factor)
        told = [minutes for _, minutes in rows]
        want(told, sorted(told, reverse=True), f"the minutes that are told with {lanes} lanes, in order")
        want(told[-1], 0, "what is told in the end")
        total = rows[-1][0]
        for now, minutes in [row for row in rows if row[0] >= total / 2]:
            want(abs(now + minutes - total) <= 0.15 * total, True, f"that {minutes} remain after {now} of {total} minutes")


def minutes_rise_where_it_is_slower():
    """If each proof takes twice as long as in the table, more minutes are told than at first, and in the end the right ones."""
    rows = played(2, 2)
    total = rows[-1][0]
    want(max(minutes for _, minutes in rows) > rows[0][1], True, "that the minutes rise")
    for now, minutes in [row for row in rows if row[0] >= total / 2]:
        want(abs(now + minutes - total) <= 0.15 * total, True, f"that {minutes} remain after {now} of {total} minutes")


def a_lone_proof_takes_all_processors():
    """Of four processors each proof takes twice its share, and fewer where the memory is short."""
    prove = script()
    os.sched_getaffinity = lambda _: range(4)
    for proved, free, jobs in [("none", 20_000_000, 2), ("all", 20_000_000, 4), ("all", 6_500_000, 3), ("all", 3_000_000, 1)]:
        prove.free_memory = lambda free=free: free
        proofs = prove.Proofs(["pad_server"], 4)
        proofs.took = {name: 1 for name in proofs.order if proved == "all" and name != "pad_server"}
        want(proofs.jobs(), jobs, f"the processes of a proof where {proved} of the others are proved, with {free} kB")


def words_are_refused():
    for words, status, part in [
        (["nothing"], 1, "prove: crates.txt has no crate nothing"),
        (["--all"], 1, "./prove [--jobs N]"),
        (["--jobs"], 1, "./prove [--jobs N]"),
        (["--jobs", "two"], 1, "./prove [--jobs N]"),
    ]:
        done = subprocess.run(["./prove", *words], env=variables_of_a_machine(), capture_output=True, text=True)
        want((done.returncode, part in done.stderr), (status, True), f"prove {words}: {done.stderr}")
    done = subprocess.run([f"{ROOT}/prove"], env={"PATH": "/usr/bin:/bin"}, capture_output=True, text=True)
    want((done.returncode, "is not on the path" in done.stderr), (1, True), f"prove without rt: {done.stderr}")


def variables_of_a_machine():
    return {"PATH": f"{os.getcwd()}/bin:/usr/bin:/bin"} if os.path.exists("prove") else make_machine()


TESTS = [
    Test("prove: crates that share one are proved at the same time", ends_machines(crates_that_share_one_are_proved_at_the_same_time)),
    Test("prove: everything, lowest first", everything_is_proved_lowest_first, 60),
    Test("prove: a killed run loses nothing", ends_machines(a_killed_run_loses_nothing), 100),
    Test("prove: the minutes that remain count down", minutes_count_down),
    Test("prove: they rise where proofs take longer", minutes_rise_where_it_is_slower),
    Test("prove: a lone proof takes all processors", a_lone_proof_takes_all_processors),
    Test("prove: wrong words", words_are_refused),
]
