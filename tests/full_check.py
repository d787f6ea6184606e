"""The scripts of .ci/, on a small repository with a toolchain of a few lines: what the full check proves, plays and counts,
and which must-fail edits it leaves out."""
import os
import re
import subprocess

from harness import ROOT, Test, put_files, want

SCRIPTS = [".ci/run", ".ci/long", ".ci/edits", ".ci/lanes", ".ci/keep-only"]
UNPROVED = ["pad_part_tests", "sequence_tests", "server_tests", "relay_tests", "thread_tests", "client_tests", "standby_tests"]

# In place of the toolchain: notes which crates and edits it finds, leaves a program where there is one, and then says what the file
# SAYS holds. Where there is a file KEEPS, it keeps what it has proved.
RT = """#!/bin/bash
case $1 in
version) cat "$ROOM/kit" ;;
ci)
    echo "${RT_JOBS:-its own plan}:" $(ls crates) >>"$ROOM/ran"
    [[ ! -f $ROOM/keeps ]] || mkdir -p "$ROOM/rattle-kept/proof-low-1"
    [[ -d crates/pad_server ]] || { echo "1 passed, 0 failed" && exit 0; }
    ls crates >"$ROOM/crates"
    cp crates.txt "$ROOM/listed"
    echo "$RT_JOBS" >"$ROOM/lanes"
    (cd crates && ls -d */must-fail/*.edit) >"$ROOM/edits"
    mkdir -p crates/pad_server/out
    echo "of $(cat crates/pad_server/src/main.rt)" >crates/pad_server/out/pad_server
    cat "$ROOM/says"
    exit "$(cat "$ROOM/status")"
    ;;
must-fail) for edit in crates/$2/must-fail/*.edit; do echo "rt: must-fail $2/${edit##*/}: refused, as it must be: f"; done ;;
esac
"""

CRATES = """low:
high: low  # stands on low
apart:
pad_server: high
""" + "".join(f"{name}: low\n" for name in UNPROVED)

EDITS = ["low/must-fail/a.edit", "high/must-fail/b.edit", "high/must-fail-long/c.edit", "apart/must-fail/d.edit"]
NEW_EDIT = "apart/must-fail/new.edit"


def part(text, status=0):
    """A script of the repository that says this."""
    return f"#!/bin/bash\necho \"$0 $*\" >>\"$ROOM/called\"\nprintf '%s' '{text}'\nexit {status}\n"


def write(path, text):
    os.makedirs(os.path.dirname(path) or ".", exist_ok=True)
    put_files([(path, text)])


def run(*words, folder="top"):
    variables = {"PATH": f"{os.getcwd()}/rattle/bin:{os.getcwd()}/bin:/usr/bin:/bin", "ROOM": os.getcwd(), "HOME": os.getcwd()}
    git = {f"GIT_{who}_{what}": "ann@localhost" for who in ["AUTHOR", "COMMITTER"] for what in ["NAME", "EMAIL"]}
    return subprocess.run(words, cwd=folder, env={**variables, **git}, stdin=subprocess.DEVNULL, capture_output=True, text=True)


def commit():
    run("git", "add", "-A")
    want(run("git", "commit", "-q", "--allow-empty", "-m", "State").returncode, 0, "the status of git commit")


def repository(quick="2 passed, 0 failed\n", played="10 passed, 0 failed\n", says="7 passed, 0 failed\n", status=0):
    """A repository in the folder top, whose state is committed, and a toolchain."""
    for name in SCRIPTS:
        with open(f"{ROOT}/{name}", encoding="utf-8") as file:
            text = re.sub("^FIRST=.*", "FIRST=(low) LAST=(pad_server)", file.read(), flags=re.MULTILINE)
            write(f"top/{name}", text)
    scripts = [("quick", part(quick)), ("run", part(played)), ("pages", part("")), ("needs", part(""))]
    for name, text in scripts:
        write(f"top/tests/{name}", text)
    write("top/crates.txt", CRATES)
    write("top/.gitignore", "out/\n")
    for line in CRATES.splitlines():
        name = line.split(":")[0]
        write(f"top/crates/{name}/src/{'main' if name == 'pad_server' else 'lib'}.rt", f"fn {name}() {{}}\n")
    for path in EDITS:
        write(f"top/crates/{path}", f"file: src/lib.rt\nold: fn\nnew: fun of {path}\n")
    for path, text in [("rattle/bin/rt", RT), ("kit", "kit 1\n"), ("says", says), ("status", f"{status}\n")]:
        write(path, text)
    for path in ["rattle/bin/rt", *(f"top/{name}" for name in SCRIPTS), *(f"top/tests/{name}" for name, _ in scripts)]:
        os.chmod(path, 0o755)
    run("git", "init", "-q")
    commit()


def read(path):
    with open(path, encoding="utf-8") as file:
        return file.read()


def last_line(done):
    return done.stdout.splitlines()[-1], done.returncode


def all_parts_count():
    for given, line, status in [
        ({}, "19 passed, 0 failed", 0),
        ({"says": "6 passed, 2 failed\n", "status": 1}, "18 passed, 2 failed", 1),
        ({"says": "7 passed, 0 failed\n", "status": 2}, "19 passed, 1 failed", 1),
        ({"quick": "1 passed, 1 failed\n"}, "18 passed, 1 failed", 1),
        ({"played": "Traceback\n"}, "9 passed, 1 failed", 1),
        ({"played": ""}, "9 passed, 1 failed", 1),
        ({"says": "killed\n", "status": 137}, "12 passed, 1 failed", 1),
    ]:
        repository(**given)
        want(last_line(run(".ci/run")), (line, status), f"the last line and the status with {given}")
        subprocess.run(["rm", "-rf", "top"], check=True)


def what_fails_before_the_parts_counts():
    repository()
    write("top/tests/pages", part("pages.rt is old\n", 1))
    want(last_line(run(".ci/run")), ("19 passed, 1 failed", 1), "the end with old pages")
    write("top/tests/needs", part("chromium\n", 1))
    write("bin/apt-get", "#!/bin/bash\nexit 1\n")
    os.chmod("bin/apt-get", 0o755)
    want(last_line(run(".ci/run")), ("0 passed, 1 failed", 1), "the end without a package that the tests need")


def the_rest_is_proved_in_a_clone():
    repository()
    write("top/crates/pad_server/out/pad_server", "old\n")
    write("top/crates/pad_server/src/main.rt", "changed\n")
    done = run(".ci/run")
    left = sorted({line.split(":")[0] for line in CRATES.splitlines()} - {*UNPROVED})
    want(sorted(read("crates").split()), left, "the crates that are proved")
    want(read("listed"), "".join(f"{line}\n" for line in CRATES.splitlines()[: len(left)]), "the crates that are listed")
    want(read("called").splitlines()[-2:], [f"tests/quick {' '.join(UNPROVED)}", "tests/run "], "what is called last")
    want(read("top/crates/pad_server/out/pad_server"), "of fn pad_server() {}\n", "the program that tests/run plays")
    told = "full check: not committed, so not proved: 1 files, such as crates/pad_server/src/main.rt"
    want(done.stdout.splitlines()[-2], told, "the line before the last")
    want([name for name in os.listdir("top/.git") if name.startswith("full-check")], [], "what is left of the clone")


def the_minute_of_each_proof_is_told():
    repository(says="rt: low proved\nrt: apart NOT PROVED\nrt: high proved\n7 passed, 0 failed\n")
    said = run(".ci/run").stdout.splitlines()
    ends = [("tests/quick", "2 passed, 0 failed"), ("prove", "7 passed, 0 failed"), ("tests/run", "10 passed, 0 failed")]
    wanted = [f"full check: {part} ended in minute 0: {counted}" for part, counted in ends]
    want([line for line in said if " ended in minute " in line], wanted * 2, "when the parts ended, said twice")
    told = "full check: crates, and the minute in which each was proved: low 0,high 0"
    want([line for line in said if "each was proved" in line], [told] * 2, "when the crates were proved")


def what_failed_is_told_again_at_the_end():
    lines = ["".join(f"line {number} of a proof\n" for number in range(100)), "rt: low NOT PROVED\n", "6 passed, 1 failed\n"]
    repository(quick="one FAILED\n1 passed, 1 failed\n", says="".join(lines), status=1)
    write("top/tests/pages", part("pages.rt is old\n", 1))
    said = run(".ci/run").stdout.splitlines()
    said = said[said.index("Once more, what failed, and when each part ended:") :]
    for line in ["full check: tests/pages --check FAILED", "one FAILED", "line 99 of a proof", "rt: low NOT PROVED"]:
        want(line in said, True, f"that the end says: {line}")
    want("line 80 of a proof" in said, False, "that the end says what came long before a failure")


def as_many_crates_are_proved_at_a_time_as_fit():
    """One on a machine that is told to have little memory, and otherwise no more than it has processors."""
    repository()
    for kilobytes, lanes in [(1_000_000, 1), (15_000_000, min(2, os.cpu_count())), (900_000_000, os.cpu_count())]:
        write("bin/awk", f"#!/bin/bash\necho {kilobytes}\n")
        write("bin/nproc", f"#!/bin/bash\necho {os.cpu_count()}\n")
        for name in ["awk", "nproc"]:
            os.chmod(f"bin/{name}", 0o755)
        run(".ci/run")
        want(read("lanes"), f"{lanes}\n", f"how many crates are proved at a time with {kilobytes} kB")


def the_first_and_the_last_crates_have_all_processors():
    """Where rt keeps what it proves: it plans for these itself, and is told how many of the others to prove at a time."""
    repository()
    write("bin/awk", "#!/bin/bash\necho 1000000\n")
    os.chmod("bin/awk", 0o755)
    write("keeps", "")
    run(".ci/run")
    wanted = ["its own plan: low", "1: apart high low", "its own plan: apart high low pad_server"]
    want(read("ran").splitlines(), wanted, "how which crates are proved")
    os.remove("ran")
    subprocess.run(["rm", "-rf", "keeps", "rattle-kept"], check=True)
    run(".ci/run")
    want(read("ran").splitlines(), ["its own plan: low", "1: apart high low pad_server"], "the same where nothing is kept")


def a_program_that_was_not_built_is_not_played():
    repository(says="0 passed, 1 failed\n", status=1)
    write("top/crates/pad_server/out/pad_server", "old\n")
    write("rattle/bin/rt", RT.replace("echo \"of", "false \"of").replace(">crates/pad_server/out/pad_server", ""))
    run(".ci/run")
    want(os.path.exists("top/crates/pad_server/out/pad_server"), False, "that an old program is played")


def recorded():
    """The crates of the record."""
    return [line.split()[0] for line in read("top/.ci/edits-tried").splitlines() if not line.startswith("#")]


def refusals(but=()):
    return "".join(
        f"rt: must-fail {crate}/{name}: {'NOT REFUSED' if name in but else 'refused, as it must be: f'}\n"
        for crate, _, name in (path.split("/") for path in EDITS)
    )


def tried_here():
    """The edits that a check of what is committed tries."""
    commit()
    run("git", "clone", "-q", "top", "clone", folder=".")
    want(run(".ci/edits", "leave-out", folder="clone").returncode, 0, "the status of .ci/edits")
    left = [path for path in EDITS + [NEW_EDIT] if os.path.exists(f"clone/crates/{path}") and "long" not in path]
    subprocess.run(["rm", "-rf", "clone"], check=True)
    return sorted(left)


def after_long_run():
    repository(says=refusals() + "7 passed, 0 failed\n")
    want(run(".ci/long").returncode, 0, "the status of the long run")
    want(sorted(read("edits").split()), sorted(path.replace("-long", "") for path in EDITS), "the edits of the long run")
    want(sorted(read("crates").split()), sorted(line.split(":")[0] for line in CRATES.splitlines()), "the crates of the long run")
    want(recorded(), ["apart", "high", "low"], "the record")
    return read("top/.ci/edits-tried")


def edits_are_left_out_after_the_long_run():
    repository()
    want(tried_here(), sorted(path for path in EDITS if "long" not in path), "the edits without a record")
    subprocess.run(["rm", "-rf", "top"], check=True)
    after_long_run()
    want(tried_here(), [], "the edits with a record")
    told = run(".ci/run").stdout
    want(read("edits"), "", "the edits that rt finds")
    for line in ["edits of apart left out: d.edit", "edits: 3 of 3 left out, since the long run tried them on the same text; 0 are tried here"]:
        want(line in told.splitlines(), True, f"that the full check says: {line}")


def what_has_changed_brings_edits_back():
    after_long_run()
    for path, text, due in [
        ("top/crates/low/src/lib.rt", "fn low() { }\n", ["high/must-fail/b.edit", "low/must-fail/a.edit"]),
        ("top/crates/low/proofs/New.antt", "new\n", ["high/must-fail/b.edit", "low/must-fail/a.edit"]),
        ("top/crates/high/specs/New.antt", "new\n", ["high/must-fail/b.edit"]),
        ("top/crates/high/must-fail-long/c.edit", "file: src/lib.rt\nold: f\nnew: g\n", ["high/must-fail/b.edit"]),
        (f"top/crates/{NEW_EDIT}", "new\n", ["apart/must-fail/d.edit", NEW_EDIT]),
        ("top/crates.txt", CRATES.replace("high: low", "high:"), ["high/must-fail/b.edit"]),
        ("kit", "kit 2\n", [path for path in sorted(EDITS) if "long" not in path]),
        ("top/crates/pad_server/src/main.rt", "fn main() {}\n", []),
        ("top/crates/low/README.md", "Low\n", []),
    ]:
        before = read(path) if os.path.exists(path) else None
        write(path, text)
        want(tried_here(), due, f"the edits after a change of {path}")
        os.remove(path) if before is None else write(path, before)
    want(tried_here(), [], "the edits once all is as it was")


def a_wrong_line_hides_no_change():
    record = after_long_run()
    sums = dict(line.split() for line in record.splitlines() if not line.startswith("#"))
    write("top/crates/low/src/lib.rt", "fn low() { }\n")
    for line in [
        "low",
        "low *",
        f"low {sums['low'][:-1]}",
        f"low {sums['apart']}",
        f"* {sums['apart']}",
        f"low {sums['low']} {sums['low']}",
        "\udcff low",
    ]:
        write("top/.ci/edits-tried", (record + line + "\n").encode(errors="surrogateescape"))
        want(tried_here(), ["high/must-fail/b.edit", "low/must-fail/a.edit"], f"the edits with the line {line!r}")


def an_edit_that_is_not_refused_is_not_written_down():
    record = after_long_run()
    commit()
    write("says", refusals(but=["c.edit"]))
    run(".ci/long")
    want(recorded(), ["apart", "low"], "the record after an edit of high that was proved")
    write("says", refusals().replace("rt: must-fail low/a.edit: refused, as it must be: f\n", ""))
    run(".ci/long")
    want(read("top/.ci/edits-tried"), record, "the record after a run that says nothing of low")


def a_short_run_tries_no_long_edits():
    repository(says=refusals().replace("rt: must-fail high/c.edit: refused, as it must be: f\n", ""))
    want(run(".ci/long", "--short").returncode, 0, "the status of the short run")
    want(sorted(read("edits").split()), sorted(path for path in EDITS if "long" not in path), "the edits of the short run")
    want(recorded(), ["apart", "high", "low"], "the record")
    want(tried_here(), [], "the edits of the full check")
    write("says", refusals(but=["b.edit"]))
    run(".ci/long", "--short")
    want(recorded(), ["apart", "low"], "the record after an edit of high that was proved")


def edits_alone_are_tried_as_the_full_check_proves():
    repository(says=refusals(but=["b.edit"]).replace("rt: must-fail high/c.edit: refused, as it must be: f\n", ""))
    want(run(".ci/long", "--short", "--edits").returncode, 0, "the status of a run that tries edits alone")
    want(sorted(read("edits").split()), sorted(path for path in EDITS if "long" not in path), "the edits of that run")
    proved = sorted({line.split(":")[0] for line in CRATES.splitlines()} - {*UNPROVED})
    want(sorted(read("crates").split()), proved, "the crates of that run")
    want(recorded(), ["apart", "low"], "the record, where an edit of high was proved")
    want(os.path.exists("called") and "tests/run" in read("called"), False, "that the tests of programs are played")


def single_crates_and_what_has_changed():
    repository()
    run(".ci/long", "high")
    want(recorded(), ["high"], "the record after the run for one crate")
    commit()
    run(".ci/long", "--changed")
    want(sorted(read("edits").split()), ["apart/must-fail/d.edit", "low/must-fail/a.edit"], "the edits of what has changed")
    want(recorded(), ["high"], "the record after that")


TESTS = [
    Test("full check: the parts are counted together", all_parts_count, 60),
    Test("full check: what fails before the parts counts", what_fails_before_the_parts_counts),
    Test("full check: the rest is proved in a clone", the_rest_is_proved_in_a_clone),
    Test("full check: the minute of each proof is told", the_minute_of_each_proof_is_told),
    Test("full check: what failed is told again at the end", what_failed_is_told_again_at_the_end),
    Test("full check: as many crates are proved at a time as fit", as_many_crates_are_proved_at_a_time_as_fit),
    Test("full check: the first and the last crates have all processors", the_first_and_the_last_crates_have_all_processors),
    Test("full check: a program that was not built is not played", a_program_that_was_not_built_is_not_played),
    Test("full check: edits are left out after the long run", edits_are_left_out_after_the_long_run),
    Test("full check: what has changed brings edits back", what_has_changed_brings_edits_back, 60),
    Test("full check: a wrong line hides no change", a_wrong_line_hides_no_change, 60),
    Test("full check: an edit that is not refused is not written down", an_edit_that_is_not_refused_is_not_written_down),
    Test("full check: a short run tries no long edits", a_short_run_tries_no_long_edits),
    Test("full check: edits alone are tried as it proves", edits_alone_are_tried_as_the_full_check_proves),
    Test("full check: single crates, and what has changed", single_crates_and_what_has_changed),
]
