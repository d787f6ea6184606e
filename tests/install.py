"""The script `install`: what it puts where, with which modes, and what the manual pages and the unit say."""
import os
import re
import shlex
import subprocess

from harness import ROOT, Test, path_of, put_files, want

PREFIX = "/opt/pads"
PROGRAMS = ["pad_server", "pad_accounts", "pad_store", "pad_replay"]
PAGES = ["README.md", "CHANGELOG.md", "LICENSE-APACHE", "LICENSE-MIT", "NOTICE", "SECURITY.md"]
UNIT = f"root{PREFIX}/lib/systemd/system/pad_server.service"
EXAMPLE = "root/etc/pads/accounts.example"


def run(words, **variables):
    """What a command writes, with an environment of a path and these variables."""
    environment = {"PATH": os.environ["PATH"], **variables}
    return subprocess.run(words, env=environment, capture_output=True, text=True)


def install(*words, **variables):
    for program in PROGRAMS:
        path_of(program)
    return run([f"{ROOT}/install", *words], **variables)


def installed():
    done = install("--prefix", PREFIX, DESTDIR=f"{os.getcwd()}/root")
    want((done.returncode, done.stderr), (0, ""), "the status of install, and its messages")
    return done


def read(path):
    with open(path, encoding="utf-8") as file:
        return file.read()


def linked_pages():
    """The pages of docs/ that the README links to or shows, and those that it does not."""
    linked = set(re.findall(r"\]\((docs/[^)#]*)", read(f"{ROOT}/README.md")))
    there = {f"docs/{name}" for name in os.listdir(f"{ROOT}/docs") if name.endswith((".md", ".png"))}
    return sorted(linked | there)


def of_pads():
    """The files of the command line pads, and of the library for Python on which it stands."""
    share = f"root{PREFIX}/share"
    due = {f"root{PREFIX}/bin/pads": "0o755", f"{share}/man/man1/pads.1": "0o644", f"{share}/bash-completion/completions/pads": "0o644"}
    for package in ("pads", "vindrughe"):
        names = [name for name in os.listdir(f"{ROOT}/clients/python/{package}") if name.endswith((".py", ".typed"))]
        due |= {f"{share}/vindrughe/python/{package}/{name}": "0o644" for name in names}
    return due


def everything_is_installed():
    installed()
    found = {}
    for folder, _, names in os.walk("root"):
        found |= {os.path.join(folder, name): oct(os.stat(os.path.join(folder, name)).st_mode & 0o777) for name in names}
    due = {f"root{PREFIX}/bin/{name}": "0o755" for name in PROGRAMS}
    due |= {f"root{PREFIX}/share/man/man1/{name}.1": "0o644" for name in PROGRAMS}
    due |= {f"root{PREFIX}/share/doc/vindrughe/{name}": "0o644" for name in PAGES + linked_pages()}
    due |= {UNIT: "0o644", EXAMPLE: "0o644", f"root{PREFIX}/share/vindrughe/failover": "0o755", **of_pads()}
    want(found, due, "the files that are installed, with their modes")
    for name in [*PROGRAMS, "pads"]:
        version = run([f"root{PREFIX}/bin/{name}", "--version"], PYTHONDONTWRITEBYTECODE="1")
        want((version.returncode, version.stdout), (0, f"{name} 0.1.0\n"), f"the version of the installed {name}")


def a_second_time_changes_no_accounts():
    installed()
    put_files([("root/etc/pads/accounts", "author ann secret\n"), (EXAMPLE, "old\n")])
    installed()
    want(read("root/etc/pads/accounts"), "author ann secret\n", "the accounts that were there")
    want(read(EXAMPLE), read(f"{ROOT}/docs/accounts.example"), "the example")


def pages_have_all_options():
    """Each word of a program's help that begins with a dash is in its manual page, and no Markdown is left there."""
    installed()
    for name in PROGRAMS:
        page = read(f"root{PREFIX}/share/man/man1/{name}.1")
        options = set(re.findall(r"--[a-z-]+", run([path_of(name), "--help"]).stdout))
        want(sorted(option for option in options if option.replace("-", "\\-") not in page), [], f"the options that {name}.1 lacks")
        want("--help" in options, True, f"that {name} --help has options")
        titles = re.findall(r'^\.SH "?([A-Z ]+)"?$', page, re.MULTILINE)
        want(titles[:3] + titles[-1:], ["NAME", "SYNOPSIS", "DESCRIPTION", "SEE ALSO"], f"the sections of {name}.1")
        want(re.findall(r"`|\*\*|\]\(", page), [], f"the Markdown in {name}.1")


def the_unit_starts_what_is_installed():
    installed()
    command = re.search(r"^ExecStart=((?:.*\\\n)*.*)$", read(UNIT), re.MULTILINE)[1].replace("\\\n", " ")
    program, *words = shlex.split(command)
    want(program, f"{PREFIX}/bin/pad_server", "the unit's program")
    want(words[words.index("--accounts") + 1], "/etc/pads/accounts", "the unit's accounts")
    told = run([path_of("pad_server"), "--help"]).stdout
    want([word for word in words if word.startswith("-") and word not in told], [], "options of the unit that the server has not")


def the_example_lets_nobody_in_and_can_be_taken():
    """As it is, the example has no account; with the marks taken away, it is an accounts file."""
    hello = '{"do":"hello","name":"ann","token":"TOKEN-OF-ANN"}\n'
    text = read(f"{ROOT}/docs/accounts.example")
    lines = [line.removeprefix("# ") for line in text.splitlines() if re.match(r"# (author|peer) ", line)]
    want(len(lines), 3, "the lines of the example")
    for content, begin in [(text, '{"code":201'), ("\n".join(lines) + "\n", '{"author":"ann@1"')]:
        put_files([("accounts", content)])
        done = subprocess.run(
            [path_of("pad_server"), "--stdin", "--replica", "1", "--accounts", "accounts"], input=hello, capture_output=True, text=True
        )
        want((done.returncode, done.stderr, done.stdout.startswith(begin)), (0, "", True), f"the session: {done.stdout}")


def words_are_refused():
    for words, status, part in [
        (["--prefix"], 2, "--prefix needs a folder"),
        (["--prefix", "here"], 2, "--prefix needs an absolute path"),
        (["--all"], 2, "unknown word: --all"),
    ]:
        done = install(*words, DESTDIR=f"{os.getcwd()}/root")
        want((done.returncode, done.stdout, part in done.stderr), (status, "", True), f"install {words}: {done.stderr}")
    want(os.path.exists("root"), False, "that something is installed")
    want(install("--help").returncode, 0, "the status of install --help")


TESTS = [
    Test("install: everything, with its modes", everything_is_installed),
    Test("install: a second time changes no accounts", a_second_time_changes_no_accounts),
    Test("install: the manual pages have all options", pages_have_all_options),
    Test("install: the unit starts what is installed", the_unit_starts_what_is_installed),
    Test("install: the example of accounts", the_example_lets_nobody_in_and_can_be_taken),
    Test("install: wrong words", words_are_refused),
]
