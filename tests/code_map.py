"""The map of the code in docs/ARCHITECTURE.md, compared with the folders, NOTICE, with what the programs depend on, and
docs/PROOF.md and docs/DEFINITIONS.md, with the definitions that stand there.

In the map a line `crates/NAME` begins a crate, and the indented lines below it name its source files. A line with a folder of
clients/ does the same for a client.
"""
import os
import re
import subprocess

from harness import ROOT, Test, want

CRATE = re.compile(r"crates/(\w+)\b.*")
CLIENT = re.compile(r"(clients/[\w/]+).*")
FILE = re.compile(r"\b\w+\.(?:rt|js|py)\b")
CLIENTS = ["clients/js", "clients/js/bindings", "clients/js/src", "clients/python/pads", "clients/python/vindrughe"]
PROGRAMS = ["pad_server", "pad_accounts", "pad_store", "pad_replay"]


def mapped():
    """The source files that the map names, by crate, and by a client's folder."""
    files = {}
    crate = None
    with open(f"{ROOT}/docs/ARCHITECTURE.md", encoding="utf-8") as page:
        text = page.read().split("## The files", 1)[1].split("\n## ", 1)[0]
    for line in text.splitlines():
        begun = CRATE.fullmatch(line) or CLIENT.fullmatch(line)
        if begun:
            crate = begun[1]
            files[crate] = []
        elif crate and line.startswith("  "):
            files[crate] += FILE.findall(line)
        else:
            crate = None
    return files


def source_files(folder):
    return [name for name in os.listdir(folder) if FILE.fullmatch(name)]


def listed_crates():
    return sorted(uses_of_crates())


def uses_of_crates():
    """What each crate of crates.txt depends on, by its name."""
    with open(f"{ROOT}/crates.txt", encoding="utf-8") as crates:
        lines = [line.partition("#")[0] for line in crates]
    return {line.split(":")[0].split()[0]: line.split(":")[1].split() for line in lines if line.strip()}


def map_is_whole():
    files = mapped()
    clients = {folder: files.pop(folder) for folder in [*files] if folder.startswith("clients/")}
    want(sorted(clients), CLIENTS, "the clients of the map")
    for folder, named in clients.items():
        want(sorted(named), sorted(source_files(f"{ROOT}/{folder}")), f"the map's files of {folder}")
    want(sorted(files), listed_crates(), "the crates of the map")
    for crate, named in files.items():
        if not crate.endswith("_tests"):
            there = [name for _, _, names in os.walk(f"{ROOT}/crates/{crate}/src") for name in names if name != "lib.rt"]
            want(sorted(named), sorted(there), f"the map's files of {crate}")


def below(program):
    """All that a program depends on by crates.txt: crates of this repository and of the kit."""
    needs = uses_of_crates()
    found, waiting = set(), [program]
    while waiting:
        name = waiting.pop()
        if name not in found:
            found.add(name)
            waiting += needs.get(name, [])
    return found


def notice_is_whole():
    with open(f"{ROOT}/NOTICE", encoding="utf-8") as notice:
        named = set(re.findall(r"\b\w+\b", notice.read()))
    linked = set().union(*map(below, PROGRAMS)) - set(listed_crates())
    want("clap" in linked, True, "that a program links clap")
    want(sorted(linked - named), [], "the crates that NOTICE does not name")


def definitions_are_there():
    """Each definition that docs/PROOF.md has the reader read aloud stands in the file that it names."""
    with open(f"{ROOT}/docs/PROOF.md", encoding="utf-8") as page:
        rows = re.findall(r"^\| \d+ \| ([^|]*) \| `([^|`]*)` \|", page.read(), re.M)
    want(len(rows), 12, "how many definitions the page names")
    for names, path in rows:
        with open(f"{ROOT}/crates/{path}", encoding="utf-8") as file:
            text = file.read()
        for name in re.findall(r"`(\w+)`", names):
            stands = re.search(rf"\bpub (?:record |enum |struct )?{name}\b", text)
            want(stands is not None, True, f"that {name} stands in {path}")


def page_of_definitions_is_written():
    """docs/DEFINITIONS.md is what docs/definitions writes, and each definition has a sentence."""
    done = subprocess.run([f"{ROOT}/docs/definitions", "--check"], capture_output=True, text=True)
    want((done.returncode, done.stderr), (0, ""), "what docs/definitions says")


TESTS = [
    Test("map: docs/DEFINITIONS.md is what docs/definitions writes", page_of_definitions_is_written),
    Test("map: docs/PROOF.md names definitions that are there", definitions_are_there),
    Test("map: docs/ARCHITECTURE.md names every source file", map_is_whole),
    Test("map: NOTICE names every crate that the programs link", notice_is_whole),
]
