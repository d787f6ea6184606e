"""docs/WORDS.md: each type that it names is in the crate that it names, and no two crates define a type of one name."""
import os
import re

from harness import ROOT, Test, want

NAMED = re.compile(r"\| `(\w+)` in (\w+) \|$")
TYPE = re.compile(r"^(?:pub(?:\([^)]*\))? )?(?:struct|enum|trait|type) (\w+)", re.MULTILINE)


def types_of(crate):
    """The names of the types and traits that a crate's sources define."""
    found = set()
    for folder, _, names in os.walk(f"{ROOT}/crates/{crate}/src"):
        for name in names:
            with open(os.path.join(folder, name), encoding="utf-8") as file:
                found |= set(TYPE.findall(file.read()))
    return found


def rows():
    with open(f"{ROOT}/docs/WORDS.md", encoding="utf-8") as page:
        return [line for line in page.read().splitlines() if line.startswith("|") and not line.startswith(("|---", "| Word "))]


def types_are_there():
    named = [match.groups() for match in map(NAMED.search, rows()) if match]
    want(len(named) >= 60, True, f"that the page names {len(named)} types")
    missing = [f"{name} in {crate}" for name, crate in named if name not in types_of(crate)]
    want(missing, [], "the types of docs/WORDS.md that are not there")


def names_are_single():
    crates = {}
    for crate in sorted(os.listdir(f"{ROOT}/crates")):
        for name in types_of(crate):
            crates.setdefault(name, []).append(crate)
    want(len(crates) >= 300, True, f"that the crates define {len(crates)} types")
    twice = [f"{name} in {' and '.join(where)}" for name, where in sorted(crates.items()) if len(where) > 1]
    want(twice, [], "the names that several crates have for a type")


TESTS = [
    Test("words: the types of docs/WORDS.md are there", types_are_there),
    Test("words: no two crates define a type of one name", names_are_single),
]
