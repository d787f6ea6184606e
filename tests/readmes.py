"""The code at the beginning of each library's README, compared with the file that it names.

The first code block of a README is followed by a line such as `From crates/pad_part_tests/src/held.rt.`: its lines stand one
after the other in that file, apart from their indentation. The file is one of another crate, which calls the library.
"""
import os
import re

from harness import ROOT, Test, want

NAMED = re.compile(r"From (crates/(\w+)/src/[\w/]+\.rt)\.")
WITHOUT_CODE = ["federation_laws", "standby_laws"]


def libraries():
    """The crates that a README has to show in use: all libraries but those that hold only tests or only laws."""
    crates = sorted(os.listdir(f"{ROOT}/crates"))
    return [
        crate
        for crate in crates
        if os.path.exists(f"{ROOT}/crates/{crate}/src/lib.rt")
        and not crate.endswith("_tests")
        and crate not in WITHOUT_CODE
    ]


def lines_of(path):
    with open(f"{ROOT}/{path}", encoding="utf-8") as file:
        return file.read().splitlines()


def first_block(lines):
    """The lines of the first code block, indented by four spaces or fenced, and the first line of words after it."""
    block, is_fenced = [], False
    for line in lines:
        if line.startswith("```"):
            is_fenced = not is_fenced
        elif is_fenced or line.startswith("    ") or (block and not line.strip()):
            block.append(line)
        elif block:
            return [text.strip() for text in block if text.strip()], line
    return [text.strip() for text in block if text.strip()], ""


def has_in_a_row(lines, block):
    """Whether the lines of a block stand one after the other, apart from indentation and empty lines."""
    lines = [line.strip() for line in lines if line.strip()]
    return any(lines[at : at + len(block)] == block for at in range(len(lines)))


def code_is_played():
    for crate in libraries():
        block, after = first_block(lines_of(f"crates/{crate}/README.md"))
        named = NAMED.match(after)
        want(named is not None, True, f"that {crate}/README.md begins with code and names its file, not {after!r}")
        want(named[2] != crate, True, f"that the code of {crate}/README.md is from another crate")
        want(4 <= len(block) <= 12, True, f"that the code of {crate}/README.md has 4 to 12 lines")
        want(has_in_a_row(lines_of(named[1]), block), True, f"that {named[1]} has the code of {crate}/README.md")


TESTS = [Test("readmes: each library's code stands in the file that it names", code_is_played)]
