"""Pages as a session: their examples, from top to bottom, are played by pad_replay on one server. A section may have a server
of its own.

An indented line `NAME > REQUEST` is what the session NAME sends, and the line `< REPLY` below it is what it gets. `NAME !`
ends the session. The indented lines `author ..`, `peer ..` and `person ..` are the accounts file.
"""
import re

from harness import ROOT, Case, Failed, Test, play, want

ASKED = re.compile(r"    ([a-z]+) +> (.*)")
TOLD = re.compile(r"    +< (.*)")
ENDED = re.compile(r"    ([a-z]+) +!")
ACCOUNT = re.compile(r"    ((?:author|peer|person) .*)")


# The section of a page that has a server of its own.
ALONE = "## A session by hand"


def lines_of(path, is_alone):
    """The numbered lines of a page that are in the section with a server of its own, or those that are not."""
    in_section = False
    with open(f"{ROOT}/{path}", encoding="utf-8") as page:
        for number, line in enumerate(page.read().splitlines(), 1):
            if line.startswith("## "):
                in_section = line == ALONE
            if in_section == is_alone:
                yield number, line


def read_page(path, is_alone):
    """Of a page: the accounts, the story, the replies that are due, and the number of each request's line."""
    accounts, story, replies = "", "", ""
    waits = None
    for number, line in lines_of(path, is_alone):
        asked, told, ended, account = (form.fullmatch(line) for form in [ASKED, TOLD, ENDED, ACCOUNT])
        if waits and not told:
            raise Failed(f"{path}, line {number}: a request has no reply")
        if asked:
            story += f"{asked[1]}\t{asked[2]}\n"
            waits = asked[1]
        elif told:
            if not waits:
                raise Failed(f"{path}, line {number}: a reply has no request")
            replies += f"{waits}\t{told[1]}\n"
            waits = None
        elif ended:
            story += f"!{ended[1]}\n"
        elif account:
            accounts += account[1] + "\n"
        elif line.startswith("    {"):
            raise Failed(f"{path}, line {number}: an example is of no session")
    return accounts, story, replies


def page_runs(path, least, is_alone=False):
    accounts, story, replies = read_page(path, is_alone)
    want(story.count("\n") >= least, True, f"that {path} has at least {least} examples")
    files = (("accounts", accounts),)
    play(Case("page", "--replica 1 --cells 2 --accounts accounts", story, replies, files=files, program="pad_replay"))


TESTS = [
    Test("docs/PROTOCOL.md runs as it stands", lambda: page_runs("docs/PROTOCOL.md", 40)),
    Test("docs/PROTOCOL.md: the session by hand runs as it stands", lambda: page_runs("docs/PROTOCOL.md", 11, is_alone=True)),
    Test("README.md runs as it stands", lambda: page_runs("README.md", 3)),
]
