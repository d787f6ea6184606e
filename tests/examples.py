"""The worked examples of docs/EXAMPLES.md, compared with the stories that pad_replay plays.

Below a heading `## STORY`, an indented line `NAME > REQUEST` with its `< REPLY`, and a line `!NAME`, have to stand in the
story of that title, in the same order; the story may have more. Where it has several servers, it is that of all of them.
A line that goes on is indented further. A request in parentheses is described: any with that reply will do. Each story is
a heading of the page, or a row of its table.
"""
import re

from harness import ROOT, Failed, Test, want

HEADING = re.compile(r"## (\w+)")
ROW = re.compile(r"\| (\w+) \| .* \|")
ASKED = re.compile(r"    ([a-z0-9]+) +> (.*)")
TOLD = re.compile(r"    +< (.*)")
ENDED = re.compile(r"    !([a-z0-9]+)")
LEFT_OUT = re.compile(r"    [a-z0-9]+ +\.\. .*")
MORE = re.compile(r"     +(.*)")
TITLE = re.compile(r"=== (\w+)(?: replica \d+)?")


def read(path):
    with open(f"{ROOT}/{path}", encoding="utf-8", errors="surrogateescape", newline="") as file:
        return file.read().split("\n")


def shown():
    """Of the page: the titles of its table, and of each heading its lines: a session with its request and reply, or one
    that ends."""
    stories, titles, lines = {}, [], []
    for line in read("docs/EXAMPLES.md"):
        heading, row, asked, told, ended, more = (form.fullmatch(line) for form in [HEADING, ROW, ASKED, TOLD, ENDED, MORE])
        if heading:
            lines = stories.setdefault(heading[1], [])
        elif row and row[1] != "Title":
            titles.append(row[1])
        elif asked:
            lines.append([asked[1], asked[2].replace("<U+FEFF>", "\ufeff")])
        elif told:
            lines[-1].append(told[1])
        elif ended:
            lines.append([ended[1]])
        elif more and not LEFT_OUT.fullmatch(line):
            lines[-1][-1] += more[1]
    return stories, titles


def played():
    """The same of the stories: what is asked is in one file, and what is told in another."""
    stories, lines = {}, []
    told = iter([line for line in read("crates/pad_replay/stdout") if "\t" in line])
    for line in read("crates/pad_replay/stdin"):
        title = TITLE.fullmatch(line)
        if title:
            lines = stories.setdefault(title[1], [])
        elif line.startswith("!"):
            lines.append([line[1:]])
        elif "\t" in line and not line.startswith("#"):
            session, asked = line.split("\t", 1)
            lines.append([session, asked] + ([next(told).split("\t", 1)[1]] if asked else []))
    want(list(told), [], "the replies behind the last request")
    return stories


def is_like(line, one):
    """Whether a line of a story is the one that is shown."""
    if len(one) == 3 and one[1].startswith("("):
        return [line[0], line[-1]] == [one[0], one[2]]
    return line == one


def page_shows_what_is_played():
    (stories, titles), all_played = shown(), played()
    sections = {name: lines for name, lines in stories.items() if name in all_played}
    want(sorted({*all_played} - {*sections, *titles}), [], "the stories that the page lacks")
    want(sorted({*titles} - {*all_played}), [], "the rows of the page that are no stories")
    for name, lines in stories.items():
        if lines and name not in sections:
            raise Failed(f"docs/EXAMPLES.md: no story is called {name}")
        rest = iter(all_played.get(name, []))
        for one in lines:
            if not any(is_like(line, one) for line in rest):
                raise Failed(f"docs/EXAMPLES.md, {name}: {' '.join(one)[:300]!r} is not in the story, or stands earlier there")
    want(sum(map(len, stories.values())) > 400, True, "that the page has more than 400 lines of stories")


TESTS = [Test("examples: docs/EXAMPLES.md shows what the stories have", page_shows_what_is_played)]
