"""The links of all pages: each file that a page links to is there, and each heading."""
import os
import re

from harness import ROOT, Test, want

LINK = re.compile(r"\]\(([^)\s]+)\)")


def pages():
    """The paths of all pages, from the root."""
    found = []
    for folder, folders, names in os.walk(ROOT):
        folders[:] = [name for name in folders if name not in (".git", "out", "dist", "node_modules")]
        found += [os.path.relpath(os.path.join(folder, name), ROOT) for name in names if name.endswith(".md")]
    return sorted(found)


def prose_of(path):
    """The lines of a page that are no code."""
    is_code = False
    with open(f"{ROOT}/{path}", encoding="utf-8") as page:
        for line in page:
            if line.startswith("```"):
                is_code = not is_code
            elif not is_code and not line.startswith("    "):
                yield line


def headings_of(path):
    """The names by which the headings of a page are linked to."""
    titles = [line.lstrip("#").strip().lower() for line in prose_of(path) if line.startswith("#")]
    return {re.sub(r"[^\w\- ]", "", title.replace("`", "")).replace(" ", "-") for title in titles}


def wrong_links(path):
    for line in prose_of(path):
        for target in LINK.findall(line):
            if re.match(r"[a-z]+:", target):
                continue
            name, _, heading = target.partition("#")
            place = os.path.normpath(os.path.join(os.path.dirname(path), name)) if name else path
            if not os.path.exists(f"{ROOT}/{place}") or (heading and heading not in headings_of(place)):
                yield f"{path}: {target}"


def links_lead_somewhere():
    named = pages()
    want("docs/PROTOCOL.md" in named and "crates/pad_core/README.md" in named, True, "that pages are found")
    want([wrong for path in named for wrong in wrong_links(path)], [], "the links that lead nowhere")


def every_page_is_in_the_index():
    with open(f"{ROOT}/docs/README.md", encoding="utf-8") as page:
        linked = set(LINK.findall(page.read()))
    pages_of_docs = {name for name in os.listdir(f"{ROOT}/docs") if name.endswith(".md")} - {"README.md"}
    want(sorted(pages_of_docs - linked), [], "the pages that docs/README.md does not list")


TESTS = [
    Test("links: each leads to a file and a heading", links_lead_somewhere),
    Test("links: docs/README.md lists every page of docs", every_page_is_in_the_index),
]
