"""Texts that the command line `pads` exports and imports, as a user runs it, before the server."""
import json
import os
import re
import subprocess
import sys

from harness import ROOT, put_files, want
from js_client import named
from pads_command import HERE, Pads, begin
from scripts_test import NODE

MARKDOWN = """
import { toMarkdown } from "%s/web/exports.js";
const { pad, rev, text, runs, comments } = JSON.parse(process.argv[2]);
const units = (characters) => Array.from(text).slice(0, characters).join("").length;
let at = 0;
const shown = runs.map(([author, length]) => [author, units(at + length) - units(at), (at += length)]);
const notes = comments.map(({ author, at, length, text: words, resolved }) => ({ author, from: units(at), to: units(at + length), text: words, isResolved: resolved }));
process.stdout.write(toMarkdown({ name: pad, rev, text, runs: shown, comments: notes }));
"""


def exports_are_those_of_the_page():
    server, ann = begin()
    ann.run("create", "p")
    ann.run("append", "p", "# One <b> & 🙂 two", "", "three")
    ann.run("grant", "p", "bob", "write")
    bob = Pads(server.port, "bob")
    bob.run("append", "p", "bob's 🙂 words")
    ann.run("comment", "p", "why\n<so>?", "--on", "🙂 two")
    bob.run("comment", "p", "mine", "--on", "bob's")
    ann.run("comment", "p", "--resolve", "1-4")
    put_files([("markdown.mjs", MARKDOWN % ROOT)])
    exported = ann.run("export", "p", "--format", "json")
    page = subprocess.run([NODE, "markdown.mjs", exported], capture_output=True, text=True)
    want((page.stderr, ann.run("export", "p", "--format", "md")), ("", page.stdout), "the Markdown of the page and of pads export")
    want(ann.run("export", "p"), "# One <b> & 🙂 two\n\nthree\nbob's 🙂 words\n", "the text")
    ann.run("export", "p", "--format", "html", "-o", "p.html")
    with open("p.html", encoding="utf-8") as file:
        text = file.read()
    want(("One &lt;b&gt; &amp; 🙂 two" in text, "why\n&lt;so&gt;?" in text, "<script" in text), (True, True, False), "what is escaped in HTML")
    want(re.sub(r"<sup>.*?</sup>|<[^>]*>", "", text[text.index("<pre>") : text.index("</pre>")]), "# One &lt;b&gt; &amp; 🙂 two\n\nthree\nbob&#x27;s 🙂 words\n", "the words in HTML")


def texts_are_imported():
    _, ann = begin()
    put_files([("Last Year.md", b"\xef\xbb\xbf# Minutes\r\nof 2025 \xf0\x9f\x99\x82\r\n"), ("bad.txt", b"\xff\xfe"), ("long.txt", "0123456789" * 5_000)])
    ann.run("import", "Last Year.md")
    want(ann.run("show", "last-year"), "# Minutes\nof 2025 🙂\n", "a text with a mark and CR LF")
    ann.run("import", "Last Year.md", status=1, said="301")
    want(json.loads(ann.run("import", "long.txt", "other", "--json")), {"pad": "other", "rev": 5, "characters": 50_000}, "a long text")
    want(ann.run("show", "other"), "0123456789" * 5_000 + "\n", "all of it")
    for words, status, said in ((["bad.txt"], 2, "not UTF-8"), (["none.txt"], 2, "No such file"), (["long.txt", "x", "--author", "a=b"], 2, "--author")):
        ann.run("import", *words, status=status, said=said)


HARBOUR = [
    ["ann@77", 15], ["ann-2@77", 4], ["ann@77", 1], ["bob-astrom@77", 14], ["eve@77", 5], ["bob-astrom@77", 3], ["unnamed@77", 7], ["bob-astrom@77", 1], ["ann@77", 1],
    ["etherpad@77", 1],
]
TEXTS = [
    "\n", "Minutes of the harbour\n\n", "Minutes of the harbour\nPresent: Ann, Bob\n", "Minutes of the harbour\nPresent: Ann, Bob, Cyd 🙂\n",
    "Minutes of the port\nPresent: Ann, Bob, Cyd 🙂\n", "Minutes of the port\nPresent: Ann, Eve, Bob, Cyd 🙂\n", "Minutes of the port\nPresent: Ann, Eve, Bob.\n",
]


def an_export_of_etherpad_comes_in_with_its_authors():
    server, ann = begin(PADS_PEER="77", PADS_PEER_TOKEN="p77")
    export = f"{HERE}/harbour.etherpad"
    want("ann-2 of the peer" in ann.run("import", export, "--dry-run"), True, "what would be done")
    want(ann.run("list"), "", "that nothing is done")
    ann.run("import", export)
    shown = json.loads(ann.run("show", "harbour-council-2025", "--json"))
    want((shown["text"], shown["runs"]), ("Minutes of the port\nPresent: Ann, Eve, Bob, Cyd 🙂!.\n", HARBOUR), "the text with its authors")
    for rev, text in enumerate(TEXTS, 1):
        want(json.loads(ann.run("show", "harbour-council-2025", "--rev", str(rev), "--json"))["text"], text, f"revision {rev}")
    ann.run("import", export)
    want(json.loads(ann.run("show", "harbour-council-2025", "--json")), shown, "the pad after it was imported again")
    told = json.loads(ann.run("import", export, "council", "--author", "Bob Åström=bob", "--json"))
    want([one["here"] for one in told["authors"]], ["ann@77", "bob@77", "unnamed@77", "ann-2@77", "eve@77"], "who they are by --author")
    want([run[0] for run in json.loads(ann.run("show", "council", "--json"))["runs"]][3], "bob@77", "and so they are in the pad")
    ann.run("create", "mine")
    ann.run("append", "mine", "text")
    ann.run("import", export, "mine", status=1, said="edits of others")
    ann.run("import", export, "x", "--author", "Zed=zed", status=2, said="no author there is Zed")
    Pads(server.port, PADS_PEER="77", PADS_PEER_TOKEN="no").run("import", export, "y", status=1, said="accounts file")
    Pads(server.port).run("import", export, "z", status=2, said="PADS_PEER")
    put_files([("bad.etherpad", "{}")])
    ann.run("import", "bad.etherpad", status=2, said="no export of a pad")


def random_exports_of_etherpad_come_in(count=4, revisions=150):
    """Exports of a pad on which five authors type at random, which tests/test_etherpad.py of the library makes."""
    sys.path[:0] = [os.path.join(ROOT, "clients", "python")]
    import random

    from tests.test_etherpad import Etherpad

    _, ann = begin(PADS_PEER="77", PADS_PEER_TOKEN="p77")
    for seed in range(count):
        pad = Etherpad(random.Random(seed), ["a1", "a2", "a3", "a4", "a5"])
        pad.put("Z:1>0$", "")
        for _ in range(revisions):
            pad.revise()
        put_files([(f"r{seed}.etherpad", pad.export())])
        ann.run("import", f"r{seed}.etherpad", f"r{seed}")
        shown = json.loads(ann.run("show", f"r{seed}", "--json"))
        owners = [author or "etherpad" for unit, author in pad.units if not 0xDC00 <= ord(unit) < 0xE000]
        want((shown["text"], [name for name, length in shown["runs"] for _ in range(length)]), (pad.text(), [f"{one}@77" for one in owners]), f"export {seed}")


TESTS = [
    named(exports_are_those_of_the_page, 60),
    named(texts_are_imported, 60),
    named(an_export_of_etherpad_comes_in_with_its_authors, 90),
    named(random_exports_of_etherpad_come_in, 60),
]
