"""What the page has from others: markdown-it, just as Debian ships it but for being cut into parts, and its licence."""
import re
import subprocess

from harness import ROOT, Test, want

SUM = re.compile(r'^SUM = "([0-9a-f]{64})"', re.M)


def read(path):
    with open(f"{ROOT}/{path}", encoding="utf-8") as file:
        return file.read()


def the_parts_are_debians_file():
    done = subprocess.run([f"{ROOT}/tests/vendor", "--check"], stdout=subprocess.PIPE, stderr=subprocess.STDOUT, text=True)
    want((done.returncode, done.stdout), (0, ""), "what tests/vendor --check says")


def notice_has_its_licence():
    text = re.sub(r"\s+", " ", read("NOTICE"))
    parts = ["markdown-it 8.4.2", SUM.search(read("tests/vendor"))[1], "Copyright 2014 Vitaly Puzrin, Alex Kocharin"]
    for part in [*parts, "Permission is hereby granted, free of charge", 'THE SOFTWARE IS PROVIDED "AS IS"']:
        want(part in text, True, f"that NOTICE has {part!r}")


TESTS = [
    Test("web: the vendored parts are a file as Debian ships it", the_parts_are_debians_file),
    Test("web: NOTICE has the licence of what is vendored", notice_has_its_licence),
]
