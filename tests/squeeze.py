"""Leaves out of a page's file what a browser does not need: comments, indentation, and spaces that part nothing.

Lines stay lines, so a fault is found by its line and its words. tests/web/squeezed_test.mjs compares the tokens of each
script with those of its own file.
"""
import os
import re

# Before a `/`, these words and signs mean that an expression begins, so that it begins a regular expression.
WORDS_BEFORE_REGEX = {"return", "typeof", "case", "in", "of", "delete", "void", "throw", "new", "else", "do", "yield", "await"}
SPACE = re.compile(r"\s+")
COMMENT = re.compile(r"//[^\n]*|/\*.*?\*/", re.S)
WORD = re.compile(r"[\w$]+")
STRING = re.compile(r"""'(?:[^'\\\n]|\\.)*'|"(?:[^"\\\n]|\\.)*\"""")
REGEX = re.compile(r"/(?:[^/\\\[\n]|\\.|\[(?:[^\]\\\n]|\\.)*\])+/\w*")
# Two of these with nothing between them can be one sign.
MERGING = set("+-*/<>=!&|?.%^")


def template_end(text, at):
    """Where the template that begins at a place ends. What is in its `${..}` may have templates too."""
    at += 1
    while text[at] != "`":
        if text[at] == "\\":
            at += 2
        elif text.startswith("${", at):
            at += 2
            depth = 1
            while depth:
                if text[at] == "`":
                    at = template_end(text, at)
                    continue
                quoted = STRING.match(text, at)
                if quoted:
                    at = quoted.end()
                    continue
                depth += {"{": 1, "}": -1}.get(text[at], 0)
                at += 1
        else:
            at += 1
    return at + 1


def token_at(text, at, last):
    """The token at a place, where `last` is the one before it."""
    if text[at] == "`":
        return text[at : template_end(text, at)]
    is_expression = not last or last in WORDS_BEFORE_REGEX or not (WORD.match(last[-1]) or last[-1] in ")]}\"'`")
    for form in (WORD, STRING, *([REGEX] if is_expression else [])):
        found = form.match(text, at)
        if found:
            return found[0]
    return text[at]


def gap(between, last, token):
    """What has to stand between two tokens between which there was this."""
    if "\n" in between:
        return "\n"
    if WORD.match(last[-1:]) and WORD.match(token[0]):
        return " "
    return " " if between and last[-1:] in MERGING and token[0] in MERGING else ""


def script(text):
    out, last, between, at = [], "", "", 0
    while at < len(text):
        skipped = SPACE.match(text, at) or COMMENT.match(text, at)
        if skipped:
            between += skipped[0] if skipped[0][0] != "/" else " "
            at = skipped.end()
            continue
        token = token_at(text, at, last)
        out += [gap(between, last, token) if out else "", token]
        last, between, at = token, "", at + len(token)
    return "".join(out) + "\n"


def sheet(text):
    """A style sheet. What is quoted stays as it is."""
    parts = re.split(r"(\"[^\"]*\")", re.sub(r"/\*.*?\*/", "", text, flags=re.S))
    for k in range(0, len(parts), 2):
        part = re.sub(r"[ \t]*([{};,])[ \t]*", r"\1", parts[k])
        parts[k] = re.sub(r"\n\s*", "\n", re.sub(r": +", ":", part))
    return "".join(parts).strip() + "\n"


def document(text):
    return re.sub(r"\n[ \t]+", "\n", text)


KINDS = {".js": script, ".css": sheet, ".html": document}


def served(name, text):
    """A file of the page as it is served. What is vendored stays as it is."""
    kind = KINDS.get(os.path.splitext(name)[1])
    return kind(text) if kind and not name.startswith("vendor/") else text
