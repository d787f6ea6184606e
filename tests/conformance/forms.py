"""The forms of requests: which fields each has to have, and what each of them has to be."""
from __future__ import annotations

import re
from collections.abc import Callable
from typing import Any

RIGHTS = ["none", "read", "comment", "write", "own"]
CONTROL = re.compile("[\0-\x1f\x7f-\x9f]")
SECRET = re.compile("[A-Za-z0-9_-]{22}")
LONE = re.compile("[\ud800-\udfff]")


def is_number(value: Any) -> bool:
    return isinstance(value, int) and not isinstance(value, bool) and value >= 0


def is_text(value: Any) -> bool:
    return isinstance(value, str) and not LONE.search(value)


def is_part(value: Any) -> bool:
    return isinstance(value, dict) and is_number(value.get("at")) and (is_number(value.get("len")) != is_text(value.get("text")))


def is_absent_or_number(value: Any) -> bool:
    return value is None or is_number(value)


def is_absent_or_boolean(value: Any) -> bool:
    return value is None or isinstance(value, bool)


def is_secret(value: Any) -> bool:
    return isinstance(value, str) and SECRET.fullmatch(value) is not None


def is_token(value: Any) -> bool:
    """Two secrets with a point between them."""
    return isinstance(value, str) and all(map(is_secret, parts := value.split("."))) and len(parts) == 2


def is_name(value: Any) -> bool:
    return isinstance(value, list) and len(value) == 2 and all(map(is_number, value))


# The fields that a request has to have, and what each has to be.
PAD = {"pad": is_text}
REV = {**PAD, "rev": is_number}
FORMS: dict[str, dict[str, Callable[[Any], bool]]] = {
    "hello": {"name": is_text, "token": is_text}, "pads": {},
    **{do: PAD for do in ("create", "leave", "revs", "who", "rights", "close", "reopen", "marks")}, "join": {**PAD, "instead": is_absent_or_number},
    "insert": {**REV, "at": is_number, "text": is_text}, "delete": {**REV, "at": is_number, "len": is_number},
    "edit": {**REV, "parts": lambda value: isinstance(value, list) and all(map(is_part, value))},
    "comment": {**REV, "at": is_number, "len": is_number, "text": is_text}, "resolve": {**PAD, "comment": is_name},
    **{do: {**PAD, "rev": is_absent_or_number} for do in ("text", "runs", "comments")},
    "changes": {**REV, "to": is_absent_or_number, "wait": is_absent_or_number},
    "entries": {**PAD, "from": is_number, "count": is_number, "times": is_absent_or_boolean},
    "times": PAD, "birth": {**REV, "at": is_number}, "caret": {**REV, "at": is_number},
    "grant": {**PAD, "author": is_text, "right": lambda value: value in RIGHTS}, "hand": {**PAD, "author": is_text},
    "mark": {**REV, "text": is_text},
    "guest": {"token": is_token}, "guests": PAD, "introduce": {**PAD, "as": lambda value: is_text(value) and not CONTROL.search(value)},
    "invite": {**PAD, "secret": is_secret, "right": lambda value: value in ("read", "comment", "write")},
}


def has_form(request: Any) -> bool:
    if not isinstance(request, dict) or request.get("do") not in FORMS:
        return False
    if request["do"] == "times" and not has_times(request):
        return False
    return all(is_right(request.get(field)) for field, is_right in FORMS[request["do"]].items())


def has_times(request: dict[str, Any]) -> bool:
    """Moments, or else revisions by steps."""
    if "at" in request:
        return isinstance(request["at"], list) and all(map(is_number, request["at"]))
    return all(is_number(request.get(field)) for field in ("from", "step", "count"))
