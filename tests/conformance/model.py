"""A reference model of a pad: the tree of insertions in preorder, newest sibling first.

Each character hangs on the one that stood before it, and knows the revision that inserted it and the one that erased it. It is
tests/web/model.mjs again, for tests in Python.
"""
from __future__ import annotations

import time
from dataclasses import dataclass, field
from typing import Any

EDITS = ("insert", "delete", "edit")
Request = dict[str, Any]


@dataclass(eq=False)
class Cell:
    character: str
    author: str
    born: int
    died: int = 0
    children: list[Cell] = field(default_factory=list)

    def is_shown(self, rev: int) -> bool:
        return self.born <= rev and (not self.died or self.died > rev)


@dataclass(eq=False)
class Remark:
    name: list[int]
    author: str
    text: str
    born: int
    first: Cell
    last: Cell
    resolved: int = 0


class ModelPad:
    def __init__(self) -> None:
        self.root = Cell("", "", 0, 1)
        self.entries: list[Request] = []
        self.times: list[int] = []
        self.remarks: list[Remark] = []
        self.replica = 1

    @property
    def now(self) -> int:
        return len(self.entries)

    def order(self) -> list[Cell]:
        """All characters in preorder, erased ones too."""
        out: list[Cell] = []
        left = [self.root]
        while left:
            cell = left.pop()
            if cell is not self.root:
                out.append(cell)
            left += cell.children  # the newest is the last, and is looked at first
        return out

    def at(self, rev: int) -> list[Cell]:
        return [cell for cell in self.order() if cell.is_shown(rev)]

    def text(self, rev: int) -> str:
        return "".join(cell.character for cell in self.at(rev))

    def runs(self, rev: int) -> list[tuple[str, int]]:
        runs: list[tuple[str, int]] = []
        for cell in self.at(rev):
            if runs and runs[-1][0] == cell.author:
                runs[-1] = (cell.author, runs[-1][1] + 1)
            else:
                runs.append((cell.author, 1))
        return runs

    # ---- what is done

    def note(self, author: str, kind: str) -> list[int]:
        """An operation has the number of its server, and is so many of that server's operations."""
        number = sum(1 for entry in self.entries if entry["name"][0] == self.replica) + 1
        name = [self.replica, number]
        self.entries.append({"author": author, "kind": kind, "name": name, "rev": self.now + 1})
        self.times.append(max([round(time.time() * 1000), *self.times[-1:]]))
        return name

    def edit(self, author: str, rev: int, parts: list[Request]) -> list[int]:
        seen, born = self.at(rev), self.now + 1
        for part in parts:
            if "text" in part:
                parent = seen[part["at"] - 1] if part["at"] else self.root
                for character in part["text"]:
                    cell = Cell(character, author, born)
                    parent.children.append(cell)
                    parent = cell
        for part in parts:
            if "len" in part:
                for cell in seen[part["at"] : part["at"] + part["len"]]:
                    cell.died = cell.died or born
        return self.note(author, "edit" if len(parts) > 1 else "delete" if "len" in parts[0] else "insert")

    def remark(self, author: str, rev: int = 0, at: int = 0, length: int = 0, text: str = "") -> list[int]:
        """A comment on characters of a revision, or on nothing."""
        seen = self.at(rev)[at : at + length]
        name = self.note(author, "comment")
        if seen:
            self.remarks.append(Remark(name, author, text, self.now, seen[0], seen[-1]))
        return name

    def resolve(self, author: str, name: list[int]) -> list[int]:
        remark = next(one for one in self.remarks if one.name == name)
        made = self.note(author, "resolve")
        remark.resolved = remark.resolved or self.now
        return made

    def restore(self, rev: int) -> None:
        """Goes back to a revision, as a store does that is restored from a copy."""
        del self.entries[rev:]
        del self.times[rev:]
        self.remarks = [one for one in self.remarks if one.born <= rev]
        for remark in self.remarks:
            remark.resolved = 0 if remark.resolved > rev else remark.resolved
        for cell in [self.root, *self.order()]:
            if cell.died > rev and cell is not self.root:
                cell.died = 0
            cell.children = [child for child in cell.children if child.born <= rev]

    # ---- what is read

    def comments(self, rev: int) -> list[Request]:
        """Their words are what is shown from the first to the last of their characters."""
        order = self.order()
        places = {id(cell): place for place, cell in enumerate(order)}
        shown = [0]
        for cell in order:
            shown.append(shown[-1] + cell.is_shown(rev))
        out: list[Request] = []
        for one in self.remarks:
            if one.born <= rev:
                at, end = shown[places[id(one.first)]], shown[places[id(one.last)] + 1]
                is_resolved = 0 < one.resolved <= rev
                out.append({"name": one.name, "author": one.author, "text": one.text, "at": at, "len": end - at, "resolved": is_resolved})
        return out

    def changes(self, rev: int, to: int) -> list[list[Any]]:
        out: list[list[Any]] = []

        def put(kind: str, what: Any, *author: str) -> None:
            if out and out[-1][0] == kind and out[-1][2:] == [*author]:
                out[-1][1] += what
            else:
                out.append([kind, what, *author])

        for cell in self.order():
            was, is_there = cell.is_shown(rev), cell.is_shown(to)
            if was:
                put("keep" if is_there else "drop", 1)
            elif is_there:
                put("insert", cell.character, cell.author)
        return out

    def reply(self, author: str, request: Request) -> Request:
        """The reply to a request that is not refused for its author or its form."""
        do = request["do"]
        if do in EDITS or do == "comment":
            size = len(self.at(request["rev"]))
            if any(part["at"] + part.get("len", 0) > size for part in request.get("parts", [request])):
                return {"ok": False, "code": 321, "error": "OutOfRange"}
        answer = self._act(do, author, request)
        return {"ok": True, "now": self.now, **answer} if answer is not None else {"ok": False, "code": 102, "error": "NotRequest"}

    def _act(self, do: str, author: str, request: Request) -> Request | None:
        if do in ("insert", "delete", "edit"):
            return {"name": self.edit(author, request["rev"], request.get("parts", [request]))}
        if do == "comment":
            return {"name": self.remark(author, request["rev"], request["at"], request["len"], request["text"])}
        if do == "resolve":
            return {"name": self.resolve(author, request["comment"])}
        rev = self.now if request.get("rev") is None else request["rev"]
        if do == "text":
            return {"rev": rev, "text": self.text(rev)}
        if do == "runs":
            return {"rev": rev, "runs": [list(run) for run in self.runs(rev)]}
        if do == "comments":
            return {"rev": rev, "comments": self.comments(rev)}
        if do == "revs":
            return {"cells": len(self.order()), "length": len(self.at(self.now))}
        if do == "birth":
            cell = self.at(rev)[request["at"]]
            return {"author": cell.author, "rev": cell.born, "at": self.times[cell.born - 1]}
        if do == "entries":
            first = request["from"] - 1
            entries = self.entries[first : first + request["count"]]
            return {"entries": [{**entry, "at": at} for entry, at in zip(entries, self.times[first:])] if request.get("times") else entries}
        if do == "times" and "at" in request:
            return {"revs": [sum(1 for at in self.times if at <= moment) for moment in request["at"]]}
        if do == "times":
            return {"times": self.times[request["from"] - 1 :: request["step"]][: request["count"]]}
        if do == "changes":
            to = self.now if request.get("to") is None else request["to"]
            notes = sum(1 for entry in self.entries[rev:to] if entry["kind"] in ("comment", "resolve"))
            return {"rev": rev, "to": to, "notes": notes, "changes": self.changes(rev, to)}
        return {"who": []} if do == "who" else None
