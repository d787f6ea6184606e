"""A revision as a file: its text alone, Markdown or HTML with authors and comments, or JSON."""
from __future__ import annotations

import html
import json
import re
from collections.abc import Iterable
from dataclasses import asdict, dataclass

from vindrughe import PlacedComment, Run



@dataclass(frozen=True)
class Snapshot:
    """A revision of a pad, with all that is written of it."""

    pad: str
    rev: int
    text: str
    runs: list[Run]
    comments: list[PlacedComment]

    @property
    def authors(self) -> list[str]:
        return list(dict.fromkeys(author for author, _ in self.runs))


def written(snapshot: Snapshot, form: str) -> str:
    """The file in one of the forms."""
    return {"text": lambda one: str(one.text), "md": _markdown, "html": _html, "json": _json}[form](snapshot)


def _json(snapshot: Snapshot) -> str:
    fields = asdict(snapshot)
    fields["comments"] = [comment_of(comment) for comment in snapshot.comments]
    return json.dumps(fields, ensure_ascii=False, indent=1) + "\n"


def comment_of(comment: PlacedComment) -> dict[str, object]:
    """A comment as JSON has it here."""
    return {
        "name": list(comment.name), "author": comment.author, "at": comment.at, "length": comment.length, "text": comment.text,
        "resolved": comment.is_resolved,
    }


def _names(authors: Iterable[str]) -> dict[str, str]:
    """A name for each author: without the server's number, unless authors of two servers have the same name."""
    every = list(dict.fromkeys(authors))
    bare = [author.split("@")[0] for author in every]
    return {author: author if bare.count(name) > 1 else name for author, name in zip(every, bare)}


def _one_line(text: str) -> str:
    return re.sub(r"\s+", " ", _safe(text)).strip()


def _safe(text: str) -> str:
    return text.replace("&", "&amp;").replace("<", "&lt;")


# ---- Markdown, as the page exports it


def _markdown(snapshot: Snapshot) -> str:
    """Each stretch begins with its author's name where the author changes, and each comment is a footnote behind its words. The
    text's own Markdown stays; only `<` and `&` are escaped."""
    notes = sorted(snapshot.comments, key=lambda one: (one.at + one.length, one.at))
    names = _names([*(author for author, _ in snapshot.runs), *(comment.author for comment in snapshot.comments)])
    head = f"# {snapshot.pad} (revision {snapshot.rev})\n\n"
    if snapshot.authors:
        head += f"*{', '.join(snapshot.authors)}*\n\n"
    foot = "\n".join(_footnote(snapshot.text, number, note, names) for number, note in enumerate(notes, 1))
    return f"{head}{_body(snapshot, notes, names)}\n" + (f"\n{foot}\n" if foot else "")


def _body(snapshot: Snapshot, notes: list[PlacedComment], names: dict[str, str]) -> str:
    out: list[str] = []
    ends = [note.at + note.length for note in notes]
    text, at, following, last = snapshot.text, 0, 0, ""

    def put(to: int) -> None:
        nonlocal at, following
        while following < len(ends) and ends[following] <= to:
            out.extend((_safe(text[at : ends[following]]), f"[^{following + 1}]"))
            at = ends[following]
            following += 1
        out.append(_safe(text[at:to]))
        at = to

    start = 0
    for author, length in snapshot.runs:
        end = start + length
        words = text[start:end]
        blank = len(words) - len(words.lstrip())
        if author != last and blank < length:
            put(start + blank)
            out.append(f"<sup>{names[author]}</sup>")
            last = author
        put(end)
        start = end
    return "".join(out)


def _footnote(text: str, number: int, note: PlacedComment, names: dict[str, str]) -> str:
    words = text[note.at : note.at + note.length]
    quote = f"“{_one_line(words)}”: " if words else ""
    return f"[^{number}]: **{names[note.author]}**{' (resolved)' if note.is_resolved else ''}: {quote}{_one_line(note.text)}"


# ---- HTML

_PAGE = """<!doctype html>
<html lang="en">
<head>
<meta charset="utf-8">
<title>{title}</title>
<style>
body {{ font: 1rem/1.5 system-ui, sans-serif; max-width: 45rem; margin: 2rem auto; padding: 0 1rem; color: #222; background: #fff; }}
pre {{ font: inherit; white-space: pre-wrap; overflow-wrap: anywhere; }}
{colours}
</style>
</head>
<body>
<h1>{title}</h1>
<p>{authors}</p>
<pre>{text}</pre>
{comments}</body>
</html>
"""


def _html(snapshot: Snapshot) -> str:
    """A page of its own: each author's words on a colour, comments below with the words that they are on."""
    names = _names([*snapshot.authors, *(comment.author for comment in snapshot.comments)])
    kinds = {author: f"author-{number}" for number, author in enumerate(snapshot.authors)}
    colours = "\n".join(f".author-{k} {{ background: hsl({360 * k // max(1, len(kinds))} 70% 90%); }}" for k in range(len(kinds)))
    legend = ", ".join(f'<span class="{kinds[author]}">{html.escape(names[author])}</span>' for author in snapshot.authors)
    title = html.escape(f"{snapshot.pad}, revision {snapshot.rev}")
    return _PAGE.format(title=title, colours=colours, authors=legend, text=_spans(snapshot, kinds, names), comments=_list(snapshot, names))


def _spans(snapshot: Snapshot, kinds: dict[str, str], names: dict[str, str]) -> str:
    """The text, cut where an author begins or a comment's words end; behind these is the comment's number."""
    notes: dict[int, list[int]] = {}
    for number, note in enumerate(snapshot.comments, 1):
        notes.setdefault(note.at + note.length, []).append(number)
    out: list[str] = [_references(notes.pop(0, []))]
    at = 0
    for author, length in snapshot.runs:
        end = at + length
        for stop in sorted({end, *(place for place in notes if at < place <= end)}):
            words = html.escape(snapshot.text[at:stop])
            out += [f'<span class="{kinds[author]}" title="{html.escape(names[author])}">{words}</span>', _references(notes.pop(stop, []))]
            at = stop
    return "".join(out)


def _references(numbers: list[int]) -> str:
    return "".join(f'<sup><a href="#comment-{number}">{number}</a></sup>' for number in numbers)


def _list(snapshot: Snapshot, names: dict[str, str]) -> str:
    if not snapshot.comments:
        return ""
    items = []
    for number, note in enumerate(snapshot.comments, 1):
        words = snapshot.text[note.at : note.at + note.length]
        quote = f"<q>{html.escape(words)}</q> " if words else ""
        state = " (resolved)" if note.is_resolved else ""
        items.append(f'<li id="comment-{number}"><b>{html.escape(names[note.author])}</b>{state}: {quote}{html.escape(note.text)}</li>')
    return "<ol>\n" + "\n".join(items) + "\n</ol>\n"
