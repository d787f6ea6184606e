"""The commands and their options: one table, from which the parser, the help and the completion are made."""
from __future__ import annotations

import argparse
import sys
from dataclasses import dataclass
from typing import Any, NoReturn

from vindrughe import __version__
from vindrughe.requests import RIGHTS

from .failure import Failure, Status

FORMATS = ("text", "md", "html", "json")
ABOUT = "Pads of a Vindrughe server, from a terminal and from scripts"
COLOURS = ("auto", "always", "never")


@dataclass(frozen=True)
class Word:
    """An argument or an option: its names, what it means, and how argparse reads it."""

    names: tuple[str, ...]
    meaning: str
    more: dict[str, Any]

    @property
    def is_option(self) -> bool:
        return self.names[0].startswith("-")

    @property
    def value(self) -> str:
        """How the help names its value."""
        if self.more.get("action") == "store_true":
            return ""
        return f" <{self.more.get('metavar', self.names[-1].lstrip('-').upper())}>"

    @property
    def shown(self) -> str:
        return ", ".join(self.names) + self.value if self.is_option else f"<{self.more['metavar']}>"


def word(*names: str, help: str, **more: Any) -> Word:
    return Word(names, help, more)


def _text(argument: str) -> str:
    """An argument that goes into a pad. Python has bytes of it that are no text as halves of surrogate pairs."""
    try:
        argument.encode()
    except UnicodeEncodeError:
        raise argparse.ArgumentTypeError(f"it is not {sys.getfilesystemencoding().upper()}") from None
    return argument


PAD = word("pad", metavar="PAD", help="The pad's name: 1 to 32 of a-z, 0-9 and -")
JSON = word("--json", action="store_true", help="Prints JSON")
REV = word("--rev", type=int, metavar="N", help="Of revision N, and not of the newest one")
AT = word("--at", metavar="TIME", help="As it was then: 2026-11-27, 2026-11-27T14:30, 14:30 of today, or 2h (s, m, h, d) for two hours ago")
COLOUR = word("--color", choices=COLOURS, default="auto", metavar="WHEN", help="Colours authors: auto (in a terminal), always or never [default: auto]")
COMMON = [
    word("--server", metavar="NAME", help="The section of ~/.config/vindrughe to take [default: the first]"),
    word("--patience", type=float, default=60.0, metavar="SECONDS", help="Gives up what is not saved after so long without a connection [default: 60]"),
    word("-h", "--help", action="store_true", help="Prints help"),
]


@dataclass(frozen=True)
class Command:
    """What it does, its words, and more about it for the help."""

    name: str
    meaning: str
    words: tuple[Word, ...] = ()
    more: str = ""

    @property
    def usage(self) -> str:
        parts = [f"pads {self.name}", "[OPTIONS]"]
        for one in self.words:
            if not one.is_option:
                shown = one.shown + ("..." if one.more.get("nargs") in ("*", "+") else "")
                parts.append(f"[{shown}]" if one.more.get("nargs") in ("?", "*") else shown)
        return " ".join(parts)


COMMANDS = [
    Command("list", "Lists the pads that you may read", (JSON,), "Each has its name, your right on it and its newest revision, and the word closed where it is closed."),
    Command("show", "Prints a pad", (PAD, REV, AT, word("--authors", action="store_true", help="Colours each author's words, or names their authors"), COLOUR, JSON)),
    Command(
        "follow", "Prints what comes, in colours by author, until it is interrupted", (PAD, COLOUR, JSON),
        "Each line that has changed is printed with what came and what went. With --json, each change is a line.",
    ),
    Command("create", "Creates a pad, which you own", (PAD, JSON)),
    Command(
        "append", "Puts lines at the end of a pad", (PAD, word("text", type=_text, nargs="*", metavar="TEXT", help="A line; without any, lines are read from standard input"), JSON),
    ),
    Command(
        "edit", "Opens a pad in your editor, and sends what you changed", (PAD, JSON),
        "The editor is that of VISUAL or EDITOR, or vi. What you changed goes out as edits of the revision that you opened, so what others typed meanwhile stays.",
    ),
    Command(
        "import", "Makes a pad of a file", (
            word("file", metavar="FILE", help="A text (.txt, .md or any), or the export of a pad of Etherpad (.etherpad)"),
            word("pad", nargs="?", metavar="PAD", help="The new pad's name [default: the file's]"),
            word("--author", action="append", default=[], metavar="NAME=AUTHOR", help="For .etherpad: who an author of the export is here, where the name would be another one; can be repeated"),
            word("--dry-run", action="store_true", help="Says what would be done, and does nothing"),
            JSON,
        ),
        "A text belongs to you then. An export of Etherpad comes in with all its revisions, each by its author: as operations of a peer, whose number and token are "
        "PADS_PEER and PADS_PEER_TOKEN, or peer and peer-token of ~/.config/vindrughe. So an author who was Ann there is ann@77 here, and nobody's name is put on another's words.",
    ),
    Command(
        "export", "Writes a pad to a file", (
            PAD, word("--format", choices=FORMATS, default="text", metavar="FORMAT", help="text, md (Markdown with authors and comments), html or json [default: text]"),
            word("-o", "--output", metavar="FILE", help="The file [default: standard output]"), REV, AT,
        ),
    ),
    Command(
        "comment", "Comments on words of a pad, lists its comments, or resolves one", (
            PAD, word("text", type=_text, nargs="?", metavar="TEXT", help="What you say; without it, the comments are listed"),
            word("--on", metavar="WORDS", help="The words that you comment on"),
            word("--nth", type=int, metavar="N", help="Which of several places that have these words [default: there has to be only one]"),
            word("--resolve", metavar="NAME", help="Resolves the comment of this name, as the list shows it"), JSON,
        ),
    ),
    Command(
        "history", "Lists who made which revision, and when", (
            PAD, word("--from", type=int, dest="start", metavar="N", help="From revision N on [default: the last 20]"),
            word("--count", type=int, default=20, metavar="N", help="How many revisions [default: 20]"),
            word("--times", action="store_true", help="Also when each was made"), JSON,
        ),
    ),
    Command(
        "mark", "Names a revision, such as the one that was approved", (
            PAD, word("rev", type=int, nargs="?", metavar="REV", help="A revision [default: the newest]"),
            word("text", type=_text, metavar="TEXT", help="The name, of at most 100 characters"), JSON,
        ),
        "A name is never changed or taken away. It is this server's own: other servers are not told.",
    ),
    Command("marks", "Lists the named revisions: who named which, and when", (PAD, JSON)),
    Command(
        "diff", "Marks what came and went between two revisions", (
            PAD, word("start", type=int, metavar="FROM", help="A revision"), word("to", type=int, nargs="?", metavar="TO", help="A later one [default: the newest]"),
            COLOUR, JSON,
        ),
    ),
    Command(
        "grant", "Gives an author a right, or lists who has which", (
            PAD, word("author", nargs="?", metavar="AUTHOR", help="An author, or * for everyone; without one, the rights are listed"),
            word("right", nargs="?", choices=RIGHTS, metavar="RIGHT", help="none, read, comment, write or own"), JSON,
        ),
    ),
    Command("hand", "Hands a pad over: another author owns it, and you may still write", (PAD, word("author", metavar="AUTHOR", help="Who owns it from then on"))),
    Command(
        "close", "Closes a pad: nobody changes it any more, and only its owners may read it", (PAD,),
        "Everybody else has to leave it at once. It stays in the list, with the word closed, and its name stays taken. Only who owns it can close it.",
    ),
    Command("reopen", "Opens a pad again that was closed", (PAD,), "Everybody has the right again that they had."),
    Command(
        "log-in", "Asks for your token, tries it, and keeps it in ~/.config/vindrughe", (
            word("address", metavar="ADDRESS", help="tcp://HOST:PORT, tls://HOST:PORT, ws://HOST:PORT/socket or wss://HOST:PORT/socket"),
            word("name", metavar="NAME", help="Your name"), word("--ca", metavar="FILE", help="For tls: the certificate of an authority of your own"),
        ),
    ),
    Command("completion", "Prints a script that completes commands and pads in a shell", (word("shell", choices=("bash",), metavar="SHELL", help="bash"),)),
]
BY_NAME = {command.name: command for command in COMMANDS}
STATUSES = [
    "0  done", "1  the server refused it, or what was asked for is not there", "2  the command line, the configuration or a file is wrong",
    "3  there is no server, or the connection was lost", "4  something was not saved; the message says where it is kept",
]
VARIABLES = [
    "PADS_ADDRESS, PADS_NAME, PADS_TOKEN  The server, your name and your token; they go before ~/.config/vindrughe",
    "PADS_PEER, PADS_PEER_TOKEN           The number and the token of the peer that imports from Etherpad",
    "PADS_SERVER                          The section of ~/.config/vindrughe to take",
    "VISUAL, EDITOR                       The editor of pads edit",
    "NO_COLOR                             No colours, unless --color always",
]


# ---- parsing


class _Parser(argparse.ArgumentParser):
    def error(self, message: str) -> NoReturn:
        raise Failure(Status.USAGE, f"{message} (pads {self.prog.partition(' ')[2]} --help shows the options)".replace("  ", " "))


def parse(words: list[str]) -> argparse.Namespace:
    """What was asked for.

    Raises:
        Failure: it is no command.
    """
    command = next((one for one in words if not one.startswith("-")), None)
    if command in BY_NAME:
        rest = list(words)
        rest.remove(command)
        parser = _Parser(prog=f"pads {command}", add_help=False, allow_abbrev=False)
        for one in (*BY_NAME[command].words, *COMMON):
            parser.add_argument(*one.names, **one.more)
        if "-h" in rest or "--help" in rest:
            return argparse.Namespace(command=command, help=True)
        return parser.parse_intermixed_args(rest, argparse.Namespace(command=command))
    if command is None and {"-V", "--version"} & set(words):
        return argparse.Namespace(command="version")
    if command is None and {"-h", "--help"} & set(words):
        return argparse.Namespace(command="help")
    raise Failure(Status.USAGE, f"no command{f' {command}' if command else ''}: pads --help lists them")


# ---- help


def _table(rows: list[tuple[str, str]]) -> str:
    width = max(len(first) for first, _ in rows)
    return "\n".join(f"  {first:<{width}}  {second}" for first, second in rows)


def help_text() -> str:
    commands = _table([(command.name, command.meaning) for command in COMMANDS])
    options = _table([("-h, --help", "Prints help"), ("-V, --version", "Prints the version")])
    variables = "\n".join(f"  {line}" for line in VARIABLES)
    statuses = "\n".join(f"  {line}" for line in STATUSES)
    return (
        f"{ABOUT}\n\nUsage: pads <COMMAND> [OPTIONS]\n       pads <COMMAND> --help\n\nCommands:\n{commands}\n\nOptions:\n{options}\n\n"
        f"Environment:\n{variables}\n\nExit status:\n{statuses}\n"
    )


def help_of(name: str) -> str:
    command = BY_NAME[name]
    arguments = [(one.shown, one.meaning) for one in command.words if not one.is_option]
    options = [(one.shown if one.names[0].startswith("-") and not one.names[0].startswith("--") else f"    {one.shown}", one.meaning) for one in (*command.words, *COMMON) if one.is_option]
    parts = [command.meaning, *([command.more] if command.more else []), f"Usage: {command.usage}"]
    if arguments:
        parts.append(f"Arguments:\n{_table(arguments)}")
    return "\n\n".join([*parts, f"Options:\n{_table(options)}"]) + "\n"


def version() -> str:
    return f"pads {__version__}\n"
