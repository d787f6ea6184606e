"""What the program does with its command line."""
from __future__ import annotations

import argparse
import asyncio
import os
import sys
from collections.abc import Awaitable, Callable

from vindrughe import PadError, Session

from . import closing, completion, edit, follow, import_file, names, options, reading, settings, writing
from .failure import Failure, Status, failure_of
from .opening import connected_by

# Commands that need one session.
_COMMANDS: dict[str, Callable[[Session, argparse.Namespace], Awaitable[None]]] = {
    "list": reading.list_pads, "show": reading.show, "export": reading.export, "history": reading.history, "diff": reading.diff,
    "follow": follow.follow, "create": writing.create, "comment": writing.comment, "grant": writing.grant, "hand": writing.hand,
    "close": closing.close, "reopen": closing.reopen, "mark": names.mark, "marks": names.marks,
}


async def _run(asked: argparse.Namespace) -> None:
    if asked.command == "log-in":
        await writing.log_in(asked)
        return
    if asked.command == "import" and asked.dry_run:
        import_file.describe(asked)
        return
    found = settings.read(asked.server)
    connected = connected_by(found)
    if asked.command == "edit":
        await edit.edit(connected, asked)
    elif asked.command == "append":
        await writing.append(connected, asked)
    elif asked.command == "import":
        await import_file.import_file(connected, found, asked)
    else:
        async with connected(0) as session:
            await _COMMANDS[asked.command](session, asked)


def _text_of(asked: argparse.Namespace) -> str | None:
    """What is printed without a server."""
    if getattr(asked, "help", False):
        return options.help_of(asked.command)
    texts = {"help": options.help_text, "version": options.version, "completion": completion.bash}
    return texts[asked.command]() if asked.command in texts else None


def main(words: list[str] | None = None) -> int:
    """Runs a command. Returns the exit status."""
    try:
        asked = options.parse(sys.argv[1:] if words is None else words)
        text = _text_of(asked)
        if text is None:
            asyncio.run(_run(asked))
        else:
            sys.stdout.write(text)
        sys.stdout.flush()
    except Failure as failure:
        return _failed(failure)
    except PadError as error:
        return _failed(failure_of(error))
    except BrokenPipeError:
        # Whoever read has gone, such as `head`. What Python flushes at its end goes nowhere.
        os.dup2(os.open(os.devnull, os.O_WRONLY), sys.stdout.fileno())
    except KeyboardInterrupt:
        return 130
    return Status.DONE


def _failed(failure: Failure) -> int:
    print(f"pads: {failure}", file=sys.stderr)
    return failure.status
