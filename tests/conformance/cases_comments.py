"""Cases of comments. A client that makes none answers `unsupported`, and they are left out."""
from __future__ import annotations

import asyncio
from typing import Any

from case import Failed, Play, case

AGAIN = 25.0  # seconds


def is_comment(request: dict[str, Any]) -> bool:
    return request["do"] == "comment"


def made(play: Play) -> list[tuple[str, str, str]]:
    """The comments that the server has: author, text, and the words."""
    text = play.text
    return [(one["author"], one["text"], text[one["at"] : one["at"] + one["len"]]) for one in play.pad.comments(play.pad.now)]


async def comes(play: Play, name: str, *comments: tuple[str, str, str]) -> None:
    """The server has these comments, and the client lists them at their words."""
    await play.until(lambda: made(play) == list(comments), f"{name}: the server has {made(play)}, and not {comments}", AGAIN)
    loop = asyncio.get_running_loop()
    end = loop.time() + AGAIN
    while True:
        text, listed = (await play.client.shown()).text, (await play.client.ask("comments"))["comments"]
        have = [(author, words, text[at : at + length]) for author, words, at, length, _ in listed]
        if sorted(have) == sorted(comments):
            return
        if loop.time() > end:
            raise Failed(f"{name}: it lists {have}, and not {comments}")
        await asyncio.sleep(0.05)


@case
async def a_comment_is_made_and_listed(play: Play) -> None:
    await play.begin("one 🙂 two three")
    await play.client.ask("comment", at=6, len=3, text="which two?")
    await comes(play, "a comment", ("ann@1", "which two?", "two"))
    play.bob(0, "zero ")
    play.server.acts("bob", do="comment", at=0, len=4, text="none")
    await comes(play, "others'", ("ann@1", "which two?", "two"), ("bob@1", "none", "zero"))


@case
async def a_comment_without_a_connection_moves_with_its_words(play: Play) -> None:
    await play.begin("one two three")
    play.server.stop()
    await asyncio.sleep(0.3)
    await play.client.ask("comment", at=4, len=3, text="which two?")
    await play.client.type(0, "zero ")
    await play.server.start()
    await comes(play, "in the end", ("ann@1", "which two?", "two"))


@case
async def an_unanswered_comment_is_made_once(play: Play) -> None:
    await play.begin("one two three")
    play.link.mute()
    await play.client.ask("comment", at=4, len=3, text="which two?")
    await play.until(lambda: made(play), "the comment is carried out")
    play.link.cut()
    play.bob(0, "zero ")
    await comes(play, "in the end", ("ann@1", "which two?", "two"))
    await asyncio.sleep(2)
    await comes(play, "later", ("ann@1", "which two?", "two"))


@case
async def an_unanswered_comment_that_was_lost_is_made(play: Play) -> None:
    await play.begin("one two three")
    play.link.hold(is_comment)
    await play.client.ask("comment", at=4, len=3, text="which two?")
    await play.until(lambda: any(map(is_comment, play.server.asked)), "the comment is sent")
    play.link.cut()
    await comes(play, "in the end", ("ann@1", "which two?", "two"))
