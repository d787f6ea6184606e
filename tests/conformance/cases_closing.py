"""Cases of pads that an owner closes and opens again."""
from __future__ import annotations

import asyncio

from case import Failed, Play, case, slow_case
from model_server import is_edit

AGAIN = 25.0  # seconds: a client has connected again, and done what it has to
REOPENED = 75.0  # seconds: it has asked again whether the pad is open


def closes(play: Play, is_closed: bool = True) -> None:
    """An owner closes the pad, or opens it again, as if over a connection of its own."""
    play.server.model.set_closed(play.server.model.rooms["p"], is_closed)


@case
async def a_visit_that_somebody_ended_is_no_end(play: Play) -> None:
    """The pad was closed, and is open again before the client has noticed. Its requests are 310, and so is a join on this
    connection; over another one, it goes on with what its author has typed."""
    await play.begin("text", owner="bob")
    closes(play)
    closes(play, False)
    await play.client.type(4, " of mine")
    play.bob(0, "Bob's ")
    await play.agrees("in the end", "Bob's text of mine", AGAIN)


@case
async def an_edit_that_was_made_before_the_pad_was_closed_is_not_sent_again(play: Play) -> None:
    await play.begin("text", owner="bob")
    play.link.mute()
    await play.client.type(4, "ual")
    await play.until(lambda: play.text == "textual", "the edit is carried out")
    closes(play)
    closes(play, False)
    play.bob(0, "con")
    play.link.cut()
    await play.agrees("in the end", "contextual", AGAIN)


@case
async def words_for_a_closed_pad_are_not_called_saved(play: Play) -> None:
    """330: the client keeps them and says that they are not saved, or that it is over. It does not ask without end."""
    await play.begin("text", owner="bob")
    closes(play)
    await play.client.type(4, " of mine")
    await play.until(lambda: play.server.asks_for("join") > 1, "it joins over another connection", AGAIN)
    await asyncio.sleep(2)
    shown = await play.client.shown()
    if shown.state == "saved" or shown.text not in ("text of mine", "text"):
        raise Failed(f"it shows {shown.text!r} and is {shown.state}, and the pad is closed")
    joins = play.server.asks_for("join")
    await asyncio.sleep(3)
    if play.server.asks_for("join") - joins > 3 or play.text != "text":
        raise Failed(f"it has joined {play.server.asks_for('join') - joins} times in 3 seconds, and the server has {play.text!r}")


@slow_case
async def words_for_a_closed_pad_are_sent_when_it_is_open_again(play: Play) -> None:
    await play.begin("text", owner="bob")
    closes(play)
    await play.client.type(4, " of mine")
    await asyncio.sleep(20)
    closes(play, False)
    play.bob(0, "Bob's ")
    await play.agrees("in the end", "Bob's text of mine", REOPENED)


@case
async def an_owner_reads_a_closed_pad_on(play: Play) -> None:
    """An edit is 330: the words are taken back, and shown are those of the server. The visit goes on, so that what comes once the
    pad is open is followed, over the same connection."""
    await play.begin("text")
    closes(play)
    await play.client.type(4, " of mine")
    await play.until(lambda: any(map(is_edit, play.server.asked)), "the edit is sent")
    await play.agrees("what was refused is not shown as sent", "text", AGAIN)
    closes(play, False)
    play.bob(4, "s")
    await play.agrees("others' words", "texts", AGAIN)
    if play.server.asks_for("join") > 1:
        raise Failed("it has joined again, and nobody had ended its visit")
    await play.client.type(5, "!")
    await play.agrees("its own words", "texts!", AGAIN)
