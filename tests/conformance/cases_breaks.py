"""Cases of broken connections, and of servers that are started again."""
from __future__ import annotations

import asyncio

from case import Failed, Play, case, slow_case
from model_server import is_edit
from server import refusing

AGAIN = 25.0  # seconds: a client has connected again, and done what it has to


@case
async def a_client_connects_again(play: Play) -> None:
    """And shows what others did meanwhile, without being told to."""
    await play.begin("before")
    play.link.cut()
    play.bob(6, " and after")
    await play.agrees("others' words", "before and after", AGAIN)


@case
async def typing_goes_on_without_a_connection(play: Play) -> None:
    await play.begin("words")
    play.server.stop()
    await play.until(lambda: not play.server.connections, "the connection ends")
    await asyncio.sleep(0.2)
    await play.client.type(5, " of mine")
    await play.shows("words of mine", "lost", "what is typed without a connection")
    play.bob(0, "Bob's ")
    await play.server.start()
    await play.agrees("in the end", "Bob's words of mine", AGAIN)


@case
async def an_unanswered_edit_that_was_made_is_not_sent_again(play: Play) -> None:
    await play.begin("text")
    play.link.mute()
    await play.client.type(4, "ual")
    await play.until(lambda: play.text == "textual", "the edit is carried out")
    play.bob(0, "con")
    play.link.cut()
    await play.agrees("in the end", "contextual", AGAIN)


@case
async def an_unanswered_edit_that_was_lost_is_sent_again(play: Play) -> None:
    await play.begin("text")
    play.link.hold(is_edit)
    await play.client.type(4, "ual")
    await play.asks_to_edit()
    play.link.cut()
    play.bob(0, "con")
    await play.agrees("in the end", "contextual", AGAIN)


@case
async def an_unanswered_edit_that_comes_late_is_not_sent_again(play: Play) -> None:
    """A server of an earlier version: the old connection still delivers it, after the client is there again. Until the old visit
    is gone from `who`, it can."""
    play.server.model.knows_visits = False
    await play.begin("text")
    old = play.link
    release = old.hold(is_edit)
    await play.client.type(4, "ual")
    await play.asks_to_edit()
    old.cut(is_noticed=False)
    await play.until(lambda: any(one is not old for one in play.server.connections), "it connects again", AGAIN)
    await asyncio.sleep(4)
    if (await play.client.shown()).state == "saved":
        raise Failed("it says that the edit is saved, and nobody knows that")
    release()
    old.end()
    await play.agrees("in the end", "textual", AGAIN)


@case
async def an_edit_that_a_network_holds_has_no_effect_any_more(play: Play) -> None:
    """The client joins instead of its old visit, and sends the edit again, without waiting for the old connection's end."""
    await play.begin("text")
    old = play.link
    release = old.hold(is_edit)
    await play.client.type(4, "ual")
    await play.asks_to_edit()
    old.cut(is_noticed=False)
    await play.agrees("the edit is there", "textual", AGAIN)
    release()
    play.bob(0, "con")
    await play.agrees("what came late is refused", "contextual", AGAIN)
    old.end()


@case
async def an_edit_of_the_same_words_by_another_is_not_the_own_one(play: Play) -> None:
    """What is looked for is an edit by this author."""
    await play.begin("text")
    play.link.hold(is_edit)
    await play.client.type(4, "!")
    await play.asks_to_edit()
    play.link.cut()
    play.bob(4, "!")
    await play.agrees("both are there", "text!!", AGAIN)


@case
async def an_erasure_is_sent_again(play: Play) -> None:
    """What is erased stays erased, so nothing has to be looked for."""
    await play.begin("too many words")
    play.link.mute()
    await play.client.type(3, "", erase=5)
    await play.until(lambda: play.text == "too words", "the edit is carried out")
    play.link.cut()
    await play.agrees("in the end", "too words", AGAIN)


@case
async def typing_goes_on_behind_an_unanswered_edit(play: Play) -> None:
    await play.begin("1")
    play.link.mute()
    await play.client.type(1, "2")
    await play.until(lambda: play.text == "12", "the edit is carried out")
    await play.client.type(2, "3")
    play.link.cut()
    await play.client.type(3, "4")
    play.bob(0, "0")
    await play.agrees("in the end", "01234", AGAIN)


@case
async def the_server_has_another_number(play: Play) -> None:
    """An edit that was made under the old number is found; what is sent from now on has the new one."""
    await play.begin("a")
    play.link.mute()
    await play.client.type(1, "b")
    await play.until(lambda: play.text == "ab", "the edit is carried out")
    await play.client.type(2, "c")
    await play.server.restart(replica=2)
    await play.agrees("in the end", "abc", AGAIN)


@case
async def connections_break_again_and_again(play: Play) -> None:
    await play.begin()
    for count in range(6):
        await play.client.type(count, "abcdef"[count])
        await asyncio.sleep(0.05 * count)
        if play.server.connections:
            play.server.connections[-1].cut()
    await play.agrees("each letter is there once", "abcdef", AGAIN)


@case
async def a_crowded_pad_is_tried_again(play: Play) -> None:
    """313: visits of connections that broke are counted until the server notices."""
    await play.begin("text")
    play.server.scripted = refusing(313, lambda request: request["do"] == "join")
    play.link.cut()
    await play.until(lambda: play.server.asks_for("join") >= 3, "it tries again", AGAIN)
    play.server.scripted = lambda request: None
    play.bob(4, "!")
    await play.agrees("in the end", "text!", AGAIN)


@case
async def a_full_server_is_tried_again(play: Play) -> None:
    """902 is sent unasked, and the connection is closed."""
    await play.begin("text")
    tries: list[bool] = []

    def greet(connection) -> bool:  # type: ignore[no-untyped-def]
        if len(tries) >= 2:
            return True
        tries.append(True)
        connection.send('{"code":902,"error":"Full","ok":false}')
        connection.end()
        return False

    play.server.greets = greet
    play.link.cut()
    await play.client.type(4, "!")
    await play.agrees("in the end", "text!", AGAIN)
    if len(tries) < 2:
        raise Failed("it was not refused twice")


@case
async def fewer_revisions_after_a_restart(play: Play) -> None:
    """320: a server without a store forgets its pads, and has another one of the same name. The words that are shown are the
    only copy, so they are not mixed into it; the client tells its author, or reads the pad again."""
    await play.begin("the only copy")
    await play.client.type(13, "!")
    await play.agrees("before", "the only copy!")
    play.server.stop()
    play.pad.restore(0)
    play.bob(0, "new")
    await play.server.restart()
    await _is_not_mixed(play, "the only copy!", "new")


@case
async def another_past_with_as_many_revisions(play: Play) -> None:
    """A store that was restored from an older copy can have as many revisions, and other ones: the text tells."""
    await play.begin("first")
    await play.client.type(5, "!")
    await play.agrees("before", "first!")
    play.server.stop()
    play.pad.restore(1)
    play.bob(5, "?")
    play.bob(6, "?")
    await play.server.restart()
    await _is_not_mixed(play, "first!", "first??")


@case
async def another_past_with_the_same_text(play: Play) -> None:
    """The same letters by another author, in another operation. `entries` tells, by the name and the author."""
    await play.begin("first")
    await play.client.type(5, "!")
    await play.agrees("before", "first!")
    await asyncio.sleep(3)  # what made the revision is remembered
    play.server.stop()
    await asyncio.sleep(0.3)
    await play.client.type(6, " words that were typed meanwhile")
    play.pad.restore(1)
    play.bob(5, "!")
    await play.server.restart()
    await _is_not_mixed(play, "first! words that were typed meanwhile", "first!")


async def _is_not_mixed(play: Play, old: str, new: str) -> None:
    """In the end the client shows the old text and is over, or shows the server's; and the server's has nothing of the old."""
    loop = asyncio.get_running_loop()
    end = loop.time() + AGAIN
    while True:
        shown = await play.client.shown()
        if (shown.text, shown.state) in ((old, "over"), (new, "saved")):
            break
        if loop.time() > end:
            raise Failed(f"it shows {shown.text!r} and is {shown.state}; wanted {old!r} and over, or {new!r} and saved")
        await asyncio.sleep(0.05)
    await asyncio.sleep(1)
    if play.text != new:
        raise Failed(f"the server has {play.text!r}, and had {new!r}: it was sent what belongs to another past")


@case
async def the_right_is_taken_while_words_are_unsent(play: Play) -> None:
    """312: the words are taken back, and shown are those of the server. The client may follow on, since it may read."""
    await play.begin("text", owner="bob")
    release = play.link.hold(is_edit)
    await play.client.type(4, " of mine")
    await play.asks_to_edit()
    play.server.model.rooms["p"].rights["ann"] = "read"
    release()
    await play.agrees("what cannot be sent is not shown as sent", "text", AGAIN)
    play.bob(4, "s")
    await play.agrees("and others are followed", "texts", AGAIN)


@case
async def a_full_disk_passes(play: Play) -> None:
    """901: the edit is tried again until there is room. Until then, nothing is called saved."""
    await play.begin("text")
    play.server.scripted = refusing(901, is_edit)
    await play.client.type(4, "!")
    await play.asks_to_edit(2)
    shown = await play.client.shown()
    if shown.text != "text!" or shown.state not in ("held", "saving"):
        raise Failed(f"it shows {shown.text!r} and is {shown.state}")
    play.server.scripted = lambda request: None
    await play.agrees("in the end", "text!", AGAIN)


@case
async def fields_that_are_new_are_ignored(play: Play) -> None:
    """A later server adds fields to its replies."""
    await play.begin("text")
    reply = play.server.model.reply

    def more(session, request):  # type: ignore[no-untyped-def]
        return {**reply(session, request), "later": {"is": ["ignored"]}}

    play.server.model.reply = more  # type: ignore[method-assign]
    await play.client.type(4, "!")
    play.bob(0, "?")
    await play.agrees("in the end", "?text!")


@slow_case
async def a_dead_network_is_noticed(play: Play) -> None:
    """Nothing is answered any more, and no connection ends: a client that waits for ever loses its author's day."""
    await play.begin("text")
    play.link.hold(lambda request: True)
    play.link.is_kept = True
    await play.client.type(4, "!")
    await play.until(lambda: len(play.server.connections) > 1, "it gives the connection up", 60)
    play.server.connections[0].end()
    await play.agrees("in the end", "text!", AGAIN)


@slow_case
async def a_quiet_pad_is_followed(play: Play) -> None:
    """A wait ends after its time with nothing new, and is asked again."""
    await play.begin("text")
    for _ in range(3):
        await asyncio.sleep(35)
        play.bob(0, "!")
        await play.shows(play.text, "saved", "a change after a long time", seconds=3)
