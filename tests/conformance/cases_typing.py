"""Cases of typing, while others type."""
from __future__ import annotations

import asyncio

from case import Failed, Play, case
from model_server import is_edit


@case
async def a_pad_is_opened_with_its_authors(play: Play) -> None:
    """The text and its authors, also characters beyond 16 bits, NUL, and line separators of JavaScript."""
    await play.begin("one 🙂 two\n\u2028\x00👩\u200d🚀")
    play.server.acts("cyd", do="insert", at=5, text="C")
    await play.agrees()


@case
async def what_is_typed_is_sent(play: Play) -> None:
    """Places count characters: Unicode scalar values."""
    await play.begin("a🙂b")
    await play.client.type(2, "语", erase=0)
    await play.agrees("an insertion", "a🙂语b")
    await play.client.type(1, "", erase=1)
    await play.agrees("an erasure", "a语b")
    await play.client.type(0, "𝄞x", erase=2)
    await play.agrees("a replacement", "𝄞xb")


@case
async def what_others_do_is_shown_soon(play: Play) -> None:
    """`changes` with `wait` is answered when the pad has a new revision. To ask now and then without it is too slow."""
    await play.begin("text")
    for count in range(5):
        play.bob(len(play.text), f" {count}")
        await play.shows(play.text, "saved", f"change {count} of another", seconds=2)
        await asyncio.sleep(0.3)


@case
async def an_edit_refers_to_the_revision_that_is_shown(play: Play) -> None:
    """Others type before the edit arrives. The server finds its place in the revision that it names."""
    await play.begin("abcdef")
    release = play.link.hold(lambda request: request["do"] != "changes")
    await play.client.type(3, "X")
    await play.asks_to_edit()
    play.bob(0, "0123456789")
    play.bob(11, "", erase=2)
    release()
    await play.agrees("typed behind c", "0123456789aXdef")


@case
async def text_of_others_at_the_same_place_comes_behind(play: Play) -> None:
    """An insertion of an older revision goes directly behind the character that was before it."""
    await play.begin("ab")
    release = play.link.hold(is_edit)
    await play.client.type(1, "X")
    await play.asks_to_edit()
    play.bob(1, "first ")
    play.bob(1, "second ")
    release()
    await play.agrees("the own text comes first", "aXsecond first b")


@case
async def the_character_before_an_edit_in_flight_is_erased(play: Play) -> None:
    """And others insert on both sides of where it was. A client that takes these changes one by one while its edit is in flight
    no longer knows on which side its text is."""
    await play.begin("abc")
    release = play.link.hold(is_edit)
    await play.client.type(2, "X")
    await play.asks_to_edit()
    play.bob(1, "", erase=1)
    await asyncio.sleep(0.3)
    play.bob(1, "L")
    await asyncio.sleep(0.3)
    play.server.acts("bob", do="insert", at=2, text="R")
    release()
    await play.agrees()


@case
async def typing_goes_on_while_an_edit_is_in_flight(play: Play) -> None:
    """What is typed meanwhile refers to what is shown, so it cannot go out at the old revision. It waits for the answer."""
    await play.begin("base")
    release = play.link.hold(is_edit)
    await play.client.type(4, "1")
    await play.asks_to_edit()
    for count in range(2, 8):
        await play.client.type(3 + count, str(count))
        play.bob(0, "b")
    await play.client.type(0, "", erase=2)
    release()
    await play.agrees("all is there once", "bbbbbbse1234567")


@case
async def others_type_into_what_is_not_answered_yet(play: Play) -> None:
    """The edit was carried out, its answer is late, and others erase and type within it."""
    await play.begin("base")
    link = play.link
    await play.client.type(4, " of mine")
    await play.asks_to_edit()
    release = link.hold(lambda request: request["do"] == "changes" and "wait" not in request)
    await play.until(lambda: "mine" in play.text, "the edit is carried out")
    play.bob(8, "NOT ")
    play.bob(0, "", erase=3)
    release()
    await play.agrees("with what others did in it", "e of NOT mine")


@case
async def what_a_wait_brought_is_used_only_where_it_fits(play: Play) -> None:
    """The edit ends the wait, which brings others' changes up to some revision; more of them come before the edit is made."""
    await play.begin("abc")
    release = play.link.hold(lambda request: is_edit(request) or request["do"] == "changes")
    await play.client.type(3, "X")
    await play.asks_to_edit()
    play.bob(0, "1")
    play.link.holds.clear()
    hold_edits = play.link.hold(is_edit)
    play.link.serve()
    await asyncio.sleep(0.3)
    play.bob(0, "2")
    play.bob(2, "", erase=1)
    hold_edits()
    await play.agrees("in the end", "21bcX")
    del release


@case
async def an_answer_lists_a_drop_before_or_behind_an_insertion(play: Play) -> None:
    """It says on which side of the erased characters the insertion is; the client's own text is among these."""
    await play.begin("abcdef")
    release = play.link.hold(is_edit)
    await play.client.type(3, "X")
    await play.asks_to_edit()
    play.server.acts("bob", do="insert", at=2, text="L")
    play.server.acts("bob", do="insert", at=5, text="R")
    play.server.acts("bob", do="delete", at=1, len=6)
    release()
    await play.agrees("what is typed in erased words stays", "aXf")


@case
async def a_long_text_is_sent_in_pieces(play: Play) -> None:
    """An edit has 10,000 characters at most."""
    await play.begin("()")
    text = "0123456789" * 2_600 + "🙂"
    await play.client.type(1, text)
    await play.agrees("in the end", f"({text})")
    await play.client.type(1, "", erase=len(text))
    await play.agrees("and it is erased again", "()")


@case
async def many_places_are_sent_in_pieces(play: Play) -> None:
    """An edit has 16 changes at most."""
    await play.begin("." * 60)
    release = play.link.hold(is_edit)
    await play.client.type(0, "!")
    await play.asks_to_edit()
    for count in range(40):
        await play.client.type(1 + 2 * count, "x", erase=1 if count % 3 == 0 else 0)
    shown = (await play.client.shown()).text
    release()
    await play.agrees("in the end", shown)


@case
async def what_is_typed_where_others_type_stays_in_its_place(play: Play) -> None:
    """What is not sent yet stands before what others type at its place, in the client and then at the server."""
    await play.begin("ab")
    release = play.link.hold(is_edit)
    await play.client.type(0, "!")
    await play.asks_to_edit()
    await play.client.type(2, "mine")
    play.bob(1, "BOB")
    release()
    await play.agrees("in the end", "!amineBOBb")


@case
async def an_edit_that_undoes_itself_is_none(play: Play) -> None:
    """Nothing is left to send: the client may say nothing or a harmless edit, and is saved."""
    await play.begin("abc")
    await play.client.type(1, "X")
    await play.client.type(1, "", erase=1)
    await play.agrees("in the end", "abc")


@case
async def two_insertions_at_one_place_are_one(play: Play) -> None:
    """Of two changes of an edit at one place, the server puts the later one first."""
    await play.begin("()")
    release = play.link.hold(is_edit)
    await play.client.type(0, "!")
    await play.asks_to_edit()
    for text in ("a", "b", "c"):
        await play.client.type(2 + "abc".index(text), text)
    await play.client.type(2, "0")
    release()
    await play.agrees("in the order in which they are shown", "!(0abc)")


@case
async def nobody_else_is_asked_to_type(play: Play) -> None:
    """A client that only reads sends no edit, however long."""
    await play.begin("quiet")
    for _ in range(10):
        play.bob(0, "q")
        await asyncio.sleep(0.1)
    await play.agrees()
    if play.server.made:
        raise Failed(f"it has sent {play.server.made}")
