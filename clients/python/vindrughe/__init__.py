"""A client of Vindrughe, a server for shared pads.

    async with vindrughe.connect("tcp://127.0.0.1:7878", name="ann", token="...") as session:
        pad = await session.join("minutes")
        pad.append("Written by a program.\\n")

It follows a pad while others type, edits it by places in what is shown, and goes on when the connection breaks. Places and
lengths are in characters, as Python counts them; times are in seconds.
"""
from . import delta, limits
from .comments import Comment, Comments
from .connect import connect
from .delta import Delta, Drop, Insert, Keep, Run, Step
from .difference import difference
from .errors import Lost, LostRevisions, Misfit, PadClosed, PadError, Refused, Superseded, Unsaved
from .events import (
    Came, Changed, CommentsChanged, Ended, Event, Moved, PresenceChanged, Received, Reread, RightsChanged, StateChanged, Went,
    WordsRefused,
)
from .guests import is_guest, is_link, new_secret
from .history import ComparedRun, History, Revision
from .kept import KeptWords
from .pad import Pad
from .presence import Person, Presence
from .requests import Access, Birth, Changes, Counts, Entry, Kind, LinkRight, Name, NamedRevision, PadRequests, PlacedComment, Present, Right
from .session import Session, State
from .sync import Pace
from .transports import Channel, Opener, opener, tcp, websocket
from .visit import ListedPad, Visit

__version__ = "0.1.0"

__all__ = [
    "Access", "Birth", "Came", "Changed", "Changes", "Channel", "Comment", "Comments", "CommentsChanged", "ComparedRun", "Counts", "Delta",
    "Drop", "Ended", "Entry", "Event", "History", "Insert", "Keep", "KeptWords", "Kind", "LinkRight", "ListedPad", "Lost", "LostRevisions",
    "Misfit", "Moved", "Name", "NamedRevision", "Opener", "Pace", "Pad", "PadClosed", "PadError", "PadRequests", "Person", "PlacedComment", "Presence",
    "PresenceChanged", "Present", "Received", "Refused", "Reread", "Revision", "Right", "RightsChanged", "Run", "Session",
    "State", "StateChanged", "Step", "Superseded", "Unsaved", "Visit", "Went", "WordsRefused", "connect", "delta",
    "difference", "is_guest", "is_link", "limits", "new_secret", "opener", "tcp", "websocket",
]
