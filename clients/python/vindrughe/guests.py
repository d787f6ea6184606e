"""Guests are authors without an account, who come by a link. Their names say so: a link is called `guest-` and 13 letters, and a
guest who came by it has the link's name and 13 letters more. The server makes both names from secrets that clients have drawn."""
from __future__ import annotations

import secrets

_MARK, _LINK, _GUEST, _BYTES = "guest-", 19, 32, 16


def is_link(name: str) -> bool:
    """Whether a name, without the number of a server, is that of a link for guests."""
    return len(name) == _LINK and name.startswith(_MARK)


def is_guest(name: str) -> bool:
    """Whether an author's name, without the number of a server, is that of a guest."""
    return len(name) == _GUEST and name.startswith(_MARK)


def link_of(guest: str) -> str:
    """The name of the link by which a guest came."""
    return guest[:_LINK]


def new_secret() -> str:
    """A secret for a link, or one of a guest's own: 16 random bytes in base64url."""
    return secrets.token_urlsafe(_BYTES)
