"""Moments as people write them, for `--at`."""
from __future__ import annotations

import re
from datetime import datetime, time, timedelta

from .failure import Failure, Status

_AGO = re.compile(r"(\d+)([smhd])(?: ago)?")
_SECONDS = {"s": 1, "m": 60, "h": 3_600, "d": 86_400}
FORMS = "2026-11-27, 2026-11-27T14:30, 14:30 of today, or 2h (s, m, h, d) for two hours ago"


def milliseconds(text: str, now: datetime | None = None) -> int:
    """Milliseconds since 1970 of a moment. Without a zone, it is local time.

    Raises:
        Failure: it has none of the forms.
    """
    now = now or datetime.now().astimezone()
    try:
        return round(_moment(text.strip(), now).timestamp() * 1000)
    except (ValueError, OverflowError):
        raise Failure(Status.USAGE, f"{text!r} is no time: write {FORMS}") from None


def shown(time: int) -> str:
    """A moment in milliseconds since 1970, in local time with its zone."""
    return datetime.fromtimestamp(time / 1000).astimezone().isoformat(timespec="seconds")


def _moment(text: str, now: datetime) -> datetime:
    if ago := _AGO.fullmatch(text):
        return now - timedelta(seconds=int(ago[1]) * _SECONDS[ago[2]])
    if re.fullmatch(r"\d{1,2}:\d{2}(:\d{2})?", text):
        return datetime.combine(now.date(), time.fromisoformat(text.zfill(5))).astimezone()
    moment = datetime.fromisoformat(text)
    return moment if moment.tzinfo else moment.astimezone()
