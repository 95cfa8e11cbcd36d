"""A clock that stands still, and bytes by chance that come again, for all that is imported behind `stop`."""
import collections
import datetime
import hashlib
import os
import pathlib
import sys
import time
from typing import Any

Moment = datetime.datetime
LOCAL, SPELLED, UNIVERSAL = time.localtime, time.strftime, time.gmtime
BEGIN = Moment(2026, 11, 30, 12, tzinfo=datetime.timezone.utc).timestamp()

now = BEGIN  # seconds since 1970
calls: collections.Counter[tuple[str, int]] = collections.Counter()


class OfThisClock(type):
    """Has every moment be one of the class that reads this clock."""

    def __instancecheck__(cls, value: Any) -> bool:
        return isinstance(value, Moment)


class Stopped(Moment, metaclass=OfThisClock):
    """A moment whose `now` is that of this clock."""

    @classmethod
    def now(cls, tz: datetime.tzinfo | None = None) -> Any:
        return Moment.fromtimestamp(now, tz)

    @classmethod
    def utcnow(cls) -> Any:
        return Moment.fromtimestamp(now, datetime.timezone.utc).replace(tzinfo=None)


def bytes_of(size: int) -> bytes:
    """Bytes that depend on the time, and on how often the calling module asked for so many."""
    caller = (pathlib.PurePath(sys._getframe(1).f_code.co_filename).name, size)
    calls[caller] += 1
    return hashlib.shake_256(f"{now} {caller} {calls[caller]}".encode()).digest(size)


def move_to(seconds: float) -> None:
    """Has the clock stand at so many seconds since 1970."""
    global now
    now = seconds
    calls.clear()


def stop() -> None:
    """Has Python read this clock."""
    datetime.datetime = Stopped  # type: ignore[misc]
    time.time = lambda: now
    time.gmtime = lambda seconds=None: UNIVERSAL(now if seconds is None else seconds)
    time.localtime = lambda seconds=None: LOCAL(now if seconds is None else seconds)
    time.strftime = lambda form, *at: SPELLED(form, *(at or [LOCAL(now)]))
    os.urandom = bytes_of
