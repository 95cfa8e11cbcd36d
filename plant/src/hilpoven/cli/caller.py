"""Whose process this is, with which words it began, and how it ends."""
import contextlib
import os
import signal
import sys
from types import FrameType

from ..core.scratch import ENDING
from ..core.failure import printable
from ..core.rights import NOBODY, Person, name_of

STARTED_AS = os.getuid()  # before the rights of a file's owner are taken
_sheet = ""  # the path of the sheet that this command names


def login_number() -> int:
    """The user who logged in, as the system notes it; `NOBODY` where no login began this."""
    with contextlib.suppress(OSError, ValueError), open("/proc/self/loginuid") as file:
        return int(file.read())
    return NOBODY


def person() -> Person:
    """Who gives this command."""
    names = os.environ.get("SUDO_UID"), os.environ.get("SUDO_USER")
    return Person(STARTED_AS, *names, login_number(), os.isatty(0))


def user() -> str:
    """The name of the user whose rights this process has."""
    return name_of(os.geteuid())


def note_sheet(path: str) -> None:
    """Notes the path by which this command names a sheet."""
    global _sheet
    _sheet = path


def command_as(user: str, sheet: str = "") -> str:
    """This command as a member of the group gives it with a user's rights. It reads a sheet from standard input, since
    a member names no path."""
    import shlex

    words = ["-" if sheet and word == sheet else word for word in sys.argv[1:]]
    command = shlex.join(["sudo", "-u", user, "hilpoven", *words])
    return printable(f"{command} < {shlex.quote(sheet)}" if sheet else command)


def with_rights_of(owner: str) -> str:
    """How this command is given with the rights that it needs."""
    return f"this is tried as {user()}, and needs another user's rights: {command_as(owner, _sheet)}"


def end_by_signals() -> None:
    """Has the signals that end a program raise SystemExit, so that what it made is removed."""

    def leave(number: int, _: FrameType | None) -> None:
        for ending in ENDING:
            signal.signal(ending, signal.SIG_IGN)  # a second one would break off the removing
        sys.exit(128 + number)

    for ending in ENDING:
        signal.signal(ending, leave)
