"""Whether a server serves an office's file: at the socket beside it, at its port, and by who has the file open."""
import contextlib
import os
import socket
from dataclasses import dataclass
from typing import NamedTuple

from . import settings as site
from .client import PATIENCE, PlantSocket
from .context import Context


@dataclass(frozen=True)
class Place:
    """Where a server of the office is expected: its unit, and its port; 0 where none is known."""

    unit: str
    port: int


def place_of(context: Context) -> Place:
    """Where a server of the office of a command is expected."""
    name, is_of_settings = context.settings.office, context.file == site.office_of(context.settings)
    return Place(f"toll@{name}" if name else "toll", context.settings.port if is_of_settings else 0)


def greeting(file: str) -> str:
    """What the server of a file says first at FILE.sock; empty where none is there."""
    try:
        with contextlib.closing(PlantSocket(file)) as plant:
            return plant.greeting()
    except OSError:
        return ""


def listens(port: int) -> bool:
    """Whether anybody listens at a port of this machine, also where nobody answers there."""
    try:
        with socket.create_connection(("127.0.0.1", port), PATIENCE):
            return True
    except TimeoutError:
        return True
    except OSError:
        return False


class Listener(NamedTuple):
    """A socket that listens, by its number in the system, and the user whose it is."""

    inode: int
    user: int


def listener_at(port: int) -> Listener | None:
    """Who listens at a port of 127.0.0.1; `None` if nobody does, or more than one."""
    address, listening = f"0100007F:{port:04X}", "0A"
    try:
        with open("/proc/net/tcp") as sockets:
            rows = [row.split() for row in sockets]
    except OSError:
        return None
    listeners = [Listener(int(row[9]), int(row[7])) for row in rows if row[1] == address and row[3] == listening]
    return listeners[0] if len(listeners) == 1 else None


def connected(port: int, user: int) -> socket.socket | None:
    """A connection to the server at a port of 127.0.0.1 that is a user's; `None` if there is none. Another user may
    listen there whenever the server doesn't, so the same socket listens before and after."""
    listener = listener_at(port)
    if listener is None or listener.user != user:
        return None
    try:
        peer = socket.create_connection(("127.0.0.1", port), PATIENCE)
    except OSError:
        return None
    if listener_at(port) == listener:
        return peer
    peer.close()
    return None


def users_of(file: str) -> list[int]:
    """The other processes that have the file open, as far as this user may see them."""
    try:
        state = os.stat(file)
    except OSError:
        return []
    pids = [int(name) for name in os.listdir("/proc") if name.isdigit() and int(name) != os.getpid()]
    return [pid for pid in pids if has_open(pid, state)]


def has_open(pid: int, file: os.stat_result) -> bool:
    """Whether a process has a file open."""
    folder = f"/proc/{pid}/fd"
    with contextlib.suppress(OSError):
        for name in os.listdir(folder):
            with contextlib.suppress(OSError):
                if os.path.samestat(os.stat(f"{folder}/{name}"), file):
                    return True
    return False
