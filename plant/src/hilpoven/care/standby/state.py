"""How far a follower is, as it writes into its folder, and how far a standby is behind, also where the follower doesn't
look."""
import contextlib
import json
import os
import time
from dataclasses import asdict, dataclass, replace
from datetime import datetime, tzinfo

from ...core import files
from ...core.failure import Failure
from ...core.typed import typed
from . import capture, chain, piece, remote
from .capture import Gap

NAME = "follower.json"
SILENT = 15.0  # seconds after which a follower that wrote nothing doesn't look any more
EVERY = 1.0, 10.0  # seconds between two writes: while something is new, and else


@dataclass
class State:
    """How far a follower is. Times are seconds since 1970, and 0 if there is none."""

    looked: float = 0.0  # when it looked last
    waiting: float = 0.0  # since when something is new that is in no piece
    commits: int = 0  # how many commands and requests that are
    piece: int = 0  # the number of the last piece
    at: float = 0.0  # when it was made
    to: str = ""  # the folder on another machine, if there is one
    unsent: int = 0  # how many pieces aren't there
    unsent_since: float = 0.0  # when the first of them was made
    fault: str = ""  # what keeps the follower from going on

    def waits(self, commits: int) -> None:
        """Notes that something is new."""
        self.commits += commits
        self.waiting = self.waiting or time.time()

    def has_written(self, number: int, at: float) -> None:
        """Notes that all of it is in a piece."""
        self.piece, self.at = number, at
        self.is_level()

    def is_level(self) -> None:
        """Notes that nothing is new."""
        self.waiting, self.commits, self.looked = 0.0, 0, time.time()

    @property
    def behind(self) -> float:
        """By how many seconds the pieces are behind, or at most are if the follower doesn't look."""
        ends = [moment for moment in (self.waiting, self.unsent_since, self.looked if self.is_silent else 0) if moment]
        return max(0.0, time.time() - min(ends)) if ends else 0.0

    @property
    def is_silent(self) -> bool:
        """Whether the follower doesn't look."""
        return time.time() - self.looked > SILENT


class Saved:
    """The file of a follower's state."""

    def __init__(self, folder: str) -> None:
        self.path, self.at, self.last = os.path.join(folder, NAME), 0.0, State()

    def save(self, state: State) -> bool:
        """Writes the state, if it is another one or old; whether it did. On a full disk it takes the old one's room."""
        new, content = replace(state, looked=0.0), json.dumps(asdict(state)).encode()
        if time.monotonic() - self.at < EVERY[new == self.last]:
            return False
        self.at, self.last = time.monotonic(), new
        with contextlib.suppress(OSError):
            files.replace(self.path, content, is_lasting=False, temporary_name=f"{NAME}.made")
            return True
        with contextlib.suppress(OSError):
            with open(os.open(self.path, os.O_WRONLY | files.SAFE), "wb") as file:
                file.write(content.ljust(os.path.getsize(self.path)))
            return True
        return False


def load(folder: str) -> State | None:
    """The state that a follower wrote into its folder; `None` if there is none."""
    path = os.path.join(folder, NAME)
    try:
        with open(os.open(path, files.READ)) as file:
            state: State = typed(State, json.load(file))
            return state
    except FileNotFoundError:
        return None
    except (OSError, ValueError, TypeError) as error:
        raise Failure(f"{path} isn't a follower's state: {error}") from error


BESIDE = "follow"  # the name of the folder of pieces beside FILE, if they go to another machine or come from one


def folder_of(file: str, to: str) -> str:
    """The folder of this machine that has an office's pieces, which go to a target; empty if that isn't set."""
    return to if to and not remote.is_remote(to) else os.path.join(os.path.dirname(file), BESIDE)


@dataclass(frozen=True)
class Lag:
    """A standby's follower as it says itself, whether it looks, how many seconds the standby is behind, and how many
    commands and requests aren't in pieces; `None` if that can't be told."""

    state: State
    is_silent: bool
    seconds: float
    commands: int | None
    zone: tzinfo | None = None  # in which times are told; the machine's if there is none

    @property
    def lines(self) -> list[str]:
        """What is told of it."""
        own, pieces = self.state, "pieces" if self.state.unsent != 1 else "piece"
        at = f"{datetime.fromtimestamp(own.at, self.zone):%Y-%m-%d %H:%M:%S}"
        count = "an unknown number of" if self.commands is None else f"{self.commands:,}"
        of = "command or request" if self.commands == 1 else "commands and requests"
        lines = [f"{self.seconds:.1f} seconds behind: {count} {of} in no piece; piece {own.piece} is of {at}"]
        lines += [f"{own.unsent:,} {pieces} still to be sent to {own.to}"] if own.unsent else []
        return lines

    @property
    def faults(self) -> list[str]:
        """What keeps it from going on."""
        silent = f"its follower hasn't looked for {time.time() - self.state.looked:,.0f} seconds"
        return [*([silent] if self.is_silent else []), *([self.state.fault] if self.state.fault else [])]


def lag_of(file: str, folder: str, zone: tzinfo | None = None) -> Lag | None:
    """How far the pieces in a folder are behind an office's file, which may be on another machine, told in a time zone;
    `None` if nobody follows into it."""
    own = load(folder)
    if own is None:
        return None
    if not own.is_silent or not os.path.exists(file):
        return Lag(own, own.is_silent, own.behind, own.commits, zone)
    new = commits_since(file, folder)
    since = [moment for moment in (own.unsent_since, (own.waiting or own.looked) if new != 0 else 0.0) if moment]
    return Lag(own, True, time.time() - min(since) if since else 0.0, new, zone)


def commits_since(file: str, folder: str) -> int | None:
    """How many commands and requests a log has behind the last piece; `None` if the log can't tell."""
    with contextlib.suppress(Failure, Gap, OSError):
        watch = capture.continued(file, piece.opened(chain.newest_in(folder).newest).header.place)
        if watch:
            pages = watch.advance()
            return pages.commits if pages else 0
    return None
