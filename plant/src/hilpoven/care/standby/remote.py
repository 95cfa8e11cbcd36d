"""A folder on another machine, which rsync fills over ssh while the follower goes on."""
import os
import re
import shlex
import subprocess
import time
from collections.abc import Sequence
from dataclasses import dataclass
from enum import Enum, auto
from typing import IO, NamedTuple

from ...core.failure import WRONG_USE, Failure

TIMEOUT = 20  # seconds without a byte
# No -a: pieces never change. What came whole is on the other disk before it has its name.
RSYNC = ["rsync", "--times", "--chmod=F600", "--fsync", "--whole-file", f"--timeout={TIMEOUT}"]
CONNECTION = ("ControlMaster=auto", "ControlPersist=60", "ServerAliveInterval=5", "ServerAliveCountMax=2")
CONTROL = ".ssh"  # the name of the connection's socket
LONGEST = 80  # bytes of a folder's path in which ssh can make that
LISTED = re.compile(r"(?m)^-\S+\s+[\d,.]+\s+(\S+\s+\S+)\s(.+)$")
LISTED_AT = "%Y/%m/%d %H:%M:%S"
NOWHERE = "/proc/"  # a folder in which nobody can make a file: what is named there is removed at the other end


def is_remote(to: str) -> bool:
    """Whether a target is HOST:FOLDER."""
    return ":" in to.partition("/")[0]


class Purpose(Enum):
    """What rsync does."""

    LOOK = auto()
    SEND = auto()
    REMOVE = auto()


class ListedFile(NamedTuple):
    """A file of the folder on the other machine: its name, and when it was written, in seconds since 1970."""

    name: str
    at: float


@dataclass
class Job:
    """What rsync does, and for which names."""

    process: "subprocess.Popen[bytes]"
    purpose: Purpose
    names: list[str]
    output: IO[bytes]

    def end(self) -> tuple[str, str] | None:
        """What it printed, and why it failed; `None` while it goes on."""
        if self.process.poll() is None:
            return None
        self.output.seek(0)
        lines = self.output.read().decode(errors="replace")
        self.output.close()
        if self.process.returncode:
            return "", (lines.strip().splitlines() or ["it was ended"])[0]
        return lines, ""


@dataclass(frozen=True)
class Remote:
    """A folder on another machine, HOST:FOLDER, and the words by which rsync reaches it."""

    to: str
    rsh: str

    def __post_init__(self) -> None:
        host, _, folder = self.to.partition(":")
        if not re.fullmatch(r"[A-Za-z0-9_][A-Za-z0-9_.@-]*", host) or not folder or "\n" in folder:
            raise Failure(f"{self.to} is no HOST:FOLDER", WRONG_USE)

    @property
    def address(self) -> str:
        """The folder with a stroke at its end, as rsync reads it."""
        return f"{self.to.rstrip('/')}/"

    def begin(self, purpose: Purpose, words: list[str], names: Sequence[str] = ()) -> Job:
        """Begins rsync, with names at its standard input. Both streams are in memory, so a full disk ends nothing."""
        output = open(os.memfd_create("output"), "w+b")
        with open(os.memfd_create("lines"), "w+b") as lines:
            lines.writelines(os.fsencode(f"{name}\n") for name in names)
            lines.seek(0)
            try:
                process = subprocess.Popen(
                    [*RSYNC, f"--rsh={self.rsh}", *words], stdin=lines, stdout=output, stderr=subprocess.STDOUT
                )
            except OSError as error:
                output.close()
                if isinstance(error, FileNotFoundError):
                    raise Failure("rsync isn't installed", WRONG_USE) from error
                raise Failure(f"rsync can't be run: {error.strerror}") from error
        return Job(process, purpose, list(names), output)

    def send(self, folder: str, names: list[str]) -> Job:
        """Begins to send files of a folder."""
        return self.begin(Purpose.SEND, ["--files-from=-", f"{folder}/", self.address], names)

    def names(self, *patterns: str) -> Job:
        """Begins to list the files there whose names fit one of these patterns."""
        chosen = [f"--include={pattern}" for pattern in patterns]
        return self.begin(Purpose.LOOK, ["--recursive", "--list-only", *chosen, "--exclude=*", self.address])

    def remove(self, names: list[str]) -> Job:
        """Begins to remove these files there, and no others. Each costs the same, however many there are."""
        words = ["--delete-missing-args", "--existing", "--ignore-existing", "--omit-dir-times", "--files-from=-"]
        return self.begin(Purpose.REMOVE, [*words, NOWHERE, self.address], names)

    def listed(self) -> list[ListedFile]:
        """All pieces and marks there, which are waited for."""
        job = self.names("promoted-*", "*.piece", "*.snapshot")
        job.process.wait()
        text, fault = job.end() or ("", "")
        if fault:
            raise Failure(f"{self.to} can't be asked: {fault}")
        return files_in(text)


def files_in(text: str) -> list[ListedFile]:
    """The files in what rsync lists, with its times, which are those of this machine's time zone."""
    return [ListedFile(name, listed_seconds(at)) for at, name in LISTED.findall(text)]


def listed_seconds(at: str) -> float:
    """A time that rsync lists, in seconds since 1970; now if it is none."""
    try:
        return time.mktime(time.strptime(at, LISTED_AT))
    except (ValueError, OverflowError):
        return time.time()


def keeping_connected(rsh: str, folder: str) -> str:
    """The words by which rsync reaches another machine. One connection of ssh serves all for a minute, by a socket in a
    folder that nobody else may change, and is given up when the network is silent."""
    try:
        words = shlex.split(rsh)
    except ValueError as error:
        raise Failure(f"rsh in [follow]: {error}", WRONG_USE) from error
    if not words or os.path.basename(words[0]) != "ssh" or len(os.fsencode(folder)) > LONGEST:
        return rsh
    return shlex.join(
        [*words, *(word for option in CONNECTION for word in ("-o", option)), "-S", f"{folder}/{CONTROL}"]
    )
