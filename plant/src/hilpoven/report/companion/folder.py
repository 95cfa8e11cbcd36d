"""The folder of an office's companions: a file for each owner, and one that says of what they were made."""
import contextlib
import json
import os
import re
import stat
import time
from collections.abc import Iterator
from dataclasses import dataclass
from typing import Any

from ...core import files, lock, paths
from ...core.failure import FAULT, WRONG_USE, Failure

MARK = ".companions"  # by which a folder is known as one of companions: of what they were made, and whose there are
MAKING = ".making"  # what isn't whole yet
NAME = re.compile(r"([A-Z0-9][A-Z0-9-]{0,15})\.json")  # of an owner's companion
READABLE, PRIVATE = 0o640, 0o600  # the site reads companions as the folder's group, and nothing else there


@dataclass(frozen=True)
class Folder:
    """A folder of companions: its path, and its descriptor, by which all is done. No link in it is followed."""

    path: str
    descriptor: int

    def read(self, name: str) -> bytes:
        """The bytes of a file; none where it isn't there, is no file, or can't be read."""
        with contextlib.suppress(OSError):
            with open(os.open(name, files.READ, dir_fd=self.descriptor), "rb") as file:
                return file.read() if stat.S_ISREG(os.fstat(file.fileno()).st_mode) else b""
        return b""

    def owners(self) -> set[str]:
        """The owners whose companions are there."""
        with os.scandir(self.descriptor) as entries:
            names = [entry.name for entry in entries if entry.is_file(follow_symlinks=False)]
        return {match[1] for name in names if (match := NAME.fullmatch(name))}

    def give(self, name: str, content: bytes, mode: int) -> None:
        """Writes a file, whole or not at all. What replaces a file has another second, by which, beside its size, nginx
        tells one from the other."""

        def prepare(descriptor: int) -> None:
            second = max(int(time.time()), self.second_of(name) + 1)
            os.utime(descriptor, (second, second))
            os.fchmod(descriptor, mode)

        files.replace(f"{paths.open_path(self.descriptor)}/{name}", content, temporary_name=MAKING, prepare=prepare)

    def second_of(self, name: str) -> int:
        """The second of a file's time; 0 where there is none."""
        try:
            return int(os.stat(name, dir_fd=self.descriptor, follow_symlinks=False).st_mtime)
        except FileNotFoundError:
            return 0

    def state_of(self, owner: str) -> list[int]:
        """What tells one file of an owner's companion from another: its size, and when it was changed; zeros where it
        isn't there."""
        try:
            state = os.stat(name_of(owner), dir_fd=self.descriptor, follow_symlinks=False)
        except FileNotFoundError:
            return [0, 0]
        return [state.st_size, state.st_mtime_ns]

    def remove(self, owner: str) -> None:
        """Removes an owner's companion."""
        os.unlink(name_of(owner), dir_fd=self.descriptor)

    def mark(self) -> dict[str, Any]:
        """Of what the companions were made, and whose there are; nothing where that isn't known."""
        try:
            mark = json.loads(self.read(MARK))
        except ValueError:
            return {}
        return mark if isinstance(mark, dict) else {}

    def put_mark(self, mark: dict[str, Any]) -> None:
        """Notes of what the companions were made, once they are on the disk."""
        self.give(MARK, json.dumps(mark).encode(), PRIVATE)

    def touch(self) -> None:
        """Notes that the companions are those of now."""
        os.utime(MARK, dir_fd=self.descriptor, follow_symlinks=False)

    def looked_after(self) -> int:
        """The second in which the companions were those of now; 0 where they never were."""
        return self.second_of(MARK)


def name_of(owner: str) -> str:
    """The name of an owner's companion."""
    return f"{owner}.json"


@contextlib.contextmanager
def opened(path: str) -> Iterator[Folder]:
    """A folder, which nobody but this user and root may change; fails where there is none."""
    try:
        descriptor = os.open(paths.private(path), paths.FOLDER)
    except OSError as error:
        raise Failure(f"{path} can't be opened: {error.strerror}", WRONG_USE) from error
    try:
        yield Folder(path, descriptor)
    except OSError as error:
        raise Failure(f"{path} can't be used: {error.strerror}") from error
    finally:
        os.close(descriptor)


@contextlib.contextmanager
def held(path: str, wait: float) -> Iterator[Folder]:
    """A folder of companions, or an empty one that becomes one, while no other run works on it."""
    with opened(path) as folder:
        take(folder, wait)
        names = set(os.listdir(folder.descriptor)) - {MAKING}
        if MARK not in names:
            if names:
                raise Failure(f"{path} has other files", WRONG_USE, "an empty folder is needed, for companions alone")
            folder.put_mark({})
        yield folder


def take(folder: Folder, wait: float) -> None:
    """Locks a folder; fails where another run has it for longer than `wait` seconds."""
    if not lock.take(folder.descriptor, wait):
        raise Failure(f"another run makes the companions in {folder.path}", FAULT)
