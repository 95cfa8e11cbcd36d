"""A copy of an office's file as it stands at one moment, and a brief look at the file itself."""
import contextlib
import errno
import os
import sqlite3
import time
from collections.abc import Iterator

from .. import OFFICE_VERSION
from . import files, lock, scratch
from .failure import Failure
from .office import Office

TRIES = 5  # of a copy that is made while others work
SETTLED = 20_000_000  # nanoseconds after which a later change of a file shows in its time
NO_ROOM = "SQLITE_FULL", "SQLITE_IOERR_SHMSIZE"  # for a page, or for SQLite's index of a log
IN_URI = str.maketrans({letter: f"%{ord(letter):02x}" for letter in "%?#"})
Stamp = tuple[int, int, int]


@contextlib.contextmanager
def copied(office: Office, parent: str = "") -> Iterator[str]:
    """The path of a copy, beside the file or in another folder, for its user alone. It goes at the end."""
    with scratch.folder(parent or os.path.dirname(office.file)) as folder:
        target = os.path.join(folder, "copy.db")
        try:
            copy(office, target)
        except OSError as error:
            raise Failure(f"{error.filename or office.file} can't be copied: {error.strerror}") from error
        yield target


def copy(office: Office, target: str) -> None:
    """Copies the file and its log while others work, and the file again where they changed it meanwhile: what they
    write goes into the log mostly. Under the lock, at which a server refuses owners, only the stamps are compared,
    and a log that changed is copied."""
    for _ in range(TRIES):
        stamp, log = stamp_of(office.file), stamp_of(f"{office.file}-wal")
        if not is_settled(stamp):
            time.sleep(SETTLED / 1e9)
            continue
        was_settled = is_settled(log)
        copy_both(office.file, target)
        with lock.held(office.file, office.wait):
            if stamp_of(office.file) == stamp:
                if not was_settled or stamp_of(f"{office.file}-wal") != log:
                    copy_log(office.file, target)
                return
    with lock.held(office.file, office.wait):
        copy_both(office.file, target)


def is_settled(stamp: Stamp) -> bool:
    """Whether a change of the file since would show in its stamp."""
    return time.time_ns() - stamp[2] >= SETTLED


def stamp_of(file: str) -> Stamp:
    """What tells one state of a file from another: which one it is, its size, and when it was changed; zeros where it
    isn't there."""
    try:
        state = os.stat(file)
    except FileNotFoundError:
        return 0, 0, 0
    return state.st_ino, state.st_size, state.st_mtime_ns


def copy_both(file: str, target: str) -> None:
    """Copies a file and its log."""
    files.copy(file, target)
    copy_log(file, target)


def copy_log(file: str, target: str) -> None:
    """Copies the log of a file, where it has one; otherwise the copy has none either."""
    try:
        files.copy(f"{file}-wal", f"{target}-wal")
    except FileNotFoundError:
        files.remove(f"{target}-wal")


@contextlib.contextmanager
def opened(office: Office) -> Iterator[sqlite3.Connection]:
    """The tables of a copy. Nothing of it is left, however this process ends: its names go once it is open."""
    with copied(office) as path, contextlib.closing(sqlite3.connect(path)) as base:
        require_office(base, office.file)
        files.remove(path, "", "-wal", "-shm")
        yield base


@contextlib.contextmanager
def read_briefly(office: Office) -> Iterator[sqlite3.Connection]:
    """The tables of the file itself, for few rows of one owner: a server refuses owners meanwhile. Nothing is written,
    so a server need not open the file anew. SQLite's index of the log goes again, unless another program made it.

    Of a file of root's a copy is read: SQLite, as root, gives a log its owner again, and a server would take that for a
    change."""
    if is_roots(office.file):
        with opened(office) as base:
            yield base
        return
    index = f"{office.file}-shm"
    with lock.held(office.file, office.wait):
        had_index = os.path.lexists(index)
        try:
            with contextlib.closing(sqlite3.connect(f"file:{office.file.translate(IN_URI)}?mode=ro", uri=True)) as base:
                require_office(base, office.file)
                yield base
        finally:
            if not had_index:
                with contextlib.suppress(FileNotFoundError):
                    os.unlink(index)


def is_roots(file: str) -> bool:
    """Whether a file is root's."""
    return os.path.lexists(file) and os.stat(file).st_uid == 0


def require_office(base: sqlite3.Connection, file: str) -> None:
    """Fails where these are no tables of an office."""
    try:
        version = base.execute("SELECT value FROM meta WHERE name = 'toll'").fetchone()
    except sqlite3.Error as error:
        if getattr(error, "sqlite_errorname", "") in NO_ROOM:
            raise Failure(f"{file} can't be read: {os.strerror(errno.ENOSPC)}") from error
        raise Failure(f"{file} is no office: {error}", advice="look at the file's name") from error
    if version != (OFFICE_VERSION,):
        number = version[0] if version else "none"
        raise Failure(
            f"{file} has version {number}, and {OFFICE_VERSION} is read",
            advice="a command or a question of `toll` brings an older one to it",
        )


def address_of(file: str, mode: str) -> str:
    """How SQLite opens a file that is there, and makes none; `mode` is `ro` or `rw`."""
    import pathlib

    return f"{pathlib.Path(file).as_uri()}?mode={mode}"


def settle(copy: str) -> None:
    """Takes what the log of a copy holds into the copy, so that it is one file."""
    try:
        with contextlib.closing(sqlite3.connect(copy)) as base:
            require_office(base, "the copy")
            base.execute("PRAGMA wal_checkpoint(TRUNCATE)")
    except sqlite3.Error as error:
        raise Failure(f"{copy} can't be settled: {error}") from error
    files.remove(copy, "-wal", "-shm")
