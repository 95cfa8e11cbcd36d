"""The office's tables, read from one copy of its file that all requests share. It is renewed when the file changed."""
import contextlib
import os
import sqlite3
import threading
from collections.abc import Iterator
from contextlib import ExitStack

from hilpoven.core import files, lock, scratch, snapshot
from hilpoven.core.office import Office
from hilpoven.core.snapshot import Stamp
from hilpoven.model.rows import Base

NAME = "copy.db"
UNKNOWN = (-1, -1, -1)  # a stamp that no file has


class KeptTables:
    """Keeps the copy of one office's file, in a folder beside it. While a server runs, a command changes the file's log
    alone: then the copied file stays, and the log is copied anew. That is done while nobody reads: SQLite has one index
    of a log for all connections of a process. Whoever comes meanwhile waits, and reads the new one."""

    def __init__(self) -> None:
        self.turn, self.readers = threading.Condition(), 0
        self.stack, self.path = ExitStack(), ""  # of the copy, which is empty if there is none
        self.file_stamp: Stamp = UNKNOWN
        self.log_stamp: Stamp = UNKNOWN

    @contextlib.contextmanager
    def opened(self, office: Office) -> Iterator[Base]:
        """The tables as they are now. Who reads them opens them no second time."""
        with self.turn:
            self.renew(office)
            self.readers += 1
        try:
            with contextlib.closing(sqlite3.connect(f"file:{self.path}?mode=ro", uri=True)) as base:
                base.execute("PRAGMA temp_store = MEMORY")
                yield base
        finally:
            with self.turn:
                self.readers -= 1
                self.turn.notify_all()

    def close(self) -> None:
        """Removes the copy, once nobody reads it."""
        with self.turn:
            self.turn.wait_for(lambda: not self.readers)
            self.drop()

    def renew(self, office: Office) -> None:
        """Has the copy be of the file as it is now."""
        while not self.is_current(office):
            if self.readers:
                self.turn.wait()
                continue
            try:
                self.take_log(office)
                if not self.path:
                    self.take_all(office)
            except BaseException:
                self.drop()
                raise
            return

    def is_current(self, office: Office) -> bool:
        """Whether the copy is of the file as it is now."""
        stamps = snapshot.stamp_of(office.file), snapshot.stamp_of(log_of(office.file))
        return bool(self.path) and stamps == (self.file_stamp, self.log_stamp)

    def drop(self) -> None:
        """Removes the copy."""
        self.stack.close()
        self.path, self.file_stamp, self.log_stamp = "", UNKNOWN, UNKNOWN

    def take_log(self, office: Office) -> None:
        """Copies the log anew; drops the copy if the file has changed, too."""
        if not self.path:
            return
        with lock.held(office.file, office.wait):
            if snapshot.stamp_of(office.file) == self.file_stamp:
                self.log_stamp = known(snapshot.stamp_of(log_of(office.file)))
                files.remove(self.path, "-wal", "-shm")
                snapshot.copy_log(office.file, self.path)
                return
        self.drop()

    def take_all(self, office: Office) -> None:
        """Copies the file and its log."""
        path = os.path.join(self.stack.enter_context(scratch.folder(os.path.dirname(office.file))), NAME)
        self.file_stamp = known(snapshot.stamp_of(office.file))
        self.log_stamp = known(snapshot.stamp_of(log_of(office.file)))
        snapshot.copy(office, path)
        with contextlib.closing(sqlite3.connect(f"file:{path}?mode=ro", uri=True)) as base:
            snapshot.require_office(base, office.file)
        self.path = path


def log_of(file: str) -> str:
    """The log of a file."""
    return f"{file}-wal"


def known(stamp: Stamp) -> Stamp:
    """A stamp by which a later change is known; of a file that changed a moment ago one that no file has, so that it is
    copied once more."""
    return stamp if snapshot.is_settled(stamp) else UNKNOWN
