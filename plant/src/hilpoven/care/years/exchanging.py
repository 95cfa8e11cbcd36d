"""The last step of a carry-over: the office's file gets the name of an earlier one, and the new file gets its name.

Each step leaves one office that works. The earlier file is a copy, which has its name before anything else is done; the
office's own file is there until the new one replaces it, at one stroke. The caller has the office's lock.
"""
import contextlib
import os
import sqlite3
import stat
from collections.abc import Iterable
from dataclasses import dataclass

from .. import backups
from ...core import files, scratch, snapshot
from ...core.failure import Failure
from ...core.office import Office, earlier_files, number_of
from ...core.server import Place
from ...core.journal.log import now
from ...model.years import chain

READ_ONLY = 0o400
# The columns of each table in which no row ever changes.
APPENDED = {
    "owners": "*",
    "units": "*",
    "materials": "*",
    "tests": "*",
    "recipes": "*",
    "requirements": "*",
    "moves": "*",
    "results": "*",
    "voids": "*",
    "orders": "owner, ord, recipe, batches",
    "batches": "owner, ord, number, unit",
    "lots": "owner, lot, material, ord, number",
}


@dataclass(frozen=True)
class Exchange:
    """What was done: the path of the earlier file, and its hash."""

    earlier: str
    hash: str


def exchange(
    office: Office, place: Place, new: str, target: str, earlier: str, moves: Iterable[tuple[str, str]]
) -> Exchange:
    """Puts the new file in the office's place; `target` is its own name until then, `earlier` that of the old file."""
    folder, at = os.path.dirname(office.file), now()
    with scratch.folder(folder) as room:
        old, fresh = os.path.join(room, "old.db"), os.path.join(room, "new.db")
        snapshot.copy_both(office.file, old)
        mark(old, chain.Carried(chain.INTO, os.path.basename(office.file), files.hash_of(new), at))
        os.chmod(old, READ_ONLY)
        hash = files.hash_of(old)
        files.copy(new, fresh)
        mark(fresh, chain.Carried(chain.FROM, earlier, hash, at), moves)
        os.chmod(fresh, stat.S_IMODE(os.stat(office.file).st_mode))
        backups.require_sound(office, fresh)
        files.put_in_place(old, os.path.join(folder, earlier))
        files.put_in_place(fresh, target)
    settle_in_place(office.file)
    backups.stop_on_server(office.file, place)
    files.put_in_place(target, office.file)
    return Exchange(os.path.join(folder, earlier), hash)


def mark(path: str, row: chain.Carried, moves: Iterable[tuple[str, str]] = ()) -> None:
    """Puts a row of the table `carried` into a file, and its log into the file."""
    try:
        with contextlib.closing(sqlite3.connect(path)) as base:
            chain.put(base, row, moves)
    except sqlite3.Error as error:
        raise Failure(f"{path} can't be written: {error}") from error
    snapshot.settle(path)


def settle_in_place(file: str) -> None:
    """Takes what the log of the office's file holds into the file: no log is then beside the file that replaces it."""
    try:
        with contextlib.closing(sqlite3.connect(file)) as base:
            busy, *_ = base.execute("PRAGMA wal_checkpoint(TRUNCATE)").fetchone()
    except sqlite3.Error as error:
        raise Failure(f"{file} can't be settled: {error}") from error
    log = f"{file}-wal"
    if busy or (os.path.exists(log) and os.path.getsize(log)):
        raise Failure(
            f"somebody reads {file}, so that its log can't be emptied",
            advice="end `sqlite3`, and give the command again",
        )
    for end in ("-wal", "-shm"):
        with contextlib.suppress(FileNotFoundError):
            os.unlink(file + end)


def clear(office: Office, copy: str, target: str, claimed: set[str]) -> list[str]:
    """Removes what a stopped carry-over has left, and gives the paths: a new file that wasn't put in place, and earlier
    files that no file came from and that hold nothing beyond the office's. Fails if another file is in the way."""
    left = []
    if os.path.lexists(target):
        if not is_left(office.file, target):
            raise Failure(f"{target} is there already")
        left.append(target)
    for path in unclaimed(office.file, claimed):
        if table := table_beyond(copy, path):
            own = os.path.basename(office.file)
            raise Failure(
                f"{path} was carried over into {own}, and has {table} that this doesn't have",
                advice="was an older backup restored since? Move one of the two files elsewhere",
            )
        left.append(path)
    for path in left:
        os.unlink(path)
    return left


def is_left(file: str, path: str) -> bool:
    """Whether a file is the new one of a stopped carry-over of this office: nothing was recorded in it."""
    try:
        with chain.reading(path) as base:
            row = chain.came_from(base)
            is_from_this = row is not None and number_of(file, row.file) > 0
            return is_from_this and not base.execute(chain.RECORDED).fetchone()
    except (Failure, sqlite3.Error):
        return False


def unclaimed(file: str, claimed: set[str]) -> list[str]:
    """The files beside an office's file whose row says that they were carried into it, though it came from others."""
    paths = []
    for path in earlier_files(file):
        with contextlib.suppress(Failure), chain.reading(path) as base:
            into = [row.file for row in chain.carried_rows(base) if row.way == chain.INTO]
            if path not in claimed and os.path.basename(file) in into:
                paths.append(path)
    return paths


def table_beyond(copy: str, path: str) -> str:
    """The table of which an earlier file has rows that a file doesn't have; empty if there is none."""
    with chain.reading(copy) as base:
        base.execute("ATTACH ? AS other", (chain.address_of(path),))
        for table, columns in APPENDED.items():
            sql = f"SELECT {columns} FROM other.{table} EXCEPT SELECT {columns} FROM main.{table} LIMIT 1"
            if base.execute(sql).fetchone():
                return table
    return ""
