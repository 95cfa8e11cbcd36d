"""The files of an office: which file it came from, and the chain of all.

Two files that follow each other have a table `carried`. In the earlier one its row says into which file it was carried,
in the later one from which, with that file's SHA-256. `carried_moves` of the later one has the keys of the receipts by
which stock came over, which are no receipts of the plant.
"""
import contextlib
import os
import sqlite3
from collections.abc import Iterable, Iterator
from dataclasses import dataclass

from ...core import snapshot
from ...core.failure import Failure
from ...core.files import hash_of

TABLES = """
CREATE TABLE IF NOT EXISTS carried (way TEXT NOT NULL, file TEXT NOT NULL, hash TEXT NOT NULL, at TEXT NOT NULL) STRICT;
CREATE TABLE IF NOT EXISTS carried_moves (owner TEXT NOT NULL, mkey TEXT NOT NULL, PRIMARY KEY (owner, mkey)) STRICT;
"""
NOT_CARRIED = "NOT EXISTS (SELECT 1 FROM carried_moves AS c WHERE c.owner = m.owner AND c.mkey = m.mkey)"
# A row if something was recorded in a file since it came from another.
RECORDED = f"""
SELECT 1 FROM batches UNION ALL SELECT 1 FROM results WHERE number > 1
UNION ALL SELECT 1 FROM moves AS m WHERE {NOT_CARRIED} LIMIT 1
"""
FROM, INTO = "from", "into"
MOST_FILES = 1_000  # in a chain


@dataclass(frozen=True)
class Carried:
    """A row of the table: `from` which file or `into` which, its hash, and when."""

    way: str
    file: str
    hash: str
    at: str


@dataclass(frozen=True)
class Part:
    """A file of an office; `path` is its own or a copy's, and `at` when it was carried over, empty for the newest."""

    number: int
    name: str
    path: str
    hash: str
    at: str = ""


def put(base: sqlite3.Connection, row: Carried, moves: Iterable[tuple[str, str]] = ()) -> None:
    """Replaces the row of its way, and adds the keys of the receipts by which stock came over."""
    base.executescript(TABLES)
    with base:
        base.execute("DELETE FROM carried WHERE way = ?", (row.way,))
        base.execute("INSERT INTO carried VALUES (?, ?, ?, ?)", (row.way, row.file, row.hash, row.at))
        base.executemany("INSERT INTO carried_moves VALUES (?, ?)", moves)


def carried_rows(base: sqlite3.Connection) -> list[Carried]:
    """The rows of a file's table; none if it has no such table."""
    if not base.execute("SELECT 1 FROM sqlite_master WHERE type = 'table' AND name = 'carried'").fetchone():
        return []
    return [Carried(*row) for row in base.execute("SELECT way, file, hash, at FROM carried")]


def came_from(base: sqlite3.Connection) -> Carried | None:
    """Which file the office came from; `None` if it is the first one."""
    return next((row for row in carried_rows(base) if row.way == FROM), None)


def address_of(path: str) -> str:
    """How SQLite opens a file that nobody writes and that has no log, so that it makes nothing beside it."""
    return f"{snapshot.address_of(path, 'ro')}&immutable=1"


@contextlib.contextmanager
def reading(path: str) -> Iterator[sqlite3.Connection]:
    """The tables of a file that nobody writes and that has no log, as an earlier file. Nothing is made beside it."""
    try:
        with contextlib.closing(sqlite3.connect(address_of(path), uri=True)) as base:
            yield base
    except sqlite3.Error as error:
        raise Failure(f"{path} can't be read: {error}") from error


def earlier_files(file: str, first: Carried | None) -> list[Part]:
    """The earlier files of an office, the oldest first, by the row that its own file has. They are beside it."""
    rows: list[Carried] = []
    folder, row = os.path.dirname(file), first
    while row:
        path = os.path.join(folder, row.file)
        if not os.path.isfile(path):
            raise Failure(
                f"the earlier file {path} isn't there",
                advice=f"put it back: {os.path.basename(file)} came from it at {row.at}",
            )
        if len(rows) == MOST_FILES:
            raise Failure(f"the earlier files of {file} lead round in a ring")
        rows.append(row)
        with reading(path) as base:
            row = came_from(base)
    return [
        Part(number, row.file, os.path.join(folder, row.file), row.hash, row.at)
        for number, row in enumerate(reversed(rows), 1)
    ]


def require_unchanged(files: list[Part]) -> None:
    """Fails unless each file is the one that was carried over, byte for byte."""
    for file in files:
        if hash_of(file.path) != file.hash:
            raise Failure(
                f"{file.path} isn't the file that was carried over at {file.at}",
                advice=f"its SHA-256 was {file.hash}; put that file back, from a backup",
            )
