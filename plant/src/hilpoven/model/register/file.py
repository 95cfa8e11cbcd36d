"""The register's file beside an office's: the journal's notes with whether each stands, so that a reader adds only what
is new.

The journal is the truth. Where the file is missing, the next reader makes it; where an earlier version wrote it, the
next reader makes it anew; where it can't be used, the notes are read from the journal, which is told, and `hilpoven
register rebuild` makes it anew.
"""
import contextlib
import os
import re
import sqlite3
import stat
from collections.abc import Callable, Iterator
from dataclasses import dataclass
from typing import TypeVar

from ...core import files, lock, rights, snapshot
from ...core.failure import REFUSED, Failure
from ...core.journal.log import Journal
from . import lines, tables
from .folding import fold_on, has_a_note
from .lines import path_of
from ..rows import Base
from .tables import MARK, SCHEMA

# What the register of the first version has, which is made anew.
EARLIER = (
    "CREATE TABLE notes (place INTEGER PRIMARY KEY, name TEXT NOT NULL UNIQUE, noted TEXT NOT NULL) STRICT",
    "CREATE TABLE answers (line TEXT PRIMARY KEY, is_done INTEGER NOT NULL) STRICT",
    "CREATE TABLE moved (source TEXT NOT NULL, target TEXT NOT NULL) STRICT",
    "CREATE TABLE folded (start INTEGER NOT NULL, stop INTEGER NOT NULL, hash TEXT NOT NULL, file TEXT NOT NULL) "
    "STRICT",
)
CALLED = re.compile(r"CREATE (?:TABLE|INDEX) (\w+)")
# The tables and indexes that a register of any version has.
NAMES = {match[1] for sql in (*SCHEMA, *EARLIER) if (match := CALLED.match(sql))}
REBUILD = "`hilpoven register rebuild` makes it anew from the journal"
MOVE = "move it elsewhere and keep it, and the next reader makes another one"
TRIES = 10
PATIENCE = 5.0  # seconds
Keep = Callable[[Base], None]  # what a reader has the register keep besides
Value = TypeVar("Value")


class Unusable(Exception):
    """Why the register's file can't be used, and what to do about it."""

    def __init__(self, why: str, advice: str = REBUILD) -> None:
        super().__init__(f"{why}; {advice}" if advice else why)
        self.is_replaceable = advice == REBUILD


def keep_nothing(_: Base) -> None:
    """What a reader has the register keep that asks for no note that stands."""


@dataclass
class Opened:
    """Tables that are open for reading."""

    base: Base

    def read(self, action: Callable[[Base], Value]) -> Value:
        """What is read of the tables."""
        return action(self.base)

    def rows(self, sql: str, words: tuple[str | int, ...] = ()) -> list[tables.Row]:
        """The rows of a query."""
        return self.read(lambda base: base.execute(sql, words).fetchall())

    def attach(self, base: Base) -> None:
        """Has another file's tables have these beside them, as `register`."""
        base.execute("ATTACH ':memory:' AS register")
        base.deserialize(self.base.serialize(), name="register")


class Notes(Opened):
    """The notes of a journal, in the tables of its register, or in memory where the journal has none or the register
    can't be used. What `keep` does to the tables is done once they have what is new."""

    def __init__(self, journal: Journal, keep: Keep = keep_nothing) -> None:
        self.journal, self.keep, self.path = journal, keep, path_of(journal.file)
        self.state: os.stat_result | None = None  # of the file; `None` where the tables are in memory
        if not os.path.lexists(self.path) and not has_a_note(journal.path):
            self.base = memory()
            return
        try:
            with locked(self.path, journal.file) as base:
                caught_up(base, journal, keep)
                self.base, self.state = base, os.stat(self.path)
        except (OSError, sqlite3.Error, ValueError, TypeError, Unusable) as error:
            self.base = self.in_memory(error)

    def read(self, action: Callable[[Base], Value]) -> Value:
        """The same. Where the file can't be used any more, they are made of the journal."""
        try:
            if self.state and not os.path.samestat(self.state, os.stat(self.path)):
                raise Unusable("another one has its place since it was opened", "")
            return action(self.base)
        except (OSError, sqlite3.Error, ValueError, TypeError, Unusable) as error:
            if self.state is None:
                raise Failure(f"the notes of {self.journal.path} can't be read: {error}") from error
            self.base, self.state = self.made_anew(error), None
            return action(self.base)

    def attach(self, base: Base) -> None:
        """The same, if all rows of the file can be read: a query over both has no other tables to go on with."""

        def attach(own: Base) -> None:
            if self.state is None:
                Opened.attach(self, base)
            else:
                tables.require_readable(own)
                base.execute("ATTACH ? AS register", (self.path,))

        self.read(attach)

    def made_anew(self, error: Exception) -> Base:
        """The tables made of the journal, where it is still known which office they are of."""
        try:
            return self.in_memory(error)
        except sqlite3.Error as further:
            raise Failure(f"the notes of {self.journal.path} can't be read: {further}") from error

    def in_memory(self, error: Exception) -> Base:
        """The same tables made of the journal, because of what is wrong with the file, which is told."""
        why = reason_of(error)
        self.journal.tell(f"The register {self.path} isn't used, and notes are read from the journal: {why}.")
        base = memory()
        fold_on(self.journal.path, base)
        self.keep(base)
        return base


def memory() -> Base:
    """Tables in memory, empty."""
    base = sqlite3.connect(":memory:", isolation_level=None)
    tables.make(base)
    return base


def reason_of(error: Exception) -> str:
    """Why the file can't be used, and what to do about it."""
    match error:
        case OSError():
            return error.strerror or str(error)
        case ValueError() | TypeError():
            return f"a row of it can't be read: {error}; {REBUILD}"
    return str(error) if isinstance(error, Unusable) else f"{error}; {REBUILD}"


@contextlib.contextmanager
def locked(path: str, file: str) -> Iterator[Base]:
    """The register's tables while nobody else writes them; empty ones where it isn't there yet. They stay open, unless
    something fails."""
    with held(path, file), contextlib.ExitStack() as stack:
        base = stack.enter_context(contextlib.closing(opened(path)))
        yield base
        stack.pop_all()


@contextlib.contextmanager
def held(path: str, file: str) -> Iterator[None]:
    """Holds the register, which is made where it isn't there."""
    with contextlib.ExitStack() as stack:
        for _ in range(TRIES):
            if is_same(path, stack.enter_context(held_file(path, file))):
                yield
                return
        raise Unusable("it is made anew all the time", "")


@contextlib.contextmanager
def held_file(path: str, file: str) -> Iterator[int]:
    """What has the register's name, open and locked. It is a file of the office's user, and no link."""
    is_new = not os.path.lexists(path)
    if os.path.islink(path):
        raise Unusable("it is a link", MOVE)
    descriptor = os.open(path, os.O_RDWR | os.O_CREAT | files.SAFE, 0o600)
    try:
        state, owner = os.fstat(descriptor), rights.owner_number(file)
        if not stat.S_ISREG(state.st_mode) or state.st_uid not in (owner, os.geteuid(), 0):
            raise Unusable("it is no file of the office's user", MOVE)
        if not lock.take(descriptor, PATIENCE):
            raise Unusable("another process has it", "")  # which may be stopped: it holds up no recall
        if is_new and os.geteuid() == 0:
            os.fchown(descriptor, owner, -1)
        yield descriptor
    finally:
        os.close(descriptor)
    if is_new:
        files.sync(os.path.dirname(path))


def is_same(path: str, descriptor: int) -> bool:
    """Whether a path still leads to an open file."""
    try:
        state = os.stat(path, follow_symlinks=False)
    except FileNotFoundError:
        return False
    return os.path.samestat(state, os.fstat(descriptor))


def opened(path: str) -> Base:
    """The tables of a register that is held; fails where the file has others."""
    base = sqlite3.connect(snapshot.address_of(path, "rw"), uri=True, isolation_level=None)
    with contextlib.ExitStack() as stack:
        stack.callback(base.close)
        base.execute("PRAGMA trusted_schema = OFF")
        require_tables(base)
        stack.pop_all()
    return base


def require_tables(base: Base) -> None:
    """Makes the tables where the file has none at all; fails unless they are a register's, if only an earlier one's."""
    known = made_by(base)
    ((mark,),) = base.execute("PRAGMA application_id").fetchall()
    if not known and not mark:
        with transaction(base):
            tables.make(base)
    elif mark != MARK or not all((match := CALLED.match(sql)) and match[1] in NAMES for sql in known):
        raise Unusable("it is another database", MOVE)


def made_by(base: Base) -> list[str]:
    """What made all that a file has, in order."""
    return sorted(sql for sql, in base.execute("SELECT sql FROM sqlite_master WHERE sql IS NOT NULL"))


@contextlib.contextmanager
def transaction(base: Base) -> Iterator[None]:
    """Has all that is written come into the file, or nothing."""
    base.execute("BEGIN IMMEDIATE")
    try:
        yield
        base.execute("COMMIT")
    except BaseException:
        if base.in_transaction:
            base.execute("ROLLBACK")
        raise


def caught_up(base: Base, journal: Journal, keep: Keep = keep_nothing) -> None:
    """Adds what the journal has behind what the register has. One of an earlier version is made anew."""
    names = [name for name, in base.execute("SELECT name FROM sqlite_master WHERE type = 'table'")]
    require_continued(base, journal, "notes" if "notes" in names else "note")
    if made_by(base) != sorted(SCHEMA):
        with transaction(base):
            for name in names:
                base.execute(f"DROP TABLE {name}")
            tables.make(base)
    with transaction(base):
        fold_on(journal.path, base)
    keep(base)


def require_continued(base: Base, journal: Journal, table: str) -> None:
    """Fails unless the journal goes on from the place to which it was read."""
    place = base.execute("SELECT start, stop, hash FROM folded").fetchone()
    if place is None:
        raise Unusable("it doesn't say how far the journal was read")
    if lines.continues(journal.path, *place):
        return
    fresh = memory()
    fold_on(journal.path, fresh)
    known = {name for name, in fresh.execute("SELECT name FROM note")}
    lost = sum(name not in known for name, in base.execute(f"SELECT name FROM {table}"))
    loss = f", and {lost:,} of its notes aren't there" if lost else ""
    raise Unusable(f"{journal.path} doesn't go on from what was read of it{loss}", MOVE if lost else REBUILD)


def rebuild(journal: Journal) -> Notes:
    """Makes the register anew from the journal. Fails where what has its name is another's, a link, a database of
    something else, or has notes that the journal doesn't have."""
    path = path_of(journal.file)
    if os.path.lexists(path):
        try:
            with held(path, journal.file):
                require_replaceable(path, journal)
                for end in ("-journal", ""):
                    with contextlib.suppress(FileNotFoundError):
                        os.unlink(path + end)
        except (OSError, Unusable) as error:
            raise Failure(f"{path} can't be made anew: {reason_of(error)}", REFUSED) from error
    return Notes(journal)


def require_replaceable(path: str, journal: Journal) -> None:
    """Fails unless what is held is a register, if only a damaged one, without notes that the journal doesn't have."""
    try:
        with contextlib.closing(opened(path)) as base:
            caught_up(base, journal)
    except sqlite3.Error:
        return  # it is damaged
    except Unusable as error:
        if not error.is_replaceable:
            raise


# What a register has of the journal alone, and what it has of the notes that stand.
OF_JOURNAL = {
    "notes": [f"SELECT id, {tables.NOTED}, kind, owner, subject FROM note ORDER BY id"],
    "answers": ["SELECT DISTINCT line, is_done FROM note WHERE is_own = 0 ORDER BY line"],
    "names of the file": ["SELECT source, target FROM moved UNION ALL SELECT '', file FROM folded"],
}
OF_STANDING = {
    "standing notes": [
        "SELECT id, fault, is_lost, is_open FROM note ORDER BY id",
        *(f"SELECT * FROM {table} ORDER BY note, rowid" for table in dict.fromkeys(tables.TABLES.values())),
    ]
}


def difference(journal: Journal, keep: Keep | None = None) -> str:
    """In what the register isn't what the journal gives; empty if it is, or if there is none. Which notes stand is
    compared where it is given how that is kept."""
    path = path_of(journal.file)
    if not os.path.lexists(path):
        return ""
    try:
        with locked(path, journal.file) as base:
            caught_up(base, journal, keep or keep_nothing)
            ((stop,),) = base.execute("SELECT stop FROM folded").fetchall()
            fresh = memory()
            fold_on(journal.path, fresh, stop)
            if keep:
                keep(fresh)
            for part, queries in {**OF_JOURNAL, **(OF_STANDING if keep else {})}.items():
                if any(base.execute(sql).fetchall() != fresh.execute(sql).fetchall() for sql in queries):
                    return f"its {part} aren't those of the journal; {REBUILD}"
    except (OSError, sqlite3.Error, ValueError, TypeError, Unusable) as error:
        return f"it isn't used: {reason_of(error)}"
    return ""
