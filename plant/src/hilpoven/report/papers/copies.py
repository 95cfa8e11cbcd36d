"""What papers are made of: copies of the office's files without any owner's key, and what `toll` answers over them."""
import contextlib
import functools
import hashlib
import os
import secrets
import sqlite3
import subprocess
from collections.abc import Iterable, Iterator
from dataclasses import dataclass, field
from typing import Any

from ... import HOUSE
from ...core import meanings, private_server, scratch, snapshot
from ...core.failure import Failure
from ...core.office import Office
from ...core.private_server import PrivateServer
from ...core.journal.log import Journal
from ...model import views
from ...model.rows import BatchId, LotId
from ...model.register import standing
from ...model.register.standing import Register
from ...model.unit_order import UnitOrder, read_if_cleaned
from ...model import reach
from ...model.years.chain import Part
from ...model.years.history import merged, parts_of
from . import guard

BLOCK = 1 << 20
CACHE = 65_536  # kilobytes of a copy that aren't read anew
OWNER = "SELECT 1 FROM owners WHERE owner = ?"


@dataclass(frozen=True)
class Copy:
    """A copy of a file: its tables, the path at which `toll` finds them, the digest of what was copied, and what ends
    with it."""

    office: Office
    base: sqlite3.Connection
    path: str
    digest: str
    ends: contextlib.ExitStack

    @functools.cached_property
    def server(self) -> PrivateServer:
        """The server that answers all questions over the copy, from the first one on: it reads the whole file once."""
        return self.ends.enter_context(private_server.opened(self.office.program, self.path))

    def answer(self, *words: str) -> str:
        """What `toll` answers; fails with its refusal or its fault."""
        answer = self.server.ask(*words)
        if answer.status:
            word = meanings.refusal_in(answer.output)
            values = dict(zip(("OWNER", "LOT" if words[0] in ("recall", "trace") else "ORDER", "BATCH"), words[1:]))
            why = (answer.output + answer.error).strip().partition("\n")[0] or "toll said nothing"
            raise Failure(why, answer.status, meanings.explained("refusals", word, values) if word else "")
        return answer.output

    def replies(self, owner: str, paths: list[str]) -> list[dict[str, Any]]:
        """What `toll` replies to an owner's GETs. The key is the copy's own, which is nobody's."""
        ((key,),) = self.base.execute("SELECT okey FROM owners WHERE owner = ?", (owner,)).fetchall()
        replies = [(path, *self.server.request(owner, key, path)) for path in paths]
        for path, status, body in replies:
            if status != 200:
                raise Failure(f"toll replies {status} {body.get('error', '')} to GET {path}")
        return [body for _, _, body in replies]


@dataclass(frozen=True)
class Source:
    """A copy of the newest file of an office, the tables of all files together, the files, the oldest first, and the
    notes that stand by the names of these tables."""

    newest: Copy
    base: sqlite3.Connection
    files: tuple[Part, ...]
    register: Register = field(default_factory=Register)
    order: UnitOrder | None = None  # on the units, over all files; `None` if no cleaning is noted
    is_whole: bool = True  # whether the tables have all that the files have, and not what a recall may come to alone

    @property
    def is_one(self) -> bool:
        """Whether the office never left its first file, so that `toll` knows all of it."""
        return len(self.files) == 1

    def has_owner(self, owner: str) -> bool:
        """Whether an owner is in the newest file, so that `toll` knows it; others left."""
        return owner == HOUSE or self.newest.base.execute(OWNER, (owner,)).fetchone() is not None

    def newest_has(self, name: LotId | BatchId) -> bool:
        """Whether the newest file has a lot or a batch, so that `toll` knows it."""
        sql = (
            "SELECT 1 FROM lots WHERE owner = ? AND lot = ?"
            if isinstance(name, LotId)
            else "SELECT 1 FROM batches WHERE owner = ? AND ord = ? AND number = ?"
        )
        return self.newest.base.execute(sql, name).fetchone() is not None


@contextlib.contextmanager
def opened(office: Office, journal: Journal, starts: Iterable[LotId | BatchId] | None = None) -> Iterator[Source]:
    """A copy of the office's file at one moment, with what its earlier files hold and the journal's notes; of several
    files all, or what a recall of these lots and batches may come to. A kill leaves nothing of it."""
    with scratch.folder(os.path.dirname(office.file)) as room, guard.over(room), contextlib.ExitStack() as stack:
        try:
            newest = stack.enter_context(keyless(office, room))
            files = parts_of(office.file, newest.base, newest.path, newest.digest)
            base, names = newest.base, None
            if len(files) > 1:
                names = reach.names_of(journal, files, starts)
                base = stack.enter_context(merged(files, names=names))
            order = read_if_cleaned(journal, newest.base)
            register = standing.read(journal, newest.base, None if len(files) == 1 else base)
            register.plants_test = office.plants_test
            yield Source(newest, views.over(base, register), tuple(files), register, order, names is None)
        except sqlite3.Error as error:
            raise Failure(f"a copy of {office.file} can't be read: {error}") from error


@contextlib.contextmanager
def keyless(office: Office, room: str) -> Iterator[Copy]:
    """A copy of one file. Its keys are replaced before anything is read; `toll` gets a file of what is then in it."""
    target = os.path.join(room, "keyless.db")
    with contextlib.ExitStack() as stack:
        with snapshot.copied(office, room) as path:
            digest = digest_of([path, f"{path}-wal"])
            base = stack.enter_context(without_keys(path, office.file))
            base.execute("VACUUM INTO ?", (target,))
        # the names of what was copied are gone, and its tables stay open
        yield Copy(office, base, target, digest, stack)


@contextlib.contextmanager
def tables(office: Office) -> Iterator[sqlite3.Connection]:
    """The tables of a copy of one file, without its keys, of which `toll` is asked nothing."""
    with contextlib.ExitStack() as stack:
        with snapshot.copied(office) as path:
            base = stack.enter_context(without_keys(path, office.file))
        yield base


@contextlib.contextmanager
def without_keys(path: str, file: str) -> Iterator[sqlite3.Connection]:
    """The tables of what was copied of an office's file, once its keys are replaced."""
    with contextlib.closing(sqlite3.connect(path)) as base:
        snapshot.require_office(base, file)
        replace_keys(base)
        base.execute("PRAGMA temp_store = MEMORY")
        base.execute(f"PRAGMA cache_size = -{CACHE}")
        yield base


def replace_keys(base: sqlite3.Connection) -> None:
    """Puts a random word in the place of each owner's key."""
    base.execute("PRAGMA secure_delete = ON")
    rows = base.execute("SELECT rowid FROM owners").fetchall()
    with base:
        # a signal that ends the program would be a fault of SQLite's in a function of Python that it calls
        base.executemany("UPDATE owners SET okey = ? WHERE rowid = ?", [(secrets.token_hex(16), *row) for row in rows])
    base.execute("PRAGMA wal_checkpoint(TRUNCATE)")


def digest_of(paths: list[str]) -> str:
    """The SHA-256 of files, one behind the other; those that aren't there have no bytes."""
    digest = hashlib.sha256()
    for path in paths:
        with contextlib.suppress(FileNotFoundError), open(path, "rb") as file:
            while block := file.read(BLOCK):
                digest.update(block)
    return digest.hexdigest()


def version(office: Office) -> str:
    """The name and the version of the proved program, as it prints them itself."""
    try:
        done = subprocess.run([office.program], stdin=subprocess.DEVNULL, capture_output=True)
    except OSError as error:
        raise Failure(f"{office.program} can't be run: {error.strerror}") from error
    return done.stderr.decode(errors="replace").partition(",")[0].partition("\n")[0]
