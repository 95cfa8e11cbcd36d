"""The chain that a follower writes: what its next piece follows, and what it has of the journal and earlier files."""
import hashlib
import os
import shutil
from collections.abc import Callable
from contextlib import AbstractContextManager
from dataclasses import dataclass, field

from ...core import files, snapshot
from ...core.failure import Failure
from ...core.files import PART
from ...core.journal.log import now
from ...core.office import earlier_files
from ...core.snapshot import Stamp
from .. import persons
from . import chain, piece
from .capture import Digests, Place, opened
from .chain import Chain
from .piece import NOTHING, SNAPSHOT, Header, Writer

DAY = len("2026-11-29")
KNOWN_BY = 4_096  # bytes, by whose SHA-256 a journal is known again
EMPTY = hashlib.sha256().hexdigest()


# The journal's lines that a piece takes along


@dataclass(frozen=True)
class Taken:
    """How far a journal was taken: its bytes, and the SHA-256 of the last of them."""

    to: int = 0
    hash: str = EMPTY


@dataclass(frozen=True)
class Lines:
    """Whole lines of a journal, from a place to a place."""

    path: str
    start: int
    end: int

    @property
    def count(self) -> int:
        """How many bytes there are."""
        return self.end - self.start

    def copy(self, write: Callable[[bytes], None]) -> None:
        """Writes them, in parts."""
        with opened(self.path) as journal:
            at = self.start
            while journal is not None and at < self.end and (part := os.pread(journal, min(PART, self.end - at), at)):
                write(part)
                at += len(part)
        if at < self.end:
            raise OSError(0, "it became shorter meanwhile", self.path)

    @property
    def taken(self) -> Taken:
        """How far the journal is taken with them."""
        with opened(self.path) as journal:
            return Taken(self.end, hash_before(journal, self.end)) if journal is not None else Taken()


def hash_before(journal: int, end: int) -> str:
    """The SHA-256 of the last bytes before a place."""
    return hashlib.sha256(os.pread(journal, min(KNOWN_BY, end), max(0, end - KNOWN_BY))).hexdigest()


def behind(path: str, taken: Taken) -> Lines:
    """The lines behind those that were taken; all lines, from 0, if the journal is another one than it was. Of a line
    that is being written nothing is taken."""
    start = end = taken.to
    with opened(path) as journal:
        if journal is not None:
            end = end_of_lines(journal)
            start = taken.to if taken.to <= end and hash_before(journal, taken.to) == taken.hash else 0
    return Lines(path, start, end)


def end_of_lines(journal: int) -> int:
    """Where the last whole line ends."""
    end = os.fstat(journal).st_size
    while end:
        start = max(0, end - PART)
        at = os.pread(journal, end - start, start).rfind(b"\n")
        if at >= 0:
            return start + at + 1
        end = start
    return 0


@dataclass
class Book:
    """The chain of pieces of an office, which a follower writes into a folder of this machine."""

    folder: str
    file: str  # the office's
    journal: str
    office: str  # the file with its machine
    timeline: int
    reserve: int = 0  # bytes that stay free on the folder's disk
    chain: str = field(default_factory=lambda: os.urandom(6).hex())
    last: Header | None = None
    before: str = NOTHING  # the SHA-256 of the header that the next piece follows
    snapshot: Header | None = None  # the newest
    taken: Taken = Taken()
    named: dict[str, str] = field(default_factory=dict)  # the earlier files that the chain names last
    earlier: dict[str, str] = field(default_factory=dict)  # those that there are
    persons_stamp: Stamp | None = None  # of the office's persons of which the folder has a copy

    def go_on(self, of: Chain) -> None:
        """Goes on behind the last piece of a chain."""
        self.chain, self.snapshot = of.name, piece.opened(of.snapshots[max(of.snapshots)]).header
        last = piece.opened(of.newest).header
        self.note(last, last.before if last.is_snapshot and last.number else last.hash)
        self.named = self.earlier = chain.last_earlier(of)

    def note(self, header: Header, hash: str) -> None:
        """Has the next piece follow this one."""
        self.last, self.before = header, hash
        self.taken = Taken(header.journal_from + header.journal, header.journal_hash)

    @property
    def number(self) -> int:
        """The number of the last piece."""
        return self.last.number if self.last else 0

    @property
    def is_snapshot_due(self) -> bool:
        """Whether a day has begun since the newest snapshot, and something was written."""
        newest = self.snapshot
        return newest is None or newest.at[:DAY] != now()[:DAY] and newest.number != self.number

    @property
    def needs_earlier(self) -> bool:
        """Whether there are other earlier files than the chain names."""
        return self.earlier != self.named

    def writer(self, kind: str, size: int) -> "AbstractContextManager[Writer]":
        """A piece of about so many bytes; fails if it would leave less room on the disk than is kept free."""
        free = shutil.disk_usage(self.folder).free
        if free - size < self.reserve:
            kept, free = self.reserve // 1_000_000, free // 1_000_000
            raise Failure(f"the disk of {self.folder} has {free:,} MB free, and {kept:,} are kept for the office")
        return piece.writer(self.folder, kind)

    def finish(self, new_piece: Writer, place: Place, page_size: int, size: int) -> Header:
        """Adds the journal's new lines, all of them to a snapshot, and the header, and gives a piece its name."""
        is_snapshot = new_piece.kind == SNAPSHOT
        new = behind(self.journal, Taken() if is_snapshot else self.taken)
        new.copy(new_piece.lines)
        if is_snapshot or self.needs_earlier:
            new_piece.name_earlier(self.earlier)
        header = new_piece.finish(
            office=self.office,
            timeline=self.timeline,
            chain=self.chain,
            number=self.number + (not is_snapshot),
            before=self.before,
            at=now(),
            page_size=page_size,
            size=size,
            journal_from=new.start,
            journal_hash=new.taken.hash,
            log=place.log,
            file=place.file,
        )
        self.named = dict(self.earlier)
        if is_snapshot:
            self.snapshot = header
        if not is_snapshot or self.last is None:
            self.note(header, header.hash)
        return header

    def digests(self) -> Digests:
        """The digests of all pages behind the last piece, which are read from the folder."""
        of = next((candidate for candidate in chain.chains_in(self.folder) if candidate.name == self.chain), None)
        if of is None or not of.snapshots:
            return Digests()
        return chain.digests(chain.pieces_of(of, max(of.snapshots), of.last))

    def collect_persons(self) -> bool:
        """Copies the office's persons into the folder if they changed; whether they did."""
        stamp = snapshot.stamp_of(persons.path_of(self.file))
        if stamp == self.persons_stamp:
            return False
        persons.take_along(self.file, os.path.join(self.folder, persons.COPY))
        self.persons_stamp = stamp
        return True

    def collect_earlier(self) -> None:
        """Copies the office's earlier files into the folder, each once, by its SHA-256."""
        digests = {path: files.hash_of(path) for path in earlier_files(self.file)}
        for path, digest in digests.items():
            target = chain.earlier_path(self.folder, digest)
            if not os.path.exists(target):
                files.copy_in_place(path, target)
        self.earlier = {os.path.basename(path): digest for path, digest in digests.items()}
