"""A piece: what came into an office within about a second, or with a snapshot all of it, in a file of its own.

A piece has a header of 2,048 bytes, which is JSON, blanks and their SHA-256, and a content: pages, each behind its
number; lines of the journal; and the earlier files that the office has, as JSON. The header has the content's SHA-256
and that of the header of the piece before it, so that pieces are a chain. A snapshot belongs to the piece whose state
it is, and has the SHA-256 of that piece's header. A piece is made under another name and gets its own when it is on the
disk.
"""
import contextlib
import hashlib
import json
import os
import re
from collections.abc import Iterator
from dataclasses import dataclass
from datetime import datetime
from typing import IO, Any, NamedTuple

from ...core import files
from ...core.failure import Failure
from ...core.snapshot import Stamp
from ...core.typed import typed
from .capture import Place
from .wal import PAGE_SIZES, Position

FORMAT = 1
HEAD = 2_048  # bytes of a header
SUM = 65  # bytes at the end of a header: the SHA-256 of what is before them, and the end of the line
PAGE_HEAD = 4  # bytes of a page's number
SYNC = 1 << 20  # bytes after which a piece is synced while it is made, or the server's syncs would wait for all of it
NOTHING = "0" * 64  # in place of the SHA-256 of a header before the first
SNAPSHOT, LOG, FILE = "snapshot", "log", "file"  # what a piece was made of: all pages, the log, or changed ones of FILE
ENDS = {SNAPSHOT: ".snapshot", LOG: ".piece", FILE: ".piece"}
SHA256 = re.compile(r"[0-9a-f]{64}")
NAME = re.compile(r"([0-9]{4})-([0-9a-f]{12})-([0-9]{8})\.(piece|snapshot)")


class Name(NamedTuple):
    """What the name of a piece's file says."""

    timeline: int
    chain: str
    number: int
    is_snapshot: bool


def name_of(text: str) -> Name | None:
    """What a name says; `None` if it is none of a piece."""
    match = NAME.fullmatch(text)
    return Name(int(match[1]), match[2], int(match[3]), match[4] == SNAPSHOT) if match else None


@dataclass(frozen=True)
class Header:
    """What a piece says of itself."""

    kind: str
    office: str  # machine and path of the file
    timeline: int
    chain: str  # 12 letters that a chain has alone
    number: int  # of the piece; of a snapshot, that of the piece whose state it is
    before: str  # the SHA-256 of the header of the piece before it; of a snapshot, of the piece whose state it is
    at: str  # when it was made, in UTC
    page_size: int  # bytes
    pages: int  # how many come with it
    size: int  # pages of the file behind it
    journal_from: int  # where the lines belong in the journal; a piece from 0 replaces the journal
    journal: int  # bytes of its lines
    journal_hash: str  # the SHA-256 of the last bytes of the journal behind them, by which it is known again
    earlier: int  # bytes of what it says of earlier files
    sha256: str  # of the content
    log: Position | None  # how far the log was read
    file: Stamp  # the state of FILE then

    @property
    def is_snapshot(self) -> bool:
        """Whether it has all pages."""
        return self.kind == SNAPSHOT

    @property
    def name(self) -> str:
        """The name of its file."""
        return f"{self.timeline:04}-{self.chain}-{self.number:08}{ENDS[self.kind]}"

    @property
    def length(self) -> int:
        """Bytes of its file."""
        return HEAD + self.pages * (PAGE_HEAD + self.page_size) + self.journal + self.earlier

    @property
    def place(self) -> Place:
        """How far the office was read."""
        return Place(self.log, self.file)

    @property
    def moment(self) -> float:
        """When it was made, in seconds since 1970."""
        return datetime.fromisoformat(self.at).timestamp()

    def as_bytes(self) -> bytes:
        """The header as it is in the file."""
        values = {"format": FORMAT, **vars(self), "log": self.log and vars(self.log)}  # as asdict gives them, slowly
        text = json.dumps(values).encode()
        if len(text) > HEAD - SUM:
            raise Failure("the path of the office's file is too long for a piece")
        text = text.ljust(HEAD - SUM)
        return text + hashlib.sha256(text).hexdigest().encode() + b"\n"

    @property
    def hash(self) -> str:
        """The SHA-256 of the header, which the next piece has."""
        return hashlib.sha256(self.as_bytes()).hexdigest()


def header_of(head: bytes) -> Header:
    """The header in the first bytes of a piece; fails with ValueError if they are none."""
    try:
        values = json.loads(head[:-SUM])
        if not isinstance(values, dict) or values.pop("format", None) != FORMAT:
            raise ValueError("its format is unknown")
        header: Header = typed(Header, values)
        if not is_possible(header):
            raise TypeError("a field of it can't be so")
        is_same = header.as_bytes() == head
    except (TypeError, KeyError, OverflowError, RecursionError, Failure) as error:
        raise ValueError("its header is none of a piece") from error
    if not is_same:
        raise ValueError("its header was changed")
    return header


def is_possible(header: Header) -> bool:
    """Whether each field of a header has a value that a follower could have written."""
    numbers = [header.pages, header.size, header.journal_from, header.journal, header.earlier, *header.file]
    sizes = [header.page_size]
    if log := header.log:
        numbers += [log.checkpoint, log.frames, *log.salts, *log.sums]
        sizes += [log.page_size]
    is_dated = datetime.fromisoformat(header.at).tzinfo is not None
    is_named = NAME.fullmatch(header.name) is not None
    return is_dated and is_named and PAGE_SIZES.issuperset(sizes) and all(0 <= number < 2**63 for number in numbers)


@dataclass(frozen=True)
class Piece:
    """A piece in a folder. Whether its content is whole is found when it is read."""

    path: str
    header: Header

    def pages(self) -> Iterator[tuple[int, bytes]]:
        """Its pages with their numbers; the last content of a page is the right one."""
        with self.content() as file:
            for _ in range(self.header.pages):
                number = int.from_bytes(file.read(PAGE_HEAD))
                yield number, file.read(self.header.page_size)

    def lines(self) -> Iterator[bytes]:
        """The lines of the journal, in parts."""
        left = self.header.journal
        with self.content(self.header.length - self.header.journal - self.header.earlier) as file:
            while left and (part := file.read(min(left, files.PART))):
                left -= len(part)
                yield part

    def earlier(self) -> dict[str, str] | None:
        """The SHA-256 of each earlier file of the office by its name; `None` if they are as before. Fails if that is
        nothing that a follower writes."""
        if not self.header.earlier:
            return None
        with self.content(self.header.length - self.header.earlier) as file:
            text = file.read(self.header.earlier)
        with contextlib.suppress(TypeError, ValueError, RecursionError):
            names: dict[str, str] = typed(dict[str, str], json.loads(text))
            if all(map(SHA256.fullmatch, names.values())):
                return names
        raise Failure("what it says of earlier files is nothing that a piece says")

    @contextlib.contextmanager
    def content(self, at: int = HEAD) -> Iterator[IO[bytes]]:
        """Its file, from a place behind the header on."""
        with open(os.open(self.path, files.READ), "rb", files.PART) as file:
            file.seek(at)
            yield file

    def fault(self) -> str:
        """What is wrong with the content; empty if it is whole."""
        size = os.path.getsize(self.path)
        if size != self.header.length:
            return "is cut" if size < self.header.length else "is longer than it was"
        digest = hashlib.sha256()
        with self.content() as file:
            while part := file.read(files.PART):
                digest.update(part)
        return "" if digest.hexdigest() == self.header.sha256 else "was changed"


def opened(path: str) -> Piece:
    """A piece by its path; fails where its header isn't one."""
    name = os.path.basename(path)
    try:
        with open(os.open(path, files.READ), "rb") as file:
            head = file.read(HEAD)
        if len(head) < HEAD:
            raise Failure(f"{name} is cut")
        return Piece(path, header_of(head))
    except OSError as error:
        raise Failure(f"{name} can't be read: {error.strerror}") from error
    except ValueError as error:
        raise Failure(f"{name} was changed: {error}") from error


class Writer:
    """A piece that is made: its content first, behind room for the header."""

    def __init__(self, folder: str, kind: str) -> None:
        self.folder, self.kind, self.path = folder, kind, os.path.join(folder, f"{kind}.made")
        files.remove(self.path)  # which a kill left
        self.file = open(os.open(self.path, files.NEW, 0o600), "wb", files.PART)
        self.file.seek(HEAD)
        self.digest, self.page_size, self.pages, self.journal, self.earlier = hashlib.sha256(), 0, 0, 0, 0
        self.unsynced = 0

    def write(self, content: bytes) -> int:
        """Adds bytes to the content; how many there were."""
        self.digest.update(content)
        self.unsynced += len(content)
        if self.unsynced >= SYNC:
            self.file.flush()
            os.fdatasync(self.file.fileno())
            self.unsynced = 0
        return self.file.write(content)

    def page(self, number: int, page: bytes) -> None:
        """Adds a page. All pages of a piece have one size."""
        self.page_size, self.pages = len(page), self.pages + 1
        self.write(number.to_bytes(PAGE_HEAD))
        self.write(page)

    def lines(self, part: bytes) -> None:
        """Adds lines of the journal, behind all pages."""
        self.journal += self.write(part)

    def name_earlier(self, names: dict[str, str]) -> None:
        """Adds what there is of earlier files, behind all lines."""
        self.earlier = self.write(json.dumps(names).encode())

    def finish(self, **fields: Any) -> Header:
        """Puts a header of what is known here and of these fields in front, and gives the piece its name once it is on
        the disk, as are the names before it. Its own waits for the next piece: that is a wait for the disk less, and a
        power failure takes the last one."""
        header = Header(
            kind=self.kind,
            pages=self.pages,
            journal=self.journal,
            earlier=self.earlier,
            sha256=self.digest.hexdigest(),
            **fields,
        )
        self.file.seek(0)
        self.file.write(header.as_bytes())
        self.file.close()
        files.sync(self.path)
        files.sync(self.folder)
        os.rename(self.path, os.path.join(self.folder, header.name))
        return header


@contextlib.contextmanager
def writer(folder: str, kind: str) -> Iterator[Writer]:
    """A piece that is made in a folder, where nobody else makes one; what isn't finished is removed."""
    new_piece = Writer(folder, kind)
    try:
        yield new_piece
    finally:
        with contextlib.suppress(OSError):
            new_piece.file.close()
        files.remove(new_piece.path)
