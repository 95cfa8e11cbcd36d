"""What is new in an office's file and its log: read from the log if that is sure, and else by looking at all of FILE.

Nothing here opens FILE with SQLite. The log is read without the lock, since its checksums tell which frames are whole
(`wal`). FILE is read without the lock too, while others work: what a checkpoint writes into it meanwhile is in the log,
whose pages come behind those of FILE. The lock is held for a moment if there is no log, as FILE's time alone tells then
whether it was written.
"""
import contextlib
import hashlib
import os
import time
from collections.abc import Callable, Iterator
from dataclasses import dataclass, field

from ...core import lock
from ...core.failure import Failure
from ...core.snapshot import SETTLED, Stamp, is_settled, stamp_of
from . import wal
from .wal import Pages, Position

TRIES = 5  # of reading all of FILE while others work; then the lock is held
ENDS = 50  # looks at the log's end until two readers of it have read to the same place
READ = 1 << 20  # bytes of FILE between two looks at its log
DIGEST = 16  # bytes
PAGE_SIZE_AT = 16  # in FILE
Emit = Callable[[int, bytes], None]


class Gap(Exception):
    """Why what was committed can't be read from the log alone."""


@dataclass
class Place:
    """How far an office was read: a place in its log, `None` if that was empty, and the state of FILE then."""

    log: Position | None
    file: Stamp


@contextlib.contextmanager
def opened(path: str) -> Iterator[int | None]:
    """A file, open for reading; `None` where it isn't there."""
    try:
        descriptor = os.open(path, os.O_RDONLY | os.O_CLOEXEC | os.O_NOFOLLOW)
    except FileNotFoundError:
        yield None
        return
    try:
        yield descriptor
    finally:
        os.close(descriptor)


class Watch:
    """Reads on in the log of an office's file from where it was read to."""

    def __init__(self, file: str, place: Place) -> None:
        self.file, self.place = file, place

    def advance(self) -> Pages | None:
        """What was committed since the last look; `None` if nothing was. Fails with Gap where that isn't sure."""
        stamp = stamp_of(self.file)
        if not stamp[0]:
            raise Failure(f"there is no file {self.file}")
        if stamp[0] != self.place.file[0]:
            raise Gap("it is another file")
        with opened(f"{self.file}-wal") as log:
            head = wal.beginning(log) if log is not None else None
            if log is not None and head is not None:
                pages = self.read(log, head, stamp)
            elif log is not None and (last := self.place.log) and wal.has(log, last):
                pages = wal.read_on(log, last)  # the header is written anew now, and all behind it is in FILE
            else:
                self.require_unchanged(stamp)
                return None
        self.place = Place(pages.end, stamp)
        return pages if pages.commits else None

    def require_unchanged(self, stamp: Stamp) -> None:
        """Fails with Gap unless there was no log either, and FILE is as it was."""
        if self.place.log is not None:
            raise Gap("its log was emptied")
        if stamp != self.place.file:
            raise Gap("it was written, and has no log")

    def read(self, log: int, head: Position, stamp: Stamp) -> Pages:
        """What the log has behind the place: of the same generation, and of the next one if nothing of this one can be
        missing."""
        last = self.place.log
        if last is None:
            if stamp != self.place.file:
                raise Gap("it was written before its log began")
            return wal.read_on(log, head)
        if not head.is_generation_of(last) and not head.follows(last):
            raise Gap("its log began anew")
        pages = wal.read_on(log, last)
        if head.follows(last):
            if not pages.end or not wal.has(log, pages.end):
                raise Gap("its log began anew, over what wasn't read yet")
            pages.add(wal.read_on(log, head))
        return pages


def beginning(file: str) -> Watch:
    """Reads all that the log has now, over a FILE that nobody writes without its log."""
    while not is_settled(stamp := stamp_of(file)):
        time.sleep(SETTLED / 1e9)
    with opened(f"{file}-wal") as log:
        return Watch(file, Place(wal.beginning(log) if log is not None else None, stamp))


def continued(file: str, place: Place) -> Watch | None:
    """Reads on where another process stopped, if the log or FILE is as it was then."""
    if place.log is None:
        return Watch(file, place) if stamp_of(file) == place.file else None
    with opened(f"{file}-wal") as log:
        is_there = log is not None and wal.has(log, place.log)
    return Watch(file, place) if is_there else None


@dataclass
class Digests:
    """A digest of each page that a chain of pieces holds, by which other pages are known."""

    of: list[bytes] = field(default_factory=list)

    def get(self, number: int) -> bytes | None:
        """The digest of a page; `None` if there is no such page."""
        return self.of[number - 1] if number <= len(self.of) else None

    def put(self, changes: dict[int, bytes], size: int) -> None:
        """Takes the digests of changed pages, of a database of so many pages."""
        del self.of[size:]
        self.of += [b""] * (size - len(self.of))
        for number, digest in changes.items():
            if number <= size:
                self.of[number - 1] = digest


def digest_of(page: bytes) -> bytes:
    """A page's digest."""
    return hashlib.blake2b(page, digest_size=DIGEST).digest()


@dataclass
class Looked:
    """What a look at all of FILE gave: from where to read on, the size of a page and how many there are."""

    watch: Watch
    page_size: int
    size: int


@dataclass
class Scan:
    """A look at all of an office's file. Each page that isn't as a chain has it is emitted; a page may come twice, and
    its last content is the right one."""

    file: str
    wait: float  # seconds for the lock
    emit: Emit
    known: Digests  # of the pages that the chain has
    between: Callable[[], None] = lambda: None  # is called often meanwhile
    emitted: dict[int, bytes] = field(default_factory=dict)  # the digest of what was emitted last of each page
    page_size: int = 0  # bytes

    def look(self, agrees: Callable[[Place], bool] = lambda place: True) -> Looked:
        """Looks while others work, and again if their log began anew twice between two readings of it; the last time
        under the lock. Pages that came the first time don't come again, so another look is quicker. `agrees` says
        whether another reader of the log is at the same place, where the look ends."""
        for _ in range(TRIES):
            with contextlib.suppress(Gap):
                return self.once(agrees, is_held=False)
        with lock.held(self.file, self.wait):
            try:
                return self.once(agrees, is_held=True)
            except Gap as gap:
                raise Failure(f"{self.file} is written by somebody without its lock: {gap}") from gap

    def once(self, agrees: Callable[[Place], bool], is_held: bool) -> Looked:
        """One look; fails with Gap if the log can't be read throughout."""
        watch, later = beginning(self.file), Pages()
        count = self.read_file(watch, later)
        needs_lock = watch.place.log is None and not is_held
        with lock.held(self.file, self.wait) if needs_lock else contextlib.nullcontext():
            follow_to_end(watch, later, agrees)
        if later.end and later.end.page_size != self.page_size:
            raise Gap("its pages have another size")
        size = later.size or count
        for number, page in later.content.items():
            if number <= size:
                self.take(number, page)
        return Looked(watch, self.page_size, size)

    def take(self, number: int, page: bytes) -> None:
        """Emits a page, unless it is as it was emitted last, or as the chain has it."""
        digest = digest_of(page)
        if digest != (self.emitted.get(number) or self.known.get(number)):
            self.emitted[number] = digest
            self.emit(number, page)

    def read_file(self, watch: Watch, later: Pages) -> int:
        """Takes pages of FILE that the log doesn't have, and reads the log in between; how many pages there are."""
        with opened(self.file) as file:
            if file is None or os.fstat(file).st_ino != watch.place.file[0]:
                raise Gap("it is another file")
            follow(watch, later)
            size, at = self.same_size(page_size_of(os.pread(file, PAGE_SIZE_AT + 2, 0), later)), 0
            while chunk := os.pread(file, READ, at):
                for place in range(0, len(chunk) - size + 1, size):
                    number = (at + place) // size + 1
                    if number not in later.content:
                        self.take(number, chunk[place : place + size])
                at += len(chunk)
                follow(watch, later)
                self.between()
            return at // size

    def same_size(self, page_size: int) -> int:
        """The size of a page; fails if pages of another size were emitted."""
        if self.emitted and page_size != self.page_size:
            raise Failure(f"{self.file} got pages of another size while it was read")
        self.page_size = page_size
        return page_size


def follow(watch: Watch, later: Pages) -> None:
    """Adds what was committed since."""
    if pages := watch.advance():
        later.add(pages)


def follow_to_end(watch: Watch, later: Pages, agrees: Callable[[Place], bool]) -> None:
    """Adds what was committed since, up to a place to which another reader has read too."""
    for _ in range(ENDS):
        follow(watch, later)
        if agrees(watch.place):
            return
    raise Gap("it is written all the time")


def page_size_of(head: bytes, later: Pages) -> int:
    """The size of a page by the front of FILE, and by its log where FILE is empty."""
    size = int.from_bytes(head[PAGE_SIZE_AT:])
    if not head and later.end:
        return later.end.page_size
    if (size := wal.LARGEST_PAGE if size == 1 else size) not in wal.PAGE_SIZES:
        raise Failure("it is no database: its pages have no size")
    return size
