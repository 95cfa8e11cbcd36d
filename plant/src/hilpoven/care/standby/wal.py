"""SQLite's write-ahead log, read as bytes, as SQLite documents its format ("The Write-Ahead Log", section 4 of its
database file format).

A log has a header of 32 bytes and frames, each a page with a head of 24 bytes. A generation of the log is what two
salts name. The next one begins at the front of the same file, with the first salt one higher, when all of it is in
FILE; what it doesn't overwrite yet of the last generation stays. Each frame has a checksum over all before it, so
frames are read without a lock: those whose checksums are right up to a frame that commits are whole, and what they hold
was committed.
"""
import os
import struct
from array import array
from dataclasses import dataclass, field, replace
from itertools import takewhile
from typing import NamedTuple

HEADER, FRAME_HEAD = 32, 24  # bytes
LARGEST_PAGE = 65_536  # bytes, which files and logs say as 1
PAGE_SIZES = frozenset(1 << n for n in range(9, 17))
MAGIC, BIG = 0x377F0682, 1  # the magic number; with this bit, the checksums read words with the high byte first
FORMAT = 3_007_000
CHUNK = 1 << 20  # bytes that are read at a time, or one frame if that is more
Sums = tuple[int, int]


@dataclass(frozen=True)
class Position:
    """A place in a log behind a commit: its generation, how many frames lie before it, and the checksums there."""

    checkpoint: int  # how often the log began anew
    salts: Sums
    page_size: int  # bytes
    is_big: bool  # whether checksums read words with the high byte first
    frames: int
    sums: Sums

    @property
    def frame_size(self) -> int:
        """Bytes of a frame with its head."""
        return FRAME_HEAD + self.page_size

    @property
    def offset(self) -> int:
        """Where the next frame is in the log."""
        return HEADER + self.frames * self.frame_size

    def is_generation_of(self, other: "Position") -> bool:
        """Whether both are in the same generation of a log."""
        return (self.checkpoint, self.salts) == (other.checkpoint, other.salts)

    def follows(self, other: "Position") -> bool:
        """Whether this generation of the log is the next one."""
        first = (other.salts[0] + 1) % 2**32
        return (self.checkpoint, self.salts[0]) == ((other.checkpoint + 1) % 2**32, first)


@dataclass
class Pages:
    """Pages that were committed: the last content of each by its number, and where the log was read to."""

    end: Position | None = None
    size: int = 0  # of the database in pages behind the last commit; 0 if there was none
    commits: int = 0
    content: dict[int, bytes] = field(default_factory=dict)

    def add(self, later: "Pages") -> None:
        """Adds what was committed later."""
        self.content.update(later.content)
        self.end, self.size, self.commits = later.end, later.size or self.size, self.commits + later.commits


def beginning(log: int) -> Position | None:
    """The place before the first frame of an open log; `None` where it has no header, as an empty one."""
    head = os.pread(log, HEADER, 0)
    if len(head) < HEADER:
        return None
    magic, form, size, checkpoint, *salts, first, second = struct.unpack(">8I", head)
    is_big, page_size = bool(magic & BIG), LARGEST_PAGE if size == 1 else size
    if magic & ~BIG != MAGIC or form != FORMAT or page_size not in PAGE_SIZES:
        return None
    if sums_behind(head[:24], [(0, 0)], is_big) != [(first, second)]:
        return None
    return Position(checkpoint, (salts[0], salts[1]), page_size, is_big, 0, (first, second))


def read_on(log: int, start: Position) -> Pages:
    """What an open log has of a generation behind a place, up to its last frame that commits."""
    pages, place, size = Pages(start), start, start.frame_size
    content: dict[int, bytes] = {}  # of a transaction that isn't committed yet
    most = max(CHUNK // size, 1)
    while True:
        chunk = os.pread(log, most * size, place.offset)
        heads = whole_heads(chunk, place)
        for at, head in enumerate(heads, 1):
            content[head.page] = chunk[at * size - place.page_size : at * size]
            if head.size:
                end = replace(place, frames=place.frames + at, sums=head.sums)
                pages.add(Pages(end, head.size, 1, content))
                content = {}
        if len(heads) < most:
            return pages
        place = replace(place, frames=place.frames + most, sums=heads[-1].sums)


def has(log: int, place: Position) -> bool:
    """Whether an open log has the last frame before a place, unchanged; not where none is before it. As frames are
    written one behind another, and a log that is cut loses those at its end, no frame behind this one is then gone."""
    if not place.frames:
        return False
    head = os.pread(log, FRAME_HEAD, place.offset - place.frame_size)
    return len(head) == FRAME_HEAD and struct.unpack(">4I", head[8:]) == (*place.salts, *place.sums)


class Head(NamedTuple):
    """The head of a frame: the number of its page, the pages of the database behind a commit, else 0, the salts of its
    generation, and the checksums behind it."""

    page: int
    size: int
    salts: Sums
    sums: Sums


def whole_heads(chunk: bytes, place: Position) -> list[Head]:
    """The heads of the frames at the front of a chunk, which a log has behind a place, that are whole and of its
    generation."""
    size = place.frame_size
    fields = (struct.unpack_from(">6I", chunk, at) for at in range(0, len(chunk) - size + 1, size))
    heads = [Head(page, pages, (salt, other), (first, second)) for page, pages, salt, other, first, second in fields]
    heads = list(takewhile(lambda head: head.page and head.salts == place.salts, heads))
    if not heads:
        return []
    before = [place.sums, *(head.sums for head in heads[:-1])]
    sums = sums_behind(chunk[: len(heads) * size], before, place.is_big, FRAME_HEAD)
    return [head for head, _ in takewhile(lambda pair: pair[0].sums == pair[1], zip(heads, sums))]


def sums_behind(content: bytes, before: list[Sums], is_big: bool, head: int = 8) -> list[Sums]:
    """The two checksums behind each of some rows of the same length, which go on from those before it ("Checksum
    Algorithm", section 4.2). Of a row's head of so many bytes only the first eight count.

    Of each two words a and b, a step is first += a + second, then second += b + first, modulo 2**32. The step is taken
    for all rows at once: each has 64 bits of one number, of which 32 are for what a sum grows by.
    """
    count = len(before)
    words = array("I", content)
    if is_big:
        words.byteswap()
    pairs, width = memoryview(words).cast("B").cast("Q"), len(content) // 8 // count
    low = int.from_bytes(b"\xff\xff\xff\xff\0\0\0\0" * count, "little")
    first, second = (int.from_bytes(struct.pack(f"<{count}Q", *sums), "little") for sums in zip(*before))
    for at in (0, *range(head // 8, width)):
        pair = int.from_bytes(pairs[at::width].tobytes(), "little")
        first = first + (pair & low) + second & low
        second = second + (pair >> 32 & low) + first & low
    return list(zip(*(struct.unpack(f"<{count}Q", sums.to_bytes(8 * count, "little")) for sums in (first, second))))
