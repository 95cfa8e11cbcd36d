"""A folder of snapshots and pieces: which there are, what is wrong with them, and the office that they give."""
import bisect
import contextlib
import os
import stat
import time
from collections.abc import Callable, Iterable, Iterator
from dataclasses import dataclass, field
from datetime import datetime
from typing import IO

from ...core import timeline
from ...core.failure import REFUSED, WRONG_USE, Failure
from . import piece
from .capture import Digests, digest_of
from .piece import Header, Piece, opened

OFTEN = 2_000  # names of a folder between two parts of a look
EARLIER, EARLIER_END = "earlier-", ".db"  # of the name of an earlier file, which has its SHA-256 in between


@dataclass
class Chain:
    """The pieces of one chain, by their numbers."""

    timeline: int
    name: str
    snapshots: dict[int, str] = field(default_factory=dict)  # paths
    pieces: dict[int, str] = field(default_factory=dict)

    @property
    def last(self) -> int:
        """The greatest number that there is."""
        return max([*self.snapshots, *self.pieces], default=0)

    def path_of(self, number: int) -> str:
        """The path of the piece with a number, or of the snapshot that has it alone."""
        return self.pieces.get(number) or self.snapshots[number]

    @property
    def newest(self) -> str:
        """The path of the last one."""
        return self.path_of(self.last)

    @property
    def first_snapshot(self) -> int:
        """The number of the oldest snapshot."""
        return min(self.snapshots, default=0)

    def is_needless(self, name: piece.Name) -> bool:
        """Whether a file of the chain isn't needed, by its name, as the oldest snapshot is of a later state."""
        return bool(self.snapshots) and name.number < self.first_snapshot + (not name.is_snapshot)


def nothing() -> None:
    """What is done between two parts of a look, where nothing waits."""


def grouped(names: Iterable[str], folder: str = "") -> list[Chain]:
    """The chains of which files in a folder have these names."""
    chains: dict[tuple[int, str], Chain] = {}
    for text in sorted(names):
        if name := piece.name_of(text):
            of = chains.setdefault((name.timeline, name.chain), Chain(name.timeline, name.chain))
            (of.snapshots if name.is_snapshot else of.pieces)[name.number] = os.path.join(folder, text)
    return list(chains.values())


def chains_in(folder: str, between: Callable[[], None] = nothing) -> list[Chain]:
    """The chains of a folder, the newest last: those of a later timeline come later, then those that were written to
    later. `between` is called often meanwhile."""
    chains = grouped(names_in(folder, between), folder)
    return sorted(chains, key=lambda chain: (chain.timeline, moment_of(chain.newest, is_by_file=True), chain.name))


def names_in(folder: str, between: Callable[[], None] = nothing) -> Iterator[str]:
    """The names in a folder of pieces; none if it isn't there. Fails if one is a link or a pipe: whoever may write
    there could have another file read by it, or have its reader wait."""
    try:
        with os.scandir(folder) as entries:
            for count, entry in enumerate(entries, 1):
                require_no_link(entry, folder)
                yield entry.name
                if count % OFTEN == 0:
                    between()
    except FileNotFoundError:
        return
    except OSError as error:
        raise Failure(f"{folder} can't be looked at: {error.strerror}") from error


def require_no_link(entry: "os.DirEntry[str]", folder: str) -> None:
    """Fails if a name in a folder is that of something else than a file, a folder, or a connection's socket."""
    if entry.is_file(follow_symlinks=False) or entry.is_dir(follow_symlinks=False):
        return
    with contextlib.suppress(FileNotFoundError):
        if not stat.S_ISSOCK(entry.stat(follow_symlinks=False).st_mode):
            raise Failure(f"{entry.name} in {folder} is no file", REFUSED, "nothing reads what it leads to: remove it")


def moment_of(path: str, is_by_file: bool = False) -> float:
    """When a piece was made, in seconds since 1970; if that can't be read, now, or when its file was written."""
    with contextlib.suppress(Failure, ValueError):
        return opened(path).header.moment
    with contextlib.suppress(OSError):
        return os.stat(path, follow_symlinks=False).st_mtime if is_by_file else time.time()
    return time.time()


def newest_in(folder: str) -> Chain:
    """The newest chain of a folder; fails if there is none."""
    if chains := chains_in(folder):
        return chains[-1]
    raise Failure(f"no snapshot and no piece is in {folder}", WRONG_USE)


def require_own(file: str, own: int, where: str, names: list[str]) -> None:
    """Fails, and keeps an office from being served, if names in a folder are pieces or a mark of a later timeline than
    the office's own."""
    pieces = (name.timeline for name in map(piece.name_of, names) if name)
    if (latest := max([timeline.latest(names), *pieces])) > own:
        raise timeline.supersede(file, latest, where)


@dataclass
class Report:
    """What a look at a chain gave: how many files are whole, what is wrong, and by its number the SHA-256 of the header
    of each piece that can be used."""

    chain: Chain
    folder: str
    is_deep: bool = True  # whether contents are looked at
    whole: int = 0
    wrong: list[str] = field(default_factory=list)
    hashes: dict[int, str] = field(default_factory=dict)
    snapshots: set[int] = field(default_factory=set)  # that are whole
    names: dict[str, str] = field(default_factory=dict)  # of files by the SHA-256 of their headers

    def look(self) -> "Report":
        """Looks at each number: at the piece, then at the snapshot of its state."""
        chain = self.chain
        for number in range(chain.first_snapshot, chain.last + 1):
            if number not in chain.pieces and number > chain.first_snapshot:
                self.wrong.append(f"piece {number} of {chain.name} is missing")
            for path in filter(None, (chain.pieces.get(number), chain.snapshots.get(number))):
                self.look_into(path)
        return self

    def look_into(self, path: str) -> None:
        """Looks at a piece: whether it is whole, in its place, and belongs behind the one before it."""
        try:
            one = opened(path)
            if fault := self.fault(one, os.path.basename(path)):
                raise Failure(f"{os.path.basename(path)} {fault}")
            needed = (one.earlier() or {}).items()
        except Failure as failure:
            self.wrong.append(failure.message)
            return
        header = one.header
        self.whole += 1
        if header.is_snapshot:
            self.snapshots.add(header.number)
        self.hashes[header.number] = header.before if header.is_snapshot and header.number else header.hash
        for name, digest in needed:
            if not os.path.exists(path := earlier_path(self.folder, digest)):
                self.wrong.append(f"the earlier file {name} is missing: {os.path.basename(path)}")

    def fault(self, one: Piece, name: str) -> str:
        """What is wrong with a piece, behind its name; empty if nothing is."""
        header = one.header
        if header.name != name:
            other = self.names.get(header.hash) or header.name
            is_double = os.path.exists(os.path.join(self.folder, header.name)) and is_same(self.folder, header)
            return f"is {other} once more: it is doubled" if is_double else f"is {header.name}, in another one's place"
        self.names[header.hash] = name
        if fault := one.fault() if self.is_deep else "":
            return fault
        before = self.hashes.get(header.number if header.is_snapshot else header.number - 1, header.before)
        if before != header.before and (header.number or not header.is_snapshot):
            return "doesn't follow the piece before it: one of the two was replaced"
        return ""

    @property
    def route(self) -> tuple[int, int]:
        """The snapshot from which most is reached by pieces that can be used, and the last of these; fails if no
        snapshot can be used."""
        ends = [(self.end_from(start), start) for start in self.snapshots]
        if not ends:
            raise Failure(f"no snapshot of {self.chain.name} can be used: {'; '.join(self.wrong)}", REFUSED)
        end, start = max(ends)
        return start, end

    def route_to(self, end: int) -> tuple[int, int]:
        """The newest snapshot from which pieces that can be used reach a number; fails if none do."""
        starts = [start for start in self.snapshots if start <= end <= self.end_from(start)]
        if not starts:
            raise Failure(f"piece {end} of {self.chain.name} can't be reached: {'; '.join(self.wrong[:5])}", REFUSED)
        return max(starts), end

    @property
    def last_at(self) -> str:
        """When the last piece that can be used was made, or its snapshot; empty if none can."""
        for number in sorted(self.hashes, reverse=True):
            with contextlib.suppress(Failure):
                return at_of(self.chain, number)
        return ""

    def end_from(self, number: int) -> int:
        """The last piece that is reached from a number."""
        while number + 1 in self.chain.pieces and number + 1 in self.hashes:
            number += 1
        return number


def is_same(folder: str, header: Header) -> bool:
    """Whether the file of a header's name has that header."""
    with contextlib.suppress(Failure):
        return opened(os.path.join(folder, header.name)).header == header
    return False


def earlier_path(folder: str, digest: str) -> str:
    """Where an earlier file is, by its SHA-256."""
    return os.path.join(folder, f"{EARLIER}{digest}{EARLIER_END}")


def pieces_of(chain: Chain, start: int, end: int) -> Iterator[Piece]:
    """A snapshot, and the pieces behind it up to a number."""
    yield opened(chain.snapshots[start])
    for number in range(start + 1, end + 1):
        yield opened(chain.pieces[number])


def digests(pieces: Iterable[Piece]) -> Digests:
    """The digests of the pages that pieces give."""
    collected = Digests()
    for one in pieces:
        collected.put({number: digest_of(page) for number, page in one.pages()}, one.header.size)
    return collected


@dataclass
class Built:
    """What pieces gave: an office's file, its journal, its earlier files by their names, and the last header."""

    file: str
    journal: str
    earlier: dict[str, str]
    last: Header


def build(pieces: Iterable[Piece], room: str) -> Built:
    """Makes an office's file and its journal in a folder, of pieces that were looked at."""
    file, journal, earlier = os.path.join(room, "copy.db"), os.path.join(room, "copy.journal"), dict[str, str]()
    last: Header | None = None
    with open(file, "xb", 0) as base, open(journal, "xb") as lines:
        for one in pieces:
            put_pages(base.fileno(), one)
            put_lines(lines, one)
            named, last = one.earlier(), one.header
            earlier = earlier if named is None else named
    if last is None:
        raise Failure("there are no pieces")
    return Built(file, journal, earlier, last)


def put_pages(base: int, one: Piece) -> None:
    """Puts the pages of a piece into an open file, which is of the pieces before it."""
    header = one.header
    for number, page in one.pages():
        if not number:
            raise Failure(f"{header.name} has a page of no number")
        if number <= header.size:
            os.pwrite(base, page, (number - 1) * len(page))
    os.ftruncate(base, header.size * header.page_size)


def put_lines(lines: IO[bytes], one: Piece) -> None:
    """Adds what a piece has of the journal to that of the pieces before it."""
    header = one.header
    if header.journal and header.journal_from != lines.tell():
        if header.journal_from:
            raise Failure(f"{header.name} has lines of a journal that isn't that of the pieces before it")
        lines.seek(0)
        lines.truncate()
    lines.writelines(one.lines())


def seconds_of(at: str) -> float:
    """A time of a header as seconds since 1970."""
    return datetime.fromisoformat(at).timestamp()


def office_of(chain: Chain) -> str:
    """The office of a chain with its machine, as its newest piece says; empty if that can't be read."""
    with contextlib.suppress(Failure):
        return opened(chain.newest).header.office
    return ""


def last_earlier(chain: Chain) -> dict[str, str]:
    """The earlier files that a chain names last: each snapshot names them."""
    for number in range(chain.last, -1, -1):
        for path in filter(None, (chain.snapshots.get(number), chain.pieces.get(number))):
            named = opened(path).earlier()
            if named is not None:
                return named
    return {}


def old_names(folder: str, name: str, days: int, between: Callable[[], None] = nothing) -> list[str]:
    """What is older than so many days: the snapshots of a chain, but not its newest, with the pieces before the oldest
    that stays, and other chains to which nothing came for so long; in the order in which they can go."""
    oldest, old = time.time() - days * 86_400, list[str]()
    for of in chains_in(folder, between):
        stay = [number for number, path in of.snapshots.items() if moment_of(path) >= oldest]
        stay = stay or ([max(of.snapshots)] if of.snapshots and of.name == name else [])
        is_old = of.name != name and moment_of(of.newest) < oldest
        if stay or is_old:
            first = min(stay, default=of.last + 1)
            old += [path for number, path in of.snapshots.items() if number < first]
            old += [path for number, path in of.pieces.items() if number <= first]
    return sorted(os.path.basename(path) for path in old)


def at_of(chain: Chain, number: int) -> str:
    """When a piece of a chain was made, or its snapshot if that is all there is."""
    return opened(chain.path_of(number)).header.at


def last_before(chain: Chain, moment: float) -> int:
    """The number of the last piece that was made before a moment, in seconds since 1970."""
    numbers = sorted({*chain.pieces, chain.first_snapshot})
    place = bisect.bisect(numbers, moment, key=lambda number: seconds_of(at_of(chain, number)))
    return numbers[max(0, place - 1)]
