"""The follower: it looks at an office ten times a second, and makes a piece of what is new each second."""
import contextlib
import os
import time
from collections.abc import Callable
from dataclasses import dataclass, field
from functools import cached_property

from ...core import files, paths, scratch, timeline
from ...core.context import Context
from ...core.failure import FAULT, REFUSED, Failure
from . import book, capture, chain, remote, state
from .book import Book
from .capture import Digests, Gap, Place, Scan, Watch
from .chain import Chain
from .piece import FILE, LOG, SNAPSHOT
from .removal import Removal, Trouble
from .sender import Sender
from .state import Saved, State
from .wal import Pages

PAUSE = 0.1  # seconds between two looks
EVERY = 1.0  # seconds between two pieces
LONGEST_PAUSE = 30.0  # seconds behind a fault that lasts
PRUNE = 3_600.0  # seconds between two looks for what is old
MOST_HELD = 64_000_000  # bytes of pages that wait for room on the disk


@dataclass
class Follower:
    """A follower of an office into a folder of this machine. `tell` writes a line for the operator."""

    file: str
    wait: float  # seconds for the office's lock
    book: Book
    days: int  # for which snapshots and pieces stay
    tell: Callable[[str], None]
    sender: Sender | None = None  # to another machine
    state: State = field(default_factory=State)
    watch: Watch | None = None  # `None` if all of FILE is to be looked at
    why: str = "the follower began"  # that is so
    pending: Pages = field(default_factory=Pages)
    digests: Digests | None = None  # of the pages of the chain, once they are needed
    fault: str = ""  # what keeps pieces from being written
    written: float = 0.0  # when the last piece was, by the clock that never goes back
    pruned: float | None = None  # when it was looked for what is old, by the same clock
    pause: float = PAUSE  # before the next look
    is_resumed: bool = False

    @cached_property
    def removal(self) -> Removal:
        """What is old and goes."""
        folder = self.book.folder
        return Removal(folder, Trouble(self.tell, f"old pieces of {folder} are removed again"))

    def resume(self) -> None:
        """Goes on with the newest chain of the folder, or begins one with a snapshot."""
        own = own_chains(self.book)
        try:
            if own:
                self.book.go_on(own[-1])
        except Failure as failure:
            self.tell(f"the chain {own[-1].name} can't be continued: {failure.message}; a new one begins")
            old = self.book
            self.book = Book(old.folder, old.file, old.journal, old.office, old.timeline, old.reserve)
        if last := self.book.last:
            self.watch = capture.continued(self.file, last.place)
            self.state.has_written(last.number, last.moment)
        self.book.collect_earlier()

    def step(self) -> None:
        """One look, with what is to be written behind it."""
        if self.book.collect_persons() and self.sender:
            self.sender.is_state_new = True
        if self.book.last is None:
            self.make_snapshot()
        try:
            if self.watch is None:
                raise Gap(self.why)
            self.note_new(self.watch)
        except Gap as gap:
            self.compare(str(gap))
        if time.monotonic() - self.written >= EVERY:
            self.write_pending()
        if self.book.is_snapshot_due:
            self.make_snapshot()
            self.pruned = None
        self.prune()

    def note_new(self, watch: Watch) -> None:
        """Reads on in the log."""
        if pages := watch.advance():
            self.state.waits(pages.commits)
            self.pending.add(pages)
        self.state.looked = time.time()

    @property
    def held(self) -> int:
        """Bytes of pages that are in no piece yet."""
        return len(self.pending.content) * (self.pending.end.page_size if self.pending.end else 0)

    def write_pending(self) -> None:
        """Makes a piece of what is new in the log and the journal, if anything is."""
        last, new = self.book.last, book.behind(self.book.journal, self.book.taken)
        if self.watch is None or last is None or not (self.pending.commits or new.count):
            return
        size = self.pending.size or last.size
        content = {number: page for number, page in sorted(self.pending.content.items()) if number <= size}
        with self.book.writer(LOG, self.held + new.count) as new_piece:
            for number, page in content.items():
                new_piece.page(number, page)
            self.book.finish(new_piece, self.watch.place, new_piece.page_size or last.page_size, size)
        if self.digests:
            self.digests.put({number: capture.digest_of(page) for number, page in content.items()}, size)
        self.pending = Pages()
        self.has_written()

    def has_written(self) -> None:
        """Notes a piece that was written."""
        if last := self.book.last:
            self.written = time.monotonic()
            self.state.has_written(last.number, last.moment)
            if self.sender:
                self.sender.add(last.name, last.moment)

    def give_up(self, why: str) -> None:
        """Has all of FILE looked at, and why."""
        self.watch, self.why, self.pending = None, why, Pages()

    def compare(self, why: str) -> None:
        """Makes a piece of the pages of FILE that aren't as the chain has them."""
        self.digests = self.digests or self.book.digests()
        self.book.collect_earlier()
        self.give_up(why)
        with self.book.writer(FILE, files.size_of(self.file)) as new_piece:
            scan = Scan(self.file, self.wait, new_piece.page, self.digests)
            looked = scan.look()
            is_same = self.book.last and self.book.last.size == looked.size and not scan.emitted
            if not is_same or self.book.needs_earlier:
                self.state.waits(0)
                self.book.finish(new_piece, looked.watch.place, looked.page_size, looked.size)
                self.digests.put(scan.emitted, looked.size)
                self.has_written()
        self.watch = looked.watch
        self.state.is_level()

    def make_snapshot(self) -> None:
        """Makes a snapshot of the state behind the last piece. Pieces go on meanwhile."""
        self.book.collect_earlier()
        size = sum(map(files.size_of, (self.file, f"{self.file}-wal", self.book.journal)))
        with self.book.writer(SNAPSHOT, size) as new_piece:
            scan = Scan(self.file, self.wait, new_piece.page, Digests(), self.write_between)
            looked = scan.look(self.agrees)
            if self.book.last is None:
                self.watch = looked.watch
            if self.watch is None:
                return
            self.write_pending()
            header = self.book.finish(new_piece, self.watch.place, looked.page_size, looked.size)
        if self.sender:
            self.sender.add(header.name, header.moment)
        known, self.digests = self.digests, Digests()
        self.digests.put(scan.emitted, header.size)
        if header.number == 0:
            self.has_written()
        elif known and known.of != self.digests.of:
            self.report_difference(known)

    def report_difference(self, known: Digests) -> None:
        """Makes a piece of the pages of a snapshot that weren't as pieces had them, as if nobody had noticed it."""
        self.tell(f"pages of {self.file} weren't as the pieces have them, and are written anew")
        self.digests = known
        self.compare("a snapshot had other pages")

    def write_between(self) -> None:
        """Goes on with pieces while a snapshot is made."""
        self.note_between()
        if time.monotonic() - self.written >= EVERY:
            self.write_pending()

    def agrees(self, place: Place) -> bool:
        """Reads on in the log; whether it was read to the same place. Without a watch any place is right."""
        self.note_between()
        return self.watch is None or self.watch.place.log == place.log

    def note_between(self) -> None:
        """Reads on in the log; if that can't be done, no snapshot is made of this look."""
        if self.watch and self.book.last:
            try:
                self.note_new(self.watch)
            except Gap as gap:
                self.give_up(str(gap))

    def prune(self) -> None:
        """Looks for snapshots of more than so many days, with the pieces before the oldest that stays, and has them
        removed. Pieces go on meanwhile, unless a fault keeps them."""
        is_due = self.pruned is None or time.monotonic() - self.pruned >= PRUNE
        if is_due and self.book.snapshot is not None:
            between = chain.nothing if self.fault else self.write_between
            old = chain.old_names(self.book.folder, self.book.chain, self.days, between)
            self.removal.add(old)
            if self.sender:
                self.sender.remove(old)
            self.pruned = time.monotonic()

    def run(self) -> None:
        """Follows until a signal ends it."""
        saved = Saved(self.book.folder)
        while True:
            self.turn()
            ends = time.monotonic() + self.pause
            while (left := ends - time.monotonic()) > 0:
                self.tend(saved)
                time.sleep(min(PAUSE, left))

    def turn(self) -> None:
        """One look. A fault is told when it begins and ends."""
        try:
            if not self.is_resumed:
                self.resume()
                self.is_resumed = True
            self.step()
            if os.path.lexists(os.path.join(self.book.folder, timeline.mark_of(self.book.timeline + 1))):
                chain.require_own(self.file, self.book.timeline, self.book.folder, os.listdir(self.book.folder))
            self.note_fault("")
            self.pause = PAUSE
        except Failure as failure:
            if failure.exit_code != FAULT:
                raise
            self.note_failed_look(failure.message)
        except OSError as error:
            self.note_failed_look(f"{error.filename or self.book.folder}: {error.strerror}")

    def note_failed_look(self, fault: str) -> None:
        """Has the next look wait for longer each time. Pages don't fill the memory meanwhile: what is given up is found
        by a look at all of FILE."""
        self.note_fault(fault)
        self.pause = min(LONGEST_PAUSE, max(1.0, 2 * self.pause))
        if self.held > MOST_HELD:
            self.give_up("pieces couldn't be written")
        with contextlib.suppress(Failure, OSError):
            self.prune()  # which may make room

    def tend(self, saved: Saved) -> None:
        """Goes on with what is removed and sent, and notes how far it is."""
        self.removal.step()
        self.state.fault = self.fault or self.removal.trouble.fault
        if self.sender:
            self.sender.step(self.state)
        if saved.save(self.state) and self.sender:
            self.sender.is_state_new = True

    def note_fault(self, fault: str) -> None:
        """Tells of a fault that begins or ends."""
        if fault != self.fault:
            self.tell(fault or f"pieces of {self.file} are written again")
        self.fault = fault


def own_chains(book: Book) -> list[Chain]:
    """The chains of an office's timeline that have a snapshot; fails if the folder has pieces of another office of this
    timeline, or of a later timeline."""
    chains = chain.chains_in(book.folder)
    chain.require_own(book.file, book.timeline, book.folder, os.listdir(book.folder))
    own = [candidate for candidate in chains if candidate.timeline == book.timeline]
    for own_chain in own:
        if (office := chain.office_of(own_chain)) not in ("", book.office):
            raise Failure(f"{book.folder} has pieces of {office}", REFUSED, "each office needs a folder of its own")
    return [candidate for candidate in own if candidate.snapshots]


# How a follower begins


def follow(context: Context, tell: Callable[[str], None]) -> None:
    """Follows an office to the target of its settings, alone in the folder of its pieces, until a signal ends it.
    `tell` writes a line for the operator."""
    folder, settings, file = folder_of(context), context.settings.follow, context.file
    if not os.path.lexists(folder) and os.path.isdir(os.path.dirname(folder)):
        try:
            os.mkdir(folder, 0o700)
        except OSError as error:
            raise Failure(f"{folder} can't be made: {error.strerror}") from error
    folder, own = paths.private(folder), timeline.number_of(file)
    try:
        with scratch.held(folder):
            office = f"{os.uname().nodename}:{file}"
            book = Book(folder, file, context.journal().path, office, own, settings.reserve * 1_000_000)
            sender = None
            if remote.is_remote(settings.to):
                target = remote.Remote(settings.to, remote.keeping_connected(settings.rsh, folder))
                sender = Sender(target, folder, file, own, settings.days, tell)
            tell(f"follows {file}, of timeline {own}, to {settings.to}")
            Follower(file, context.settings.wait, book, settings.days, tell, sender).run()
    except BlockingIOError:
        raise Failure(f"another follower writes into {folder}", REFUSED) from None


def folder_of(context: Context) -> str:
    """The folder of this machine that has an office's pieces."""
    return state.folder_of(context.file, context.settings.follow.to)


def require_latest(context: Context, tell: Callable[[str], None]) -> str:
    """Fails if the target was promoted; otherwise which timeline is the latest. A target that can't be asked is told
    alone."""
    target, own = context.settings.follow.to, timeline.number_of(context.file)
    if remote.is_remote(target):
        try:
            names = [file.name for file in remote.Remote(target, context.settings.follow.rsh).listed()]
        except Failure as failure:
            if failure.exit_code != FAULT:
                raise
            tell(f"hilpoven: {failure.message}")
            return ""
        chain.require_own(context.file, own, target, names)
    if os.path.isdir(folder := folder_of(context)):
        chain.require_own(context.file, own, folder, list(chain.names_in(folder)))
    return f"{context.file} is of timeline {own}, the latest that {target} has"
