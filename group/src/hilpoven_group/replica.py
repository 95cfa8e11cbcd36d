"""A copy of an office's file that follows its log, so that nobody waits for who reads it, and no whole copy is made for
what is new."""
import contextlib
import os
import sqlite3
from collections.abc import Iterator
from dataclasses import dataclass, field

from hilpoven.care.standby import capture
from hilpoven.care.standby.capture import Digests, Gap, Scan, Watch
from hilpoven.core import scratch, snapshot
from hilpoven.model.years import chain


@dataclass
class Replica:
    """The copy at a path, open for writing, with the place to which the log of FILE was read."""

    file: str
    path: str
    descriptor: int
    wait: float  # seconds for FILE's lock, which is taken for a moment where FILE has no log
    watch: Watch | None = None
    digests: Digests = field(default_factory=Digests)  # of the copy's pages
    page_size: int = 0  # bytes
    scans: int = 0  # how often all of FILE was looked at

    def advance(self) -> bool:
        """Brings the copy to what was committed; whether it changed."""
        try:
            if self.watch is None:
                raise Gap("nothing was read yet")
            pages = self.watch.advance()
        except Gap:
            return self.scan()
        if pages is None:
            return False
        self.page_size = pages.end.page_size if pages.end else self.page_size
        for number, page in pages.content.items():
            self.put(number, page)
        self.has_changed({number: capture.digest_of(page) for number, page in pages.content.items()}, pages.size)
        return True

    def scan(self) -> bool:
        """Takes the pages of FILE that the copy doesn't have. If that fails, nothing is known of the copy's pages."""
        known, self.digests, self.watch = self.digests, Digests(), None
        self.scans += 1
        scan = Scan(self.file, self.wait, self.put, known)
        looked = scan.look()
        is_new = bool(scan.emitted) or len(known.of) != looked.size
        self.digests, self.watch, self.page_size = known, looked.watch, looked.page_size
        self.has_changed(scan.emitted, looked.size)
        return is_new

    def put(self, number: int, page: bytes) -> None:
        """Writes a page."""
        os.pwrite(self.descriptor, page, (number - 1) * len(page))

    def has_changed(self, digests: dict[int, bytes], size: int) -> None:
        """Knows the pages that were written, and has the copy end behind so many pages."""
        self.digests.put(digests, size)
        os.ftruncate(self.descriptor, size * self.page_size)

    def opened(self) -> sqlite3.Connection:
        """The tables of the copy as it is now: they are opened anew once it changed."""
        with contextlib.ExitStack() as stack:
            base = sqlite3.connect(chain.address_of(self.path), uri=True, isolation_level=None)
            stack.callback(base.close)
            snapshot.require_office(base, self.file)
            stack.pop_all()
        return base


@contextlib.contextmanager
def following(file: str, wait: float) -> Iterator[Replica]:
    """A copy of an office's file beside it, for its user alone, that goes at the end."""
    with scratch.folder(os.path.dirname(file)) as folder:
        path = os.path.join(folder, "copy.db")
        descriptor = os.open(path, os.O_RDWR | os.O_CREAT | os.O_EXCL | os.O_NOFOLLOW | os.O_CLOEXEC, 0o600)
        try:
            yield Replica(file, path, descriptor, wait)
        finally:
            os.close(descriptor)
