"""The keys of owners, which go to nginx for the office alone. They are read of FILE anew when it changed."""
import threading
import time
from collections.abc import Callable

from hilpoven.core import snapshot
from hilpoven.core.failure import Failure
from hilpoven.core.forms import secret_fault
from hilpoven.core.office import Office
from hilpoven.core.snapshot import Stamp

PAUSE = 1.0  # seconds between two readings, for which the office's lock is taken. A key changed meanwhile is old
SOON = 0.2  # seconds for that lock, where keys are known: an import has it for long, and answers owners meanwhile


class KeptKeys:
    """The owners' keys of an office. An old one opens nothing: the office refuses it, and the person asks again."""

    def __init__(self, office: Callable[[], Office]) -> None:
        self.office, self.lock = office, threading.Lock()
        self.stamps: tuple[Stamp, Stamp] | None = None
        self.keys: dict[str, str] | None = None
        self.read_at = 0.0

    def of(self, owner: str) -> str | None:
        """The key of an owner; `None` of one that the office doesn't have. Fails where no key was ever read."""
        with self.lock:
            office = self.office()
            stamps = snapshot.stamp_of(office.file), snapshot.stamp_of(f"{office.file}-wal")
            if self.keys is None or stamps != self.stamps and time.monotonic() - self.read_at >= PAUSE:
                self.renew(office, stamps)
            return (self.keys or {}).get(owner)

    def renew(self, office: Office, stamps: tuple[Stamp, Stamp]) -> None:
        """Reads the keys anew. Where that fails and others are known, these stay until it can be done."""
        is_settled = all(map(snapshot.is_settled, stamps))
        office = office if self.keys is None else office._replace(wait=SOON)
        try:
            with snapshot.read_briefly(office) as base:
                rows = base.execute("SELECT owner, okey FROM owners").fetchall()
        except Failure:
            if self.keys is None:
                raise
        else:
            self.keys = {owner: key for owner, key in rows if isinstance(key, str) and not secret_fault(key)}
            self.stamps = stamps if is_settled else None
        self.read_at = time.monotonic()
