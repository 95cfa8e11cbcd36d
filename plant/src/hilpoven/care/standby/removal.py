"""What is removed because it is old: a part at each look, so that pieces don't wait for it."""
import os
import time
from collections import deque
from collections.abc import Callable, Iterable
from dataclasses import dataclass, field

PART = 0.05  # seconds of a look
LONGEST_PAUSE = 30.0  # seconds behind a fault that lasts


@dataclass
class Trouble:
    """A fault that lasts: it is told when it begins and when it ends, and what failed rests for longer each time."""

    tell: Callable[[str], None]
    end: str  # what is told at its end
    fault: str = ""
    pause: float = 0.0
    rests_until: float = 0.0

    @property
    def is_resting(self) -> bool:
        """Whether it is too early for another try."""
        return time.monotonic() < self.rests_until

    def note(self, fault: str) -> None:
        """Notes how a try ended: with a fault, or without one."""
        if bool(fault) != bool(self.fault):
            self.tell(fault or self.end)
        self.fault = fault
        self.pause = min(LONGEST_PAUSE, max(1.0, 2 * self.pause)) if fault else 0.0
        self.rests_until = time.monotonic() + self.pause


@dataclass
class Removal:
    """The files of a folder that are still to be removed."""

    folder: str
    trouble: Trouble
    names: deque[str] = field(default_factory=deque)
    failed: deque[str] = field(default_factory=deque)  # which are tried again later

    def add(self, names: Iterable[str]) -> None:
        """Has files removed, in this order: the oldest snapshot goes before its pieces, which nobody misses then."""
        known = {*self.names, *self.failed}
        self.names.extend(name for name in names if name not in known)

    def step(self) -> None:
        """Removes some of them."""
        if not self.names and self.failed and not self.trouble.is_resting:
            self.names, self.failed = self.failed, deque()
        ends, fault = time.monotonic() + PART, ""
        while self.names and time.monotonic() < ends:
            fault = self.remove(self.names.popleft()) or fault
        if fault or self.trouble.fault and not self.names and not self.failed:
            self.trouble.note(fault)

    def remove(self, name: str) -> str:
        """Removes a file; why it can't be, if it is there."""
        path = os.path.join(self.folder, name)
        try:
            os.unlink(path)
        except FileNotFoundError:
            return ""
        except OSError as error:
            self.failed.append(name)
            return f"{path} can't be removed: {error.strerror}"
        return ""
