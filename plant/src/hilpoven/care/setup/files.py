"""Files that setup writes. Each says so, with the sum of its lines, so that none of another hand is replaced."""
import enum
import hashlib
import os
import re
import stat
from dataclasses import dataclass

from ...core import files, paths
from ...core.failure import WRONG_USE, Failure

MARK = "# hilpoven setup wrote this file, and leaves it alone once it is changed. SHA-256 of the lines below: "
MARKED = re.compile(rf"{re.escape(MARK)}([0-9a-f]{{64}})\n")
MODE = 0o644


class State(enum.Enum):
    """What is in the place of a file."""

    ABSENT = "absent"
    SAME = "as it has to be"
    EARLIER = "as setup wrote it, and to be another now"
    CHANGED = "written by setup, and changed since"
    FOREIGN = "of another hand"


@dataclass(frozen=True)
class Written:
    """A file that setup writes: its path, and its lines below the mark."""

    path: str
    lines: str

    def text(self) -> str:
        """The whole file."""
        return f"{MARK}{sum_of(self.lines)}\n{self.lines}"

    def state(self) -> State:
        """What is in its place."""
        try:
            if not stat.S_ISREG(os.lstat(self.path).st_mode):
                return State.FOREIGN
            with open(os.open(self.path, files.READ), errors="replace") as file:
                content = file.read()
        except FileNotFoundError:
            return State.ABSENT
        if content == self.text():
            return State.SAME
        if not (mark := MARKED.match(content)):
            return State.FOREIGN
        return State.EARLIER if sum_of(content[mark.end() :]) == mark[1] else State.CHANGED

    def put(self) -> str | None:
        """Writes it, unless it is there or was changed; the text that it replaced, empty if there was none, and `None`
        where nothing is written. Fails where another hand's file, or none, is in its place."""
        state = self.state()
        if state in (State.SAME, State.CHANGED):
            return None
        if state is State.FOREIGN:
            raise Failure(f"{self.path} is there, and setup didn't write it", WRONG_USE, "move it away, if it may go")
        before = ""
        if state is State.EARLIER:
            with open(self.path) as file:
                before = file.read()
        write(self.path, self.text(), is_new=state is State.ABSENT)
        return before


def sum_of(text: str) -> str:
    """The SHA-256 of a text."""
    return hashlib.sha256(text.encode()).hexdigest()


def write(path: str, text: str, is_new: bool) -> None:
    """Writes a file that everybody may read, whole or not at all, in a folder that nobody else may change. A new one
    replaces nothing."""
    target = os.path.join(paths.private(os.path.dirname(path)), os.path.basename(path))
    try:
        files.replace(target, text.encode(), is_new=is_new, prepare=lambda descriptor: os.fchmod(descriptor, MODE))
    except FileExistsError:
        raise Failure(f"{path} is there, and setup didn't write it", WRONG_USE) from None


def take_back(path: str, before: str) -> None:
    """Puts back what a file replaced."""
    if before:
        write(path, before, is_new=False)
    else:
        os.unlink(path)
