"""Papers that an owner takes: certificates, batch records and statements of what is its own, as PDF.

Each is made by a process of its own, which runs `hilpoven papers` for this owner alone, and ends. Nothing that the
process tells comes to the owner: it could name what is others'.
"""
import io
import pathlib
import subprocess
import sys
import tarfile
import threading
import time
from collections import deque
from collections.abc import Callable, Iterator
from contextlib import contextmanager
from dataclasses import dataclass, field

import hilpoven
from hilpoven.core.context import Context
from hilpoven.core.failure import REFUSED, WRONG_USE, Failure
from hilpoven.core.forms import BATCH, DAY, NAME

PATIENCE = 120  # seconds for a paper
MOST_AT_ONCE = 2  # papers of all owners, and one of each
MOST_OF_OWNER, HOUR = 60, 3_600.0  # papers of an owner in an hour: each is a line of the journal
BEGIN = "import sys; sys.path[:0] = [{!r}]; from hilpoven.cli import main; main()"
# What each kind of paper is named by, in the order of its path, and the words of `hilpoven papers` behind its owner.
KINDS = {
    "certificate": ((NAME,), "{}"),
    "batch": ((NAME, BATCH), "{} {}"),
    "statement": ((DAY, DAY), "--from {} --to {}"),
}


class Busy(Exception):
    """Too many papers are being made, or were made for this owner."""


@dataclass(frozen=True)
class Paper:
    """A paper that is asked for: its kind, and what it is named by."""

    kind: str
    names: tuple[str, ...]

    def file_name(self, owner: str) -> str:
        """The name of its file."""
        return "-".join([self.kind, owner, *self.names]) + ".pdf"

    def words(self, owner: str) -> list[str]:
        """The words by which it is made."""
        return ["papers", self.kind, owner, *KINDS[self.kind][1].format(*self.names).split(), "--tar"]


def paper_of(path: str) -> Paper | None:
    """The paper of a path, such as `/papers/certificate/B-1`; `None` of any other."""
    kind, _, rest = path.removeprefix("/papers/").partition("/")
    names, forms = rest.split("/"), KINDS.get(kind, ((), ""))[0]
    if (
        not path.startswith("/papers/")
        or not forms
        or len(names) != len(forms)
        or any(form.fault(name) for form, name in zip(forms, names))
    ):
        return None
    return Paper(kind, tuple(names))


@dataclass
class Limits:
    """How many papers are made at once, and of each owner in an hour."""

    lock: threading.Lock = field(default_factory=threading.Lock)
    now_for: set[str] = field(default_factory=set)
    times: dict[str, deque[float]] = field(default_factory=dict)

    @contextmanager
    def held(self, owner: str) -> Iterator[None]:
        """A place to make a paper for an owner; fails where there is none."""
        now = time.monotonic()
        with self.lock:
            times = self.times.setdefault(owner, deque())
            while times and times[0] < now - HOUR:
                times.popleft()
            if owner in self.now_for or len(self.now_for) >= MOST_AT_ONCE or len(times) >= MOST_OF_OWNER:
                raise Busy
            self.now_for.add(owner)
            times.append(now)
        try:
            yield
        finally:
            with self.lock:
                self.now_for.discard(owner)


def made_for(context: Context, owner: str, paper: Paper) -> bytes | None:
    """The PDF of a paper of an owner; `None` where the owner has no such thing. Fails where it can't be made."""
    office = (
        ["--office", context.settings.office] if context.settings.office and not context.db else ["--db", context.file]
    )
    begin = BEGIN.format(str(pathlib.Path(hilpoven.__file__).parent.parent))
    try:
        done = subprocess.run(
            [sys.executable, "-IBc", begin, *office, *paper.words(owner)],
            stdin=subprocess.DEVNULL,
            capture_output=True,
            timeout=PATIENCE,
        )
    except subprocess.TimeoutExpired:
        raise Failure(f"{paper.file_name(owner)} takes too long") from None
    if done.returncode == REFUSED:
        return None
    if done.returncode:
        kind = "no paper is made" if done.returncode == WRONG_USE else "a paper can't be made"
        raise Failure(f"{kind}: {done.stderr.decode(errors='replace').strip()}")
    with tarfile.open(fileobj=io.BytesIO(done.stdout)) as tar:
        (entry,) = [entry for entry in tar if entry.isfile() and entry.name.endswith(".pdf")]
        file = tar.extractfile(entry)
        assert file
        return file.read()


Make = Callable[[str, Paper], bytes | None]
