"""The journal: who did what when. Each line is JSON and has the SHA-256 of the line before it."""
import contextlib
import hashlib
import json
import os
import stat
from collections.abc import Callable, Iterator
from dataclasses import dataclass, field
from datetime import datetime, timezone
from typing import Any

from .. import files, lock, rights
from ..days import written
from ..failure import FAULT, Failure
from ..office import Answer
from ..rights import name_of

NOTHING_DONE = "nothing is done that isn't noted there"
BEGINNING = "0" * 64  # before the first line
PIECE = 8_192  # bytes
BLOTTED = "********"  # in place of an owner's key
MADE_AT = "made_at"  # a member of a promotion's line: the moment of the office that it puts in place
KNOWN_KEYS = "known"  # a member of a note: the keys of a sheet's rows that the office had already
IN_PLACE = "in_place"  # a member of an answer: another file has the office's place, also where something failed since


def now() -> str:
    """The time of Greenwich."""
    return written(datetime.now(timezone.utc))


def hash_of(line: bytes) -> str:
    """What the next line says of this one, which is given without its end."""
    return hashlib.sha256(line).hexdigest()


DONE = Answer(0, "done\n", "")


@dataclass
class Note:
    """What is noted at the end of something that is under way: the answer, and what more there is to say."""

    answer: Answer = DONE
    members: dict[str, Any] = field(default_factory=dict)


class Journal:
    """The journal of an office's file, to which lines are added."""

    def __init__(
        self,
        path: str,
        file: str = "",
        unnoted: list[Failure] | None = None,
        tell: Callable[[str], None] = lambda _: None,
        login: str = "",
    ) -> None:
        self.path, self.file, self.login = path, file, login or name_of(os.geteuid())
        self.tell = tell  # who reads its notes tells what is noticed then
        self.unnoted = [] if unnoted is None else unnoted  # why answers couldn't be noted
        self.is_series, self.held = False, list[dict[str, Any]]()  # answers that go to the disk with the next line

    def asked(self, file: str, words: list[str], **members: Any) -> str:
        """Adds what is about to be asked of `toll`, and gives the name by which the answer refers to it."""
        name = os.urandom(8).hex()
        self.add({"event": "asked", "id": name, **self.doer(file), "words": words, **members})
        return name

    def answered(self, name: str, answer: Answer, **members: Any) -> None:
        """Adds what was answered. It is done already: where it can't be noted, that is told at the end, behind the
        answer."""
        self.held.append(
            {
                "event": "told",
                "of": name,
                "status": answer.status,
                "answer": answer.output,
                "error": answer.error,
                **members,
            }
        )
        if not self.is_series:
            self.add_held()

    def add_held(self) -> None:
        """Adds the answers that are held."""
        with contextlib.suppress(Failure):
            self.add()

    @contextlib.contextmanager
    def series(self) -> Iterator[None]:
        """Has each answer go to the disk together with the question behind it, and the last one at the end."""
        self.is_series = True
        try:
            yield
        finally:
            self.is_series = False
            self.add_held()

    def note(self, file: str, words: list[str], **members: Any) -> str:
        """Adds notes of the plant, of which nothing is asked of `toll`, and gives the name of the first one."""
        name = os.urandom(8).hex()
        self.add({"event": "note", "id": name, **self.doer(file), "words": words, **members})
        return name

    def exported(self, file: str, words: list[str]) -> None:
        """Adds what of the office's data is about to be handed out."""
        self.add({"event": "exported", **self.doer(file), "words": words})

    @contextlib.contextmanager
    def noted(self, file: str, words: list[str], **members: Any) -> Iterator[Note]:
        """Adds what is about to be done, and at the end what came of it, also where it fails or is stopped."""
        name, note = self.asked(file, words, **members), Note()
        try:
            yield note
        except BaseException as error:
            why = "stopped" if isinstance(error, (SystemExit, KeyboardInterrupt)) else str(error)
            status = error.exit_code if isinstance(error, Failure) else FAULT
            answer = Answer(status, "" if note.answer is DONE else note.answer.output, f"{why}\n")
            self.answered(name, answer, **note.members)
            raise
        self.answered(name, note.answer, **note.members)

    def add(self, *entries: dict[str, Any]) -> None:
        """Adds lines, behind the answers that are held. They are on the disk when this returns; where they can't be
        written nothing of them is left."""
        held, self.held = self.held, []
        if not held and not entries:
            return
        try:
            with self.locked() as descriptor:
                for entry in entries:
                    if "file" in entry:
                        self.claim(descriptor, entry["file"])
                append(descriptor, *held, *entries)
        except (OSError, Failure) as error:
            why = (
                f"the journal {self.path} can't be written: {error.strerror}"
                if isinstance(error, OSError)
                else error.message
            )
            if held:
                self.unnoted.append(Failure(why, FAULT, "it was done, and its answer isn't noted"))
            raise Failure(why, advice=NOTHING_DONE) from error

    def claim(self, descriptor: int, file: str) -> None:
        """Fails where this is the journal of another file, and notes where it is that of a file that was moved here."""
        last = file_in(descriptor)
        if last in ("", file):
            return
        if not os.path.lexists(last):
            append(descriptor, {"event": "moved", "from": last, **self.doer(file)})
        elif self.path == f"{file}.journal":
            raise Failure(f"{self.path} is the journal of {last}, and {file} needs one of its own", advice=NOTHING_DONE)

    def move(self, file: str) -> None:
        """Notes that this is the journal of a file now, where it was that of another one, which may be there still."""
        with self.locked() as descriptor:
            last = file_in(descriptor)
            if last not in ("", file):
                append(descriptor, {"event": "moved", "from": last, **self.doer(file)})

    def doer(self, file: str) -> dict[str, str]:
        """Who does something, on which machine, and over which file."""
        return {"user": name_of(os.geteuid()), "login": self.login, "machine": os.uname().nodename, "file": file}

    @contextlib.contextmanager
    def locked(self) -> Iterator[int]:
        """The journal, open for adding to it, while nobody else does. It is a file of the office's user, and no
        link."""
        is_new = not os.path.lexists(self.path)
        descriptor = os.open(self.path, os.O_RDWR | os.O_APPEND | os.O_CREAT | files.SAFE, 0o600)
        try:
            lock.take(descriptor, wait=None)
            owner = rights.owner_number(self.file)
            if is_new and os.geteuid() == 0:
                os.fchown(descriptor, owner, -1)
            state = os.fstat(descriptor)
            if not stat.S_ISREG(state.st_mode) or state.st_uid not in (owner, os.geteuid(), 0):
                raise Failure(f"the journal {self.path} is no file of the office's user", advice=NOTHING_DONE)
            yield descriptor
        finally:
            os.close(descriptor)
        if is_new:
            files.sync(os.path.dirname(self.path) or ".")


def append(descriptor: int, *entries: dict[str, Any]) -> None:
    """Adds lines behind the last one, and waits for the disk. Where the disk takes not all of them, what it took is
    removed."""
    size, last = os.fstat(descriptor).st_size, next(backwards(descriptor), None)
    is_cut = size > 0 and os.pread(descriptor, 1, size - 1) != b"\n"
    before = BEGINNING if last is None else hash_of(last)
    text = b"\n" if is_cut else b""
    for entry in entries:
        line = json.dumps(
            {"before": before, "time": now(), **entry, **({"behind_cut": True} if is_cut else {})}
        ).encode()
        text, before, is_cut = text + line + b"\n", hash_of(line), False
    try:
        while text:
            text = text[os.write(descriptor, text) :]
        os.fsync(descriptor)
    except OSError:
        with contextlib.suppress(OSError):
            os.ftruncate(descriptor, size)
        raise


def backwards(descriptor: int) -> Iterator[bytes]:
    """The lines of a journal without their ends, the last one first."""
    size = left = os.fstat(descriptor).st_size
    rest = b""
    while left:
        begin = max(0, left - max(PIECE, len(rest)))  # twice as much of a long line each time
        rest = os.pread(descriptor, left - begin, begin) + (rest if left < size else b"")
        rest = rest.removesuffix(b"\n") if left == size else rest
        rest, *lines = rest.split(b"\n")
        yield from reversed(lines)
        left = begin
    if size:
        yield rest


def file_in(descriptor: int) -> str:
    """The file that the last entry is about; empty where none is about one."""
    return next((str(entry["file"]) for entry in map(entry_of, backwards(descriptor)) if entry and "file" in entry), "")


def adopted(path: str, file: str) -> str:
    """The path of a file's journal. Earlier versions named that of office.db office.journal: it gets its name under its
    own lock, where its entries name the file. Where it can't be renamed it goes on under the name that it has."""
    old = f"{file.removesuffix('.db')}.journal"
    if path != f"{file}.journal" or old == path or os.path.lexists(path):
        return path
    try:
        descriptor = os.open(old, files.READ)
    except OSError as error:
        return old if isinstance(error, PermissionError) else path
    try:
        lock.take(descriptor, wait=None)
        last = file_in(descriptor)
        is_anothers = not stat.S_ISREG(os.fstat(descriptor).st_mode) or last != file and os.path.lexists(last)
        if is_anothers or os.path.lexists(path):
            return path
        files.rename(old, path)
        return path
    except OSError:
        return old
    finally:
        os.close(descriptor)


def entry_of(line: bytes) -> dict[str, Any] | None:
    """The entry of a line; `None` where it isn't whole."""
    try:
        entry = json.loads(line)
    except (ValueError, RecursionError):
        return None
    return entry if isinstance(entry, dict) and isinstance(entry.get("before"), str) else None
