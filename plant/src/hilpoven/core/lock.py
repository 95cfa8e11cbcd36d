"""How files are locked; the lock of an office's file, FILE.lock, under which nobody else works on it, and how commands
of the plant record in it: many at a time, or one alone."""
import contextlib
import fcntl
import os
import time
from collections.abc import Iterator

from .failure import Failure
from .rights import unusable

PAUSE = 0.05  # seconds between two tries
BLINK = 0.005  # the same of what is held for milliseconds


def take(descriptor: int, wait: float | None = 0.0, kind: int = fcntl.LOCK_EX, pause: float = PAUSE) -> bool:
    """Locks an open file or folder, alone or beside others (`kind`); whether that was possible within so many seconds.
    Without a number of seconds it waits as long as another has it."""
    if wait is None:
        fcntl.flock(descriptor, kind)
        return True
    ends = time.monotonic() + wait
    while True:
        try:
            fcntl.flock(descriptor, kind | fcntl.LOCK_NB)
            return True
        except BlockingIOError:
            if time.monotonic() >= ends:
                return False
            time.sleep(pause)


def name_of(file: str) -> str:
    """The lock of a file."""
    return f"{file}.lock"


def opened(file: str) -> int:
    """The lock, opened as `toll` opens it; fails where it can't be, which `toll` tells as a lock that is taken."""
    try:
        with contextlib.suppress(FileExistsError):
            return create(file)
        return os.open(name_of(file), os.O_RDWR | os.O_CLOEXEC)
    except OSError as error:
        raise unusable(f"{name_of(file)} can't be opened", file, error) from error


def create(file: str) -> int:
    """A new lock. One that root makes belongs to the office's user, who couldn't open it otherwise."""
    descriptor = os.open(name_of(file), os.O_RDWR | os.O_CREAT | os.O_EXCL | os.O_CLOEXEC, 0o600)
    if os.geteuid() == 0 and os.path.exists(file):
        owner = os.stat(file)
        os.fchown(descriptor, owner.st_uid, owner.st_gid)
    return descriptor


@contextlib.contextmanager
def held(file: str, wait: float) -> Iterator[None]:
    """Holds the lock of a file; fails where somebody else has it for longer than `wait` seconds."""
    descriptor = opened(file)
    try:
        if not take(descriptor, wait):
            raise Failure(f"somebody else has the lock of {file}", advice=holders(name_of(file)))
        yield
    finally:
        os.close(descriptor)


@contextlib.contextmanager
def recording(file: str, wait: float) -> Iterator[None]:
    """Records in an office's file, beside others who do. Fails where somebody records alone for long, who waits for
    FILE.lock twice at most.

    The file itself is held for that, of which `toll` knows nothing: it takes FILE.lock for each line.
    """
    with contextlib.ExitStack() as stack:
        if not hold_soon(stack, file, fcntl.LOCK_SH, 3 * wait):
            raise Failure("a lot is being signed or held, so nothing is recorded meanwhile", advice=holders(file))
        yield


@contextlib.contextmanager
def alone(file: str, wait: float, is_urgent: bool = False) -> Iterator[bool]:
    """Records in an office's file alone, so that nothing is recorded between what is looked at and what is recorded of
    it. Where others record for longer than `wait` seconds it fails, or goes on beside them if it is urgent; whether it
    is alone."""
    with contextlib.ExitStack() as stack:
        is_alone = hold_soon(stack, file, fcntl.LOCK_EX, wait)
        if not is_alone and not is_urgent:
            raise Failure("others are recording, so nothing can be looked at alone", advice=holders(file))
        yield is_alone


def hold_soon(stack: contextlib.ExitStack, file: str, kind: int, wait: float) -> bool:
    """Holds an office's file until the end of a stack; whether that was possible within so many seconds. The file's
    folder is held while somebody waits: so nobody begins to record before somebody who waits to be alone."""
    ends = time.monotonic() + wait
    with contextlib.ExitStack() as turn:
        for holding, path in ((turn, os.path.dirname(file)), (stack, file)):
            while not hold(holding, path, kind):
                if time.monotonic() >= ends:
                    return False
                time.sleep(BLINK)
    return True


def hold(stack: contextlib.ExitStack, path: str, kind: int) -> bool:
    """Holds a file or a folder until the end of a stack; whether nobody is in the way, and no other has its name
    meanwhile."""
    try:
        descriptor = os.open(path, os.O_RDONLY | os.O_CLOEXEC)
    except OSError as error:
        raise unusable(f"{path} can't be opened", path, error) from error
    with contextlib.ExitStack() as tried, contextlib.suppress(FileNotFoundError):
        tried.callback(os.close, descriptor)
        if take(descriptor, kind=kind) and os.path.samestat(os.stat(path), os.fstat(descriptor)):
            stack.push(tried.pop_all())
            return True
    return False


def holders(path: str) -> str:
    """Who holds a file, as far as the system tells it."""
    try:
        inode = os.stat(path).st_ino
        with open("/proc/locks") as locks:
            rows = [line.split() for line in locks]
    except OSError:
        return ""
    pids = sorted({int(row[4]) for row in rows if row[1] == "FLOCK" and row[5].endswith(f":{inode}")})
    return "\n".join(f"it is held by process {pid} ({command(pid)})" for pid in pids if pid > 0)


def command(pid: int) -> str:
    """The name of a process."""
    try:
        with open(f"/proc/{pid}/comm") as file:
            return file.read().strip()
    except OSError:
        return "of which nothing is known"
