"""Folders for what is made, which go at the end, also where a signal ends this process; what a kill left goes with
the next."""
import contextlib
import errno
import os
import signal
import time
from collections.abc import Iterator

from . import files, lock
from .failure import Failure

LEFT_SINCE = 60  # seconds since a folder was made that nobody works in
ENDING = (signal.SIGHUP, signal.SIGINT, signal.SIGTERM)


@contextlib.contextmanager
def held_back() -> Iterator[None]:
    """Holds the signals that end a program back, over a fork or the import of a library: what is raised in Python's own
    steps around a fork is lost, and an import may make another error of it."""
    before = signal.pthread_sigmask(signal.SIG_BLOCK, ENDING)
    try:
        yield
    finally:
        signal.pthread_sigmask(signal.SIG_SETMASK, before)


@contextlib.contextmanager
def folder(parent: str) -> Iterator[str]:
    """A folder in `parent`, for this user alone, that is removed at the end."""
    path = os.path.join(parent, files.hidden_name())
    try:
        make(parent, path)
        with held(path):
            yield path
    finally:
        remove(path)


def make(parent: str, path: str) -> None:
    """Makes a folder in `parent`, once those that were left there are removed."""
    try:
        remove_left(parent)
        os.mkdir(path, 0o700)
    except OSError as error:
        raise Failure(f"nothing can be made in {parent}: {error.strerror}") from error


def remove(folder: str) -> None:
    """Removes a folder with all that is in it, as far as that can be."""
    try:
        for name in os.listdir(folder):
            os.unlink(f"{folder}/{name}")
        os.rmdir(folder)
    except OSError:  # it has folders
        import shutil

        shutil.rmtree(folder, ignore_errors=True)


@contextlib.contextmanager
def held(folder: str, wait: float | None = 0.0) -> Iterator[None]:
    """Holds a folder, which shows that somebody works in it; fails with BlockingIOError where another holds it for
    longer than so many seconds (`lock.take`)."""
    descriptor = os.open(folder, os.O_RDONLY | os.O_DIRECTORY | os.O_CLOEXEC | os.O_NOFOLLOW)
    try:
        if not lock.take(descriptor, wait):
            raise BlockingIOError(errno.EWOULDBLOCK, "another holds it", folder)
        yield
    finally:
        os.close(descriptor)


def remove_left(parent: str) -> None:
    """Removes the files and folders of this user that a kill left before they were whole, which nobody holds."""
    left = []
    with contextlib.suppress(PermissionError):
        left = [os.path.join(parent, name) for name in os.listdir(parent) if name.startswith(files.HIDDEN)]
    for path in left:
        with contextlib.suppress(OSError):
            # one that was just made isn't taken, since who made it is about to hold it
            if not is_old(path):
                continue
            if not os.path.isdir(path):
                os.unlink(path)
                continue
            with held(path):
                if is_old(path):
                    remove(path)


def is_old(path: str) -> bool:
    """Whether a file or a folder is this user's, and nothing came into it or went for so long that a kill may have left
    it."""
    state = os.stat(path, follow_symlinks=False)
    return state.st_uid == os.geteuid() and state.st_mtime < time.time() - LEFT_SINCE
