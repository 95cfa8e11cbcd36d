"""A process beside this one that removes a folder when this one no longer needs it, also where this one is killed."""
import contextlib
import os
import shutil
import signal
import sys
import time
from collections.abc import Iterator

from ...core.scratch import held_back

MOST_OPEN = 1 << 16  # files that this process may have open
TRIES, PAUSE = 100, 0.1  # to remove a folder, and the seconds between two


@contextlib.contextmanager
def over(folder: str) -> Iterator[None]:
    """Has a folder removed at the end, however this process ends."""
    sys.stdout.flush()
    sys.stderr.flush()
    listening, held = os.pipe()
    with held_back():
        child = os.fork()
        if not child:
            watch(listening, folder)
    os.close(listening)
    try:
        yield
    finally:
        os.close(held)
        os.waitpid(child, 0)


def watch(listening: int, folder: str) -> None:
    """Waits until nobody holds the other end of a pipe, and removes the folder. It never returns."""
    try:
        for number in (signal.SIGHUP, signal.SIGINT, signal.SIGTERM, signal.SIGPIPE):
            signal.signal(number, signal.SIG_IGN)
        os.setsid()
        os.dup2(listening, 0)
        os.closerange(1, min(os.sysconf("SC_OPEN_MAX"), MOST_OPEN))
        os.read(0, 1)
        remove(folder)
    finally:
        os._exit(0)


def remove(folder: str) -> None:
    """Removes a folder, in which a program that the killed one had begun may still make files for a moment."""
    for _ in range(TRIES):
        shutil.rmtree(folder, ignore_errors=True)
        if not os.path.lexists(folder):
            return
        time.sleep(PAUSE)
