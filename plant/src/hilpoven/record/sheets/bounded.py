"""Work on a file from outside, in a process of its own with bounds of memory and time."""
import contextlib
import io
import multiprocessing
import multiprocessing.connection
import os
import resource
import signal
import sys
from collections.abc import Callable
from typing import TypeVar

from ...core import scratch
from ...core.failure import REFUSED, Failure

MEMORY = 1_500_000_000  # bytes of addresses
SECONDS = 120  # of the processor

Made = TypeVar("Made")


def run(work: Callable[[], Made]) -> Made:
    """What the work makes; fails where it fails, takes too much, or ends its process."""
    fork = multiprocessing.get_context("fork")
    receiver, sender = fork.Pipe(duplex=False)
    child = fork.Process(target=send, args=(work, sender))
    with contextlib.closing(receiver):
        with scratch.held_back():
            child.start()
        try:
            sender.close()
            outcome: Made | Failure = receiver.recv()
        except EOFError:
            child.join()
            raise ended(child.exitcode) from None
        finally:
            child.kill()
            child.join()
    if isinstance(outcome, Failure):
        raise outcome
    return outcome


def ended(status: int | None) -> Failure:
    """Why a process ended before it sent anything."""
    if status == -signal.SIGXCPU:
        return Failure(f"it takes more than {SECONDS} seconds to read", REFUSED)
    return Failure(f"it can't be read: its reading ended with {status}")


def send(work: Callable[[], Made], sender: multiprocessing.connection.Connection) -> None:
    """Does the work in the new process, and sends what it makes or why it fails."""
    for ending in scratch.ENDING:
        signal.signal(ending, signal.SIG_DFL)
    signal.pthread_sigmask(signal.SIG_UNBLOCK, scratch.ENDING)
    with open(os.devnull, "w") as nothing:  # whatever a parser prints of a file
        for descriptor in (1, 2):
            os.dup2(nothing.fileno(), descriptor)
    sys.stdout = sys.stderr = io.StringIO()
    for limit, most in ((resource.RLIMIT_AS, MEMORY), (resource.RLIMIT_CPU, SECONDS), (resource.RLIMIT_CORE, 0)):
        lower(limit, most)
    try:
        sender.send(made_of(work))
    except MemoryError:
        sender.send(too_much())


def made_of(work: Callable[[], Made]) -> Made | Failure:
    """What the work makes, or why it fails."""
    try:
        return work()
    except Failure as failure:
        return failure
    except MemoryError:
        return too_much()


def too_much() -> Failure:
    """What is reported of a file that takes too much memory."""
    return Failure(f"it takes more than {MEMORY:,} bytes of memory to read", REFUSED)


def lower(limit: int, most: int) -> None:
    """Lowers a limit of this process, if it isn't lower already. The kernel kills it at the hard one, a unit above."""
    hard = resource.getrlimit(limit)[1]
    least = most + 1 if hard == resource.RLIM_INFINITY else min(most + 1, hard)
    resource.setrlimit(limit, (min(most, least), least))
