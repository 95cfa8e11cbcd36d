"""Kills of the plant's command at a step: the call with this number of a function of its own, or from one of them. A command has
more of them the first time, before this process has called it: what is read once is known to its children then."""
import contextlib
import fcntl
import functools
import importlib
import os
import pathlib
import pkgutil
import signal
import subprocess
import sys
import tempfile
from collections.abc import Callable, Iterator, Sequence
from types import FrameType
from typing import IO, Any

import hilpoven
from conftest import PATIENCE, ROOT, Plant, eventually, forked
from hilpoven.cli import main

PACKAGE = f"{ROOT}/plant/src/hilpoven"
for module in pkgutil.walk_packages(hilpoven.__path__, "hilpoven."):
    if not module.name.endswith("__main__"):
        importlib.import_module(module.name)


@functools.cache
def is_own(name: str) -> bool:
    """Whether the functions of a file are the command's, but for those of which there are as many as processes run, and
    those that sum a log, which are most steps of a follower and write nothing."""
    return name.startswith(PACKAGE) and not name.endswith(("/server.py", "/wal.py"))


@contextlib.contextmanager
def dying(step: int, count: pathlib.Path) -> Iterator[None]:
    """Dies at a step of what is done meanwhile; where that ends by itself, the number of its steps goes into a file. Processes
    that were begun go on."""
    seen, mine = 0, os.getpid()

    def note(frame: FrameType, event: str, _: Any) -> None:
        nonlocal seen
        if event in ("call", "c_call") and is_own(frame.f_code.co_filename) and os.getpid() == mine:
            seen += 1
            if seen == step:
                os.kill(os.getpid(), signal.SIGKILL)

    sys.setprofile(note)
    try:
        yield
    finally:
        sys.setprofile(None)
        count.write_text(str(seen))


def kill_at(plant: Plant, step: int, words: Sequence[object], stdin: str = "", begin: Callable[[], None] = main) -> int:
    """Kills the command at a step; how many there were, where it ended by itself, and else 0."""
    with tempfile.TemporaryDirectory() as room:
        count = pathlib.Path(room) / "count"

        def run() -> None:
            with dying(step, count):
                begin()

        child = forked("--db", plant.db, *words, begin=run, TOLL=plant.program)
        subprocess.run(["true"], preexec_fn=child, input=stdin, text=True, capture_output=True, cwd=plant.folder, timeout=10 * PATIENCE)
        wait_for_lock(f"{plant.db}.lock")
        return int(count.read_text()) if count.exists() else 0


def wait_for_lock(path: str) -> None:
    """Waits until what a killed command began has ended."""
    if os.path.exists(path):
        with open(path) as lock:
            assert eventually(lambda: is_taken(lock)), "the lock is never given back"


def is_taken(lock: IO[str]) -> bool:
    """Whether nobody has the lock but now this process."""
    with contextlib.suppress(BlockingIOError):
        fcntl.flock(lock, fcntl.LOCK_EX | fcntl.LOCK_NB)
        return True
    return False


def steps(whole: int, kills: int) -> list[int]:
    """So many steps of all, from the first to the last."""
    return sorted({1 + at * (whole - 1) // (kills - 1) for at in range(kills)})
