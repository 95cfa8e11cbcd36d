"""What tools/package and tools/check-package share."""
import contextlib
import os
import signal
import subprocess
import threading
from typing import Any

from trial import NAME, ROOT, Words, exit_at_signals, need

__all__ = ["Failed", "NAME", "ROOT", "Words", "end_all", "exit_at_signals", "need", "output"]
RUNNING: set["subprocess.Popen[str]"] = set()
ENDING = threading.Event()


class Failed(Exception):
    """A program or a step that failed, and what it printed."""


def output(*words: object, **options: Any) -> str:
    """What a program prints that ends with status 0. A signal ends it with all that it started."""
    if ENDING.is_set():
        raise Failed(f"{words[0]}: it was ended")
    merged: dict[str, Any] = {"stdout": subprocess.PIPE, "stderr": subprocess.STDOUT, "errors": "replace"}
    with subprocess.Popen(list(map(str, words)), start_new_session=True, **merged, **options) as process:
        RUNNING.add(process)
        try:
            printed = str(process.communicate(timeout=900)[0])
        finally:
            RUNNING.discard(process)
            end(process)
    if process.returncode:
        raise Failed(f"{words[0]}: status {process.returncode}\n{printed[-2000:].strip()}")
    return printed


def end(*processes: "subprocess.Popen[str]") -> None:
    """Ends these with all that they started."""
    for process in processes:
        process.terminate()
    for process in processes:
        with contextlib.suppress(subprocess.TimeoutExpired):
            process.wait(10)
        with contextlib.suppress(ProcessLookupError):
            os.killpg(process.pid, signal.SIGKILL)


def end_all() -> None:
    """Ends the programs whose output other threads wait for, and lets them begin no other."""
    ENDING.set()
    end(*RUNNING)
