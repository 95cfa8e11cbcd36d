"""What the tests of the tools share: tools that are run, and programs that stand in for others."""
import pathlib
import signal
import subprocess
import sys
import time
from collections.abc import Callable
from typing import Any

TOOLS = pathlib.Path(__file__).resolve().parent.parent
ROOT = TOOLS.parent
PATIENCE = 60

sys.dont_write_bytecode = True
sys.path[:0] = [str(TOOLS), str(ROOT)]
from tests.harness import eventually  # noqa: E402

__all__ = ["PATIENCE", "ROOT", "TOOLS", "eventually", "quick_guesses", "script", "tool"]


def heed_signals() -> None:
    """Lets signals end what is started, also if these tests run in the background, which ignores some."""
    for number in (signal.SIGHUP, signal.SIGINT, signal.SIGTERM):
        signal.signal(number, signal.SIG_DFL)


def tool(name: str | pathlib.Path, *words: object, **options: Any) -> "subprocess.CompletedProcess[str]":
    """What a tool of tools/ tells of these words."""
    options = {"capture_output": True, "text": True, "timeout": PATIENCE, **options}
    return subprocess.run(["/usr/bin/python3", TOOLS / name, *map(str, words)], **options)


def script(path: pathlib.Path, text: str) -> pathlib.Path:
    """A program of these lines of a shell."""
    path.write_text(f"#!/bin/sh\n{text}\n")
    path.chmod(0o755)
    return path


def quick_guesses(guess: Callable[[], float]) -> tuple[int, float]:
    """How many wrong keys are answered before one waits for more than two seconds, and the most that may be: the site
    lets 19 pass, has the next one wait for a part of three seconds, and gives one more in each three seconds that they
    take."""
    begun, quick = time.monotonic(), 0
    while guess() < 2 and quick < 100:
        quick += 1
    return quick, 21 + (time.monotonic() - begun) / 3
