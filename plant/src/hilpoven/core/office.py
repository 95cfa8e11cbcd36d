"""An office in a file: whether it is there, what its earlier files are called, and what `toll` answers over it."""
import os
import stat
import time
from collections.abc import Callable
from typing import NamedTuple

from . import lock
from .failure import FAULT, WRONG_USE, Failure
from .rights import unusable

LOCKED = "fault Locked\n"
SUPERSEDED = ".superseded"  # the end of the name of what says that a standby has the office now


class Answer(NamedTuple):
    """What `toll` answered: its exit status, and what it wrote."""

    status: int
    output: str
    error: str


class Office(NamedTuple):
    """An office's file, the program that answers for it, how many seconds a taken lock is waited for, and the test of
    the plant's own, by which it signs and holds lots; empty if it has none."""

    file: str
    program: str
    wait: float
    plants_test: str = ""

    def ask(self, words: list[str], file: str | None = None) -> Answer:
        """What `toll` answers to these words over the file, or over a copy of it."""
        import subprocess

        try:
            done = subprocess.run(
                [self.program, "--db", file or self.file, *words], stdin=subprocess.DEVNULL, capture_output=True
            )
        except OSError as error:
            raise Failure(f"{self.program} can't be run: {error.strerror}") from error
        status = done.returncode if done.returncode >= 0 else FAULT
        return Answer(status, done.stdout.decode(errors="replace"), done.stderr.decode(errors="replace"))

    def ask_patiently(self, words: list[str], ask: "Callable[[list[str]], Answer] | None" = None) -> Answer:
        """The same, or what another way of asking gives, asked again while another has the lock. A lock that can't be
        opened is told apart from one that is taken."""
        ends, ask = time.monotonic() + self.wait, ask or self.ask
        while True:
            answer = ask(words)
            if answer.error != LOCKED:
                return answer
            os.close(lock.opened(self.file))
            if time.monotonic() >= ends:
                return answer
            time.sleep(lock.PAUSE)


def require_file(file: str) -> None:
    """Fails where a file isn't there or can't be an office's: `toll` would make a new office of its name."""
    try:
        state = os.stat(file)
    except FileNotFoundError:
        raise absent(file) from None
    except OSError as error:
        raise unusable(f"{file} can't be opened", file, error) from error
    if not stat.S_ISREG(state.st_mode):
        raise Failure(f"{file} is no file", WRONG_USE)
    if not state.st_size and not has_bytes(f"{file}-wal"):
        raise Failure(f"{file} is empty", WRONG_USE, f"`hilpoven new {file}` makes a new office of it")
    try:
        os.close(os.open(file, os.O_RDWR | os.O_CLOEXEC))
    except OSError as error:
        raise unusable(f"{file} can't be opened", file, error) from error


def has_bytes(file: str) -> bool:
    """Whether a file is there, and isn't empty."""
    try:
        return os.stat(file).st_size > 0
    except OSError:
        return False


def absent(file: str) -> Failure:
    """That a file isn't there, and what may have been meant by it."""
    why, folder = f"there is no file {file}", os.path.dirname(file) or "."
    if has_bytes(f"{file}-wal"):
        advice = f"but its log {file}-wal is there, so it was moved away: put it back, or `hilpoven restore` a backup"
        return Failure(why, WRONG_USE, advice)
    try:
        names = [name for name in os.listdir(folder) if name.endswith(".db")]
    except OSError as error:
        unseen = unusable(f"{folder} can't be looked at", file, error)
        return Failure(why, WRONG_USE, unseen.message, unseen.needs)
    import difflib

    near = difflib.get_close_matches(os.path.basename(file), names, 1) or (names if len(names) == 1 else [])
    meant = [f"did you mean {os.path.join(os.path.dirname(file), near[0])}?"] if near else []
    return Failure(why, WRONG_USE, "\n".join([*meant, f"`hilpoven new {file}` makes a new office"]))


MOST_DIGITS = 6


def front_of(file: str) -> str:
    """What the names of an office's earlier files begin with."""
    return os.path.basename(file).removesuffix(".db")


def number_of(file: str, name: str) -> int:
    """Which of an office's earlier files has this name; 0 if it is none of theirs."""
    front = f"{front_of(file)}-"
    number = name.removeprefix(front).removesuffix(".db")
    is_one = name == f"{front}{number}.db" and number.isascii() and number.isdecimal() and len(number) <= MOST_DIGITS
    return int(number) if is_one else 0


def earlier_files(file: str) -> list[str]:
    """The files beside an office's file that have the names of its earlier ones, in their order."""
    folder = os.path.dirname(file)
    numbers = {name: number_of(file, name) for name in os.listdir(folder)}
    return [os.path.join(folder, name) for name in sorted(filter(numbers.get, numbers), key=lambda name: numbers[name])]


def next_number(file: str) -> int:
    """The number of the next earlier file."""
    return max((number_of(file, os.path.basename(path)) for path in earlier_files(file)), default=0) + 1
