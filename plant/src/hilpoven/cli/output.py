"""What is written for people: on standard output what they asked for, and beside it on standard error, as how far long
work has come."""
import os
import signal
import sys
from collections.abc import Callable, Iterable, Iterator, Sequence
from contextlib import contextmanager
from types import FrameType

from ..core.failure import Failure, printable
from ..core.office import Answer
from ..core.table import Row, filled, table_lines
from . import caller

Rows = Sequence[Row]
WIDEST = 40  # letters of a bar
SOON = 1.0  # seconds, after which it is told what goes on


def tell(text: str) -> None:
    """Writes lines on standard error, beside what `toll` answers."""
    for line in filter(None, text.split("\n")):
        tell_line(f"  {printable(line)}")


def tell_line(line: str) -> None:
    """Writes a line on standard error."""
    print(line, file=sys.stderr, flush=True)


def tell_all(texts: Iterable[str]) -> None:
    """Writes each text on standard error as soon as it is there."""
    for text in texts:
        tell(text)


def show(failure: Failure) -> None:
    """Writes the reason of a failure, and the advice under it, on standard error."""
    tell_line(f"hilpoven: {printable(failure.message)}")
    tell(failure.advice)
    if failure.needs:
        tell(caller.with_rights_of(failure.needs))


def pass_on(answer: Answer) -> None:
    """Writes what `toll` answered where it would have."""
    sys.stdout.write(answer.output)
    sys.stdout.flush()
    sys.stderr.write(answer.error)
    sys.stderr.flush()


def print_table(columns: Sequence[str], rows: Sequence[Row], title: str = "") -> None:
    """Prints a table; on a terminal without the columns in which nothing stands, and no wider than the terminal says
    that it is."""
    most = 0
    if sys.stdout.isatty():
        most = os.get_terminal_size(sys.stdout.fileno()).columns
        columns, rows = filled(columns, rows)
    print("\n".join([*([title] if title else []), *table_lines(columns, rows, most)]), flush=True)


def give_table(
    columns: Sequence[str], rows: Sequence[Row], form: str | None, none: str = "", shown: Rows | None = None
) -> None:
    """Gives a table as CSV or JSON, or prints it for people, with other rows for them if there are; tells what there is
    none of."""
    if form:
        from ..core.table import as_csv, as_json

        print({"csv": as_csv, "json": as_json}[form](columns, rows), end="", flush=True)
    elif rows:
        print_table(columns, rows if shown is None else shown)
    else:
        tell_line(none)


@contextmanager
def bar(title: str, total: int) -> Iterator[Callable[[int], None]]:
    """A bar in one line of standard error, if that is a terminal; what is given is called with each count that is
    done."""
    if not sys.stderr.isatty():
        yield lambda count: None
        return
    width, done, drawn = os.get_terminal_size(sys.stderr.fileno()).columns - 1, 0, ""

    def advance(count: int) -> None:
        nonlocal done, drawn
        done += count
        front, behind = f"{title}  [", f"]  {done:,}/{total:,}"
        room = max(0, min(WIDEST, width - len(front) - len(behind)))
        line = f"{front}{'#' * (done * room // max(total, 1)):<{room}}{behind}"[:width]
        if line != drawn:
            print(f"\r{line}", end="", file=sys.stderr, flush=True)
            drawn = line

    advance(0)
    try:
        yield advance
    finally:
        print(file=sys.stderr, flush=True)


@contextmanager
def steps() -> Iterator[Callable[[str], None]]:
    """Work in steps, each of which begins with a call of what is given: if standard error is a terminal, and all of it
    takes longer than a second, the step that is under way is told then, and each later one."""
    if not sys.stderr.isatty():
        yield lambda step: None
        return
    current, is_long = "", False

    def begin(step: str) -> None:
        nonlocal current
        current = step
        if is_long:
            tell(f"{step} ..")

    def ring(_: int, __: FrameType | None) -> None:
        nonlocal is_long
        is_long = True
        begin(current)

    before = signal.signal(signal.SIGALRM, ring)
    signal.setitimer(signal.ITIMER_REAL, SOON)
    try:
        yield begin
    finally:
        signal.setitimer(signal.ITIMER_REAL, 0)
        signal.signal(signal.SIGALRM, before)


def say_done(text: str) -> None:
    """Tells what was made, if standard error is a terminal."""
    if sys.stderr.isatty():
        tell(text)
