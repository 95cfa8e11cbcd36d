"""The bytes of a journal: whether some of its lines have notes, and whether it goes on from where it was read."""
import contextlib
import os
from collections.abc import Iterator

from ...core.failure import Failure
from ...core.files import READ
from ...core.journal.log import Journal, hash_of
from ...core.rights import unusable

MARK = b'"notes": [{"'  # what each line with a note has, and a text never has: there a quote stands behind a backslash
AT_ONCE = 1 << 18  # bytes


def continues(path: str, start: int, stop: int, digest: str) -> bool:
    """Whether a journal still has the last line that was read of it, where it was; always where none was."""
    if stop == 0:
        return True
    with opened(path) as descriptor:
        line = b"" if descriptor is None else os.pread(descriptor, stop - start, start)
    return len(line) == stop - start and hash_of(line[:-1]) == digest


@contextlib.contextmanager
def opened(path: str) -> Iterator[int | None]:
    """A journal, open for reading; `None` where there is none. No link is followed."""
    try:
        descriptor = os.open(path, READ)
    except FileNotFoundError:
        yield None
        return
    except OSError as error:
        raise unusable(f"the journal {path} can't be read", path, error) from error
    try:
        yield descriptor
    except OSError as error:
        raise Failure(f"the journal {path} can't be read: {error.strerror}") from error
    finally:
        os.close(descriptor)


def path_of(file: str) -> str:
    """The path of the register of an office's file."""
    return f"{file}.register"


def may_have_notes(journal: Journal) -> bool:
    """Whether a journal has a line with a note, or had one: then there is a register."""
    if os.path.lexists(path_of(journal.file)):
        return True
    with opened(journal.path) as descriptor:
        return descriptor is not None and has_notes(descriptor, 0)


def has_notes(descriptor: int, place: int) -> bool:
    """Whether a journal has a note behind a place. Its bytes are searched, and no line of it is read."""
    return any(MARK in piece for piece in pieces(descriptor, place))


def pieces(descriptor: int, place: int, end: int | None = None) -> Iterator[bytes]:
    """The lines of a journal behind a place, or those of them before another one, many at once. A last line without its
    end is left out."""
    rest = b""
    while piece := os.pread(descriptor, AT_ONCE if end is None else min(AT_ONCE, end - place), place):
        place += len(piece)
        whole, newline, behind = piece.rpartition(b"\n")
        if newline:
            yield rest + whole + newline
        rest = behind if newline else rest + behind
