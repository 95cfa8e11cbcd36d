"""The sheet of a file: its bytes, the table of one of its sheets, and what the options of a command ask for of it."""
import errno
import hashlib
import os
import re
import stat
import sys
from collections.abc import Callable
from functools import partial
from typing import Any, NamedTuple

from ...core.failure import WRONG_USE, Failure
from . import bounded
from .cells import LAST_ROW, MOST_BYTES, Likeness, Table, shortened, text_table
from .sheet import Asked, Sheet, column_of, likeness
from .values import KINDS, TRAPS, Kind
from .workbooks import tables_of

OLD_OR_LOCKED = b"\xd0\xcf\x11\xe0"
MOST_PACKED = 64_000_000  # bytes of a file; a workbook may have pictures, which aren't read
MOST_TITLES = 8  # of sheets, that a message names
STANDARD_INPUT = "-"


def content_of(path: str) -> bytes:
    """All bytes of a file, which is read once; `-` is standard input, by which a user hands over a file that only it
    may read."""
    if path == STANDARD_INPUT:
        return within_bounds(sys.stdin.buffer.read(MOST_PACKED + 1))
    try:
        descriptor = os.open(path, os.O_RDONLY | os.O_NONBLOCK | os.O_CLOEXEC)
    except OSError as error:
        raise unread(path, error) from error
    if not stat.S_ISREG(os.fstat(descriptor).st_mode):
        os.close(descriptor)
        raise Failure(f"{path} is no file", WRONG_USE)
    with open(descriptor, "rb") as file:
        return within_bounds(file.read(MOST_PACKED + 1))


def within_bounds(content: bytes) -> bytes:
    """The bytes; fails where there are more than are read."""
    if len(content) > MOST_PACKED:
        raise Failure(f"it has more than {MOST_PACKED:,} bytes", 1)
    return content


def unread(path: str, error: OSError) -> Failure:
    """What is reported of a file that can't be opened."""
    if error.errno in (errno.ENOENT, errno.ENOTDIR):
        return Failure(f"there is no file {path}", WRONG_USE)
    is_private = isinstance(error, PermissionError)
    advice = "standard input hands over what another user can't read: hilpoven import - < SHEET" if is_private else ""
    return Failure(f"{path}: {error.strerror}", advice=advice)


def picked(tables: dict[str, Table], name: str | None) -> Table:
    """The sheet with this name, or the only one that holds something."""
    filled = {sheet_name: table for sheet_name, table in tables.items() if table.rows}
    if name is not None and name not in tables:
        raise Failure(f"it has no sheet {shortened(name)}", 2)
    if name is not None:
        return tables[name]
    if len(filled) > 1:
        titles = [*map(shortened, list(filled)[:MOST_TITLES]), *([".."] if len(filled) > MOST_TITLES else [])]
        raise Failure(f"several sheets hold something, and --sheet says which: {', '.join(titles)}", 2)
    for title, table in filled.items():
        if table.is_hidden:
            raise Failure(f"the sheet {shortened(title)} alone holds something, and it is hidden: --sheet takes it", 1)
        return table
    return Table([])


def read(content: bytes, name: str | None, likeness: Likeness) -> Table:
    """The table of a file's bytes; `likeness` says how like a header a row is."""
    if is_workbook(content):
        return picked(tables_of(content), name)
    if len(content) > MOST_BYTES:
        raise Failure(f"it has {len(content):,} bytes, and at most {MOST_BYTES:,} are read of a text", 1)
    if name is not None:
        raise Failure("--sheet is for an .xlsx or .ods", 2)
    return text_table(content, likeness)


def is_workbook(content: bytes) -> bool:
    """Whether the bytes of a file may be an .xlsx or an .ods; fails if they are another kind of workbook."""
    if content.startswith(OLD_OR_LOCKED):
        raise Failure("it is an .xls, or has a password: save it as .xlsx, .ods or CSV", 3)
    return content.startswith(b"PK")


def split(words: tuple[str, ...]) -> list[str]:
    """The columns of `a,b` and of an option that is given twice."""
    return [column_of(column) for word in words for column in word.split(",")]


def traps_of(given: dict[str, Any], trapped: Callable[[str], list[str]]) -> dict[str, list[str]]:
    """The columns in which the options take a trap, by the traps; fails where one isn't laid there."""
    traps = {trap: split(given[trap]) for trap in TRAPS}
    for trap, columns in traps.items():
        for column in columns:
            if column not in trapped(trap):
                raise Failure(f"--{trap}: {column!r} is none of {', '.join(trapped(trap))}", WRONG_USE)
    return traps


def asked_for(kind: Kind, given: dict[str, Any]) -> Asked:
    """What the options ask for."""
    return Asked(
        traps_of(given, kind.trapped),
        given["hidden"],
        given["capitals"],
        split(given["ignored"]),
        given["header_row"] or 0,
        [column for column in given.get("required", []) if column in kind.noted],
        given.get("decimals_of"),
        headers_of(kind, given.get("headers", ())),
        given.get("trim", False),
        ranges_of(given.get("rows") or ""),
    )


def headers_of(kind: Kind, words: tuple[str, ...]) -> dict[str, str]:
    """The headers of columns, each given as `COLUMN=HEADER`."""
    headers: dict[str, str] = {}
    for word in words:
        name, sign, header = word.partition("=")
        column = column_of(name)
        if not sign or not column_of(header):
            why = f"--column: '{shortened(word)}' is no column and its header"
            raise Failure(why, WRONG_USE, "such as --column amount='Amount (kg)'")
        if column not in kind.readings:
            raise Failure(f"--column: '{shortened(name)}' is none of {', '.join(kind.readings)}", WRONG_USE)
        if column in headers:
            raise Failure(f"--column names two headers of {column}", WRONG_USE)
        if any(column_of(header) == column_of(other) for other in headers.values()):
            raise Failure(f"--column: '{shortened(header)}' is the header of two columns", WRONG_USE)
        headers[column] = header
    return headers


def ranges_of(text: str) -> list[range]:
    """The rows of `5-8,11,20-`; none if nothing is said of them."""
    ranges = []
    for part in filter(None, text.split(",")) if text else ():
        match = re.fullmatch(r"([0-9]{1,7})(-?)([0-9]{0,7})", part.strip())
        first, last = (int(match[1]), int(match[3] or (LAST_ROW if match[2] else match[1]))) if match else (0, 0)
        if not match or not 1 <= first <= last <= LAST_ROW or match[3] and not match[2]:
            why = f"--rows: '{shortened(part)}' is no row and no rows"
            raise Failure(why, WRONG_USE, f"such as 5-8, or 5-8,11,20-; a sheet has {LAST_ROW:,} rows")
        ranges.append(range(first, last + 1))
    return ranges


class Source(NamedTuple):
    """A sheet, and the SHA-256 of the very bytes that it was read from."""

    sheet: Sheet
    sha256: str


def read_source(path: str, given: dict[str, Any], kind: Kind | None = None) -> Source:
    """The sheet of a file, of a kind or as the options ask for it; `-` is standard input. Nothing of the file is opened
    twice."""
    held, content = kind or KINDS[given["what"]], content_of(path)
    asked = asked_for(held, given)
    like_header = partial(likeness, held, column_under=asked.column_under)
    sheet = bounded.run(lambda: Sheet(read(content, given["name"], like_header), held, asked))
    return Source(sheet, hashlib.sha256(content).hexdigest())
