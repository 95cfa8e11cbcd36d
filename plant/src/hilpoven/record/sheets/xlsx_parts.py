"""What openpyxl doesn't tell of the sheets of an .xlsx that it reads row by row: how far they reach, and what they
hide."""
import posixpath
import re
import zipfile
from collections.abc import Iterator
from typing import IO, NamedTuple
from xml.etree import ElementTree

from ...core.failure import Failure
from .cells import LAST_COLUMN, LAST_ROW, MOST_COLUMNS, check_size, shortened

MAIN = "{http://schemas.openxmlformats.org/spreadsheetml/2006/main}"
STRICT = "{http://purl.oclc.org/ooxml/spreadsheetml/main}"
RELATED = (
    "{http://schemas.openxmlformats.org/officeDocument/2006/relationships}id",
    "{http://purl.oclc.org/ooxml/officeDocument/relationships}id",
)
TRUE = ("1", "true")
PLACE = re.compile(r"([A-Z]{1,3})([0-9]{1,7})")


class Look(NamedTuple):
    """What a sheet hides, and the last row and column in which something stands."""

    title: str
    is_hidden: bool
    hidden_rows: frozenset[int]
    hidden_columns: frozenset[int]
    last_row: int
    last_column: int


def local(tag: str) -> str:
    """The name of an element, whichever of the two forms of .xlsx it is of."""
    return tag.removeprefix(MAIN).removeprefix(STRICT)


def looks(archive: zipfile.ZipFile) -> Iterator[Look]:
    """A look at each sheet of the workbook; fails where two are the same part."""
    targets = {
        relation.get("Id"): relation.get("Target", "")
        for relation in ElementTree.fromstring(archive.read("xl/_rels/workbook.xml.rels"))
    }
    parts: set[str] = set()
    for sheet in ElementTree.fromstring(archive.read("xl/workbook.xml")).iter():
        if local(sheet.tag) != "sheet":
            continue
        target = targets[next(filter(None, map(sheet.get, RELATED)))]
        part = target.lstrip("/") if target.startswith("/") else posixpath.normpath(f"xl/{target}")
        if part in parts:
            raise Failure(f"two of its sheets are the same part {shortened(part)}", 3)
        parts.add(part)
        if "sheets/" in part and part in archive.namelist():
            with archive.open(part) as source:
                yield look_of(source, sheet.get("name", ""), sheet.get("state", "visible") != "visible")


def look_of(source: IO[bytes], title: str, is_hidden: bool) -> Look:
    """A look at a sheet, row by row; fails where it is too much, or where openpyxl would pass over a row or a cell."""
    hidden_rows: set[int] = set()
    hidden_columns: set[int] = set()
    last_row = last_column = cells = row = 0
    for event, element in ElementTree.iterparse(source, ("start", "end")):
        name = local(element.tag)
        if event == "start" and name == "row":
            row = number_behind(row, element.get("r"), f"sheet {shortened(title)}: the row")
        elif event == "end" and name == "row":
            if is_unseen(element, "ht"):
                hidden_rows.add(row)
            if width := width_of(element, row):
                last_row, last_column, cells = max(row, last_row), max(width, last_column), cells + width
                check_size(last_row, last_column, cells)
            element.clear()
        elif event == "end" and name == "col" and is_unseen(element, "width"):
            hidden_columns.update(range_of(element, title))
    return Look(title, is_hidden, frozenset(hidden_rows), frozenset(hidden_columns), last_row, last_column)


def number_behind(before: int, number: str | None, subject: str) -> int:
    """The number of a row, which is to be above that of the row before it."""
    if number is None:
        return before + 1
    if re.fullmatch(r"[0-9]{1,7}", number) and before < int(number) <= LAST_ROW:
        return int(number)
    raise Failure(f"{subject} behind row {before} has the number {shortened(number)}", 3)


def range_of(columns: ElementTree.Element, title: str) -> range:
    """The numbers of columns that a sheet describes together, as far as columns are read."""
    first, last = columns.get("min", "1"), columns.get("max", "1")
    if all(re.fullmatch(r"[0-9]{1,5}", end) for end in (first, last)) and 1 <= int(first) <= int(last) <= LAST_COLUMN:
        return range(int(first), min(int(last), MOST_COLUMNS) + 1)
    columns_are = f"columns {shortened(first)} to {shortened(last)}"
    raise Failure(f"sheet {shortened(title)}: it describes {columns_are}, which no sheet has", 3)


def width_of(row: ElementTree.Element, number: int) -> int:
    """The last column of a row in which something stands; none where nothing does."""
    column = last = 0
    for cell in row:
        column = column_behind(column, cell.get("r"), number)
        if any(local(child.tag) in ("v", "f", "is") for child in cell):
            last = max(last, column)
    return last


def column_behind(before: int, place: str | None, row: int) -> int:
    """The column of a cell, as 28 of AB7, which is to be in this row and behind the cell before it."""
    if place is None:
        return before + 1
    match = PLACE.fullmatch(place)
    column = column_of(match[1]) if match else 0
    if match and int(match[2]) == row and before < column <= LAST_COLUMN:
        return column
    raise Failure(f"row {row}: its cell behind column {before} has the place {shortened(place)}", 3)


def is_unseen(element: ElementTree.Element, size: str) -> bool:
    """Whether a row or column is hidden, or has no size."""
    return element.get("hidden") in TRUE or float(element.get(size, 1)) == 0


def column_of(letters: str) -> int:
    """The number of a column, as 28 of AB."""
    number = 0
    for letter in letters:
        number = number * 26 + ord(letter) - ord("A") + 1
    return number
