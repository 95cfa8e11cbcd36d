"""What a spreadsheet saved, as a table of cells. Here: text files, and what all forms share."""
import csv
import io
import itertools
import re
from collections.abc import Callable, Iterable, Iterator
from datetime import date
from typing import NamedTuple

from ...core.failure import Failure, printable

SEPARATORS = [",", ";", "\t", "|"]
Likeness = Callable[[list["Cell"]], int]  # how like a header a row is
PRECISE = 10**15  # a sheet keeps 15 digits of a number

# What is read at the most: a file that is imported has far less, and a file that has more is none of actuals.
MOST_BYTES = 8_000_000
MOST_TITLES = 20  # rows at the top that may be the header
MOST_ROWS, MOST_COLUMNS, MOST_CELLS = 100_000, 256, 600_000  # those count that are empty between others
LAST_ROW, LAST_COLUMN = 1_048_576, 16_384  # of any sheet, as spreadsheets have them
MOST_LETTERS = 1_000  # of a value; a remark beside the values may have more
SHOWN = 60  # letters of a text that a message shows


class Cell(NamedTuple):
    """A cell: what would be written of it, and what the sheet says of it."""

    text: str
    is_text: bool = False  # the sheet holds it as text, so it is as it was typed
    shown: str | None = None  # of a number: how the sheet shows it
    strange: str = ""  # what it is, where it is neither a text nor a number
    form: str = ""  # of a number of a workbook: the format in which the sheet shows it
    day: date | None = None  # the date that the sheet holds, if it is one without a time

    def is_empty(self) -> bool:
        """Whether nothing stands in it."""
        return not self.text.strip() and not self.strange

    def trimmed(self) -> "Cell":
        """The same without the blanks around its text, of which a number has none."""
        text = self.text.strip()
        return self if text == self.text else self._replace(text=text)


class Table(NamedTuple):
    """The rows of a sheet that aren't empty, each with its number, and the numbers of the rows and columns that it
    hides."""

    rows: list[tuple[int, list[Cell]]]
    hidden_rows: frozenset[int] = frozenset()
    hidden_columns: frozenset[int] = frozenset()
    is_hidden: bool = False


def shortened(text: str, most: int = SHOWN) -> str:
    """A text of the file as a message shows it: in one line, and not longer than this."""
    text = printable(text[: most + 1])
    return text if len(text) <= most else f"{text[:most]}.."


def kept(rows: Iterable[tuple[int, list[Cell]]]) -> Iterator[tuple[int, list[Cell]]]:
    """The rows without what is empty at their ends, and without those that are empty; fails where there is too much
    of them."""
    count = 0
    for row, cells in rows:
        cells = cells[: max((at for at, cell in enumerate(cells, 1) if not cell.is_empty()), default=0)]
        if not cells:
            continue
        count += len(cells)
        check_size(row, len(cells), count)
        yield row, cells


def check_size(row: int, column: int, cells: int) -> None:
    """Fails where something stands too far down, or too far on the right, or it is too much in all."""
    if row > MOST_ROWS:
        raise Failure(f"it has rows below row {MOST_ROWS:,}", 1)
    if column > MOST_COLUMNS:
        raise Failure(f"it has more than {MOST_COLUMNS} columns", 1)
    if cells > MOST_CELLS:
        raise Failure(f"it has more than {MOST_CELLS:,} cells", 1)


def number(value: int | float, shown_by: Callable[[str], str]) -> Cell:
    """The cell of a number, which is shown by this function of its digits."""
    if value != value:
        return Cell("", strange="no number")
    if abs(value) >= PRECISE:
        return Cell("", strange="a number of more than 15 digits, of which a sheet loses the last")
    text = str(int(value)) if value == int(value) else repr(value)
    return Cell(text, shown=shown_by(text))


# Text files


def decoded(raw: bytes) -> str:
    """The text of a file, by its byte order mark, or by the zeros that UTF-16 has in its first character."""
    code = "latin-1"
    if raw[:2] in (b"\xff\xfe", b"\xfe\xff"):
        code = "utf-16"
    elif raw[:2].count(0) == 1:
        code = "utf-16-be" if raw[0] == 0 else "utf-16-le"
    elif is_utf_8(raw):
        code = "utf-8-sig"
    try:
        text = raw.decode(code)
    except UnicodeDecodeError as error:
        raise Failure(f"it can't be read as {code.upper()}", 3) from error
    if "\0" in text:
        raise Failure("it is neither text nor an .xlsx or .ods", 3)
    return text


def is_utf_8(raw: bytes) -> bool:
    """Whether bytes are UTF-8."""
    try:
        raw.decode()
    except UnicodeDecodeError:
        return False
    return True


def split(text: str, separator: str) -> Iterator[tuple[int, list[Cell]]]:
    """The rows of a text, each with its number; the rows that are empty too."""
    reader = csv.reader(io.StringIO(text, newline=""), delimiter=separator, strict=True)
    row = 0
    try:
        for row, fields in enumerate(reader, 1):
            yield row, [Cell(field) for field in fields]
    except csv.Error as error:
        raise Failure(f"row {row + 1}: its quotes can't be read: {error}", 1) from error


def text_table(raw: bytes, likeness: Likeness) -> Table:
    """The table of a text file, by the separator for which a row at its top is most like a header."""
    text = decoded(raw)
    separator_line = re.match(r'"?sep=(.)"?[,;\t|]*(?:\r\n|\r|\n)', text, re.I)
    if separator_line:
        text = text[separator_line.end() :]

    def like(separator: str) -> int:
        try:
            filled = (
                cells
                for _, cells in itertools.islice(split(text, separator), MOST_ROWS)
                if not all(cell.is_empty() for cell in cells)
            )
            return max(map(likeness, itertools.islice(filled, MOST_TITLES)), default=0)
        except Failure:
            return -1  # its quotes are another separator's

    separators = [separator_line[1], *SEPARATORS] if separator_line and separator_line[1] != '"' else SEPARATORS
    return Table(list(kept(split(text, max(separators, key=like)))))
