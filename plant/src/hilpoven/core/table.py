"""Tables as values: as they are printed, for a terminal and as plain text, and as CSV and JSON."""
import io
import json
import re
from collections.abc import Iterable, Iterator, Sequence

from .failure import printable

Value = str | int | None


class Shown(int):
    """A number that people read as a text, as 7.02 of 702. Programs get the number, and the text beside it."""

    text: str
    plain: str  # the same without anything between thousands

    def __new__(cls, number: int, text: str, plain: str) -> "Shown":
        """The number with its text."""
        shown = super().__new__(cls, number)
        shown.text, shown.plain = text, plain
        return shown


Row = Sequence[Value]
GROUP = ","  # between thousands, as people read a number
WIDEST = 200  # letters
GAP, INDENT = "  ", "    "
NUMBERED = {"day", "batch", "segment", "noted_made", "noted_expires", "noted_retest"}  # whose numbers are no amounts


def as_measured(value: int, decimals: int = 0, group: str = "") -> str:
    """A value of `toll` as it was measured: 702 with two decimals is 7.02. `group` stands between thousands."""
    whole, part = divmod(abs(value), 10**decimals)
    sign, behind = "-" if value < 0 else "", f".{part:0{decimals}}" if decimals else ""
    return f"{sign}{whole:{group}}{behind}"


def shown(value: int | None, decimals: int | None = 0, sign: str | None = "") -> int | None:
    """A value of a list: the number, which people read as it was measured, `<` or `>` before it where it is a bound."""
    if value is None or not decimals and not sign:
        return value
    texts = (f"{sign or ''}{as_measured(value, decimals or 0, group)}" for group in (GROUP, ""))
    return Shown(value, *texts)


def formatted(value: Value, column: str = "") -> str:
    """A value as people read it: an amount in groups of three digits."""
    if value is None:
        return ""
    if isinstance(value, Shown):
        return value.text
    return f"{value:,}" if isinstance(value, int) and column not in NUMBERED else str(value)


def counted(count: int, plural: str) -> str:
    """A count of things, as `1 row` or `2 rows`."""
    return f"{count:,} {plural[:-1] if count == 1 else plural}"


def is_number(rows: Sequence[Row], column: int) -> bool:
    """Whether a column holds numbers alone."""
    return any(isinstance(row[column], int) for row in rows) and all(
        row[column] is None or isinstance(row[column], int) for row in rows
    )


def filled(columns: Sequence[str], rows: Sequence[Row]) -> tuple[list[str], list[Row]]:
    """The columns in which something stands."""
    places = [at for at in range(len(columns)) if any(row[at] not in (None, "") for row in rows)]
    return [columns[at] for at in places], [[row[at] for at in places] for row in rows]


def table_lines(columns: Sequence[str], rows: Sequence[Row], most: int = 0) -> Iterator[str]:
    """The lines of a table: of a row one, in which a value that is wider than `WIDEST` makes no other row wider, or as
    many as a terminal that is `most` letters wide needs."""
    numbers = [is_number(rows, at) for at in range(len(columns))]
    texts = [list(columns), *([printable(cell) for cell in map(formatted, row, columns)] for row in rows)]
    widths = [min(max(len(line[at]) for line in texts), WIDEST) for at in range(len(columns))]
    for text in texts:
        yield from lines_of(text, widths, numbers, most)


def lines_of(row: list[str], widths: list[int], numbers: list[bool], most: int) -> Iterator[str]:
    """The lines of a row: one, or as many as a terminal that is `most` letters wide needs."""
    cells = [
        text.rjust(width) if is_right else text.ljust(width) for text, width, is_right in zip(row, widths, numbers)
    ]
    line = ""
    for cell in cells:
        if most and line and len(line) + len(GAP) + len(cell) > most:
            yield from pieces(line, most)
            line = INDENT + cell
        else:
            line = f"{line}{GAP}{cell}" if line else cell
    yield from pieces(line, most)


def pieces(line: str, most: int) -> Iterator[str]:
    """A line in pieces of at most so many letters, if it has to be."""
    line = line.rstrip()
    while len(INDENT) < most < len(line):
        yield line[:most]
        line = INDENT + line[most:]
    yield line


# What a spreadsheet leaves as it is: a text that begins with a letter, a whole number, a time;
# but for months and truths, in English and in German.
PLAIN = re.compile(r"[^\W\d_].*|0|[1-9][0-9]{0,8}|[0-9-]{10}T[0-9:.]+Z", re.DOTALL)
MONTHS = "jan|jän|feb|mar|mär|mrz|apr|may|mai|jun|jul|aug|sep|oct|okt|nov|dec|dez"
TAKEN = re.compile(rf"({MONTHS})[^\W\d_]*[ ./-]*[0-9]|(true|false|wahr|falsch)$", re.IGNORECASE)


def as_formula(text: str) -> str:
    """A text as a formula, which no spreadsheet takes for a number, a date or a formula of somebody else's."""
    return '="{}"'.format(printable(text).replace('"', '""'))


def as_cell(value: Value) -> Value:
    """A value in CSV: a text is a formula where a spreadsheet would take it for something else."""
    if not isinstance(value, str):
        return value
    return printable(value) if not value or PLAIN.fullmatch(value) and not TAKEN.match(value) else as_formula(value)


def csv_of(cells: Iterable[Row], end: str = "\n") -> str:
    """Rows of cells as CSV (RFC 4180)."""
    import csv

    text = io.StringIO()
    csv.writer(text, lineterminator=end).writerows(cells)
    return text.getvalue()


def with_texts(columns: Sequence[str], rows: Sequence[Row]) -> tuple[list[str], list[Row]]:
    """A table with the texts of its numbers that people read otherwise, in columns behind it."""
    places = [at for at in range(len(columns)) if any(isinstance(row[at], Shown) for row in rows)]
    text_columns = [f"noted_{columns[at]}" for at in places]
    return [*columns, *text_columns], [[*row, *(plain_text(row[at]) for at in places)] for row in rows]


def plain_text(value: Value) -> str:
    """A value as a text without anything between thousands."""
    return value.plain if isinstance(value, Shown) else "" if value is None else str(value)


def as_csv(columns: Sequence[str], rows: Sequence[Row]) -> str:
    """A table as CSV."""
    columns, rows = with_texts(columns, rows)
    return csv_of([[column.replace(" ", "_") for column in columns], *(list(map(as_cell, row)) for row in rows)])


def as_json(columns: Sequence[str], rows: Sequence[Row]) -> str:
    """A table as JSON: a list of objects."""
    columns, rows = with_texts(columns, rows)
    names = [column.replace(" ", "_") for column in columns]
    return json.dumps([dict(zip(names, row)) for row in rows], indent=2) + "\n"
