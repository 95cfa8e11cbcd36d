"""A sheet: its header, its records, and what is refused of it."""
import re
from collections.abc import Callable, Iterable, Iterator, Sequence
from dataclasses import dataclass, field, replace
from functools import partial
from typing import NamedTuple

from ...core import scanned
from ...core.failure import printable
from ...core.forms import listed
from ...core.table import csv_of
from .cells import MOST_LETTERS, Cell, Table, shortened
from .values import CAPITALS, Kind, Reading, Refused, Taken, can_be_read, letters
from .values import of_dates, of_days, of_measured, of_values

NOTHING = Cell("")
COUNTS = {12: "twelve", 7: "seven", 6: "six", 5: "five"}
Rows = Sequence[tuple[int, list[Cell]]]


class Finding(NamedTuple):
    """What is to be said of a row, of a place in it (from 1; 0 is none), or of the value of a column there."""

    row: int
    place: int
    words: str
    column: str = ""

    def __str__(self) -> str:
        place = f", column {letters(self.place)}" if self.place else ""
        return printable(f"row {self.row}{place}{f' ({self.column})' if self.column else ''}: {self.words}")


class Record(NamedTuple):
    """A row of the sheet, by its number, with its values as `toll` reads them, and those that are noted with it."""

    row: int
    values: dict[str, str]
    noted: dict[str, str] = {}

    @property
    def of_line(self) -> dict[str, str]:
        """Its values by the names that they have in a line of `toll`."""
        return {name.upper().replace("_", "-"): value for name, value in self.values.items()}


@dataclass
class Asked:
    """What is asked for of a sheet: traps by their columns, hidden rows, capitals, columns that are left out, the
    header's row, columns that it may not lack though `toll` takes none of them, the decimals of tests by owner, lot and
    test, `None` where values are read as `toll` has them, the headers of columns that have other ones, values without
    the blanks around them, and which rows."""

    traps: dict[str, list[str]] = field(default_factory=dict)
    hidden: bool = False
    capitals: bool = False
    ignored: list[str] = field(default_factory=list)
    header_row: int = 0  # 0 is the first that isn't empty
    required: list[str] = field(default_factory=list)
    decimals: dict[tuple[str, ...], int] | None = None
    headers: dict[str, str] = field(default_factory=dict)  # by their columns, as they were typed
    trim: bool = False
    rows: list[range] = field(default_factory=list)  # all where there is none
    is_of_workbook: bool = False  # whether the sheet is one of several, which may have no rows, and none of totals

    def column_under(self, header: str) -> str:
        """The column whose header this is."""
        named = {column_of(text): column for column, text in self.headers.items()}
        return named.get(column_of(header), column_of(header))

    def has_row(self, row: int) -> bool:
        """Whether a row is asked for."""
        return not self.rows or any(row in rows for rows in self.rows)

    def takes(self, trap: str, column: str) -> bool:
        """Whether a value in a trap is taken."""
        return self.capitals if trap == CAPITALS else column in self.traps.get(trap, [])


def column_of(text: str) -> str:
    """The column that a header names: capitals, blanks and dashes don't matter."""
    return re.sub(r"[\s_-]+", "_", text.replace("\ufeff", "").strip().lower())


def likeness(kind: Kind, cells: Iterable[Cell], column_under: Callable[[str], str] = column_of) -> int:
    """How many of a kind's columns a row names."""
    return len(set(kind.columns) & {column_under(cell.text) for cell in cells})


def runs(numbers: Iterable[int]) -> list[list[int]]:
    """The numbers as runs of those that follow each other, each by its first and its last."""
    spans: list[list[int]] = []
    for number in sorted(numbers):
        if spans and spans[-1][1] == number - 1:
            spans[-1][1] = number
        else:
            spans.append([number, number])
    return spans


def hidden_of(table: Table) -> Iterator[Finding]:
    """What of the table holds something and is hidden, as by a filter: another owner's records may stand there."""
    filled = {row for row, _ in table.rows}
    for first, last in runs(table.hidden_rows & filled):
        yield Finding(first, 0, "it is hidden" if first == last else f"it and those down to row {last} are hidden")
    columns = (
        {place for _, cells in table.rows for place, cell in enumerate(cells, 1) if not cell.is_empty()}
        if table.hidden_columns
        else set()
    )
    yield from (
        Finding(table.rows[0][0], place, "its column is hidden") for place in sorted(columns & table.hidden_columns)
    )


class Sheet:
    """The records of a table's rows below its header; what is wrong with the sheet as a whole, what is refused of its
    rows, what else there is to say of them, and what was asked for."""

    def __init__(self, table: Table, kind: Kind, asked: Asked) -> None:
        self.kind, self.asked = kind, asked
        self.records: list[Record] = []
        self.wrong: list[Finding] = []
        self.refused: list[Finding] = []
        self.let: list[Finding] = []
        self.remarks: list[str] = []
        rows = [numbered for numbered in table.rows if numbered[0] >= asked.header_row]
        chosen = [*rows[:1], *(numbered for numbered in rows[1:] if asked.has_row(numbered[0]))]
        left_out = {row for row, _ in rows} - {row for row, _ in chosen}
        for finding in hidden_of(
            table._replace(rows=[numbered for numbered in table.rows if numbered[0] not in left_out])
        ):
            words = f"{finding.words}; " + ("taken all the same" if asked.hidden else "--hidden takes it")
            (self.let if asked.hidden else self.wrong).append(finding._replace(words=words))
        is_header = bool(rows) and likeness(kind, rows[0][1], asked.column_under) > 0
        if not is_header or asked.header_row not in (0, rows[0][0]):
            row = asked.header_row or (rows[0][0] if rows else 1)
            self.wrong.append(Finding(row, 0, f"there is no header, which is {','.join(kind.columns)}"))
            return
        self.header(*chosen[0])
        for row, cells in chosen[1:]:
            self.record(row, cells, chosen)
        if len(chosen) == 1 and not asked.is_of_workbook:
            words = "no row of --rows holds anything" if len(rows) > 1 else "there is no row under the header"
            self.wrong.append(Finding(rows[0][0], 0, words))
        self.asked = replace(asked, decimals=None)  # which may be many, and are read by now

    def header(self, row: int, cells: list[Cell]) -> None:
        """Where each column stands, which columns have a header, and what is wrong with it."""
        self.places: dict[str, int] = {}
        self.headed: set[int] = set()
        for place, cell in enumerate(cells, 1):
            column = self.asked.column_under(cell.text)
            if not cell.is_empty():
                self.headed.add(place)
            if column_of(cell.text) in self.asked.ignored:
                continue
            if column in self.places:
                self.wrong.append(Finding(row, place, f"{column} stands there twice"))
            elif column in self.kind.readings:
                self.places[column] = place
            elif not cell.is_empty():
                text, count = shortened(cell.text.strip()), len(self.kind.columns)
                columns = "columns" if self.asked.is_of_workbook else f"{COUNTS.get(count, count)} columns"
                self.wrong.append(Finding(row, place, f"{text!r} is none of the {columns}"))
        missing = [expected for expected in [*self.kind.columns, *self.asked.required] if expected not in self.places]
        texts = {column_of(cell.text) for cell in cells}
        for column, header in self.asked.headers.items():
            if column_of(header) in texts:
                continue
            self.wrong.append(Finding(row, 0, f"no header is {header!r}, which --column {column} names"))
        if missing:
            self.wrong.append(Finding(row, 0, f"the header lacks {', '.join(missing)}"))

    def lacking(self, placed: dict[int, Cell]) -> list[str]:
        """The columns that a row lacks, if it lacks most of them, as one of totals does."""
        places = {column: self.places[column] for column in self.kind.columns if column in self.places}
        empty = [column for column, place in places.items() if placed.get(place, NOTHING).is_empty()]
        return empty if 2 * len(empty) > len(self.kind.columns) else []

    def no_record(self, row: int, placed: dict[int, Cell], lacking: list[str], chosen: Rows) -> Finding:
        """What is said of a row that lacks most columns, and how it is left out."""
        first, last = chosen[1][0], chosen[-1][0]
        is_last = row == last > first and not self.asked.rows
        rows = f"--rows {first}-{row - 1} leaves it out" if is_last else "--rows says which rows are taken"
        begin = next(cell.shown or cell.text.strip() or cell.strange for cell in placed.values() if not cell.is_empty())
        why = f"it begins with '{shortened(begin)}' and lacks {listed(lacking)}, so it is no record, as a row of totals"
        return Finding(row, 0, f"{why}; {rows}")

    def record(self, row: int, cells: list[Cell], chosen: Rows) -> None:
        """Notes a row's values, or what is refused of them."""
        count = len(self.refused)
        placed = dict(enumerate(cells, 1))
        if not self.asked.is_of_workbook and (lacking := self.lacking(placed)):
            self.refused.append(self.no_record(row, placed, lacking, chosen))
            return
        placed = self.with_scanned(row, placed)
        values, noted = dict[str, str](), dict[str, str]()
        for columns, texts in ((self.kind.columns, values), (self.kind.noted, noted)):
            for column in columns:
                if column in self.places:
                    cell = placed.get(self.places[column], NOTHING)
                    texts[column] = self.value(row, column, cell, self.reading_of(column, values))
        self.refused += [
            Finding(row, place, "it has no header above it")
            for place, cell in placed.items()
            if place not in self.headed and not cell.is_empty()
        ]
        if len(self.refused) == count:
            self.records.append(Record(row, values, {column: text for column, text in noted.items() if text}))

    def with_scanned(self, row: int, placed: dict[int, Cell]) -> dict[int, Cell]:
        """The cells of a row by their places, once a scanned text of a lot has filled those of its owner and its sublot
        that are empty; those that have something else are refused. Digits alone may be a date."""
        lot = placed.get(self.places.get("lot", 0), NOTHING)
        text = scanned.scanned_sublot(lot.text)
        if text is None or not lot.is_text and "".join(text).isdecimal():
            return placed
        owner, filled = "lot_owner" if "lot_owner" in self.places else "owner", dict(placed)
        for column, part in zip((owner, "lot", "sublot"), text):
            place = self.places.get(column, 0)
            cell = placed.get(place, NOTHING)
            if cell is not lot and not cell.is_empty() and cell.text != part:
                words = f"it is {shortened(cell.text)}, and in the scanned text {text} it is {part}"
                self.refused.append(Finding(row, place, words, column))
            if place:
                filled[place] = Cell(part, is_text=True)
        return filled

    def reading_of(self, column: str, values: dict[str, str]) -> Reading:
        """How a column's value is read in a row with these values before it: that of a test by its decimals."""
        reading = self.kind.readings[column]
        if reading is not of_values or self.asked.decimals is None:
            return reading
        test = tuple(values.get(name, "") for name in ("owner", "lot", "test"))
        return partial(of_measured, decimals=self.asked.decimals.get(test, 0))

    def value(self, row: int, column: str, cell: Cell, reading: Reading) -> str:
        """The value as it is written, where it can be."""
        place = self.places[column]
        try:
            if column in self.kind.noted and column not in self.asked.required and cell.is_empty():
                return ""
            value = self.read(row, column, cell, reading)
        except Refused as why:
            self.refused.append(Finding(row, place, str(why), column))
            return ""
        if value.trap:
            is_asked = self.asked.takes(value.trap, column)
            option = "--capitals" if value.trap == CAPITALS else f"--{value.trap} {column}"
            words = f"{value.words}; " + ("taken" if is_asked else f"{option} takes it") + value.how()
            (self.let if is_asked else self.refused).append(Finding(row, place, words, column))
        return value.text

    def read(self, row: int, column: str, cell: Cell, reading: Reading) -> Taken:
        """The value of a cell; that blanks around it are taken off is reported, or that it can be read without them."""
        if cell.is_empty():
            raise Refused("it is empty")
        trimmed = cell.trimmed()
        if cell.strange and not (cell.day and reading in (of_days, of_dates)):
            raise Refused(f"it is {shortened(cell.strange, MOST_LETTERS)}")
        if len(cell.text) > MOST_LETTERS or len(cell.shown or "") > MOST_LETTERS:
            raise Refused(f"it has more than {MOST_LETTERS:,} letters")
        if trimmed is cell:
            return reading(cell)
        is_better = not can_be_read(reading, cell) and can_be_read(reading, trimmed)
        if not (self.asked.trim or is_better):
            return reading(cell)
        value = reading(trimmed)
        words = "taken without them" if self.asked.trim else "--trim takes it without them"
        finding = Finding(row, self.places[column], f"{cell.text!r} has blanks around it; {words}", column)
        (self.let if self.asked.trim else self.refused).append(finding)
        return value


def text_of(kind: Kind, records: Sequence[Record]) -> str:
    """Records as the file that is imported, with the columns of what is noted with some; no spreadsheet takes its texts
    for something else."""
    noted = [column for column in kind.noted if any(column in record.noted for record in records)]
    rows = [
        [*record.values.values(), *(kind.written(column, record.noted.get(column, "")) for column in noted)]
        for record in records
    ]
    return csv_of([[*kind.columns, *noted], *rows])
