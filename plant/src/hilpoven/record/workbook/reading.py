"""A workbook as it is read: the records of each table, and all that can't be read, by their cells."""
import difflib
import hashlib
import re
from dataclasses import dataclass, field
from typing import Any, NamedTuple

from ...core.failure import WRONG_USE, Failure, printable
from ...core.forms import listed
from ...model.measures import as_number
from ..sheets import bounded
from ..sheets.cells import Cell, shortened
from ..sheets.reading import content_of, is_workbook, split, traps_of
from ..sheets.sheet import NOTHING, Asked, Finding, Record, Rows, Sheet, column_of
from ..sheets.values import letters, of_days, of_names, of_numbers
from ..sheets.workbooks import tables_of
from .tables import TABLES, WORKBOOK, Table, is_remark

Thing = tuple[str, ...]  # a row of a table: its title, and the values that name it
PLAIN_TITLE = re.compile(r"\w+")
OF_ONE_SHEET = {"name": "sheet", "headers": "column", "rows": "rows", "header_row": "header-row"}  # options by names


class Fault(NamedTuple):
    """What is wrong with a cell, a row, or a sheet as a whole: which sheet of the workbook and what it is called, the
    row, the place in it (0 is none), and why."""

    at: int
    row: int
    place: int
    title: str
    words: str

    def __str__(self) -> str:
        title = shortened(self.title)
        if not PLAIN_TITLE.fullmatch(title):
            title = "'" + title.replace("'", "''") + "'"
        cell = f"!{letters(self.place) if self.place else ''}{self.row}" if self.row else ""
        return printable(f"{title}{cell}: {self.words}")


@dataclass
class Part:
    """A sheet of the workbook that is a table of it: its place and its title in the file, its records, and the names in
    each of its rows, whether that can be read or not."""

    table: Table
    at: int
    title: str
    sheet: Sheet
    names: dict[int, dict[str, str]] = field(default_factory=dict)

    def fault(self, record: Record, column: str, words: str) -> Fault:
        """What is wrong with a value of a record."""
        return Fault(self.at, record.row, self.sheet.places.get(column, 0), self.title, words)

    def of(self, finding: Finding) -> Fault:
        """What was found in the sheet."""
        return Fault(self.at, finding.row, finding.place, self.title, finding.words)

    def subject(self, values: dict[str, str]) -> Thing:
        """The thing of a row with these values."""
        return self.table.title, *(values[name] for name in self.table.names)


@dataclass
class Workbook:
    """The tables of a file by the names of their sheets, what is wrong with them, what is taken as it was asked for,
    the things that their rows name, whether the rows can be read or not, and the tables of which that isn't known."""

    parts: dict[str, Part] = field(default_factory=dict)
    faults: list[Fault] = field(default_factory=list)
    let: list[Fault] = field(default_factory=list)
    named: set[Thing] = field(default_factory=set)
    unclear: set[str] = field(default_factory=set)
    sha256: str = ""

    def records(self, table: Table) -> list[Record]:
        """The records of a table; none of one whose header can't be read."""
        part = self.parts.get(table.title)
        return part.sheet.records if part and table.title not in self.unclear else []


def workbook_of(path: str, given: dict[str, Any]) -> Workbook:
    """The workbook of a file; `-` is standard input. Nothing of the file is opened twice."""
    asked, content = asked_for(given), content_of(path)
    workbook = bounded.run(lambda: read(content, asked))
    workbook.sha256 = hashlib.sha256(content).hexdigest()
    return workbook


def asked_for(given: dict[str, Any]) -> Asked:
    """What the options ask for of all sheets."""
    for name, option in OF_ONE_SHEET.items():
        if given[name]:
            raise Failure(f"--{option} is for one sheet, and not for --what {WORKBOOK}", WRONG_USE)
    options = given["hidden"], given["capitals"], split(given["ignored"])
    return Asked(traps_of(given, trapped), *options, trim=given["trim"], is_of_workbook=True)


def trapped(trap: str) -> list[str]:
    """The columns of all sheets in which a trap is laid."""
    return sorted({column for table in TABLES.values() for column in table.kind.trapped(trap)})


def read(content: bytes, asked: Asked) -> Workbook:
    """The tables in the bytes of a file."""
    if not is_workbook(content):
        raise Failure("it is no .xlsx and no .ods", WRONG_USE, "`hilpoven export workbook` makes one to fill in")
    workbook, titles = Workbook(), {column_of(title): table for title, table in TABLES.items()}
    for at, (title, sheet_table) in enumerate(tables_of(content).items()):
        if not sheet_table.rows or column_of(title) in asked.ignored:
            continue
        table = titles.get(column_of(title))
        if table is None or table.title in workbook.parts:
            workbook.faults.append(Fault(at, 0, 0, title, fault_of_title(title, table)))
        elif sheet_table.is_hidden and not asked.hidden:
            workbook.faults.append(Fault(at, 0, 0, title, "it is hidden; --hidden takes it"))
            workbook.unclear.add(table.title)
        else:
            rows = [(row, row_cells) for row, row_cells in sheet_table.rows if not is_remark(row_cells)]
            part = Part(table, at, title, Sheet(sheet_table._replace(rows=rows), table.kind, asked))
            workbook.parts[table.title] = part
            add(workbook, part, rows[1:])
    return workbook


def fault_of_title(title: str, table: Table | None) -> str:
    """Why a sheet with such a title is none of the workbook's."""
    if table:
        return f"it is the second sheet {table.title}"
    near = difflib.get_close_matches(title.strip().capitalize(), TABLES, 1)
    advice = f"did you mean {near[0]}?" if near else "--ignore leaves a sheet out"
    return f"it is none of {listed([*TABLES], 'or')}; {advice}"


def add(workbook: Workbook, part: Part, rows: Rows) -> None:
    """Adds what is wrong with a sheet to a workbook, and the things that its rows name. Its numbers get one form."""
    sheet = part.sheet
    numbers = part.table.kind.of(of_numbers, of_days)
    for record in sheet.records:
        record.values.update({name: as_number(text) for name, text in record.values.items() if name in numbers})
    workbook.faults += [part.of(finding) for finding in (*sheet.wrong, *sheet.refused)]
    workbook.let += [part.of(finding) for finding in sheet.let]
    if sheet.wrong:
        workbook.unclear.add(part.table.title)
    else:
        part.names = {row: names_in(part, row_cells) for row, row_cells in rows}
        workbook.named |= {part.subject(names) for names in part.names.values()}


def names_in(part: Part, row_cells: list[Cell]) -> dict[str, str]:
    """The names in a row, and the other values by which it names its thing, as far as they are there."""
    placed, names = dict(enumerate(row_cells, 1)), part.table.kind.of(of_names)
    columns = [name for name in dict.fromkeys((*part.table.names, *names)) if name in part.sheet.places]
    texts = {name: placed.get(part.sheet.places[name], NOTHING).text.strip() for name in columns}
    return {name: text.upper() if name in names else text for name, text in texts.items()}
