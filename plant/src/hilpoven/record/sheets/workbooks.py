"""The tables of an .xlsx or an .ods: what openpyxl and odfpy read of them, once it is known that it isn't too much."""
import io
import re
import warnings
import zipfile
from collections.abc import Callable, Iterator
from datetime import date, datetime, time
from typing import Any, TypeVar

from ...core.failure import Failure
from ...core.days import date_in
from . import archives, xlsx_parts
from .cells import LAST_COLUMN, LAST_ROW, MOST_COLUMNS, MOST_LETTERS, MOST_ROWS
from .cells import Cell, Table, check_size, kept, number, shortened

MOST_ELEMENTS = 1_000_000  # of an .ods, each of which odfpy holds as an object
MOST_REPEATED = {"rows": LAST_ROW, "columns": LAST_COLUMN}
NO_MEMORY = "out of memory"  # in what expat reports, whichever error a package makes of that


Made = TypeVar("Made")
Rows = Iterator[tuple[int, list[Cell]]]
Element = Any  # of openpyxl and odfpy, which have no types


def load(package: str, of_debian: str, how: Callable[[], Made]) -> Made:
    """What a package of Debian's makes of the file; fails where the package isn't here, or can't read it."""
    try:
        return how()
    except (Failure, MemoryError):
        raise
    except ImportError as error:
        raise Failure(f"python3's {package} is missing (Debian's package {of_debian})", 2) from error
    except Exception as error:  # whatever a broken file makes the package fail with
        if NO_MEMORY in str(error):
            raise MemoryError from error
        raise Failure(f"it can't be read: {type(error).__name__} {shortened(str(error), 200)}".rstrip(), 3) from error


def tables_of(content: bytes) -> dict[str, Table]:
    """The tables of a workbook, by their names."""
    archive = load("zipfile", "python3", lambda: archives.opened(content))
    parts = set(archive.zip.namelist())
    if "xl/workbook.xml" in parts:
        return load("openpyxl", "python3-openpyxl", lambda: named(xlsx_tables(content, archive.zip)))
    if "content.xml" in parts:
        check_ods(archive)
        return load("odf", "python3-odf", lambda: named(ods_tables(content)))
    raise Failure("it is neither text nor an .xlsx or .ods", 3)


def named(tables: Iterator[tuple[str, Table]]) -> dict[str, Table]:
    """The tables by their names; fails where two have the same, or all of them are too much."""
    by_name: dict[str, Table] = {}
    cells = 0
    for name, table in tables:
        if name in by_name:
            raise Failure(f"it has two sheets of the name {shortened(name)}", 3)
        by_name[name] = table
        cells += sum(len(row) for _, row in table.rows)
        check_size(1, 1, cells)
    return by_name


# .xlsx


def xlsx_tables(content: bytes, archive: zipfile.ZipFile) -> Iterator[tuple[str, Table]]:
    """The table of each sheet of an .xlsx, with its name."""
    import openpyxl

    warnings.simplefilter("ignore")
    looks = {sheet_look.title: sheet_look for sheet_look in xlsx_parts.looks(archive)}
    values = openpyxl.load_workbook(io.BytesIO(content), read_only=True, data_only=True)
    formulas = openpyxl.load_workbook(io.BytesIO(content), read_only=True)
    for sheet in values.worksheets:
        look = looks[sheet.title]
        rows = list(kept(xlsx_rows(sheet, formulas[sheet.title], look)))
        yield sheet.title, Table(rows, look.hidden_rows, look.hidden_columns, look.is_hidden)


def xlsx_rows(sheet: Element, formulas: Element, look: xlsx_parts.Look) -> Rows:
    """The rows of a sheet, each with its number, as far as something stands in them."""
    from openpyxl.cell.read_only import EMPTY_CELL

    bounds = {"min_row": 1, "min_col": 1, "max_row": max(1, look.last_row), "max_col": max(1, look.last_column)}
    for view in (sheet, formulas):
        view.reset_dimensions()
    for row, (cells, others) in enumerate(zip(sheet.iter_rows(**bounds), formulas.iter_rows(**bounds)), 1):
        width = len(cells)
        while width and cells[width - 1] is EMPTY_CELL:
            width -= 1
        yield row, [xlsx_cell(*both) for both in zip(cells[:width], others)]


def xlsx_cell(cell: Element, formula: Element) -> Cell:
    """A cell, by its value and by the formula that gave it."""
    value = cell.value
    if value is None:
        return (
            Cell("", strange="a formula without a value: save the sheet by a spreadsheet")
            if formula.value is not None
            else Cell("")
        )
    if isinstance(value, bool):
        return Cell("", strange=f"the truth value {str(value).upper()}")
    if isinstance(value, (int, float)):
        form = cell.number_format
        return number(value, lambda text: shown_by_format(text, form))._replace(form=form)
    if isinstance(value, str):
        return Cell("", strange=f"the error {value}") if cell.data_type == "e" else Cell(value, is_text=True)
    return Cell("", strange=f"the date or time {value}", day=date_of(value))


def date_of(value: object) -> date | None:
    """The date that a cell holds; `None` if it holds a time besides, or alone."""
    if isinstance(value, datetime):
        return value.date() if value.time() == time() else None
    return value if isinstance(value, date) else None


def shown_by_format(text: str, form: str) -> str:
    """What is shown of a number by a plain format, and the format itself where it is another one."""
    if form in ("General", "@", "#"):
        return text
    match = re.fullmatch(r"(0{1,20}|#,##0)(?:\.(0{1,20}))?", form)
    if not match or not text.isdecimal():
        return f"format {shortened(form)}"
    whole = f"{int(text):,}" if match[1] == "#,##0" else text.zfill(len(match[1]))
    return f"{whole}.{match[2]}" if match[2] else whole


# .ods


def check_ods(archive: archives.Archive) -> None:
    """Fails where odfpy would read only a part of the table, or would need too much memory."""
    if archive.elements > MOST_ELEMENTS:
        raise Failure(f"it has more than {MOST_ELEMENTS:,} elements of XML", 1)
    if "content.xml" in archive.no_xml:
        raise Failure("its part content.xml is no XML: it may be cut, or have a password", 3)


def ods_tables(content: bytes) -> Iterator[tuple[str, Table]]:
    """The table of each sheet of an .ods, with its name."""
    from odf import opendocument, style, table, text
    from odf.namespaces import TABLENS

    document = opendocument.load(io.BytesIO(content))
    for blanks in document.spreadsheet.getElementsByType(text.S):
        if int(blanks.getAttribute("c") or 1) > MOST_LETTERS:
            raise Failure(f"it has a cell with {int(blanks.getAttribute('c')):,} blanks in a row", 1)
    unseen = {
        form.getAttribute("name")
        for form in document.automaticstyles.getElementsByType(style.Style)
        for shape in form.getElementsByType(style.TableProperties)
        if shape.attributes.get((TABLENS, "display")) == "false"
    }
    for sheet in document.spreadsheet.getElementsByType(table.Table):
        yield str(sheet.getAttribute("name")), ods_table(sheet, sheet.getAttribute("stylename") in unseen)


def ods_table(sheet: Element, is_hidden: bool) -> Table:
    """The table of a sheet."""
    from odf import table

    hidden_rows: set[int] = set()
    rows = list(kept(ods_rows(sheet.getElementsByType(table.TableRow), hidden_rows)))
    return Table(
        rows, frozenset(hidden_rows), ods_hidden_columns(sheet.getElementsByType(table.TableColumn)), is_hidden
    )


def repeated(element: Element, kind: str, place: str) -> int:
    """How often the row, column or cell of this place stands there: equal ones in a row stand there once."""
    from odf.namespaces import TABLENS

    count, most = str(element.attributes.get((TABLENS, f"number-{kind}-repeated"), 1)), MOST_REPEATED[kind]
    if re.fullmatch(r"[0-9]{1,10}", count) and 1 <= int(count) <= most:
        return int(count)
    raise Failure(f"{place}: it is repeated {shortened(count)} times, which is no number from 1 to {most:,}", 1)


def is_unseen(element: Element) -> bool:
    """Whether a row or a column is hidden."""
    from odf.namespaces import TABLENS

    return bool(element.attributes.get((TABLENS, "visibility"), "visible") != "visible")


def ods_hidden_columns(elements: list[Element]) -> frozenset[int]:
    """The numbers of the columns that are hidden, as far as columns are read."""
    hidden: set[int] = set()
    after = 0
    for element in elements:
        first, after = after + 1, after + repeated(element, "columns", f"column {after + 1}")
        if is_unseen(element):
            hidden.update(range(first, min(after, MOST_COLUMNS) + 1))
    return frozenset(hidden)


def ods_rows(elements: list[Element], hidden: set[int]) -> Rows:
    """The rows that aren't empty, each with its number; notes those that are hidden."""
    after = 0
    for element in elements:
        first, after = after + 1, after + repeated(element, "rows", f"row {after + 1}")
        cells = ods_cells(element, first)
        if not cells:
            continue
        if after > MOST_ROWS:
            raise Failure(f"it has rows below row {MOST_ROWS:,}", 1)
        if is_unseen(element):
            hidden.update(range(first, after + 1))
        yield from ((row, cells) for row in range(first, after + 1))


def ods_cells(element: Element, row: int) -> list[Cell]:
    """The cells of a row; those at its end that are empty are left out."""
    cells: list[Cell] = []
    gap = 0
    for node in element.childNodes:
        if getattr(node, "qname", (None, None))[1] not in ("table-cell", "covered-table-cell"):
            continue
        count, cell = repeated(node, "columns", f"row {row}, behind column {len(cells) + gap}"), ods_cell(node)
        if cell.is_empty():
            gap += count
            continue
        if len(cells) + gap + count > MOST_COLUMNS:
            raise Failure(f"it has more than {MOST_COLUMNS} columns", 1)
        cells += [Cell("")] * gap + [cell] * count
        gap = 0
    return cells


def ods_cell(node: Element) -> Cell:
    """A cell, by what its sheet says of it."""
    from odf import teletype
    from odf.namespaces import OFFICENS, TEXTNS

    kind = node.attributes.get((OFFICENS, "value-type"))
    shown = "\n".join(
        teletype.extractText(child) for child in node.childNodes if getattr(child, "qname", None) == (TEXTNS, "p")
    )
    if kind in ("float", "percentage", "currency"):
        return number(float(node.attributes[(OFFICENS, "value")]), lambda _: shown)
    if kind in (None, "string"):
        return Cell(shown, is_text=True)
    strange = f"the {'truth value' if kind == 'boolean' else kind} {shown}"
    value = str(node.attributes.get((OFFICENS, "date-value"), "")) if kind == "date" else ""
    return Cell("", strange=strange, day=date_in(value.removesuffix("T00:00:00")))
