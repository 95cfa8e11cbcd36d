"""The workbook of what an office begins with: the tables that `hilpoven import --what workbook` takes, of an office."""
import io
from collections.abc import Callable, Iterator
from typing import Any

from ..core.table import as_formula, as_measured, counted
from ..model import views
from ..model.notes import SENDS
from ..model.register.standing import Register
from ..model.rows import Base
from ..model.schema import IS_INCOMING, STANDING, Disposition, Kind, Role
from ..record.sheets.values import FORMULA
from ..record.workbook.tables import (
    MATERIALS,
    OWNERS,
    PARTIES,
    RECIPES,
    REMARK,
    REQUIREMENTS,
    STOCK,
    TABLES,
    TESTS,
    UNITS,
    Table,
)

Cells = dict[str, list[list[str]]]  # the rows of each table, by its title
AS_TEXT = "@"  # the format of a cell that a spreadsheet leaves as it is typed
WIDTHS = {"name": 32, "address": 40, "roles": 24, "contact": 24, "document": 20}  # in letters; of others 16
QUERIES = {
    OWNERS.title: "SELECT owner, name, address FROM owner WHERE owner <> 'HOUSE' OR name <> '' OR address <> ''",
    UNITS.title: "SELECT unit FROM units",
    MATERIALS.title: "SELECT owner, material, measure, name FROM material",
    TESTS.title: """
SELECT owner, material, test, low, high, decimals, unit, method, name FROM test WHERE is_plants IS NOT 1""",
    RECIPES.title: "SELECT owner, recipe, segments FROM recipes",
    REQUIREMENTS.title: f"""
SELECT owner, recipe, segment, {Role.sql('role')}, source, material, amount FROM requirements""",
    PARTIES.title: "SELECT owner, party, name, roles, contact, phone, address FROM party",
    # The day is the first one on which something came into the sublot.
    STOCK.title: f"""
SELECT s.owner, l.material, s.lot, s.sublot, s.amount,
  (SELECT min(m.day) FROM moves AS m WHERE m.lot_owner = s.owner AND m.lot = s.lot AND {STANDING}
    AND ({IS_INCOMING} AND m.sublot = s.sublot OR m.kind = {Kind.SPLIT:d} AND m.target = s.sublot)),
  l.made, l.expires, l.retest
FROM sublots AS s JOIN lot AS l USING (owner, lot) WHERE s.amount > 0""",
}
# What is noted of the receipts into each sublot.
RECEIPTS = f"""
SELECT DISTINCT lot_owner, lot, sublot, party, supplier_lot, document FROM movement WHERE kind = {Kind.RECEIVE:d}
"""
ROLES = "SELECT owner, party, roles FROM party"
JUDGED = """
SELECT disposition, count(*) FROM lots AS l WHERE disposition <> ? AND EXISTS (SELECT 1 FROM sublots AS s
  WHERE s.owner = l.owner AND s.lot = l.lot AND s.amount > 0) GROUP BY disposition ORDER BY disposition
"""


def tables_of(base: Base, register: Register) -> Cells:
    """The rows of each table, by their names."""
    over = views.over(base, register)
    rows = {title: [list(row) for row in over.execute(sql)] for title, sql in QUERIES.items()}
    rows[TESTS.title] = [with_decimals(row) for row in rows[TESTS.title]]
    rows[RECIPES.title] = [[*row, *terms_of(register, *row[:2])] for row in rows[RECIPES.title]]
    rows[PARTIES.title] = [[*row[:3], row[3].replace(" ", ", "), *row[4:]] for row in rows[PARTIES.title]]
    rows[STOCK.title] = list(with_receipts(over, rows[STOCK.title]))
    return {title: sorted([as_text(value) for value in row] for row in rows[title]) for title in TABLES}


def with_decimals(row: list[Any]) -> list[Any]:
    """A test with its limits as they are measured."""
    owner, material, test, low, high, decimals, *others = row
    limits = (as_measured(limit, decimals) for limit in (low, high))
    return [owner, material, test, *limits, decimals or None, *others]


def terms_of(register: Register, owner: str, recipe: str) -> list[str]:
    """What of a recipe's materials may be lost, and its main product, as far as they are noted."""
    facts = register.recipes.get((owner, recipe))
    return [as_measured(facts.allowance, 1) if facts.allowance else "", facts.product] if facts else ["", ""]


def with_receipts(base: Base, rows: list[list[Any]]) -> Iterator[list[Any]]:
    """The sublots with what is noted of the receipts into each, where it is the same of all. A party that only returned
    something sends no opening stock."""
    noted: dict[tuple[str, ...], list[tuple[str, ...]]] = {}
    for owner, lot, sublot, *facts in base.execute(RECEIPTS):
        noted.setdefault((owner, lot, sublot), []).append(tuple(facts))
    parties: dict[tuple[str, str], str] = {(owner, party): roles for owner, party, roles in base.execute(ROLES)}
    for owner, material, lot, sublot, amount, day, *days in rows:
        facts_of = noted.get((owner, lot, sublot), [])
        party, *others = facts_of[0] if len(facts_of) == 1 else ("", "", "")
        sender = party if SENDS.role in parties.get((owner, party), "").split() else ""
        yield [owner, material, lot, sublot, amount, day, sender, *others, *days]


def as_text(value: str | int | None) -> str:
    """A value as its cell has it. A text that has the form in which a text may be written gets that form."""
    text = "" if value is None else str(value)
    return as_formula(text) if FORMULA.fullmatch(text) else text


def left_out(base: Base) -> list[str]:
    """What of the stock the workbook doesn't say."""
    lots = [
        f"{counted(count, 'lots')} {'is' if count == 1 else 'are'} {Disposition(code).word}"
        for code, count in base.execute(JUDGED, (int(Disposition.QUARANTINED),))
    ]
    return [f"{' and '.join(lots)}, which the workbook doesn't say: opening stock is quarantined."] if lots else []


def remark_of(table: Table) -> list[str]:
    """The line of help of a table: what each column is for."""
    texts = [column.about if column.is_needed else f"{column.about}; may be empty" for column in table.columns]
    return [f"{REMARK} {texts[0]}", *texts[1:]]


def head_of(table: Table) -> list[list[str]]:
    """The rows above those of a table: the names of its columns, and its line of help."""
    return [[column.name for column in table.columns], remark_of(table)]


def as_xlsx(tables: Cells) -> bytes:
    """The workbook as .xlsx, all of whose cells are texts."""
    import openpyxl
    from openpyxl.cell import WriteOnlyCell
    from openpyxl.utils import get_column_letter

    book = openpyxl.Workbook(write_only=True)
    for title, table in TABLES.items():
        sheet = book.create_sheet(title)
        sheet.freeze_panes = "A3"
        for place, column in enumerate(table.columns, 1):
            dimension = sheet.column_dimensions[get_column_letter(place)]
            dimension.width, dimension.number_format = WIDTHS.get(column.name, 16), AS_TEXT
        for row in (*head_of(table), *tables[title]):
            cells = []
            for text in row:
                cell = WriteOnlyCell(sheet)
                cell.value, cell.data_type, cell.number_format = text or None, "s", AS_TEXT
                cells.append(cell)
            sheet.append(cells)
    file = io.BytesIO()
    book.save(file)
    return file.getvalue()


def as_ods(tables: Cells) -> bytes:
    """The workbook as .ods, all of whose cells are texts."""
    from odf import number, opendocument, style, table as tags, text as texts

    book = opendocument.OpenDocumentSpreadsheet()
    form = number.TextStyle(name="text")
    form.addElement(number.TextContent())
    shape = style.Style(name="cell", family="table-cell", datastylename="text")
    book.automaticstyles.addElement(form)
    book.automaticstyles.addElement(shape)
    for title, table in TABLES.items():
        sheet = tags.Table(name=title)
        sheet.addElement(tags.TableColumn(numbercolumnsrepeated=len(table.columns), defaultcellstylename="cell"))
        for row in (*head_of(table), *tables[title]):
            line = tags.TableRow()
            for content in row:
                cell = (
                    tags.TableCell(stylename="cell", valuetype="string")
                    if content
                    else tags.TableCell(stylename="cell")
                )
                if content:
                    cell.addElement(texts.P(text=content))
                line.addElement(cell)
            sheet.addElement(line)
        book.spreadsheet.addElement(sheet)
    file = io.BytesIO()
    book.write(file)
    return file.getvalue()


FORMS: dict[str, Callable[[Cells], bytes]] = {"xlsx": as_xlsx, "ods": as_ods}
