"""Workbooks for tests, written cell by cell, and the office that a plant would type by hand of the same."""
import pathlib
from typing import Any

import openpyxl
from conftest import Plant
from odf import opendocument, table, text
from odf.namespaces import OFFICENS

Rows = list[list[Any]]
Book = dict[str, Rows]

# What a plant begins with: each sheet has its columns first.
DAY_ONE: Book = {
    "Owners": [["owner", "name", "address"], ["HOUSE", "Plant Ltd", "2 Mill Lane, Hull"], ["ACME", "Acme Foods Ltd", "1 Dock Road, Hull"], ["BOLT", "", ""]],
    "Units": [["unit"], ["KETTLE"], ["MIXER"]],
    "Materials": [["owner", "material", "measure", "name"], ["HOUSE", "WATER", "liter", ""], ["ACME", "SALT", "kg", "Salt, fine"], ["ACME", "BRINE", "kg", "Brine, 10 %"], ["BOLT", "DYE", "g", ""]],
    "Tests": [["owner", "material", "test", "low", "high", "decimals", "unit", "method", "name"], ["ACME", "BRINE", "PH", "6.50", "8.50", "2", "pH", "ISO 10523", "Acidity"], ["ACME", "BRINE", "DENSITY", "1100", "1250", "", "g/l", "", ""],
              ["BOLT", "DYE", "COLD", "-5", "9", "", "", "", ""]],
    "Recipes": [["owner", "recipe", "segments", "allowance", "product"], ["ACME", "BRINE-10", "2", "1.5", "BRINE"]],
    "Requirements": [["owner", "recipe", "segment", "use", "source", "material", "amount"], ["ACME", "BRINE-10", "1", "consumed", "ACME", "SALT", "300"], ["ACME", "BRINE-10", "1", "consumed", "HOUSE", "WATER", "700"],
                     ["ACME", "BRINE-10", "2", "produced", "ACME", "BRINE", "1000"]],
    "Parties": [["owner", "party", "name", "roles", "contact", "phone", "address"], ["ACME", "NORD", "Nord Foods Ltd", "customer", "Jane Doe", "+44 20 7946 0000", "3 Quay, Leith"], ["ACME", "MINE", "Salt Mine plc", "supplier, carrier", "", "", ""]],
    "Stock": [["owner", "material", "lot", "sublot", "amount", "day", "from", "supplier_lot", "document", "made", "expires", "retest"], ["ACME", "SALT", "S-1", "BAY1", "500", "261101", "MINE", "L 77", "DN 9", "", "", ""], ["ACME", "SALT", "S-1", "BAY2", "250", "261101", "", "", "", "", "", ""],
              ["ACME", "BRINE", "B-1", "TOTE1", "980", "261102", "", "", "", "261030", "271030", ""], ["HOUSE", "WATER", "W-1", "TANK", "10000", "261101", "", "", "", "", "", ""]],
}
# The same as a plant types it.
TYPED = """
describe owner HOUSE --name 'Plant Ltd' --address '2 Mill Lane, Hull'
owner add ACME --random
describe owner ACME --name 'Acme Foods Ltd' --address '1 Dock Road, Hull'
owner add BOLT --random
unit-add KETTLE
unit-add MIXER
material-add HOUSE WATER liter
material-add ACME SALT kg
describe material ACME SALT --name 'Salt, fine'
material-add ACME BRINE kg
describe material ACME BRINE --name 'Brine, 10 %'
material-add BOLT DYE g
test-add ACME BRINE PH 6.50 8.50 --decimals 2 --unit pH --method 'ISO 10523'
describe test ACME BRINE PH --name Acidity
test-add ACME BRINE DENSITY 1100 1250 --unit g/l
test-add BOLT DYE COLD -5 9
recipe-add ACME BRINE-10 2
require ACME BRINE-10 1 consumed ACME SALT 300
require ACME BRINE-10 1 consumed HOUSE WATER 700
require ACME BRINE-10 2 produced ACME BRINE 1000
describe recipe ACME BRINE-10 --allowance 1.5 --product BRINE
party add ACME NORD --name 'Nord Foods Ltd' --role customer --contact 'Jane Doe' --phone '+44 20 7946 0000' --address '3 Quay, Leith'
party add ACME MINE --name 'Salt Mine plc' --role supplier --role carrier
receive ACME OPEN-4C06D79E7A SALT S-1 BAY1 500 261101 --from MINE --supplier-lot 'L 77' --document 'DN 9'
receive ACME OPEN-A SALT S-1 BAY2 250 261101
receive ACME OPEN-B BRINE B-1 TOTE1 980 261102
describe lot ACME B-1 --made 261030 --expires 271030
receive HOUSE OPEN-C WATER W-1 TANK 10000 261101
"""


def copy_of(book: Book, **changed: Rows) -> Book:
    """The workbook with some sheets in the place of its own."""
    return {**{title: [list(row) for row in rows] for title, rows in book.items()}, **changed}


def cell_of(book: Book, cell: str, content: Any) -> Book:
    """The workbook with another content of a cell, such as `Recipes!C2`."""
    changed, (title, place) = copy_of(book), cell.split("!")
    changed[title][int(place[1:]) - 1][ord(place[0]) - ord("A")] = content
    return changed


def xlsx(path: pathlib.Path, book: Book) -> pathlib.Path:
    """The workbook as .xlsx, whose texts are texts."""
    workbook = openpyxl.Workbook()
    workbook.remove(workbook.active)
    for title, rows in book.items():
        sheet = workbook.create_sheet(title)
        for number, row in enumerate(rows, 1):
            for place, content in enumerate(row, 1):
                if content not in ("", None):
                    cell = sheet.cell(number, place)
                    cell.value = content
    workbook.save(path)
    return path


def ods(path: pathlib.Path, book: Book) -> pathlib.Path:
    """The workbook as .ods, all of whose cells are texts."""
    document = opendocument.OpenDocumentSpreadsheet()
    for title, rows in book.items():
        sheet = table.Table(name=title)
        for row in rows:
            line = table.TableRow()
            for content in row:
                cell = table.TableCell(valuetype="string") if content else table.TableCell()
                if content:
                    cell.addElement(text.P(text=content))
                line.addElement(cell)
            sheet.addElement(line)
        document.spreadsheet.addElement(sheet)
    document.save(str(path))
    return path


def read_xlsx(path: pathlib.Path) -> Book:
    """The texts of a workbook by its sheets, without the rows of help; fails if a cell isn't a text."""
    book: Book = {}
    for sheet in openpyxl.load_workbook(path).worksheets:
        cells = [cell for row in sheet.iter_rows() for cell in row if cell.value is not None]
        assert all(cell.data_type in ("s", "inlineStr") for cell in cells), sheet.title
        rows = [[cell.value or "" for cell in row] for row in sheet.iter_rows()]
        book[sheet.title] = [row for row in rows if not str(row[0]).startswith("#")]
    return book


def read_ods(path: pathlib.Path) -> Book:
    """The same of an .ods."""
    book: Book = {}
    for sheet in opendocument.load(str(path)).spreadsheet.getElementsByType(table.Table):
        rows = []
        for line in sheet.getElementsByType(table.TableRow):
            cells = line.getElementsByType(table.TableCell)
            assert all(cell.attributes.get((OFFICENS, "value-type")) in ("string", None) for cell in cells)
            rows.append([str(cell) for cell in cells])
        book[str(sheet.getAttribute("name"))] = [row for row in rows if not row[0].startswith("#")]
    return book


def given(plant: Plant, book: Book, *options: object, name: str = "book.xlsx") -> Any:
    """What is told of a workbook that is imported."""
    return plant.run("import", "--what", "workbook", *options, xlsx(plant.folder / name, book))


def nothing_given(plant: Plant, before: tuple) -> bool:
    """Whether the office and its journal are as they were."""
    return (plant.content(), plant.lines()) == before


def state(plant: Plant) -> tuple:
    """The office and its journal."""
    return plant.content(), plant.lines()
