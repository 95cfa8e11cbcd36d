"""`to-csv`: what a sheet hides, and sheets that are too much."""
import resource
import zipfile

import pytest
from conftest import Told, called, command, is_told

openpyxl = pytest.importorskip("openpyxl", reason="python3-openpyxl is missing")

HEADER = ["key", "owner", "order", "batch", "segment", "use", "material", "lot_owner", "lot", "sublot", "amount", "day"]
GOOD = "".join(f"{','.join(row)}\n" for row in [HEADER, *(["K%d" % n, "ACME", "O", "1", "1", "consumed", "M", "ACME", "A", "S1", "4", "11"] for n in range(4))])
ROWS = [line.split(",") for line in GOOD.splitlines()]
MEMORY, SECONDS = 1_000_000_000, 30
MAIN = "http://schemas.openxmlformats.org/spreadsheetml/2006/main"


def to_csv(*words):
    """What the command tells, called within this process."""
    return called("to-csv", *words)


def bounded_to_csv(*words):
    """What the command tells as a process, which is ended where it takes more memory or time of the processor than this."""
    def bounded():
        resource.setrlimit(resource.RLIMIT_AS, (MEMORY, MEMORY))
        resource.setrlimit(resource.RLIMIT_CPU, (SECONDS, SECONDS))

    done = command("to-csv", *words, preexec_fn=bounded, timeout=10 * SECONDS)
    return Told(done.returncode, done.stdout, done.stderr)


def xlsx(path, rows, hidden_rows=(), hidden_columns=(), state="visible"):
    book = openpyxl.Workbook()
    sheet = book.active
    for row in rows:
        sheet.append(row)
    for hidden_row in hidden_rows:
        sheet.row_dimensions[hidden_row].hidden = True
    for hidden_row in hidden_columns:
        sheet.column_dimensions[hidden_row].hidden = True
    if state != "visible":
        book.create_sheet("empty")
    sheet.sheet_state = state
    book.save(path)
    return path


CELL = '<table:table-cell office:value-type="string"{}><text:p>{}</text:p></table:table-cell>'
CONTENT = """<?xml version="1.0" encoding="UTF-8"?>
<office:document-content xmlns:office="urn:oasis:names:tc:opendocument:xmlns:office:1.0" xmlns:table="urn:oasis:names:tc:opendocument:xmlns:table:1.0"
 xmlns:text="urn:oasis:names:tc:opendocument:xmlns:text:1.0" xmlns:style="urn:oasis:names:tc:opendocument:xmlns:style:1.0" office:version="1.2">
<office:automatic-styles><style:style style:name="ta1" style:family="table"><style:table-properties table:display="{display}"/></style:style></office:automatic-styles>
<office:body><office:spreadsheet><table:table table:name="Actuals" table:style-name="ta1">{body}</table:table></office:spreadsheet></office:body></office:document-content>
"""
MANIFEST = """<?xml version="1.0" encoding="UTF-8"?>
<manifest:manifest xmlns:manifest="urn:oasis:names:tc:opendocument:xmlns:manifest:1.0" manifest:version="1.2">
<manifest:file-entry manifest:full-path="/" manifest:media-type="application/vnd.oasis.opendocument.spreadsheet"/>
<manifest:file-entry manifest:full-path="content.xml" manifest:media-type="text/xml"/></manifest:manifest>
"""


def ods_of(path, body, display="true"):
    with zipfile.ZipFile(path, "w", zipfile.ZIP_DEFLATED) as archive:
        archive.writestr("mimetype", "application/vnd.oasis.opendocument.spreadsheet")
        archive.writestr("META-INF/manifest.xml", MANIFEST)
        archive.writestr("content.xml", CONTENT.format(body=body, display=display))
    return path


def ods(path, rows, hidden_rows=(), hidden_columns=(), state="visible"):
    columns = "".join(f'<table:table-column{hidden("collapse", place in hidden_columns)}/>' for place in "ABCDEFGHIJKL")
    body = columns + "".join(f'<table:table-row{hidden("filter", number in hidden_rows)}>{"".join(CELL.format("", cell) for cell in row)}</table:table-row>'
                             for number, row in enumerate(rows, 1))
    return ods_of(path, body, "true" if state == "visible" else "false")


def hidden(how, is_hidden):
    return f' table:visibility="{how}"' if is_hidden else ""


FORMS = {"xlsx": xlsx, "ods": ods}


@pytest.fixture(params=FORMS)
def sheet(request, tmp_path):
    return lambda rows, **options: FORMS[request.param](tmp_path / f"sheet.{request.param}", rows, **options)


def test_a_sheet_that_hides_nothing_is_taken(sheet):
    done = to_csv(sheet(ROWS))
    assert (done.status, done.out, done.err) == (0, GOOD, "")


def test_hidden_rows_are_refused_unless_asked_for(sheet, tmp_path):
    path = sheet(ROWS, hidden_rows=(2, 3, 5))
    done = to_csv(path, tmp_path / "made.csv")
    assert done.status == 1 and not (tmp_path / "made.csv").exists()
    assert done.err.splitlines() == ["row 2: it and those down to row 3 are hidden; --hidden takes it", "row 5: it is hidden; --hidden takes it",
                                        "2 refused, nothing is written"]
    asked = to_csv("--hidden", path)
    assert (asked.status, asked.out) == (0, GOOD)
    assert asked.err.splitlines() == ["row 2: it and those down to row 3 are hidden; taken all the same", "row 5: it is hidden; taken all the same"]


def test_hidden_columns_are_refused_unless_asked_for(sheet):
    path = sheet(ROWS, hidden_columns=("B", "L"))
    done = to_csv(path)
    assert done.status == 1 and done.out == ""
    assert done.err.splitlines() == ["row 1, column B: its column is hidden; --hidden takes it", "row 1, column L: its column is hidden; --hidden takes it",
                                        "2 refused, nothing is written"]
    assert to_csv("--hidden", path).out == GOOD


def test_hidden_rows_that_are_empty_are_no_matter(sheet):
    assert to_csv(sheet([*ROWS, [""] * 12], hidden_rows=(6, 7))).out == GOOD


def test_a_hidden_sheet_is_refused_unless_it_is_named(tmp_path, sheet):
    path = sheet(ROWS, state="hidden")
    assert is_told(to_csv(path), 1)
    assert to_csv("--sheet", "Sheet" if path.suffix == ".xlsx" else "Actuals", path).out == GOOD


def test_a_row_of_no_height_is_hidden(tmp_path):
    body = "".join(f'<row r="{n}"{height}>{"".join(INLINE.format(cell) for cell in row)}</row>'
                   for n, (row, height) in enumerate(zip(ROWS, ["", "", ' ht="0" customHeight="1"', "", ""]), 1))
    path = patched(xlsx(tmp_path / "sheet.xlsx", ROWS), "xl/worksheets/sheet1.xml", sheet_of(body))
    assert to_csv(path).err.splitlines()[0] == "row 3: it is hidden; --hidden takes it"


# Too much

def patched(path, part, text):
    """The workbook with another text in place of a part."""
    with zipfile.ZipFile(path) as archive:
        parts = {part_name: archive.read(part_name) for part_name in archive.namelist()}
    with zipfile.ZipFile(path, "w", zipfile.ZIP_DEFLATED) as archive:
        for name, content in {**parts, part: text.encode()}.items():
            archive.writestr(name, content)
    return path


def sheet_of(body):
    return f'<?xml version="1.0"?><worksheet xmlns="{MAIN}"><sheetData>{body}</sheetData></worksheet>'


VALUE = '<c r="{}"><v>1</v></c>'
INLINE = '<c t="inlineStr"><is><t>{}</t></is></c>'
XLSX_BODIES = {
    "far row": f'<row r="1048576">{VALUE.format("A1048576")}</row>',
    "far column": f'<row r="1">{VALUE.format("XFD1")}</row>',
    "corner": f'<row r="1048576">{VALUE.format("XFD1048576")}</row>',
    "far columns": "".join(f'<row r="{n}">{VALUE.format(f"XFD{n}")}</row>' for n in range(1, 20_000)),
    "many rows": "".join(f'<row r="{n}">{VALUE.format(f"A{n}")}</row>' for n in range(1, 200_000)),
    "many cells": "".join(f'<row r="{n}">{"<c><v>1</v></c>" * 200}</row>' for n in range(1, 8_000)),
    "unpacked": "<row/>" * 6_000_000,
}


@pytest.mark.parametrize("name", XLSX_BODIES)
def test_an_xlsx_that_is_too_much_is_told_is_told(tmp_path, name):
    path = patched(xlsx(tmp_path / "sheet.xlsx", ROWS), "xl/worksheets/sheet1.xml", sheet_of(XLSX_BODIES[name]))
    assert path.stat().st_size < 2_000_000
    assert is_told(bounded_to_csv(path), 1)


def test_a_far_cell_that_is_empty_is_no_matter(tmp_path):
    path = xlsx(tmp_path / "sheet.xlsx", ROWS)
    book = openpyxl.load_workbook(path)
    book.active["XFD1048576"].number_format = "0.00"
    book.save(path)
    assert bounded_to_csv(path).out == GOOD


def ods_row(cells, times=1):
    return f'<table:table-row table:number-rows-repeated="{times}">{cells}</table:table-row>'


ODS_BODIES = {
    "repeated columns": ods_row(CELL.format(' table:number-columns-repeated="1000000000"', "x")),
    "gap": ods_row('<table:table-cell table:number-columns-repeated="1000000000"/>' + CELL.format("", "x")),
    "repeated rows": ods_row(CELL.format("", "x"), 1_000_000_000),
    "many cells": ods_row(CELL.format(' table:number-columns-repeated="256"', "x"), 100_000),
    "elements": ods_row("<table:table-cell/>" * 1_200_000),
    "unpacked": ods_row(CELL.format("", "x" * 33_000_000)),
}


@pytest.mark.parametrize("name", ODS_BODIES)
def test_an_ods_that_is_too_much_is_told_is_told(tmp_path, name):
    path = ods_of(tmp_path / "sheet.ods", ODS_BODIES[name])
    assert path.stat().st_size < 1_000_000
    assert is_told(bounded_to_csv(path), 1)


@pytest.mark.parametrize("text", [
    ";" * 9_000_000, "\n".join(["1"] * 150_000), ";" * 300 + "1", "\n".join([";".join("1" * 200)] * 6_000)], ids=["bytes", "rows", "columns", "cells"])
def test_a_text_that_is_too_much_is_told_is_told(tmp_path, text):
    (tmp_path / "sheet.csv").write_text(f"{';'.join(HEADER)}\n{text}\n")
    assert is_told(bounded_to_csv(tmp_path / "sheet.csv"), 1)


def test_a_file_that_is_as_large_as_an_import_is_taken(sheet):
    rows = [HEADER, *([f"K{n}", "ACME", "O", "1", "1", "consumed", "M", "ACME", "A", "S1", "4", "11"] for n in range(10_000))]
    done = bounded_to_csv(sheet(rows))
    assert done.status == 0 and done.out.count("\n") == 10_001


@pytest.mark.parametrize("content", [b"PK\x03\x04 and no more", b"PK", b"\xd0\xcf\x11\xe0old", b"\0\0\0\0"])
def test_what_is_no_sheet_is_told_is_told(tmp_path, content):
    (tmp_path / "sheet").write_bytes(content)
    assert is_told(bounded_to_csv(tmp_path / "sheet"), 3)
