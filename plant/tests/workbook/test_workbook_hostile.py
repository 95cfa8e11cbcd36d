"""Workbooks that nobody filled in honestly: each is refused in a line, and gives nothing."""
import os
import zipfile

import openpyxl
import pytest
from books import DAY_ONE, copy_of, ods, state, nothing_given, xlsx


def changed(path, change):
    """The workbook of the first day, which openpyxl changes."""
    book = openpyxl.load_workbook(xlsx(path, DAY_ONE))
    change(book)
    book.save(path)
    return path


def patched(path, part, old, new):
    """A workbook with other bytes in a part."""
    with zipfile.ZipFile(path) as archive:
        parts = {name: archive.read(name) for name in archive.namelist()}
    assert old in parts[part]
    parts[part] = parts[part].replace(old, new)
    with zipfile.ZipFile(path, "w", zipfile.ZIP_DEFLATED) as archive:
        for name, content in parts.items():
            archive.writestr(name, content)
    return path


def merged(book):
    book["Materials"].merge_cells("A3:A4")


def hidden_sheet(book):
    book["Tests"].sheet_state = "hidden"


def hidden_row(book):
    book["Materials"].row_dimensions[3].hidden = True


def hidden_column(book):
    book["Materials"].column_dimensions["C"].hidden = True


def formula(book):
    book["Stock"]["E2"] = "=400+100"


def error(book):
    book["Stock"]["E2"] = "#REF!"


def far_below(book):
    book["Units"]["A200000"] = "FAR"


def far_right(book):
    book["Units"]["ZZ1"] = "FAR"


def no_header(book):
    book["Units"]["A1"] = "machines"


def twice(book):
    book["Materials"]["D1"] = "owner"


def surplus(book):
    book["Materials"]["E1"] = "price"


def unheaded(book):
    book["Materials"]["F3"] = "7"


def misnamed(book):
    book["Materials"].title = "Material"


def script(book):
    book["Materials"].title = "<b>'x'!"


def signs(book):
    for row, name in enumerate(("=SALT", "-SALT", "@SALT", "+SALT"), 2):
        cell = book["Materials"].cell(row, 2)
        cell.value, cell.data_type = name, "s"


CHANGES = {
    merged: ["Materials!A4: it is empty"],
    hidden_sheet: ["Tests: it is hidden; --hidden takes it"],
    hidden_row: ["Materials!3: it is hidden; --hidden takes it"],
    hidden_column: ["Materials!C1: its column is hidden; --hidden takes it"],
    formula: ["Stock!E2: it is a formula without a value"],
    error: ["Stock!E2: it is the error #REF!"],
    far_below: ["it has rows below row 100,000"],
    far_right: ["it has more than 256 columns"],
    no_header: ["Units!1: there is no header, which is unit"],
    twice: ["Materials!D1: owner stands there twice"],
    surplus: ["Materials!E1: 'price' is none of the columns"],
    unheaded: ["Materials!F3: it has no header above it"],
    misnamed: ["Material: it is none of Owners, Units, Materials, Tests, Recipes, Requirements, Parties or Stock; did you mean Materials?"],
    script: ["'<b>''x''!': it is none of Owners"],
    signs: ["Materials!B2: '=SALT' is no name", "Materials!B3: '-SALT' is no name", "Materials!B4: '@SALT' is no name", "Materials!B5: '+SALT' is no name"],
}


@pytest.mark.parametrize("change", CHANGES, ids=lambda change: change.__name__)
def test_what_a_sheet_may_have_is_named(empty, change):
    path, before = changed(empty.folder / "book.xlsx", change), state(empty)
    done = empty.run("import", "--what", "workbook", path)
    assert done.status in (1, 2) and done.out == "" and nothing_given(empty, before)
    for why in CHANGES[change]:
        assert why in done.err, done.err


def test_hidden_rows_are_taken_if_that_is_asked_for(empty):
    path = changed(empty.folder / "book.xlsx", lambda book: (hidden_sheet(book), hidden_row(book), hidden_column(book)))
    done = empty.run("import", "--what", "workbook", "--hidden", path)
    assert done.status == 0 and "Materials!3: it is hidden; taken all the same" in done.err


def test_two_sheets_of_a_name_are_named(empty):
    before = state(empty)
    done = empty.run("import", "--what", "workbook", ods(empty.folder / "book.ods", {**copy_of(DAY_ONE), "UNITS": DAY_ONE["Units"]}))
    assert done.status == 1 and "UNITS: it is the second sheet Units" in done.err and nothing_given(empty, before)


def test_macros_and_links_are_left_alone(empty):
    path = changed(empty.folder / "book.xlsx", lambda book: setattr(book["Materials"]["D3"], "hyperlink", "file:///etc/passwd"))
    with zipfile.ZipFile(path, "a") as archive:
        archive.writestr("xl/vbaProject.bin", b"\xd0\xcf\x11\xe0 macros")
        archive.writestr("xl/externalLinks/externalLink1.xml", "<externalLink/>")
    assert empty.run("import", "--what", "workbook", path).status == 0


FILES = {
    "nothing": (b"", "it is no .xlsx and no .ods"),
    "text": (b"owner,name\nACME,Acme\n", "it is no .xlsx and no .ods"),
    "old": (b"\xd0\xcf\x11\xe0" + b"\0" * 600, "it is an .xls, or has a password"),
    "cut": (b"PK\x03\x04cut", "it can't be read"),
}


@pytest.mark.parametrize("name", FILES)
def test_what_is_no_workbook_is_told_in_a_line(empty, name):
    content, why = FILES[name]
    path, before = empty.folder / "book.xlsx", state(empty)
    path.write_bytes(content)
    done = empty.run("import", "--what", "workbook", path)
    assert done.status in (1, 2, 3) and why in done.err and done.out == "" and nothing_given(empty, before)


def test_a_zip_bomb_is_told_in_a_line(empty):
    path, before = xlsx(empty.folder / "book.xlsx", DAY_ONE), state(empty)
    with zipfile.ZipFile(path, "a", zipfile.ZIP_DEFLATED) as archive:
        archive.writestr("xl/media/image1.png", b"\0" * 130_000_000)
    done = empty.run("import", "--what", "workbook", path)
    assert done.status == 1 and "it unpacks to more than 128,000,000 bytes" in done.err and nothing_given(empty, before)


def test_an_entity_is_told_in_a_line(empty):
    path, before = xlsx(empty.folder / "book.xlsx", DAY_ONE), state(empty)
    with zipfile.ZipFile(path, "a") as archive:
        archive.writestr("xl/drawings/bomb.xml", '<!DOCTYPE x [<!ENTITY a "aaaa">]><x>&a;</x>')
    done = empty.run("import", "--what", "workbook", path)
    assert done.status == 3 and "it declares the entity a" in done.err and nothing_given(empty, before)


@pytest.mark.parametrize("kind", ["link", "pipe", "folder"])
def test_no_workbook_is_waited_for(empty, kind):
    path = empty.folder / "book.xlsx"
    if kind == "link":
        path.symlink_to("/dev/zero")
    elif kind == "pipe":
        os.mkfifo(path)
    else:
        path.mkdir()
    done = empty.run("import", "--what", "workbook", path)
    assert done.status in (2, 3) and done.out == ""
