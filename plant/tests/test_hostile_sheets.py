"""Small files that would cost memory or time, and sheets that would print lines of their own: each is refused in a line."""
import pathlib
import os
import re
import resource
import signal
import tempfile
import warnings
import zipfile
from xml.etree import ElementTree
from xml.sax import SAXException

import pytest
from conftest import command
from hilpoven.core.failure import Failure
from hilpoven.record.sheets import bounded, workbooks
from hilpoven.record.sheets.reading import read_source
from test_sheets import CELL, CONTENT, HEADER, INLINE, MAIN, MANIFEST, ROWS, ods_of, ods_row, patched, sheet_of, xlsx

LARGE = 130_000_000  # bytes of a part that is too large
ASKED = {"what": "actuals", "digits": (), "dates": (), "decimals": (), "capitals": False, "hidden": False, "ignored": (), "header_row": None, "name": None}
UNPRINTABLE = re.compile(r"[\x00-\x1f\x7f-\x9f\u061c\u200e\u200f\u2028\u2029\u202a-\u202e\u2066-\u2069\ud800-\udfff]")


def written(path, content):
    path.write_bytes(content)
    return path


# Archives

def archive_of(path, parts, method=zipfile.ZIP_DEFLATED):
    with zipfile.ZipFile(path, "w", method, compresslevel=1) as archive:
        for name, content in parts:
            archive.writestr(name, content)
    return path


def added(path, *parts, method=zipfile.ZIP_DEFLATED):
    """The file with more parts."""
    with zipfile.ZipFile(path, "a", method, compresslevel=1) as archive:
        for name, content in parts:
            archive.writestr(name, content)
    return path


def zeros(size=LARGE):
    """Zeros, which are deflated a thousandfold."""
    return b"\0" * size


def pictured_ods(path):
    """An .ods with a picture, which its manifest names."""
    entry = '<manifest:file-entry manifest:full-path="Pictures/a.png" manifest:media-type="image/png"/></manifest:manifest>'
    parts = [("mimetype", "application/vnd.oasis.opendocument.spreadsheet"), ("META-INF/manifest.xml", MANIFEST.replace("</manifest:manifest>", entry)),
             ("content.xml", CONTENT.format(body=ods_row(CELL.format("", "x")), display="true")), ("Pictures/a.png", zeros())]
    return archive_of(path, parts)


def renamed_part(path):
    """An .xlsx whose sheet is a part that isn't named .xml."""
    with zipfile.ZipFile(xlsx(path, ROWS)) as archive:
        parts = {part_name: archive.read(part_name) for part_name in archive.namelist()}
    parts["xl/worksheets/sheet1.bin"] = sheet_of("<row/>" + " " * 33_000_000).encode()
    del parts["xl/worksheets/sheet1.xml"]
    for name in ("xl/_rels/workbook.xml.rels", "[Content_Types].xml"):
        parts[name] = parts[name].replace(b"sheet1.xml", b"sheet1.bin")
    return archive_of(path, parts.items())


def understated(path):
    """An .xlsx of which the header says that a part is small."""
    added(xlsx(path, ROWS), ("docProps/large.xml", zeros()))
    content = path.read_bytes()
    path.write_bytes(content.replace(LARGE.to_bytes(4, "little"), (1_000).to_bytes(4, "little")))
    return path


def overlapping(path):
    """An archive of which 500 entries are the same bytes, each 10 MB unpacked."""
    archive_of(path, [("a", zeros(10_000_000))])
    content = path.read_bytes()
    begin = content.rindex(b"PK\x01\x02")
    entry, end = content[begin:content.rindex(b"PK\x05\x06")], content[content.rindex(b"PK\x05\x06"):]
    count, size = 500, len(entry) * 500
    end = end[:8] + count.to_bytes(2, "little") * 2 + size.to_bytes(4, "little") + end[16:]
    path.write_bytes(content[:begin] + entry * count + end)
    return path


def encrypted(path):
    """An .xlsx whose first part is marked as encrypted."""
    content = bytearray(xlsx(path, ROWS).read_bytes())
    for mark, place in ((b"PK\x03\x04", 6), (b"PK\x01\x02", 8)):
        content[content.index(mark) + place] |= 1
    path.write_bytes(content)
    return path


def twice(path):
    """An .xlsx with two parts of the name of its sheet."""
    with warnings.catch_warnings():
        warnings.simplefilter("ignore")
        return added(xlsx(path, ROWS), ("xl/worksheets/sheet1.xml", sheet_of("<row/>")))


def nested(path):
    """An archive in an archive in an archive."""
    inner = b""
    for name in ("c.zip", "b.zip", "a.zip"):
        with tempfile.TemporaryDirectory() as folder:
            inner = archive_of(pathlib.Path(folder, name), [("inner", inner), ("zeros", zeros(15_000_000))]).read_bytes()
    path.write_bytes(inner)
    return path


def with_workbook(path, change):
    """An .xlsx with a change of the text of its workbook."""
    with zipfile.ZipFile(xlsx(path, ROWS)) as archive:
        text = archive.read("xl/workbook.xml").decode()
    return patched(path, "xl/workbook.xml", change(text))


def many_sheets_of_one_part(path):
    """An .xlsx with 2,000 sheets which are all one part of 5,000 rows."""
    with_workbook(path, lambda text: text.replace("</sheets>", "".join(
        f'<sheet xmlns:r="http://schemas.openxmlformats.org/officeDocument/2006/relationships" name="S{n}" sheetId="{n}" r:id="rId1"/>' for n in range(2, 2_000)) + "</sheets>"))
    return patched(path, "xl/worksheets/sheet1.xml", sheet_of("".join(f'<row>{"".join(INLINE.format(cell) for cell in ROWS[1])}</row>' for _ in range(5_000))))


LAUGHS = '<?xml version="1.0"?><!DOCTYPE a [<!ENTITY a0 "ha">' + "".join(f'<!ENTITY a{n} "{f"&a{n - 1};" * 10}">' for n in range(1, 12)) + "]>"
EXTERNAL = '<?xml version="1.0"?><!DOCTYPE a [<!ENTITY a SYSTEM "{}">]>'


def with_entities(path, head, name):
    """An .xlsx whose sheet has a cell with an entity."""
    return patched(xlsx(path, ROWS), "xl/worksheets/sheet1.xml", sheet_of(f"<row>{INLINE.format(f'&{name};')}</row>").replace('<?xml version="1.0"?>', head))


def laughing_ods(path, head=LAUGHS, name="a11"):
    text = CONTENT.format(body=ods_row(CELL.format("", f"&{name};")), display="true")
    return archive_of(path, [("mimetype", "application/vnd.oasis.opendocument.spreadsheet"), ("META-INF/manifest.xml", MANIFEST),
                             ("content.xml", text.replace('<?xml version="1.0" encoding="UTF-8"?>', head))])


def xlsx_of(path, body, before="", after=""):
    """An .xlsx whose sheet has these rows."""
    return patched(xlsx(path, ROWS), "xl/worksheets/sheet1.xml", sheet_of(body).replace("<sheetData>", f"{before}<sheetData>").replace("</sheetData>", f"</sheetData>{after}"))


def strings_bomb(path):
    """An .xlsx with a string of 10 MB, which 9,600 cells share."""
    added(xlsx(path, ROWS), ("xl/strings.xml", f'<sst xmlns="{MAIN}"><si><t>{"x" * 10_000_000}</t></si></sst>'))
    with zipfile.ZipFile(path) as archive:
        types = archive.read("[Content_Types].xml").decode()
    kind = "application/vnd.openxmlformats-officedocument.spreadsheetml.sharedStrings+xml"
    types = re.sub(rf'<Override[^>]*{re.escape(kind)}"[^>]*/>', "", types)
    patched(path, "[Content_Types].xml", types.replace("</Types>", f'<Override PartName="/xl/strings.xml" ContentType="{kind}"/></Types>'))
    header = f'<row>{"".join(INLINE.format(head) for head in HEADER)}</row>'
    return patched(path, "xl/worksheets/sheet1.xml", sheet_of(header + ("<row>" + '<c t="s"><v>0</v></c>' * 12 + "</row>") * 800))


def styles_bomb(path):
    """An .xlsx with a million and a half of cell formats."""
    styles = f'<styleSheet xmlns="{MAIN}"><cellXfs count="1">{"<xf/>" * 1_500_000}</cellXfs></styleSheet>'
    return patched(xlsx(path, ROWS), "xl/styles.xml", styles)


def columns_of(attributes):
    return lambda path: xlsx_of(path, f'<row>{"".join(INLINE.format(head) for head in HEADER)}</row>', f"<cols><col {attributes}/></cols>")


def ods_repeating(row="1", cell="1", column="1"):
    """An .ods whose rows, cells and hidden columns stand so often."""
    cells = CELL.format(f' table:number-columns-repeated="{cell}"', "x")
    body = (f'<table:table-column table:visibility="collapse" table:number-columns-repeated="{column}"/>'
            f'<table:table-row table:visibility="filter" table:number-rows-repeated="{row}">{cells}</table:table-row>')
    return lambda path: ods_of(path, body + ods_row(CELL.format("", "y")))


HEAD = f'<row>{"".join(INLINE.format(head) for head in HEADER)}</row>'
ODS_HEAD = ods_row("".join(CELL.format("", head) for head in HEADER))
UNPACKED = "unpacks to more than 128,000,000 bytes, or 32,000,000 of XML"
FILES = {
    # archives
    "picture.ods": (pictured_ods, UNPACKED),
    "picture.xlsx": (lambda path: added(xlsx(path, ROWS), ("xl/media/image1.png", zeros())), UNPACKED),
    "renamed.xlsx": (renamed_part, UNPACKED),
    "understated.xlsx": (understated, "can't be read: BadZipFile"),
    "overlapping.xlsx": (overlapping, "two parts of the name a"),
    "bzip2.xlsx": (lambda path: added(xlsx(path, ROWS), ("xl/media/a", b"x"), method=zipfile.ZIP_BZIP2), "xl/media/a is packed in a way"),
    "lzma.xlsx": (lambda path: added(xlsx(path, ROWS), ("xl/media/a", b"x"), method=zipfile.ZIP_LZMA), "xl/media/a is packed in a way"),
    "entries.xlsx": (lambda path: added(xlsx(path, ROWS), *((f"a/{n}", b"") for n in range(20_000))), "at most 1,000 are read"),
    "twice.xlsx": (twice, "two parts of the name xl/worksheets/sheet1.xml"),
    "encrypted.xlsx": (encrypted, "it has a password"),
    "nested.zip": (nested, "neither text nor"),
    "many-sheets.xlsx": (many_sheets_of_one_part, "two of its sheets are the same part"),
    "one-name.ods": (lambda path: ods_of(path, ODS_HEAD + '</table:table><table:table table:name="Actuals">' + ODS_HEAD), "two sheets of the name Actuals"),
    # XML
    "laughs.xlsx": (lambda path: with_entities(path, LAUGHS, "a11"), "declares the entity"),
    "laughs.ods": (laughing_ods, "declares the entity"),
    "external.xlsx": (lambda path: with_entities(path, EXTERNAL.format("file:///etc/passwd"), "a"), "declares the entity"),
    "external.ods": (lambda path: laughing_ods(path, EXTERNAL.format("http://127.0.0.1:9/"), "a"), "declares the entity"),
    "deep.ods": (lambda path: ods_of(path, "<table:table-row>" * 400_000 + "</table:table-row>" * 400_000), "nests more than"),
    "deep.xlsx": (lambda path: xlsx_of(path, "<a>" * 400_000 + "</a>" * 400_000), "nests more than"),
    "elements.xlsx": (lambda path: xlsx_of(path, "<row/>" * 3_000_000), "more than 2,500,000 elements"),
    "cut.ods": (lambda path: ods_of(path, ODS_HEAD + "<table:table-row>"), "content.xml is no XML"),
    # places and repeats
    "column-below.xlsx": (columns_of('min="-50000000" max="1" hidden="1"'), "sheet Sheet: it describes columns -50000000 to 1"),
    "column-above.xlsx": (columns_of('min="1" max="50000000" hidden="1"'), "columns 1 to 50000000"),
    "column-none.xlsx": (columns_of('min="5" max="3" hidden="1"'), "columns 5 to 3"),
    "column-text.xlsx": (columns_of('min="a" max="3" hidden="1"'), "columns a to 3"),
    "row-below.xlsx": (lambda path: xlsx_of(path, f'<row r="-50000000">{INLINE.format("x")}</row>'), "the row behind row 0 has the number -50000000"),
    "row-above.xlsx": (lambda path: xlsx_of(path, f'<row r="50000000">{INLINE.format("x")}</row>'), "the row behind row 0 has the number 50000000"),
    "row-back.xlsx": (lambda path: xlsx_of(path, f'<row r="5">{INLINE.format("x")}</row><row r="2">{INLINE.format("y")}</row>'), "behind row 5 has the number 2"),
    "cell-back.xlsx": (lambda path: xlsx_of(path, '<row r="1"><c r="B1"><v>1</v></c><c r="A1"><v>1</v></c></row>'), "row 1: its cell behind column 2 has the place A1"),
    "cell-elsewhere.xlsx": (lambda path: xlsx_of(path, '<row r="1"><c r="A7"><v>1</v></c></row>'), "row 1: its cell behind column 0 has the place A7"),
    "cell-far.xlsx": (lambda path: xlsx_of(path, '<row r="1"><c r="ZZZZZZZ1"><v>1</v></c></row>'), "the place ZZZZZZZ1"),
    "rows-below.ods": (ods_repeating(row="-2000000000"), "row 1: it is repeated -2000000000 times"),
    "rows-above.ods": (ods_repeating(row="2000000000"), "row 1: it is repeated 2000000000 times"),
    "rows-text.ods": (ods_repeating(row="x"), "row 1: it is repeated x times"),
    "cells-below.ods": (ods_repeating(cell="-2000000000"), "row 1, behind column 0: it is repeated -2000000000 times"),
    "cells-none.ods": (ods_repeating(cell="0"), "it is repeated 0 times"),
    "columns-below.ods": (ods_repeating(column="-200000000"), "column 1: it is repeated -200000000 times"),
    "columns-above.ods": (ods_repeating(column="2000000000"), "column 1: it is repeated 2000000000 times"),
    "blanks.ods": (lambda path: ods_of(path, ODS_HEAD + ods_row(CELL.format("", '<text:s text:c="900000000"/>x'))), "900,000,000 blanks"),
    # texts
    "line.csv": (lambda path: written(path, b"a," * 32_000_000), "at most 8,000,000 are read of a text"),
    "large.csv": (lambda path: written(path, b"a," * 32_000_001), "more than 64,000,000 bytes"),
    "zeros.csv": (lambda path: written(path, b"key\0,owner\n"), "neither text nor"),
    "surrogate.csv": (lambda path: written(path, "key,owner\n".encode("utf-16") + b"\x00\xd8\x00\xd8"), "can't be read as UTF-16"),
    "field.csv": (lambda path: written(path, b'key,owner\n"' + b"x" * 4_000_000), "row 2: its quotes can't be read"),
}


@pytest.mark.parametrize("name", FILES)
def test_a_hostile_file_is_refused_in_a_line(tmp_path, name):
    make, words = FILES[name]
    path = tmp_path / name
    make(path)
    with pytest.raises(Failure) as refused:
        read_source(str(path), ASKED)
    message = refused.value.message
    assert words in message and not UNPRINTABLE.search(message) and len(message) < 300 and refused.value.exit_code in (1, 2, 3)


# What is refused by the bounds of memory and time alone

def test_a_file_that_takes_too_much_memory_is_refused_in_a_line(tmp_path, monkeypatch):
    """The bound leaves room for a sheet that isn't hostile, beside what this process has."""
    own = int(pathlib.Path("/proc/self/statm").read_text().split()[0]) * resource.getpagesize()
    monkeypatch.setattr(bounded, "MEMORY", own + 60_000_000)
    assert read_source(str(xlsx(tmp_path / "small.xlsx", ROWS)), ASKED)
    with pytest.raises(Failure, match=f"it takes more than {bounded.MEMORY:,} bytes of memory to read"):
        read_source(str(attributes(tmp_path / "sheet.xlsx")), ASKED)


@pytest.mark.parametrize("fault", [ElementTree.ParseError, SAXException])
def test_expats_lack_of_memory_is_one(fault):
    def parse():
        raise fault("out of memory: line 1, column 0")

    with pytest.raises(MemoryError):
        workbooks.load("openpyxl", "python3-openpyxl", parse)


def attributes(path):
    """An .xlsx with an element of a quarter of a million attributes."""
    return xlsx_of(path, "<row " + " ".join(f"a{n}=''" for n in range(250_000)) + "/>")


def test_a_file_that_takes_too_much_time_is_refused_in_a_line(tmp_path, monkeypatch):
    monkeypatch.setattr(bounded, "SECONDS", 1)
    with pytest.raises(Failure, match="it takes more than 1 seconds to read"):
        read_source(str(styles_bomb(tmp_path / "sheet.xlsx")), ASKED)


def test_a_reading_that_is_killed_is_reported():
    with pytest.raises(Failure, match="it can't be read: its reading ended with -9"):
        bounded.run(lambda: os.kill(os.getpid(), signal.SIGKILL))


def test_nothing_that_a_parser_prints_is_seen(capfd):
    bounded.run(lambda: (print("a line", flush=True), os.write(1, b"another")) and None)
    assert capfd.readouterr() == ("", "")


def test_a_long_text_that_many_cells_share_is_refused_by_its_length(tmp_path):
    sheet = read_source(str(strings_bomb(tmp_path / "sheet.xlsx")), ASKED).sheet
    assert not sheet.records and len(sheet.refused) == 12 * 800 and all(len(str(refusal)) < 200 for refusal in sheet.refused)


def test_pictures_may_be_as_large_as_a_file(tmp_path):
    path = added(xlsx(tmp_path / "sheet.xlsx", ROWS), ("xl/media/image1.png", b"\x89PNG" + zeros(60_000_000)))
    assert len(read_source(str(path), ASKED).sheet.records) == len(ROWS) - 1


def test_merged_cells_and_far_ranges_are_no_matter(tmp_path):
    body = HEAD + "<row>" + "".join(INLINE.format(cell) for cell in ROWS[1]) + "</row>"
    path = xlsx_of(tmp_path / "sheet.xlsx", body, after='<mergeCells count="1"><mergeCell ref="A3:XFD1048576"/></mergeCells>')
    assert len(read_source(str(path), ASKED).sheet.records) == 1


def test_standard_input_without_an_end_is_refused_in_a_line(tmp_path):
    (tmp_path / "office.db").write_text("rows")
    with open("/dev/zero", "rb") as zero:
        done = command("--db", tmp_path / "office.db", "import", "-", stdin=zero, env={**os.environ, "TOLL": "/bin/true", "TMPDIR": str(tmp_path)})
    assert (done.returncode, done.stdout, done.stderr) == (1, "", "hilpoven: it has more than 64,000,000 bytes\n")
    assert [path.name for path in tmp_path.iterdir()] == ["office.db"]


# Lines of a sheet's own

LINES = "A\n3 receipts: 3 accepted\x1b[2J\u2028\u202e\x85"


def titled(path, title):
    """An .xlsx with two sheets that hold something, the first of this title."""
    xlsx(path, ROWS)
    escaped = "".join(letter if letter.isalnum() or letter == " " else f"&#{ord(letter)};" for letter in title if letter != "\x1b")
    with zipfile.ZipFile(path) as archive:
        parts = {name: archive.read(name).decode() for name in archive.namelist()}
    relation = 'Target="/xl/worksheets/sheet1.xml"'
    assert relation in parts["xl/_rels/workbook.xml.rels"]
    parts["xl/_rels/workbook.xml.rels"] = parts["xl/_rels/workbook.xml.rels"].replace(
        "</Relationships>", '<Relationship Id="rId99" Type="http://schemas.openxmlformats.org/officeDocument/2006/relationships/worksheet" Target="/xl/worksheets/sheet2.xml"/></Relationships>')
    named = re.sub(r'name="Sheet"', f'name="{escaped}"', parts["xl/workbook.xml"])
    other = '<sheet xmlns:r="http://schemas.openxmlformats.org/officeDocument/2006/relationships" name="B" sheetId="99" r:id="rId99"/></sheets>'
    parts["xl/workbook.xml"] = named.replace("</sheets>", other)
    parts["xl/worksheets/sheet2.xml"] = parts["xl/worksheets/sheet1.xml"]
    return archive_of(path, parts.items())


def test_a_title_prints_no_lines_of_its_own(tmp_path):
    done = command("to-csv", titled(tmp_path / "sheet.xlsx", LINES))
    assert done.returncode == 2 and "several sheets hold something" in done.stderr and "3 receipts: 3 accepted" in done.stderr
    assert len(done.stderr.splitlines()) == 1 and not UNPRINTABLE.search(done.stderr[:-1])


@pytest.mark.parametrize("make_sheet", [
    lambda path: written(path.with_suffix(".csv"), (",".join(HEADER) + '\n"' + LINES + '"' + ",x" * 11 + "\n").encode()),
    lambda path: written(path.with_suffix(".csv"), (",".join(HEADER) + ',"' + LINES + '"\n' + ",".join(ROWS[1]) + "\n").encode()),
    lambda path: ods_of(path.with_suffix(".ods"), ODS_HEAD + ods_row(
        '<table:table-cell office:value-type="float" office:value="7"><text:p>7</text:p><text:p>3 receipts: 3 accepted</text:p></table:table-cell>')),
    lambda path: ods_of(path.with_suffix(".ods"), ODS_HEAD + ods_row('<table:table-cell office:value-type="a&#10;3 receipts: 3 accepted"/>' * 12)),
], ids=["cell", "header", "number", "kind"])
def test_a_cell_prints_no_lines_of_its_own(tmp_path, make_sheet):
    done = command("to-csv", make_sheet(tmp_path / "sheet"))
    lines = done.stderr.splitlines()
    assert done.returncode == 1 and len(lines) >= 2 and all(re.match(r"row \d+|\d+ refused, nothing is written$", line) for line in lines), lines
    assert not any(map(UNPRINTABLE.search, lines)) and "3 receipts: 3 accepted" in done.stderr
