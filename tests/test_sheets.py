"""Sheets, as LibreOffice saves them, through `hilpoven to-csv` and `toll import`.

LibreOffice saves one sheet in each dialect. What to-csv makes of each is the same file of actuals, byte for byte, and
`toll import` leaves the same rows by it. Then it saves sheets into which 1E5, 007 and the like were typed without
telling it that these are texts: to-csv reports each with its row and column, and writes nothing, unless it is asked
to. What LibreOffice doesn't write by itself (a line `sep=`, a byte order mark, UTF-16 with the big end first, CR LF)
is put there after it, as other spreadsheets do.
"""
import os
import pathlib
import resource
import shutil
import subprocess
import tempfile
from collections.abc import Callable
from typing import Any, NamedTuple
from xml.sax.saxutils import escape

import pytest

from tests.harness import PATIENCE, ROOT, Office, Result, content, import_report, put
from tests.lines import ACTUALS, HEADER

RECORDS = [line.split(",") for line in ACTUALS.splitlines()]
COLUMNS = RECORDS[0]
NUMBERS = {"batch", "segment", "amount", "day"}
COMMAS, SEMICOLONS, TABS = 44, 59, 9
UTF_8, UTF_16, WINDOWS = 76, 65535, 1


def as_text(separator: int, code: int = UTF_8, quotes: str = "false", as_shown: str = "true") -> str:
    """LibreOffice's words for a text file: what stands between the fields, the code, whether each text is quoted, and
    whether numbers are written as they are shown, which its dialogue begins with, or as they are held."""
    return f"csv:Text - txt - csv (StarCalc):{separator},34,{code},1,,0,{quotes},true,{as_shown}"


SHOWN, HELD = as_text(SEMICOLONS), as_text(SEMICOLONS, as_shown="false")


# Sheets that LibreOffice opens: rows of texts, of numbers, and of numbers shown with two decimals.


class Decimals(int):
    """A number that the sheet shows with two decimals."""


Rows = list[list[Any]]
CELLS = {
    str: '<table:table-cell office:value-type="string"><text:p>{}</text:p></table:table-cell>',
    int: '<table:table-cell office:value-type="float" office:value="{0}"><text:p>{0}</text:p></table:table-cell>',
    Decimals: '<table:table-cell table:style-name="two" office:value-type="float" office:value="{0}">'
    "<text:p>{0}.00</text:p></table:table-cell>",
}
NAMESPACE = "urn:oasis:names:tc:opendocument:xmlns:"
SHEET = f"""<?xml version="1.0" encoding="UTF-8"?>
<office:document xmlns:office="{NAMESPACE}office:1.0" xmlns:table="{NAMESPACE}table:1.0"
 xmlns:text="{NAMESPACE}text:1.0" xmlns:style="{NAMESPACE}style:1.0" xmlns:number="{NAMESPACE}datastyle:1.0"
 office:version="1.2" office:mimetype="application/vnd.oasis.opendocument.spreadsheet">
<office:automatic-styles>
<number:number-style style:name="N2"><number:number number:decimal-places="2" number:min-decimal-places="2"
 number:min-integer-digits="1"/></number:number-style>
<style:style style:name="two" style:family="table-cell" style:data-style-name="N2"/>
</office:automatic-styles>
<office:body><office:spreadsheet><table:table table:name="Actuals">
%s
</table:table></office:spreadsheet></office:body></office:document>
"""


def flat_sheet(rows: Rows) -> bytes:
    """A sheet with these rows, as LibreOffice opens it."""
    texts = ["".join(CELLS[type(cell)].format(escape(str(cell))) for cell in row) for row in rows]
    return (SHEET % "\n".join(f"<table:table-row>{row_text}</table:table-row>" for row_text in texts)).encode()


# The actuals with their numbers as numbers and all else as text.
WELL_TYPED: Rows = [
    COLUMNS,
    *([int(cell) if column in NUMBERS else cell for column, cell in zip(COLUMNS, record)] for record in RECORDS[1:]),
]


def with_capitals(rows: Rows) -> Rows:
    return [[f" {column.upper().replace('_', ' ')} " for column in rows[0]], *rows[1:]]


def with_gaps(rows: Rows) -> Rows:
    """The rows with an empty row above, below and between them, and an empty column on both sides and in the middle."""
    spread = [["", *row[:5], "", *row[5:], ""] for row in rows]
    empty = [""] * len(spread[0])
    return [empty, *(spread_row for row in spread for spread_row in (row, empty))]


def to_csv(*words: object, **options: Any) -> Result:
    """What to-csv answers to these words."""
    command = ["/usr/bin/python3", "-B", str(ROOT / "plant" / "bin" / "hilpoven"), "to-csv", *map(str, words)]
    done = subprocess.run(command, capture_output=True, text=True, timeout=PATIENCE, **options)
    return Result(done.returncode, done.stdout, done.stderr)


# The dialects


class Dialect(NamedTuple):
    """A way in which the sheet is saved: its name, LibreOffice's words, and what is done to the rows before and the
    bytes after."""

    name: str
    words: str
    before: Callable[[Rows], Rows] = list
    after: Callable[[bytes], bytes] = bytes

    def source(self) -> "Source":
        return Source(flat_sheet(self.before(WELL_TYPED)), self.words)


def encoded(encoding: str, mark: bytes = b"") -> Callable[[bytes], bytes]:
    """Encodes a text of UTF-16 otherwise, behind a mark."""
    return lambda raw: mark + raw.decode("utf-16").encode(encoding)


DIALECTS = [
    Dialect("commas", as_text(COMMAS)),
    Dialect("semicolons", SHOWN),
    Dialect("tabs", as_text(TABS)),
    Dialect("a line sep=;", SHOWN, after=b"sep=;\r\n".__add__),
    Dialect("a cell sep=;", SHOWN, lambda rows: [["sep=;"], *rows]),
    Dialect("UTF-16, little end first", as_text(TABS, UTF_16)),
    Dialect("UTF-16, big end first", as_text(TABS, UTF_16), after=encoded("utf-16-be", b"\xfe\xff")),
    Dialect("UTF-16 without a mark", as_text(SEMICOLONS, UTF_16), after=encoded("utf-16-le")),
    Dialect("a byte order mark", SHOWN, after=b"\xef\xbb\xbf".__add__),
    Dialect("Windows-1252", as_text(SEMICOLONS, WINDOWS)),
    Dialect("capitals and blanks in the header", SHOWN, with_capitals),
    Dialect("empty columns and rows", SHOWN, with_gaps),
    Dialect("each text in quotes", as_text(COMMAS, quotes="true")),
    Dialect("CR LF", as_text(COMMAS), after=lambda raw: raw.replace(b"\n", b"\r\n")),
    Dialect(".xlsx", "xlsx"),
    Dialect(".xlsx with capitals, empty columns and rows", "xlsx", lambda rows: with_gaps(with_capitals(rows))),
    Dialect(".ods", "ods"),
    Dialect(".ods with capitals, empty columns and rows", "ods", lambda rows: with_gaps(with_capitals(rows))),
]


@pytest.fixture
def room(folder: str) -> pathlib.Path:
    return pathlib.Path(tempfile.mkdtemp(dir=folder))


@pytest.fixture(scope="module")
def rows_after(new: Callable[[], Office], work: str) -> Callable[[pathlib.Path], Any]:
    """Gives the rows of an office at work after an import of a file."""

    def imported(actuals: pathlib.Path) -> Any:
        office = new()
        put(work, office.db)
        assert office.plant("import", str(actuals)) == Result(0, import_report(["accepted", "accepted", "repeated"]))
        return content(office.db)

    return imported


# Values that LibreOffice changes, and what is hidden

TRAPPING = {"a text file as shown": SHOWN, "a text file as held": HELD, "an .xlsx": "xlsx", "an .ods": "ods"}
in_each_form = pytest.mark.parametrize("words", TRAPPING.values(), ids=TRAPPING)

# As they are typed: LibreOffice opens it as a text file, and takes for numbers and dates what looks like them.
TYPED = HEADER + "K2,ACME,O,1,1,consumed,M,ACME,1E5,007,40,11\nK3,ACME,2026-01-02,1,1,consumed,M,ACME,A,S1,1E5,11\n"
# The same lot and sublot, which LibreOffice is told to open as columns of text.
TEXT = HEADER + "K2,ACME,O,1,1,consumed,M,ACME,1E5,007,40,11\n"
AS_TEXTS = "/".join(f"{column}/2" for column in range(1, len(COLUMNS) + 1))
# As a clerk formats them: a lot and a sublot that the sheet holds as numbers, and an amount that is shown with
# decimals.
FORMATTED: Rows = [COLUMNS, ["K2", "ACME", "O", 1, 1, "consumed", "M", "ACME", 100000, 7, Decimals(300), 11]]
TAKEN = HEADER + "K2,ACME,O,1,1,consumed,M,ACME,100000,7,300,11\n"


NEXT_ROW = b"</table:table-row>\n<table:table-row"
CHANGES = {
    "row 2": (NEXT_ROW, NEXT_ROW + b' table:visibility="filter"'),
    "row 1, column A": (b'"Actuals">', b'"Actuals"><table:table-column table:visibility="collapse"/>'),
}
HIDDEN = {place: flat_sheet(WELL_TYPED).replace(*change, 1) for place, change in CHANGES.items()}
FORMS = {"a text file": as_text(COMMAS), "an .xlsx": "xlsx", "an .ods": "ods"}


class Source(NamedTuple):
    """A sheet, LibreOffice's words for how it is saved, and its word for what the columns of a text file hold."""

    content: bytes
    words: str
    columns: str = ""

    def form(self) -> tuple[bool, str, str]:
        return self.content.startswith(b"<?xml"), self.words, self.columns


SOURCES = [
    *(dialect.source() for dialect in DIALECTS),
    *(Source(content, words) for content in (TYPED.encode(), flat_sheet(FORMATTED)) for words in TRAPPING.values()),
    *(Source(TEXT.encode(), words, AS_TEXTS) for words in TRAPPING.values()),
    *(Source(content, words) for content in HIDDEN.values() for words in FORMS.values()),
]
Save = Callable[[Source], pathlib.Path]


@pytest.fixture(scope="module")
def saved(folder: str) -> dict[Source, pathlib.Path]:
    return {}


@pytest.fixture
def save(folder: str, room: pathlib.Path, saved: dict[Source, pathlib.Path]) -> Save:
    """Gives a file of what LibreOffice saves of a sheet. It saves all sheets of a form at a time, when the first is
    needed."""

    def save_all(form: tuple[bool, str, str]) -> None:
        sources = [source for source in SOURCES if source.form() == form]
        files = pathlib.Path(tempfile.mkdtemp(dir=folder))
        is_flat, words, columns = form
        sheets = [files / f"sheet{at}.{'fods' if is_flat else 'csv'}" for at in range(len(sources))]
        for sheet, source in zip(sheets, sources):
            sheet.write_bytes(source.content)
        reading = [] if is_flat else [f"--infilter=CSV:44,34,76,1,{columns},1033,false,true"]
        office = f"soffice -env:UserInstallation=file://{folder}/profile --headless".split()
        command = [*office, *reading, "--convert-to", words, "--outdir", f"{files}/saved", *map(str, sheets)]
        done = subprocess.run(command, capture_output=True, timeout=5 * PATIENCE)
        saved.update(zip(sources, [path for sheet in sheets for path in files.glob(f"saved/{sheet.stem}.*")]))
        assert set(sources) <= set(saved), done.stderr

    def copy(source: Source) -> pathlib.Path:
        if source not in saved:
            save_all(source.form())
        return pathlib.Path(shutil.copy(saved[source], room))

    return copy


@pytest.mark.parametrize("dialect", DIALECTS, ids=[dialect.name for dialect in DIALECTS])
def test_a_dialect_becomes_the_same_file_and_the_same_rows(
    save: Save, dialect: Dialect, rows_after: Callable[[pathlib.Path], Any]
) -> None:
    sheet = save(dialect.source())
    sheet.write_bytes(dialect.after(sheet.read_bytes()))
    actuals, wanted = sheet.with_name("actuals.csv"), sheet.with_name("wanted.csv")
    wanted.write_text(ACTUALS)
    assert to_csv(sheet, actuals) == Result(0, "")
    assert actuals.read_bytes() == ACTUALS.encode() and rows_after(actuals) == rows_after(wanted)


def places(answer: Result) -> list[str]:
    """The row and the column that each line of what was refused begins with; its last line is their number."""
    return [line.partition(":")[0] for line in answer.err.splitlines()[:-1]]


def check_refused(sheet: pathlib.Path, wanted: list[str]) -> None:
    """These places are refused, and nothing is written."""
    before = sorted(sheet.parent.iterdir())
    answer = to_csv(sheet, sheet.with_name("actuals.csv"))
    assert (answer.status, answer.out, places(answer)) == (1, "", wanted) and sorted(sheet.parent.iterdir()) == before


@in_each_form
def test_numbers_and_dates_that_were_typed_into_columns_of_names_are_refused(save: Save, words: str) -> None:
    amount = ["row 3, column K (amount)"] if words != HELD else []  # which is 100000 as it is held
    check_refused(
        save(Source(TYPED.encode(), words)),
        ["row 2, column I (lot)", "row 2, column J (sublot)", "row 3, column C (order)", *amount],
    )


@in_each_form
def test_columns_that_are_opened_as_text_stay_what_they_are(save: Save, words: str) -> None:
    assert to_csv(save(Source(TEXT.encode(), words, AS_TEXTS))) == Result(0, TEXT)


@in_each_form
def test_numbers_in_columns_of_names_and_decimals_are_taken_where_they_are_asked_for(save: Save, words: str) -> None:
    sheet = save(Source(flat_sheet(FORMATTED), words))
    amount = ["row 2, column K (amount)"] if words != HELD else []
    wanted = ["row 2, column I (lot)", "row 2, column J (sublot)", *amount]
    check_refused(sheet, wanted)
    some = to_csv("--digits", "lot", "--decimals", "amount", sheet)
    assert (some.status, places(some)) == (1, ["row 2, column J (sublot)"])
    answer = to_csv("--digits", "lot,sublot", "--decimals", "amount", sheet)
    assert (answer.status, answer.out, len(answer.err.splitlines())) == (0, TAKEN, len(wanted))


@pytest.mark.parametrize("place", HIDDEN)
@pytest.mark.parametrize("words", FORMS.values(), ids=FORMS)
def test_a_hidden_row_or_column_is_refused_where_the_form_tells_of_it(save: Save, words: str, place: str) -> None:
    sheet = save(Source(HIDDEN[place], words))
    if words == as_text(COMMAS):
        assert to_csv(sheet) == Result(0, ACTUALS)
    else:
        check_refused(sheet, [place])
        assert to_csv("--hidden", sheet).out == ACTUALS


# Wrong uses, and what is missing


def is_explained(answer: Result, status: int) -> bool:
    """Whether it ended with this status and said why, in the words of the command or of its usage."""
    return (
        (answer.status, answer.out) == (status, "")
        and answer.err.startswith(("hilpoven: ", "Usage: "))
        and "Traceback" not in answer.err
    )


def test_a_wrong_use_or_a_file_that_cannot_be_read_or_made_is_explained_and_leaves_no_file(room: pathlib.Path) -> None:
    sheet, broken = room / "sheet.csv", room / "broken.xlsx"
    sheet.write_text(ACTUALS)
    broken.write_bytes(b"PK\x03\x04 and no more")
    before = sorted(room.iterdir())
    uses: list[list[object]] = [[], [room], [sheet, sheet], [sheet, room], [sheet, "/dev/null"], [room / "absent"]]
    uses += [["--all", sheet], ["--digits", "amount", sheet], ["--sheet", "A", sheet], [sheet, room / "a", "b"]]
    uses.append([sheet, room / "absent" / "a"])
    assert [answer for use in uses if not is_explained(answer := to_csv(*use), 2)] == []
    assert is_explained(to_csv(broken, room / "a"), 3)
    full = to_csv(sheet, room / "a", preexec_fn=lambda: resource.setrlimit(resource.RLIMIT_FSIZE, (0, 0)))
    assert is_explained(full, 3)
    assert sorted(room.iterdir()) == before and sheet.read_text() == ACTUALS


@pytest.mark.parametrize("package, words", [("openpyxl", "xlsx"), ("odf", "ods")])
def test_a_package_that_is_missing_is_named(save: Save, room: pathlib.Path, package: str, words: str) -> None:
    (room / f"{package}.py").write_text("raise ImportError")
    answer = to_csv(save(Source(flat_sheet(WELL_TYPED), words)), env={**os.environ, "PYTHONPATH": str(room)})
    assert is_explained(answer, 2) and f"python3-{package}" in answer.err
