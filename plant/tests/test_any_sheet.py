"""Any actuals: however a sheet has them, what is written is what was typed."""
import csv
import functools
import io
import string

import hypothesis
import openpyxl
from hypothesis import strategies as any_of
from hilpoven.core.failure import Failure
from hilpoven.record.sheets.reading import read
from hilpoven.record.sheets.sheet import Asked, Sheet, likeness, text_of
from hilpoven.record.sheets.values import ACTUALS, TRAPS, of_days, of_numbers

COLUMNS, NUMBERS = list(ACTUALS.columns), ACTUALS.of(of_numbers, of_days)
FEW = hypothesis.settings(max_examples=60)
NAME = any_of.text(string.ascii_uppercase + string.digits + "-", min_size=1, max_size=16).filter(lambda name: not name.startswith("-"))
NUMBER = any_of.integers(0, 9_999_999_999)
ROWS = any_of.lists(any_of.fixed_dictionaries({
    **{column: NAME for column in COLUMNS}, **{number: NUMBER for number in NUMBERS}, "use": any_of.sampled_from(["consumed", "produced"])}), min_size=1, max_size=8)
ORDERS = any_of.permutations(COLUMNS)
ALL = Asked({trap: ACTUALS.trapped(trap) for trap in TRAPS})


def written(path, asked):
    """What is written of a sheet, and whether something of it is refused."""
    sheet = Sheet(read(path.read_bytes(), None, functools.partial(likeness, ACTUALS)), ACTUALS, asked)
    return text_of(ACTUALS, sheet.records), bool(sheet.wrong or sheet.refused)


def meant(rows):
    return "".join(",".join(str(cell) for cell in row) + "\n" for row in [COLUMNS, *([row[column] for column in COLUMNS] for row in rows)])


@FEW
@hypothesis.given(ROWS, ORDERS, any_of.sampled_from(",;\t|"), any_of.sampled_from(["utf-8", "utf-8-sig", "utf-16", "latin-1"]))
def test_a_text_is_what_was_typed(tmp_path, rows, order, separator, code):
    text = io.StringIO()
    csv.writer(text, delimiter=separator).writerows([order, *([row[column] for column in order] for row in rows)])
    (tmp_path / "sheet.csv").write_bytes(text.getvalue().encode(code))
    assert written(tmp_path / "sheet.csv", ALL) == (meant(rows), False)


@FEW
@hypothesis.given(ROWS, ORDERS, any_of.sets(any_of.integers(2, 9)))
def test_a_workbook_is_what_was_typed_and_refused_where_it_hides_a_row(tmp_path, rows, order, hidden):
    book = openpyxl.Workbook()
    for row in [order, *([row[column] for column in order] for row in rows)]:
        book.active.append(row)
    for row in book.active.iter_rows():
        for cell in row:
            if isinstance(cell.value, str):
                cell.data_type = "s"  # as it is typed into a column that is formatted as text
    for number in hidden:
        book.active.row_dimensions[number].hidden = True
    book.save(tmp_path / "sheet.xlsx")
    is_hidden = any(number <= len(rows) + 1 for number in hidden)
    assert written(tmp_path / "sheet.xlsx", Asked()) == (meant(rows), is_hidden)


@FEW
@hypothesis.given(any_of.binary(max_size=400))
def test_any_bytes_are_read_or_refused(tmp_path, content):
    (tmp_path / "sheet").write_bytes(content)
    try:
        written(tmp_path / "sheet", ALL)
    except Failure as failure:
        assert failure.exit_code in (1, 2, 3)
