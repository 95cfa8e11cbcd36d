"""What a sheet of somebody else's needs: dates as days, other headers, blanks, rows of totals; alike in CSV, .xlsx and .ods."""
import csv
import datetime
import io
from xml.sax.saxutils import escape

import openpyxl
import pytest
from test_sheets import ods_of

HEADER = ["owner", "key", "material", "lot", "sublot", "amount", "day"]
GOOD = ["ACME", "K50", "SALT", "S-50", "BAY1", 100, 261127]
DAY = datetime.date(2026, 11, 27)
NUMBER = '<table:table-cell office:value-type="float" office:value="{0}"><text:p>{0}</text:p></table:table-cell>'
TEXT = '<table:table-cell office:value-type="string"><text:p>{}</text:p></table:table-cell>'
DATE = '<table:table-cell office:value-type="date" office:date-value="{0}"><text:p>27.11.26</text:p></table:table-cell>'


def as_csv(path, rows):
    text = io.StringIO()
    csv.writer(text, delimiter=";").writerows([["" if cell is None else cell.isoformat() if isinstance(cell, datetime.date) else cell for cell in row] for row in rows])
    path.write_text(text.getvalue())
    return path


def as_xlsx(path, rows):
    book = openpyxl.Workbook()
    for row in rows:
        book.active.append(row)
    book.save(path)
    return path


def as_ods(path, rows):
    def cell(value):
        form = TEXT if isinstance(value, str) else NUMBER if isinstance(value, int) else DATE
        return "<table:table-cell/>" if value is None else form.format(escape(value) if isinstance(value, str) else value.isoformat() if form is DATE else value)
    return ods_of(path, "".join(f'<table:table-row>{"".join(map(cell, row))}</table:table-row>' for row in rows))


FORMS = {"csv": as_csv, "xlsx": as_xlsx, "ods": as_ods}


@pytest.fixture(params=FORMS)
def sheet(request, at_work):
    """How a sheet of this form is made beside the office."""
    return lambda *rows, header=HEADER: FORMS[request.param](at_work.folder / f"sheet.{request.param}", [header, *rows])


def receipts(plant, path, *options):
    return plant.run("import", "--what", "receipts", *options, path)


def recorded(plant):
    return plant.rows("SELECT mkey, amount, day FROM moves WHERE mkey LIKE 'K5%' ORDER BY mkey")


def test_a_date_goes_in_as_a_day_if_that_is_asked_for(at_work, sheet):
    path = sheet([*GOOD[:6], DAY])
    done = receipts(at_work, path)
    assert done.status == 1 and "row 2, column G (day): 2026-11-27 is a date, and a day is a number; --dates day takes it as 261127" in done.err
    assert "nothing of it was given" in done.err and recorded(at_work) == []
    done = receipts(at_work, path, "--dates", "day")
    assert done.status == 0 and "row 2, column G (day): 2026-11-27 is a date, and a day is a number; taken as 261127" in done.err
    assert recorded(at_work) == [("K50", 100, 261127)] and at_work.lines()[-2]["words"][-1] == "261127"


@pytest.mark.parametrize("when", [datetime.date(1999, 1, 2), datetime.date(2009, 12, 31), datetime.date(2100, 1, 1)])
def test_a_date_of_another_century_is_none_of_these_days(at_work, sheet, when):
    done = receipts(at_work, sheet([*GOOD[:6], when]), "--dates", "day")
    assert done.status == 1 and f"{when} has no day YYMMDD: its year is none from 2010 to 2099" in done.err and recorded(at_work) == []


def test_a_date_with_a_time_is_no_day(at_work):
    for path in (as_xlsx(at_work.folder / "a.xlsx", [HEADER, [*GOOD[:6], datetime.datetime(2026, 11, 27, 14, 30)]]),
                 as_ods(at_work.folder / "a.ods", [HEADER, [*GOOD[:6], datetime.datetime(2026, 11, 27, 14, 30)]])):
        done = receipts(at_work, path, "--dates", "day")
        assert done.status == 1 and "row 2, column G (day): it is the date" in done.err and recorded(at_work) == []


def test_a_date_in_another_column_stays_refused(at_work, sheet):
    done = receipts(at_work, sheet([*GOOD[:3], DAY, *GOOD[4:]]), "--dates", "day")
    assert done.status == 1 and "row 2, column D (lot)" in done.err and recorded(at_work) == []


@pytest.mark.parametrize("text, day", [("2026-11-27", 261127), ("27.11.2026", 261127), ("1.2.2026", 260201), ("27.11.26", None), ("11/27/2026", None), ("2026/11/27", None),
                                       ("2026-11-31", None), ("31.11.2026", None), ("27-11-2026", None), ("2026-1-2", None)])
def test_a_date_as_text_goes_in_only_if_its_parts_are_clear(at_work, text, day):
    done = receipts(at_work, as_csv(at_work.folder / "a.csv", [HEADER, [*GOOD[:6], text]]), "--dates", "day")
    assert recorded(at_work) == ([("K50", 100, day)] if day else [])
    assert day or f"'{text}' is no date of a form that is read: write 2026-11-27, or 261127" in done.err


def test_a_column_may_have_another_header(at_work, sheet):
    path = sheet(GOOD, header=[*HEADER[:5], "Amount (kg)", "Booked on"])
    assert "the header lacks amount, day" in receipts(at_work, path).err
    done = receipts(at_work, path, "--column", "amount=amount (KG)", "--column", "day=Booked on")
    assert (done.status, done.err) == (0, "") and recorded(at_work) == [("K50", 100, 261127)]


def test_a_header_that_is_named_finds_the_separator_and_the_row(at_work):
    path = at_work.folder / "a.csv"
    path.write_text("W;E;M;L;S;A;D\n" + ";".join(map(str, GOOD)) + "\n")
    named = [f"--column={column}={letter}" for column, letter in zip(HEADER, "WEMLSAD")]
    assert receipts(at_work, path, *named).status == 0 and recorded(at_work) == [("K50", 100, 261127)]


@pytest.mark.parametrize("options, why", [
    (["--column", "amount"], "'amount' is no column and its header"), (["--column", "amount="], "is no column and its header"), (["--column", "weight=A"], "'weight' is none of owner"),
    (["--column", "amount=A", "--column", "Amount=B"], "names two headers of amount"), (["--column", "amount=A", "--column", "day=a"], "'a' is the header of two columns"),
    (["--column", "amount=A", "--column", "day=B", "--rows", "9"], "no header is 'B', which --column day names"),
    (["--rows", "8-5"], "'8-5' is no row and no rows"), (["--rows", "0"], "'0' is no row"), (["--rows", "a-b"], "'a-b' is no row"), (["--rows", "9-"], "no row of --rows holds anything"),
    (["--rows", "9999999"], "is no row"), (["--rows", "\x1b[2J"], "'\\x1b[2J' is no row"), (["--rows", "-3"], "'-3' is no row")])
def test_wrong_options_are_told_and_nothing_is_recorded(at_work, sheet, options, why):
    done = receipts(at_work, sheet(GOOD), *options)
    assert done.status == 2 and why in done.err and "\x1b" not in done.err and recorded(at_work) == [], done.err


def test_a_header_that_stands_there_beside_the_named_one_is_told_twice(at_work, sheet):
    done = receipts(at_work, sheet([*GOOD, 5], header=[*HEADER, "Weight"]), "--column", "amount=Weight")
    assert done.status == 1 and "amount stands there twice" in done.err and recorded(at_work) == []
    done = receipts(at_work, sheet([*GOOD, 5], header=[*HEADER, "Weight"]), "--column", "amount=Weight", "--ignore", "amount")
    assert done.status == 0 and recorded(at_work) == [("K50", 5, 261127)]


def test_a_named_header_that_is_missing_is_told_though_the_column_is_there(at_work, sheet):
    done = receipts(at_work, sheet(GOOD), "--column", "amount=Weight")
    assert done.status == 1 and "no header is 'Weight', which --column amount names" in done.err and recorded(at_work) == []


def test_blanks_around_a_value_are_taken_off_if_that_is_asked_for(at_work, sheet):
    path = sheet([" ACME", "K50 ", "salt\u00a0", *GOOD[3:]])
    done = receipts(at_work, path)
    assert done.status == 1 and recorded(at_work) == []
    assert sorted(line.split("; ")[-1] for line in done.err.splitlines()[:4]) == ["--capitals takes it as SALT", *["--trim takes it without them"] * 3]
    assert receipts(at_work, path, "--trim").status == 1 and recorded(at_work) == []
    done = receipts(at_work, path, "--trim", "--capitals")
    assert done.status == 0 and "'K50 ' has blanks around it; taken without them" in done.err and recorded(at_work) == [("K50", 100, 261127)]


def test_blanks_within_a_name_are_no_blanks_around_it(at_work, sheet):
    done = receipts(at_work, sheet(["ACME", " K 50", *GOOD[2:]]), "--trim")
    assert done.status == 1 and "'K 50' is no name" in done.err
    assert "' K 50' is no name" in receipts(at_work, sheet(["ACME", " K 50", *GOOD[2:]])).err


def test_only_the_rows_that_are_asked_for_go_in(at_work, sheet):
    rows = [[*GOOD[:1], f"K5{number}", "SALT", f"S-5{number}", "BAY1", 100 + number, 261127] for number in range(6)]
    done = receipts(at_work, sheet(*rows), "--rows", "3-4,7-")
    assert (done.status, done.err) == (0, "") and [key for key, _, _ in recorded(at_work)] == ["K51", "K52", "K55"]
    assert [line["row"] for line in at_work.lines() if line.get("row")] == [3, 4, 7]


def test_a_row_of_totals_is_one_complaint_that_says_how_it_is_left_out(at_work, sheet):
    path = sheet(GOOD, [*GOOD[:1], "K51", "SALT", "S-51", *GOOD[4:]], ["Total", None, None, None, None, 200, None])
    done = receipts(at_work, path)
    assert done.err == "row 4: it begins with 'Total' and lacks key, material, lot, sublot and day, so it is no record, as a row of totals; --rows 2-3 leaves it out\n"
    assert done.status == 1 and done.out == "3 receipts: 2 accepted, 0 there already, 0 refused, 1 can't be read\n"
    done = receipts(at_work, path, "--rows", "2-3")
    assert (done.status, done.err) == (0, "") and done.out == "2 receipts: 0 accepted, 2 there already, 0 refused, 0 can't be read; nothing was new\n"


def test_a_row_with_a_gap_is_a_record_whose_gap_is_told(at_work, sheet):
    done = receipts(at_work, sheet([*GOOD[:4], None, *GOOD[5:]]))
    assert "row 2, column E (sublot): it is empty" in done.err and "no record" not in done.err


def test_that_nothing_was_given_is_told_if_it_is_so(at_work, sheet):
    done = receipts(at_work, sheet([*GOOD[:5], "1.5", 261127]))
    assert "nothing of it was given: no row can be read" in done.err and done.out.endswith("nothing was new\n") and done.status == 1
    assert "nothing of it was given" not in receipts(at_work, sheet(GOOD, [*GOOD[:5], "1.5", 261127])).err


def test_hidden_rows_that_are_not_asked_for_are_no_matter(at_work):
    path = as_xlsx(at_work.folder / "a.xlsx", [HEADER, GOOD, [*GOOD[:1], "K51", "SALT", "S-51", *GOOD[4:]]])
    book = openpyxl.load_workbook(path)
    book.active.row_dimensions[3].hidden = True
    book.save(path)
    assert "row 3: it is hidden" in receipts(at_work, path).err and "row 3: it is hidden" in receipts(at_work, path, "--rows", "2-3").err
    assert receipts(at_work, path, "--rows", "2").status == 0 and recorded(at_work) == [("K50", 100, 261127)]


def test_to_csv_takes_the_same_options(at_work, sheet):
    path = sheet([*GOOD[:5], 100, DAY], ["Total", None, None, None, None, 100, None], header=[*HEADER[:5], "Amount (kg)", "day"])
    done = at_work.run("to-csv", "--what", "receipts", "--column", "amount=Amount (kg)", "--dates", "day", "--rows", "2", path)
    assert (done.status, done.out) == (0, ",".join(HEADER) + "\n" + ",".join(map(str, GOOD)) + "\n")


def test_a_member_gives_the_same_options_to_standard_input(at_work):
    at_work.settle()
    text = "Owner;Key;Material;Lot;Sublot;Amount (kg);Day\nACME ;K50;SALT;S-50;BAY1;100;2026-11-27\n"
    done = at_work.as_member("import", "--what", "receipts", "--trim", "--dates", "day", "--column", "amount=Amount (kg)", "-", stdin=text)
    assert done.status == 0 and recorded(at_work) == [("K50", 100, 261127)]
