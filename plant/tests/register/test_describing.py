"""What people describe, and values of tests as they were measured: by words, by sheets, in lists and on paper."""
import csv
import html
import io
import json

import openpyxl
import pytest
from conftest import copied
from hilpoven.core import settings as site
from hilpoven.model.register.noted import from_json
from test_parties import HOSTILE, rows_of

PH = ("describe", "test", "ACME", "BRINE", "PH")
RESULT = ("result", "ACME", "B-1", "PH")


@pytest.fixture
def described(settled):
    """An office at work in which the PH of BRINE has two decimals: its limits are -0.05 to 0.09."""
    assert settled.run(*PH, "--decimals", 2, "--unit", "pH", "--method", "ISO 10523").status == 0
    return settled


def results(plant, test="PH"):
    """The values of a test of lot B-1 that `toll` has, and as they are listed."""
    listed = rows_of(plant.run("list", "results", "--lot", "B-1", "--csv").out)
    return [(int(row["value"]), row.get("noted_value", "")) for row in listed if row["test"] == test]


def notes(plant):
    """The notes of the journal's last line that has some."""
    return [line["notes"] for line in plant.lines() if "notes" in line][-1]


def test_what_is_described_is_shown(settled):
    for words in (("owner", "ACME", "--name", "Acme Foods Ltd", "--address", "1 Dock Road"), ("material", "ACME", "BRINE", "--name", "Brine, 10 %"),
                  ("test", "ACME", "BRINE", "PH", "--name", "Acidity", "--unit", "pH", "--method", "ISO 10523"), ("lot", "ACME", "B-1", "--made", 261101, "--expires", 271101),
                  ("owner", "HOUSE", "--name", "The plant"), ("material", "HOUSE", "WATER", "--name", "Soft water")):
        assert settled.run("describe", *words).out.startswith("noted "), words
    assert settled.run("describe", "lot", "ACME", "B-1", "--retest", 270501).status == 0
    assert settled.run("describe", "owner", "ACME").out == "owner ACME\n  name: Acme Foods Ltd\n  address: 1 Dock Road\n"
    assert settled.run("describe", "material", "HOUSE", "WATER").out == "material WATER of HOUSE\n  name: Soft water\n"
    assert settled.run(*PH).out == "test PH of ACME BRINE\n  name: Acidity\n  unit: pH\n  method: ISO 10523\n  limits: -5 to 9\n"
    assert settled.run("describe", "lot", "ACME", "B-1").out == "lot B-1 of ACME\n  made: 2026-11-01\n  expires: 2027-11-01\n  retest: 2027-05-01\n"
    assert settled.run("describe", "recipe", "ACME", "BRINE-10").out == "recipe BRINE-10 of ACME\n\nNothing is noted of it.\n"
    assert settled.run("describe", "recipe", "ACME", "BRINE-10", "--allowance", "1.5").status == 0
    assert settled.run("describe", "recipe", "ACME", "BRINE-10").out == "recipe BRINE-10 of ACME\n  allowance: 1.5 %\n"
    assert settled.run("describe", "lot", "ACME", "S-1").out == "lot S-1 of ACME\n\nNothing is noted of it.\n"
    assert "  noted expires: 2027-11-01\n" in settled.run("show", "lot", "ACME", "B-1").out
    listed = {name: rows_of(settled.run("list", name, "--csv").out) for name in ("owners", "materials", "tests", "lots")}
    assert {(row["owner"], row["noted_name"]) for row in listed["owners"]} == {("ACME", "Acme Foods Ltd"), ("BOLT", ""), ("HOUSE", "The plant")}
    assert [row["noted_name"] for row in listed["materials"] if row["material"] == "BRINE"] == ["Brine, 10 %"]
    assert [(row["noted_name"], row["noted_unit"], row["noted_method"]) for row in listed["tests"]] == [("", "", ""), ("Acidity", "pH", "ISO 10523")]
    assert [row["noted_expires"] for row in listed["lots"] if row["lot"] == "B-1"] == ["271101"]


def test_numbers_of_gs1_and_unit_codes_are_shown(settled):
    assert settled.run("describe", "owner", "ACME", "--gln", "4012345000009").out.startswith("noted ")
    assert settled.run("describe", "material", "ACME", "BRINE", "--gtin", "4012345678901", "--unit-code", "KGM").out.startswith("noted ")
    assert notes(settled) == [{"kind": "material", "owner": "ACME", "material": "BRINE", "gtin": "4012345678901", "unit_code": "KGM"}]
    assert settled.run("describe", "material", "ACME", "BRINE", "--gtin", "04012345678901").status == 0  # the last note of each member counts
    assert settled.run("describe", "owner", "ACME").out == "owner ACME\n  GLN: 4012345000009\n"
    assert settled.run("describe", "material", "ACME", "BRINE").out == "material BRINE of ACME\n  GTIN: 04012345678901\n  unit code: KGM\n"
    assert "material BRINE of ACME: GTIN 4012345678901, unit code KGM" in settled.run("note", "list").out


@pytest.mark.parametrize("member, value", [("gtin", "4012345678902"), ("gtin", 4012345678901), ("gln", "4012345000009"), ("unit_code", "kg"), ("unit_code", ["KGM"])])
def test_no_note_of_a_journal_has_another_number(member, value):
    assert from_json({"kind": "material", "owner": "ACME", "material": "BRINE", member: value}) is None
    assert from_json({"kind": "material", "owner": "ACME", "material": "BRINE", "gtin": "96385074", "unit_code": "H87"}) is not None


@pytest.mark.parametrize("words, status, why", [
    (("owner", "ACM", "--name", "A"), 1, "there is no owner ACM\n  Nearest of the owners: ACME"), (("owner", "ACME", "--name", " "), 2, "is empty"),
    (("material", "ACME", "BRIN", "--name", "A"), 1, "there is no material ACME BRIN\n  Nearest of the materials: BRINE"), (("material", "ACM", "BRINE"), 1, "there is no owner ACM"),
    (("test", "ACME", "BRINE", "PHH", "--unit", "A"), 1, "there is no test ACME BRINE PHH\n  Nearest of the tests: PH"), (("test", "ACME", "SUGAR", "PH"), 1, "there is no material ACME SUGAR"),
    *((("owner", "ACME", "--gln", gln), 2, why) for gln, why in (("4012345000001", "behind 401234500000 its check digit is 9"), ("401234500000", "is no GLN, which has 13 digits"), ("", "is no GLN"), ("٤٠١٢٣٤٥٠٠٠٠٠٩", "is no GLN"))),
    *((("material", "ACME", "BRINE", "--gtin", gtin), 2, "is no GTIN") for gtin in ("4012345678902", "12345", "040123456789012", "0x12345678901")),
    *((("material", "ACME", "BRINE", "--unit-code", code), 2, "is no unit code") for code in ("kg", "K", "KGMX", "KG\n", "K-1", "")),
    *((("test", "ACME", "BRINE", "PH", "--decimals", decimals), 2, "--decimals") for decimals in ("0", "10", "-1", "2.0", "x")),
    (("recipe", "ACME", "BRINE-1", "--allowance", "2"), 1, "there is no recipe ACME BRINE-1\n  Nearest of the recipes: BRINE-10"),
    *((("recipe", "ACME", "BRINE-10", "--allowance", percent), 2, "is no percentage from 0.1 to 100, such as 1.5") for percent in ("0", "0.0", "100.1", "1.55", "-1", "1,5", "²", "1%")),
    (("lot", "ACME", "B-9", "--made", "261101"), 1, "there is no lot B-9 of ACME"), (("lot", "BOLT", "B-1"), 1, "there is no lot B-1 of BOLT"),
    *((("lot", "ACME", "B-1", "--expires", date), 2, "is no date; a date is written 2027-11-27 or 271127") for date in ("271301", "2027-02-30", "101", "0271101", "²71101", "٢٧١١٠١")),
    (("lot", "ACME", "B-1", "--made", "261102", "--expires", "261101"), 1, "lot ACME B-1 expires on 261101, and was made on 261102"), (("lot", "ACME"), 2, "LOT"), (("day",), 2, "there is no command describe day")])
def test_what_cannot_be_described_is_refused(settled, words, status, why):
    done = settled.run("describe", *words)
    assert done.status == status and why in done.err and done.out == "" and settled.lines() == []


@pytest.mark.parametrize("text", HOSTILE)
def test_no_text_is_more_than_a_line_that_can_be_seen(settled, text):
    for words in (("owner", "ACME", "--name"), ("owner", "ACME", "--address"), ("material", "ACME", "BRINE", "--name"), *((*PH[1:], option) for option in ("--name", "--unit", "--method"))):
        done = settled.run("describe", *words, text)
        assert done.status == 2 and text not in done.err
    done = settled.run("test-add", "ACME", "SUGAR", "PH", 1, 2, "--unit", text)
    assert done.status == 2 and settled.lines() == []


def test_decimals_stay_once_they_are_noted(described):
    done = described.run(*PH, "--decimals", 3)
    assert done.status == 1 and "test PH of ACME BRINE has values with 2 decimals: -0.05 would be read as -0.005" in done.err
    assert described.run(*PH, "--decimals", 2, "--unit", "pH (25 °C)").status == 0
    name = described.lines()[0]["id"]
    for note in (name, described.lines()[-1]["id"]):
        assert described.run("note", "withdraw", note, "--reason", "it has three").status == 0
    done = described.run(*PH, "--decimals", 3)
    assert done.status == 0 and done.err == "  The limits are read as -0.005 to 0.009; toll has -5 to 9.\n"
    density = ("describe", "test", "ACME", "BRINE", "DENSITY", "--decimals", 1)
    before = described.run("list", "results", "--csv").out
    done = described.run(*density)
    assert done.status == 1 and "test DENSITY of ACME BRINE has 1 result without decimals: 1,180 would be read as 118.0" in done.err
    assert "--results-too" in done.err and "material new ACME NAME MEASURE --test DENSITY LOW HIGH --decimals DENSITY 1" in done.err
    assert described.run("list", "results", "--csv").out == before
    done = described.run(*density, "--results-too")
    assert done.err == "  The limits are read as 110.0 to 125.0, and 1 result so too; toll has 1,100 to 1,250.\n"
    assert described.lines()[-1]["words"][-3:] == ["--results-too", "--decimals", "1"]


def test_a_result_with_decimals_names_the_note_that_is_missing(settled):
    """Beside a journal with and without notes of values."""
    for words in ((), ("describe", "test", "ACME", "BRINE", "DENSITY", "--unit", "g/l")):
        assert not words or settled.run(*words).status == 0
        done = settled.run("result", "ACME", "B-1", "PH", "7.25", 103)
        assert done.status == 1 and done.out == "refused 2 BadAmount\n"
        assert "Test PH of ACME BRINE has no decimals. If its limits -5 to 9 mean -0.05 to 0.09: `hilpoven describe test ACME BRINE PH --decimals 2`." in done.err
    for words in (("B-1", "PHH", "7.25"), ("B-9", "PH", "7.25"), ("B-1", "PH", "10000000000")):
        assert "describe test" not in settled.run("result", "ACME", *words, 103).err
    assert settled.rows("SELECT count(*) FROM results WHERE test = 'PH'") == [(0,)]


def test_decimals_may_change_while_all_values_are_zero(settled):
    settled.lay("material-add ACME SUGAR kg\ntest-add ACME SUGAR LEAD 0 0\nreceive ACME K30 SUGAR G-1 BAY1 5 101\n")
    words = ("describe", "test", "ACME", "SUGAR", "LEAD", "--decimals")
    assert settled.run(*words, 2).status == 0 and settled.run(*words, 3).status == 0
    assert settled.run("result", "ACME", "G-1", "LEAD", "0.001", 103).status == 0
    assert "0.001 would be read as 0.1" in settled.run(*words, 1).err


def test_a_test_is_added_with_limits_as_they_are_measured(settled):
    settled.lay("material-add ACME SUGAR kg\n")
    done = settled.run("test-add", "ACME", "SUGAR", "PH", "-0.5", "8.50", "--decimals", 2, "--unit", "pH", "--method", "ISO 10523")
    assert done == (0, "accepted\n", "  LOW: -0.5 is given as M50\n  HIGH: 8.50 is given as 850\n")
    assert settled.rows("SELECT low, high FROM tests WHERE material = 'SUGAR'") == [(-50, 850)]
    assert notes(settled) == [{"kind": "test", "owner": "ACME", "material": "SUGAR", "test": "PH", "unit": "pH", "decimals": 2, "method": "ISO 10523"}]
    assert [(row["low"], row["noted_low"], row["noted_high"]) for row in rows_of(settled.run("list", "tests", "--csv").out) if row["material"] == "SUGAR"] == [("-50", "-0.50", "8.50")]
    done = settled.run("test-add", "ACME", "SUGAR", "X", "1.005", 2, "--decimals", 2)
    assert done.status == 2 and "`1.005` has 3 decimals, and the test has 2" in done.err
    assert settled.run("test-add", "ACME", "BRINE", "X", 1, 2, "--decimals", 1).out.startswith("refused ")  # the material has lots
    assert ("ACME", "BRINE", "X") not in {(row["owner"], row["material"], row["test"]) for row in rows_of(settled.run("list", "tests", "--csv").out)}
    assert "its command was refused" in settled.run("note", "list").out


NEW = ("material", "new", "ACME", "SUGAR", "kg", "--test", "PH", "6.50", "8.50", "--test", "PURITY", 98, 100)


def test_a_material_is_added_with_limits_as_they_are_measured(settled):
    assert settled.run(*NEW, "--decimals", "PH", 2).out == "material-add ACME SUGAR kg: accepted\ntest-add ACME SUGAR PH 650 850: accepted\ntest-add ACME SUGAR PURITY 98 100: accepted\n"
    assert settled.rows("SELECT test, low, high FROM tests WHERE material = 'SUGAR' ORDER BY test") == [("PH", 650, 850), ("PURITY", 98, 100)]
    assert [line["notes"] for line in settled.lines() if "notes" in line] == [[{"kind": "test", "owner": "ACME", "material": "SUGAR", "test": "PH", "decimals": 2}]]
    before = settled.lines()
    for words in (NEW, (*NEW, "--decimals", "PH", 2)):
        done = settled.run(*words)
        assert done.status == 0 and [line.rsplit(": ")[1] for line in done.out.splitlines()] == ["there already"] * 3
    for test, recorded, other in ((("PH", 650, 850), "6.50 to 8.50", "650.00 to 850.00"), (("PURITY", "9.8", "10.0", "--decimals", "PURITY", 1), "98 to 100", "9.8 to 10.0"),
                                  (("PH", "0.650", "0.850", "--decimals", "PH", 3), "6.50 to 8.50", "0.650 to 0.850")):
        done = settled.run(*NEW[:5], "--test", *test)
        assert done.status == 1 and done.out == "" and f"ACME SUGAR {test[0]} is there already with {recorded}, and not with {other}" in done.err
    assert settled.lines() == before


@pytest.mark.parametrize("options, why", [
    ((), "LOW: `6.50` has decimals"), (("--decimals", "PH", 1), "`6.50` has 2 decimals, and the test has 1"), (("--decimals", "PHH", 2), "--decimals PHH: there is no --test PHH beside it"),
    *((("--decimals", "PH", decimals), "--decimals") for decimals in (0, 10, "x", "2.0"))])
def test_limits_that_cannot_be_read_add_no_material(settled, options, why):
    done = settled.run(*NEW, *options)
    assert done.status == 2 and why in done.err and done.out == "" and settled.lines() == [] and settled.rows("SELECT * FROM materials WHERE material = 'SUGAR'") == []


@pytest.mark.parametrize("typed, value, listed", [("0.07", 7, "0.07"), ("-0.05", -5, "-0.05"), ("M0.05", -5, "-0.05"), ("0", 0, "0.00"), ("7.02", 702, "7.02"), ("1000", 100_000, "1000.00")])
def test_a_result_is_recorded_as_it_was_measured(described, typed, value, listed):
    done = described.run(*RESULT, typed, 103)
    word = f"M{-value}" if value < 0 else str(value)
    assert done.out == "accepted\n" and done.err == ("" if word == typed else f"  VALUE: {typed} is given as {word}\n")
    assert results(described) == [(value, listed)] and described.lines()[-2]["words"] == [*RESULT, word, "103"]


@pytest.mark.parametrize("typed, why", [
    ("0.071", "has 3 decimals, and the test has 2"), ("0,07", "decimals stand behind a point"), ("10000000.01", "out of what toll takes"), ("", "is no number"), ("x", "is no number"), ("1e3", "is no number"),
    ("<0.05", "what is below 0.05 may be outside"), (">0.05", "what is above 0.05 may be outside"), (">0.09", "may be outside"), ("<<1", "is no number"), ("<", "is no number"), ("\x1b[2J", "is no number")])
def test_a_value_that_cannot_be_recorded_is_told(described, typed, why):
    before = described.lines()
    done = described.run(*RESULT, typed, 103)
    assert done.status in (1, 2) and why in done.err and done.out == "" and "\x1b" not in done.err and described.lines() == before and results(described) == []


def test_values_are_as_toll_has_them_where_no_decimals_are_noted(described):
    done = described.run("result", "ACME", "B-1", "DENSITY", "1.180", 103)
    assert done.out == "refused 2 BadAmount\n" and "VALUE: `1.180` has something between its thousands" in done.err
    assert described.run("result", "ACME", "B-1", "DENSITY", 1180, 103).err == ""
    assert described.run("result", "ACME", "B-9", "PH", 7, 103).out == "refused 27 UnknownLot\n"
    assert "there is no lot ACME B-9" in described.run("result", "ACME", "B-9", "PH", "7.02", 103).err
    assert "there is no test ACME BRINE PHH" in described.run("result", "ACME", "B-1", "PHH", "<7", 103).err
    assert described.run(*RESULT, "0.07", "x").out == "refused 2 BadAmount\n"


@pytest.mark.parametrize("word", ["\udcff", "brine", "B\n1"])
def test_a_name_that_is_none_is_told_with_any_value(described, word):
    names = ["ACME", "B-1", "PH"]
    for at in range(3):
        for value in ("7.02", "<5"):
            words = [*names[:at], word, *names[at + 1 :], value, 103]
            done = described.run("result", *words)
            assert done.status in (1, 2) and done.out in ("", "refused 1 BadName\n", "refused 2 BadAmount\n")
            assert word.isprintable() or word not in done.err
    for at in range(3):
        done = described.run("test-add", *["ACME", "BRINE", "X"][:at], word, *["ACME", "BRINE", "X"][at + 1 :], "0.01", 2, "--decimals", 2)
        assert done.status in (1, 2) and "accepted" not in done.out


@pytest.fixture
def lead(settled):
    """An office at work with a lot of SUGAR, whose LEAD is to be at most 10, and without a note."""
    return settled.lay("material-add ACME SUGAR kg\ntest-add ACME SUGAR LEAD 0 10\ntest-add ACME SUGAR PURITY 98 1000000000\nreceive ACME K30 SUGAR G-1 BAY1 5 101\n")


def test_a_bound_is_recorded_as_its_number_and_shown_with_its_sign(lead):
    done = lead.run("result", "ACME", "G-1", "LEAD", "<5", 103)
    assert done == (0, "accepted\n", "  VALUE: <5 is given as 5\n")
    assert notes(lead) == [{"kind": "result", "owner": "ACME", "lot": "G-1", "test": "LEAD", "value": 5, "day": 103, "bound": "below"}]
    assert lead.run("result", "ACME", "G-1", "PURITY", ">99", 103).status == 0
    shown = lead.run("show", "lot", "ACME", "G-1").out
    assert "LEAD      0             10      <5  103" in shown and ">99" in shown and "Nothing is missing" in shown
    assert lead.run("result", "ACME", "G-1", "LEAD", ">50", 104).status == 0
    assert "LEAD: the latest result, >50, is out of 0 to 10" in lead.run("show", "lot", "ACME", "G-1").out
    tests = json.loads(lead.run("show", "lot", "ACME", "G-1", "--json").out)["tests"]
    assert [(row["latest"], row["noted latest"]) for row in tests] == [(50, ">50"), (99, ">99")]


@pytest.mark.parametrize("first, then", [("<5", "5"), ("5", "<5"), ("<5", ">5")])
def test_a_bound_and_a_result_that_could_not_be_told_apart_are_refused(lead, first, then):
    lead.run("result", "ACME", "G-1", "LEAD", 60, 102)
    assert lead.run("result", "ACME", "G-1", "LEAD", first, 103).status == 0
    before = lead.lines()
    done = lead.run("result", "ACME", "G-1", "LEAD", then, 103)
    assert done.status == 1 and f"has the result {first} of LEAD on day 103: {then} couldn't be told from it" in done.err and lead.lines() == before
    assert lead.run("result", "ACME", "G-1", "LEAD", first, 103).out == "accepted\n"


def test_a_bound_goes_with_its_note(lead):
    assert lead.run("result", "ACME", "G-1", "LEAD", "<5", 103).status == 0
    name = [line["id"] for line in lead.lines() if "notes" in line][-1]
    assert lead.run("note", "withdraw", name, "--reason", "it was 5").status == 0
    assert "<" not in lead.run("list", "results", "--csv").out and lead.run("result", "ACME", "G-1", "LEAD", 5, 103).status == 0


SHEET = """owner,lot,test,value,day
ACME,B-1,PH,0.07,103
ACME,B-1,PH,7,103
ACME,B-1,PH,-0.05,104
ACME,B-1,PH,M0.02,104
ACME,B-1,PH,0.071,104
ACME,B-1,PH,"0,07",104
ACME,B-1,PH,<0.02,104
ACME,B-1,PH,>7.02,105
ACME,B-1,PH,7.02,105
ACME,B-1,DENSITY,1180.0,105
ACME,B-1,DENSITY,<900,105
ACME,B-9,PH,<5,105
ACME,B-9,PH,5,105
"""


def test_a_sheet_has_results_as_they_were_measured(described):
    sheet = described.folder / "results.csv"
    sheet.write_text(SHEET)
    done = described.run("import", "--what", "results", sheet)
    assert done.out.splitlines() == ["row 14 (ACME B-9 PH): refused 27 UnknownLot: the owner has no lot of this name", "13 results: 6 accepted, 0 there already, 1 refused, 6 can't be read"]
    assert [line.split(": ", 1)[0] for line in done.err.splitlines()] == ["6 values are given to toll as whole numbers, such as 0.07 as 7 (row 2)", *(f"row {row}, column D (value)" for row in (6, 7, 8, 10, 11, 13))]
    assert results(described) == [(7, "0.07"), (700, "7.00"), (-5, "-0.05"), (-2, "-0.02"), (702, ">7.02")] and results(described, "DENSITY")[-1] == (900, "<900")
    done = described.run("import", "--what", "results", sheet)
    assert done.out.splitlines()[-1] == "13 results: 0 accepted, 6 there already, 1 refused, 6 can't be read; nothing was new" and len(results(described)) == 5


def test_a_workbook_has_numbers_as_they_are_shown(described):
    book = openpyxl.Workbook()
    book.active.append(["owner", "lot", "test", "value", "day"])
    for value, form in ((7.02, "0.00"), (7.02, "General"), (7, "0.00"), (7.02, "0.0"), (1 / 3, "0.00"), (-0.05, "0.00"), ("<0.01", "General"), ("7.5", "@"), (1234.5, "#,##0.00")):
        book.active.append(["ACME", "B-1", "PH", value, 103])
        book.active.cell(book.active.max_row, 4).number_format = form
    path = described.folder / "sheet.xlsx"
    book.save(path)
    done = described.run("import", "--what", "results", path)
    assert [value for value, _ in results(described)] == [702, 700, -5, 750, 123_450], done
    reasons = [line.split(": ")[1] for line in done.err.splitlines() if line.startswith("row")]
    assert [reason.startswith(words) for reason, words in zip(reasons, ("it is the number 7.02, shown as", "it is the number 0.333", "toll would take <0.01 of PH for"), strict=True)] == [True] * 3, reasons


@pytest.mark.parametrize("cell", ["1180", " 1180", "1180 ", "1.180", "1180.0", "1180.5", "-5", "\u22125", "M5", "M-5", "5 %", "1e3", "+5", "00007"])
def test_values_of_a_sheet_without_signs_and_decimals_are_read_as_before(lead, cell):
    sheet = lead.folder / "results.csv"
    sheet.write_text(f"owner,lot,test,value,day\nACME,G-1,LEAD,{cell},103\n")
    converted, done = lead.run("to-csv", "--what", "results", sheet), lead.run("import", "--what", "results", sheet)
    reasons, none_left = converted.err.replace("1 refused, nothing is written\n", ""), f"hilpoven: {sheet}: nothing of it was given: no row can be read\n"
    assert (converted.status == 0) == (done.status == 0) and done.err == reasons + (none_left if done.status else "")


def test_to_csv_knows_no_decimals(described):
    sheet = described.folder / "results.csv"
    sheet.write_text("owner,lot,test,value,day\nACME,B-1,PH,<5,103\nACME,B-1,PH,7.02,103\n")
    done = described.run("to-csv", "--what", "results", sheet)
    assert done.status == 1 and "'<5' is no whole number" in done.err and "'7.02' is no whole number" in done.err


def test_papers_have_values_as_they_were_measured(described):
    for words in (("owner", "ACME", "--name", "Acme <Foods>"), ("material", "ACME", "BRINE", "--name", "Brine, 10 %"), ("lot", "ACME", "B-1", "--expires", 271101)):
        assert described.run("describe", *words).status == 0
    for value, day in (("7.02", 103), ("0.05", 104), (">0.10", 105)):
        assert described.run(*RESULT, value, day).status == 0
    for words, name, table in ((("lot", "ACME", "B-1"), "lot", "tests"), (("certificate", "ACME", "B-1"), "certificate", "tests"), (("batch", "ACME", "O-1", 1), "batch", "made_tests")):
        folder = described.folder / name
        assert described.run("papers", *words, folder, "--no-pdf").status == 0
        page = html.unescape((folder / f"{name}.html").read_text())
        assert "-0.05" in page and "0.09" in page and ">0.10" in page and "pH" in page and "BOLT" not in page
        row = rows_of((folder / f"{table}.csv").read_text())[-1]
        assert (row["low"], row["high"], row["value"]) == ("-5", "9", "10") and (row["noted_low"], row["noted_high"], row["noted_value"], row["noted_unit"]) == ("-0.05", "0.09", ">0.10", "pH")
    page = (described.folder / "lot" / "lot.html").read_text()
    assert "Acme &lt;Foods&gt;" in page and "Brine, 10 %" in page and "2027-11-01" in page and "PH: the latest result, &gt;0.10, is out of -0.05 to 0.09" in page
    assert [row["noted_value"] for row in rows_of((described.folder / "lot" / "results.csv").read_text())] == ["1180", "7.02", "0.05", ">0.10"]


def test_an_owners_papers_have_nothing_that_is_noted_of_others(described):
    described.lay("material-add HOUSE SOFT kg\ntest-add HOUSE SOFT LIME 0 9\n")
    secret = "Told-to-nobody"
    for words in (("owner", "BOLT", "--name", secret), ("owner", "HOUSE", "--address", secret), ("material", "BOLT", "PIGMENT", "--name", secret), ("material", "HOUSE", "WATER", "--name", secret),
                  ("test", "HOUSE", "SOFT", "LIME", "--unit", secret), ("lot", "HOUSE", "W-101", "--expires", 280229), ("lot", "BOLT", "P-1", "--expires", 280229)):
        assert described.run("describe", *words).status == 0
    for words, owners in ((("lot", "ACME", "B-1"), ""), (("certificate", "ACME", "B-1"), ""), (("batch", "ACME", "O-1", 1), ""), (("statement", "ACME", "--from", 0, "--to", 9_999_999), ""),
                          (("recall", "HOUSE", "W-101"), "owners")):
        folder = described.folder / f"made-{words[0]}"
        assert described.run("papers", *words, folder, "--no-pdf").status == 0
        texts = [path.read_text() for path in (folder / owners).rglob("*") if path.is_file()]
        assert texts and not any(secret in text or "2028-02-29" in text or "280229" in text for text in texts), words
    folder = described.folder / "of-house"
    assert described.run("papers", "lot", "HOUSE", "W-101", folder, "--no-pdf").status == 0
    assert secret in (folder / "lot.html").read_text() and "2028-02-29" in (folder / "lot.html").read_text()


def test_lists_of_an_office_without_facts_are_as_before(laid, plant):
    copied(laid, plant)
    heads = {name: next(csv.reader(io.StringIO(plant.run("list", name, "--csv").out))) for name in ("owners", "materials", "tests", "results", "lots")}
    assert plant.run("link", "ACME", "B-1", "S-1", "--why", "rework").status == 0
    for name, head in heads.items():
        assert next(csv.reader(io.StringIO(plant.run("list", name, "--csv").out))) == head and not any("noted" in column for column in head)


def test_a_member_describes_and_names_no_path(described):
    described.settle()
    assert described.as_member("describe", "owner", "ACME", "--name", "Acme").status == 0
    assert "name: Acme" in described.as_member("describe", "owner", "ACME").out
    assert described.as_member(*RESULT, "7.02", 103).out == "accepted\n" and described.as_member("list", "lots", "--expiring", 5).status == 0
    sheet = "owner,lot,test,value,day\nACME,B-1,PH,7.03,104\n"
    assert described.as_member("import", "--what", "results", "-", stdin=sheet).status == 0 and [value for value, _ in results(described)] == [702, 703]
    assert site.load().plant.logo == ""
