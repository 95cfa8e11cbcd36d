"""A workbook is checked as a whole: all that is wrong is named by its cells, and nothing is given where one thing is."""
import datetime
import json

import pytest
from books import DAY_ONE, cell_of, copy_of, given, nothing_given, state, xlsx
from conftest import Plant, called, copied
from hilpoven.core import settings as site


@pytest.fixture(scope="session")
def begun(program, tmp_path_factory) -> Plant:
    """An office of the workbook, which no test changes."""
    plant = Plant(program, tmp_path_factory.mktemp("begun"))
    assert plant.run("new", plant.db).status == 0
    assert given(plant, DAY_ONE).status == 0
    return plant


@pytest.fixture
def office(begun, plant, monkeypatch) -> Plant:
    """An office of the workbook, without what was noted of it."""
    monkeypatch.setenv("TOLL", plant.program)
    return copied(begun, plant)



# Twenty cells that are wrong, each with what is told of it.
FAULTS = {
    "Owners!B2": ("two\nlines", "a text is one line"),
    "Owners!C3": ("x" * 201, "a text has at most 200"),
    "Units!A2": ("=1+1", "a formula without a value"),
    "Units!A3": (True, "the truth value TRUE"),
    "Materials!C3": ("kg/m3", "a measure has letters alone"),
    "Tests!D2": ("6.505", "has 3 decimals, and the test has 2"),
    "Tests!D3": ("1300", "1300 is above the upper limit, 1250"),
    "Tests!F4": ("12", "12 is no number from 1 to 9"),
    "Recipes!D2": ("101", "is no percentage from 0.1 to 100"),
    "Requirements!D2": ("eaten", "is neither consumed nor produced"),
    "Requirements!F3": ("WATTER", "there is no material WATTER of HOUSE, in the office or in Materials. Nearest of the materials of HOUSE: WATER."),
    "Requirements!G4": ("1.5", "is no whole number"),
    "Parties!D3": ("client", "'client' is none of customer, supplier and carrier"),
    "Parties!F3": ("x" * 201, "a text has at most 200"),
    "Stock!B3": ("BRINE", "row 2 says that the lot is of SALT"),
    "Stock!E3": ("0", "0 is below 1"),
    "Stock!F4": ("999999999", "is no date"),
    "Stock!G2": ("NORD", "NORD of ACME is a customer, and no supplier"),
    "Stock!A5": ("HOUSF", "there is no owner HOUSF, in the office or in Owners. Nearest of the owners: HOUSE."),
    "Stock!L5": ("31.02.2027", "is no date"),
}


def test_twenty_faults_are_named_with_their_cells_and_nothing_is_given(empty):
    book = DAY_ONE
    for cell, (content, _) in FAULTS.items():
        book = cell_of(book, cell, content)
    before = state(empty)
    done = given(empty, book)
    lines = done.err.splitlines()
    named = {line.split(": ")[0]: line.partition(": ")[2] for line in lines if "!" in line}
    assert done.status == 1 and done.out == "" and nothing_given(empty, before)
    for cell, (_, why) in FAULTS.items():
        assert why in named.get(cell, ""), (cell, named.get(cell))
    assert list(named) == sorted(FAULTS, key=lambda cell: (list(DAY_ONE).index(cell.split("!")[0]), cell[-1], cell)) and "20 faults, and nothing of it was given" in done.err


ALONE = {"Owners!A3": ("Acme Ltd", "'Acme Ltd' is no name"), "Recipes!E2": ("SALT", "no requirement says that BRINE-10 of ACME produces SALT"), "Requirements!E2": ("BOLT", "BOLT is neither ACME nor HOUSE"),
         "Requirements!C4": ("51", "51 is above 50"), "Materials!B5": ("dye", "'dye' has lower-case letters; --capitals takes it as DYE"), "Parties!A2": ("NOBODY", "there is no owner NOBODY")}


@pytest.mark.parametrize("cell", ALONE)
def test_one_cell_that_is_wrong_gives_nothing(empty, cell):
    content, why = ALONE[cell]
    before = state(empty)
    done = given(empty, cell_of(DAY_ONE, cell, content))
    assert done.status == 1 and nothing_given(empty, before)
    assert any(line.startswith(f"{cell}: ") and why in line for line in done.err.splitlines()), done.err


# What only `toll` knows: it refuses this in a copy.

def test_more_owners_than_an_office_has_are_refused_before_any_is_added(empty):
    before = state(empty)
    done = given(empty, {"Owners": [["owner"], *([f"O{number}"] for number in range(65))]})
    assert done.status == 1 and "Owners!A66: refused " in done.err and "1 fault, and nothing of it was given" in done.err and nothing_given(empty, before)


def test_a_test_of_a_material_in_use_is_refused_before_anything_is_given(office):
    before = state(office)
    done = given(office, {"Units": [["unit"], ["NEW"]], "Tests": [["owner", "material", "test", "low", "high"], ["ACME", "SALT", "NEW", "1", "2"]]})
    assert done.status == 1 and "Tests!C2: refused 10 MaterialInUse: a lot is of the material" in done.err and nothing_given(office, before)


# A cell of what the office has already, with another content, and what is told of it.
OTHERS = {
    "Materials!C3": ("g", "it is there already with kg, and not with g"),
    "Tests!D3": ("1200", "it is there already with 1,100 to 1,250, and not with 1,200 to 1,250"),
    "Recipes!C2": ("3", "it is there already with 2, and not with 3"),
    "Requirements!G2": ("301", "it is there already with 300, and not with 301"),
    "Stock!E2": ("501", "it is there already with other values: hilpoven show key ACME OPEN-"),
    "Stock!F2": ("261102", "it is there already with other values"),
}


@pytest.mark.parametrize("cell", OTHERS)
def test_what_the_office_has_otherwise_is_named_and_nothing_is_given(office, cell):
    content, why = OTHERS[cell]
    book, before = cell_of(DAY_ONE, cell, content), state(office)
    book["Units"].append(["NEW"])
    done = given(office, book)
    named = [line for line in done.err.splitlines() if "!" in line]
    assert done.status == 1 and nothing_given(office, before)
    assert any(why in line for line in named), done.err


NOTED = {"Owners!B3": "Acme plc", "Materials!D3": "Rock salt", "Tests!G2": "-", "Tests!H2": "ISO 1", "Recipes!D2": "2.5", "Parties!C2": "North", "Parties!D2": "supplier", "Parties!F2": "1", "Stock!J4": "261029", "Stock!H2": "L 78"}


def test_what_is_noted_otherwise_is_named_and_nothing_is_given(empty):
    plant = empty
    given(plant, DAY_ONE)
    book = DAY_ONE
    for cell, content in NOTED.items():
        book = cell_of(book, cell, content)
    before = state(plant)
    done = given(plant, book)
    named = {line.partition(": ")[0]: line for line in done.err.splitlines() if "!" in line}
    assert done.status == 1 and nothing_given(plant, before)
    assert set(NOTED) <= set(named) and "Recipes!D2: 1.5 is noted of it already, and not 2.5" in done.err and "Owners!B3: Acme Foods Ltd is noted of it already, and not Acme plc" in done.err


def test_rows_that_come_twice_are_named(empty):
    book = copy_of(DAY_ONE)
    for title in book:
        book[title].append(book[title][1])
    before = state(empty)
    done = given(empty, book)
    named = [line for line in done.err.splitlines() if "row 2 says it already" in line]
    assert done.status == 1 and [line.partition("!")[0] for line in named] == list(DAY_ONE) and nothing_given(empty, before)


def test_a_lot_that_is_here_takes_no_opening_stock(at_work, monkeypatch):
    monkeypatch.setenv("TOLL", at_work.program)
    before = state(at_work)
    stock = DAY_ONE["Stock"][0][:6]
    done = given(at_work, {"Stock": [stock, ["ACME", "SALT", "S-1", "BAY9", "5", "101"], ["ACME", "BRINE", "S-1", "BAY8", "5", "101"]]})
    assert done.status == 1 and nothing_given(at_work, before)
    assert "Stock!C2: lot S-1 of ACME is there already, and not as opening stock: hilpoven show lot ACME S-1" in done.err
    assert "Stock!B3: row 2 says that the lot is of SALT" in done.err
    amount = dict(at_work.rows("SELECT sublot, amount FROM sublots WHERE lot = 'S-1'"))["BAY1"]
    done = given(at_work, {"Stock": [stock, ["ACME", "SALT", "S-1", "BAY1", str(amount), "101"]]})
    assert done.out == "Stock: 0 accepted, 1 there already\n" and nothing_given(at_work, before)


def test_a_sublot_that_is_here_takes_no_opening_stock(office):
    assert office.run("split", "ACME", "K9", "S-1", "BAY1", "BAY3", 50, 261103).status == 0
    before, book = state(office), copy_of(DAY_ONE)
    book["Stock"].append(["ACME", "SALT", "S-1", "BAY3", "30", "261103"])
    done = given(office, book)
    assert done.status == 1 and "Stock!D6: it is there already with 50, and not as opening stock" in done.err and nothing_given(office, before)


def test_days_that_can_t_be_meant_are_named_and_taken_if_they_are(empty):
    book, before = cell_of(DAY_ONE, "Stock!F2", "991231"), state(empty)
    done = given(empty, book)
    assert done.status == 1 and "Stock!F2: 2099-12-31 is in the future; --yes takes it" in done.err and nothing_given(empty, before)
    assert given(empty, book, "--yes").status == 0


def test_a_lot_expires_behind_the_day_on_which_it_was_made(empty):
    done = given(empty, cell_of(DAY_ONE, "Stock!K4", "260101"))
    assert done.status == 1 and "Stock!K4: lot ACME B-1 expires on 260101, and was made on 261030" in done.err


def test_values_that_a_sheet_may_have_changed_are_taken_if_that_is_asked_for(empty):
    book = cell_of(cell_of(cell_of(DAY_ONE, "Stock!C5", 100000), "Stock!F5", datetime.date(2026, 11, 1)), "Stock!E5", 10000.0)
    done = given(empty, book)
    assert done.status == 1 and "Stock!C5: 100000 is held as a number" in done.err and "--digits lot takes it" in done.err
    assert "Stock!F5: 2026-11-01 is a date, and a day is a number; --dates day takes it as 261101" in done.err
    assert given(empty, book, "--digits", "lot", "--dates", "day").status == 0
    assert empty.rows("SELECT lot, amount, day FROM moves WHERE owner = 'HOUSE'") == [("100000", 10000, 261101)]


def test_numbers_of_tests_are_read_as_they_are_shown(empty):
    book = cell_of(cell_of(cell_of(DAY_ONE, "Tests!D2", 6.5), "Tests!E2", 8.5), "Tests!F2", 2)
    book = cell_of(cell_of(book, "Tests!D4", -5), "Recipes!D2", 1.5)
    assert given(empty, book).status == 0
    assert empty.rows("SELECT test, low, high FROM tests ORDER BY 1") == [("COLD", -5, 9), ("DENSITY", 1100, 1250), ("PH", 650, 850)]


@pytest.mark.parametrize("options, why", [
    (["--rows", "2-3"], "--rows is for one sheet"), (["--sheet", "Owners"], "--sheet is for one sheet"), (["--header-row", "2"], "--header-row is for one sheet"),
    (["--column", "amount=Menge"], "--column is for one sheet"), (["--digits", "roles"], "'roles' is none of"), (["--decimals", "lot"], "'lot' is none of"),
])
def test_options_of_one_sheet_are_refused(empty, options, why):
    before = state(empty)
    done = given(empty, DAY_ONE, *options)
    assert done.status == 2 and why in done.err and nothing_given(empty, before)


# Members of the group

ROLES = {"keys": "owner-add is for the members of man alone, by the role keys", "master_data": "by the role master_data", "quality": "describe lot is for the members of man alone, by the role quality"}


@pytest.mark.parametrize("role", ROLES)
def test_a_member_needs_the_role_of_each_command_that_a_workbook_stands_for(empty, role):
    content = xlsx(empty.folder / "book.xlsx", DAY_ONE).read_bytes()
    empty.settle()
    path = site.load.__defaults__[0]
    path.write_text(path.read_text() + f"[roles]\n{role} = {json.dumps(['man'])}\n")
    before = state(empty)
    done = empty.as_member("import", "--what", "workbook", "-", stdin=content)
    assert done.status == 2 and ROLES[role] in done.err and nothing_given(empty, before)


def test_a_member_hands_a_workbook_over_by_standard_input_and_names_no_file(empty):
    path = xlsx(empty.folder / "book.xlsx", DAY_ONE)
    empty.settle()
    before = state(empty)
    done = empty.as_member("import", "--what", "workbook", str(path))
    assert done.status == 2 and "a sheet comes through standard input" in done.err and nothing_given(empty, before)
    done = empty.as_member("export", "workbook", str(empty.folder / "new.xlsx"))
    assert done.status == 2 and "it is written to standard output" in done.err and not (empty.folder / "new.xlsx").exists()
    assert empty.as_member("import", "--what", "workbook", "-", stdin=path.read_bytes()).status == 0


def test_the_help_says_how(empty):
    done = called("--db", empty.db, "import", "--help", TOLL=empty.program)
    assert "workbook" in done.out and "import --what workbook day-one.xlsx" in done.out
