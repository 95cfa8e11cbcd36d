"""Days that can't be meant: no date where the others are, in the future, or before the first day of their lot."""
import datetime
import pathlib
import sys

import pytest
from conftest import Plant, copied
from test_typing import END, Terminal

sys.path.insert(0, str(pathlib.Path(__file__).resolve().parent / "papers"))
import figures  # noqa: E402

OFFICE = """owner-add ACME ACMEKEY1
material-add ACME SALT kg
test-add ACME SALT PH 1 9
receive ACME K1 SALT S-1 BAY1 500 261110
receive ACME K2 SALT S-1 BAY2 500 261112
receive ACME K3 SALT S-2 BAY1 500 261110
result ACME S-1 PH 5 261112
> ACME POST /lots/S-1/release
"""
YEAR = datetime.date.today().year % 100 + 1


def day(days: int) -> int:
    """The day that is so many days from today."""
    return int(f"{datetime.date.today() + datetime.timedelta(days):%y%m%d}")


@pytest.fixture(scope="module")
def dated(program, tmp_path_factory) -> Plant:
    """An office whose days are dates."""
    return Plant(program, tmp_path_factory.mktemp("dated")).lay(OFFICE)


@pytest.fixture
def office(dated, plant, monkeypatch) -> Plant:
    """A copy of it."""
    monkeypatch.setenv("TOLL", dated.program)
    return copied(dated, plant)


FUTURE = f"20{YEAR}-11-12 is in the future"
NO_DATE = "is no date, and the days of the last movements are dates"
BEFORE = "2026-11-09 is before the first day of lot ACME {}, 2026-11-10"
LINES = [
    ("receive ACME K9 SALT S-2 BAY1 5 261109", BEFORE.format("S-2")), ("receive ACME K9 SALT S-9 BAY1 5 12", f"12 {NO_DATE}"), (f"receive ACME K9 SALT S-9 BAY1 5 {YEAR}1112", FUTURE),
    (f"split ACME K9 S-1 BAY1 BAY3 5 {YEAR}1112", FUTURE), ("ship ACME K9 S-1 BAY1 5 261109", BEFORE.format("S-1")), ("scrap ACME K9 S-1 BAY1 5 261131", f"261131 {NO_DATE}"),
    ("scrap ACME K9 S-1 BAY1 5 0", f"0 {NO_DATE}"), ("result ACME S-1 PH 5 261109", BEFORE.format("S-1")), ("scrap ACME next S-1 BAY1 5 261109", BEFORE.format("S-1")),
]


@pytest.mark.parametrize("line, why", LINES)
def test_a_day_that_cannot_be_meant_goes_in_with_yes_alone(office, line, why):
    done = office.run(*line.split())
    assert (done.status, done.out) == (1, "") and done.err == f"hilpoven: DAY: {why}; nothing is done\n  if it is meant: --yes takes it\n"
    assert office.lines() == []
    words = line.split()
    assert office.run(words[0], "--yes", *words[1:]).out == "accepted\n"
    if words[2] != "next":
        assert office.run(*words).out == ("accepted\n" if words[0] == "result" else "repeated\n")  # it is recorded already


@pytest.mark.parametrize("line", ["receive ACME K9 SALT S-2 BAY1 5 261111", "receive ACME K9 SALT S-9 BAY1 5 260101", "scrap ACME K9 S-1 BAY1 5 261110", "ship ACME K9 S-1 BAY1 5 {today}",
                                  "scrap ACME K9 S-1 BAY1 5 --today", "result ACME S-2 PH 5 261112", "receive ACME K3 SALT S-2 BAY1 500 261110"])
def test_a_day_that_may_be_meant_is_not_asked_about(office, line):
    done = office.run(*line.format(today=day(0)).split())
    assert done.status == 0 and "nothing is done" not in done.err, done


def test_days_that_are_numbers_are_compared_with_numbers(at_work):
    for line in ("scrap ACME K9 S-1 BAY1 5 261101", "scrap ACME K10 S-1 BAY1 5 7777", "receive ACME K11 SALT S-9 BAY1 5 3"):
        assert at_work.run(*line.split()).out == "accepted\n", line
    assert "100 is before the first day of lot ACME S-1, 101" in at_work.run("scrap", "ACME", "K12", "S-1", "BAY1", 5, 100).err
    assert "is in the future" in at_work.run("scrap", "ACME", "K12", "S-1", "BAY1", 5, f"{YEAR}0101").err


@pytest.mark.parametrize("typed, status, shown", [("n", 1, "nothing is done"), ("", 1, "nothing is done"), (END, 1, "nothing is done"), ("y", 0, "accepted")])
def test_somebody_at_a_terminal_is_asked(office, typed, status, shown):
    terminal = Terminal(office, *"scrap ACME K9 S-1 BAY1 5 261109".split())
    terminal.answer("Is it meant? [y/N] ", typed)
    ended, text = terminal.end()
    assert ended == status and shown in text and "is before the first day of lot ACME S-1" in text.replace("\n", " ")
    assert bool(office.rows("SELECT 1 FROM moves WHERE mkey = 'K9'")) == (status == 0)


SHEETS = {
    "receipts": ("owner,key,material,lot,sublot,amount,day", "ACME,K{n},SALT,S-2,BAY1,5,{day}"), "shipments": ("owner,key,lot,sublot,amount,day", "ACME,K{n},S-1,BAY1,5,{day}"),
    "results": ("owner,lot,test,value,day", "ACME,S-1,PH,{value},{day}"),
}


@pytest.mark.parametrize("kind", SHEETS)
def test_rows_of_sheets_with_such_days_are_refused(office, kind):
    header, row = SHEETS[kind]
    days = (261111, 261109, 7, f"{YEAR}1112", 261130 if day(0) >= 261130 else 261113)
    sheet = "\n".join([header, *(row.format(n=20 + number, value=2 + number, day=when) for number, when in enumerate(days))])
    done = office.run("import", "-", "--what", kind, stdin=sheet)
    column = "ABCDEFG"[header.count(",")]
    assert done.status == 1 and done.err.splitlines() == [f"row 3, column {column} (day): {BEFORE.format('S-2' if kind == 'receipts' else 'S-1')}; --yes takes it", f"row 4, column {column} (day): 7 {NO_DATE}; --yes takes it",
                                                         f"row 5, column {column} (day): {FUTURE}; --yes takes it"]
    assert done.out == f"5 {kind}: 2 accepted, 0 there already, 0 refused, 3 can't be read\n"
    done = office.run("import", "-", "--what", kind, "--yes", stdin=sheet)
    assert (done.status, done.out) == (0, f"5 {kind}: 3 accepted, 2 there already, 0 refused, 0 can't be read\n") and done.err.count("; taken") == 3
    done = office.run("import", "-", "--what", kind, stdin=sheet)
    assert (done.status, done.out) == (0, f"5 {kind}: 0 accepted, 5 there already, 0 refused, 0 can't be read; nothing was new\n")


def test_the_day_of_a_count_is_looked_at(office):
    sheet = f"owner,lot,sublot,on_hand,counted,reason,day\nACME,S-1,BAY1,500,493,wet,{YEAR}1112\nACME,S-1,BAY2,500,500,,{YEAR}1112\n"
    done = office.run("count", "import", "-", stdin=sheet)
    assert done.status == 1 and f"{FUTURE}; --yes takes it" in done.out and done.out.endswith("2 sublots: 1 as on hand, 0 there already, 0 recorded, 0 not counted, 1 refused\n")
    assert office.run("count", "import", "-", "--yes", stdin=sheet).out.endswith("2 sublots: 1 as on hand, 0 there already, 1 recorded, 0 not counted, 0 refused\n")
    assert office.run("count", "import", "-", stdin=sheet).status == 0


def test_the_first_sheet_of_an_office_is_compared_with_itself(plant, program, monkeypatch):
    monkeypatch.setenv("TOLL", program)
    plant.lay("owner-add ACME ACMEKEY1\nmaterial-add ACME SALT kg")
    rows = [f"ACME,K{number},SALT,S-{number},BAY1,5,{when}" for number, when in enumerate((261111, 261112, 7))]
    done = plant.run("import", "-", "--what", "receipts", stdin="\n".join([SHEETS["receipts"][0], *rows]))
    assert done.out == "3 receipts: 2 accepted, 0 there already, 0 refused, 1 can't be read\n" and f"7 {NO_DATE}" in done.err


def test_use_and_a_member_are_asked_too(office):
    office.settle()
    done = office.as_member("scrap", "ACME", "K9", "S-1", "BAY1", "5", "261109")
    assert done.status == 1 and BEFORE.format("S-1") in done.err
    office.lay("""unit-add KETTLE\nrecipe-add ACME R 1\nrequire ACME R 1 produced ACME SALT 5\n> ACME POST /orders {"order":"O-1","recipe":"R","batches":1}\nopen ACME O-1 KETTLE""")
    done = office.run("use", "ACME", "O-1", 1, "ACME", "S-1", "BAY1", 5, 261109)
    assert done.status == 1 and BEFORE.format("S-1") in done.err
    assert office.run("use", "ACME", "O-1", 1, "ACME", "S-1", "BAY1", 5, 261109, "--yes").out == "accepted\n"


def test_no_statement_opens_below_zero_without_naming_the_movement(office):
    assert office.run("ship", "ACME", "K7", "S-1", "BAY1", 5, 7, "--yes").status == 0
    for first, last in ((8, 261109), (0, 100), (261111, 261130)):
        folder = office.folder / f"made{first}"
        assert office.run("papers", "statement", "ACME", "--from", first, "--to", last, folder, "--no-pdf").status == 0
        lots = figures.read_csv(folder / "lots.csv")
        is_below = any(int(cell) < 0 for row in lots for cell in (row[4], row[10]))
        assert is_below == (first < 261110) == (folder / "overdrafts.csv").exists()
        if is_below:
            assert figures.read_csv(folder / "overdrafts.csv") == [["S-1", "7", "K7", "ship", "5", "-5", "kg", "261110", "K1"]]
            assert "By their days, more left a lot than had come" in (folder / "statement.html").read_text()
    text = "By the days, ship K7 of 7 leaves -5 kg of ACME S-1; K1 of 2026-11-10 brings something next."
    done = office.run("years", "statement", "ACME", "--from", 8, "--to", 261109)
    assert text in done.out and done.status == 0
    done = office.run("years", "statement", "ACME", "--from", 8, "--to", 261109, "--csv")
    assert text in done.err and text not in done.out
