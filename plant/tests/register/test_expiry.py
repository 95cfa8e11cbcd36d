"""Lots past their day: `ship` and `actual` warn of them or refuse them, by words and by sheets; lists and the board have them."""
import datetime
import re

import pytest
from hilpoven.core import days
from test_parties import RELEASED, rows_of

SHIP = ("ship", "ACME", "K70", "B-1", "TOTE1", 5)
ACTUAL = ("actual", "K71", "ACME", "O-1", 1, 1, "consumed", "SALT", "ACME", "S-1", "BAY1", 3)
TODAY = datetime.date(2026, 12, 20)
PAST, OTHER = "Lot ACME B-1 expired on 2026-11-20, as the plant noted.", "Lot ACME S-1 was to be tested again by 2026-11-20, as the plant noted."


def day(after: int) -> int:
    """The day that is so many days from the clock's, which `at_noon` sets."""
    return int(f"{TODAY + datetime.timedelta(after):%y%m%d}")


@pytest.fixture
def at_noon(settled, monkeypatch):
    """An office at work, on a day that doesn't end while it is looked at."""
    monkeypatch.setattr(days, "today", lambda zone="": TODAY)
    return settled


@pytest.fixture
def aged(settled):
    """An office at work with a released lot that expires on 30 November 2026, and one that is to be tested again by then."""
    settled.lay(f"{RELEASED}actual K30 ACME O-1 1 2 produced BRINE ACME B-2 TOTE3 5 102\n")
    for lot in ("B-1", "B-2"):
        assert settled.run("describe", "lot", "ACME", lot, "--expires", 261120).status == 0
    assert settled.run("describe", "lot", "ACME", "S-1", "--retest", 261120, "--expires", 271130).status == 0
    return settled


def refuses(plant, **lines) -> None:
    """Has the settings say what becomes of such lots."""
    plant.settle()
    path = plant.folder / "hilpoven.toml"
    path.write_text(path.read_text() + "[expiry]\n" + "".join(f'{name} = "{value}"\n' for name, value in lines.items()))


def test_the_commands_warn_by_the_day_that_is_given(aged):
    assert aged.run(*SHIP, 261120) == (0, "accepted\n", "") and aged.run(*ACTUAL, 261120) == (0, "accepted\n", "")
    assert aged.run("ship", "ACME", "K72", "B-1", "TOTE1", 5, 261121) == (0, "accepted\n", f"  {PAST}\n")
    assert aged.run("actual", "K73", *ACTUAL[2:], 261121) == (0, "accepted\n", f"  {OTHER}\n")
    assert "may be used until 2026-11-20, and day 102 is no date" in aged.run("ship", "ACME", "K74", "B-1", "TOTE1", 5, 102).err
    assert aged.run("scrap", "ACME", "K75", "B-1", "TOTE1", 5, 261121).err == ""
    assert aged.run("actual", "K76", "ACME", "O-1", 1, 2, "produced", "BRINE", "ACME", "B-2", "TOTE3", 5, 261121) == (0, "accepted\n", "")
    assert "expired" in aged.run("use", "ACME", "O-1", 1, "ACME", "S-1", "BAY1", 5, 271201, "--yes").err


def test_the_settings_may_refuse_them(aged):
    refuses(aged, ship="refuse", actual="refuse")
    before = aged.content()
    for words, why in ((SHIP, "lot ACME B-1 expired on 2026-11-20, and the settings refuse it"), (ACTUAL, "lot ACME S-1 was to be tested again by 2026-11-20")):
        done = aged.run(*words, 261121)
        assert done.status == 1 and done.out == "" and why in done.err and "hilpoven describe lot ACME" in done.err
        assert aged.run(*words, 103).status == 1  # which is no date
    assert aged.content() == before and aged.run("scrap", "ACME", "K75", "B-1", "TOTE1", 5, 261121).out == "accepted\n"
    assert aged.run("describe", "lot", "ACME", "S-1", "--retest", 270530).status == 0 and aged.run(*ACTUAL, 261121).out == "accepted\n"


def test_each_command_has_a_setting_of_its_own(aged):
    refuses(aged, ship="refuse")
    assert aged.run(*SHIP, 261121).status == 1 and aged.run(*ACTUAL, 261121).out == "accepted\n"


def test_what_is_recorded_already_is_repeated(aged):
    assert aged.run(*SHIP, 261121).out == "accepted\n"
    refuses(aged, ship="refuse")
    assert aged.run(*SHIP, 261121).out == "repeated\n" and aged.run("ship", "ACME", "K72", "B-1", "TOTE1", 5, 261121).status == 1


@pytest.mark.parametrize("text, why", [("expiry = true\n", "expiry is to be a table: [expiry]"), ("[expiry]\nship = true\n", "ship is to be a text"), ('[expiry]\nship = "stop"\n', "ship is to be"),
                                       ('[expiry]\nscrap = "warn"\n', "scrap is no line of [expiry]")])
def test_what_the_settings_cannot_say_is_told(aged, text, why):
    (aged.folder / "hilpoven.toml").write_text(text)
    done = aged.run("list", "lots")
    assert done.status == 2 and why in done.err


SHIPMENTS = "owner,key,lot,sublot,amount,day\nACME,K70,B-1,TOTE1,5,261120\nACME,K71,B-1,TOTE1,5,261121\nACME,K72,B-1,TOTE1,5,103\n"
ACTUALS = """key,owner,order,batch,segment,use,material,lot_owner,lot,sublot,amount,day
K80,ACME,O-1,1,1,consumed,SALT,ACME,S-1,BAY1,3,261120
K81,ACME,O-1,1,1,consumed,SALT,ACME,S-1,BAY1,3,261121
K82,ACME,O-1,1,2,produced,BRINE,ACME,B-2,TOTE3,3,261121
"""


@pytest.mark.parametrize("kind, text, rows, column", [("shipments", SHIPMENTS, [3, 4], "F"), ("actuals", ACTUALS, [3], "L")])
def test_sheets_warn_and_refuse_as_the_commands_do(aged, kind, text, rows, column):
    sheet = aged.folder / "sheet.csv"
    sheet.write_text(text)
    refuses(aged, ship="refuse", actual="refuse")
    done = aged.run("import", "--what", kind, sheet)
    assert done.status == 1 and done.out == f"3 {kind}: {3 - len(rows)} accepted, 0 there already, 0 refused, {len(rows)} can't be read\n"
    assert [line.split(":")[0] for line in done.err.splitlines()] == [f"row {row}, column {column} (day)" for row in rows]
    refuses(aged)
    done = aged.run("import", "--what", kind, sheet)
    assert done.status == 0 and done.out == f"3 {kind}: {len(rows)} accepted, {3 - len(rows)} there already, 0 refused, 0 can't be read\n"
    assert [line.split(":")[0] for line in done.err.splitlines()] == [f"row {row}, column {column} (day)" for row in rows]


def test_lots_that_expire_are_listed_while_something_is_on_hand(at_noon):
    settled = at_noon.lay("receive ACME K40 SALT S-2 BAY5 5 101\nreceive ACME K41 SALT S-3 BAY6 5 101\nreceive ACME K42 SALT S-4 BAY7 5 101\nscrap ACME K43 S-4 BAY7 5 101\n")
    assert settled.run("list", "lots", "--expiring", 9).err == "no lots\n"
    for lot, *options in (("S-1", "--expires", day(10)), ("S-2", "--expires", day(400), "--retest", day(3)), ("S-3", "--expires", day(-3)), ("S-4", "--expires", day(0))):
        assert settled.run("describe", "lot", "ACME", lot, *options).status == 0

    def listed(count):
        return [row["lot"] for row in rows_of(settled.run("list", "lots", "--expiring", count, "--csv").out)]

    assert listed(0) == ["S-3"] and listed(9) == ["S-3", "S-2"] and listed(10) == ["S-3", "S-2", "S-1"]
    assert settled.run("list", "lots", "--expiring", -1).status == 2 and settled.run("list", "lots", "--expiring", 9, "--open", "--owner", "ACME").status == 0


def test_the_board_has_lots_that_expire_soon(at_noon):
    settled = at_noon
    for lot, last in (("S-1", day(20)), ("B-1", day(-1))):
        assert settled.run("describe", "lot", "ACME", lot, "--expires", last).status == 0
    page = settled.run("board").out
    rows = re.findall(r'<span class="about">(ACME [SB]-1)</span><span>(.*?) 20..-..-.. \*</span></p>\s*<p class="below">(.*?)</p>', page)
    assert rows == [("ACME B-1", "past", "980 kg quarantined, no PH yet"), ("ACME S-1", "until", "4,700 kg released")] and "* noted by the plant" in page
    assert settled.run("describe", "lot", "ACME", "S-1", "--expires", day(40)).status == 0
    assert "ACME S-1" not in settled.run("board").out
