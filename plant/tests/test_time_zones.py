"""Days and times of day are those of the plant's time zone, which the settings name, whatever the machine's is; and days are typed as
numbers or as dates."""
import datetime
import re
import subprocess
import time
import zoneinfo

import pytest
from conftest import is_told
from hilpoven.care.standby.state import Lag
from hilpoven.care.standby.state import State

AHEAD, BEHIND = "Pacific/Kiritimati", "Etc/GMT+12"  # 26 hours apart: never of one day


@pytest.fixture
def far_off(at_work, monkeypatch):
    """An office whose plant is ahead of its machine by more than a day."""
    monkeypatch.setenv("TZ", BEHIND)
    time.tzset()
    at_work.settle(time_zone=AHEAD)
    yield at_work
    monkeypatch.undo()
    time.tzset()


def days_of(zone, give):
    """What is given, and the date in a zone before and behind that."""
    before = datetime.datetime.now(zoneinfo.ZoneInfo(zone)).date()
    text = give()
    return text, {str(before), str(datetime.datetime.now(zoneinfo.ZoneInfo(zone)).date())}


def test_the_machine_of_the_tests_has_another_time_than_utc():
    printed = subprocess.run(["date", "+%z"], capture_output=True, text=True, check=True).stdout
    assert printed in ("+1245\n", "+1345\n") and time.timezone == -45900 and time.daylight


def test_the_board_has_the_time_of_the_plant(far_off):
    page, days = days_of(AHEAD, lambda: far_off.run("board").out)
    assert set(re.findall(r"\d{4}-\d\d-\d\d(?= \d\d:\d\d)", page)) & days


def test_a_label_has_the_day_of_the_plant(far_off):
    file = far_off.folder / "labels.pdf"
    _, days = days_of(AHEAD, lambda: far_off.run("labels", "ACME", "S-1", "--out", file))
    text = subprocess.run(["pdftotext", file, "-"], capture_output=True, text=True, check=True).stdout
    assert set(re.findall(r"\d{4}-\d\d-\d\d", text)) <= days


def test_all_of_an_owner_has_the_day_of_the_plant(far_off):

    folder = far_off.folder / "takeout"
    _, days = days_of(AHEAD, lambda: far_off.run("papers", "takeout", "ACME", folder, "--no-pdf"))
    pages = "".join(path.read_text() for path in folder.glob("*.html"))
    assert set(re.findall(r"All of ACME, (\d{4}-\d\d-\d\d)", pages)) <= days and "All of ACME, " in pages


def test_how_far_a_standby_is_has_the_time_of_the_plant():
    piece_at = datetime.datetime(2026, 11, 30, 23, 30, tzinfo=datetime.timezone.utc).timestamp()
    lag = Lag(State(at=piece_at, piece=7), False, 0.0, 0, zoneinfo.ZoneInfo(AHEAD))
    assert lag.lines == ["0.0 seconds behind: 0 commands and requests in no piece; piece 7 is of 2026-12-01 13:30:00"]


DATED = [
    ("receive ACME K9 SALT S-9 BAY1 5 2026-11-27 --yes", "moves", "day = 261127"),
    ("scrap ACME K9 --lot S-1 --sublot BAY1 --amount 5 --day 2026-11-27 --yes", "moves", "day = 261127"),
    ("result ACME B-1 PH 7 2026-11-27 --yes", "results", "day = 261127"),
    ("use ACME O-1 1 HOUSE W-101 TANK 5 2026-11-27 --yes", "moves", "day = 261127"),
]


@pytest.mark.parametrize("words, table, is_so", DATED)
def test_a_line_takes_a_date(at_work, words, table, is_so):
    done = at_work.run(*words.split())
    assert done.status == 0 and done.out.startswith("accepted\n"), done
    assert at_work.rows(f"SELECT count(*) FROM {table} WHERE {is_so}") == [(1,)]


def test_a_line_says_which_day_a_date_is(at_work):
    assert at_work.run("scrap", "ACME", "K9", "S-1", "BAY1", 5, "2026-11-27", "--yes") == (0, "accepted\n", "  DAY: 2026-11-27 is 261127\n")


@pytest.mark.parametrize("day", ["2026-11-27", "261127"])
def test_options_take_a_day_as_a_number_and_as_a_date(at_work, day):
    at_work.run("receive", "ACME", "K9", "SALT", "S-9", "BAY1", 5, 261127, "--yes")
    assert "K9" in at_work.run("list", "moves", "--since", day).out
    assert "S-9" in at_work.run("years", "statement", "ACME", "--from", day, "--to", day).out
    assert at_work.run("papers", "statement", "ACME", "--from", day, "--to", day, at_work.folder / "paper", "--no-pdf").status == 0
    assert at_work.run("hold", "ACME", "S-9", "--reason", "wet", "--day", day).status == 0
    assert at_work.run("describe", "lot", "ACME", "S-9", "--expires", day).status == 0
    assert "receipts of day 261127" in at_work.run("carry-over", "--plan", "--day", day).out


@pytest.mark.parametrize("words", ["hold ACME S-1 --reason wet --day", "papers statement ACME --to 261127 paper --from", "years statement ACME --from", "carry-over --plan --day",
                                   "describe lot ACME S-1 --expires"])
@pytest.mark.parametrize("day", ["27.11.2026", "2026-02-30", "1/2", "12345678", "1999-01-01"])
def test_what_is_no_day_is_told(at_work, words, day):
    assert is_told(at_work.run(*words.split(), day), 2)
