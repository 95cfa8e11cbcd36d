"""A day is a date in one way alone, for papers and for the pace at which an office fills."""
from datetime import date, timedelta

import pytest
from hilpoven.report.columns import Column
from hilpoven.core.days import date_of, day_of, format_day
from hilpoven.care.years import pace

DATES = {260101: date(2026, 1, 1), 261231: date(2026, 12, 31), 280229: date(2028, 2, 29), 690101: date(2069, 1, 1), 991231: date(2099, 12, 31)}
NUMBERS = [0, 7, 101, 10_101, 99_999, 260_000, 260_100, 261_301, 260_230, 270_229, 999_999, 1_261_127, 9_999_999]


@pytest.mark.parametrize("day", DATES)
def test_six_digits_of_a_date_are_that_date_of_this_century(day):
    assert date_of(day) == DATES[day] and format_day(day) == DATES[day].isoformat() and day_of(DATES[day]) == day


@pytest.mark.parametrize("day", NUMBERS)
def test_any_other_number_is_no_date(day):
    assert date_of(day) is None and format_day(day) == str(day)


def test_every_day_of_the_years_that_have_six_digits_comes_back():
    day = date(2010, 1, 1)
    while day < date(2100, 1, 1):
        assert date_of(day_of(day)) == day
        day += timedelta(1)


def test_papers_and_pace_read_a_day_alike():
    assert pace.date_of is date_of
    assert Column("day", "day", "day").as_text(690101) == "2069-01-01" and Column("day", "day", "day").as_text(101) == "101"
