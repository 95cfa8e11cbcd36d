"""By what day an owner reaches a limit, at the pace of the last months, if days are dates written as YYMMDD.

The pace begins behind the opening stock: what came on an owner's first day, and until the first movement that is no
receipt. Of less than four weeks none is told.
"""
import sqlite3
from collections import defaultdict
from datetime import date, timedelta

from ...core.days import date_of
from ...model.gauge import Gauge
from ...model.schema import IS_INCOMING, Kind
from ...model.years.chain import NOT_CARRIED, came_from

WINDOW = 90  # days, of which the pace is told
LEAST = 28  # days that there have to be for that
SOON = 92  # days before which a full owner is told long before
FAR = 3_650  # days behind which nothing is told

# How many rows came of each owner on each day; stock that was carried over came before.
BY_DAY = {
    "movements": "SELECT owner, day, count(*) FROM moves AS m WHERE {new} GROUP BY owner, day",
    "lots": "SELECT owner, day, count(*) FROM (SELECT lot_owner AS owner, min(day) AS day FROM moves AS m "
    f"WHERE {IS_INCOMING} AND {{new}} GROUP BY lot_owner, lot) GROUP BY owner, day",
    "results": "SELECT owner, day, count(*) FROM results GROUP BY owner, day",
}
# The days of each owner's movements, and whether each had one that is no receipt.
MOVED = f"SELECT owner, day, max(kind <> {Kind.RECEIVE:d}) FROM moves AS m WHERE {{new}} GROUP BY owner, day"


def openings(base: sqlite3.Connection) -> dict[str, date]:
    """The last day of each owner's opening stock."""
    days: dict[str, dict[date, bool]] = defaultdict(dict)
    for owner, day, is_other in base.execute(MOVED.format(new=NOT_CARRIED if came_from(base) else "true")):
        if when := date_of(day):
            days[owner][when] = bool(is_other)
    others = {owner: [when for when, is_other in moved.items() if is_other] for owner, moved in days.items()}
    return {owner: min(others[owner] or moved) for owner, moved in days.items()}


def by_day(base: sqlite3.Connection, kind: str) -> dict[str, dict[date, int]]:
    """How many rows came of each owner on each day that is a date."""
    counts: dict[str, dict[date, int]] = defaultdict(dict)
    new = NOT_CARRIED if came_from(base) else "true"
    for owner, day, count in base.execute(BY_DAY[kind].format(new=new)):
        if when := date_of(day):
            counts[owner][when] = count
    return counts


def full_on(counts: dict[date, int], room: int, opening: date, today: date) -> date | None:
    """When so much room is used up at the pace of the days behind the opening stock; `None` if that can't be told, or
    is far."""
    first = max(opening, today - timedelta(WINDOW))
    days, recent = (today - first).days, sum(count for day, count in counts.items() if first < day <= today)
    if days < LEAST or not recent:
        return None
    left = room * days // recent
    return today + timedelta(left) if left <= FAR else None


def full_by(base: sqlite3.Connection, gauges: list[Gauge], today: date) -> dict[Gauge, date]:
    """By what day each gauge is full, of those whose rows have days."""
    counts, opened = {kind: by_day(base, kind) for kind in BY_DAY}, openings(base)
    days = {
        gauge: full_on(counts[gauge.kind][gauge.owner], gauge.most - gauge.count, opened[gauge.owner], today)
        for gauge in gauges
        if gauge.kind in counts and gauge.owner in opened
    }
    return {gauge: day for gauge, day in days.items() if day}


def is_soon(day: date | None, today: date) -> bool:
    """Whether a day is so near that it is told."""
    return day is not None and day <= today + timedelta(SOON)
