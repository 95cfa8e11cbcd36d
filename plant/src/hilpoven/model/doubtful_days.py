"""Days that can't be meant: no date where the others are, in the future, or before the first day of their lot."""
from collections.abc import Iterable, Sequence
from dataclasses import dataclass, field
from functools import cached_property

from .years import chain
from ..core.days import date_of, day_of, format_day, today
from .rows import Base, LotId
from .schema import STANDING

RECENT = 20  # movements, of which the days tell whether days are dates
DAYS = "SELECT m.day FROM moves AS m WHERE {} ORDER BY m.rowid DESC LIMIT ?"
# The first day of one lot of an owner, or of each, by the owner's own movements: nobody else brings it anything.
FIRST = f"""
SELECT m.lot, min(m.day) FROM moves AS m
WHERE m.owner = :owner AND m.lot_owner = m.owner AND :lot IN ('', m.lot) AND {STANDING} GROUP BY 1
"""


@dataclass(frozen=True)
class OfficeDays:
    """What is known of the days of an office: its tables and those of its earlier files, those of its last movements,
    and what day it is."""

    bases: Sequence[Base]
    recent: list[int]
    today: int
    is_for_one: bool = False  # lot, of whose owner the other lots' days aren't read
    firsts: dict[str, dict[str, int]] = field(default_factory=dict)  # of the owners' lots, as far as they were read

    def doubt(self, day: int, lot: LotId) -> str:
        """Why a day of a movement or a result of a lot can't be meant; empty if it can be."""
        is_date, first = date_of(day) is not None, self.first_of(lot)
        if not is_date and self.are_dates:
            return f"{day} is no date, and the days of the last movements are dates"
        if is_in_future(day, self.today):
            return f"{format_day(day)} is in the future"
        if first is not None and day < first and is_date == (date_of(first) is not None):
            return f"{format_day(day)} is before the first day of lot {lot}, {format_day(first)}"
        return ""

    @cached_property
    def are_dates(self) -> bool:
        """Whether most days of the last movements are dates."""
        return 2 * sum(date_of(day) is not None for day in self.recent) > len(self.recent)

    def first_of(self, lot: LotId) -> int | None:
        """The first day of a lot's movements; `None` if it has none."""
        if lot.owner not in self.firsts:
            firsts = self.firsts[lot.owner] = {}
            for base in self.bases:
                words = {"owner": lot.owner, "lot": lot.name if self.is_for_one else ""}
                for name, day in base.execute(FIRST, words):
                    firsts[name] = min(day, firsts.get(name, day))
        return self.firsts[lot.owner].get(lot.name)


def is_in_future(day: int, now: int) -> bool:
    """Whether a day is a date behind today's."""
    return date_of(day) is not None and day > now


def read_days(bases: Sequence[Base], zone: str, others: Iterable[int] = (), is_for_one: bool = False) -> OfficeDays:
    """What is known of the days of an office, whose newest tables come first; of one without movements, the others."""
    recent: list[int] = []
    for base in bases:  # without the receipts by which stock came over, whose days are the carry-over's
        sql = DAYS.format(chain.NOT_CARRIED if chain.came_from(base) else "true")
        recent += [day for day, in base.execute(sql, (RECENT - len(recent),))]
    return OfficeDays(bases, recent or list(others), day_of(today(zone)), is_for_one)
