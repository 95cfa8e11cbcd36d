"""Lots that are past the day on which they expire, or by which they are to be tested again, as the plant noted it."""
from collections.abc import Mapping

from ..core.failure import REFUSED, Failure
from ..core.settings import REFUSE
from ..core.days import date_of, format_day
from ..model.rows import LotId
from . import making
from ..model.notes import LotFacts
from ..model.years.earlier import MOVE


def last_day(facts: LotFacts) -> int | None:
    """The last day on which a lot may be used; `None` if none is noted."""
    return min(filter(None, (facts.expires, facts.retest)), default=None)


def past_day(facts: LotFacts | None, day: int) -> str:
    """Why a lot isn't to be used on a day; empty if it may be."""
    last = last_day(facts) if facts else None
    if facts is None or last is None:
        return ""
    lot = LotId(facts.owner, facts.lot)
    if date_of(day) is None:
        return f"lot {lot} may be used until {format_day(last)}, and day {day} is no date"
    if facts.expires and day > facts.expires:
        return f"lot {lot} expired on {format_day(facts.expires)}"
    if facts.retest and day > facts.retest:
        return f"lot {lot} was to be tested again by {format_day(facts.retest)}"
    return ""


def warning(desk: making.Desk, setting: str, lot: LotId, movement: Mapping[str, str]) -> str:
    """What is told of a lot from which a movement takes past its day; empty if it doesn't. Fails where the settings
    refuse that, unless the movement is recorded already."""
    fault = past_day(desk.register.lots.get(lot), int(movement["DAY"]))
    if fault and setting == REFUSE and not desk.has(MOVE, movement["OWNER"], movement["KEY"]):
        raise Failure(f"{fault}, and the settings refuse it", REFUSED, advice_of(lot))
    return f"{fault[0].upper()}{fault[1:]}, as the plant noted." if fault else ""


def advice_of(lot: LotId) -> str:
    """What to do about a lot that is past its day."""
    return f"scrap it, or note other days: `hilpoven describe lot {lot} --expires DAY --retest DAY`"
