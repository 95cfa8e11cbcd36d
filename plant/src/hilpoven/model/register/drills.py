"""Drills: recalls for practice, whose clock is the journal's. A note begins one, and another note ends it."""
from collections.abc import Iterable
from dataclasses import dataclass, replace
from datetime import datetime, timedelta, timezone

from ...core.failure import printable
from ...core.journal.log import Journal
from ..notes import DrillEnd, DrillStart
from ..rows import Base, LotId
from .noted import Noted
from .standing import Status, kept, reader_of, statuses


@dataclass(frozen=True)
class Drill:
    """A drill over a lot: the note with which it began, and that with which it ended; `None` while it is under way."""

    lot: LotId
    begun: Noted
    ended: Noted | None = None

    @property
    def took(self) -> timedelta | None:
        """How long it took by the journal's clock; `None` while it is under way, and if the clock can't tell."""
        begun, ended = time_of(self.begun), time_of(self.ended)
        return ended - begun if begun and ended and begun <= ended else None


def time_of(noted: Noted | None) -> datetime | None:
    """When a note was made; `None` if its line has no time."""
    try:
        return datetime.fromisoformat(noted.time).astimezone(timezone.utc) if noted else None
    except ValueError:
        return None


def drills_in(notes: Iterable[Status]) -> list[Drill]:
    """The drills among notes, the oldest first. What begins while another one is under way is none."""
    drills: list[Drill] = []
    for status in notes:
        if status.fault:
            continue
        current = under_way(drills)
        match status.note:
            case DrillStart(owner, lot) if current is None:
                drills.append(Drill(LotId(owner, lot), status.noted))
            case DrillEnd(of=name) if current and current.begun.name == name:
                drills[-1] = replace(current, ended=status.noted)
    return drills


def drills_of(journal: Journal, base: Base) -> list[Drill]:
    """The drills of an office of whose file this is a copy, the oldest first."""
    return drills_in(statuses(kept(journal, base), DrillStart, DrillEnd))


def lot_over_all(drill: Drill, journal: Journal, newest: Base, whole: Base | None) -> LotId:
    """What the lot of a drill is called in the newest file of an office, or over all its files."""
    with reader_of(journal, newest, whole) as reader:
        return LotId(drill.lot.owner, reader.lot(drill.begun, *drill.lot))


def under_way(drills: list[Drill]) -> Drill | None:
    """The drill that is under way; `None` if none is."""
    return drills[-1] if drills and drills[-1].ended is None else None


def as_clock(time: timedelta | None) -> str:
    """A time in hours, minutes and seconds; of none that can't be told."""
    if time is None:
        return "unknown: the clock was set back"
    minutes, seconds = divmod(int(time.total_seconds()), 60)
    return f"{minutes // 60}:{minutes % 60:02}:{seconds:02}"


def as_moment(noted: Noted) -> str:
    """When a note was made, as people read it."""
    return f"{printable(noted.time[:19]).replace('T', ' ')} UTC"
