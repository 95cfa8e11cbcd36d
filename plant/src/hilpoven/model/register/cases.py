"""Recall cases: what each begins with, who answered, and whether it ended. The clock is the journal's."""
from dataclasses import dataclass, field
from datetime import datetime, timedelta, timezone

from ...core.failure import REFUSED, Failure
from ...core.journal.log import Journal
from ..nearest import nearest
from ..notes import CaseClosed, CaseOpened, CaseReply, CaseStart
from ..rows import Base, BatchId, LotId
from .drills import time_of
from .file import Opened
from .noted import Noted
from .standing import reader_of, statuses


@dataclass
class Case:
    """A recall case: the notes with which it began and ended, the latter `None` while it is open, what it begins with,
    and the answers in their order, of which the last one of each customer about each lot counts."""

    note: CaseOpened
    opened: Noted
    starts: list[tuple[Noted, CaseStart]] = field(default_factory=list)
    answers: list[tuple[Noted, CaseReply]] = field(default_factory=list)
    closed: Noted | None = None

    @property
    def number(self) -> str:
        """Its number."""
        return self.note.case

    @property
    def is_drill(self) -> bool:
        """Whether it is a drill, by which nothing is stopped."""
        return bool(self.note.drill)

    @property
    def names(self) -> list[LotId | BatchId]:
        """With what it begins, by the names of the file in which that was noted."""
        return [note.start for _, note in self.starts]

    @property
    def replies(self) -> dict[tuple[str, str, str], tuple[Noted, CaseReply]]:
        """The answers that count, by owner, party and lot."""
        return {(note.owner, note.party, note.lot): (noted, note) for noted, note in self.answers}

    @property
    def took(self) -> timedelta | None:
        """How long it took so far, or until it ended; `None` if the clock can't tell."""
        opened, ended = time_of(self.opened), time_of(self.closed) if self.closed else datetime.now(timezone.utc)
        return ended - opened if opened and ended and opened <= ended else None


def cases_of(notes: Opened) -> dict[str, Case]:
    """The cases of an office that stand, by their numbers, the oldest first."""
    cases: dict[str, Case] = {}
    for status in statuses(notes, CaseOpened, CaseStart, CaseReply, CaseClosed, fault=""):
        note, noted = status.note, status.noted
        if isinstance(note, CaseOpened):
            cases.setdefault(note.case, Case(note, noted))
            continue
        case = cases.get(str(getattr(note, "case", "")))
        if case is None or case.closed:
            continue
        match note:
            case CaseStart():
                case.starts.append((noted, note))
            case CaseReply():
                case.answers.append((noted, note))
            case CaseClosed():
                case.closed = noted
    return cases


def next_number(notes: Opened) -> str:
    """The number of the next case. Those that were withdrawn keep theirs."""
    return f"C-{1 + len(statuses(notes, CaseOpened))}"


def case_of(cases: dict[str, Case], number: str | None, is_open: bool = True) -> Case:
    """A case by its number, or without one the only one that is open, or else the last one where a closed one will do;
    fails if it isn't there, or is closed."""
    if number is not None:
        if number not in cases:
            raise Failure(f"there is no case {number}", REFUSED, nearest(number, [*cases], "cases"))
        chosen = [cases[number]]
    else:
        chosen = [case for case in cases.values() if not case.closed] or list(cases.values())[-1:]
    if len(chosen) != 1:
        which = f"several are open: {', '.join(case.number for case in chosen)}" if chosen else "there is none"
        raise Failure(f"which case? {which}", REFUSED, "--case NUMBER says which one; `hilpoven case open` opens one")
    if is_open and chosen[0].closed:
        raise Failure(f"case {chosen[0].number} is closed", REFUSED, "`hilpoven case open` opens another one")
    return chosen[0]


@dataclass(frozen=True)
class Starts:
    """With what a case begins, by the names over all files of an office."""

    lots: list[LotId]
    batches: list[BatchId]


def starts_over_all(case: Case, journal: Journal, newest: Base, whole: Base | None) -> Starts:
    """With what a case begins, by the names of the newest file, or by those over all files."""
    starts = Starts([], [])
    with reader_of(journal, newest, whole) as reader:
        for noted, note in case.starts:
            if note.lot:
                starts.lots.append(LotId(note.owner, reader.lot(noted, note.owner, note.lot)))
            elif (at := reader.place(noted, "batches", note.owner, note.order, note.batch)) is not None:
                order = reader.naming("order", at, note.owner, note.order)
                starts.batches.append(BatchId(note.owner, order, note.batch))
    return starts
