"""What `hilpoven` itself refuses before `toll` is asked: results of the plant's own test that are typed, and shipments
and consumption of lots that are held by a note alone, of which `toll` has nothing; and what a batch would use of a lot
that is held. Each line is looked at while it is recorded (`core/lock.py`), so no hold comes in between."""
import os
from collections.abc import Mapping, Sequence
from dataclasses import dataclass, field

from ..core import snapshot
from ..core.context import Context
from ..core.failure import REFUSED
from ..core.grammar import LINES, Line
from ..core.office import Answer
from ..model.rows import LotId
from ..model.schema import IS_OUTGOING, Kind
from ..model.years.earlier import MOVE, MOVE_COLUMNS, lot_of, move_of
from ..model import quality
from ..model.register import lines
from ..model.register.file import Notes
from ..model.register.standing import register_of
from ..model.notes import Held, Signed

TAKEN = f"SELECT owner, mkey, {MOVE_COLUMNS} FROM moves AS m WHERE m.lot_owner = ? AND m.lot = ? AND {IS_OUTGOING}"
# A test of a lot that has the name of the plant's own and other limits.
IS_ANOTHER = f"""
SELECT 1 FROM lots AS l JOIN tests AS t USING (owner, material)
WHERE l.owner = :owner AND l.lot = :lot AND t.test = :test AND NOT ({quality.IS_PLANTS})
"""
HAS_HELD = f"SELECT 1 FROM note WHERE kind = '{Held.KIND}' AND owner <> '' AND is_own = 1 LIMIT 1"
JUDGED = tuple(f'"kind": "{kind.KIND}"'.encode() for kind in (Held, Signed))  # what a line with a judgement has
Movement = tuple[str | int, ...]  # its owner and its key, and its row


@dataclass(frozen=True)
class NotesAlone:
    """The lots that are held by a note alone, and what was shipped and consumed of them."""

    held: Mapping[LotId, quality.Status] = field(default_factory=dict)
    taken: frozenset[Movement] = frozenset()


@dataclass
class Stops:
    """What is refused over the office of a command. The office is read again whenever the journal has another signature
    or hold."""

    context: Context
    read_to: int | None = None  # how many bytes of the journal were looked at; `None` before the first time
    known: NotesAlone = NotesAlone()

    def answer(self, line: Line, values: Mapping[str, str], is_use: bool) -> Answer | None:
        """What is answered to a line in place of `toll`; mostly `None`."""
        if line.name == "result":
            why = self.why_no_result(values)
        else:
            why = self.why_not_used(line, values) if is_use else self.why_not_taken(line, values)
        return Answer(REFUSED, "", f"refused by hilpoven: {why}\n") if why else None

    def answer_to_actual(self, words: Sequence[str]) -> Answer | None:
        """The same to an actual, by its words."""
        return self.answer(LINES["actual"], dict(zip(LINES["actual"].values, words)), is_use=False)

    def why_no_result(self, values: Mapping[str, str]) -> str:
        """Why a result is none that is typed; empty if its lot is there, and has another test of this name: a lot that
        comes later may have the plant's own."""
        owner, lot = lot_of(dict(values))
        with snapshot.opened(self.context.office_to_read()) as base:
            words = {"owner": owner, "lot": lot, "test": self.context.settings.quality.test}
            if base.execute(IS_ANOTHER, words).fetchone():
                return ""
        return (
            f"{values['TEST']} is the test by which the plant signs and holds: "
            f"`hilpoven sign {owner} {lot}`, or `hilpoven hold {owner} {lot} --reason ..`"
        )

    def why_not_taken(self, line: Line, values: Mapping[str, str]) -> str:
        """Why nothing of a lot is shipped or consumed; empty if it may be, and if it was recorded already."""
        lot, notes = LotId(*lot_of(dict(values))), self.notes_alone()
        is_produced = values.get("USE") == Kind.PRODUCED.word
        if is_produced or lot not in notes.held or movement_of(line, values) in notes.taken:
            return ""
        advice = f"`hilpoven sign {lot.owner} {lot.name}` lets it go"
        return f"lot {lot.name} of {lot.owner} is {notes.held[lot].text}; {advice}"

    def why_not_used(self, line: Line, values: Mapping[str, str]) -> str:
        """The same of what is scrapped because a batch uses it, which `toll` records of each lot."""
        lot, movement = LotId(*lot_of(dict(values))), movement_of(line, values)
        with snapshot.opened(self.context.office_to_read()) as base:
            status = quality.statuses(base, register_of(self.context, base), lot).get(lot)
            known = base.execute(MOVE, (values["OWNER"], values["KEY"])).fetchone()
        is_recorded = movement is not None and known == movement[2:]
        if is_recorded or status is None or status.state != quality.QualityState.HELD:
            return ""
        return f"lot {lot} is {status.text}; `hilpoven sign {lot.owner} {lot.name}` lets it be used"

    def notes_alone(self) -> NotesAlone:
        """The lots that are held by a note alone, as the journal says now."""
        journal, read_to = self.context.journal(), self.read_to
        self.read_to = size_of(journal.path)
        if read_to is None or self.read_to < read_to or has_judgement(journal.path, read_to):
            self.known = self.read_notes()
        return self.known

    def read_notes(self) -> NotesAlone:
        """The same. The office's tables are read only if there are such notes."""
        if not Notes(self.context.journal()).rows(HAS_HELD):
            return NotesAlone()
        with snapshot.opened(self.context.office_to_read()) as base:
            register = register_of(self.context, base)
            statuses = {lot: quality.statuses(base, register, lot).get(lot) for lot in register.held_alone}
            held = {lot: status for lot, status in statuses.items() if status and status.is_note_alone}
            return NotesAlone(held, frozenset(row for lot in held for row in base.execute(TAKEN, lot)))


def movement_of(line: Line, values: Mapping[str, str]) -> Movement | None:
    """The movement that a line would record; `None` if it records none."""
    row = move_of(line, dict(values))
    return None if row is None else (values["OWNER"], values["KEY"], *row)


def size_of(path: str) -> int:
    """How many bytes a journal has; none where it isn't there."""
    with lines.opened(path) as descriptor:
        return 0 if descriptor is None else os.fstat(descriptor).st_size


def has_judgement(path: str, place: int) -> bool:
    """Whether a journal has a signature or a hold behind a place. What else has these bytes costs only a look."""
    with lines.opened(path) as descriptor:
        if descriptor is None:
            return False
        behind = os.pread(descriptor, os.fstat(descriptor).st_size - place, place)
    return any(mark in behind for mark in JUDGED)
