"""Recall cases: what one begins with is looked for over all files of the office, all that is on hand of it is held in
one step, and answers of customers are noted."""
from collections.abc import Iterable, Iterator, Sequence
from dataclasses import dataclass, field
from datetime import timedelta
from typing import NamedTuple

from .. import HOUSE
from ..core import client, lock
from ..core.context import Context
from ..core.days import date_of, moment_in, written
from ..core.failure import REFUSED, WRONG_USE, Failure
from ..core.forms import MOST_LETTERS, listed, whole_words
from ..core.grammar import LINES
from ..core.journal import query
from ..core.office import Answer
from ..model import quality
from ..model.notes import CaseClosed, CaseOpened, CaseReply, CaseStart, Held, MovementFacts, Note
from ..model.register import cases
from ..model.register.cases import Case
from ..model.register.meant import MEANT, RowReader, row_of
from ..model.register.standing import register_of, statuses
from ..model.rows import OF_KEY, Base, BatchId, LotId, batches_of, lots_of, read_moves
from ..model.schema import FOLLOWING, State
from ..model.years.earlier import lot_of
from . import asking, judging, making
from .drilling import only_lot, require_lot
from .making import Desk

ON_UNIT = "SELECT owner, ord, number FROM batches WHERE unit = ? ORDER BY rowid"
DAYS = "SELECT min(day), max(day) FROM moves WHERE owner = ? AND ord = ? AND number = ?"
HAS_UNIT = "SELECT 1 FROM units WHERE unit = ?"
UNITS = "SELECT unit FROM units WHERE ? = ''"
OF_BATCHES = ("open", "do", "close", "actual")  # the lines that say when a batch had its unit
STOPPED = (State.HOLDING, State.HELD, State.STOPPING, State.STOPPED, State.ABORTING, State.ABORTED, State.COMPLETE)


class Origin(NamedTuple):
    """From what a case is opened: lots, suppliers' lots, documents, parties, or a unit between two times."""

    lots: Sequence[tuple[str | None, str]] = ()  # the owner, `None` where it isn't said
    supplier_lots: Sequence[str] = ()
    documents: Sequence[str] = ()
    parties: Sequence[tuple[str, str]] = ()  # owner and name
    unit: str | None = None
    since: str | None = None
    until: str | None = None

    @property
    def words(self) -> list[str]:
        """It as options."""
        given = [("--lot", f"{owner or ''} {lot}".strip()) for owner, lot in self.lots]
        given += [("--supplier-lot", text) for text in self.supplier_lots]
        given += [("--document", text) for text in self.documents]
        given += [("--party", " ".join(party)) for party in self.parties]
        given += [(name, text) for name, text in self.times if text]
        return [word for option, text in given for word in (option, *text.split(" ", option in ("--lot", "--party")))]

    @property
    def times(self) -> list[tuple[str, str | None]]:
        """The unit, and between which times."""
        return [("--unit", self.unit), ("--since", self.since), ("--until", self.until)]

    @property
    def text(self) -> str:
        """It in words, as long as a note has room for."""
        lots = [f"lot {owner} {lot}" if owner else f"lot {lot}" for owner, lot in self.lots]
        texts = [*(f"supplier's lot {each}" for each in self.supplier_lots)]
        texts += [f"document {each}" for each in self.documents]
        texts += [f"party {party} of {owner}" for owner, party in self.parties]
        between = "".join(f" {way} {time}" for way, time in (("since", self.since), ("until", self.until)) if time)
        texts += [f"unit {self.unit}{between}"] if self.unit else []
        whole = ", ".join([*lots, *texts])
        return whole if len(whole) <= MOST_LETTERS else f"{whole[:MOST_LETTERS - 2]}.."


class Start(NamedTuple):
    """With what a case begins: a lot or a batch, the tables of the file that has it, and how it was found."""

    name: LotId | BatchId
    base: Base
    why: str


def open_case(context: Context, origin: Origin, reason: str, is_drill: bool) -> tuple[Case, list[Start]]:
    """Opens a case, over all files of the office; fails where nothing is found with which it would begin."""
    if not reason.strip():
        raise Failure("--reason is empty", WRONG_USE)
    if (origin.since or origin.until) and not origin.unit:
        raise Failure("--since and --until go with --unit", WRONG_USE)
    if not any(origin):
        raise Failure(
            "case open: nothing is given to begin with", WRONG_USE, "such as OWNER LOT, or --supplier-lot TEXT"
        )
    office = context.office()
    with lock.alone(office.file, office.wait, is_urgent=True), making.desk(context) as desk:
        starts = {start.name: start for start in starts_of(context, desk, origin)}
        if not starts:
            raise Failure(f"nothing is found of {origin.text}", REFUSED, "`hilpoven list lots` has all lots")
        number = cases.next_number(desk.notes)
        notes: list[Note] = [CaseOpened(HOUSE, number, origin.text, context.day(), reason, int(is_drill))]
        notes += [start_note(number, start.name) for start in starts.values()]
        words = ["case", "open", *origin.words, "--reason", reason, *(["--drill"] if is_drill else [])]
        members = desk.all_members(notes)
        meant = [RowReader([start.base]).rows(note) for note, start in zip(notes[1:], starts.values())]
        context.journal().note(office.file, words, **{**members, MEANT: [[], *meant]})
    with making.desk(context) as desk:
        return cases.cases_of(desk.notes)[number], list(starts.values())


def start_note(number: str, name: LotId | BatchId) -> CaseStart:
    """The note that a case begins with a lot or a batch."""
    if isinstance(name, LotId):
        return CaseStart(name.owner, number, name.name)
    return CaseStart(name.owner, number, "", name.order, name.number)


def starts_of(context: Context, desk: Desk, origin: Origin) -> Iterator[Start]:
    """The lots and the batches with which a case begins."""
    for owner, name in origin.lots:
        lot = LotId(owner, name) if owner else only_lot(desk, name)
        require_lot(desk, lot)
        yield from of_lot(desk, lot, "named")
    for owner, party in origin.parties:
        if (owner, party) not in desk.parties:
            raise Failure(f"there is no party {party} of {owner}", REFUSED, f"`hilpoven party list {owner}` has them")
    yield from of_movements(desk, origin)
    if origin.unit:
        yield from of_unit(context, desk, origin.unit, origin.since, origin.until)


def of_lot(desk: Desk, lot: LotId, why: str) -> Iterator[Start]:
    """A lot in the newest file that has one of this name."""
    base = next((base for base in desk.bases if lots_of(base, [lot])), None)
    if base is not None:
        yield Start(lot, base, why)


def why_of(origin: Origin, facts: MovementFacts) -> str:
    """Why a movement of which this is noted is one of a case; empty if it isn't."""
    if any(whole_words(text).search(facts.supplier_lot) for text in origin.supplier_lots):
        return f"supplier's lot {facts.supplier_lot}"
    if any(whole_words(text).search(facts.document) for text in origin.documents):
        return f"document {facts.document}"
    return f"party {facts.party}" if (facts.owner, facts.party) in origin.parties else ""


def of_movements(desk: Desk, origin: Origin) -> Iterator[Start]:
    """The lots of the movements of which something is noted that was asked for, over all files."""
    if not (origin.supplier_lots or origin.documents or origin.parties):
        return
    for status in statuses(desk.notes, MovementFacts, fault=""):
        facts = status.note
        if not isinstance(facts, MovementFacts) or not (why := why_of(origin, facts)):
            continue
        noted, names = status.noted, (facts.owner, facts.key)
        row = row_of(noted.meant or (), "moves", names)
        for base in desk.bases:
            for move in read_moves(base, OF_KEY, names):
                line = LINES.get(noted.words[0]) if noted.words else None
                values = dict(zip(line.values, noted.words[1:])) if line and not noted.is_own else {}
                is_meant = (row[4:6] == move.lot) if row else not values or lot_of(values) == move.lot
                if is_meant:
                    yield Start(move.lot, base, f"{move.kind.word} {move.key}, {why}")


def of_unit(context: Context, desk: Desk, unit: str, since: str | None, until: str | None) -> Iterator[Start]:
    """The batches that had a unit between two times: by the lines of the journal about each, or where it has none by
    the days of its actuals. One of which no time is known counts."""
    if not desk.has(HAS_UNIT, unit):
        raise Failure(f"there is no unit {unit}", REFUSED, f"there are: {listed(desk.names(UNITS, ''))}")
    first, last = (None if text is None else moment(context, text) for text in (since, until))
    times = times_of_batches(desk)
    for base in desk.bases:
        for owner, order, number in base.execute(ON_UNIT, (unit,)).fetchall():
            batch = BatchId(owner, order, number)
            begun, ended = times.get(batch) or days_of_batch(base, batch)
            is_closed = all(each.is_closed for each in batches_of(base, [batch]).values())
            if begun is None or is_between(begun, ended if is_closed else None, first, last):
                yield Start(batch, base, f"on unit {unit}")


def days_of_batch(base: Base, batch: BatchId) -> tuple[str | None, str | None]:
    """Between which times a batch's actuals are by their days, with a day on either side, as days are those of the
    plant; `None` where they are no dates."""
    days = [date_of(day) for day in base.execute(DAYS, batch).fetchone() if day is not None]
    first, last = days if len(days) == 2 else (None, None)
    if not first or not last:
        return None, None
    return (first - timedelta(days=1)).isoformat(), (last + timedelta(days=2)).isoformat()


def is_between(begun: str, ended: str | None, first: str | None, last: str | None) -> bool:
    """Whether something that began, and mostly ended, was under way between two times, which are compared as texts."""
    return (last is None or begun <= last) and (first is None or ended is None or ended >= first)


def moment(context: Context, text: str) -> str:
    """A time as the journal writes it."""
    zone = context.settings.time_zone
    try:
        return written(moment_in(text, zone))
    except (ValueError, OverflowError):
        advice = "such as 2026-11-27, or 2026-11-27T14:30"
        raise Failure(f"{text!r} is no time", WRONG_USE, advice) from None


def times_of_batches(desk: Desk) -> dict[BatchId, tuple[str, str]]:
    """The times of the first and the last line of the journal about each batch that names it by its number, or that
    opened it: the n-th line that opened a batch of an order is that of its n-th one."""
    journal, opened = desk.journal, dict[tuple[str, str], int]()
    entries = query.entries(journal.path, journal.file)
    accepted = {str(entry.get("of")) for entry in entries if entry.get("event") == "told" and entry.get("status") == 0}
    times: dict[BatchId, tuple[str, str]] = {}
    for entry in entries:
        words = [str(word) for word in query.listed(entry, "words")]
        line = LINES.get(words[0]) if words and words[0] in OF_BATCHES else None
        if line is None or entry.get("id") not in accepted or len(words) != len(line.values) + 1:
            continue
        values = dict(zip(line.values, words[1:]))
        of_order = values["OWNER"], values["ORDER"]
        if line.name == "open":
            opened[of_order] = opened.get(of_order, 0) + 1
        batch = BatchId(*of_order, int(values.get("BATCH", opened.get(of_order, 0))))
        time = str(entry.get("time"))
        times[batch] = times.get(batch, (time, time))[0], time
    return times


# Holding


class Concerned(NamedTuple):
    """What a case concerns in the newest file: the lots that are on hand, and the batches that aren't closed."""

    lots: Sequence[LotId]
    batches: Sequence[BatchId]


@dataclass
class Stopped:
    """What came of holding: what is held now, what was before, and what couldn't be, with why."""

    held: list[str] = field(default_factory=list)
    before: list[str] = field(default_factory=list)
    missed: list[str] = field(default_factory=list)
    remarks: list[str] = field(default_factory=list)

    def take(self, name: str, answer: Answer) -> None:
        """Takes what was answered to what would hold something."""
        if answer.output == "accepted\n":
            self.held.append(name)
        else:
            why = (answer.output + answer.error).strip().partition("\n")[0] or "no answer"
            self.missed.append(f"{name}: {why}")


def hold(context: Context, case: Case, concerned: Concerned) -> Stopped:
    """Holds all lots of a case that are on hand, and its open batches."""
    stopped, office = Stopped(), context.office()
    with lock.alone(office.file, office.wait, is_urgent=True) as is_alone, making.desk(context) as desk:
        count = len(concerned.lots) + len(concerned.batches)
        with client.asker(office, count) as ask, desk.journal.series():
            hold_batches(context, desk, concerned.batches, stopped, ask)  # they go on making more of it
            hold_lots(context, desk, case, concerned.lots, stopped, ask)
    if not is_alone:
        stopped.remarks.append("Others are recording for long: give it again, and it holds what came meanwhile.")
    return stopped


def hold_lots(
    context: Context, desk: Desk, case: Case, lots: Sequence[LotId], stopped: Stopped, ask: asking.Ask
) -> None:
    """Holds lots that aren't held yet; those that are held by a note alone by one line of the journal."""
    states = quality.statuses(desk.base, register_of(context, desk.base), *lots) if lots else {}
    held = {lot for lot, status in states.items() if status.state == quality.QualityState.HELD}
    notes: list[Note] = []
    for lot in lots_of(desk.base, lots).values():
        name, note = f"lot {lot.id}", Held(*lot.id, context.day(), f"recall case {case.number}")
        if lot.id in held:
            stopped.before.append(name)
        elif judging.is_alone(context, desk, lot):
            notes.append(note)
            stopped.held.append(name)
        elif given := judging.record(context, desk, lot, note, ask).given:
            stopped.take(name, given.answer)
    if notes:
        desk.record(["case", "hold", "--case", case.number], *notes)
        stopped.remarks.append(
            f"{len(notes):,} of them by a note alone: their material hasn't the plant's own test, so hilpoven stops "
            "them, and toll doesn't."
        )


def hold_batches(context: Context, desk: Desk, batches: Iterable[BatchId], stopped: Stopped, ask: asking.Ask) -> None:
    """Holds batches that aren't closed, as far as their state lets them be held."""
    for batch in batches_of(desk.base, batches).values():
        name = f"batch {batch.id}"
        if batch.is_closed or batch.state in STOPPED:
            stopped.before.append(f"{name}, {batch.state.word}")
        elif "hold" not in FOLLOWING[batch.state]:
            stopped.missed.append(f"{name}: it is {batch.state.word}, and isn't held then: don't go on with it")
        else:
            words = [*map(str, batch.id), "hold"]
            stopped.take(name, asking.given(context, desk.office, LINES["do"], words, desk.journal, ask))


# Answers, and the end


def reply(context: Context, number: str | None, note: CaseReply) -> str:
    """Notes what a customer answered; the name of the note."""
    with making.desk(context) as desk:
        cases.case_of(cases.cases_of(desk.notes), number)
        amounts = {"--back": note.back, "--destroyed": note.destroyed, "--gone": note.gone}
        given = [word for option, amount in amounts.items() if amount for word in (option, str(amount))]
        words = [note.owner, note.party, *([note.lot] if note.lot else []), "--case", note.case, *given]
        return desk.record(["case", "reply", *words, *(["--reason", note.reason] if note.reason else [])], note)


def close(context: Context, number: str, reason: str) -> str:
    """Notes that a case ends; the name of the note."""
    with making.desk(context) as desk:
        case = cases.case_of(cases.cases_of(desk.notes), number)
        words = ["case", "close", "--case", case.number, *(["--reason", reason] if reason else [])]
        return desk.record(words, CaseClosed(HOUSE, case.number, reason))
