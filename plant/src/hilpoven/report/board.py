"""The board of a plant, by the tables of a copy, which are compared with `toll`: what needs somebody comes first."""
import textwrap
from collections import Counter, defaultdict
from dataclasses import astuple, dataclass, field
from enum import Enum
from typing import NamedTuple

from .. import HOUSE
from ..core.days import format_day, last_day_within
from ..model import gauge, quality, views
from ..model.answers import OrderLine, StockLine, batch_of, rows_of
from ..model.below import MARK
from ..model.genealogy import Genealogy
from ..model.notes import Link
from ..model.rows import Batch, Lot, LotId, owners_of, read_batches, read_lots, requirements_of, want
from ..model.schema import Disposition, State
from ..record.expiry import last_day
from .lists import LISTINGS
from .papers.agreement import agree, agree_on_all
from .papers.copies import Source

MOST_ROWS = 10  # of a panel; its counts are of all
LINE, EDGE = 49, 20  # pixels of a screen of 1,920 by 1,080: of a line, and around those of a row
COUNTS_OF_LINE = 34  # letters of the counts below a head that are surely in one line


class Count(NamedTuple):
    """How many rows of a panel are in a state, and whether that is an alarm."""

    number: int
    word: str
    is_alarm: bool = False

    @property
    def text(self) -> str:
        """It in words."""
        return f"{self.number:,} {self.word}"


@dataclass
class Row:
    """A row: what it is about, what is said of it, how much of what is required was consumed and produced, and whether
    it is an alarm."""

    about: str
    beside: str
    below: str
    consumed: int | None = None
    produced: int | None = None
    is_alarm: bool = False

    @property
    def is_noted(self) -> bool:
        """Whether some of it was noted by the plant."""
        return MARK in self.beside + self.below

    @property
    def height(self) -> int:
        """How high it is."""
        return EDGE + LINE * (1 + bool(self.below) + (self.consumed is not None or self.produced is not None))


@dataclass
class Panel:
    """A panel of the board: its head, what is said beside it, its first rows, the most urgent first and then the
    oldest, how many there are, how much room it has, what it says without rows, and the counts below its head."""

    title: str
    beside: str
    rows: list[Row]
    total: int
    room: int
    empty: str
    counts: list[Count] = field(default_factory=list)

    @property
    def lines_of_counts(self) -> int:
        """How many lines the counts take at the most; an alarm has a sign and a frame besides."""
        letters = sum(len(count.text) + 2 + 2 * count.is_alarm for count in self.counts)
        return -(-letters // COUNTS_OF_LINE)

    def pages(self) -> list[list[Row]]:
        """The rows in pages."""
        pages: list[list[Row]] = []
        room = self.room - LINE * self.lines_of_counts
        left = 0
        for row in self.rows:
            if row.height > left:
                pages.append([])
                left = room
            pages[-1].append(row)
            left -= row.height
        return pages


def some_of(names: list[str]) -> str:
    """The first of some names, and how many more there are."""
    return names[0] + (f" and {len(names) - 1} more" if len(names) > 1 else "")


SOON = 30  # days within which a lot expires that is shown
LETTERS = 40  # of a reason, which has one line
ROOM = 456  # pixels for the counts and one page
# The quarantined lots, and those of which something is known; the oldest first.
CONCERNED = f"l.disposition = {Disposition.QUARANTINED:d} OR (l.owner, l.lot) IN temp.wanted ORDER BY l.rowid"


class Wait(Enum):
    """Why a lot on hand is on the board, the most urgent reason first, as its counts say it."""

    HELD = "held"
    FAILED = "out of limits"
    PAST = "past the day"
    SOON = "expire soon"
    RESULT = "without result"
    SIGNATURE = "unsigned"
    RELEASE = "to release"


ALARMS = (Wait.HELD, Wait.FAILED, Wait.PAST)
FIRST = (*ALARMS, Wait.SOON)  # which stand before all others, in this order; those are by their age


class Waiting(NamedTuple):
    """Why a lot is on the board, its row, and its last day if that is why."""

    why: Wait
    row: Row
    day: int = 0


# The tests of quarantined lots whose latest result is out of the limits, or missing.
OPEN_TESTS = f"""
SELECT owner, lot, test, value IS NOT NULL, is_plants FROM lot_test
WHERE disposition = {Disposition.QUARANTINED:d} AND passes IS NOT 1 ORDER BY owner, lot, test
"""


class OpenTest(NamedTuple):
    """Such a test: its latest result is out of the limits, or else missing; and whether it is the plant's own."""

    name: str
    is_out: bool
    is_plants: bool


class Known(NamedTuple):
    """What is known of lots: the last days of those that expire soon or are past that day, the tests that are open of
    quarantined ones, what the plant's quality says, and what they contain by links."""

    days: dict[LotId, int]
    tests: dict[LotId, list[OpenTest]]
    statuses: dict[LotId, quality.Status]
    genealogy: Genealogy


def lots(source: Source, owners: list[str]) -> Panel:
    """The lots on hand that are held, out of limits or past their day, those that expire soon, and those that wait for
    results, a signature or their release."""
    known = known_of(source)
    held = [lot for lot, status in known.statuses.items() if status.state == quality.QualityState.HELD]
    want(source.base, [*known.days, *held])
    shown = [lot for lot in read_lots(source.base, CONCERNED) if lot.on_hand]
    check(source, owners, shown)
    waiting = sorted((waiting_of(known, lot) for lot in shown), key=lambda lot: (rank(lot.why), lot.day))
    counts = Counter(lot.why for lot in waiting)
    rows, count = [lot.row for lot in waiting[:MOST_ROWS]], len(waiting)
    legend = [Count(counts[why], why.value, why in ALARMS) for why in Wait if counts[why]]
    return Panel("Lots waiting", f"{count:,}", rows, count, ROOM, "No lot waits.", legend)


def rank(why: Wait) -> int:
    """The place of a reason among those that stand first; all others are behind them."""
    return FIRST.index(why) if why in FIRST else len(FIRST)


def known_of(source: Source) -> Known:
    """What is known of the lots of an office."""
    tests: dict[LotId, list[OpenTest]] = defaultdict(list)
    for owner, lot, *test in views.over(source.base, source.register).execute(OPEN_TESTS):
        tests[LotId(owner, lot)].append(OpenTest(*test))
    last = last_day_within(SOON)
    days = {LotId(*name): last_day(facts) for name, facts in source.register.lots.items()}
    near = {lot: day for lot, day in days.items() if day and day <= last}
    statuses = quality.statuses(source.base, source.register)
    return Known(near, tests, statuses, Genealogy(source.base, source.register))


def check(source: Source, owners: list[str], shown: list[Lot]) -> None:
    """Fails if `toll` tells another disposition or another stock of the lots that are shown, or if it has other lots on
    hand that are quarantined."""
    names, code = {lot.id for lot in shown}, Disposition.QUARANTINED
    answered: Counter[tuple[LotId, str]] = Counter()
    for owner in owners:
        for line in rows_of(StockLine, source.newest.answer("stock", owner)):
            if line.amount and (line.disposition == code.word or LotId(owner, line.lot) in names):
                answered[LotId(owner, line.lot), line.disposition] += line.amount
    agree_on_all(
        {lot: (word, amount) for (lot, word), amount in answered.items()},
        {lot.id: (lot.disposition.word, lot.on_hand) for lot in shown},
    )


def waiting_of(known: Known, lot: Lot) -> Waiting:
    """Why a lot is on the board, and its row."""
    why, text = waits_for(known, lot)
    day, status = known.days.get(lot.id), known.statuses.get(lot.id)
    if status and status.state == quality.QualityState.HELD:
        return Waiting(Wait.HELD, Row(str(lot.id), f"held {MARK}", shortened(status.reason), is_alarm=True))
    if day is not None and why != Wait.FAILED:
        why = Wait.PAST if day < last_day_within(0) else Wait.SOON
        return Waiting(why, Row(str(lot.id), until(why, day), what_of(lot, text), is_alarm=why in ALARMS), day)
    linked = why_linked(known.genealogy.links_in(lot.id))
    return Waiting(why, Row(str(lot.id), linked, text, is_alarm=why in ALARMS))


def shortened(reason: str) -> str:
    """The reason of a hold in one line."""
    return textwrap.shorten(reason, LETTERS, placeholder=" ..")


def until(why: Wait, day: int) -> str:
    """What is said of a lot's last day."""
    return f"{'past' if why == Wait.PAST else 'until'} {format_day(day)} {MARK}"


def what_of(lot: Lot, waits: str) -> str:
    """How much of a lot is on hand, and what it waits for."""
    reason = f", {waits}" if lot.disposition == Disposition.QUARANTINED else ""
    return f"{lot.on_hand:,} {lot.measure} {lot.disposition.word}{reason}"


def why_linked(links: list[Link]) -> str:
    """Why a lot contains others by links; empty if it contains none."""
    return f"{some_of(sorted({link.why.value for link in links}))} {MARK}" if links else ""


def waits_for(known: Known, lot: Lot) -> tuple[Wait, str]:
    """What a lot waits for, and that in words: the first of its tests that are out of their limits, or without a
    result, and how many more there are."""
    own, is_signed = list[OpenTest](), True
    for test in known.tests.get(lot.id, []):
        if test.is_plants:
            is_signed = False
        else:
            own.append(test)
    failed = [test.name for test in own if test.is_out]
    missing = [test.name for test in own if not test.is_out]
    count = len(own) + (not is_signed)
    rest = f", and {count - 1} more" if count > 1 else ""
    if failed:
        return Wait.FAILED, f"{failed[0]} out of limits{rest}"
    if missing:
        return Wait.RESULT, f"no {missing[0]} yet{rest}"
    return (Wait.RELEASE, "for its release") if is_signed else (Wait.SIGNATURE, "no signature yet")


WAITING = f"""
SELECT listed.owner, listed.[order], listed.recipe, listed.batches, listed.opened
FROM ({LISTINGS['orders'].sql()}) AS listed JOIN orders AS o ON o.owner = listed.owner AND o.ord = listed.[order]
WHERE listed.status = 'open' AND listed.opened < listed.batches ORDER BY o.rowid
"""
ROOM_OF_UNITS, ROOM_OF_ORDERS, LAST_ROOM = 913, 236, 69  # pixels for the counts and one page of a panel

# The states of batches that somebody has to see to, the most urgent first, and those of them that are an alarm.
TROUBLE = (
    State.ABORTED,
    State.ABORTING,
    State.HELD,
    State.HOLDING,
    State.STOPPED,
    State.STOPPING,
    State.PAUSED,
    State.PAUSING,
)
STATES_OF_ALARM = TROUBLE[:4]


def panels(source: Source) -> list[Panel]:
    """All panels: the units', and those beside it."""
    owners = [HOUSE, *owners_of(source.newest.base)]
    return [units(source), lots(source, owners), orders(source, owners), limits(source)]


def urgency(state: State) -> int:
    """The place of a state among those that somebody has to see to; all others are behind them."""
    return TROUBLE.index(state) if state in TROUBLE else len(TROUBLE)


def units(source: Source) -> Panel:
    """What the units run: batches in trouble first, then those that were opened first."""
    names = [name for name, in source.base.execute("SELECT unit FROM units ORDER BY unit")]
    opened = sorted(read_batches(source.base, "b.closed = 0 ORDER BY b.rowid"), key=lambda batch: urgency(batch.state))
    links = Genealogy(source.base, source.register).links
    taken = {batch.unit for batch in opened}
    free = [Row(name, "free", "") for name in names if name not in taken]
    rows = [*(unit(source, batch, links) for batch in opened[:MOST_ROWS]), *free][:MOST_ROWS]
    running = sum(batch.state == State.RUNNING for batch in opened)
    counts = [*counts_of(opened), *([Count(len(free), "free")] if free else [])]
    beside = f"{running} of {len(names)} run"
    return Panel("Units", beside, rows, len(opened) + len(free), ROOM_OF_UNITS, "There are no units.", counts)


def counts_of(batches: list[Batch]) -> list[Count]:
    """How many batches are in each state but `running`, the most urgent first."""
    states = Counter(batch.state for batch in batches if batch.state != State.RUNNING)
    return [
        Count(states[state], state.word, state in STATES_OF_ALARM)
        for state in sorted(states, key=lambda state: (urgency(state), state))
    ]


def unit(source: Source, batch: Batch, links: list[Link]) -> Row:
    """A unit with the batch that it runs, and with what that contains by links."""
    recorded = requirements_of(source.base, batch)
    answered, requirements = batch_of(source.newest.answer("batch", *map(str, batch.id)))
    agree(f"batch {batch.id}", answered, batch.status)
    agree(f"the requirements of {batch.id}", [astuple(line) for line in requirements], recorded)
    consumed, produced = (share([row[4:] for row in recorded if row[1] == use]) for use in ("consumed", "produced"))
    contained = [link.of_lot for link in links if link.container == batch.id]
    also = f", also {some_of(contained)} {MARK}" if contained else ""
    return Row(batch.unit, batch.state.word, f"{batch.id}{also}", consumed, produced, batch.state in STATES_OF_ALARM)


def share(requirements: list[tuple[int, int]]) -> int | None:
    """How far requirements have come, in percent; each counts alike, and none for more than all of it."""
    if not requirements:
        return None
    return sum(min(actual, required) * 100 // required for required, actual in requirements) // len(requirements)


def orders(source: Source, owners: list[str]) -> Panel:
    """The orders that wait for a batch, the oldest first."""
    waiting = source.base.execute(WAITING).fetchall()
    names = {row[:2] for row in waiting}
    lines = [(owner, line) for owner in owners for line in rows_of(OrderLine, source.newest.answer("orders", owner))]
    answered = {
        (owner, line.order): (line.recipe, line.batches, line.status)
        for owner, line in lines
        if (owner, line.order) in names
    }
    agree_on_all(answered, {(owner, name): (recipe, batches, "open") for owner, name, recipe, batches, _ in waiting})
    rows = [
        Row(f"{owner} {name}", "", f"{opened} of {batches} opened, {recipe}")
        for owner, name, recipe, batches, opened in waiting[:MOST_ROWS]
    ]
    count = len(waiting)
    return Panel("Orders waiting", f"{count:,}", rows, count, ROOM_OF_ORDERS, "No order waits for a batch.")


def limits(source: Source) -> Panel:
    """Who is near a limit, the nearest first."""
    near = [each for each in gauge.gauges(source.newest.base) if each.percent >= gauge.FULL]
    rows = [Row(f"{each.owner or 'the plant'}: {each.kind}", f"{each.percent} %", "") for each in near[:MOST_ROWS]]
    return Panel("Near a limit", str(len(near)), rows, len(near), LAST_ROOM, f"Nobody is at {gauge.FULL} %.")
