"""What the pages show, read from the office's tables and the plant's notes."""
from collections import defaultdict
from collections.abc import Sequence
from dataclasses import dataclass
from functools import cached_property
from itertools import islice
from typing import NamedTuple

from hilpoven import HOUSE
from hilpoven.core.context import Context
from hilpoven.core.days import last_day_within
from hilpoven.core.failure import REFUSED, Failure
from hilpoven.core.forms import whole_words
from hilpoven.core.grammar import LINES
from hilpoven.model import quality, views
from hilpoven.model.answers import RecallLine, recall_lines
from hilpoven.model.genealogy import FORWARD, Genealogy
from hilpoven.model.kinds import Role
from hilpoven.model.notes import Party
from hilpoven.model.quality import DescribedTest, QualityState, Status
from hilpoven.model.register.standing import Register
from hilpoven.model.rows import Base, Batch, BatchId, Lot, LotId, Move
from hilpoven.model.rows import batches_of, lots_of, owners_of, read_batches, read_lots, read_moves, require_lot
from hilpoven.model.rows import requirements_of, sublots_of, want
from hilpoven.model.schema import CLOSABLE, FOLLOWING, IS_ACTUAL, ON_HAND, Disposition, Kind, State
from hilpoven.record.choices import Choice, Place
from hilpoven.record.expiry import last_day
from hilpoven.report.finding import part_of

from .recording import digest_of

SOON = 30  # days within which a lot expires that is shown
MOST = 40  # rows of a list of today
MOST_MOVES = 40  # of a lot
MOST_NAMES = 2_000  # that are offered for a field
MOST_RECALLED = 500  # lots that a recall shows
HELD = "held"

WAITING = f"l.disposition = {Disposition.QUARANTINED:d} AND {ON_HAND} > 0 ORDER BY l.rowid LIMIT ?"
# Lots whose latest result of the plant's own test is a hold: few materials have the test, and few lots are held.
HELD_LOTS = """
SELECT l.owner, l.lot FROM tests AS t JOIN lots AS l ON l.owner = t.owner AND l.material = t.material
WHERE t.test = ? AND t.low = 1 AND t.high = 1 AND 0 = (SELECT r.value FROM results AS r
  WHERE r.owner = l.owner AND r.lot = l.lot AND r.test = t.test ORDER BY r.number DESC LIMIT 1)
"""
NOTED_DAYS = """
SELECT DISTINCT owner, lot FROM register.lot_note WHERE expires BETWEEN 1 AND :last OR retest BETWEEN 1 AND :last
"""
ORDERS = """
SELECT o.owner, o.ord, o.recipe, o.batches,
  (SELECT count(*) FROM batches AS b WHERE b.owner = o.owner AND b.ord = o.ord) AS opened
FROM orders AS o WHERE o.cancelled = 0 AND opened < o.batches AND {} ORDER BY o.rowid LIMIT ?
"""
# Movements of which a supplier's lot or a document was noted once that may say a text.
NOTED = "SELECT DISTINCT owner, mkey FROM register.movement_note WHERE supplier_lot LIKE :part OR document LIKE :part"
OF_KEY = "m.owner = ? AND m.mkey = ?"
LATEST = 20_000  # sublots, of which the places are offered
PLACES = (
    f"SELECT DISTINCT sublot FROM (SELECT sublot FROM sublots ORDER BY rowid DESC LIMIT {LATEST}) ORDER BY 1 LIMIT ?"
)
MEASURE = "SELECT measure FROM materials WHERE owner = ? AND material = ?"
UNITS = """
SELECT u.unit FROM units AS u WHERE NOT EXISTS (SELECT 1 FROM batches AS b WHERE b.unit = u.unit AND b.closed = 0)
ORDER BY u.unit
"""
STOCK = """
SELECT s.owner, s.lot, s.sublot, l.material, m.measure, l.disposition, s.amount FROM sublots AS s
JOIN lots AS l USING (owner, lot) JOIN materials AS m USING (owner, material)
WHERE s.amount > 0 AND s.owner = :owner AND (:place = '' OR s.sublot = :place)
  AND (:material = '' OR l.material = :material)
ORDER BY s.lot, s.sublot LIMIT :most
"""


@dataclass(frozen=True)
class Reading:
    """The office as a request reads it: its tables, what the plant noted, and for whom."""

    context: Context
    base: Base
    register: Register

    @property
    def today(self) -> int:
        """Today as a day of the office."""
        return self.context.day()

    # Lots

    def card(self, lot: LotId) -> "Card":
        """The card of a lot; fails if there is none."""
        return Card(self, require_lot(self.base, lot))

    def lots_called(self, word: str) -> list[Lot]:
        """The lots of a name, before which their owner may stand."""
        owner, _, name = word.replace("/", " ").rpartition(" ")
        where, words = ("l.owner = ? AND l.lot = ?", (owner, name)) if owner else ("l.lot = ?", (name,))
        return read_lots(self.base, where, words)

    def lots_noted(self, word: str) -> list[Lot]:
        """The lots of movements of which a supplier's lot or a document is noted that says a text."""
        pattern, names = whole_words(word), self.base.execute(NOTED, {"part": part_of(word)}).fetchall()
        all_facts = [self.register.facts[name] for name in names if name in self.register.facts]
        fitting = [facts for facts in all_facts if pattern.search(facts.supplier_lot) or pattern.search(facts.document)]
        moves = [move for facts in fitting for move in read_moves(self.base, OF_KEY, (facts.owner, facts.key))]
        return list(lots_of(self.base, {move.lot for move in moves}).values())

    def moves_of(self, lot: LotId) -> list[Move]:
        """The latest movements of a lot, the last first. A lot that isn't the plant's moves by its owner's alone."""
        own = "" if lot.owner == HOUSE else "m.owner = m.lot_owner AND m.owner = ? AND"
        words = (*lot,) if lot.owner == HOUSE else (lot.owner, *lot)
        return read_moves(self.base, f"{own} m.lot_owner = ? AND m.lot = ?", words)[: -MOST_MOVES - 1 : -1]

    def shipments_of(self, lot: LotId) -> list[Move]:
        """The latest shipments of a lot that stand, the last one first."""
        return [move for move in self.moves_of(lot) if move.kind == Kind.SHIP and not move.is_void]

    def parties(self, owner: str, role: Role) -> list[Party]:
        """The parties of an owner with a role, by their names."""
        names = [name for name in self.register.parties if name[0] == owner]
        parties = [self.register.parties[name] for name in names]
        return sorted((party for party in parties if role in party.roles), key=lambda party: party.party)

    def measure(self, owner: str, material: str) -> str:
        """The measure of a material; empty if there is none."""
        row = self.base.execute(MEASURE, (owner, material)).fetchone()
        return str(row[0]) if row else ""

    # Names that fit

    def fitting(self, line: str, value: str, **before: str) -> list[Choice]:
        """The names that fit a value of a line, by those before it."""
        known = {name.upper().replace("_", "-"): word for name, word in before.items() if word}
        place = Place(LINES[line], value, known, self.context.settings.quality.test)
        return place.fitting(self.base)[:MOST_NAMES]

    @cached_property
    def places(self) -> list[str]:
        """The names of the plant's places, of its latest lots."""
        return [str(name) for name, in self.base.execute(PLACES, (MOST_NAMES,))]

    @cached_property
    def owners(self) -> list[str]:
        """The plant and the owners."""
        return [HOUSE, *owners_of(self.base)]

    @property
    def free_units(self) -> list[str]:
        """The units that hold no batch."""
        return [str(name) for name, in self.base.execute(UNITS)]

    # Today

    def batches(self) -> list["BatchRow"]:
        """The open batches, those that were opened first before others."""
        rows = read_batches(self.base, "b.closed = 0 ORDER BY b.rowid LIMIT ?", (MOST + 1,))
        return [BatchRow(batch, share(requirements_of(self.base, batch))) for batch in rows]

    def held(self) -> list["HeldRow"]:
        """The lots on hand that the plant's quality holds."""
        test = self.context.settings.quality.test
        names = [LotId(*row) for row in self.base.execute(HELD_LOTS, (test,))] if test else []
        lots = lots_of(self.base, dict.fromkeys([*names, *self.register.held_alone]))
        rows = [HeldRow(lot, self.status(lot.id)) for lot in lots.values() if lot.on_hand]
        return [row for row in rows if row.status.state == QualityState.HELD]

    def status(self, lot: LotId) -> Status:
        """What the plant's quality says of a lot."""
        return quality.statuses(self.base, self.register, lot).get(lot) or Status(QualityState.UNSIGNED)

    def expiring(self) -> list["ExpiringRow"]:
        """The lots on hand that expire or are to be tested again soon, the first ones first."""
        if self.register.opened is None:
            return []
        last = last_day_within(SOON, self.context.settings.time_zone)
        names = views.over(self.base, self.register).execute(NOTED_DAYS, {"last": last}).fetchall()
        lots = lots_of(self.base, {LotId(*row) for row in names})
        days = {lot: last_day(facts) for lot in lots if (facts := self.register.lots.get(lot))}
        rows = [
            ExpiringRow(lot, day) for lot in lots.values() if lot.on_hand and (day := days.get(lot.id)) and day <= last
        ]
        return sorted(rows, key=lambda row: (row.day, row.lot.id))

    def waiting(self) -> list["WaitingRow"]:
        """The lots on hand that wait for results, a signature or their release, the oldest first."""
        return [WaitingRow(lot, self.missing(lot.id)) for lot in read_lots(self.base, WAITING, (MOST + 1,))]

    def state(self, lot: Lot) -> str:
        """The state of a lot in a word: held, or its disposition."""
        return HELD if self.status(lot.id).state == QualityState.HELD else lot.disposition.word

    def missing(self, lot: LotId) -> list[str]:
        """The tests of a lot without a result within its limits."""
        return [test.name for test in quality.tests_of(self.base, self.register, lot) if not test.passes]

    def orders(self, owner: str = "", order: str = "") -> list["OrderRow"]:
        """The orders that wait for a batch, the oldest first; of one name, or of an owner too, where they are named."""
        where, words = ("o.ord = ?", [order]) if order else ("1", [])
        if owner:
            where, words = f"{where} AND o.owner = ?", [*words, owner]
        return [OrderRow(*row) for row in self.base.execute(ORDERS.format(where), (*words, MOST + 1))]

    def sublots_called(self, word: str) -> list["StockRow"]:
        """The sublots that hold something of the lots of a name."""
        lots = {lot.id: lot for lot in self.lots_called(word)}
        states = {name: self.state(lot) for name, lot in lots.items()}
        return [
            StockRow(lot, sublot, lots[lot].material, lots[lot].measure, states[lot], amount)
            for (lot, sublot), amount in sublots_of(self.base, lots).items()
            if amount
        ]

    # Batches

    def batch(self, name: BatchId) -> "BatchCard":
        """The card of a batch; fails if there is none."""
        batch = batches_of(self.base, [name]).get(name)
        if batch is None:
            raise Failure(f"there is no batch {name}", REFUSED)
        return BatchCard(self, batch)

    def batches_called(self, word: str) -> list[Batch]:
        """The batches of an order or a unit of this name: of a unit the one that is open."""
        return read_batches(self.base, "b.ord = ? OR b.unit = ? AND b.closed = 0", (word, word))

    # Recalls and stock

    def recall(self, lot: LotId) -> "Recall":
        """Where a lot went, by recorded actuals and links, also between owners; fails if there is no such lot."""
        require_lot(self.base, lot)
        trace = Genealogy(self.base, self.register, is_plants=True).trace(lot, FORWARD)
        first = dict(islice(trace.steps.items(), MOST_RECALLED))
        noted = {each for each in first if trace.is_noted(each)}
        return Recall(self, recall_lines(self.base, first), noted, len(trace.steps))

    def stock(self, owner: str, place: str = "", material: str = "") -> list["StockRow"]:
        """What an owner's sublots hold, at a place or of a material alone where one is named."""
        words = {"owner": owner, "place": place, "material": material, "most": MOST_NAMES}
        return [
            StockRow(LotId(lot_owner, lot), sublot, of, measure, Disposition(disposition).word, amount)
            for lot_owner, lot, sublot, of, measure, disposition, amount in self.base.execute(STOCK, words)
        ]


class BatchRow(NamedTuple):
    """An open batch, and how far it has come, in percent."""

    batch: Batch
    percent: int


class HeldRow(NamedTuple):
    """A lot that is held, and why."""

    lot: Lot
    status: Status


class ExpiringRow(NamedTuple):
    """A lot with its last day."""

    lot: Lot
    day: int


class WaitingRow(NamedTuple):
    """A lot that waits, and the tests that it lacks."""

    lot: Lot
    missing: list[str]


class OrderRow(NamedTuple):
    """An order, how many batches it has, and how many of them were opened."""

    owner: str
    order: str
    recipe: str
    batches: int
    opened: int


class StockRow(NamedTuple):
    """What a sublot holds."""

    lot: LotId
    sublot: str
    material: str
    measure: str
    state: str
    amount: int


class Need(NamedTuple):
    """What a batch's recipe requires, and what was recorded of it."""

    segment: int
    use: str
    owner: str
    material: str
    required: int
    actual: int
    measure: str

    @property
    def percent(self) -> int:
        """How much of it was recorded, at most all."""
        return min(100, self.actual * 100 // self.required)

    @property
    def left(self) -> int:
        """How much of it is still to be recorded."""
        return max(0, self.required - self.actual)


@dataclass(frozen=True)
class Card:
    """A lot as it is shown before it is used: what it is, its state, and what speaks against it."""

    reading: Reading
    lot: Lot

    @cached_property
    def status(self) -> Status:
        """What the plant's quality says of it."""
        return self.reading.status(self.lot.id)

    @property
    def is_held(self) -> bool:
        """Whether the plant's quality holds it."""
        return self.status.state == QualityState.HELD

    @property
    def state(self) -> str:
        """Its state in a word: held, or its disposition."""
        return HELD if self.is_held else self.lot.disposition.word

    @cached_property
    def sublots(self) -> dict[str, int]:
        """What each of its sublots holds."""
        return {sublot: amount for (_, sublot), amount in sublots_of(self.reading.base, [self.lot.id]).items()}

    @cached_property
    def tests(self) -> list[DescribedTest]:
        """Its tests, with limits and latest results as measured."""
        return quality.tests_of(self.reading.base, self.reading.register, self.lot.id)

    @property
    def missing(self) -> list[str]:
        """Its tests without a result within their limits."""
        return [test.name for test in self.tests if not test.passes]

    @cached_property
    def last_day(self) -> int | None:
        """The last day on which it may be used; `None` if none is noted."""
        facts = self.reading.register.lots.get(self.lot.id)
        return last_day(facts) if facts else None

    @property
    def is_past(self) -> bool:
        """Whether it is past its last day."""
        return self.last_day is not None and self.last_day < self.reading.today

    @property
    def may_go(self) -> bool:
        """Whether it may be shipped or consumed, as far as the tables say."""
        return self.state == Disposition.RELEASED.word and not self.is_past

    @property
    def seen(self) -> str:
        """A digest of what a result or a signature goes by."""
        tests = [(*test[:6], str(test.value), test.day) for test in self.tests]
        return digest_of(self.lot.id, self.lot.disposition, self.status, self.last_day, tests)


@dataclass(frozen=True)
class BatchCard:
    """A batch as it is shown: its state, what it requires, what was recorded, and what can be done."""

    reading: Reading
    batch: Batch

    @cached_property
    def needs(self) -> list[Need]:
        """What its recipe requires."""
        rows = requirements_of(self.reading.base, self.batch)
        return [Need(*row, self.reading.measure(row[2], row[3])) for row in rows]

    @cached_property
    def moves(self) -> list[Move]:
        """Its actuals, the last one first."""
        where = f"m.owner = ? AND m.ord = ? AND m.number = ? AND {IS_ACTUAL}"
        return read_moves(self.reading.base, where, self.batch.id)[::-1]

    @property
    def commands(self) -> Sequence[str]:
        """The commands that its state allows."""
        return () if self.batch.is_closed else FOLLOWING[self.batch.state]

    @property
    def is_closable(self) -> bool:
        """Whether it may be closed."""
        return not self.batch.is_closed and self.batch.state in CLOSABLE

    @property
    def is_at_work(self) -> bool:
        """Whether actuals may be recorded."""
        return not self.batch.is_closed and self.batch.state != State.IDLE

    @property
    def seen(self) -> str:
        """A digest of what a command of it goes by."""
        return digest_of(self.batch.id, self.batch.state, self.batch.is_closed)

    def need_of(self, card: Card) -> Need | None:
        """The requirement that a lot's material meets: the first of which something is left, or else the first."""
        fitting = [
            need
            for need in self.needs
            if (need.use, need.owner, need.material) == ("consumed", card.lot.id.owner, card.lot.material)
        ]
        return next((need for need in fitting if need.left), fitting[0] if fitting else None)


@dataclass(frozen=True)
class Recall:
    """Where a lot went: the first lots, those of them that links add or shorten the way to, and how many there are."""

    reading: Reading
    lines: list[RecallLine]
    noted: set[LotId]
    count: int

    @cached_property
    def names(self) -> list[LotId]:
        """The names of the lots."""
        return [LotId(line.owner, line.lot) for line in self.lines]

    @cached_property
    def places(self) -> dict[LotId, list[tuple[str, int]]]:
        """Where each lot lies now, with how much."""
        places: dict[LotId, list[tuple[str, int]]] = defaultdict(list)
        for (lot, sublot), amount in sublots_of(self.reading.base, self.names).items():
            if amount:
                places[lot].append((sublot, amount))
        return places

    @cached_property
    def shipments(self) -> dict[LotId, list[tuple[Move, Party | None]]]:
        """What left of each lot, with who got it, if that is noted."""
        want(self.reading.base, self.names)
        own = "m.owner = m.lot_owner AND m.owner IN (SELECT owner FROM temp.wanted)"  # nobody else ships an owner's lot
        where = f"m.kind = {Kind.SHIP:d} AND {own} AND (m.lot_owner, m.lot) IN temp.wanted"
        shipments: dict[LotId, list[tuple[Move, Party | None]]] = defaultdict(list)
        for move in read_moves(self.reading.base, where):
            facts = self.reading.register.facts.get((move.owner, move.key))
            party = self.reading.register.parties.get((move.owner, facts.party)) if facts else None
            shipments[move.lot].append((move, party))
        return shipments

    def state(self, line: RecallLine) -> str:
        """The state of a lot in a word."""
        is_held = self.reading.status(LotId(line.owner, line.lot)).state == QualityState.HELD
        return HELD if is_held else line.disposition


def share(needs: Sequence[tuple[int, str, str, str, int, int]]) -> int:
    """How far requirements have come, in percent; each counts alike, and none for more than all of it."""
    if not needs:
        return 0
    return sum(min(actual, required) * 100 // required for *_, required, actual in needs) // len(needs)
