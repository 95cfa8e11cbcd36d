"""What a recall is for its readers: the plant reads all of it, and each owner concerned its own part.

What was found is in two temporary tables: `recalled` has the lots with their balances, and `moved` their movements with
what is noted of them.
"""
from collections import Counter, defaultdict
from collections.abc import Collection, Sequence
from dataclasses import dataclass
from functools import cached_property
from typing import Any, NamedTuple

from ... import HOUSE
from ...model import answers, corrected
from .agreement import SUMS, agree, agree_on_all, check_stock, require_closed
from ...model.below import MARK, noted_text
from ...model.genealogy import FORWARD, Genealogy, Trace
from ...model.notes import Link, PlantLink
from ...model.answers import RecallLine, recall_lines
from ...model.register.standing import Register
from ...model.rows import Base, Batch, BatchId, LotId, batches_of, require_lot, want
from ...model.schema import ON_HAND, ORIGIN, Disposition, Kind, QualityState
from .. import corrections, noted
from ..columns import Column
from ..sheets import Sheet, select
from .copies import Source

MOST_ASKED = 200  # batches that `toll` is asked about one by one
MOST_NAMES = 4  # lots that are named in a cell; of more their number is told
HELD = QualityState.HELD.value
FIRST = (Disposition.RELEASED, Disposition.QUARANTINED, Disposition.REJECTED)
WORDS = (*(disposition.word for disposition in FIRST), HELD)  # of what is on hand, each in a column
MOVED = """
CREATE TEMP TABLE moved AS SELECT m.rowid AS place, m.*, p.name, p.contact, p.phone, p.address
FROM meant_movement AS m LEFT JOIN party AS p ON p.owner = m.owner AND p.party = m.party
WHERE (m.lot_owner, m.lot) IN temp.wanted ORDER BY m.rowid
"""
RECALLED = f"""
CREATE TEMP TABLE recalled AS SELECT r.*, l.material, k.measure, l.disposition, {ORIGIN} AS origin,
  {ON_HAND} AS on_hand, coalesce((SELECT sum(x.amount) FROM temp.shift AS x
    WHERE x.owner = r.owner AND x.lot = r.lot), 0) AS corrected,
  {Disposition.sql('l.disposition')} AS word, q.state IS 'held' AS is_held, q.reason, b.*
FROM temp.reached AS r JOIN lots AS l USING (owner, lot) JOIN materials AS k USING (owner, material)
JOIN quality AS q ON q.owner = l.owner AND q.lot = l.lot
JOIN (SELECT w.owner AS of_owner, w.lot AS of_lot, {SUMS} FROM temp.wanted AS w LEFT JOIN temp.moved AS m
  ON m.lot_owner = w.owner AND m.lot = w.lot AND NOT m.is_void GROUP BY 1, 2) AS b
  ON b.of_owner = r.owner AND b.of_lot = r.lot
ORDER BY r.place
"""
REACHED = "CREATE TEMP TABLE reached (place INTEGER PRIMARY KEY, steps, owner, lot, mark, UNIQUE (owner, lot))"
STATE = f"iif(r.is_held, '{HELD}', r.word)"  # whether a lot is held, or else its disposition
STATUS = f"iif(r.is_held, '{HELD} (' || r.word || ')', r.word)"
READ = ":reader IN ('', r.owner)"  # what a reader sees: the plant, which has no name here, all of it
LOTS = f"FROM temp.recalled AS r WHERE {READ}"
MOVES = f"FROM temp.moved AS m JOIN temp.recalled AS r ON r.owner = m.lot_owner AND r.lot = m.lot WHERE {READ}"
SHIPMENTS = f"{MOVES} AND m.kind = {Kind.SHIP:d}"


class Found(NamedTuple):
    """A lot that was found: its steps, its mark if links add it or shorten the way to it, what it is, whether it is
    held or else its disposition, what is on hand, and what was shipped."""

    steps: int
    id: LotId
    mark: str | None
    material: str
    measure: str
    word: str
    on_hand: int
    shipped: int


@dataclass(frozen=True)
class Step:
    """A batch that consumed some of the recalled lots, or that contains some by links: how many steps it is away, what
    it consumed and produced, these links, and whether it is there, or so near, by links alone."""

    number: int
    batch: Batch
    consumed: dict[LotId, int]
    produced: dict[LotId, int]
    links: list[Link | PlantLink]
    is_noted: bool

    @property
    def mark(self) -> str | None:
        """Its mark, if links add it or shorten the way to it."""
        return MARK if self.is_noted else None


@dataclass
class Report:
    """A recall that balances and that `toll` tells too: the lots by their steps, its batches, and its text."""

    base: Base
    start: LotId
    genealogy: Genealogy
    lots: dict[LotId, Found]
    steps: list[Step]
    text: str
    files: int  # of the office, over which it goes
    register: Register
    trace: Trace

    @property
    def owners(self) -> list[str]:
        """The owners that a paper is for, besides the plant: those of lots, and those whose batches have some."""
        return sorted({*(lot.owner for lot in self.lots), *(step.batch.id.owner for step in self.steps)} - {HOUSE})


@dataclass
class View:
    """What one reader sees of a recall: the plant, if there is no owner, all of it."""

    report: Report
    owner: str = ""

    def has(self, owner: str) -> bool:
        """Whether it shows an owner's lots and batches."""
        return self.owner in ("", owner)

    def select(self, name: str, heads: list[Column], behind: str, sums: Sequence[str] = ()) -> Sheet:
        """A table of what was found."""
        words = {"reader": self.owner, "start": str(self.report.start)}
        return select(self.report.base, name, heads, behind, words, sums)

    def one(self, sql: str) -> Any:
        """The first value of a query."""
        ((value,),) = self.report.base.execute(sql, {"reader": self.owner}).fetchall()
        return value

    @cached_property
    def lots(self) -> list[Found]:
        """Its lots, by their steps."""
        return [lot for lot in self.report.lots.values() if self.has(lot.id.owner)]

    @cached_property
    def steps(self) -> list[Step]:
        """Its batches, by their steps."""
        return [step for step in self.report.steps if self.has(step.batch.id.owner)]

    @cached_property
    def links(self) -> Sheet:
        """Its links that say what contains some of the recalled lots."""
        where = ":reader IN ('', k.owner) AND (k.of_owner, k.of_lot) IN (SELECT owner, lot FROM temp.reached)"
        return noted.links(self.report.base, where, {"reader": self.owner})

    @property
    def plant_links(self) -> Sheet:
        """The plant's links of which some content was found; none for an owner."""
        genealogy, lots = self.report.genealogy, self.report.lots
        links = [link for link in genealogy.plant_links if contents_in(genealogy, lots, link)]
        return noted.plant_links([] if self.owner else links)

    @cached_property
    def notices(self) -> list[tuple[str, int]]:
        """Which of an owner's lots contain material of another one, as the plant tells it, and since which day."""
        if not self.owner:
            return []
        genealogy, lots = self.report.genealogy, self.report.lots
        noticed = {
            (lot, notice.day)
            for notice in self.report.register.of(self.owner).notices
            for lot in genealogy.lots_of(notice.container)
        }
        return [(lot.name, day) for lot, day in sorted(noticed) if lot in lots]

    @cached_property
    def corrections(self) -> Sheet:
        """What was recorded by mistake of its lots, or meant of them."""
        return corrections.of_recall(self.report.base, self.owner)

    @cached_property
    def is_noted(self) -> bool:
        """Whether links add any of its lots or batches, or shorten the way to a lot."""
        return any(lot.mark for lot in self.lots) or any(step.is_noted for step in self.steps)

    @cached_property
    def has_notes(self) -> bool:
        """Whether its reader has notes of parties or movements; otherwise its papers say nothing of them."""
        of_parties = "SELECT 1 FROM register.party_note WHERE :reader IN ('', owner)"
        of_moves = "SELECT 1 FROM temp.moved WHERE :reader IN ('', owner) AND party || supplier_lot || document <> ''"
        return bool(self.one(f"SELECT EXISTS ({of_parties} UNION ALL {of_moves})"))

    @property
    def names_start(self) -> bool:
        """Whether it names the recalled lot: to the plant, to its owner, and to those that consumed it or contain it by
        a link."""
        start = self.report.start
        return (
            self.has(start.owner)
            or any(start in step.consumed for step in self.steps)
            or any(link.contained == start for link in self.report.genealogy.links if self.has(link.owner))
        )

    @property
    def counts(self) -> dict[str, int]:
        """How many owners are concerned, how many lots of each disposition and how many held ones are on hand, and how
        many shipments left."""
        on_hand = Counter(lot.word for lot in self.lots if lot.on_hand)
        shipments = self.one(f"SELECT count(*) {SHIPMENTS}")
        return {"owners": len(self.report.owners), "shipments": shipments, **{word: on_hand[word] for word in WORDS}}


def read_report(source: Source, start: LotId, *others: LotId, is_plants: bool = False, is_paper: bool = True) -> Report:
    """The recall of a lot, which is there, or of several together; that of the plant follows links between owners, too.
    It is read before another one is made. Of a paper `toll` has to tell the same; what is only looked at or held
    doesn't wait for that."""
    base = source.base
    genealogy = Genealogy(base, source.register, is_plants)
    traces = []
    for each in (start, *others):
        require_lot(base, each)
        traces.append(genealogy.trace(each, FORWARD))
        recorded = recall_lines(base, traces[-1].recorded)
        text = "".join(f"{line}\n" for line in answers.recall_text(recorded))
        if is_paper:
            check_lines(source, each, recorded, text)
    trace = joined_traces(traces)
    if others:
        text = "".join(f"{line}\n" for line in answers.recall_text(recall_lines(base, trace.recorded)))
    if is_paper:
        require_closed(base, trace.steps)
    lots = read_lots(base, trace)
    steps = steps_of(base, genealogy, trace)
    if is_paper:
        check_stock(source, sorted({lot.owner for lot in lots}), lots)
        check_batches(source, [step.batch for step in steps])
    added = noted_text(answers.recall_text(recall_lines(base, trace.noted))[1:])
    text += "".join(f"{line}\n" for line in [*added, *corrected.lines_below(base, trace.steps)])
    return Report(base, start, genealogy, lots, steps, text, len(source.files), source.register, trace)


def joined_traces(traces: Sequence[Trace]) -> Trace:
    """The lots of several traces, each with the fewest steps from any of their starts."""
    if len(traces) == 1:
        return traces[0]
    joined: list[dict[LotId, int]] = []
    for all_steps in ([trace.steps for trace in traces], [trace.recorded for trace in traces]):
        fewest: dict[LotId, int] = {}
        for steps in all_steps:
            fewest.update((lot, number) for lot, number in steps.items() if number <= fewest.get(lot, number))
        joined.append(dict(sorted(fewest.items(), key=lambda entry: (entry[1], entry[0]))))
    return Trace(*joined)


def read_lots(base: Base, trace: Trace) -> dict[LotId, Found]:
    """The lots of a trace, by their steps; `recalled` has them, and `moved` their movements."""
    want(base, trace.steps)
    for table in ("reached", "moved", "recalled"):
        base.execute(f"DROP TABLE IF EXISTS temp.{table}")
    base.execute(REACHED)
    marks = ((steps, *lot, MARK if trace.is_noted(lot) else None) for lot, steps in trace.steps.items())
    base.executemany("INSERT INTO temp.reached (steps, owner, lot, mark) VALUES (?, ?, ?, ?)", marks)
    base.execute(MOVED)
    base.execute(RECALLED)
    sql = f"SELECT steps, owner, lot, mark, material, measure, {STATE}, on_hand, shipped FROM temp.recalled AS r"
    lots = (Found(steps, LotId(owner, lot), *rest) for steps, owner, lot, *rest in base.execute(sql))
    return {lot.id: lot for lot in lots}


AMOUNTS = """
SELECT owner, ord, number, kind, lot_owner, lot, sum(amount) FROM temp.moved WHERE ord <> '' AND NOT is_void
GROUP BY 1, 2, 3, 4, 5, 6
"""


def contents_in(genealogy: Genealogy, lots: Collection[LotId], link: Link | PlantLink) -> list[LotId]:
    """The lots among these of which a link says that they are contained."""
    contents = [link.contained] if isinstance(link, Link) else genealogy.contents_of(link)
    return [lot for lot in contents if lot in lots]


def steps_of(base: Base, genealogy: Genealogy, trace: Trace) -> list[Step]:
    """The batches that consumed some of the recalled lots, or that contain some by links."""
    amounts = Counter[tuple[BatchId, Kind, LotId]]()
    for owner, order, number, kind, *lot, amount in base.execute(AMOUNTS):
        amounts[BatchId(owner, order, number), Kind(kind), LotId(*lot)] = amount
    links: dict[BatchId, list[Link | PlantLink]] = defaultdict(list)
    all_links: list[Link | PlantLink] = [*genealogy.links, *genealogy.plant_links]
    for link in all_links:
        if isinstance(link.container, BatchId) and contents_in(genealogy, trace.steps, link):
            links[link.container].append(link)
    steps = []
    consumers = {batch for lot in trace.steps for batch in genealogy.consumers(lot)}
    for name, batch in batches_of(base, sorted(consumers | links.keys())).items():
        consumed = [lot for lot in sorted(genealogy.consumed.get(name, {})) if lot in trace.steps]
        onward = {product for lot in consumed for product in genealogy.products(name, lot)}
        if links[name]:
            onward |= set(genealogy.lots_of(name))
        by_links = [lot for link in links[name] for lot in contents_in(genealogy, trace.steps, link)]
        nearest = min(trace.steps[lot] for lot in [*consumed, *by_links])
        is_noted = all(trace.recorded.get(lot) != nearest for lot in consumed)
        taken = {lot: amounts[name, Kind.CONSUMED, lot] for lot in consumed}
        produced = {lot: amounts[name, Kind.PRODUCED, lot] for lot in sorted(onward)}
        steps.append(Step(1 + nearest, batch, taken, produced, links[name], is_noted))
    return sorted(steps, key=lambda step: (step.number, step.batch.id))


def check_lines(source: Source, start: LotId, lines: list[RecallLine], text: str) -> None:
    """Fails if `toll` tells another recall. Of the newest file it tells some lots, with more steps and less shipped."""
    if not source.newest_has(start):
        return
    answer = source.newest.answer("recall", *start)
    answered, expected = (
        {(line.owner, line.lot): (line.steps, line.disposition, line.on_hand, line.shipped) for line in each}
        for each in (answers.recall_of(answer), lines)
    )
    if not source.is_one:
        expected = {
            lot: line if covers(expected[lot], line) else expected[lot]
            for lot, line in answered.items()
            if lot in expected
        }
    agree_on_all(answered, expected)
    if source.is_one:
        agree("the text of the recall", answer, text)


def covers(whole: tuple[int, str, int, int], newest: tuple[int, str, int, int]) -> bool:
    """Whether a line over all files is that of the newest file, but for fewer steps and more shipped."""
    return whole[0] <= newest[0] and whole[1:3] == newest[1:3] and whole[3] >= newest[3]


def check_batches(source: Source, batches: list[Batch]) -> None:
    """Fails if `toll` tells another state of a batch; of many it is asked about some, the open ones first."""
    urgent_first = sorted(batches, key=lambda batch: (batch.is_closed, batch.id))
    asked = [batch for batch in urgent_first if source.newest_has(batch.id)][:MOST_ASKED]
    agree_on_all(
        {batch.id: answers.batch_of(source.newest.answer("batch", *map(str, batch.id)))[0] for batch in asked},
        {batch.id: batch.status for batch in asked},
    )
