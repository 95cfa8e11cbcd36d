"""The record of a batch: what its recipe requires, what it consumed and produced, what the tests of both say, and when
and by whom each step was done, as the journal has it."""
from collections.abc import Collection, Iterator, Mapping
from dataclasses import astuple, dataclass, field
from typing import Any, NamedTuple

from ... import HOUSE
from ...core.failure import REFUSED, Failure, printable
from ...core.grammar import LINES
from ...core.journal import query
from ...core.journal.log import Journal
from ...core.meanings import OUTCOME
from ...model.answers import OrderLine, batch_of, rows_of
from ...model.rows import Base, Batch, BatchId, LotId, batches_of, require_owner, requirements_of
from ...model.schema import IS_ACTUAL, REQUIREMENTS, STANDING, Disposition, Kind, quality_text
from .. import noted
from ..columns import columns
from ..sheets import Sheet, percent, select
from .agreement import agree, check_lots, require_closed
from .certificate import TESTS
from .copies import Source
from .printing import Document

DONE = columns("time=UTC:text who:text step:text")
RECORDED_BY = columns("recorded=recorded_UTC:text recorded_by=by:text@beneath")
COUNT_OF_BATCHES = "SELECT count(*) FROM batches WHERE owner = ? AND ord = ?"
TAKEN = ("accepted", "repeated")
Entry = Mapping[str, Any]


class Doing(NamedTuple):
    """When something was done, and by whom."""

    time: str
    who: str


@dataclass
class Steps:
    """What the journal has of a batch: its steps, those that opened batches of its order, and when each actual was
    recorded, by its key."""

    batch: BatchId
    done: list[tuple[Doing, str]] = field(default_factory=list)
    opened: list[tuple[Doing, str]] = field(default_factory=list)
    recorded: dict[str, Doing] = field(default_factory=dict)

    def add(self, words: list[str], doing: Doing, remark: str, keys: Collection[str]) -> None:
        """Adds what a command did, if it is about the batch, or an actual of it."""
        line = LINES.get(words[0]) if words else None
        if line is None or len(words) != len(line.values) + 1:
            return
        values = dict(zip(line.values, words[1:]))
        owner, order, number = self.batch
        is_of_order = (values.get("OWNER"), values.get("ORDER")) == (owner, order)
        is_of_batch = is_of_order and values.get("BATCH") == str(number)
        is_of_actual = values.get("OWNER") == owner and values.get("KEY") in keys
        match line.name:
            case "open" if is_of_order:
                self.opened.append((doing, f"open on {values['UNIT']}{remark}"))
            case "do" if is_of_batch:
                self.done.append((doing, f"{values['COMMAND']}{remark}"))
            case "close" if is_of_batch:
                self.done.append((doing, f"close{remark}"))
            case "void" if is_of_actual:
                self.done.append((doing, f"void {values['KEY']}{remark}"))
            case "actual" if is_of_actual:
                self.recorded.setdefault(values["KEY"], doing)

    def sheet(self) -> Sheet:
        """The table of steps."""
        return Sheet("steps", DONE, [(*doing, step) for doing, step in self.done])

    def with_times(self, sheet: Sheet) -> Sheet:
        """The table of actuals, which begins with keys, with when and by whom each was recorded; unchanged if the
        journal has none of them."""
        if not self.recorded:
            return sheet
        return sheet.joined_with(RECORDED_BY, [self.recorded.get(str(row[0]), (None, None)) for row in sheet.rows])


def steps_of(journal: Journal, base: Base, batch: BatchId, keys: Collection[str]) -> Steps:
    """What the journal has of a batch, whose actuals have these keys. A command opens the next batch of an order: which
    one isn't known if the journal doesn't have all of them."""
    entries = query.entries(journal.path, journal.file)
    answers = {str(entry.get("of")): entry for entry in entries if entry.get("event") == "told"}
    steps = Steps(batch)
    for entry in entries:
        answer = answers.get(str(entry.get("id")))
        if entry.get("event") != "asked" or answer and answer.get("status") != 0 and "keys" not in entry:
            continue
        doing = Doing(str(entry.get("time"))[:19].replace("T", " "), printable(str(entry.get("login"))))
        for key in keys_of(entry, answer, batch.owner):
            if key in keys:
                steps.recorded.setdefault(key, doing)
        words = entry.get("words")
        if isinstance(words, list):
            steps.add([str(word) for word in words], doing, "" if answer else ", answer unknown", keys)
    ((count,),) = base.execute(COUNT_OF_BATCHES, batch[:2])
    if len(steps.opened) == count:
        steps.done.insert(0, steps.opened[batch.number - 1])
    return steps


def keys_of(entry: Entry, answer: Entry | None, owner: str) -> Iterator[str]:
    """The keys of an owner's actuals that a sheet recorded; those of a sheet without an answer may be recorded."""
    given = entry.get("keys")
    if not isinstance(given, list):
        return
    lines = str(answer.get("answer", "")).splitlines() if answer else []
    outcomes = [match[1] for match in map(OUTCOME.fullmatch, lines) if match] if answer else [TAKEN[0]] * len(given)
    for name, outcome in zip(given, outcomes):
        key_owner, _, key = str(name).partition(" ")
        if key_owner == owner and outcome in TAKEN:
            yield key


REQUIRED = columns(
    "segment:number use:text source=of material required:number actual:number percent=%:number",
    source="owner",
    percent=("actual", "required", percent),
)
ACTUALS = columns(
    "key segment:number use:text lot_owner=of material lot sublot amount:number measure=unit:text@beside "
    "day:day void:text",
    key="mkey",
    use=Kind.sql("kind"),
    material="of_material",
    void="iif(is_void, 'void', '')",
)
# Only the plant reads the disposition of its lots, and what its quality says of them.
LOTS = columns(
    "l.owner=of l.lot l.material disposition:word t.amount:number k.measure=unit:text@beside "
    "noted_quality=quality:text?",
    disposition=f"iif(:reader IN ('', l.owner), {Disposition.sql('l.disposition')}, NULL)",
    noted_quality=("iif(:reader IN ('', l.owner), q.state, NULL)", "q.day", "q.reason", quality_text),
)
OF_BATCH = "m.owner = :owner AND m.ord = :order AND m.number = :batch"
AMOUNTS = f"""
(SELECT m.lot_owner AS owner, m.lot, sum(m.amount) AS amount FROM moves AS m
  WHERE {OF_BATCH} AND m.kind = :kind AND {STANDING} GROUP BY 1, 2)
"""
OF_LOTS = f"""
FROM {AMOUNTS} AS t JOIN lots AS l USING (owner, lot) JOIN materials AS k USING (owner, material)
JOIN quality AS q ON q.owner = l.owner AND q.lot = l.lot ORDER BY l.owner, l.lot
"""
OF_TESTS = f"""
FROM {AMOUNTS} AS a JOIN lot_test AS t USING (owner, lot) WHERE t.owner = :owner AND NOT t.is_plants
ORDER BY t.lot, t.test
"""


def documents(source: Source, asked: BatchId, journal: Journal) -> list[Document]:
    """The record of a batch, for its owner. That of one that isn't closed is provisional."""
    base, owner = source.base, asked.owner
    require_owner(base, owner)
    batch = batches_of(base, [asked]).get(asked)
    if not batch:
        advice = f"`hilpoven list batches --owner {owner}` has those that there are"
        raise Failure(f"there is no batch {asked}", REFUSED, advice)
    words: dict[str, Any] = {"owner": owner, "order": asked.order, "batch": asked.number, "recipe": batch.recipe}
    behind = f"FROM movement AS m WHERE {OF_BATCH} AND {IS_ACTUAL} ORDER BY m.rowid"
    actuals = select(base, "actuals", ACTUALS, behind, words)
    taken = f"SELECT m.lot_owner, m.lot, m.kind, m.mkey, {STANDING} FROM moves AS m WHERE {OF_BATCH} AND {IS_ACTUAL}"
    moves = base.execute(taken, words).fetchall()
    lots = {LotId(*move[:2]) for move in moves}
    require_closed(base, [lot for lot in lots if lot.owner == owner])
    ordered, status = check_batch(source, batch)
    check_lots(source, lots)
    keys = {move[3] for move in moves}
    steps = steps_of(journal, source.newest.base, asked, keys) if source.newest_has(asked) else Steps(asked)
    sheets = [select(base, "requirements", REQUIRED, f"FROM ({REQUIREMENTS})", words), steps.with_times(actuals)]
    for name, kind, reader in (("made", Kind.PRODUCED, ""), ("taken", Kind.CONSUMED, owner)):
        words |= {"kind": kind, "reader": reader}
        sheets.append(select(base, name, LOTS, OF_LOTS, words))
        sheets.append(select(base, f"{name}_tests", [*columns("t.lot"), *TESTS], OF_TESTS, words))
    others = noted.links(base, noted.IN_BATCH, words), noted.reasons(base, noted.OF_BATCH, words), steps.sheet()
    unit, state, _ = batch.status
    order = {"owner": owner, "order": asked.order, "batch": f"{asked.number} of {ordered}", "recipe": batch.recipe}
    run = {"unit": unit, "state": state, "closed": "yes" if batch.is_closed else "no", "order is": status}
    takes_of_plant = any(lot_owner != owner and stands for lot_owner, *_, stands in moves)
    values = {"owner": owner, "facts": {**order, **run}, "takes_of_plant": takes_of_plant}
    title = f"Batch record {asked.name}" if batch.is_closed else f"Provisional batch record {asked.name}"
    sheets += [sheet for sheet in others if sheet.rows]
    return [Document("batch", owner == HOUSE, title, sheets, {**values, "is_closed": batch.is_closed})]


def check_batch(source: Source, batch: Batch) -> tuple[int, str]:
    """How many batches are ordered, and the order's status; fails if `toll` tells another batch or another order."""
    owner, order, number = batch.id
    sql = "SELECT batches, cancelled FROM orders WHERE owner = ? AND ord = ?"
    ((ordered, is_cancelled),) = source.base.execute(sql, (owner, order)).fetchall()
    status = "cancelled" if is_cancelled else "open"
    if source.newest_has(batch.id):
        answered, requirements = batch_of(source.newest.answer("batch", owner, order, str(number)))
        recorded = requirements_of(source.base, batch)
        agree(f"batch {batch.id}", answered, batch.status)
        agree(f"the requirements of {batch.id}", [astuple(line) for line in requirements], recorded)
        lines = rows_of(OrderLine, source.newest.answer("orders", owner))
        orders = {line.order: (line.recipe, line.batches, line.status) for line in lines}
        agree(f"order {owner} {order}", orders.get(order), (batch.recipe, ordered, status))
    return ordered, status
