"""What a month's settlement has when it is closed: the batches that no closed one has, and what became otherwise of
those that an earlier one has.

So each batch is on exactly one closed settlement, with what was known then. What is noted of it later is on the next
one, as a change of the earlier one. What was made and what came are told without what earlier ones told.
"""
from collections import Counter, defaultdict
from collections.abc import Iterable, Mapping
from dataclasses import dataclass, replace

from ...core.failure import REFUSED, Failure
from ...model.register.standing import Closing
from ...model.kinds import Why
from ...model.notes import Cell, Place, Settled, Terms
from .corrections import Correction
from ...core.days import FIRST_DAY, date_of, days_of_month
from ...model.rows import BatchId
from ...model.schema import Role
from .settlement import WHYS, Line, Made, Product, Reader, Receipts, Run, Settlement

FIGURES = ("actual", "expected", "loss", "allowed", "above")  # of a line, in which it may change
LINE = ("recipe", "use", "source", "material", "measure")  # by which lines are told apart
AMOUNT = ("batch", "recipe", "use", "source", "material", "measure")  # by which amounts of batches are
MAIN, BY_PRODUCT = "main", "by-product"  # what a product is to its recipe
RECEIVED = {Why.RETURN: "returned", Why.REWORK: "reworked", Why.USE: "used", Why.CORRECTION: "corrected"}

Reported = dict[tuple[Cell, ...], dict[str, Cell]]


@dataclass(frozen=True)
class Change:
    """What became otherwise of a line, or of an amount of a batch, of a settlement that is closed."""

    number: str
    names: tuple[Cell, ...]
    figures: dict[str, int | None]


@dataclass(frozen=True)
class Month:
    """What the settlement of a month has: its batches with their places, which of them are late, the terms of their
    recipes, and the changes of earlier ones; what was made and came, and what of it is late; and doubtful corrections.
    """

    settlement: Settlement
    places: list[Place]
    late: set[BatchId]
    terms: list[Terms]
    changed: list[Change]
    changed_batches: list[Change]
    products: dict[Product, Made]
    receipts: Receipts
    late_receipts: Receipts
    doubtful: list[Correction]
    closed: list[Settled]

    def reported(self, table: str) -> list[dict[str, Cell]]:
        """The rows of a table of all closed settlements."""
        return [row for settled in self.closed for row in settled.table(table)]


class Months:
    """Reads the settlements of an owner's months."""

    def __init__(self, reader: Reader, places: Mapping[BatchId, Place], closings: list[Closing]) -> None:
        self.reader, self.places = reader, places
        self.closings = [closing.settled for closing in closings]
        self.by_place = {places[run.batch.id]: run for run in reader.runs}
        self.reported = {place for settled in self.closings for place in settled.batches}

    def month(self, month: int) -> Month:
        """The settlement of a month that isn't closed yet, as it would be closed now."""
        reader, (first, last) = self.reader, days_of_month(month)
        runs = [run for run in reader.runs if self.is_due(run, last)]
        terms = [reader.terms(recipe) for recipe in sorted({run.batch.recipe for run in runs})]
        settlement = reader.settlement(runs, terms, first, last)
        earlier = [self.runs_of(settled) for settled in self.closings]
        changed, batches = self.changed(earlier), self.changed_batches(earlier)
        concerned = {run.batch.id for run in runs}.union(*({run.batch.id for run in those} for those in earlier))
        receipts = self.receipts(last)
        return Month(
            replace(
                settlement,
                going_on=[run for run in settlement.going_on if run.batch.id not in concerned],
                links=reader.links_of(concerned, FIRST_DAY, last),
                corrections=reader.corrections_of(concerned, FIRST_DAY, last),
            ),
            [self.places[run.batch.id] for run in runs],
            {run.batch.id for run in runs if not first <= run.last_day <= last},
            terms,
            changed,
            batches,
            self.products(settlement.products, earlier),
            receipts,
            difference_of(receipts, settlement.receipts),
            reader.doubtful(concerned),
            self.closings,
        )

    def is_due(self, run: Run, last: int) -> bool:
        """Whether a batch is to be settled: it is closed, no closed settlement has it, and its last day is no later, or
        no date."""
        is_reached = run.last_day <= last or date_of(run.last_day) is None
        return run.batch.is_closed and is_reached and self.places[run.batch.id] not in self.reported

    def runs_of(self, settled: Settled) -> list[Run]:
        """The batches of a closed settlement; fails if one isn't closed now, as behind a restore."""
        runs = []
        for place in settled.batches:
            run = self.by_place.get(place)
            if run is None or not run.batch.is_closed:
                _, order, number = place
                raise Failure(
                    f"settlement {settled.number} has batch {order}/{number}, which isn't closed in the office now",
                    REFUSED,
                    "behind a restore: record what was lost again, then close the month",
                )
            runs.append(run)
        return runs

    def changed(self, earlier: list[list[Run]]) -> list[Change]:
        """What became otherwise of the lines of closed settlements."""
        changes = []
        for settled, runs in zip(self.closings, earlier):
            reported: Reported = {}
            add(reported, settled.table("recipes"), LINE, FIGURES)
            by_products = [
                row | {"use": Role.PRODUCED.word, "source": settled.owner} for row in settled.table("by_products")
            ]
            add(reported, by_products, LINE, FIGURES)
            self.add_later(reported, settled, "changed", LINE, FIGURES)
            now = {names_of(line): figures_of(line) for line in self.reader.lines(runs, settled.recipes)}
            changes += changes_of(settled.number, reported, now, FIGURES)
        return changes

    def changed_batches(self, earlier: list[list[Run]]) -> list[Change]:
        """What became otherwise of the amounts of the batches of closed settlements, by the names that they have
        there."""
        changes = []
        for settled, runs in zip(self.closings, earlier):
            reported: Reported = {}
            rows = settled.table("batches")
            add(reported, rows, AMOUNT, ("amount",))
            self.add_later(reported, settled, "changed_batches", AMOUNT, ("amount",))
            names = dict.fromkeys(row["batch"] for row in rows)
            now: Reported = {}
            for name, run in zip(names, runs):
                for item, amount in run.sums.items():
                    measure = self.reader.measures[item.source, item.material]
                    key = name, run.batch.recipe, item.use.word, item.source, item.material, measure
                    now[key] = {"amount": amount}
            changes += changes_of(settled.number, reported, now, ("amount",))
        return changes

    def add_later(
        self, reported: Reported, of: Settled, table: str, names: tuple[str, ...], figures: tuple[str, ...]
    ) -> None:
        """Adds what later closed settlements told as changes of one."""
        for settled in self.closings:
            add(reported, [row for row in settled.table(table) if row["settlement"] == of.number], names, figures)

    def products(self, new: dict[Product, Made], earlier: list[list[Run]]) -> dict[Product, Made]:
        """What was made: by new batches, and by those of closed settlements beyond what these told."""
        sums: dict[Product, Made] = defaultdict(Made)
        for product, output in new.items():
            sums[product] = Made(output.produced, output.reworked)
        for settled, runs in zip(self.closings, earlier):
            for product, output in self.reader.products(runs, settled.recipes).items():
                sums[product].produced += output.produced
                sums[product].reworked += output.reworked
            for row in settled.table("products"):
                product = Product(str(row["material"]), str(row["measure"]), row["product"] == MAIN)
                sums[product].produced -= number(row["produced"])
                sums[product].reworked -= number(row["reworked"])
        return {product: output for product, output in sorted(sums.items()) if output != Made() or product in new}

    def receipts(self, last: int) -> Receipts:
        """What came until a day, beyond what closed settlements told."""
        receipts, _ = self.reader.receipts(FIRST_DAY, last)
        reported: Receipts = defaultdict(Counter)
        for settled in self.closings:
            for row in settled.table("received"):
                sums = reported[str(row["material"]), str(row["measure"])]
                sums.update({why: number(row[RECEIVED[why]]) for why in WHYS})
                sums[None] += number(row["delivered"])
        return difference_of(receipts, reported)


def number(cell: Cell) -> int:
    """A cell of a table as a number, which is 0 if it is empty."""
    return cell if isinstance(cell, int) else 0


def add(reported: Reported, rows: Iterable[dict[str, Cell]], names: tuple[str, ...], figures: tuple[str, ...]) -> None:
    """Adds the figures of rows to what is told by these names."""
    for row in rows:
        sums = reported.setdefault(tuple(row[name] for name in names), {})
        for figure in figures:
            if row.get(figure) is not None:
                sums[figure] = number(sums.get(figure)) + number(row[figure])


def names_of(line: Line) -> tuple[Cell, ...]:
    """By what a line is told apart."""
    return line.recipe, line.item.use.word, line.item.source, line.item.material, line.measure


def figures_of(line: Line) -> dict[str, Cell]:
    """The figures of a line, without those that it hasn't."""
    figures = {name: getattr(line, name) for name in FIGURES}
    return {name: figure for name, figure in figures.items() if figure is not None}


def changes_of(settlement: str, reported: Reported, now: Reported, figures: tuple[str, ...]) -> list[Change]:
    """In what the figures of now aren't those that were told."""
    changes = []
    for names in sorted({*reported, *now}, key=str):
        before, after = reported.get(names, {}), now.get(names, {})
        change = {
            figure: number(after.get(figure)) - number(before.get(figure)) if figure in {*before, *after} else None
            for figure in figures
        }
        if any(change.values()):
            changes.append(Change(settlement, names, change))
    return changes


def difference_of(receipts: Receipts, others: Receipts) -> Receipts:
    """Receipts without others; materials of which nothing is left are left out."""
    rest: Receipts = {}
    for material in sorted({*receipts, *others}):
        sums = Counter(receipts.get(material, Counter()))
        sums.subtract(others.get(material, Counter()))
        if any(sums.values()):
            rest[material] = sums
    return rest
