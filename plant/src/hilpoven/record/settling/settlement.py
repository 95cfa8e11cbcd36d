"""What an owner's batches consumed and produced between two days, against what their recipes require.

A batch is settled once, on the last day of its actuals, as soon as it is closed: a closed batch gets no further ones.
What goes on is apart, and so is what was made of an earlier product, and what came without being delivered. What was
used besides, reworked or corrected by the plant's notes counts once.
"""
import math
from collections import Counter, defaultdict
from collections.abc import Iterable, Mapping
from dataclasses import dataclass, field, replace
from fractions import Fraction
from functools import cached_property
from typing import NamedTuple

from ...model.kinds import Why
from ...model.notes import Link, Terms
from ...model.register.standing import Register
from .corrections import Correction, Corrector, Means
from ...model.genealogy import Genealogy
from ...model.rows import Base, Batch, BatchId, Lot, LotId, Move, lots_of, read_batches, read_moves
from ...model.schema import ACTUAL_OF, IS_ACTUAL, STANDING, Kind, Role

STANDARD = "SELECT recipe, role, source, material, sum(amount) FROM requirements WHERE owner = ? GROUP BY 1, 2, 3, 4"
MEASURES = "SELECT owner, material, measure FROM materials"
ACTUALS = f"m.owner = ? AND {IS_ACTUAL} AND {STANDING}"
RECEIPTS = f"m.owner = ? AND m.kind = {Kind.RECEIVE:d} AND m.day BETWEEN ? AND ?"
TENTHS = 1_000  # of a percent in a whole
WHYS = (Why.RETURN, Why.REWORK, Why.USE, Why.CORRECTION)  # in the order of the columns of deliveries
ROLE_OF = {kind: role for role, kind in ACTUAL_OF.items()}


class Item(NamedTuple):
    """What a recipe requires and an actual records: its use, whose the material is, and the material."""

    use: Role
    source: str
    material: str


Sums = Counter[Item]
Material = tuple[str, str]  # its name and its measure
Receipts = dict[Material, Counter[Why | None]]


@dataclass(frozen=True)
class Run:
    """A batch with its standing actuals, of which there is one at least, the lots that they are of, and what the plant
    noted: what the batch used besides, what went into it of its own product, and corrections."""

    batch: Batch
    actuals: list[Move]
    lots: Mapping[LotId, Lot]
    used: Sums = field(default_factory=Sums)
    reworked: Sums = field(default_factory=Sums)  # by product
    corrected: Sums = field(default_factory=Sums)

    @cached_property
    def last_day(self) -> int:
        """The greatest day of its actuals."""
        return max(move.day for move in self.actuals)

    def is_settled(self, first: int, last: int) -> bool:
        """Whether it is settled between two days."""
        return self.batch.is_closed and first <= self.last_day <= last

    def goes_on(self, last: int) -> bool:
        """Whether it began until a day and isn't settled by then."""
        began = min(move.day for move in self.actuals) <= last
        return began and not (self.batch.is_closed and self.last_day <= last)

    def recorded(self, last: int | None = None) -> Sums:
        """The sums of its actuals, until a day if one is given."""
        sums = Sums()
        for move in self.actuals:
            if last is None or move.day <= last:
                sums[Item(ROLE_OF[move.kind], move.lot.owner, self.lots[move.lot].material)] += move.amount
        return sums

    @cached_property
    def sums(self) -> Sums:
        """What it consumed and produced in fact."""
        sums = self.recorded()
        for others in (self.used, self.corrected):
            sums.update(others)
        return sums


@dataclass(frozen=True)
class Line:
    """What the settled batches of a recipe consumed or produced of a material, and what is required of so many."""

    recipe: str
    batches: int
    item: Item
    measure: str
    standard: int
    recorded: int
    used: int
    corrected: int
    reworked: int
    is_main: bool  # whether it is the main product
    part: Fraction | None  # of the required main product that was made; `None` if none is required
    allowance: int  # tenths of a percent of what is expected that may be lost; 0 if none is noted

    @property
    def actual(self) -> int:
        """What was consumed, or made anew."""
        return self.recorded + self.used + self.corrected - self.reworked

    @property
    def is_product(self) -> bool:
        """Whether it is of what was made."""
        return self.item.use == Role.PRODUCED

    @property
    def for_what_was_made(self) -> Fraction | None:
        """What is required for what was made; `None` of a product, and of what the recipe doesn't have."""
        return None if self.part is None or self.is_product or not self.standard else self.standard * self.part

    @property
    def expected(self) -> int | None:
        """The same as a whole number."""
        return None if self.for_what_was_made is None else rounded(self.for_what_was_made)

    @property
    def loss(self) -> int | None:
        """What was consumed beyond that; below zero if less was consumed."""
        return None if self.expected is None else self.actual - self.expected

    @property
    def allowed(self) -> int | None:
        """What of the loss the contract allows."""
        if self.for_what_was_made is None or not self.allowance:
            return None
        return rounded(self.for_what_was_made * Fraction(self.allowance, TENTHS))

    @property
    def above(self) -> int | None:
        """What of the loss is above that."""
        return None if self.loss is None or self.allowed is None else max(0, self.loss - self.allowed)


class Product(NamedTuple):
    """A material that batches made, its measure, and whether it is the main product of their recipe."""

    material: str
    measure: str
    is_main: bool


@dataclass
class Made:
    """What settled batches made: all that they produced, and what of the same material went into them again."""

    produced: int = 0
    reworked: int = 0


@dataclass(frozen=True)
class Settlement:
    """The lines of an owner's recipes, what was made, what came, the batches that are settled and those that go on, and
    the links and corrections that say so."""

    lines: list[Line]
    products: dict[Product, Made]
    receipts: Receipts
    settled: list[Run]
    going_on: list[Run]
    links: list[Link]
    corrections: list[Correction]
    measures: dict[tuple[str, str], str]  # by owner and material


def rounded(value: Fraction) -> int:
    """The nearest whole number; the greater of two."""
    return math.floor(value + Fraction(1, 2))


class Reader:
    """Reads the settlements of an owner."""

    def __init__(self, base: Base, register: Register, owner: str) -> None:
        self.base, self.register, self.owner = base, register, owner
        self.genealogy = Genealogy(base, register.of(owner))
        self.standards: dict[str, Sums] = defaultdict(Sums)
        for recipe, role, source, material, amount in base.execute(STANDARD, (owner,)):
            self.standards[recipe][Item(Role(role), source, material)] = amount
        self.measures = {(source, material): measure for source, material, measure in base.execute(MEASURES)}
        self.corrections = Corrector(base, register, owner).read()
        self.runs = self.read_runs()

    def read_runs(self) -> list[Run]:
        """The batches of the owner with standing actuals, by order and number."""
        actuals: dict[BatchId, list[Move]] = defaultdict(list)
        for move in read_moves(self.base, ACTUALS, (self.owner,)):
            if move.batch:
                actuals[move.batch].append(move)
        lots = lots_of(self.base, {move.lot for moves in actuals.values() for move in moves})
        linked = lots_of(self.base, {link.contained for link in self.genealogy.links})
        corrected: dict[BatchId, Sums] = defaultdict(Sums)
        for correction in self.corrections:
            if correction.means in (Means.MADE, Means.CONSUMED):
                (batch,) = correction.batches
                use = Role.PRODUCED if correction.means == Means.MADE else Role.CONSUMED
                item = Item(use, correction.lot.id.owner, correction.lot.material)
                corrected[batch][item] += correction.of_consumption
        batches = read_batches(self.base, "b.owner = ? ORDER BY b.ord, b.number", (self.owner,))
        runs = [Run(batch, actuals[batch.id], lots) for batch in batches if batch.id in actuals]
        return [replace(run, corrected=corrected[run.batch.id], **self.linked(run, linked)) for run in runs]

    def linked(self, run: Run, lots: Mapping[LotId, Lot]) -> dict[str, Sums]:
        """What a batch used besides, and what went into it of its own product, by links with an amount. What its recipe
        requires is consumed, and not reworked."""
        used, reworked, sums = Sums(), Sums(), run.recorded()
        taken = {move.lot for move in run.actuals if move.kind == Kind.CONSUMED}
        for link in self.genealogy.links_in_batch(run.batch.id):
            lot = lots[link.contained]
            item, product = (Item(use, lot.id.owner, lot.material) for use in (Role.CONSUMED, Role.PRODUCED))
            is_use, is_rework = link.why == Why.USE, link.why == Why.REWORK and link.contained not in taken
            if not link.amount or not (is_use or is_rework and lot.id.owner == self.owner):
                continue
            if item in self.standards[run.batch.recipe] or is_use and product not in sums:
                used[item] += link.amount
            elif product in sums:
                reworked[product] += link.amount
        return {"used": used, "reworked": reworked}

    def terms(self, recipe: str) -> Terms:
        """The main product of a recipe and its allowance: as noted, or else the one of which most is required."""
        facts = self.register.recipes.get((self.owner, recipe))
        required = self.standards[recipe]
        products = sorted((-amount, item.material) for item, amount in required.items() if item.use == Role.PRODUCED)
        noted = facts.product if facts else ""
        names = [material for _, material in products]
        main = noted if noted in names else names[0] if names else ""
        return recipe, main, facts.allowance if facts else 0

    def between(self, first: int, last: int) -> Settlement:
        """The settlement from a day to a day."""
        settled = [run for run in self.runs if run.is_settled(first, last)]
        terms = [self.terms(recipe) for recipe in sorted({run.batch.recipe for run in settled})]
        return self.settlement(settled, terms, first, last)

    def settlement(self, settled: list[Run], terms: Iterable[Terms], first: int, last: int) -> Settlement:
        """The settlement of batches, by the terms of their recipes, with what came from a day to a day."""
        receipts, _ = self.receipts(first, last)
        return Settlement(
            self.lines(settled, terms),
            self.products(settled, terms),
            receipts,
            settled,
            [run for run in self.runs if run.goes_on(last)],
            self.links_of({run.batch.id for run in settled}, first, last),
            self.corrections_of({run.batch.id for run in settled}, first, last),
            self.measures,
        )

    def links_of(self, batches: Iterable[BatchId], first: int, last: int) -> list[Link]:
        """The links that say what batches contain, and what came from a day to a day."""
        _, of_receipts = self.receipts(first, last)
        noted = {*of_receipts, *(link for batch in batches for link in self.genealogy.links_in_batch(batch))}
        return [link for link in self.genealogy.links if link in noted]

    def lines(self, settled: list[Run], terms: Iterable[Terms]) -> list[Line]:
        """A line for each material that a recipe requires, or that was used besides, of the recipes of batches."""
        lines = []
        for recipe, main, allowance in sorted(terms):
            runs = [run for run in settled if run.batch.recipe == recipe]
            required = Sums({item: amount * len(runs) for item, amount in self.standards[recipe].items()})
            sums = [total(run.recorded() for run in runs)]
            sums += [total(getattr(run, name) for run in runs) for name in ("used", "corrected", "reworked")]
            product = Item(Role.PRODUCED, self.owner, main)
            main_amount = sum(amounts[product] for amounts in sums[:3]) - sums[3][product]
            part = Fraction(main_amount, required[product]) if required[product] else None
            for item in sorted({item for amounts in (required, *sums) for item in amounts}):
                recorded, used, corrected, reworked = (each[item] for each in sums)
                head = recipe, len(runs), item, self.measures[item.source, item.material], required[item]
                lines.append(Line(*head, recorded, used, corrected, reworked, item == product, part, allowance))
        return lines

    def products(self, settled: list[Run], terms: Iterable[Terms]) -> dict[Product, Made]:
        """What batches made of each material. What went into one of the same material that it makes was produced
        before."""
        mains = {recipe: main for recipe, main, _ in terms}
        products: dict[Product, Made] = defaultdict(Made)
        for run in settled:
            for item, amount in run.sums.items():
                if item.use == Role.PRODUCED:
                    own = Item(Role.CONSUMED, self.owner, item.material)
                    is_main = mains[run.batch.recipe] == item.material
                    output = products[Product(item.material, self.measures[self.owner, item.material], is_main)]
                    output.produced += amount
                    output.reworked += run.sums[own] + run.reworked[item]
        return dict(sorted(products.items()))

    def receipts(self, first: int, last: int) -> tuple[Receipts, list[Link]]:
        """What was received of each material between two days, by why it isn't a delivery, `None` of what is; and the
        links that say so. The first link of a lot counts."""
        links: dict[LotId, Link] = {}
        for link in self.genealogy.links:
            if link.lot and link.why in WHYS:
                links.setdefault(LotId(link.owner, link.lot), link)
        moves = read_moves(self.base, RECEIPTS, (self.owner, first, last))
        corrections = {(each.move.owner, each.move.key): each for each in self.corrections}
        lots = lots_of(self.base, {move.lot for move in moves} | {each.move.lot for each in self.corrections})
        receipts: Receipts = defaultdict(Counter)
        for move in moves:
            lot, noted, correction = lots[move.lot], links.get(move.lot), corrections.get((move.owner, move.key))
            why = noted.why if noted and noted.why != Why.CORRECTION else None
            if correction:
                why = None if correction.means == Means.DELIVERED else Why.CORRECTION
            receipts[lot.material, lot.measure][why] += move.amount
        for correction in corrections.values():
            move, lot = correction.move, lots[correction.move.lot]
            is_less = move.kind == Kind.SCRAP and correction.means == Means.DELIVERED
            if is_less and move.owner == self.owner and first <= move.day <= last:
                receipts[lot.material, lot.measure].update({None: -move.amount, Why.CORRECTION: move.amount})
        return dict(sorted(receipts.items())), [links[move.lot] for move in moves if move.lot in links]

    def corrections_of(self, batches: set[BatchId], first: int, last: int) -> list[Correction]:
        """The corrections of batches, and the owner's own of something else between two days."""

        def is_told(correction: Correction) -> bool:
            """Whether it is one of them."""
            if correction.means in (Means.MADE, Means.CONSUMED):
                return bool(correction.batches & batches)
            return correction.move.owner == self.owner and first <= correction.move.day <= last

        return [correction for correction in self.corrections if is_told(correction)]

    def doubtful(self, batches: set[BatchId]) -> list[Correction]:
        """The doubtful corrections that may be of these batches."""
        return [each for each in self.corrections if each.means == Means.DOUBTFUL and each.batches & batches]


def total(sums: Iterable[Sums]) -> Sums:
    """The sum of sums."""
    whole = Sums()
    for each in sums:
        whole.update(each)
    return whole
