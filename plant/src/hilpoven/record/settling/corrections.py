"""What receipts and scraps that the plant noted as corrections put right: of a batch, of a receipt, or of the stock.

`hilpoven note corrects` says it of one. Of the others it follows from what was recorded of the lot that is corrected.
If that may mean several things the correction is doubtful, and changes nothing.
"""
from collections import Counter, defaultdict
from collections.abc import Iterable, Mapping
from dataclasses import dataclass
from enum import StrEnum

from ... import HOUSE
from ...model.kinds import CORRECTING, Why
from ...model.notes import Link
from ...model.register.standing import Register
from ...model.genealogy import Genealogy
from ...model.rows import OF_COUNT, OF_USE, Base, BatchId, Lot, LotId, Move, lots_of, moves_of, read_moves
from ...model.schema import STANDING, Kind, of_kinds

OF_OWNER = f"m.owner = ? AND {of_kinds((Kind.RECEIVE, Kind.SCRAP))} AND {STANDING}"
OF_KEY = f"m.owner = ? AND m.mkey = ? AND {STANDING}"
MAKER = "SELECT ord, number FROM lots WHERE owner = ? AND lot = ? AND ord <> ''"


class Means(StrEnum):
    """What a correction puts right."""

    MADE = "made"  # what a batch made
    CONSUMED = "consumed"  # what a batch consumed
    DELIVERED = "delivered"  # what was received
    STOCK = "stock"  # what was scrapped, shipped or counted
    DOUBTFUL = "doubtful"  # it may mean several things


OF_KIND = {Kind.PRODUCED: Means.MADE, Kind.CONSUMED: Means.CONSUMED, Kind.RECEIVE: Means.DELIVERED}


@dataclass(frozen=True)
class Correction:
    """A receipt or a scrap that is a correction, the lot that is corrected, what it puts right, and of which batch; of
    a doubtful one the batches that it may be of."""

    move: Move
    lot: Lot
    means: Means
    batches: frozenset[BatchId] = frozenset()

    @property
    def change(self) -> int:
        """By how much more was made, or is in the stock; below zero by how much less."""
        return self.move.amount if self.move.kind == Kind.RECEIVE else -self.move.amount

    @property
    def of_consumption(self) -> int:
        """By how much more a batch made or consumed."""
        return -self.change if self.means == Means.CONSUMED else self.change

    @property
    def words(self) -> str:
        """What it puts right, as papers say it."""
        if self.means in (Means.STOCK, Means.DOUBTFUL):
            return {Means.STOCK: "the stock alone", Means.DOUBTFUL: "doubtful: in no sum"}[self.means]
        return f"{'more' if self.of_consumption > 0 else 'less'} {self.means}"


@dataclass(frozen=True)
class Use:
    """What had become of a lot that is corrected: the batch that made it, how much each batch consumed of it, its other
    scraps, and how much of these is more than what batches used besides."""

    maker: BatchId | None
    consumers: Counter[BatchId]
    scraps: list[Move]
    scrapped: int

    @property
    def batches(self) -> frozenset[BatchId]:
        """The batches that a correction of it may be of."""
        return frozenset([*([self.maker] if self.maker else []), *self.consumers])


def corrected_lots(links: Iterable[Link]) -> dict[LotId, LotId]:
    """The lots whose first link says that they are a correction, each with the one that it corrects. A link back, from
    a lot to its correction, doesn't count."""
    firsts: dict[LotId, Link] = {}
    joined = set[tuple[object, object]]()
    for link in links:
        is_back = link.why == Why.CORRECTION and (link.contained, link.container) in joined
        joined.add((link.container, link.contained))
        if isinstance(link.container, LotId) and not is_back:
            firsts.setdefault(link.container, link)
    return {lot: link.contained for lot, link in firsts.items() if link.why == Why.CORRECTION}


class Corrector:
    """Reads the corrections that may concern an owner's settlement: its own and HOUSE's."""

    def __init__(self, base: Base, register: Register, owner: str) -> None:
        self.base, self.register = base, register
        self.owners = sorted({owner, HOUSE})
        self.genealogy = Genealogy(base, register)
        self.corrected = corrected_lots(self.genealogy.links)
        self.moves: dict[LotId, list[Move]] = defaultdict(list)  # of the lots that corrections are in or of
        self.places: dict[Move, int] = {}  # of these movements, in the order in which they came

    def read(self) -> list[Correction]:
        """All of them, by owner and in the order in which they were recorded."""
        moves = [move for owner in self.owners for move in read_moves(self.base, OF_OWNER, (owner,))]
        moves = [move for move in moves if self.is_correction(move)]
        wanted = {move.lot for move in moves} | {self.corrected.get(move.lot, move.lot) for move in moves}
        lots, corrects = lots_of(self.base, wanted), self.register.corrects
        self.places = {move: at for at, move in enumerate(moves_of(self.base, wanted)) if not move.is_void}
        for move in self.places:
            self.moves[move.lot].append(move)
        return [
            self.of_note(move, lots[move.lot], corrects[move.owner, move.key])
            if (move.owner, move.key) in corrects
            else self.derived(move, lots)
            for move in moves
        ]

    def is_correction(self, move: Move) -> bool:
        """Whether a receipt or a scrap is one."""
        if (move.owner, move.key) in self.register.corrects:
            return True
        return move.lot in self.corrected if move.kind == Kind.RECEIVE else CORRECTING in move.key.split("-")

    def of_note(self, move: Move, own: Lot, of_key: tuple[str, str]) -> Correction:
        """The correction that a note says, which is doubtful if what it is of isn't there, or of another material."""
        for of in read_moves(self.base, OF_KEY, of_key):
            lot = lots_of(self.base, [of.lot])[of.lot]
            if (lot.id.owner, lot.material) == (own.id.owner, own.material):
                batches = frozenset([of.batch] if of.batch else [])
                return Correction(move, lot, OF_KIND.get(of.kind, Means.STOCK), batches)
        return Correction(move, own, Means.DOUBTFUL)

    def derived(self, move: Move, lots: Mapping[LotId, Lot]) -> Correction:
        """What a correction puts right by what was recorded of the lot."""
        of = self.corrected.get(move.lot)
        lot = lots[of or move.lot]
        use = self.use_before(move, lot.id)
        if move.kind == Kind.SCRAP:
            means, batches = of_scrap(use, of is not None)
        elif move.key.startswith(OF_COUNT):
            means, batches = Means.STOCK, frozenset[BatchId]()
        elif (lots[move.lot].id.owner, lots[move.lot].material) != (lot.id.owner, lot.material):
            means, batches = Means.DELIVERED, frozenset()
        else:
            means, batches = of_receipt(move.amount, use, lot.id in self.corrected)
        return Correction(move, lot, means, batches)

    def use_before(self, move: Move, lot: LotId) -> Use:
        """What had become of a lot when a correction was recorded, by movements that stand: what is recorded later
        doesn't change what a correction meant."""
        moves = [each for each in self.moves[lot] if self.places[each] < self.places[move]]
        consumers: Counter[BatchId] = Counter()
        for each in moves:
            if each.kind == Kind.CONSUMED and each.batch:
                consumers[each.batch] += each.amount
        scraps = [each for each in moves if each.kind == Kind.SCRAP and not self.is_correction(each)]
        amounts = {each.amount for each in scraps}
        besides = [link for link in self.genealogy.links_of(lot) if link.why == Why.USE and link.amount in amounts]
        for link in besides:
            if batch := self.batch_of(link):
                consumers[batch] += link.amount or 0
        scrapped = sum(each.amount for each in scraps) - sum(link.amount or 0 for link in besides)
        return Use(self.maker(lot), consumers, scraps, scrapped)

    def batch_of(self, link: Link) -> BatchId | None:
        """The batch that a link says something of; `None` if it is of a lot that no batch made."""
        return link.container if isinstance(link.container, BatchId) else self.maker(link.container)

    def maker(self, lot: LotId) -> BatchId | None:
        """The batch that made a lot; `None` if none did."""
        row = self.base.execute(MAKER, lot).fetchone()
        return BatchId(lot.owner, *row) if row else None


def of_scrap(use: Use, is_correction: bool) -> tuple[Means, frozenset[BatchId]]:
    """What a scrap puts right that is a correction: too much was made, or received. Of a lot that is a correction
    itself it is doubtful."""
    if is_correction:
        return Means.DOUBTFUL, use.batches
    return (Means.MADE, frozenset([use.maker])) if use.maker else (Means.DELIVERED, frozenset())


def of_receipt(amount: int, use: Use, is_correction: bool) -> tuple[Means, frozenset[BatchId]]:
    """What a receipt puts right that is a correction of a lot of the same material."""
    is_scrapped = use.scrapped >= amount
    if any(scrap.amount == amount and not scrap.key.startswith(OF_USE) for scrap in use.scraps):
        return Means.STOCK, frozenset()
    if is_correction or use.maker and (use.consumers or is_scrapped):
        return Means.DOUBTFUL, use.batches
    if use.maker:
        return Means.MADE, frozenset([use.maker])
    if not use.consumers:
        return (Means.STOCK if is_scrapped else Means.DELIVERED), frozenset()
    if is_scrapped or len(use.consumers) > 1 or min(use.consumers.values()) < amount:
        return Means.DOUBTFUL, use.batches
    return Means.CONSUMED, use.batches
