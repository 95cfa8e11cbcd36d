"""Which lots went into which, by recorded actuals and by the plant's links, in how few steps, and where a trace may
end."""
from collections import defaultdict
from collections.abc import Callable, Iterable
from dataclasses import dataclass
from functools import cached_property
from itertools import groupby
from operator import itemgetter

from .. import HOUSE
from . import views
from .notes import Link, PlantLink, Why
from .register.standing import Register
from .rows import Base, BatchId, LotId, owners_of
from .schema import IS_ACTUAL, STANDING, Kind, Role
from .years import chain

# DISTINCT, and what differs most first: grouping by segments takes twice the time.
ACTUALS = f"""
SELECT DISTINCT m.number, m.ord, m.lot, m.kind, m.segment, m.lot_owner
FROM moves AS m WHERE m.owner = ? AND {IS_ACTUAL} AND {STANDING}
"""
FORWARD, BACK = "forward", "back"

LINKS = "SELECT owner, lot, ord, number, of_owner, of_lot, why, amount, reason FROM link {} ORDER BY note, place"
Segments = dict[LotId, int]


def links_of(base: Base, register: Register) -> list[Link]:
    """The links between lots that are there, in the order in which they were noted; of one owner's notes its own."""
    if register.opened is None:
        return []
    where, words = ("", ()) if register.owner is None else ("WHERE owner = ?", (register.owner,))
    rows = views.over(base, register).execute(LINKS.format(where), words)
    return [
        Link(owner, lot, order, batch, of_owner, of_lot, Why(why), *rest)
        for owner, lot, order, batch, of_owner, of_lot, why, *rest in rows
    ]


HAS_END = {
    LotId: "SELECT 1 FROM lots WHERE owner = ? AND lot = ?",
    BatchId: "SELECT 1 FROM batches WHERE owner = ? AND ord = ? AND number = ?",
}


def plant_links_of(base: Base, register: Register) -> list[PlantLink]:
    """The plant's links whose ends are there, in the order in which they were noted."""

    def is_there(end: LotId | BatchId) -> bool:
        return base.execute(HAS_END[type(end)], end).fetchone() is not None

    return [link for link in register.plant_links if is_there(link.container) and is_there(link.contained)]


@dataclass(frozen=True)
class Trace:
    """The lots that end a chain of recorded edges and links from a lot, and those that end one of recorded edges alone,
    each with the fewest steps, by steps and by name."""

    steps: dict[LotId, int]
    recorded: dict[LotId, int]

    @property
    def noted(self) -> dict[LotId, int]:
        """The lots that links add, or to which they shorten the way."""
        return {lot: steps for lot, steps in self.steps.items() if self.is_noted(lot)}

    def is_noted(self, lot: LotId) -> bool:
        """Whether links add this lot of the trace, or shorten the way to it."""
        return self.recorded.get(lot) != self.steps[lot]


class Genealogy:
    """What batches consumed and produced, by their standing actuals, and what lots contain, by links between lots that
    are there. An owner's batches are read when a trace reaches it.

    A lot went into another if a batch consumed it in a segment that isn't after the last one that produced the other,
    or if a link says so of the other, or of a batch that produced it. Links of the plant's, which may join lots of two
    owners, are followed for the plant alone; what they say of a batch's material is of each lot that it took or made.
    """

    def __init__(self, base: Base, register: Register | None = None, is_plants: bool = False) -> None:
        self.base, self.links = base, links_of(base, register) if register else []
        self.plant_links = plant_links_of(base, register) if register and is_plants else []
        self.consumed: dict[BatchId, Segments] = defaultdict(dict)  # with the first segment
        self.produced: dict[BatchId, Segments] = defaultdict(dict)  # with the last segment
        self._consumers: dict[LotId, list[BatchId]] = defaultdict(list)
        self._producers: dict[LotId, list[BatchId]] = defaultdict(list)
        self._links_of: dict[LotId, list[Link]] = defaultdict(list)
        self._links_in: dict[LotId | BatchId, list[Link]] = defaultdict(list)
        self._read: set[str] = set()
        self._owners_of_batches = {link.owner for link in self.links if not link.lot}
        for link in self.links:
            self._links_of[link.contained].append(link)
            self._links_in[link.container].append(link)
        self._plant_links_of: dict[LotId | BatchId, list[PlantLink]] = defaultdict(list)
        self._plant_links_in: dict[LotId | BatchId, list[PlantLink]] = defaultdict(list)
        for spread in self.plant_links:
            self._plant_links_of[spread.contained].append(spread)
            self._plant_links_in[spread.container].append(spread)

    @cached_property
    def everybody(self) -> list[str]:
        """HOUSE and the owners."""
        return [HOUSE, *owners_of(self.base)]

    def read_batches(self, owner: str) -> None:
        """Reads what an owner's batches consumed and produced, once."""
        if owner in self._read:
            return
        self._read.add(owner)
        rows = self.base.execute(ACTUALS, (owner,))
        for (number, order), of_batch in groupby(rows, itemgetter(0, 1)):
            batch = BatchId(owner, order, number)
            uses = {
                Kind.CONSUMED: (self.consumed[batch], self._consumers, min),
                Kind.PRODUCED: (self.produced[batch], self._producers, max),
            }
            for _, _, name, kind, segment, lot_owner in of_batch:
                lot, (segments, batches, chosen) = LotId(lot_owner, name), uses[kind]
                if lot in segments:
                    segments[lot] = chosen(segments[lot], segment)
                else:
                    segments[lot] = segment
                    batches[lot].append(batch)

    def consumers(self, lot: LotId) -> list[BatchId]:
        """The batches that consumed a lot: its owner's, and of a lot of HOUSE those of all owners."""
        for owner in self.everybody if lot.owner == HOUSE else [lot.owner]:
            self.read_batches(owner)
        return self._consumers.get(lot, [])

    def producers(self, lot: LotId) -> list[BatchId]:
        """The batches that produced a lot, which are its owner's."""
        self.read_batches(lot.owner)
        return self._producers.get(lot, [])

    def products(self, batch: BatchId, lot: LotId) -> list[LotId]:
        """The lots that a lot went into by one batch, by recorded actuals."""
        first = self.consumed[batch][lot]
        return [product for product, last in self.produced.get(batch, {}).items() if last >= first]

    def sources(self, batch: BatchId, lot: LotId) -> list[LotId]:
        """The lots that a lot was made of by one batch, by recorded actuals."""
        last = self.produced[batch][lot]
        return [source for source, first in self.consumed.get(batch, {}).items() if first <= last]

    def lots_of(self, container: LotId | BatchId) -> list[LotId]:
        """The lots that the container of a link is or stands for."""
        if isinstance(container, LotId):
            return [container]
        self.read_batches(container.owner)
        return list(self.produced.get(container, {}))

    def links_of(self, lot: LotId) -> list[Link]:
        """The links that say what contains a lot."""
        return self._links_of.get(lot, [])

    def links_in(self, lot: LotId) -> list[Link]:
        """The links that say what a lot contains: its own, and those of the batches that produced it."""
        batches = self.producers(lot) if lot.owner in self._owners_of_batches else []
        containers: list[LotId | BatchId] = [lot, *batches]
        return [link for container in containers for link in self._links_in.get(container, [])]

    def links_in_batch(self, batch: BatchId) -> list[Link]:
        """The links that say what a batch contains: its own, and those of the lots that it produced."""
        if not self.links:
            return []
        containers = {batch, *self.lots_of(batch)}
        return [link for link in self.links if link.container in containers]

    def recorded_onward(self, lot: LotId) -> set[LotId]:
        """The lots that a lot went into in one step, by recorded actuals."""
        return {product for batch in self.consumers(lot) for product in self.products(batch, lot)}

    def recorded_backward(self, lot: LotId) -> set[LotId]:
        """The lots that a lot was made of in one step, by recorded actuals."""
        return {source for batch in self.producers(lot) for source in self.sources(batch, lot)}

    def contents_of(self, link: PlantLink) -> list[LotId]:
        """The lots of which a link of the plant's says that they are contained: one, or all that a batch took or
        made."""
        if isinstance(link.contained, LotId):
            return [link.contained]
        self.read_batches(link.contained.owner)
        consumed, produced = self.consumed.get(link.contained, {}), self.produced.get(link.contained, {})
        return list(dict.fromkeys([*consumed, *produced]))

    def spread_onward(self, lot: LotId) -> set[LotId]:
        """The lots that contain some of a lot by a link of the plant's."""
        if not self.plant_links:
            return set()
        ends: list[LotId | BatchId] = [lot, *self.consumers(lot), *self.producers(lot)]
        links = (link for end in ends for link in self._plant_links_of.get(end, []))
        return {container for link in links for container in self.lots_of(link.container)} - {lot}

    def spread_backward(self, lot: LotId) -> set[LotId]:
        """The lots of which a lot contains some by a link of the plant's."""
        if not self.plant_links:
            return set()
        ends: list[LotId | BatchId] = [lot, *self.producers(lot)]
        links = (link for end in ends for link in self._plant_links_in.get(end, []))
        return {content for link in links for content in self.contents_of(link)} - {lot}

    def linked_onward(self, lot: LotId) -> set[LotId]:
        """The lots that contain a lot by a link."""
        by_links = {container for link in self.links_of(lot) for container in self.lots_of(link.container)}
        return by_links | self.spread_onward(lot)

    def linked_backward(self, lot: LotId) -> set[LotId]:
        """The lots that a lot contains by a link."""
        return {link.contained for link in self.links_in(lot)} | self.spread_backward(lot)

    def onward(self, lot: LotId) -> list[LotId]:
        """The lots that a lot went into in one step, by recorded actuals and links."""
        return sorted(self.recorded_onward(lot) | self.linked_onward(lot))

    def backward(self, lot: LotId) -> list[LotId]:
        """The lots that a lot was made of in one step, by recorded actuals and links."""
        return sorted(self.recorded_backward(lot) | self.linked_backward(lot))

    def trace(self, start: LotId, way: str) -> Trace:
        """The lots that a lot went into (`forward`) or was made of (`back`)."""
        all_edges, recorded = {
            FORWARD: (self.onward, self.recorded_onward),
            BACK: (self.backward, self.recorded_backward),
        }[way]
        by_actuals = fewest_steps(start, recorded)
        has_links = self.links or self.plant_links
        return Trace(fewest_steps(start, all_edges) if has_links else by_actuals, by_actuals)


def fewest_steps(start: LotId, neighbours: Callable[[LotId], Iterable[LotId]]) -> dict[LotId, int]:
    """The lots that end a chain from a lot, each with the fewest steps, by steps and by name."""
    steps, queue = {start: 0}, [start]
    for lot in queue:
        for neighbour in neighbours(lot):
            if neighbour not in steps:
                steps[neighbour] = steps[lot] + 1
                queue.append(neighbour)
    return dict(sorted(steps.items(), key=lambda entry: (entry[1], entry[0])))


# Receipts into lots of a material that a recipe of the owner produces.
RECEIPTS = f"""
SELECT l.owner, m.mkey, l.lot, l.material, m.day
FROM moves AS m JOIN lots AS l ON l.owner = m.lot_owner AND l.lot = m.lot
WHERE m.kind = {Kind.RECEIVE:d} AND (l.owner, l.material) IN (
  SELECT owner, material FROM requirements WHERE source = owner AND role = {Role.PRODUCED:d})
ORDER BY m.rowid
"""
CARRIED = "SELECT owner, mkey FROM carried_moves"


@dataclass(frozen=True)
class Suspect:
    """A receipt into a new lot of a material that batches make, without a link to what it was."""

    owner: str
    key: str
    lot: str
    material: str
    day: int

    @property
    def lot_id(self) -> LotId:
        """The lot."""
        return LotId(self.owner, self.lot)


def suspects(base: Base, register: Register) -> list[Suspect]:
    """The receipts into new lots of a material that batches make, without a link; the newest first. Those by which
    stock came over from an earlier file are none."""
    carried = set(base.execute(CARRIED)) if chain.came_from(base) else set()
    settled = register.not_linked | carried
    passed = {link.container for link in register.links} | {link.container for link in register.plant_links}
    first: dict[LotId, Suspect] = {}
    for row in base.execute(RECEIPTS):
        suspect = Suspect(*row)
        first.setdefault(suspect.lot_id, suspect)
        if (suspect.owner, suspect.key) in settled:
            passed.add(suspect.lot_id)
    return [suspect for lot, suspect in reversed(first.items()) if lot not in passed]
