"""Which batches may contain some of a recalled lot because they held a unit next, before it was cleaned. They are apart
from what is recorded and linked: a person looks at each, and links its lots, or notes that it contains nothing."""
from collections.abc import Iterable
from typing import NamedTuple

from .genealogy import Genealogy, Trace
from .rows import Base, BatchId, LotId
from .unit_order import Place, UnitOrder
from .years.history import places_of

HEADING = "may contain some: these batches held a unit next, before it was cleaned; a person decides of each"
MARK = "?"
UNDECIDED = "not decided"
NONE_MADE = "no lot"


class MayContain(NamedTuple):
    """A batch that may contain some: its unit, its name, the lots that it made, the last batch before it that has some,
    and why a person found that it contains none; empty while nobody did."""

    unit: str
    batch: BatchId
    lots: tuple[LotId, ...]
    behind: BatchId
    decided: str

    @property
    def lots_named(self) -> str:
        """The lots that it made, by their names."""
        return ", ".join(lot.name for lot in self.lots) or NONE_MADE

    @property
    def decision(self) -> str:
        """What was decided of it, in words."""
        return f"nothing: {self.decided}" if self.decided else UNDECIDED


def touched_by(genealogy: Genealogy, trace: Trace) -> set[BatchId]:
    """The batches that took or made lots of a trace, or that contain some by a link."""
    batches = {batch for lot in trace.steps for batch in (*genealogy.consumers(lot), *genealogy.producers(lot))}
    for link in genealogy.links:
        if isinstance(link.container, BatchId) and link.contained in trace.steps:
            batches.add(link.container)
    for spread in genealogy.plant_links:
        contents = genealogy.contents_of(spread)
        if isinstance(spread.container, BatchId) and any(lot in trace.steps for lot in contents):
            batches.add(spread.container)
    return batches


def names_over_all(base: Base, owners: Iterable[str]) -> dict[Place, BatchId]:
    """What the batches of these owners are called over all files of an office, of whose files these are the tables."""
    return {
        Place(file, BatchId(owner, order, number)): called
        for owner in owners
        for called, (file, order, number) in places_of(base, owner, is_one=False).items()
    }


def names_in_newest(base: Base, owners: Iterable[str], number: int) -> dict[Place, BatchId]:
    """The batches of these owners in an office's newest file, which has this number."""
    batches = (batch for owner in owners for batch in places_of(base, owner, is_one=True))
    return {Place(number, batch): batch for batch in batches}


def may_contain(
    genealogy: Genealogy, trace: Trace, order: UnitOrder, is_whole: bool, starts: Iterable[BatchId] = ()
) -> list[MayContain]:
    """The batches that may contain some of what a trace found, or of what batches made with which a recall starts, by
    unit and in their order. The genealogy is that of the newest file, or that of all files."""
    if is_whole:
        names = names_over_all(genealogy.base, genealogy.everybody)
    else:
        names = names_in_newest(genealogy.base, genealogy.everybody, order.files)
    touched = touched_by(genealogy, trace).union(starts)
    places = {place for place, batch in names.items() if batch in touched}
    return [
        MayContain(
            residue.unit,
            names[residue.batch.place],
            tuple(sorted(genealogy.lots_of(names[residue.batch.place]))),
            names[residue.behind.place],
            residue.decided,
        )
        for residue in order.next_ones(places)
    ]


def lines_of(rows: Iterable[MayContain]) -> list[str]:
    """The same below a recall, under a heading; nothing if there are none."""
    cells = [(row.unit, str(row.batch), row.lots_named, f"behind {row.behind}", row.decision) for row in rows]
    widths = [max(map(len, column)) for column in zip(*cells)]
    lines = ["  ".join(cell.ljust(width) for cell, width in zip(row, widths)) for row in cells]
    return [HEADING, *(f"{line} {MARK}" for line in lines)] if lines else []
