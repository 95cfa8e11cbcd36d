"""What a recall over all files of an office may come to, by names: the tables of all else need not be put together.

A name counts in each file that has it. So a recall may come to less than this, and never to more.
"""
import contextlib
from collections import defaultdict
from collections.abc import Iterable, Sequence
from itertools import product

from ..core.journal.log import Journal
from .genealogy import Genealogy, fewest_steps
from .notes import Corrected, Corrects, Link, PlantLink
from .register.file import Notes, Opened
from .register.lines import may_have_notes
from .register.standing import kept, statuses
from .rows import Base, BatchId, LotId, want
from .unit_order import has_cleanings
from .years import chain
from .years.history import Names

End = LotId | BatchId
KEYS = "SELECT owner, mkey, ord FROM moves AS m WHERE (m.lot_owner, m.lot) IN temp.wanted"
LOTS_OF_KEY = "SELECT lot_owner, lot FROM moves WHERE owner = ? AND mkey = ?"


class Reach:
    """Which lots went into which by the names of all files, whose tables these are: by recorded actuals, links, and
    corrections, which join lots both ways."""

    def __init__(self, bases: Sequence[Base], notes: Opened | None) -> None:
        self.bases, self.files = bases, [Genealogy(base) for base in bases]
        self.joined = defaultdict[End, set[End]](set)
        kinds = (Link, PlantLink, Corrected, Corrects)
        for status in statuses(notes, *kinds, fault="") if notes else ():
            match status.note:
                case Link() | PlantLink() as link:
                    self.joined[link.contained].add(link.container)
                case Corrected() as note:
                    self.join({LotId(note.lot_owner, name) for name in (note.lot_before, note.lot)})
                case Corrects() as note:
                    movements = ((note.owner, note.key), (note.of_owner, note.of_key))
                    rows = (base.execute(LOTS_OF_KEY, movement) for base in bases for movement in movements)
                    self.join({LotId(*lot) for of_key in rows for lot in of_key})

    def join(self, lots: set[LotId]) -> None:
        """Joins lots of which a correction moved something from one to another."""
        for lot, other in product(lots, lots):
            self.joined[lot].add(other)

    def lots_of(self, end: End) -> set[LotId]:
        """A lot, or all that a batch made in any file."""
        return {lot for file in self.files for lot in file.lots_of(end)}

    def onward(self, lot: LotId) -> set[LotId]:
        """The lots that a lot may have gone into in one step."""
        batches = {batch for file in self.files for batch in (*file.consumers(lot), *file.producers(lot))}
        recorded = {after for file in self.files for after in file.recorded_onward(lot)}
        whole: set[End] = {lot, *batches}
        ends = {end for each in whole & self.joined.keys() for end in self.joined[each]}
        return recorded.union(*map(self.lots_of, ends))

    def names(self, starts: Iterable[End]) -> Names:
        """The names of all that a recall of lots and of what batches made may come to."""
        ends = [*starts, *(end for ends in self.joined.values() for end in ends if isinstance(end, BatchId))]
        lots = {lot for end in starts for start in self.lots_of(end) for lot in fewest_steps(start, self.onward)}
        names = {("order", end.owner, end.order) for end in ends if isinstance(end, BatchId)}
        names |= {("lot", *lot) for lot in lots}
        for base in self.bases:
            want(base, lots)
            for owner, key, order in base.execute(KEYS):
                names |= {("key", owner, key), ("order", owner, order)}
        return names


def names_of(journal: Journal, files: Sequence[chain.Part], starts: Iterable[End] | None) -> Names | None:
    """The names of all that a recall over these files may come to, whichever of them has what it begins with; `None` if
    that may be anything."""
    if starts is None:
        return None
    with contextlib.ExitStack() as stack:
        bases = [stack.enter_context(chain.reading(file.path)) for file in files]
        notes = kept(journal, bases[-1]) if may_have_notes(journal) else None
        names = Reach(bases, notes).names(starts)
    return names


def starts_of(journal: Journal, owner: str, lot: str) -> list[End] | None:
    """With what the recall of a lot begins, which may have its file behind its name; `None` if it may come to
    anything."""
    return unless_cleaned(journal, [LotId(owner, lot.partition(" ")[0])])


def unless_cleaned(journal: Journal, starts: list[End]) -> list[End] | None:
    """With what a recall begins; `None` if it may come to anything, since batches that held a unit behind one of its
    batches may contain some."""
    return None if has_cleanings(Notes(journal)) else starts
