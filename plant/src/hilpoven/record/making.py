"""How a note is made: what it names is there, and it stands in a line of the journal."""
import contextlib
import functools
import json
from collections.abc import Iterator, Sequence
from dataclasses import dataclass
from typing import Any

from .. import HOUSE
from ..core import snapshot
from ..core.context import Context
from ..core.failure import REFUSED, WRONG_USE, Failure, printable
from ..core.forms import MOST_TOLD, TEXT
from ..model.nearest import nearest
from ..core.office import Office
from ..core.journal.log import Journal
from ..model.rows import Base, BatchId, LotId, read_moves, require_owner
from ..model.schema import STANDING, Kind
from ..model.years import chain, earlier
from ..model.register.file import Notes
from ..model.register.noted import AFTER, from_json, to_json
from ..model.notes import (
    GETS,
    RETURNS,
    SENDS,
    Corrects,
    Link,
    MovementFacts,
    Note,
    Parties,
    PlantLink,
    Task,
    require_party,
)
from ..model.register.meant import HAS_BATCH, HAS_LOT, MEANT, RowReader
from ..model.kinds import Spread, Why
from ..model.register.standing import Register, kept, statuses
from ..model.register.tables import storable, subject_of

HAS_RECEIPT = f"SELECT 1 FROM moves WHERE owner = ? AND mkey = ? AND kind = {Kind.RECEIVE:d}"
OWNERS = "SELECT owner FROM lots WHERE lot = ?"
LOTS = "SELECT lot FROM lots WHERE owner = ?"
BATCHES = "SELECT CAST(number AS TEXT) FROM batches WHERE owner = ? AND ord = ?"
ORDERS = "SELECT DISTINCT ord FROM batches WHERE owner = ?"
HAS_RECEIPT_OF = f"{HAS_RECEIPT} AND lot = ?"
HAS_MOVEMENT = "SELECT 1 FROM moves WHERE owner = ? AND mkey = ? AND kind = ?"
MOVEMENTS = "SELECT mkey FROM moves WHERE owner = ? AND kind = ?"
RECEIPTS = f"SELECT mkey FROM moves WHERE owner = ? AND kind = {Kind.RECEIVE:d}"
KEYS = "SELECT mkey FROM moves WHERE owner = ?"
STANDING_MOVE = f"m.owner = ? AND m.mkey = ? AND {STANDING}"
MATERIAL_OF = "SELECT material FROM lots WHERE owner = ? AND lot = ?"
MAKER = "SELECT ord, number FROM lots WHERE owner = ? AND lot = ?"


@dataclass
class Desk:
    """What is looked at while a note is made: the office, its journal, and the tables of a copy of its file."""

    office: Office
    journal: Journal
    base: Base

    def has(self, sql: str, *words: str | int) -> bool:
        """Whether the office's file, or an earlier one, has a row."""
        return any(base.execute(sql, words).fetchone() for base in self.bases)

    @property
    def bases(self) -> list[Base]:
        """The tables of the office's file and of its earlier ones."""
        return [self.base, *(earlier_file.base for earlier_file in earlier.files_of(self.office))]

    def owners_of(self, lot: str) -> list[str]:
        """The owners that have a lot of this name."""
        return sorted({str(owner) for base in self.bases for owner, in base.execute(OWNERS, (lot,))})

    def names(self, sql: str, *words: str | int) -> list[str]:
        """The names that the office's file has."""
        return sorted({str(name) for name, in self.base.execute(sql, words)})

    def require_lot(self, lot: LotId) -> None:
        """Fails if there is no such lot."""
        require_owner(self.base, lot.owner)
        if not self.has(HAS_LOT, *lot):
            advice = nearest(lot.name, self.names(LOTS, lot.owner), f"lots of {lot.owner}")
            raise Failure(f"there is no lot {lot.name} of {lot.owner}", REFUSED, advice)

    def require_batch(self, batch: BatchId) -> None:
        """Fails if there is no such batch."""
        require_owner(self.base, batch.owner)
        if self.has(HAS_BATCH, *batch):
            return
        if numbers := self.names(BATCHES, batch.owner, batch.order):
            advice = nearest(str(batch.number), numbers, f"batches of {batch.order}")
        else:
            advice = nearest(batch.order, self.names(ORDERS, batch.owner), f"orders of {batch.owner} with a batch")
        raise Failure(f"there is no batch {batch.name} of {batch.owner}", REFUSED, advice)

    def require_receipt(self, owner: str, key: str) -> None:
        """Fails if there is no such receipt."""
        require_owner(self.base, owner)
        if not self.has(HAS_RECEIPT, owner, key):
            advice = nearest(key, self.names(RECEIPTS, owner), f"receipts of {owner}")
            raise Failure(f"there is no receipt {key} of {owner}", REFUSED, advice)

    def require_link(self, link: Link, is_new: bool = False) -> None:
        """Fails unless a link joins two things that are there, of its owner or of the plant; the lot that contains the
        other one may be new."""
        require_owner(self.base, link.owner)
        if link.of_owner not in (link.owner, HOUSE):
            why = (
                f"a lot of {link.owner} contains lots of {link.owner} and of {HOUSE} alone, and none of {link.of_owner}"
            )
            raise Failure(why, REFUSED, f"`hilpoven link` --why {'|'.join(Spread)} joins lots of two owners")
        if isinstance(link.container, BatchId):
            self.require_batch(link.container)
        elif not is_new:
            self.require_lot(link.container)
        self.require_lot(link.contained)
        if link.container == link.contained:
            raise Failure(f"lot {link.contained} isn't linked to itself", REFUSED)
        row = self.base.execute(MAKER, link.contained).fetchone()
        if isinstance(link.container, BatchId) and link.of_owner == link.owner and row == link.container[1:]:
            raise Failure(f"lot {link.contained} was made by batch {link.container.name} itself", REFUSED)

    def require_plant_link(self, link: PlantLink) -> None:
        """Fails unless a link of the plant's joins two things that are there."""
        for end in (link.container, link.contained):
            self.require_batch(end) if isinstance(end, BatchId) else self.require_lot(end)
        is_of_two = link.owner != link.of_owner
        if link.container == link.contained:
            raise Failure(f"{link.container} isn't linked to itself", REFUSED)
        if link.spread in (Spread.TRANSFER, Spread.MISRECORDED) and not is_of_two:
            raise Failure(f"a {link.spread} link joins two owners, and both ends are {link.owner}'s", REFUSED)
        if link.tells and (not is_of_two or HOUSE in (link.owner, link.of_owner)):
            raise Failure("--tell is for the lots of an owner that contain another owner's material", REFUSED)

    def material_of(self, lot: LotId) -> tuple[str, str]:
        """Whose the material of a lot is, and its name."""
        rows = (base.execute(MATERIAL_OF, lot).fetchone() for base in self.bases)
        return lot.owner, next(str(row[0]) for row in rows if row)

    def members(self, notes: Sequence[Note]) -> dict[str, Any]:
        """What stands in the line of the journal that has these notes; nothing of those that stand already."""
        new = [note for note in notes if self.standing(note) is None]
        return self.all_members(new) if new else {}

    def all_members(self, notes: Sequence[Note]) -> dict[str, Any]:
        """What stands in the line of the journal that has these notes: also the rows that they mean, so that they are
        about no later rows of the same names."""
        for note in notes:
            require_readable(note)
        meant = [self.rows.rows(note) for note in notes]
        return {
            "notes": [to_json(note) for note in notes],
            **({MEANT: meant} if any(meant) else {}),
            **({AFTER: self.after} if self.after else {}),
        }

    @functools.cached_property
    def rows(self) -> RowReader:
        """What reads the rows that notes mean."""
        return RowReader(self.bases)

    @functools.cached_property
    def after(self) -> str:
        """The earlier file that the office's file came from; empty if there is none."""
        came = chain.came_from(self.base)
        return came.file if came else ""

    @functools.cached_property
    def notes(self) -> Notes:
        """The journal's notes, of which it is known whether they stand."""
        return kept(self.journal, self.base)

    @functools.cached_property
    def register(self) -> Register:
        """The notes that stand, by what they are about."""
        return Register(self.notes)

    def standing(self, note: Note) -> str | None:
        """The name of a note about this file that says the same, and stands; `None` if there is none. Where the last
        note about a thing counts, no other one is there."""
        names: list[str] = []
        for status in statuses(self.notes, subject=subject_of(note), fault="", after=storable(self.after)):
            if status.note == note:
                names.append(status.noted.name)
            elif note.SUBJECT:
                names = []
        return names[0] if names else None

    @functools.cached_property
    def parties(self) -> Parties:
        """The parties that stand, by owner and name."""
        return self.register.parties

    def require_facts(self, facts: MovementFacts, is_to: bool, is_from: bool) -> None:
        """Fails unless there is such a movement, and what is noted of it may be noted of its kind."""
        kind = self.require_movement(facts.owner, facts.key)
        if kind == Kind.SHIP and (is_from or facts.supplier_lot):
            raise Failure(f"{facts.key} of {facts.owner} is a shipment, which nobody sent here", REFUSED)
        if kind == Kind.RECEIVE and is_to:
            raise Failure(f"{facts.key} of {facts.owner} is a receipt, which nobody else got", REFUSED)
        if facts.party:
            task = GETS if kind == Kind.SHIP else self.task_of_sender(facts.owner, facts.key)
            require_party(self.parties, facts.owner, facts.party, task)

    def task_of_sender(self, owner: str, key: str) -> Task:
        """What the party did that sent a receipt: returned it, if a link of its lot says so."""
        returned = {
            status.note.lot
            for status in statuses(self.notes, Link, owner=owner, fault="")
            if isinstance(status.note, Link) and status.note.why == Why.RETURN
        }
        return RETURNS if any(self.has(HAS_RECEIPT_OF, owner, key, lot) for lot in returned) else SENDS

    def require_movement(self, owner: str, key: str) -> Kind:
        """The kind of a receipt or a shipment; fails if there is no such one."""
        require_owner(self.base, owner)
        for kind in (Kind.RECEIVE, Kind.SHIP):
            if self.has(HAS_MOVEMENT, owner, key, kind):
                return kind
        names = [*self.names(MOVEMENTS, owner, Kind.RECEIVE), *self.names(MOVEMENTS, owner, Kind.SHIP)]
        raise Failure(
            f"there is no receipt and no shipment {key} of {owner}",
            REFUSED,
            nearest(key, names, f"receipts and shipments of {owner}"),
        )

    def record(self, words: list[str], *notes: Note) -> str:
        """Adds notes to the journal; the name of the first one."""
        return self.journal.note(self.office.file, words, **self.all_members(notes))


def require_readable(note: Note) -> None:
    """Fails if a note says what its reader wouldn't take, such as a text with a line end, whoever made it."""
    for name, member in vars(note).items():
        if isinstance(member, str) and (fault := TEXT.fault(member)):
            raise Failure(f"{name}: `{printable(member[:MOST_TOLD])}` {fault}", WRONG_USE)
    if from_json(json.loads(json.dumps(to_json(note)))) is None:
        raise Failure(f"a note can't be so: {printable(note.sentence)}", WRONG_USE)


def plant_moves(base: Base) -> str:
    """SQL: a standing movement of a key, which isn't one by which stock came over from an earlier file."""
    return f"{STANDING_MOVE} AND {chain.NOT_CARRIED}" if chain.came_from(base) else STANDING_MOVE


def require_correction(desk: Desk, note: Corrects) -> None:
    """Fails unless a receipt or a scrap is there, and another movement of the same material, neither of them voided."""
    rows = {}
    for owner, key in ((note.owner, note.key), (note.of_owner, note.of_key)):
        require_owner(desk.base, owner)
        moves = (move for base in desk.bases for move in read_moves(base, plant_moves(base), (owner, key)))
        row = rows[owner, key] = next(moves, None)
        if row is None:
            advice = nearest(key, desk.names(KEYS, owner), f"movements of {owner}")
            raise Failure(f"there is no movement {key} of {owner} that stands", REFUSED, advice)
    own, of = rows[note.owner, note.key], rows[note.of_owner, note.of_key]
    assert own and of
    if own.kind not in (Kind.RECEIVE, Kind.SCRAP):
        raise Failure(f"{note.key} of {note.owner} is neither a receipt nor a scrap", REFUSED)
    if (note.owner, note.key) == (note.of_owner, note.of_key):
        raise Failure(f"{note.key} of {note.owner} doesn't correct itself", REFUSED)
    materials = [desk.material_of(move.lot) for move in (own, of)]
    if materials[0] != materials[1]:
        both = " and ".join(" ".join(material) for material in materials)
        raise Failure(f"{note.key} and {note.of_key} are of two materials, {both}", REFUSED)


@contextlib.contextmanager
def desk(context: Context, hands_out: bool = False) -> Iterator[Desk]:
    """Reads a copy of an office's file, to make notes. Who hands out papers too keeps the rights to write them."""
    office = context.office_to_read() if hands_out else context.office()
    with snapshot.opened(office) as base:
        yield Desk(office, context.journal(), base)
