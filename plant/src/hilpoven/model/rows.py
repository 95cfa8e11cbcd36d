"""Rows of the office's tables with their types, how they are read, and the keys of movements."""
import sqlite3
from collections.abc import Iterable
from dataclasses import dataclass
from typing import Any, NamedTuple

from .. import HOUSE
from ..core.failure import REFUSED, WRONG_USE, Failure
from ..core.forms import name_fault
from .nearest import nearest
from .schema import INCOMING, ON_HAND, ORIGIN, REQUIREMENTS, STANDING, Disposition, Kind, State

Base = sqlite3.Connection
HAS_RESULT = "SELECT 1 FROM results WHERE owner = ? AND lot = ? AND test = ? AND value = ? AND day = ?"

PLURALS = {"batch": "batches"}


class LotId(NamedTuple):
    """A lot, by its owner and its name."""

    owner: str
    name: str

    def __str__(self) -> str:
        return f"{self.owner} {self.name}"


class BatchId(NamedTuple):
    """A batch, by its owner, its order and its number."""

    owner: str
    order: str
    number: int

    @property
    def name(self) -> str:
        """Its name within its owner's batches."""
        return f"{self.order}/{self.number}"

    def __str__(self) -> str:
        return f"{self.owner} {self.name}"


@dataclass(frozen=True)
class Lot:
    """A lot with its material, and what of it is on hand."""

    id: LotId
    material: str
    measure: str
    disposition: Disposition
    origin: str
    on_hand: int


class Move(NamedTuple):
    """A movement of a lot; `batch` is `None` unless it is an actual."""

    owner: str
    key: str
    kind: Kind
    lot: LotId
    sublot: str
    target: str
    batch: BatchId | None
    segment: int
    amount: int
    day: int
    is_void: bool

    @property
    def change(self) -> int:
        """By how much it changes what is on hand of the lot."""
        if self.is_void or self.kind == Kind.SPLIT:
            return 0
        return self.amount if self.kind in INCOMING else -self.amount


@dataclass(frozen=True)
class Batch:
    """A batch with its recipe, its unit and its state."""

    id: BatchId
    recipe: str
    unit: str
    state: State
    is_closed: bool

    @property
    def status(self) -> tuple[str, str, str]:
        """Its unit, its state and whether it is closed, in words."""
        return self.unit, self.state.word, "closed" if self.is_closed else "open"


LOTS = f"""
SELECT l.owner, l.lot, l.material, m.measure, l.disposition, {ORIGIN}, {ON_HAND}
FROM lots AS l JOIN materials AS m USING (owner, material) WHERE
"""
MOVES = f"""
SELECT m.owner, m.mkey, m.kind, m.lot_owner, m.lot, m.sublot, m.target, m.ord, m.number, m.segment, m.amount, m.day,
  NOT {STANDING} FROM moves AS m WHERE
"""
BATCHES = """
SELECT b.owner, b.ord, b.number, o.recipe, b.unit, b.state, b.closed
FROM batches AS b JOIN orders AS o USING (owner, ord) WHERE
"""
OF_BATCH = "{0}.owner = ? AND {0}.ord = ? AND {0}.number = ?"
OF_KEY = "m.owner = ? AND m.mkey = ?"
WANTED = "CREATE TEMP TABLE IF NOT EXISTS wanted (owner TEXT, lot TEXT, PRIMARY KEY (owner, lot)) WITHOUT ROWID"


def read_lots(base: Base, where: str, words: Any = ()) -> list[Lot]:
    """The lots for which a condition on `l` holds."""
    return [
        Lot(LotId(owner, name), material, measure, Disposition(disposition), origin, on_hand)
        for owner, name, material, measure, disposition, origin, on_hand in base.execute(LOTS + where, words)
    ]


def read_moves(base: Base, where: str, words: Any = ()) -> list[Move]:
    """The movements for which a condition on `m` holds, in the order in which they were recorded."""
    rows, moves = base.execute(f"{MOVES}{where} ORDER BY m.rowid", words), []
    kinds = {kind.value: kind for kind in Kind}
    for owner, key, kind, lot_owner, lot, sublot, target, order, number, segment, amount, day, is_void in rows:
        of_lot, batch = LotId(lot_owner, lot), BatchId(owner, order, number) if order else None
        place = sublot, target, batch, segment
        moves.append(
            Move(owner, key, kinds[kind] if kind in kinds else Kind(kind), of_lot, *place, amount, day, bool(is_void))
        )
    return moves


def read_batches(base: Base, where: str, words: Any = ()) -> list[Batch]:
    """The batches for which a condition on `b` holds."""
    return [
        Batch(BatchId(owner, order, number), recipe, unit, State(state), bool(closed))
        for owner, order, number, recipe, unit, state, closed in base.execute(BATCHES + where, words)
    ]


def want(base: Base, lots: Iterable[LotId]) -> None:
    """Has `temp.wanted` name these lots."""
    wanted = list(lots)
    base.execute(WANTED)
    base.execute("DELETE FROM temp.wanted")
    base.executemany("INSERT OR IGNORE INTO temp.wanted VALUES (?, ?)", wanted)


def lots_of(base: Base, lots: Iterable[LotId]) -> dict[LotId, Lot]:
    """These lots, as they are now."""
    want(base, lots)
    return {lot.id: lot for lot in read_lots(base, "(l.owner, l.lot) IN temp.wanted")}


def moves_of(base: Base, lots: Iterable[LotId]) -> list[Move]:
    """All movements of these lots."""
    want(base, lots)
    return read_moves(base, "(m.lot_owner, m.lot) IN temp.wanted")


def sublots_of(base: Base, lots: Iterable[LotId]) -> dict[tuple[LotId, str], int]:
    """What each sublot of these lots holds."""
    want(base, lots)
    sql = "SELECT owner, lot, sublot, amount FROM sublots WHERE (owner, lot) IN temp.wanted ORDER BY 1, 2, 3"
    return {(LotId(owner, lot), sublot): amount for owner, lot, sublot, amount in base.execute(sql)}


def batches_of(base: Base, batches: Iterable[BatchId]) -> dict[BatchId, Batch]:
    """These batches, as they are now."""
    return {batch.id: batch for wanted in batches for batch in read_batches(base, OF_BATCH.format("b"), wanted)}


def requirements_of(base: Base, batch: Batch) -> list[tuple[int, str, str, str, int, int]]:
    """What a batch's recipe requires: segment, use, source, material, the amount required, and the amount recorded."""
    words = {"owner": batch.id.owner, "order": batch.id.order, "batch": batch.id.number, "recipe": batch.recipe}
    return base.execute(REQUIREMENTS, words).fetchall()


def owners_of(base: Base) -> list[str]:
    """The owners, without HOUSE."""
    return [owner for owner, in base.execute("SELECT owner FROM owners ORDER BY owner")]


def require_owner(base: Base, owner: str) -> None:
    """Fails if there is no such owner."""
    owners = owners_of(base)
    if owner not in [HOUSE, *owners]:
        raise Failure(f"there is no owner {owner}", REFUSED, nearest(owner, owners, "owners"))


def require_lot(base: Base, lot: LotId) -> Lot:
    """A lot; fails if there is none."""
    require_owner(base, lot.owner)
    if row := lots_of(base, [lot]).get(lot):
        return row
    names = [name for name, in base.execute("SELECT lot FROM lots WHERE owner = ?", (lot.owner,))]
    raise Failure(f"there is no lot {lot}", REFUSED, nearest(lot.name, names, f"lots of {lot.owner}"))


def row_of(base: Base, sql: str, words: tuple[str, ...], kind: str, names: str) -> tuple[Any, ...]:
    """The row of a thing; fails with the nearest names if there is none."""
    row = base.execute(sql, words).fetchone()
    if row is None:
        known = [str(name) for name, in base.execute(names, words[:-1])]
        advice = nearest(words[-1], known, PLURALS.get(kind, f"{kind}s"))
        raise Failure(f"there is no {kind} {' '.join(words)}", REFUSED, advice)
    return tuple(row)


def require_unit(base: Base, unit: str) -> None:
    """Fails if there is no such unit."""
    row_of(base, "SELECT unit FROM units WHERE unit = ?", (unit,), "unit", "SELECT unit FROM units")


# What keys begin with that a stock count makes, `hilpoven use`, and a workbook with opening stock.
OF_COUNT, OF_USE, OF_OPENING = "COUNT-", "USE-", "OPEN-"
BEGINNING = "SELECT mkey FROM moves WHERE owner = ? AND mkey GLOB ?"
COLUMNS = "m.kind, m.lot_owner, m.lot, m.sublot, m.target, m.material, m.ord, m.number, m.segment, m.amount, m.day"
SAME = f"""
SELECT m.mkey FROM moves AS m WHERE m.owner = ? AND ({COLUMNS}) = ({', '.join('?' * len(COLUMNS.split(', ')))})
AND {STANDING} ORDER BY m.rowid DESC
"""


def next_key(bases: Iterable[Base], owner: str, prefix: str) -> str:
    """The next free key of an owner: the prefix with the number behind the greatest that there is in any file."""
    keys = [key for base in bases for key, in base.execute(BEGINNING, (owner, f"{prefix}[0-9]*"))]
    numbers = [int(rest) for rest in (key.removeprefix(prefix) for key in keys) if rest.isdecimal()]
    key = f"{prefix}{max(numbers, default=0) + 1}"
    if name_fault(key):
        raise Failure(
            f"{owner} has no next key: behind {prefix}{max(numbers)} there is none of 16 letters",
            WRONG_USE,
            "give a key by --key KEY, or set another key_prefix in the settings",
        )
    return key


def keys_of_same(bases: Iterable[Base], owner: str, row: tuple[str | int, ...]) -> list[str]:
    """The keys of an owner with which the same movement is recorded and not voided, the latest first."""
    return [key for base in bases for key, in base.execute(SAME, (owner, *row))]
