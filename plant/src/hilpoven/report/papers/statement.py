"""The statement of an owner: what came, what went and what is left of each lot, between two days."""
from dataclasses import dataclass

from ... import HOUSE
from ...core.days import format_day
from ...model.rows import Base, LotId, require_owner, want
from ...model.schema import CHANGE, ON_HAND, STANDING, Disposition, Kind
from .. import corrections
from ..columns import Column, columns
from ..noted import LINKS, MADE, links
from ..sheets import Sheet, select
from .agreement import check_owner
from .copies import Source
from .printing import Document

COUNTED = (Kind.RECEIVE, Kind.PRODUCED, Kind.CONSUMED, Kind.SCRAP, Kind.SHIP)  # in the order of a statement's columns
SHIFT = 9  # in the place of the kind of a movement: a correction moved something between two lots of one pile
AMOUNTS = ("opening", *(kind.total for kind in COUNTED), corrections.SHIFTED, "closing", "unexplained")
BETWEEN = "m.day BETWEEN :first AND :last"
# The movements of the owner's lots that stand, as they were meant.
FLOWS = f"""
SELECT m.mkey, m.kind, m.lot, m.amount, m.day, m.rowid AS place, {CHANGE} AS change FROM temp.meant AS m
WHERE m.lot_owner = :owner AND {STANDING}
UNION ALL SELECT '', {SHIFT}, lot, abs(amount), day, 0, amount FROM temp.shift WHERE owner = :owner
"""
SUMS = ", ".join(
    [
        *(f"sum(iif(m.kind = {kind:d} AND {BETWEEN}, m.amount, 0)) AS {kind.total}" for kind in COUNTED),
        f"sum(iif(m.kind = {SHIFT} AND {BETWEEN}, m.change, 0)) AS {corrections.SHIFTED}",
    ]
)
# The amounts of each lot; unexplained is what all movements leave, less what is on hand.
ACCOUNTS = f"""
CREATE TEMP TABLE account AS
SELECT l.owner, l.lot, l.material, k.measure, {Disposition.sql('l.disposition')} AS disposition,
  {', '.join(f'coalesce(f.{name}, 0) AS {name}' for name in AMOUNTS[:-1])},
  coalesce(f.rest, 0) - {ON_HAND} AS unexplained
FROM lots AS l JOIN materials AS k USING (owner, material) LEFT JOIN (
  SELECT m.lot, sum(iif(m.day < :first, m.change, 0)) AS opening, {SUMS},
    sum(iif(m.day <= :last, m.change, 0)) AS closing, sum(m.change) AS rest FROM ({FLOWS}) AS m GROUP BY m.lot
) AS f ON f.lot = l.lot
WHERE l.owner = :owner
"""
# The lots that had something, or of which something came or went.
MOVED = f"FROM temp.account WHERE {' OR '.join(AMOUNTS[:-1])}"
# The first movement by whose day more left a lot than had come, of each lot whose opening or closing amount is below
# zero, with the next one that brings something; of one day what comes is before what leaves.
DRAFTS = f"""
FROM (WITH step AS (
    SELECT m.*, sum(m.change) OVER by_day AS rest, row_number() OVER by_day AS at FROM ({FLOWS}) AS m
    WHERE m.lot IN (SELECT lot FROM temp.account WHERE opening < 0 OR closing < 0)
    WINDOW by_day AS (PARTITION BY m.lot ORDER BY m.day, -m.change, m.place ROWS UNBOUNDED PRECEDING)),
  draft AS (SELECT lot, min(at) AS at FROM step WHERE rest < 0 GROUP BY lot),
  next AS (SELECT s.lot, min(s.at) AS at FROM step AS s JOIN draft AS d ON d.lot = s.lot AND d.at < s.at
    WHERE s.change > 0 GROUP BY s.lot)
  SELECT s.*, n.day AS next_day, n.mkey AS next_key FROM draft JOIN step AS s USING (lot, at)
  LEFT JOIN next ON next.lot = s.lot LEFT JOIN step AS n ON n.lot = next.lot AND n.at = next.at) AS d
JOIN temp.account AS a USING (lot) ORDER BY a.material, a.lot
"""
CONSUMED_OF_HOUSE = f"""
FROM temp.meant AS m JOIN lots AS l ON l.owner = m.lot_owner AND l.lot = m.lot
JOIN materials AS k ON k.owner = l.owner AND k.material = l.material
WHERE m.owner = :owner AND m.lot_owner <> m.owner AND m.ord <> '' AND m.amount > 0 AND {BETWEEN} AND {STANDING}
GROUP BY m.lot_owner, m.lot, m.ord, m.number ORDER BY l.material, k.measure, m.lot_owner, m.lot, m.ord, m.number
"""
MATERIAL = columns("material measure=unit:text@beneath")
LOTS = [*MATERIAL, *columns(f"lot disposition=is_now:word {' '.join(f'{name}:number' for name in AMOUNTS)}")]
BY_MATERIAL = columns(" ".join(f"{name}:number" for name in AMOUNTS), **{name: f"sum({name})" for name in AMOUNTS})
MOVEMENTS = columns(
    "day:day key kind:text lot sublot target=to batch amount:number measure=unit:text@beside void:text",
    key="mkey",
    kind=Kind.sql("kind"),
    # the batch of a lot of the plant is named with its owner
    batch="iif(ord = '', '', iif(owner = lot_owner, '', owner || ' ') || ord || '/' || number)",
    void="iif(is_void, 'void', '')",
)
OVERDRAFTS = columns(
    "d.lot d.day:day key kind:text d.amount:number left=leaves:number a.measure=unit:text@beside "
    "d.next_day=comes_next:day d.next_key=by_key",
    key="d.mkey",
    kind=f"iif(d.kind = {SHIFT}, 'correction', {Kind.sql('d.kind')})",
    left="d.rest",
)
OF_HOUSE = columns(
    "l.material m.lot=lot_of_the_plant batch amount=consumed:number k.measure=unit:text@beside",
    batch="m.ord || '/' || m.number",
    amount="sum(m.amount)",
)


@dataclass(frozen=True)
class Statement:
    """The lots of an owner with their amounts, and these by material; what its batches consumed of lots of HOUSE; the
    movements by whose days lots are below zero; and how much more is on hand than movements explain."""

    lots: Sheet
    sums: Sheet
    of_house: Sheet
    overdrafts: Sheet
    unexplained: int


def read_statement(base: Base, owner: str, first: int, last: int) -> Statement:
    """The statement of an owner from a day to a day, of tables that have the views."""
    words = {"owner": owner, "first": first, "last": last}
    base.execute("DROP TABLE IF EXISTS temp.account")
    base.execute(ACCOUNTS, words)
    ((unexplained,),) = base.execute("SELECT coalesce(-sum(unexplained), 0) FROM temp.account").fetchall()
    lots = select(base, "lots", LOTS, f"{MOVED} ORDER BY material, lot", (), AMOUNTS)
    sums = select(base, "sums", [*MATERIAL, *BY_MATERIAL], f"{MOVED} GROUP BY material, measure ORDER BY material")
    unshifted = [] if lots.has(corrections.SHIFTED) else [corrections.SHIFTED]
    return Statement(
        lots.without(*unshifted),
        sums.without(*unshifted),
        select(base, "plants_material", OF_HOUSE, CONSUMED_OF_HOUSE, words),
        select(base, "overdrafts", OVERDRAFTS, DRAFTS, words),
        unexplained,
    )


IN_LOTS = f"""
k.owner = :owner AND ((k.owner, k.lot) IN temp.wanted OR k.lot = '' AND (k.ord, k.number) IN (
  {MADE.format('m.ord, m.number')} (m.lot_owner, m.lot) IN temp.wanted))
"""


def links_in(base: Base, owner: str, read: Statement, shown: list[Column] = LINKS) -> Sheet:
    """The links that say what the lots of a statement contain that had something, or of which something moved."""
    want(base, [LotId(owner, str(lot)) for _, _, lot, *_ in read.lots.rows])
    return links(base, IN_LOTS, {"owner": owner}, shown=shown)


def documents(source: Source, owner: str, first: int, last: int) -> list[Document]:
    """The statement of an owner from a day to a day."""
    base = source.base
    require_owner(base, owner)
    check_owner(source, owner)
    read = read_statement(base, owner, first, last)
    between = "FROM movement AS m WHERE lot_owner = ? AND day BETWEEN ? AND ? ORDER BY day, m.rowid"
    movements = select(base, "movements", MOVEMENTS, between, (owner, first, last), ["amount"])
    others = read.overdrafts, links_in(base, owner, read), corrections.of_owner(base, owner, owner != HOUSE)
    sheets = [read.sums, read.lots, read.of_house, movements, *(sheet for sheet in others if sheet.rows)]
    title = f"Statement of {owner}, {format_day(first)} to {format_day(last)}"
    return [Document("statement", owner == HOUSE, title, sheets, {"owner": owner})]
