"""What `toll` answers is compared with the tables, and movements with what is on hand; if they differ, no paper is
made."""
from collections import defaultdict
from collections.abc import Collection, Iterable, Mapping, Sequence
from itertools import groupby
from typing import Any

from ... import HOUSE
from ...core.failure import REFUSED, Failure
from ...model.answers import StockLine, rows_of
from ...model.rows import Base, LotId, want
from ...model.schema import IS_INCOMING, ORIGIN, STANDING, Disposition, Kind
from .copies import Source

COUNTED = (Kind.RECEIVE, Kind.PRODUCED, Kind.CONSUMED, Kind.SHIP, Kind.SCRAP)  # in the order of a balance
SUMS = ", ".join(f"coalesce(sum(iif(m.kind = {kind:d}, m.amount, 0)), 0) AS {kind.total}" for kind in COUNTED)
# What the standing movements of the wanted lots leave in each of their sublots, and what that holds.
OF_WANTED = f"FROM moves AS m WHERE (m.lot_owner, m.lot) IN temp.wanted AND {STANDING}"
LEFT = f"""
SELECT owner, lot, sublot, sum(amount), sum(held) FROM (
  SELECT m.lot_owner AS owner, m.lot, m.sublot, iif({IS_INCOMING}, m.amount, -m.amount) AS amount, 0 AS held {OF_WANTED}
  UNION ALL SELECT m.lot_owner, m.lot, m.target, m.amount, 0 {OF_WANTED} AND m.kind = {Kind.SPLIT:d}
  UNION ALL SELECT owner, lot, sublot, 0, amount FROM sublots WHERE (owner, lot) IN temp.wanted)
GROUP BY owner, lot, sublot ORDER BY owner, lot, sublot
"""


def require_closed(base: Base, lots: Iterable[LotId]) -> None:
    """Fails if the movements of a lot, or of one of its sublots, don't leave what is on hand."""
    want(base, lots)
    for lot, rows in groupby(base.execute(LEFT).fetchall(), lambda row: LotId(*row[:2])):
        sublots = [(f"the movements of sublot {name} leave", left, on_hand) for _, _, name, left, on_hand in rows]
        of_lot = "its movements leave", sum(left for _, left, _ in sublots), sum(on_hand for _, _, on_hand in sublots)
        for text, left, on_hand in [of_lot, *sublots]:
            if left != on_hand:
                raise Failure(
                    f"the balance of {lot} doesn't close: {text} {left:,}, and {on_hand:,} is on hand; "
                    "no paper is made",
                    REFUSED,
                    "`hilpoven verify` looks at the whole file",
                )


def agree(subject: str, answered: Any, expected: Any) -> None:
    """Fails if `toll` tells something else than the tables."""
    if answered != expected:
        difference = f"toll tells {as_text(answered)}, and the tables {as_text(expected)}"
        raise Failure(f"{subject}: {difference}; no paper is made", REFUSED)


def agree_on_all(answered: Mapping[Any, Any], expected: Mapping[Any, Any]) -> None:
    """Fails if two mappings differ, and names the first key at which they do."""
    for key in sorted(answered.keys() | expected.keys(), key=str):
        agree(name_of(key), answered.get(key), expected.get(key))


def name_of(key: Any) -> str:
    """A key in words."""
    return " ".join(map(str, key)) if isinstance(key, tuple) else str(key)


def as_text(value: Any) -> str:
    """A value in words."""
    if value is None:
        return "nothing"
    return ", ".join(map(str, value)) if isinstance(value, (tuple, list)) else str(value)


SUBLOTS = f"""
SELECT s.owner, s.lot, s.sublot, l.material, {Disposition.sql('l.disposition')}, s.amount, m.measure
FROM sublots AS s JOIN lots AS l USING (owner, lot) JOIN materials AS m USING (owner, material)
WHERE (s.owner, s.lot) IN temp.wanted ORDER BY 1, 2, 3
"""
ORIGIN_OF = f"SELECT {ORIGIN} FROM lots AS l WHERE l.owner = ? AND l.lot = ?"
RESULTS = "SELECT test, value, day FROM results WHERE owner = ? AND lot = ? ORDER BY test, number"


def check_lots(source: Source, lots: Iterable[LotId]) -> None:
    """Fails if `toll` tells another stock, origin or result of one of these lots that is in the newest file."""
    by_owner: defaultdict[str, list[LotId]] = defaultdict(list)
    for lot in filter(source.newest_has, lots):
        by_owner[lot.owner].append(lot)
    for owner, those in by_owner.items():
        check_stock(source, [owner], those)
        if owner != HOUSE:
            check_results(source, owner, those)


def check_stock(source: Source, owners: Iterable[str], lots: Collection[LotId], is_all: bool = False) -> None:
    """Fails if `toll` tells another stock of these lots, or any of another lot if they are all lots of their owners.

    After a carry-over `toll` knows no sublot that was empty before it.
    """
    wanted = set(lots)
    answered = {
        (LotId(owner, line.lot), line.sublot): (line.material, line.disposition, line.amount, line.measure)
        for owner in filter(source.has_owner, owners)
        for line in rows_of(StockLine, source.newest.answer("stock", owner))
        if is_all or LotId(owner, line.lot) in wanted
    }
    want(source.base, wanted)
    rows = source.base.execute(SUBLOTS).fetchall()
    expected = {
        (LotId(owner, lot), sublot): (material, disposition, amount, measure)
        for owner, lot, sublot, material, disposition, amount, measure in rows
        if source.is_one or amount or (LotId(owner, lot), sublot) in answered
    }
    agree_on_all(answered, expected)


def check_results(source: Source, owner: str, lots: Sequence[LotId]) -> None:
    """Fails if `toll` replies another origin or other results of lots; of several files, other latest results."""
    bodies = source.newest.replies(owner, [f"/lots/{lot.name}" for lot in lots])
    for lot, body in zip(lots, bodies):
        replied = [(row["test"], row["value"], row["day"]) for row in body["results"]]
        recorded = source.base.execute(RESULTS, lot).fetchall()
        if source.is_one:
            agree(f"the origin of {lot}", body["origin"], *source.base.execute(ORIGIN_OF, lot).fetchone())
            agree(f"the results of {lot}", replied, recorded)
        else:
            latest = ({row[0]: row for row in rows} for rows in (replied, recorded))
            agree(f"the latest results of {lot}", *latest)


def check_owner(source: Source, owner: str) -> list[LotId]:
    """The lots of an owner; fails if their movements don't leave what is on hand, or if `toll` tells another stock."""
    rows = source.base.execute("SELECT owner, lot FROM lots WHERE owner = ? ORDER BY lot", (owner,))
    lots = [LotId(*row) for row in rows]
    require_closed(source.base, lots)
    check_stock(source, [owner], lots, is_all=True)
    return lots
