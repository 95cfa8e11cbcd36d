"""What a trace with links is: breadth first over all edges, which are read by SQL that is written for the tests alone."""
import contextlib
import pathlib
import sqlite3
from collections.abc import Iterator

EDGES = """
SELECT DISTINCT i.lot_owner, i.lot, o.lot_owner, o.lot FROM moves i JOIN moves o ON i.owner = o.owner AND i.ord = o.ord AND i.number = o.number
WHERE i.kind = 4 AND o.kind = 5 AND i.segment <= o.segment
  AND (i.owner, i.mkey) NOT IN (SELECT owner, mkey FROM voids) AND (o.owner, o.mkey) NOT IN (SELECT owner, mkey FROM voids)
"""
MADE = """
SELECT DISTINCT owner, ord, number, lot_owner, lot FROM moves WHERE kind = 5 AND (owner, mkey) NOT IN (SELECT owner, mkey FROM voids)
"""


def recorded_edges(base: sqlite3.Connection) -> set[tuple]:
    """The pairs of lots of which the first went into the second, by actuals."""
    return {(row[:2], row[2:]) for row in base.execute(EDGES)}


def linked_edges(base: sqlite3.Connection, links: list) -> set[tuple]:
    """The pairs of lots of which the second contains some of the first, by links."""
    lots_of_batches = [(row[:3], row[3:]) for row in base.execute(MADE)]
    lots = {(link, (link.owner, link.lot)) for link in links if link.lot}
    lots |= {(link, lot) for link in links if not link.lot for batch, lot in lots_of_batches if batch == (link.owner, link.order, link.batch)}
    return {((link.of_owner, link.of_lot), lot) for link, lot in lots}


def closure(edges: set[tuple], start: tuple, way: str) -> dict[tuple, int]:
    """The lots that end a chain of edges from a lot, each with the fewest steps."""
    steps, front = {start: 0}, {start}
    while front:
        ahead = {ends[way == "forward"] for ends in edges if ends[way == "back"] in front} - steps.keys()
        steps |= dict.fromkeys(ahead, 1 + max(steps.values()))
        front = ahead
    return steps


@contextlib.contextmanager
def reading(path: pathlib.Path) -> Iterator[sqlite3.Connection]:
    """The tables of a file that nobody writes meanwhile."""
    with contextlib.closing(sqlite3.connect(path)) as base:
        yield base
