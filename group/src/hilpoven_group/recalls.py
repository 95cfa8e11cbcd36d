"""A recall across offices and years, both ways, with who has what; where it ends; and lots that a person joins."""
from collections import Counter, defaultdict
from dataclasses import dataclass
from functools import cached_property

from hilpoven.core.failure import REFUSED, Failure
from hilpoven.core.table import Row
from hilpoven.model.genealogy import BACK, FORWARD
from hilpoven.model.schema import Disposition

from . import database
from .database import Connection

FUNCTION = {FORWARD: "hg.onward", BACK: "hg.back"}
COLUMNS = "steps office file owner lot material disposition on_hand measure shipped by".split()
SHIPMENT_COLUMNS = "office lot key day amount party document received_by".split()
END_COLUMNS = "what office owner lot key amount party other_office".split()
BY_MATCH = {"supplier's lot", "document"}
AMBIGUOUS = "ambiguous: all are followed"


@dataclass(frozen=True)
class Edge:
    """That a lot went into another, by what, and by which batch; 0 if it was none."""

    src: int
    dst: int
    how: str
    batch: int


@dataclass(frozen=True)
class Trace:
    """The lots of a recall with their fewest steps, and by what each was reached."""

    steps: dict[int, int]
    edges: list[Edge]
    ambiguous: frozenset[int]  # lots of receipts that match shipments of several lots

    def by(self, lot: int) -> str:
        """By what a lot was reached first, and whether that is sure: a receipt may match lots of several shipments."""
        steps = self.steps[lot] - 1
        first = [edge for edge in self.edges_to[lot] if self.steps.get(edge.src) == steps]
        is_ambiguous = any(edge.how in BY_MATCH and {edge.src, edge.dst} & self.ambiguous for edge in first)
        words = ", ".join(dict.fromkeys(edge.how for edge in first))
        return f"{words} ({AMBIGUOUS})" if is_ambiguous else words

    @cached_property
    def edges_to(self) -> dict[int, list[Edge]]:
        """The edges by the lots to which they lead."""
        edges: dict[int, list[Edge]] = defaultdict(list)
        for edge in self.edges:
            edges[edge.dst].append(edge)
        return edges


def trace(base: Connection, start: int, way: str) -> Trace:
    """The lots that a lot went into, or was made of, level by level."""
    steps, level, edges, depth = {start: 0}, [start], list[Edge](), 0
    while level:
        depth += 1
        traced = database.rows(base, f"SELECT src, dst, how, batch FROM {FUNCTION[way]}(%s::bigint[])", (level,))
        edges += [Edge(*row) for row in traced]
        level = sorted({row[1] for row in traced} - steps.keys())
        steps |= dict.fromkeys(level, depth)
    matched = list({lot for edge in edges if edge.how in BY_MATCH for lot in (edge.src, edge.dst)})
    rows = database.rows(base, "SELECT lot_id FROM hg.ambiguous(%s::bigint[])", (matched,)) if matched else []
    return Trace(steps, edges, frozenset(row[0] for row in rows))


def lots_named(base: Connection, office: str, owner: str, lot: str, file: str = "") -> list[int]:
    """The numbers of the lots of a name in an office, of one of its files if that is given. Fails if there is none."""
    rows = database.rows(base, "SELECT lot_id, file FROM hg.find_lot(%s, %s, %s)", (office, owner, lot))
    numbers = [row[0] for row in rows if file in ("", row[1])]
    if not numbers:
        raise Failure(f"the group has no lot {owner} {lot} of {office}", REFUSED)
    return numbers


def lot_named(base: Connection, office: str, owner: str, lot: str, file: str = "") -> int:
    """The number of the only lot of a name."""
    numbers = lots_named(base, office, owner, lot, file)
    if len(numbers) > 1:
        rows = database.rows(base, "SELECT file FROM hg.find_lot(%s, %s, %s)", (office, owner, lot))
        raise Failure(
            f"several files of {office} have a lot {owner} {lot}",
            REFUSED,
            f"--in {' or --in '.join(row[0] for row in rows)}",
        )
    return numbers[0]


def lines(base: Connection, traced: Trace) -> list[Row]:
    """The lots of a trace by steps, each with where it is."""
    ids = list(traced.steps)
    known = {row[0]: row[1:] for row in database.rows(base, f"SELECT {LOT} FROM hg.lots_of(%s::bigint[])", (ids,))}
    rows: list[Row] = []
    for lot in sorted(ids, key=lambda each: (traced.steps[each], known.get(each, ("",))[0:4], each)):
        office, file, owner, name, material, measure, disposition, on_hand, shipped = known.get(lot, UNKNOWN)
        word = "" if disposition is None else "gone" if disposition < 0 else Disposition(disposition).word
        by = traced.by(lot) if traced.steps[lot] else ""
        rows.append((traced.steps[lot], office, file, owner, name, material, word, on_hand, measure, shipped, by))
    return rows


LOT = "lot_id, office, file, owner, lot, material, measure, disposition, on_hand, shipped"
UNKNOWN = ("unknown", "", "", "", "", "", None, None, None)


def shipments(base: Connection, traced: Trace) -> list[Row]:
    """The shipments of the lots of a trace: who has what."""
    sql = "SELECT office, lot, mkey, day, amount, party, document, to_office FROM hg.shipments_of(%s::bigint[])"
    return [tuple(row) for row in database.rows(base, sql, (list(traced.steps),))]


def ends(base: Connection) -> list[Row]:
    """Where a recall across offices ends without an answer."""
    return [
        tuple(row)
        for row in database.rows(base, "SELECT kind, office, owner, lot, mkey, amount, party, other FROM hg.ends()")
    ]


def age_line(base: Connection) -> str:
    """Which office's rows are oldest, and how old they are."""
    ages = database.rows(base, "SELECT office, at, seconds FROM hg.ages()")
    if not ages:
        return "no office of the group was read"
    office, at, seconds = ages[0]
    if at is None:
        return f"oldest: {office}, which never published all that it has"
    return f"oldest: {office}, as of {at:%Y-%m-%d %H:%M:%S}, {seconds:,.0f} seconds ago"


def ages(base: Connection) -> list[Row]:
    """How old each office's rows are, the oldest first."""
    rows = database.rows(base, "SELECT office, at, seconds FROM hg.ages()")
    return [
        (office, f"{at:%Y-%m-%d %H:%M:%S}" if at else "never", int(seconds) if at else None)
        for office, at, seconds in rows
    ]


def join(base: Connection, src: int, dst: int, reason: str) -> None:
    """Declares that a lot of one office is a lot of another. A lot doesn't go into itself."""
    if src == dst or src in trace(base, dst, FORWARD).steps:
        raise Failure("the second lot went into the first one already", REFUSED)
    database.run(base, "INSERT INTO hg.joins (src, dst, reason) VALUES (%s, %s, %s)", (src, dst, reason))


def summary(traced: Trace, rows: list[Row]) -> str:
    """How many lots, in how many offices, and by what they were reached."""
    offices = {row[1] for row in rows}
    by = Counter(edge.how for edge in set(traced.edges))
    counts = [f"{len(rows):,} lots in {len(offices):,} offices", *(f"{by[how]:,} by {how}" for how in sorted(by))]
    return "; ".join(counts)
