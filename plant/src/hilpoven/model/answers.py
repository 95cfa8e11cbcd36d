"""What `toll` prints, as rows, and rows as `toll` prints them, such as the lines of a recall."""
from collections.abc import Iterable, Mapping, Sequence
from dataclasses import astuple, dataclass
from typing import Any, NamedTuple, TypeVar, get_type_hints

from .rows import Base, LotId, want
from .schema import ON_HAND, STANDING, Disposition, Kind

LINES = f"""
SELECT l.owner, l.lot, {Disposition.sql('l.disposition')}, {ON_HAND}, coalesce(s.shipped, 0) FROM lots AS l
LEFT JOIN (SELECT m.lot_owner AS owner, m.lot, sum(m.amount) AS shipped FROM moves AS m
  WHERE m.owner IN (SELECT w.owner FROM temp.wanted AS w) AND m.owner = m.lot_owner AND m.kind = {Kind.SHIP:d}
  AND (m.lot_owner, m.lot) IN temp.wanted AND {STANDING} GROUP BY 1, 2) AS s
  USING (owner, lot)
WHERE (l.owner, l.lot) IN temp.wanted
"""


@dataclass(frozen=True)
class TraceLine:
    """A lot of a trace, as `toll trace` prints it."""

    steps: int
    owner: str
    lot: str


@dataclass(frozen=True)
class RecallLine(TraceLine):
    """A lot of a recall, as `toll recall` prints it."""

    disposition: str
    on_hand: int
    shipped: int


def recall_lines(base: Base, steps: Mapping[LotId, int]) -> list[RecallLine]:
    """The lines of a recall for these lots with their steps, in the same order."""
    want(base, steps)
    lines = {LotId(owner, lot): rest for owner, lot, *rest in base.execute(LINES)}
    return [RecallLine(number, *lot, *lines[lot]) for lot, number in steps.items()]


Row = TypeVar("Row")
TRACE_FORM = "{:>6} {:<16} {:<16}"
RECALL_FORM = TRACE_FORM + " {:<11} {:>14} {:>14}"
RECALL_HEAD = RECALL_FORM.format("steps", "owner", "lot", "disposition", "on-hand", "shipped")


class StockLine(NamedTuple):
    """A sublot, as `toll stock` prints it."""

    lot: str
    sublot: str
    material: str
    disposition: str
    amount: int
    measure: str


@dataclass(frozen=True)
class OrderLine:
    """An order, as `toll orders` prints it."""

    order: str
    recipe: str
    batches: int
    status: str


@dataclass(frozen=True)
class RequirementLine:
    """A requirement with what was recorded, as `toll batch` prints it below the batch."""

    segment: int
    use: str
    source: str
    material: str
    required: int
    actual: int


def rows_of(kind: type[Row], text: str) -> list[Row]:
    """The lines of a text as rows of a kind, whose fields are words or whole numbers."""
    types: list[Any] = list(get_type_hints(kind).values())
    return [kind(*(read(word) for read, word in zip(types, line.split(), strict=True))) for line in text.splitlines()]


def recall_of(text: str) -> Sequence[RecallLine]:
    """The lines of a recall, without its head."""
    return rows_of(RecallLine, text.partition("\n")[2])


def trace_of(text: str) -> Sequence[TraceLine]:
    """The lines of a trace."""
    return rows_of(TraceLine, text)


def recall_text(lines: Iterable[RecallLine]) -> list[str]:
    """The lines of a recall as `toll` prints them, below their head."""
    return [RECALL_HEAD, *(RECALL_FORM.format(*astuple(line)) for line in lines)]


def trace_text(steps: Mapping[LotId, int]) -> list[str]:
    """The lines of a trace as `toll` prints them."""
    return [TRACE_FORM.format(number, *lot).rstrip() for lot, number in steps.items()]


def batch_of(text: str) -> tuple[tuple[str, str, str], list[RequirementLine]]:
    """A batch's unit, its state and whether it is closed, and its requirements."""
    head, _, rest = text.partition("\n")
    _, state, unit, closed = head.split()
    return (unit, state, closed), rows_of(RequirementLine, rest)
