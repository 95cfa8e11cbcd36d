"""What goes from one file of an office to the next: the words of the plant and the requests of owners that make it."""
from collections import Counter
from collections.abc import Iterator
from dataclasses import dataclass
from typing import Any

from ... import HOUSE
from ...core.forms import MOST_VALUE
from ...core.journal.log import BLOTTED
from ...model.gauge import OF_OWNER
from ...model.measures import value_word
from ...model.schema import LATEST, Disposition, Role
from ...model.rows import Base

CARRIED_LOTS = "(SELECT DISTINCT owner, lot FROM sublots WHERE amount > 0)"
UNBEGUN = "NOT EXISTS (SELECT 1 FROM batches AS b WHERE b.owner = o.owner AND b.ord = o.ord)"
JUDGED = {Disposition.RELEASED: "release", Disposition.REJECTED: "reject"}
STOCK = """
SELECT owner, lot, sublot, material, amount FROM sublots JOIN lots USING (owner, lot) WHERE amount > 0 ORDER BY 1, 2, 3
"""
# The tables that have rows of owners.
OF_OWNERS = (
    *("owners", "materials", "tests", "recipes", "requirements", "orders", "batches", "lots", "sublots", "moves"),
    *("results", "voids"),
)
HELD = """
SELECT s.lot, s.sublot, s.amount, m.measure FROM sublots AS s JOIN lots AS l USING (owner, lot)
JOIN materials AS m USING (owner, material) WHERE owner = ? AND s.amount > 0 ORDER BY 1, 2
"""
WAITING = f"SELECT ord FROM orders AS o WHERE owner = ? AND cancelled = 0 AND {UNBEGUN} ORDER BY 1"
OPEN_BATCHES = "SELECT owner, ord, number, unit FROM batches WHERE closed = 0 ORDER BY 1, 2, 3"
STAYING = """
SELECT o.owner, o.ord, o.recipe, o.batches, count(b.number), o.batches - count(b.number) AS missing
FROM orders AS o JOIN batches AS b USING (owner, ord) GROUP BY o.owner, o.ord ORDER BY missing = 0, o.owner, o.ord
"""


@dataclass(frozen=True)
class Step:
    """The plant's words, or the request of an owner with its body."""

    words: tuple[str, ...] = ()
    owner: str = ""
    path: str = ""
    body: Any = ()

    def __str__(self) -> str:
        """The step without a key."""
        if self.owner:
            return f"{self.owner} POST {self.path}"
        return " ".join((*self.words[:-1], BLOTTED) if self.words[0] == "owner-add" else self.words)


def lines(base: Base, word: str, sql: str) -> Iterator[Step]:
    """The plant's word with the values of each row."""
    return (Step((word, *map(str, row))) for row in base.execute(sql))


def definitions(base: Base) -> Iterator[Iterator[Step]]:
    """Owners, units, materials, tests, and recipes with what they require."""
    yield lines(base, "owner-add", "SELECT owner, okey FROM owners ORDER BY rowid")
    yield lines(base, "unit-add", "SELECT unit FROM units ORDER BY rowid")
    yield lines(base, "material-add", "SELECT owner, material, measure FROM materials ORDER BY owner, rowid")
    tests = base.execute("SELECT owner, material, test, low, high FROM tests ORDER BY owner, rowid")
    yield (Step(("test-add", *names, value_word(low), value_word(high))) for *names, low, high in tests)
    yield lines(base, "recipe-add", "SELECT owner, recipe, segments FROM recipes ORDER BY owner, rowid")
    yield lines(
        base,
        "require",
        f"SELECT owner, recipe, segment, {Role.sql('role')}, source, material, amount "
        "FROM requirements ORDER BY owner, rowid",
    )


@dataclass(frozen=True)
class Receipts:
    """The receipts by which stock comes over: the letter and number of their keys' series, and their day."""

    series: str
    day: str

    def steps(self, base: Base) -> Iterator[Step]:
        """Each `receive`, by owner, lot and sublot. What is above the most of one movement takes several."""
        counts: Counter[str] = Counter()
        for owner, lot, sublot, material, amount in base.execute(STOCK):
            while amount > 0:
                counts[owner] += 1
                key, part = f"{self.series}-{counts[owner]}", min(amount, MOST_VALUE)
                yield Step(("receive", owner, key, material, lot, sublot, str(part), self.day))
                amount -= part

    def keys(self, base: Base) -> Iterator[tuple[str, str]]:
        """Their owners and keys."""
        return ((step.words[1], step.words[2]) for step in self.steps(base))


def results(base: Base) -> Iterator[Step]:
    """The latest result of each test of the lots that come over."""
    sql = f"""SELECT r.owner, r.lot, r.test, r.value, r.day FROM results AS r JOIN {CARRIED_LOTS} USING (owner, lot)
              WHERE {LATEST} ORDER BY r.owner, r.rowid"""
    return (Step(("result", *names, value_word(value), str(day))) for *names, value, day in base.execute(sql))


def orders(base: Base) -> Iterator[Step]:
    """Orders of which no batch was opened."""
    for owner, order, recipe, batches in base.execute(
        f"SELECT owner, ord, recipe, batches FROM orders AS o WHERE {UNBEGUN} ORDER BY owner, rowid"
    ):
        if owner == HOUSE:
            yield Step(("order", order, recipe, str(batches)))
        else:
            yield Step(owner=owner, path="/orders", body={"order": order, "recipe": recipe, "batches": batches})


def owners_step(owner: str, word: str, kind: str, name: str) -> Step:
    """What HOUSE says, and another owner requests, of its order or its lot."""
    return Step((word, name)) if owner == HOUSE else Step(owner=owner, path=f"/{kind}/{name}/{word}")


def cancellations(base: Base) -> Iterator[Step]:
    """Those orders that were cancelled, so that they are told as before."""
    return (
        owners_step(owner, "cancel", "orders", order)
        for owner, order in base.execute(
            f"SELECT owner, ord FROM orders AS o WHERE cancelled = 1 AND {UNBEGUN} ORDER BY owner, rowid"
        )
    )


def dispositions(base: Base) -> Iterator[Step]:
    """Each lot that comes over is released or rejected as it was, an owner's by the owner's request."""
    judged = base.execute(
        f"SELECT owner, lot, disposition FROM lots JOIN {CARRIED_LOTS} USING (owner, lot) "
        f"WHERE disposition <> {Disposition.QUARANTINED:d} ORDER BY owner, lot"
    )
    return (owners_step(owner, JUDGED[Disposition(code)], "lots", lot) for owner, lot, code in judged)


def stages(base: Base, receipts: Receipts) -> Iterator[Iterator[Step]]:
    """All of it in stages, each of which needs those before it."""
    yield from definitions(base)
    yield receipts.steps(base)
    yield results(base)
    yield orders(base)
    yield cancellations(base)
    yield dispositions(base)


# How many rows the new file begins with, by owner, for each table whose rows have a limit.
BEGINNING = {
    **{
        table: f"SELECT owner, count(*) FROM {table} GROUP BY owner"
        for table in ("materials", "tests", "recipes", "requirements")
    },
    "orders": f"SELECT owner, count(*) FROM orders AS o WHERE {UNBEGUN} GROUP BY owner",
    "lots": f"SELECT owner, count(*) FROM {CARRIED_LOTS} GROUP BY owner",
    "movements": f"SELECT owner, sum((amount + {MOST_VALUE - 1}) / {MOST_VALUE}) FROM sublots WHERE amount > 0 "
    "GROUP BY owner",
    "results": f"SELECT r.owner, count(*) FROM results AS r JOIN {CARRIED_LOTS} USING (owner, lot) WHERE {LATEST} "
    "GROUP BY r.owner",
}


def count(base: Base) -> int:
    """How many steps there are."""
    return sum(sum(1 for _ in steps) for steps in stages(base, Receipts("", "")))


def fullness(base: Base) -> list[tuple[str, str, int, int, int]]:
    """Of each owner and table: the rows that there are, those that the new file begins with, and the most."""
    rows = []
    for kind, (most, table) in OF_OWNER.items():
        after = dict(base.execute(BEGINNING[kind]).fetchall())
        rows += [
            (owner, kind, before, after.get(owner, 0), most)
            for owner, before in base.execute(f"SELECT owner, count(*) FROM {table} GROUP BY owner")
        ]
    return sorted(rows, key=lambda row: (-row[3] * 100 // row[4], -row[2] * 100 // row[4], row[0], row[1]))
