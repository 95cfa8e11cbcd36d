"""Offices of given sizes: the program makes the tables, and SQL fills in rows that keep its rules."""
import contextlib
import sqlite3
from collections.abc import Iterable, Iterator
from dataclasses import dataclass
from typing import Any

KEY, HOUSE, WATER = "OWNERKEY1", "HOUSE", "W-1"
MOST_LOTS, MOST_ORDERS, MOST_MOVEMENTS, MOST_OF_BATCH, BATCHES_OF_ORDER = 5_000, 2_000, 20_000, 200, 99
RECEIVED, CONSUMED, PRODUCED = 0, 4, 5
Row = tuple[str | int, ...]
Lot = tuple[str, str, str]  # its owner, name and material

# What all owners have, and what HOUSE has for them.
DEFINITIONS = """
CREATE TEMP TABLE n AS WITH n(i) AS (SELECT 1 UNION ALL SELECT i + 1 FROM n WHERE i < 2000) SELECT i FROM n;
INSERT INTO materials VALUES ('HOUSE', 'WATER', 'liter');
INSERT INTO materials SELECT owner, 'RAW', 'kg' FROM owners UNION ALL SELECT owner, 'PRODUCT', 'kg' FROM owners;
INSERT INTO recipes SELECT owner, 'R', 2 FROM owners;
INSERT INTO requirements SELECT owner, 'R', 1, 0, 'HOUSE', 'WATER', 1 FROM owners;
INSERT INTO requirements SELECT owner, 'R', 1, 0, owner, 'PRODUCT', 1 FROM owners;
INSERT INTO requirements SELECT owner, 'R', 1, 0, owner, 'RAW', 1 FROM owners;
INSERT INTO requirements SELECT owner, 'R', 2, 1, owner, 'PRODUCT', 1 FROM owners;
"""

# The orders and batches that the movements name, and what the movements made of lots and sublots.
DERIVED = """
INSERT INTO orders SELECT owner, ord, 'R', max(number), 0 FROM moves WHERE kind > 3 GROUP BY owner, ord;
INSERT INTO batches SELECT DISTINCT owner, ord, number, 'U-001', 11, 1 FROM moves WHERE kind > 3;
INSERT INTO lots SELECT owner, lot, material, ord, number, 1 FROM moves WHERE kind IN (0, 5) GROUP BY owner, lot;
INSERT INTO sublots SELECT lot_owner, lot, sublot, sum(CASE WHEN kind IN (0, 5) THEN amount ELSE -amount END)
  FROM moves GROUP BY lot_owner, lot, sublot;
"""

# What brings each owner to the limits: 200 materials and recipes, 2,000 tests, requirements and orders, 20,000 results.
# Lots of tested materials are released if they have results, and the others are quarantined.
FULL = """
INSERT INTO materials SELECT owner, printf('T-%03d', i), 'kg' FROM owners, n WHERE i <= 198;
INSERT INTO tests SELECT owner, printf('T-%03d', 1 + (i - 1) / 20), printf('Q-%02d', 1 + i % 20), -9, 9 FROM owners, n;
INSERT INTO recipes SELECT owner, printf('R-%03d', i), 10 FROM owners, n WHERE i <= 199;
INSERT INTO requirements SELECT owner, printf('R-%03d', 1 + (i - 1) / 11), 1, 0, owner, printf('T-%03d', 1 + i % 11), 1
  FROM owners, n WHERE i <= 1996;
INSERT INTO orders SELECT owner, printf('X-%05d', i), 'R', 1, 0 FROM owners, n
  WHERE i <= 2000 - (SELECT count(*) FROM orders WHERE orders.owner = owners.owner);
UPDATE lots SET disposition = 0 WHERE material LIKE 'T-%' AND lot > 'T-01000';
INSERT INTO results SELECT owner, lot, test, 1, 0, 101 FROM lots JOIN tests USING (owner, material)
  WHERE disposition = 1;
"""

# Batches of the first owner that are running, each on a unit of its own.
RUNNING = """
INSERT INTO units SELECT printf('U-%03d', i) FROM n WHERE i BETWEEN 2 AND 198;
INSERT INTO orders VALUES ('OWNER-01', 'O-00001', 'R', 99, 0), ('OWNER-01', 'O-00002', 'R', 99, 0);
INSERT INTO batches SELECT 'OWNER-01', printf('O-%05d', 1 + (i - 1) / 99), 1 + (i - 1) % 99, printf('U-%03d', i), 1, 0
  FROM n WHERE i <= 198;
"""
ORDERS = "INSERT INTO orders SELECT owner, printf('X-%05d', i), 'R', 1, 0 FROM owners, n WHERE i <= ?"
CHANGE = "INSERT INTO units VALUES ('U-OTHER')"
MOVE = "INSERT INTO moves VALUES (?, ?, ?, ?, ?, ?, ?, ?, ?, ?, ?, ?, ?)"


def owner_name(place: int) -> str:
    return f"OWNER-{place + 1:02}"


def product(batch: int, place: int) -> str:
    return f"P-{batch:05}-{place:02}"


def batch_name(batch: int) -> tuple[str, int]:
    """The order and the number of a batch that is counted through all orders."""
    return f"O-{(batch - 1) // BATCHES_OF_ORDER + 1:05}", (batch - 1) % BATCHES_OF_ORDER + 1


def receipt(owner: str, key: str, lot: str, material: str) -> Row:
    return owner, key, RECEIVED, owner, lot, "S1", "", material, "", 0, 0, 1_000_000_000, 101


def actual(owner: str, batch: int, place: int, lot: Lot, kind: int) -> Row:
    """The row of what a batch of the owner consumed or produced of a lot."""
    segment, amount = (2, 1_000_000) if kind == PRODUCED else (1, 1)
    key = f"C{batch:05}-{place:03}"
    return owner, key, kind, *lot[:2], "S1", "", lot[2], *batch_name(batch), segment, amount, 101


@dataclass(frozen=True)
class Genealogy:
    """Receipts of raw lots, and batches of so many actuals. A batch consumes, in the first half of its actuals, of raw
    lots and of one that the batch of half its number made; the first of all consumes HOUSE's water. It produces lots of
    its own in the other half."""

    movements: int
    actuals: int = 160
    raw: int = 100
    tested: int = 0

    def moves(self, owner: str) -> Iterator[Row]:
        """The rows of the owner's movements, in the order of their keys."""
        yield from (receipt(owner, f"A{n:05}", f"R-{n + 1:05}", "RAW") for n in range(self.raw))
        yield from (receipt(owner, f"B{n:05}", f"T-{n + 1:05}", f"T-{n % 100 + 1:03}") for n in range(self.tested))
        products = max(1, self.actuals // 80)
        batches = (self.movements - self.raw - self.tested) // self.actuals
        makers = min(batches, (MOST_LOTS - self.raw - self.tested) // products)  # the others produce nothing
        for batch in range(1, batches + 1):
            before = min(batch // 2, makers)
            consumed: list[Lot] = [(owner, product(before, 0), "PRODUCT") if before else (HOUSE, WATER, "WATER")]
            raw = min(self.actuals // 2, 40) - 1
            consumed += [(owner, f"R-{(batch * raw + n) % self.raw + 1:05}", "RAW") for n in range(raw)]
            for place in range(self.actuals):
                if place < self.actuals // 2 or batch > makers:
                    yield actual(owner, batch, place, consumed[place % len(consumed)], CONSUMED)
                else:
                    yield actual(owner, batch, place, (owner, product(batch, place % products), "PRODUCT"), PRODUCED)


@dataclass(frozen=True)
class Dense:
    """As many edges as movements can have: a chain of batches, each of which consumes all lots that the one before
    made, and produces as many; the first one consumes HOUSE's water so often. It has one of so many parts of the most
    batches."""

    across: int
    parts: int = 1

    @property
    def batches(self) -> int:
        return {10: 480, 100: 49}.get(self.across, MOST_LOTS // self.across) // self.parts

    def moves(self, owner: str) -> Iterator[Row]:
        """The rows of the owner's movements, in the order of their keys."""
        for batch in range(1, self.batches + 1):
            for place in range(2 * self.across):
                is_made, at = divmod(place, self.across)
                maker = batch - 1 + is_made
                lot = (owner, product(maker, at), "PRODUCT") if maker else (HOUSE, WATER, "WATER")
                yield actual(owner, batch, place, lot, PRODUCED if is_made else CONSUMED)


# An owner that has all that it may have, as near as whole batches come to it.
AT_THE_LIMITS = Genealogy(MOST_MOVEMENTS, tested=4_712)


def records(count: int, first: int = 0) -> Iterator[str]:
    """The lines of a file of so many actuals, for an office of running batches."""
    yield "key,owner,order,batch,segment,use,material,lot_owner,lot,sublot,amount,day\n"
    for n in range(first, first + count):
        batch, place = n // MOST_OF_BATCH + 1, n % MOST_OF_BATCH
        owner, (order, number) = owner_name(0), batch_name(batch)
        lot = f"2,produced,PRODUCT,{owner},{product(batch, place // 100)}"
        lot = lot if place % 2 else f"1,consumed,RAW,{owner},R-{n % 100 + 1:05}"
        yield f"C{n:05},{owner},{order},{number},{lot},S1,1,101\n"


def script(count: int) -> Iterator[str]:
    """The lines of a script that receives so many lots and releases them."""
    yield f"material-add {HOUSE} WATER liter\n"
    yield from (f"receive {HOUSE} A{n:05} WATER W-{n + 1:05} S1 1000 101\n" for n in range(count))
    yield from (f"release W-{n + 1:05}\n" for n in range(count))


@contextlib.contextmanager
def filling(office: Any, genealogies: Iterable[Genealogy | Dense]) -> Iterator[sqlite3.Connection]:
    """The tables of an office with an owner for each of these genealogies. The office has the path of its file, db, and
    plant, which gives the program the plant's words."""
    if (result := office.plant("unit-add", "U-001")).out != "accepted\n":
        raise OSError(f"no office can be made: {result}")
    owners = [(owner_name(place), genealogy) for place, genealogy in enumerate(genealogies)]
    with contextlib.closing(sqlite3.connect(office.db)) as base, base:
        base.execute("PRAGMA synchronous = OFF")
        base.executemany("INSERT INTO owners VALUES (?, ?)", [(owner, KEY) for owner, _ in owners])
        base.executescript(DEFINITIONS)
        base.execute("BEGIN")
        base.execute(MOVE, receipt(HOUSE, "A00000", WATER, "WATER"))
        for owner, genealogy in owners:
            base.executemany(MOVE, genealogy.moves(owner))
        base.executescript(DERIVED)
        yield base


def with_genealogies(office: Any, *genealogies: Genealogy | Dense, orders: int = 0) -> None:
    with filling(office, genealogies) as base:
        base.execute(ORDERS, (orders,))


def at_the_limits(office: Any, owners: int) -> None:
    """So many owners, each with all that it may have."""
    with filling(office, [AT_THE_LIMITS] * owners) as base:
        base.executescript(FULL)


def with_raw_lots(office: Any, count: int) -> None:
    """An owner of so many raw lots, whose batches are running."""
    with filling(office, [Genealogy(count, raw=count)]) as base:
        base.executescript(RUNNING)


def with_orders(office: Any, count: int) -> None:
    """So many orders, each owner with room for more, and 2,000 raw lots and running batches of the first one."""
    owners = -(-count // (MOST_ORDERS - 200))
    with filling(office, [Genealogy(2_000, raw=2_000), *[Genealogy(0, raw=0)] * (owners - 1)]) as base:
        base.executescript(RUNNING)
        base.execute(ORDERS, (-(-count // owners),))
