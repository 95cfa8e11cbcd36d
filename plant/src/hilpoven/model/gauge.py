"""How full an office is: how many rows each owner has against the limits that `toll` keeps to."""
import sqlite3
from dataclasses import dataclass

from .schema import IS_ACTUAL

FULL = 80  # percent, from which on it is told first

# What an owner may have: what it is called, the most, and the table whose rows are counted.
OF_OWNER = {
    "materials": (200, "materials"),
    "tests": (2_000, "tests"),
    "recipes": (200, "recipes"),
    "requirements": (2_000, "requirements"),
    "orders": (2_000, "orders"),
    "lots": (5_000, "lots"),
    "movements": (20_000, "moves"),
    "results": (20_000, "results"),
}
OWNERS, UNITS, ACTUALS = 64, 200, 200
ACTUALS_OF_OPEN = f"""
SELECT b.owner, b.ord || '/' || b.number, count(m.mkey) FROM batches AS b
JOIN moves AS m ON m.owner = b.owner AND m.ord = b.ord AND m.number = b.number AND {IS_ACTUAL}
WHERE b.closed = 0 GROUP BY b.owner, b.ord, b.number
"""


@dataclass(frozen=True)
class Gauge:
    """How many there are of something that has a limit; of the whole plant where there is no owner."""

    owner: str
    kind: str
    count: int
    most: int

    @property
    def percent(self) -> int:
        """How full it is."""
        return self.count * 100 // self.most


def gauges(base: sqlite3.Connection) -> list[Gauge]:
    """All gauges, the fullest first."""
    rows = [
        Gauge("", table, base.execute(f"SELECT count(*) FROM {table}").fetchone()[0], most)
        for table, most in (("owners", OWNERS), ("units", UNITS))
    ]
    for kind, (most, table) in OF_OWNER.items():
        counts = base.execute(f"SELECT owner, count(*) FROM {table} GROUP BY owner")
        rows += [Gauge(owner, kind, count, most) for owner, count in counts]
    actuals = base.execute(ACTUALS_OF_OPEN)
    rows += [Gauge(owner, f"actuals of {batch}", count, ACTUALS) for owner, batch, count in actuals]
    return sorted(rows, key=lambda gauge: (-gauge.percent, gauge.owner, gauge.kind))
