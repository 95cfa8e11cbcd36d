"""What a user would write instead: Python's sqlite3 over the same file, with the office's checks.

    beside.py FILE open | stock OWNER | trace OWNER LOT forward | recall OWNER LOT | import CSV
"""
import csv
import json
import sqlite3
import sys
from typing import Any

# The edges between lots, and the lots that a chain of them joins to one. It ends if no lot is in a chain to itself.
EDGES = """
WITH RECURSIVE standing AS (
  SELECT * FROM moves AS m WHERE kind > 3 AND (:batch_owner IS NULL OR owner = :batch_owner)
    AND NOT EXISTS (SELECT 1 FROM voids AS v WHERE v.owner = m.owner AND v.mkey = m.mkey)
), used AS (
  SELECT owner, ord, number, lot_owner, lot, min(segment) AS segment FROM standing WHERE kind = 4 GROUP BY 1, 2, 3, 4, 5
), made AS (
  SELECT owner, ord, number, lot, max(segment) AS segment FROM standing WHERE kind = 5 GROUP BY 1, 2, 3, 4
), edges AS MATERIALIZED (
  SELECT DISTINCT used.lot_owner AS from_owner, used.lot AS from_lot, made.owner AS to_owner, made.lot AS to_lot
  FROM used JOIN made USING (owner, ord, number) WHERE used.segment <= made.segment
), chain(owner, lot, steps) AS (
  VALUES (:owner, :lot, 0)
  UNION SELECT to_owner, to_lot, steps + 1 FROM chain JOIN edges ON from_owner = chain.owner AND from_lot = chain.lot
), reached AS (SELECT min(steps) AS steps, owner, lot FROM chain GROUP BY owner, lot)
"""
TRACE = EDGES + "SELECT steps, owner, lot FROM reached ORDER BY 1, 2, 3"
RECALL = (
    EDGES
    + """, shipped AS (SELECT owner, lot, sum(amount) AS amount FROM moves WHERE kind = 2 GROUP BY 1, 2)
SELECT steps, owner, lot, disposition, (SELECT sum(amount) FROM sublots AS s WHERE s.owner = r.owner AND s.lot = r.lot),
  coalesce(shipped.amount, 0)
FROM reached AS r JOIN lots USING (owner, lot) LEFT JOIN shipped USING (owner, lot) ORDER BY 1, 2, 3
"""
)
STOCK = """
SELECT lot, sublot, material, disposition, amount, measure
FROM sublots JOIN lots USING (owner, lot) JOIN materials USING (owner, material) WHERE owner = ? ORDER BY lot, sublot
"""
BATCH = """
SELECT state, closed, recipe FROM batches JOIN orders USING (owner, ord) WHERE owner = ? AND ord = ? AND number = ?
"""
IN_RECIPE = """
SELECT 1 FROM requirements WHERE owner = ? AND recipe = ? AND segment = ? AND role = ? AND source = ? AND material = ?
"""
MOVE = "SELECT 1 FROM moves WHERE owner = ? AND mkey = ?"
LOT = "SELECT disposition, material, owner, ord, number FROM lots WHERE owner = ? AND lot = ?"
HELD = "SELECT amount FROM sublots WHERE owner = ? AND lot = ? AND sublot = ?"
PUT_MOVE = "INSERT INTO moves VALUES (?, ?, ?, ?, ?, ?, ?, ?, ?, ?, ?, ?, ?)"
PUT_LOT = "INSERT OR IGNORE INTO lots VALUES (?, ?, ?, ?, ?, 0)"
PUT_AMOUNT = "INSERT INTO sublots VALUES (?, ?, ?, ?) ON CONFLICT DO UPDATE SET amount = amount + excluded.amount"
# The office's files have no index for how many movements a batch has; who counts them by SQL makes one.
BY_BATCH = "CREATE INDEX IF NOT EXISTS moves_by_batch ON moves (owner, ord, number)"
COUNT_OF_BATCH = "SELECT count(*) FROM moves WHERE owner = ? AND ord = ? AND number = ?"
DISPOSITIONS = ("quarantined", "released", "rejected")


class Refused(Exception):
    """Why a command is refused."""


class Base:
    """The tables of a file."""

    def __init__(self, path: str) -> None:
        self.base = sqlite3.connect(path, isolation_level=None)

    def one(self, query: str, *values: object) -> Any:
        return self.base.execute(query, values).fetchone()

    def chain(self, query: str, owner: str, lot: str, batch_owner: str | None = None) -> list[Any]:
        """The lots that a chain joins to this one, over all batches or one owner's."""
        return self.base.execute(query, {"owner": owner, "lot": lot, "batch_owner": batch_owner}).fetchall()

    def open(self) -> None:
        self.one("SELECT count(*) FROM owners")

    def stock(self, owner: str) -> None:
        for lot, sublot, material, disposition, amount, measure in self.base.execute(STOCK, (owner,)):
            print(f"{lot:16} {sublot:16} {material:16} {DISPOSITIONS[disposition]:11} {amount:14} {measure}")

    def trace(self, owner: str, lot: str, _: str) -> None:
        for steps, lot_owner, name in self.chain(TRACE, owner, lot):
            print(f"{steps:6} {lot_owner:16} {name}")

    def recall(self, owner: str, lot: str) -> None:
        print(f"{'steps':>6} {'owner':16} {'lot':16} {'disposition':11} {'on-hand':>14} {'shipped':>14}")
        for steps, lot_owner, name, disposition, on_hand, shipped in self.chain(RECALL, owner, lot):
            print(f"{steps:6} {lot_owner:16} {name:16} {DISPOSITIONS[disposition]:11} {on_hand:14} {shipped:14}")

    def place(self, owner: str, key: str, body: str) -> str:
        """Places an order as an owner does over HTTP, and gives the reply's body."""
        order, recipe, batches = (json.loads(body)[name] for name in ("order", "recipe", "batches"))
        self.base.execute("BEGIN IMMEDIATE")
        is_known = self.one("SELECT okey FROM owners WHERE owner = ?", owner) == (key,)
        if not is_known or self.one("SELECT 1 FROM orders WHERE owner = ? AND ord = ?", owner, order):
            raise Refused("WrongKey or OrderConflict")
        has_recipe = self.one("SELECT 1 FROM recipes WHERE owner = ? AND recipe = ?", owner, recipe)
        if not has_recipe or self.one("SELECT count(*) FROM orders WHERE owner = ?", owner)[0] >= 2_000:
            raise Refused("UnknownRecipe or LimitReached")
        self.base.execute("INSERT INTO orders VALUES (?, ?, ?, ?, 0)", (owner, order, recipe, batches))
        self.base.execute("COMMIT")
        return json.dumps({"batches": batches, "order": order, "recipe": recipe, "status": "open"})

    def import_(self, path: str) -> None:
        """Records the actuals of a file, a transaction for each."""
        self.base.execute(BY_BATCH)
        with open(path, newline="") as file:
            for number, line in enumerate(csv.DictReader(file), 1):
                self.base.execute("BEGIN IMMEDIATE")
                self.record(line)
                self.base.execute("COMMIT")
                print(f"{number:6} accepted")
        print(f"accepted {number} repeated 0 refused 0 bad 0 fault 0")

    def record(self, line: dict[str, str]) -> None:
        names = ("owner", "key", "lot_owner", "lot", "sublot", "material")
        owner, key, lot_owner, lot, sublot, material = (line[name] for name in names)
        batch, segment, amount = (owner, line["order"], int(line["batch"])), int(line["segment"]), int(line["amount"])
        is_made, known_lot = line["use"] == "produced", self.one(LOT, lot_owner, lot)
        running, held = self.one(BATCH, *batch), self.one(HELD, lot_owner, lot, sublot)
        if self.one(MOVE, owner, key) or not running or running[0] == 0 or running[1]:
            raise Refused("KeyConflict, UnknownBatch, BatchIdle or BatchClosed")
        if not self.one(IN_RECIPE, owner, running[2], segment, is_made, lot_owner, material):
            raise Refused("NotInRecipe")
        wanted = (0, material, *batch) if is_made else (1, material, *(known_lot or ())[2:])
        if (known_lot or not is_made) and known_lot != wanted:
            raise Refused("UnknownLot, WrongMaterial, WrongOrigin, NotReleased or NotQuarantined")
        if not is_made and (not held or held[0] < amount) or self.one(COUNT_OF_BATCH, *batch)[0] >= 200:
            raise Refused("UnknownSublot, NotEnough or LimitReached")
        values = lot_owner, lot, sublot, "", material, *batch[1:], segment, amount, int(line["day"])
        self.base.execute(PUT_MOVE, (owner, key, 4 + is_made, *values))
        if is_made:
            self.base.execute(PUT_LOT, (owner, lot, material, *batch[1:]))
        self.base.execute(PUT_AMOUNT, (lot_owner, lot, sublot, amount if is_made else -amount))


if __name__ == "__main__":
    getattr(Base(sys.argv[1]), {"import": "import_"}.get(sys.argv[2], sys.argv[2]))(*sys.argv[3:])
