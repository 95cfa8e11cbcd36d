"""Movements that were typed wrongly, as they were meant.

What `toll` has of one stays, and other movements set the stock right, each with a note of what it corrects. Here the
movement counts with both together: with the amount and of the lot that were meant, on its own day. Where a new lot took
what was there all along, that is a shift between the two lots, so that each lot comes to what is on hand of it.
"""
from collections.abc import Collection

from .kinds import Why
from .notes import Corrected, meant_in_words, mistake_text
from .register.file import Notes
from .rows import Base, LotId
from .schema import INCOMING, MOVE_COLUMNS, STANDING, Kind

COLUMNS = f"owner, mkey, {MOVE_COLUMNS}"
STANDS = STANDING.replace("m.", "{0}.")
INCREASES = ", ".join(f"{kind:d}" for kind in INCOMING)
IS_ANY = "SELECT 1 FROM register.corrected_note LIMIT 1"
# What set the stock right of a movement that was typed wrongly: by how much of which lot, and of which one that counts.
FIX = f"""
CREATE TEMP TABLE fix AS
SELECT f.owner, f.mkey, f.rowid AS place, k.owner AS of_owner, k.mkey AS of_key, k.day, f.lot_owner, f.lot, f.sublot,
  iif(f.kind = {Kind.RECEIVE:d}, f.amount, -f.amount) AS effect, iif(k.kind IN ({INCREASES}), 1, -1) AS sign,
  CASE WHEN f.lot = k.lot OR EXISTS (SELECT 1 FROM register.corrected_note AS n WHERE n.owner = k.owner
    AND n.mkey = k.mkey AND n.lot = f.lot) THEN f.lot
  ELSE coalesce((SELECT x.of_lot FROM register.link_note AS x WHERE x.owner = f.lot_owner AND x.lot = f.lot
    AND x.why = '{Why.CORRECTION}' ORDER BY x.note, x.rowid LIMIT 1), f.lot) END AS root
FROM register.corrects_note AS c JOIN moves AS f ON f.owner = c.owner AND f.mkey = c.mkey
JOIN moves AS k ON k.owner = c.of_owner AND k.mkey = c.of_key AND k.lot_owner = f.lot_owner
WHERE f.kind IN ({Kind.RECEIVE:d}, {Kind.SCRAP:d}) AND k.kind <> {Kind.SPLIT:d}
AND {STANDS.format('f')} AND {STANDS.format('k')}
AND EXISTS (SELECT 1 FROM register.corrected_note AS n WHERE n.owner = k.owner AND n.mkey = k.mkey)
AND NOT EXISTS (SELECT 1 FROM register.corrects_note AS x WHERE x.owner = c.owner AND x.mkey = c.mkey
  AND x.note > c.note)
"""
# Those movements as they were meant: of the lot that was typed, of which nothing may be left, and of others.
MEANT = """
CREATE TEMP TABLE meant_part AS
SELECT k.owner, k.mkey, k.rowid AS place, k.lot, k.sublot,
  k.amount + coalesce((SELECT sum(x.effect * x.sign) FROM temp.fix AS x
    WHERE x.of_owner = k.owner AND x.of_key = k.mkey AND x.root = k.lot), 0) AS amount
FROM moves AS k WHERE (k.owner, k.mkey) IN (SELECT of_owner, of_key FROM temp.fix)
UNION ALL
SELECT x.of_owner, x.of_key, min(x.place), x.root, min(x.sublot), sum(x.effect * x.sign)
FROM temp.fix AS x JOIN moves AS k ON k.owner = x.of_owner AND k.mkey = x.of_key
WHERE x.root <> k.lot GROUP BY x.of_owner, x.of_key, x.root
"""
SHIFT = """
CREATE TEMP TABLE shift AS SELECT lot_owner AS owner, lot, day, effect AS amount FROM temp.fix WHERE lot <> root
UNION ALL SELECT lot_owner, root, day, -effect FROM temp.fix WHERE lot <> root
"""
AS_RECORDED = "CREATE TEMP VIEW meant AS SELECT rowid AS rowid, * FROM moves"
AS_MEANT = f"""
CREATE TEMP VIEW meant AS
SELECT m.rowid AS rowid, {COLUMNS} FROM moves AS m
WHERE (m.owner, m.mkey) NOT IN (SELECT owner, mkey FROM temp.fix)
AND (m.owner, m.mkey) NOT IN (SELECT owner, mkey FROM temp.meant_part)
UNION ALL
SELECT p.place, m.owner, m.mkey, m.kind, m.lot_owner, p.lot, p.sublot, m.target, m.material, m.ord, m.number, m.segment,
  p.amount, m.day
FROM temp.meant_part AS p JOIN moves AS m USING (owner, mkey)
"""
KEPT = (
    "CREATE TEMP TABLE fix (owner, mkey, place, of_owner, of_key, day, lot_owner, lot, sublot, effect, sign, root)",
    "CREATE TEMP TABLE shift (owner, lot, day, amount)",
)
# Each correction with the movement that was typed wrongly.
CORRECTED = """
SELECT c.note, c.owner, c.mkey, m.kind, m.day AS of_day, c.lot_owner, c.lot_before, c.amount_before, c.party_before,
  c.lot, c.amount_meant, c.party, c.day, c.corrector, c.signer, c.reason, k.measure
FROM register.corrected_note AS c JOIN moves AS m ON m.owner = c.owner AND m.mkey = c.mkey
LEFT JOIN lots AS l ON l.owner = m.lot_owner AND l.lot = m.lot
LEFT JOIN materials AS k ON k.owner = l.owner AND k.material = l.material"""


def make(base: Base) -> None:
    """Makes the temporary tables and the view `meant` over tables beside which a register is."""
    if not base.execute(IS_ANY).fetchone():
        for sql in (*KEPT, AS_RECORDED):
            base.execute(sql)
        return
    for sql in (FIX, MEANT, SHIFT, AS_MEANT):
        base.execute(sql)


# How much of a lot's pile in a sublot is in lots that took what corrections found there.
BESIDE = """
SELECT s.lot, s.sublot, s.amount FROM sublots AS s WHERE s.owner = :owner AND s.amount > 0
AND s.lot IN (SELECT lot FROM temp.fix WHERE lot_owner = :owner AND root = :lot AND lot <> root) ORDER BY 1, 2
"""
ROOT = "SELECT root FROM temp.fix WHERE lot_owner = :owner AND lot = :lot AND lot <> root LIMIT 1"
SHIFTED = "SELECT coalesce(sum(amount), 0) FROM temp.shift WHERE owner = ? AND lot = ?"


TOLD = """
SELECT c.owner, c.mkey, c.kind, c.lot_owner, c.lot_before, c.amount_before, c.party_before, c.lot, c.amount_meant,
  c.party, c.day, c.corrector, c.signer FROM temp.corrected AS c ORDER BY c.note
"""
HEADING = "corrected by the plant: these movements were recorded by mistake"


def may_be_any(notes: Notes) -> bool:
    """Whether there is a note of a correction, which may not stand."""
    return bool(notes.rows(f"SELECT 1 FROM note WHERE kind = '{Corrected.KIND}' LIMIT 1"))


def lines_below(base: Base, lots: Collection[LotId]) -> list[str]:
    """The lines below a recall of these lots, under a heading, of tables that have the views; none if no movement of
    theirs was corrected."""
    lines = []
    for owner, key, kind, of, before, amount, to, lot, meant, party, *by in base.execute(TOLD).fetchall():
        if LotId(of, before) in lots or LotId(of, lot) in lots:
            recorded, corrected = meant_in_words(amount, before, to), meant_in_words(meant, lot, party)
            lines.append(f"{owner} {key} {Kind(kind).word} {recorded}, meant {corrected}: {mistake_text(*by)}")
    return [HEADING, *lines] if lines else []
