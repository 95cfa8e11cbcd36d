"""What an office's things are, said once: views over a copy of its file, or over the tables of all its files, and its
register. Numbers stay numbers: how a day or 7.02 of 702 is written is the affair of a column.

    views.over(base, register)
    base.execute("SELECT * FROM lot")

Of several notes of a thing the last one that says something counts, member by member.
"""

from . import corrected
from .register.file import Opened, memory
from .register.standing import Register
from .schema import LATEST, ON_HAND, STANDING, Kind
from .rows import Base

LIMIT = 1  # the lower and the upper one of the plant's own test: its result 1 is a signature, and 0 a hold


def last_of(member: str, table: str, where: str, empty: str = "''") -> str:
    """SQL: what the last note of a thing says that says this member."""
    return (
        f"coalesce((SELECT x.{member} FROM register.{table} AS x WHERE {where} AND x.{member} <> {empty} "
        f"ORDER BY x.note DESC LIMIT 1), {empty}) AS {member}"
    )


def day(member: str) -> str:
    """SQL: a day of a lot that is noted; NULL if none is."""
    where = f"x.owner = l.owner AND x.lot = l.lot AND x.{member} <> 0"
    return f"(SELECT x.{member} FROM register.lot_note AS x WHERE {where} ORDER BY x.note DESC LIMIT 1) AS {member}"


def reached(member: str) -> str:
    """SQL: how a party is reached, which a note may also say to be empty from then on."""
    empties = f"instr(' ' || x.emptied || ' ', ' {member} ') > 0"
    return (
        f"coalesce((SELECT iif({empties}, '', x.{member}) FROM register.party_note AS x WHERE x.owner = p.owner "
        f"AND x.party = p.party AND (x.{member} <> '' OR {empties}) ORDER BY x.note DESC LIMIT 1), '') AS {member}"
    )


OF_OWNER = "x.owner = o.owner"
OF_MATERIAL = "x.owner = m.owner AND x.material = m.material"
OF_TEST = "x.owner = t.owner AND x.material = t.material AND x.test = t.test"
OF_MOVEMENT = "x.owner = m.owner AND x.mkey = m.mkey"
OF_PARTY = "x.owner = p.owner AND x.party = p.party"
OF_LOT = "x.owner = l.owner AND x.lot = l.lot"
SIGN = """
(SELECT CASE x.bound WHEN 'below' THEN '<' ELSE '>' END FROM register.result_note AS x WHERE x.owner = r.owner
  AND x.lot = r.lot AND x.test = r.test AND x.value = r.value AND x.day = r.day ORDER BY x.note DESC LIMIT 1)
"""
# Movements with the material and the measure of their lot, their party, the supplier's lot and their document.
MOVEMENT = f"""
SELECT m.rowid AS rowid, m.*, l.material AS of_material, k.measure, NOT {STANDING} AS is_void,
  {last_of('party', 'movement_note', OF_MOVEMENT)},
  {last_of('supplier_lot', 'movement_note', OF_MOVEMENT)}, {last_of('document', 'movement_note', OF_MOVEMENT)}
FROM {{}} AS m LEFT JOIN lots AS l ON l.owner = m.lot_owner AND l.lot = m.lot
LEFT JOIN materials AS k ON k.owner = l.owner AND k.material = l.material"""
VIEWS = {
    # The plant and the owners, with their full names.
    "owner": f"""
SELECT o.owner, {last_of('name', 'owner_note', OF_OWNER)}, {last_of('address', 'owner_note', OF_OWNER)}
FROM (SELECT owner FROM owners UNION SELECT 'HOUSE') AS o""",
    # Materials with their full names.
    "material": f"SELECT m.*, {last_of('name', 'material_note', OF_MATERIAL)} FROM materials AS m",
    # Tests of materials with their decimals, and whether one is the plant's own, by which it signs and holds lots.
    "test": f"""
SELECT t.*, {last_of('decimals', 'test_note', OF_TEST, '0')}, {last_of('name', 'test_note', OF_TEST)},
  {last_of('unit', 'test_note', OF_TEST)}, {last_of('method', 'test_note', OF_TEST)},
  t.test = (SELECT plants_test FROM temp.setting) AND t.low = {LIMIT} AND t.high = {LIMIT} AS is_plants
FROM tests AS t""",
    # Results with the decimals of their test, the sign of a bound, and whether each passes; NULL without such a test.
    "result": f"""
SELECT r.rowid AS rowid, r.*, t.low, t.high, t.decimals, coalesce(t.unit, '') AS unit, t.is_plants, {SIGN} AS sign,
  r.value BETWEEN t.low AND t.high AS passes
FROM results AS r LEFT JOIN lots AS l USING (owner, lot)
LEFT JOIN temp.test AS t ON t.owner = l.owner AND t.material = l.material AND t.test = r.test""",
    # What each lot is tested for, with the latest result, and whether it is within the limits; NULL without a result.
    "lot_test": f"""
SELECT l.owner, l.lot, l.material, l.disposition, t.test, t.low, t.high, t.decimals, t.name, t.unit, t.method,
  t.is_plants, r.value, r.day,
  coalesce(r.number, 0) AS results, {SIGN} AS sign, r.value BETWEEN t.low AND t.high AS passes
FROM lots AS l JOIN temp.test AS t ON t.owner = l.owner AND t.material = l.material
LEFT JOIN results AS r ON r.owner = l.owner AND r.lot = l.lot AND r.test = t.test AND {LATEST}""",
    # What the plant's quality says of lots. Where the material has the plant's own test that is its latest result, with
    # the reason of the last hold, and elsewhere a note alone. NULL where it says nothing.
    "quality": f"""
SELECT l.owner, l.lot, p.test IS NULL AS is_alone,
  CASE WHEN p.test IS NULL THEN iif(j.is_alone, iif(j.is_held, 'held', 'signed'), NULL)
  WHEN r.value IS NULL THEN 'unsigned' WHEN r.value = {LIMIT} THEN 'signed' ELSE 'held' END AS state,
  coalesce(r.day, j.day, 0) AS day,
  CASE WHEN p.test IS NULL THEN j.reason ELSE coalesce((SELECT x.reason FROM register.judgement_note AS x
    WHERE {OF_LOT} AND x.is_held = 1 ORDER BY x.note DESC LIMIT 1), '') END AS reason
FROM lots AS l
LEFT JOIN (SELECT t.owner, t.material, t.test FROM tests AS t WHERE t.test = (SELECT plants_test FROM temp.setting)
  AND t.test <> '' AND t.low = {LIMIT} AND t.high = {LIMIT}) AS p ON p.owner = l.owner AND p.material = l.material
LEFT JOIN results AS r ON r.owner = l.owner AND r.lot = l.lot AND r.test = p.test AND {LATEST}
LEFT JOIN register.judgement_note AS j ON p.test IS NULL AND j.note = (SELECT x.note FROM register.judgement_note AS x
  WHERE {OF_LOT} ORDER BY x.note DESC LIMIT 1)""",
    # Lots with their measure, what is on hand, and the days that are noted.
    "lot": f"""
SELECT l.*, m.measure, {ON_HAND} AS on_hand, {day('made')}, {day('expires')}, {day('retest')}
FROM lots AS l LEFT JOIN materials AS m USING (owner, material)""",
    # Movements as they were recorded, and as they were meant.
    "movement": MOVEMENT.format("moves"),
    "meant_movement": MOVEMENT.format("temp.meant"),
    # What was typed wrongly, and what was meant.
    "corrected": corrected.CORRECTED,
    # Batches with their recipe.
    "batch": "SELECT b.rowid AS rowid, b.*, o.recipe FROM batches AS b JOIN orders AS o USING (owner, ord)",
    # Links from an owner's own lots or from HOUSE's, between lots that are there: a restored backup may be older than a
    # note. Each once, in the place of its first note, with the measure of the lot that is contained.
    "link": """
SELECT min(k.note) AS note, k.rowid AS place, k.owner, k.lot, k.ord, k.number, k.of_owner, k.of_lot, k.why, k.amount,
  k.reason, m.measure
FROM register.link_note AS k JOIN lots AS c ON c.owner = k.of_owner AND c.lot = k.of_lot
LEFT JOIN materials AS m ON m.owner = c.owner AND m.material = c.material
WHERE k.of_owner IN (k.owner, 'HOUSE')
AND (k.lot = '' OR EXISTS (SELECT 1 FROM lots AS l WHERE l.owner = k.owner AND l.lot = k.lot))
GROUP BY k.owner, k.lot, k.ord, k.number, k.of_owner, k.of_lot, k.why, k.amount, k.reason""",
    # Why commands were given, the same reason once.
    "reason": """
SELECT min(note) AS note, owner, command, reason, lot, mkey, ord, number FROM register.reason_note
GROUP BY owner, command, reason, lot, mkey, ord, number""",
    # Parties, and how they are reached.
    "party": f"""
SELECT p.owner, p.party, {last_of('name', 'party_note', OF_PARTY)}, {last_of('roles', 'party_note', OF_PARTY)},
  {', '.join(map(reached, ('address', 'contact', 'phone')))}
FROM (SELECT DISTINCT owner, party FROM register.party_note) AS p""",
    # Shipments as they were meant, with who got each.
    "shipment": f"""
SELECT m.*, {', '.join(f"coalesce(p.{member}, '') AS {member}" for member in ('name', 'contact', 'phone', 'address'))}
FROM temp.meant_movement AS m LEFT JOIN temp.party AS p ON p.owner = m.owner AND p.party = m.party
WHERE m.kind = {Kind.SHIP:d} AND m.amount > 0""",
}


def over(base: Base, register: Register) -> Base:
    """Tables with the views over them and a register, the first one that they get."""
    if all(name != "register" for _, name, _ in base.execute("PRAGMA database_list").fetchall()):
        base.commit()
        (register.opened or Opened(memory())).attach(base)
        base.execute("CREATE TEMP TABLE setting (plants_test TEXT NOT NULL)")
        base.execute("INSERT INTO setting VALUES ('')")
        corrected.make(base)
        for name, sql in VIEWS.items():
            base.execute(f"CREATE TEMP VIEW {name} AS {sql}")
    base.execute("UPDATE setting SET plants_test = ?", (register.plants_test,))
    base.commit()
    return base
