"""Settlements by queries that are written for the tests alone, over the tables of all files of an office and its notes."""
import contextlib
import pathlib
import sqlite3
from collections.abc import Iterable, Iterator

TABLES = {
    "orders": "owner, ord, recipe", "batches": "owner, ord, number, state, closed", "lots": "owner, lot, material, ord, number", "requirements": "*",
    "materials": "owner AS whose, material AS stuff, measure", "moves": "owner, mkey, kind, lot_owner, lot, ord, number, amount, day", "voids": "*",
}
NEWEST = ("requirements", "materials")  # which each file has whole
MEASURE = "(SELECT measure FROM materials x WHERE x.whose = {0} AND x.stuff = {1})"
STATES = "idle running pausing paused holding held restarting stopping stopped aborting aborted complete".split()

# What stands, which of it are corrections, and what each of these puts right: tables that the queries below read.
CORRECTIONS = """
CREATE TABLE std AS SELECT m.rowid AS n, m.*, l.material FROM moves m JOIN lots l ON l.owner = m.lot_owner AND l.lot = m.lot
  WHERE (m.owner, m.mkey) NOT IN (SELECT owner, mkey FROM voids) ORDER BY m.rowid;
CREATE TABLE forth AS SELECT rowid AS n, * FROM links k WHERE lot <> '' AND NOT (why = 'correction' AND EXISTS (
  SELECT 1 FROM links j WHERE j.rowid < k.rowid AND j.owner = k.of_owner AND j.lot = k.of_lot AND j.of_owner = k.owner AND j.of_lot = k.lot));
CREATE TABLE origin AS SELECT owner, lot, why, of_owner, of_lot FROM forth f WHERE n = (SELECT min(n) FROM forth g WHERE g.owner = f.owner AND g.lot = f.lot);
CREATE TABLE corr AS SELECT s.*, o.of_owner, o.of_lot, c.of_owner AS key_owner, c.of_key FROM std s
  LEFT JOIN origin o ON o.owner = s.lot_owner AND o.lot = s.lot AND o.why = 'correction' LEFT JOIN corrects c ON c.owner = s.owner AND c.mkey = s.mkey
  WHERE s.owner IN (:owner, 'HOUSE') AND (s.kind = 0 AND o.of_lot IS NOT NULL OR s.kind = 3 AND '-' || s.mkey || '-' LIKE '%-CORR-%' OR c.of_key IS NOT NULL AND s.kind IN (0, 3));
CREATE TABLE plain AS SELECT s.* FROM std s WHERE kind = 3 AND '-' || mkey || '-' NOT LIKE '%-CORR-%' AND (owner, mkey) NOT IN (SELECT owner, mkey FROM corrects);
CREATE TABLE target AS SELECT c.n, c.owner, c.mkey, c.kind, c.amount, c.day, c.material, c.key_owner, c.of_key, c.lot_owner, c.lot AS own_lot, c.of_lot IS NOT NULL AS has_origin,
  l.owner AS t_owner, l.lot AS t_lot, l.material AS t_material, l.ord AS made_ord, l.number AS made_number,
  EXISTS (SELECT 1 FROM origin o WHERE o.owner = l.owner AND o.lot = l.lot AND o.why = 'correction') AS is_second
  FROM corr c JOIN lots l ON l.owner = ifnull(c.of_owner, c.lot_owner) AND l.lot = ifnull(c.of_lot, c.lot);
CREATE TABLE besides AS SELECT t.n, k.rowid AS k, k.amount, iif(k.ord <> '', k.owner, m.owner) AS owner, iif(k.ord <> '', k.ord, m.ord) AS ord, iif(k.ord <> '', k.number, m.number) AS number
  FROM target t JOIN links k ON k.of_owner = t.t_owner AND k.of_lot = t.t_lot AND k.why = 'use' LEFT JOIN lots m ON m.owner = k.owner AND m.lot = k.lot AND k.lot <> ''
  WHERE EXISTS (SELECT 1 FROM plain p WHERE p.lot_owner = t.t_owner AND p.lot = t.t_lot AND p.n < t.n AND p.amount = k.amount);
CREATE TABLE eaten AS SELECT n, owner, ord, number, sum(amount) AS amount FROM (
  SELECT t.n, s.owner, s.ord, s.number, s.amount FROM target t JOIN std s ON s.kind = 4 AND s.lot_owner = t.t_owner AND s.lot = t.t_lot AND s.n < t.n
  UNION ALL SELECT n, owner, ord, number, amount FROM besides WHERE ord <> '') GROUP BY 1, 2, 3, 4;
CREATE TABLE judged AS SELECT t.*, (SELECT count(*) FROM eaten e WHERE e.n = t.n) AS eaters, (SELECT min(amount) FROM eaten e WHERE e.n = t.n) AS least,
  ifnull((SELECT sum(amount) FROM plain p WHERE p.lot_owner = t.t_owner AND p.lot = t.t_lot AND p.n < t.n), 0) - ifnull((SELECT sum(amount) FROM besides b WHERE b.n = t.n), 0) >= t.amount AS is_scrapped,
  EXISTS (SELECT 1 FROM plain p WHERE p.lot_owner = t.t_owner AND p.lot = t.t_lot AND p.n < t.n AND p.amount = t.amount AND substr(p.mkey, 1, 4) <> 'USE-') AS is_exact FROM target t;
CREATE TABLE means AS SELECT n, owner, mkey, kind, amount, day, t_owner, t_material, made_ord, made_number, CASE
  WHEN kind = 3 THEN CASE WHEN has_origin THEN 'doubtful' WHEN made_ord <> '' THEN 'made' ELSE 'delivered' END
  WHEN substr(mkey, 1, 6) = 'COUNT-' THEN 'stock' WHEN lot_owner <> t_owner OR material <> t_material THEN 'delivered' WHEN is_exact THEN 'stock'
  WHEN is_second OR made_ord <> '' AND (eaters OR is_scrapped) THEN 'doubtful' WHEN made_ord <> '' THEN 'made'
  WHEN eaters = 0 THEN iif(is_scrapped, 'stock', 'delivered') WHEN is_scrapped OR eaters > 1 OR least < amount THEN 'doubtful' ELSE 'consumed' END AS means FROM judged WHERE of_key IS NULL;
CREATE TABLE fix AS
  SELECT t_owner AS owner, made_ord AS ord, made_number AS number, 1 AS role, t_owner AS source, t_material AS material, iif(kind = 0, amount, -amount) AS amount FROM means WHERE means = 'made'
  UNION ALL SELECT e.owner, e.ord, e.number, 0, m.t_owner, m.t_material, -m.amount FROM means m JOIN eaten e USING (n) WHERE means = 'consumed'
  UNION ALL SELECT o.owner, o.ord, o.number, o.kind - 4, o.lot_owner, o.material, iif(c.kind = 0, c.amount, -c.amount) * iif(o.kind = 5, 1, -1)
  FROM corr c JOIN std o ON o.owner = c.key_owner AND o.mkey = c.of_key AND o.kind > 3;
CREATE TABLE kinds AS SELECT owner, mkey, means FROM means
  UNION ALL SELECT c.owner, c.mkey, CASE o.kind WHEN 5 THEN 'made' WHEN 4 THEN 'consumed' WHEN 0 THEN 'delivered' ELSE 'stock' END FROM corr c JOIN std o ON o.owner = c.key_owner AND o.mkey = c.of_key;
CREATE TABLE doubts AS SELECT owner, mkey FROM means WHERE means = 'doubtful';
CREATE TABLE act AS SELECT ord, number, kind - 4 AS role, lot_owner AS source, material, lot, amount, day FROM std WHERE owner = :owner AND kind > 3;
CREATE TABLE run AS SELECT s.*, o.recipe, b.closed, b.state FROM (SELECT ord, number, min(day) AS lo, max(day) AS hi FROM act GROUP BY 1, 2) s
  JOIN batches b ON b.owner = :owner AND b.ord = s.ord AND b.number = s.number JOIN orders o ON o.owner = :owner AND o.ord = s.ord;
CREATE TABLE noted AS SELECT r.ord, r.number, k.why, k.amount, k.of_owner AS source, l.material,
  EXISTS (SELECT 1 FROM requirements q WHERE q.owner = :owner AND q.recipe = r.recipe AND q.role = 0 AND q.source = k.of_owner AND q.material = l.material) AS is_required,
  k.of_owner = :owner AND EXISTS (SELECT 1 FROM act a WHERE a.ord = r.ord AND a.number = r.number AND a.role = 1 AND a.material = l.material) AS is_made
  FROM run r JOIN links k ON k.owner = :owner AND k.amount IS NOT NULL AND (k.why = 'use' OR k.why = 'rework' AND k.of_owner = :owner
      AND NOT EXISTS (SELECT 1 FROM act a WHERE a.ord = r.ord AND a.number = r.number AND a.role = 0 AND a.source = :owner AND a.lot = k.of_lot))
    AND (k.ord = r.ord AND k.number = r.number OR EXISTS (SELECT 1 FROM act a WHERE a.ord = r.ord AND a.number = r.number AND a.role = 1 AND a.lot = k.lot))
  JOIN lots l ON l.owner = k.of_owner AND l.lot = k.of_lot;
CREATE TABLE part AS
  SELECT 'recorded' AS sort, ord, number, role, source, material, amount FROM act
  UNION ALL SELECT 'used', ord, number, 0, source, material, amount FROM noted WHERE is_required OR why = 'use' AND NOT is_made
  UNION ALL SELECT 'reworked', ord, number, 1, source, material, amount FROM noted WHERE is_made AND NOT is_required
  UNION ALL SELECT 'corrected', ord, number, role, source, material, amount FROM fix WHERE owner = :owner;
CREATE TABLE net AS SELECT ord, number, role, source, material, sum(amount) AS amount FROM part WHERE sort <> 'reworked' GROUP BY 1, 2, 3, 4, 5;
CREATE TABLE use(role, word);
INSERT INTO use VALUES (0, 'consumed'), (1, 'produced');
"""
NAME = "ord || '/' || number"
# Of the batches of the table `chosen`; `recipes` and `made` have each recipe's terms in the table `terms`.
BATCHES = f"""
SELECT {NAME}, recipe, hi, word, source, material, amount, {MEASURE.format('source', 'material')}
FROM chosen JOIN run USING (ord, number) JOIN net USING (ord, number) JOIN use USING (role)"""
GOING_ON = f"""
SELECT {NAME}, recipe, iif(closed, 'closed later', (SELECT value FROM json_each(:states) WHERE key = state)), word, source, material, sum(amount), {MEASURE.format('source', 'material')}
FROM run JOIN act USING (ord, number) JOIN use USING (role) WHERE lo <= :last AND (closed = 0 OR hi > :last) AND (ord, number) NOT IN (SELECT ord, number FROM gone) AND day <= :last
GROUP BY ord, number, role, source, material"""
RECIPES = f"""
WITH count AS (SELECT recipe, count(*) AS n FROM chosen JOIN run USING (ord, number) GROUP BY recipe),
item AS (SELECT recipe, role, source, material FROM requirements JOIN count USING (recipe) WHERE owner = :owner UNION SELECT recipe, role, source, material FROM chosen JOIN run USING (ord, number) JOIN part USING (ord, number)),
line AS (SELECT i.*, n, ifnull((SELECT sum(amount) FROM requirements q WHERE q.owner = :owner AND q.recipe = i.recipe AND q.role = i.role AND q.source = i.source AND q.material = i.material), 0) * n AS standard,
  {', '.join(f"ifnull((SELECT sum(p.amount) FROM chosen JOIN run r USING (ord, number) JOIN part p USING (ord, number) WHERE r.recipe = i.recipe AND p.role = i.role AND p.source = i.source AND p.material = i.material AND p.sort = '{sort}'), 0) AS {sort}" for sort in ('recorded', 'used', 'corrected', 'reworked'))}
  FROM item i JOIN count USING (recipe))
SELECT recipe, n, word, source, line.material, standard, recorded, used, corrected, reworked, {MEASURE.format('source', 'line.material')}, role = 1 AND line.material = t.main, t.allowance
FROM line JOIN use USING (role) JOIN terms t USING (recipe) ORDER BY recipe, role, source, line.material"""
MADE = """
WITH out AS (SELECT c.ord, c.number, recipe, material, amount FROM chosen c JOIN run USING (ord, number) JOIN net USING (ord, number) WHERE role = 1)
SELECT o.material, iif(o.material = t.main, 'main', 'by-product') AS is_what, sum(o.amount) AS sum,
  sum(ifnull((SELECT amount FROM net n WHERE n.ord = o.ord AND n.number = o.number AND n.role = 0 AND n.source = :owner AND n.material = o.material), 0)
    + ifnull((SELECT sum(amount) FROM part p WHERE p.ord = o.ord AND p.number = o.number AND p.sort = 'reworked' AND p.material = o.material), 0)) AS again
FROM out o JOIN terms t USING (recipe) GROUP BY 1, 2"""
RECEIVED = """
WITH got AS (SELECT s.material, s.amount, ifnull((SELECT iif(k.means = 'delivered', '', 'correction') FROM kinds k WHERE k.owner = s.owner AND k.mkey = s.mkey),
    ifnull((SELECT why FROM links f WHERE f.owner = s.owner AND f.lot = s.lot AND f.rowid = (SELECT min(rowid) FROM links g WHERE g.owner = s.owner AND g.lot = s.lot) AND why <> 'correction'), '')) AS why
  FROM std s WHERE s.owner = :owner AND s.kind = 0 AND s.day BETWEEN :first AND :last
  UNION ALL SELECT s.material, iif(x.way, s.amount, -s.amount), iif(x.way, 'correction', '') FROM std s JOIN kinds k USING (owner, mkey) JOIN (SELECT 0 AS way UNION SELECT 1) x
  WHERE s.owner = :owner AND s.kind = 3 AND k.means = 'delivered' AND s.day BETWEEN :first AND :last)
SELECT material, sum(amount), total(amount * (why = 'return')), total(amount * (why = 'rework')), total(amount * (why = 'use')), total(amount * (why = 'correction')), total(amount * (why = '')) FROM got GROUP BY 1"""


@contextlib.contextmanager
def all_tables(files: list[pathlib.Path], links: list[tuple], owner: str, corrects: Iterable[tuple] = ()) -> Iterator[sqlite3.Connection]:
    """The rows of all files, the oldest first, without the receipts by which stock came over; the links and corrections; and what follows
    from these for an owner."""
    with contextlib.closing(sqlite3.connect(":memory:")) as base:
        base.execute("CREATE TABLE links (owner, lot, ord, number, of_owner, of_lot, why, amount)")
        base.executemany("INSERT INTO links VALUES (?, ?, ?, ?, ?, ?, ?, ?)", links)
        base.execute("CREATE TABLE corrects (owner, mkey, of_owner, of_key)")
        base.executemany("INSERT INTO corrects VALUES (?, ?, ?, ?)", corrects)
        for at, file in enumerate(files):
            base.execute("ATTACH ? AS f", (str(file),))
            for name, columns in TABLES.items():
                if at == 0:
                    base.execute(f"CREATE TABLE {name} AS SELECT {columns} FROM f.{name} WHERE false")
                if name in NEWEST:
                    base.execute(f"DELETE FROM {name}")
                over = " WHERE (owner, mkey) NOT IN (SELECT owner, mkey FROM f.carried_moves)" if name == "moves" and at else ""
                base.execute(f"INSERT INTO {name} SELECT {columns} FROM f.{name}{over} ORDER BY rowid")
            base.commit()
            base.execute("DETACH f")
        base.execute("CREATE TABLE last AS SELECT max(rowid) AS n, min(rowid) AS first FROM lots GROUP BY owner, lot")
        base.execute("UPDATE lots SET (ord, number) = (SELECT x.ord, x.number FROM lots x WHERE x.rowid = (SELECT first FROM last WHERE last.n = lots.rowid)) WHERE rowid IN (SELECT n FROM last)")
        for name, key in (("orders", "owner, ord"), ("lots", "owner, lot")):  # which came over are in both
            base.execute(f"DELETE FROM {name} WHERE rowid NOT IN (SELECT max(rowid) FROM {name} GROUP BY {key})")
        for sql in filter(str.strip, CORRECTIONS.split(";\n")):
            base.execute(sql, {"owner": owner})
        base.execute("CREATE TABLE chosen (ord, number)")
        base.execute("CREATE TABLE gone (ord, number)")
        base.execute("CREATE TABLE terms (recipe, main, allowance)")
        yield base


def choose(base: sqlite3.Connection, batches: Iterable[tuple], terms: Iterable[tuple], gone: Iterable[tuple] = ()) -> None:
    """Has the queries be of these batches, by these terms of their recipes; `gone` are on settlements already."""
    for name, cells, rows in (("chosen", "?, ?", batches), ("terms", "?, ?, ?", terms), ("gone", "?, ?", gone)):
        base.execute(f"DELETE FROM {name}")
        base.executemany(f"INSERT INTO {name} VALUES ({cells})", rows)


def rounded(number: int, parts: int) -> int:
    """A fraction, rounded to the nearest whole number; the greater of two."""
    return (2 * number + parts) // (2 * parts)


def tenths(number: int, parts: int) -> str:
    """A fraction in percent, rounded to a tenth."""
    if parts < 0:
        number, parts = -number, -parts
    whole = rounded(1000 * number, parts)
    return f"{'-' if whole < 0 else ''}{abs(whole) // 10:,}.{abs(whole) % 10}"


def lines_of(rows: list[tuple]) -> list[dict]:
    """The lines of recipes, with what follows from their sums."""
    mains = {row[0]: row for row in rows if row[11]}
    lines = []
    for recipe, batches, use, source, material, standard, recorded, used, corrected, reworked, measure, is_main, allowance in rows:
        actual = recorded + used + corrected - reworked
        line = {"recipe": recipe, "batches": batches, "use": use, "source": source, "material": material, "standard": standard, "recorded": recorded, "used": used,
                "corrected": corrected, "reworked": -reworked, "actual": actual, "measure": measure, "share": tenths(actual, standard) if standard else "",
                "expected": "", "loss": "", "loss_share": "", "allowed": "", "above": ""}
        main = mains.get(recipe)
        if use == "consumed" and main and standard:
            main_amount, required = sum(main[6:9]) - main[9], main[5]
            expected = rounded(standard * main_amount, required)
            line |= {"expected": expected, "loss": actual - expected, "loss_share": tenths(actual - expected, expected) if expected else ""}
            if allowance:
                allowed = rounded(standard * main_amount * allowance, required * 1000)
                line |= {"allowed": allowed, "above": max(0, actual - expected - allowed)}
        lines.append(line | {"is_main": bool(is_main)})
    return lines
