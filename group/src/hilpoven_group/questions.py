"""The questions that the group's database answers, as functions in it.

Companies and readers have no rights on its tables. They call these, which run as the role hg_questions: it sees what
whoever logged in may see. Which movements count, and which way, is read of the model.
"""
from hilpoven.model.schema import IS_INCOMING, IS_OUTGOING, Kind

from .tables import TABLES

MOVES = ", ".join(f"m.{name}" for name in ("gid", "office", "file", "n", *TABLES["m"].names))
SAME_KEY = "{0}.gid = {1}.gid AND {0}.office = {1}.office AND {0}.file = {1}.file AND {0}.mkey = {1}.mkey"


def latest(table: str, keys: str, values: str) -> str:
    """SQL: the last versions of things."""
    columns = ", ".join(f"x.{name}" for name in f"gid office {keys} {values}".split())
    same = " AND ".join(f"y.{name} = x.{name}" for name in f"gid office {keys}".split())
    later = f"SELECT 1 FROM hg.{table} AS y WHERE {same} AND y.v > x.v"
    return f"SELECT {columns} FROM hg.{table} AS x WHERE NOT EXISTS ({later})"


# What stands of the rows, and how receipts of one office match shipments of another: the receipt's party is the office
# that shipped, and its supplier's lot is the lot that was shipped, or its document is the shipment's.
VIEWS = {
    "standing_moves": f"""
SELECT {MOVES} FROM hg.moves AS m WHERE NOT EXISTS (SELECT 1 FROM hg.voids AS v WHERE {SAME_KEY.format('v', 'm')})""",
    "current_states": latest("states", "lot_id", "disposition"),
    "current_facts": latest("facts", "file mkey", "party supplier_lot document"),
    "current_links": f"{latest('links', 'src lot_id batch_id', 'stands')} AND x.stands",
    "current_standing": latest("standing", "file note", "fault"),
    "matched": f"""
SELECT l.gid, l.lot_id AS src, r.lot_id AS dst, l.office AS src_office, r.office, r.file, r.mkey, r.amount,
  'supplier''s lot' AS how
FROM hg.lots AS l
JOIN hg.current_facts AS f ON f.gid = l.gid AND f.supplier_lot = l.lot AND f.supplier_lot <> ''
JOIN hg.parties AS p ON p.gid = f.gid AND p.office = f.office AND p.party = f.party AND p.other = l.office
JOIN hg.moves AS r ON {SAME_KEY.format('r', 'f')} AND r.kind = {Kind.RECEIVE:d} AND NOT r.came
WHERE NOT l.came AND EXISTS (SELECT 1 FROM hg.moves AS s WHERE s.lot_id = l.lot_id AND s.kind = {Kind.SHIP:d})
UNION
SELECT s.gid, s.lot_id, r.lot_id, s.office, r.office, r.file, r.mkey, r.amount, 'document'
FROM hg.moves AS s
JOIN hg.current_facts AS sf ON {SAME_KEY.format('sf', 's')} AND sf.document <> ''
JOIN hg.current_facts AS f ON f.gid = sf.gid AND f.document = sf.document AND f.document <> ''
  AND f.supplier_lot IN ('', s.lot)
JOIN hg.parties AS p ON p.gid = f.gid AND p.office = f.office AND p.party = f.party AND p.other = s.office
JOIN hg.moves AS r ON {SAME_KEY.format('r', 'f')} AND r.kind = {Kind.RECEIVE:d} AND NOT r.came
WHERE s.kind = {Kind.SHIP:d}""",
}
STEP = "src bigint, dst bigint, how text, batch bigint"


def steps(to: str, ids: str) -> str:
    """SQL: one step of a recall from the lots `ids`, which are at the end `to` of a pair: `src` onward, `dst` back. A
    lot went into another if a batch consumed it in a segment that isn't after one that produced the other."""
    from_lot, to_lot = ("c", "p") if to == "src" else ("p", "c")
    asked, batch_end = (f"k.src = ANY ({ids})", "k.src, p.lot_id") if to == "src" else (f"k.lot_id = ANY ({ids})", "")
    of_batch = f"k.src = ANY ({ids})" if to == "src" else f"p.lot_id = ANY ({ids})"
    columns = {"src": "{0}, {1}", "dst": "{1}, {0}"}[to]
    return f"""
SELECT DISTINCT {from_lot}.lot_id, {to_lot}.lot_id, 'batch', c.batch_id
FROM hg.standing_moves AS {from_lot} JOIN hg.standing_moves AS {to_lot} ON {to_lot}.batch_id = {from_lot}.batch_id
WHERE {from_lot}.lot_id = ANY ({ids}) AND {from_lot}.batch_id <> 0 AND {to_lot}.batch_id <> 0
  AND c.kind = {Kind.CONSUMED:d} AND p.kind = {Kind.PRODUCED:d} AND c.segment <= p.segment
UNION ALL
SELECT {columns.format('k.src', 'k.lot_id')}, 'link', 0 FROM hg.current_links AS k WHERE {asked} AND k.lot_id <> 0
UNION ALL
SELECT DISTINCT {columns.format('k.src', 'p.lot_id')}, 'link', k.batch_id
FROM hg.current_links AS k JOIN hg.standing_moves AS p ON p.batch_id = k.batch_id AND p.kind = {Kind.PRODUCED:d}
WHERE {of_batch} AND k.batch_id <> 0 AND p.batch_id <> 0
UNION ALL
SELECT DISTINCT {columns.format('x.src', 'x.dst')}, x.how, 0::bigint FROM hg.matched AS x WHERE x.{to} = ANY ({ids})
UNION ALL
SELECT {columns.format('d.src', 'd.dst')}, 'declared', 0 FROM hg.joins AS d WHERE d.{to} = ANY ({ids})"""


SUMS = f"""
SELECT coalesce(sum(CASE WHEN {IS_INCOMING} THEN m.amount WHEN {IS_OUTGOING} THEN -m.amount ELSE 0 END), 0)::bigint
  AS on_hand, coalesce(sum(m.amount) FILTER (WHERE m.kind = {Kind.SHIP:d}), 0)::bigint AS shipped
FROM hg.standing_moves AS m WHERE m.lot_id = l.lot_id AND NOT m.came"""
# A lot of the plant is another company's: who asks for its own rows knows it by what its own batches used.
LOTS = f"""
SELECT l.lot_id, o.name, f.name, l.owner, l.lot, l.material, a.measure, s.disposition, x.on_hand, x.shipped
FROM hg.lots AS l JOIN hg.offices AS o USING (office) JOIN hg.files AS f USING (office, file)
LEFT JOIN hg.materials AS a ON a.gid = l.gid AND a.office = l.office AND a.file = l.file AND a.material = l.material
LEFT JOIN hg.current_states AS s ON s.gid = l.gid AND s.office = l.office AND s.lot_id = l.lot_id
CROSS JOIN LATERAL ({SUMS}) AS x WHERE l.lot_id = ANY (ids) AND NOT l.came
UNION ALL
SELECT DISTINCT ON (m.lot_id) m.lot_id, o.name, f.name, m.lot_owner, m.lot, m.material, '', NULL::smallint,
  NULL::bigint, NULL::bigint
FROM hg.moves AS m JOIN hg.offices AS o USING (office) JOIN hg.files AS f USING (office, file)
WHERE m.lot_id = ANY (ids) AND m.kind = {Kind.CONSUMED:d}
  AND NOT EXISTS (SELECT 1 FROM hg.lots AS l WHERE l.lot_id = m.lot_id)"""
SHIPMENTS = f"""
SELECT m.lot_id, o.name, m.lot, m.mkey, m.day, m.amount, f.party, f.document, x.name
FROM hg.standing_moves AS m JOIN hg.offices AS o USING (office)
LEFT JOIN hg.current_facts AS f ON {SAME_KEY.format('f', 'm')}
LEFT JOIN hg.parties AS p ON p.gid = m.gid AND p.office = m.office AND p.party = f.party
LEFT JOIN hg.offices AS x ON x.office = p.other
WHERE m.lot_id = ANY (ids) AND m.kind = {Kind.SHIP:d} ORDER BY m.day, o.name, m.mkey"""
# Where a recall across offices ends without an answer. A receipt that matches several lots isn't counted as too much.
ENDS = f"""
SELECT 'received, and nobody shipped it', o.name, m.owner, r.lot, r.mkey, r.amount, f.party, y.name
FROM hg.moves AS r JOIN hg.current_facts AS f ON {SAME_KEY.format('f', 'r')}
JOIN hg.parties AS p ON p.gid = f.gid AND p.office = f.office AND p.party = f.party
JOIN hg.offices AS o ON o.office = r.office JOIN hg.offices AS y ON y.office = p.other
JOIN hg.heads AS m ON m.gid = r.gid AND m.office = r.office AND m.file = r.file AND m.tbl = 'm'
WHERE r.kind = {Kind.RECEIVE:d} AND NOT r.came
  AND NOT EXISTS (SELECT 1 FROM hg.matched AS x WHERE {SAME_KEY.format('x', 'r')})
  AND NOT EXISTS (SELECT 1 FROM hg.joins AS d WHERE d.dst = r.lot_id)
UNION ALL
SELECT 'shipped, and nobody received it', o.name, m.owner, s.lot, s.mkey, s.amount, f.party, y.name
FROM hg.moves AS s JOIN hg.current_facts AS f ON {SAME_KEY.format('f', 's')}
JOIN hg.parties AS p ON p.gid = f.gid AND p.office = f.office AND p.party = f.party
JOIN hg.offices AS o ON o.office = s.office JOIN hg.offices AS y ON y.office = p.other
JOIN hg.heads AS m ON m.gid = s.gid AND m.office = s.office AND m.file = s.file AND m.tbl = 'm'
WHERE s.kind = {Kind.SHIP:d}
  AND NOT EXISTS (SELECT 1 FROM hg.matched AS x WHERE x.src = s.lot_id AND x.office = p.other)
  AND NOT EXISTS (SELECT 1 FROM hg.joins AS d WHERE d.src = s.lot_id)
UNION ALL
SELECT 'more received than shipped', o.name, l.owner, l.lot, '', x.received - sum(s.amount)::bigint, '', ''
FROM (SELECT y.src, sum(y.amount)::bigint AS received
  FROM (SELECT DISTINCT z.src, z.gid, z.office, z.file, z.mkey, z.amount
    FROM hg.matched AS z WHERE NOT EXISTS (SELECT 1 FROM hg.matched AS w WHERE {SAME_KEY.format('w', 'z')}
      AND w.src <> z.src)) AS y GROUP BY y.src) AS x
JOIN hg.moves AS s ON s.lot_id = x.src AND s.kind = {Kind.SHIP:d}
JOIN hg.lots AS l ON l.lot_id = x.src AND NOT l.came JOIN hg.offices AS o ON o.office = l.office
GROUP BY o.name, l.owner, l.lot, x.src, x.received HAVING x.received > sum(s.amount)
ORDER BY 1, 2, 3, 4, 5"""
# What happened to the lots of a recall, and in the batches that made one of them, or onward that used one: a batch of
# another company is none of them, though a lot of the plant went into both.
EVENTS = f"""
SELECT o.name, o.gln, m.gid, m.mkey, m.kind, m.lot_id, m.amount, m.day, m.batch_id, m.segment, m.ord, m.number,
  coalesce(f.party, ''), coalesce(f.supplier_lot, ''), coalesce(f.document, ''), coalesce(x.gln, '')
FROM hg.standing_moves AS m JOIN hg.offices AS o USING (office)
LEFT JOIN hg.current_facts AS f ON {SAME_KEY.format('f', 'm')}
LEFT JOIN hg.parties AS p ON p.gid = m.gid AND p.office = m.office AND p.party = f.party
LEFT JOIN hg.offices AS x ON x.office = p.other
WHERE NOT m.came AND (m.lot_id = ANY (ids) AND m.kind IN ({Kind.RECEIVE:d}, {Kind.SHIP:d}, {Kind.SCRAP:d})
  OR m.batch_id IN (SELECT b.batch_id FROM hg.standing_moves AS b WHERE b.lot_id = ANY (ids) AND b.batch_id <> 0
    AND (b.kind = {Kind.PRODUCED:d} OR b.kind = {Kind.CONSUMED:d} AND NOT is_back)))
ORDER BY o.name, m.day, m.gid, m.n"""
# What the plants noted of companies, their materials and their parties, each note before those that count more.
DESCRIPTIONS = """
SELECT n.office, n.gid, n.value FROM hg.notes AS n
JOIN hg.current_standing AS s ON s.gid = n.gid AND s.office = n.office AND s.file = n.file AND s.note = n.note
WHERE n.gid = ANY (gids) AND n.kind IN ('owner', 'material', 'party') AND s.fault = ''
ORDER BY n.office, n.gid, n.file, n.n"""
# Receipts into lots that match shipments of several lots: all are followed.
AMBIGUOUS = f"""
SELECT DISTINCT x.dst FROM hg.matched AS x JOIN hg.matched AS y ON {SAME_KEY.format('y', 'x')} AND y.src <> x.src
WHERE x.dst = ANY (ids)"""
# All members that whoever asks may see are read first: an index would find those of others by their names, and take
# another time for them.
FIND = """
WITH known AS MATERIALIZED (SELECT m.gid, m.owner, y.name FROM hg.members AS m JOIN hg.offices AS y USING (office))
SELECT l.lot_id, f.name FROM hg.lots AS l JOIN hg.offices AS o USING (office) JOIN hg.files AS f USING (office, file)
WHERE l.gid IN (SELECT k.gid FROM known AS k WHERE k.name = in_office AND k.owner = in_owner)
  AND o.name = in_office AND l.owner = in_owner AND l.lot = in_lot AND NOT l.came ORDER BY l.file"""
AGES = """
SELECT o.name, k.at, extract(epoch FROM clock_timestamp() - k.at)::double precision
FROM hg.offices AS o LEFT JOIN hg.looked AS k USING (office) ORDER BY k.at NULLS FIRST, o.name"""


def heads_of(mark: str) -> str:
    """SQL: the heads of a table, computed of the rows that are there, and as `heads` has them."""
    table = TABLES[mark]
    line = ", ".join(f"t.{name}" for name in table.names)
    return f"""
SELECT coalesce(c.office, h.office), coalesce(c.file, h.file), coalesce(c.gid, h.gid), '{mark}'::"char",
  coalesce(h.owner, ''), coalesce(c.n, 0), c.head, coalesce(h.n, 0), h.head
FROM (SELECT t.office, t.file, t.gid, count(*)::integer AS n, hg.chain(concat_ws(E'\\t', {line}),
    hg.first_head(o.name, t.file, y.owner, '{mark}') ORDER BY t.n) AS head
  FROM hg.{table.name} AS t JOIN hg.offices AS o USING (office)
  LEFT JOIN hg.heads AS y ON y.office = t.office AND y.file = t.file AND y.gid = t.gid AND y.tbl = '{mark}'
  WHERE in_office IS NULL OR o.name = in_office GROUP BY 1, 2, 3) AS c
FULL JOIN (SELECT h.office, h.file, h.gid, h.owner, h.n, h.head FROM hg.heads AS h JOIN hg.offices AS o USING (office)
  WHERE h.tbl = '{mark}' AND (in_office IS NULL OR o.name = in_office)) AS h
  ON (h.office, h.file, h.gid) = (c.office, c.file, c.gid)"""


HEADS = " UNION ALL ".join(map(heads_of, TABLES)) + " ORDER BY 1, 2, 3, 4"
LOT_COLUMNS = """lot_id bigint, office text, file text, owner text, lot text, material text, measure text,
  disposition smallint, on_hand bigint, shipped bigint"""
SHIPMENT_COLUMNS = """lot_id bigint, office text, lot text, mkey text, day integer, amount bigint, party text,
  document text, to_office text"""
END_COLUMNS = """kind text, office text, owner text, lot text, mkey text, amount bigint, party text, other text"""
HEAD_COLUMNS = """office smallint, file smallint, gid integer, tbl "char", owner text, n integer, head bytea,
  told integer, told_head bytea"""
EVENT_COLUMNS = """office text, gln text, gid integer, mkey text, kind smallint, lot_id bigint, amount bigint,
  day integer, batch_id bigint, segment integer, ord text, number integer, party text, supplier_lot text,
  document text, other_gln text"""
FUNCTIONS = {
    "onward": ("ids bigint[]", STEP, steps("src", "ids")),
    "back": ("ids bigint[]", STEP, steps("dst", "ids")),
    "lots_of": ("ids bigint[]", LOT_COLUMNS, LOTS),
    "shipments_of": ("ids bigint[]", SHIPMENT_COLUMNS, SHIPMENTS),
    "events_of": ("ids bigint[], is_back boolean", EVENT_COLUMNS, EVENTS),
    "descriptions": ("gids integer[]", "office smallint, gid integer, value text", DESCRIPTIONS),
    "ambiguous": ("ids bigint[]", "lot_id bigint", AMBIGUOUS),
    "ends": ("", END_COLUMNS, ENDS),
    "find_lot": ("in_office text, in_owner text, in_lot text", "lot_id bigint, file text", FIND),
    "ages": ("", "office text, at timestamptz, seconds double precision", AGES),
    "computed_heads": ("in_office text", HEAD_COLUMNS, HEADS),
}


def definitions() -> str:
    """SQL that makes the views and the functions, of the role hg_questions."""
    parts = []
    for name, sql in VIEWS.items():
        parts.append(f"CREATE VIEW hg.{name} AS {sql}; ALTER VIEW hg.{name} OWNER TO hg_questions;")
    for name, (values, columns, sql) in FUNCTIONS.items():
        # Plans are kept in a session, and one plan is for all lists of lots: planning would take most of the time. A
        # session could have PostgreSQL send it the plans as messages, which tell how much others have.
        parts.append(
            f"CREATE FUNCTION hg.{name}({values}) RETURNS TABLE ({columns}) LANGUAGE plpgsql STABLE SECURITY DEFINER "
            "SET search_path = hg, pg_catalog, pg_temp SET jit = off SET plan_cache_mode = force_generic_plan "
            "SET client_min_messages = error "
            f"AS $hg$ #variable_conflict use_column\nBEGIN RETURN QUERY {sql}; END $hg$;"
            f"ALTER FUNCTION hg.{name} OWNER TO hg_questions; REVOKE ALL ON FUNCTION hg.{name} FROM PUBLIC;"
            f"GRANT EXECUTE ON FUNCTION hg.{name} TO hg_company, hg_reader, hg_publisher;"
        )
    return "\n".join(parts)
