"""What stands on papers, by queries that are written for the tests alone, and read back from what was made."""
import csv
import functools
import html.parser
import io
import pathlib
import re
import subprocess

STANDS = "(SELECT count(*) FROM voids v WHERE v.owner = {0}.owner AND v.mkey = {0}.mkey) = 0"
WORDS = "CASE {0}.disposition WHEN 0 THEN 'quarantined' WHEN 1 THEN 'released' WHEN 2 THEN 'rejected' END"
STATE = ("CASE b.closed WHEN 1 THEN 'closed' ELSE (SELECT value FROM json_each('[\"idle\",\"running\",\"pausing\",\"paused\",\"holding\",\"held\",\"restarting\","
         "\"stopping\",\"stopped\",\"aborting\",\"aborted\",\"complete\"]') WHERE key = b.state) END")
REACHED = f"""
WITH RECURSIVE edge(a, b, c, d) AS (
  SELECT DISTINCT i.lot_owner, i.lot, o.lot_owner, o.lot FROM moves i, moves o
  WHERE i.owner = o.owner AND i.ord = o.ord AND i.number = o.number AND i.kind = 4 AND o.kind = 5 AND i.segment <= o.segment
    AND {STANDS.format('i')} AND {STANDS.format('o')}
), way(owner, lot, steps) AS (
  VALUES (:owner, :lot, 0) UNION SELECT c, d, steps + 1 FROM way, edge WHERE a = way.owner AND b = way.lot AND steps < 40
), reached AS (SELECT owner, lot, min(steps) AS steps FROM way GROUP BY 1, 2)
"""


def total(kind: int) -> str:
    """The sum of standing movements of a kind, of a lot that is named r."""
    return f"(SELECT ifnull(sum(m.amount), 0) FROM moves m WHERE m.lot_owner = r.owner AND m.lot = r.lot AND m.kind = {kind} AND {STANDS.format('m')})"


HELD = "(SELECT ifnull(sum(s.amount), 0) FROM sublots s WHERE s.owner = r.owner AND s.lot = r.lot)"
RECALL = {
    "lots": REACHED + f"""
SELECT r.steps, r.owner, r.lot, iif(l.ord = '', 'receipts', l.ord || '/' || l.number), {WORDS.format('l')}, l.material, x.measure,
  {total(0)}, {total(5)}, {total(4)}, {total(2)}, {total(3)}, {HELD}, {total(0)} + {total(5)} - {total(4)} - {total(2)} - {total(3)} - {HELD}
FROM reached r JOIN lots l ON l.owner = r.owner AND l.lot = r.lot JOIN materials x ON x.owner = l.owner AND x.material = l.material ORDER BY 1, 2, 3""",
    "sublots": REACHED + f"""
SELECT {WORDS.format('l')}, s.owner, s.lot, s.sublot, l.material, s.amount, x.measure
FROM reached r JOIN sublots s ON s.owner = r.owner AND s.lot = r.lot JOIN lots l ON l.owner = r.owner AND l.lot = r.lot
JOIN materials x ON x.owner = l.owner AND x.material = l.material WHERE s.amount <> 0""",
    "shipments": REACHED + """
SELECT m.day, m.owner, m.mkey, m.lot, m.sublot, l.material, m.amount, x.measure
FROM reached r JOIN moves m ON m.lot_owner = r.owner AND m.lot = r.lot JOIN lots l ON l.owner = r.owner AND l.lot = r.lot
JOIN materials x ON x.owner = l.owner AND x.material = l.material WHERE m.kind = 2""",
    "flows": REACHED + f"""
, took AS (
  SELECT m.owner bo, m.ord, m.number, m.lot_owner, m.lot, sum(m.amount) amount, min(m.segment) first, r.steps
  FROM reached r JOIN moves m ON m.lot_owner = r.owner AND m.lot = r.lot AND m.kind = 4 WHERE {STANDS.format('m')} GROUP BY 1, 2, 3, 4, 5
), step AS (SELECT bo, ord, number, min(first) first, 1 + min(steps) step FROM took GROUP BY 1, 2, 3)
SELECT s.step, s.bo, s.ord || '/' || s.number, b.unit, 'consumed', t.lot_owner, t.lot, t.amount
FROM step s JOIN took t USING (bo, ord, number) JOIN batches b ON b.owner = s.bo AND b.ord = s.ord AND b.number = s.number
UNION ALL
SELECT s.step, s.bo, s.ord || '/' || s.number, b.unit, 'produced', m.lot_owner, m.lot, sum(m.amount)
FROM step s JOIN batches b ON b.owner = s.bo AND b.ord = s.ord AND b.number = s.number
JOIN moves m ON m.owner = s.bo AND m.ord = s.ord AND m.number = s.number AND m.kind = 5 WHERE {STANDS.format('m')}
GROUP BY s.bo, s.ord, s.number, m.lot HAVING max(m.segment) >= s.first""",
    "released": REACHED + f"""
SELECT r.owner, r.lot, l.material, {HELD}, x.measure FROM reached r JOIN lots l ON l.owner = r.owner AND l.lot = r.lot
JOIN materials x ON x.owner = l.owner AND x.material = l.material WHERE l.disposition = 1 AND {HELD} > 0""",
    "running": REACHED + f"""
SELECT DISTINCT b.owner, b.ord || '/' || b.number, b.unit, {STATE}
FROM reached r JOIN moves m ON m.lot_owner = r.owner AND m.lot = r.lot AND m.kind = 4
JOIN batches b ON b.owner = m.owner AND b.ord = m.ord AND b.number = m.number WHERE b.closed = 0 AND {STANDS.format('m')}""",
    "sums": REACHED + f"""
SELECT r.owner, l.material, x.measure, count(*), sum(iif(l.disposition = 1, {HELD}, 0)), sum(iif(l.disposition = 0, {HELD}, 0)),
  sum(iif(l.disposition = 2, {HELD}, 0)), sum({total(2)})
FROM reached r JOIN lots l ON l.owner = r.owner AND l.lot = r.lot JOIN materials x ON x.owner = l.owner AND x.material = l.material GROUP BY 1, 2, 3""",
}
LATEST = ("(SELECT {0} FROM results z WHERE z.owner = t.owner AND z.lot = l.lot AND z.test = t.test AND z.number = "
          "(SELECT max(number) FROM results y WHERE y.owner = t.owner AND y.lot = l.lot AND y.test = t.test))")
VERDICT = f"iif({LATEST.format('value')} IS NULL, 'no result', iif({LATEST.format('value')} < t.low OR {LATEST.format('value')} > t.high, 'does not pass', 'pass'))"
OF_TEST = f"t.test, t.low, t.high, ifnull({LATEST.format('value')}, ''), ifnull({LATEST.format('day')}, ''), {VERDICT}"
TESTS = f"SELECT {OF_TEST} FROM lots l JOIN tests t USING (owner, material) WHERE l.owner = :owner AND l.lot = :lot"
BATCH = {
    "requirements": f"""
SELECT q.segment, iif(q.role, 'produced', 'consumed'), q.source, q.material, q.amount, ifnull(sum(m.amount), 0), printf('%,d', ifnull(sum(m.amount), 0) * 1000 / q.amount / 10) || '.' || (ifnull(sum(m.amount), 0) * 1000 / q.amount % 10)
FROM orders o JOIN requirements q ON q.owner = o.owner AND q.recipe = o.recipe
LEFT JOIN moves m ON m.owner = o.owner AND m.ord = o.ord AND m.number = :number AND m.kind = q.role + 4 AND m.segment = q.segment AND m.material = q.material
  AND m.lot_owner = q.source AND {STANDS.format('m')}
WHERE o.owner = :owner AND o.ord = :order GROUP BY q.segment, q.role, q.source, q.material""",
    "actuals": f"""
SELECT m.mkey, m.segment, iif(m.kind = 4, 'consumed', 'produced'), m.lot_owner, m.material, m.lot, m.sublot, m.amount, x.measure, m.day, iif({STANDS.format('m')}, '', 'void')
FROM moves m JOIN materials x ON x.owner = m.lot_owner AND x.material = m.material WHERE m.owner = :owner AND m.ord = :order AND m.number = :number""",
    "made": f"""
SELECT m.lot_owner, m.lot, m.material, {WORDS.format('l')}, sum(m.amount), x.measure FROM moves m JOIN lots l ON l.owner = m.lot_owner AND l.lot = m.lot
JOIN materials x ON x.owner = l.owner AND x.material = l.material
WHERE m.owner = :owner AND m.ord = :order AND m.number = :number AND m.kind = 5 AND {STANDS.format('m')} GROUP BY 1, 2""",
    "taken": f"""
SELECT m.lot_owner, m.lot, m.material, iif(m.lot_owner = :owner, {WORDS.format('l')}, ''), sum(m.amount), x.measure
FROM moves m JOIN lots l ON l.owner = m.lot_owner AND l.lot = m.lot JOIN materials x ON x.owner = l.owner AND x.material = l.material
WHERE m.owner = :owner AND m.ord = :order AND m.number = :number AND m.kind = 4 AND {STANDS.format('m')} GROUP BY 1, 2""",
    **{name: f"""
SELECT DISTINCT l.lot, {OF_TEST} FROM lots l JOIN tests t USING (owner, material) JOIN moves m ON m.lot_owner = l.owner AND m.lot = l.lot
WHERE l.owner = :owner AND m.owner = :owner AND m.ord = :order AND m.number = :number AND m.kind = {kind} AND {STANDS.format('m')}"""
       for name, kind in (("made_tests", 5), ("taken_tests", 4))},
}
LOT = {
    "tests": TESTS,
    "results": "SELECT test, value, day FROM results WHERE owner = :owner AND lot = :lot",
    "sublots": "SELECT sublot, amount FROM sublots WHERE owner = :owner AND lot = :lot",
    "ledger": f"""
SELECT m.owner, m.mkey, (SELECT value FROM json_each('["receive","split","ship","scrap","consumed","produced"]') WHERE key = m.kind), m.sublot, m.target,
  iif(m.ord = '', '', m.owner || ' ' || m.ord || '/' || m.number), m.day, iif(m.kind IN (0, 5), m.amount, ''), iif(m.kind IN (2, 3, 4), m.amount, ''),
  iif(m.kind = 1, m.amount, ''), iif({STANDS.format('m')}, '', 'void')
FROM moves m WHERE m.lot_owner = :owner AND m.lot = :lot""",
}


def signed(where: str) -> str:
    """What standing movements of a lot that is named l come to, of those of which `where` holds."""
    return (f"(SELECT ifnull(sum(CASE m.kind WHEN 0 THEN amount WHEN 5 THEN amount WHEN 1 THEN 0 ELSE -amount END), 0) FROM moves m "
            f"WHERE m.lot_owner = l.owner AND m.lot = l.lot AND {STANDS.format('m')} AND {where})")


def within(kind: int) -> str:
    """What movements of a kind came to between the two days."""
    return f"(SELECT ifnull(sum(amount), 0) FROM moves m WHERE m.lot_owner = l.owner AND m.lot = l.lot AND m.kind = {kind} AND {STANDS.format('m')} AND m.day >= :first AND m.day <= :last)"


AMOUNTS = f"{signed('m.day < :first')}, {within(0)}, {within(5)}, {within(4)}, {within(3)}, {within(2)}, {signed('m.day <= :last')}, 0"
ACCOUNTS = f"SELECT l.material, x.measure, l.lot, {WORDS.format('l')}, {AMOUNTS} FROM lots l JOIN materials x USING (owner, material) WHERE l.owner = :owner"
STATEMENT = {
    "lots": ACCOUNTS,
    "plants_material": f"""
SELECT m.material, m.lot, m.ord || '/' || m.number, sum(m.amount), x.measure FROM moves m JOIN materials x ON x.owner = m.lot_owner AND x.material = m.material
WHERE m.owner = :owner AND m.lot_owner = 'HOUSE' AND :owner <> 'HOUSE' AND m.day BETWEEN :first AND :last AND {STANDS.format('m')} GROUP BY 1, 2, m.ord, m.number""",
    "movements": f"""
SELECT m.day, m.mkey, (SELECT value FROM json_each('["receive","split","ship","scrap","consumed","produced"]') WHERE key = m.kind), m.lot, m.sublot, m.target,
  iif(m.ord = '', '', iif(m.owner = m.lot_owner, '', m.owner || ' ') || m.ord || '/' || m.number), m.amount, x.measure, iif({STANDS.format('m')}, '', 'void')
FROM moves m JOIN lots l ON l.owner = m.lot_owner AND l.lot = m.lot JOIN materials x ON x.owner = l.owner AND x.material = l.material
WHERE m.lot_owner = :owner AND m.day BETWEEN :first AND :last""",
}


def read_csv(file: pathlib.Path) -> list[list[str]]:
    """The rows of a table beside a paper, whose names are formulas of texts."""
    rows = list(csv.reader(io.StringIO(file.read_bytes().decode(), newline="")))[1:]
    return [[cell[2:-1] if cell[:2] == '="' and cell[-1] == '"' else cell for cell in row] for row in rows]


def read_table(file: pathlib.Path) -> list[dict[str, str]]:
    """The rows of a table beside a paper, by the names of its columns."""
    heads = next(csv.reader(io.StringIO(file.read_bytes().decode(), newline="")))
    return [dict(zip(heads, row)) for row in read_csv(file)]


def words_of_table(file: pathlib.Path) -> set[str]:
    """The words that a table has on paper: numbers without commas, and days as dates where they are some."""
    rows = read_csv(file)
    names = next(csv.reader(io.StringIO(file.read_bytes().decode(), newline="")))
    cells = {date_of(cell) if name.endswith("day") else cell for row in rows for name, cell in zip(names, row)}
    return {word for cell in cells for word in cell.replace(",", "").split()}


def as_texts(rows: list[tuple]) -> list[list[str]]:
    """The rows of a query as CSV has them."""
    return sorted([str(cell) for cell in row] for row in rows)


class Cells(html.parser.HTMLParser):
    """The texts of a page, word by word."""

    def __init__(self, text: str) -> None:
        super().__init__()
        self.words: set[str] = set()
        self.feed(text)

    def handle_data(self, data: str) -> None:
        self.words |= set(data.replace(",", "").split())


def text_of_page(file: pathlib.Path) -> str:
    """The text of a page."""
    parts: list[str] = []
    reader = html.parser.HTMLParser()
    reader.handle_data = parts.append
    reader.feed(file.read_text())
    return "".join(parts)


def words_of_page(file: pathlib.Path) -> frozenset[str]:
    """The words of a page, numbers without their commas."""
    return words_within(file.read_text())


@functools.lru_cache(20)
def words_within(page: str) -> frozenset[str]:
    """The same of its text. Several look at each."""
    return frozenset(Cells(page).words)


def text_of_pdf(file: pathlib.Path) -> str:
    """The text of a PDF."""
    return text_of_bytes(file.read_bytes())


@functools.lru_cache(20)
def text_of_bytes(content: bytes) -> str:
    """The same of its bytes. Several look at each."""
    return subprocess.run(["pdftotext", "-layout", "-", "-"], input=content, capture_output=True, check=True).stdout.decode()


def words_of_pdf(file: pathlib.Path) -> set[str]:
    """The words of a PDF, numbers without their commas."""
    return set(text_of_pdf(file).replace(",", "").split())


def metadata_of_pdf(file: pathlib.Path) -> str:
    """What is told of a PDF besides its pages."""
    return subprocess.run(["pdfinfo", file], capture_output=True, text=True, check=True).stdout


def date_of(day: str) -> str:
    """A day as papers show it."""
    match = re.fullmatch(r"(\d\d)(0[1-9]|1[0-2])([0-2]\d|3[01])", day)
    return f"20{match[1]}-{match[2]}-{match[3]}" if match else day
