"""Whether the group has exactly an office's rows, computed on both sides; and what it has besides them."""
from dataclasses import dataclass, field
from typing import NamedTuple

from hilpoven.core.failure import Failure
from hilpoven.core.office import Office as Asked
from hilpoven.model.genealogy import FORWARD
from hilpoven.model.schema import IS_INCOMING, Kind

from . import current, database, recalls
from .database import Connection
from .numbers import Head, first_head, line_of, place_of
from .office import Office
from .publisher import Key, Publisher
from .tables import TABLES, VERSIONS

SAMPLE = 10  # lots of which recalls are compared
STOCK = f"""
SELECT m.lot_id, x.sublot, sum(x.amount)::bigint FROM hg.moves AS m CROSS JOIN LATERAL (VALUES
  (m.sublot, CASE WHEN {IS_INCOMING} THEN m.amount ELSE -m.amount END),
  (m.target, CASE WHEN m.kind = {Kind.SPLIT:d} THEN m.amount ELSE 0 END)) AS x (sublot, amount)
WHERE m.office = %s AND m.file = %s AND NOT EXISTS (SELECT 1 FROM hg.voids AS v WHERE v.gid = m.gid
  AND v.office = m.office AND v.file = m.file AND v.mkey = m.mkey)
GROUP BY 1, 2 HAVING sum(x.amount) <> 0
"""
COMPUTED = "SELECT office, file, tbl, owner, n, head, told, told_head FROM hg.computed_heads(%s)"


@dataclass
class Report:
    """What differs, and how much was compared."""

    rows: int = 0
    heads: int = 0
    recalls: int = 0
    faults: list[str] = field(default_factory=list)

    @property
    def line(self) -> str:
        """What was compared."""
        state = "the same" if not self.faults else f"{len(self.faults):,} differences"
        return f"{self.rows:,} rows, {self.heads:,} heads, {self.recalls:,} recalls: {state}"


class Computed(NamedTuple):
    """A head that the group computed of the rows of an owner's table, and that which the office published."""

    office: int
    key: Key
    own: Head
    published: Head

    @property
    def is_as_published(self) -> bool:
        """Whether the rows give the head that was published; without rows there is none."""
        return self.own == self.published or not self.own.n and not self.published.n


def computed(base: Connection, office: str | None = None) -> list[Computed]:
    """The heads of an office's rows, or of all that whoever asks may see."""
    return [
        Computed(number, (file, mark, owner), Head(n, bytes(head or b"")), Head(count, bytes(published or b"")))
        for number, file, mark, owner, n, head, count, published in database.rows(base, COMPUTED, (office,))
    ]


def own_heads(publish: Publisher) -> dict[Key, Head]:
    """The heads of the office's rows, computed of its files and its journal."""
    assert publish.office is not None
    heads: dict[Key, Head] = {}
    for file in publish.office.files:
        for mark in TABLES:
            for _, owner, values in publish.rows(file, mark):
                if owner in file.gids:
                    key = file.number, mark, owner
                    before = heads.get(key) or first_head(publish.office.name, file.number, owner, mark)
                    heads[key] = before.with_line(line_of(values))
    return heads


def compared(publish: Publisher) -> Report:
    """Compares the group's rows with the office's, as both are now."""
    base, office, report = publish.base, publish.office, Report()
    assert base is not None and office is not None
    ours = own_heads(publish)
    compare_heads(base, office, ours, report)
    claims = current.said_by(office, publish.notes)
    for name, versions in VERSIONS.items():
        theirs = {key: value for key, value in publish.read_versions(base, versions).items() if value != versions.gone}
        differing = [key for key in {*theirs, *claims[name]} if theirs.get(key) != claims[name].get(key)]
        report.faults += [f"{len(differing):,} of {name} differ, such as {min(differing)}"] if differing else []
    compare_stock(base, office, report)
    base.rollback()
    return report


def compare_heads(base: Connection, office: Office, ours: dict[Key, Head], report: Report) -> None:
    """Compares heads that the group computes of its rows with the office's, and with those that were published."""
    theirs: dict[Key, Head] = {}
    for each in computed(base, office.name):
        file, mark, owner = each.key
        if each.own.n:
            theirs[each.key] = each.own
        if not each.is_as_published:
            report.faults.append(f"{TABLES[mark].name} of {owner} in file {file}: the group's rows don't give its head")
    for key in sorted({*ours, *theirs}):
        own, other = (heads.get(key, Head(0, b"")) for heads in (ours, theirs))
        if own != other:
            named = f"{TABLES[key[1]].name} of {key[2]} in file {key[0]}"
            report.faults.append(f"{named}: the office has {own.n:,} rows, and the group {other.n:,}, or others")
    report.rows, report.heads = sum(head.n for head in ours.values()), len(ours)


def compare_stock(base: Connection, office: Office, report: Report) -> None:
    """Compares what the group's movements leave in each sublot with the sublots of each file."""
    for file in office.files:
        rows = file.base.execute("SELECT owner, lot, sublot, amount FROM sublots WHERE amount <> 0")
        ours = {(file.lots[row[0], row[1]], row[2]): row[3] for row in rows if row[0] in file.gids}
        theirs = {(row[0], row[1]): row[2] for row in database.rows(base, STOCK, (office.number, file.number))}
        if differing := [key for key in {*ours, *theirs} if ours.get(key) != theirs.get(key)]:
            report.faults.append(f"what is in {len(differing):,} sublots of {file.name} differs")


def compare_recalls(publish: Publisher, is_full: bool, report: Report) -> None:
    """Compares recalls within the newest file with those of `toll` over a copy of it."""
    base, office = publish.base, publish.office
    assert base is not None and office is not None
    file, asked = office.newest, publish.context.unseen_office()._replace(file=publish.replica.path)
    sql = "SELECT owner, lot FROM lots WHERE ord = '' ORDER BY rowid DESC"
    lots = [row for row in file.base.execute(sql) if row[0] in file.gids]
    names = {number: lot for lot, number in file.lots.items()}
    for owner, lot in lots if is_full else lots[:: max(1, len(lots) // SAMPLE)][:SAMPLE]:
        steps = steps_within(base, office, file.lots[owner, lot])
        ours = {names.get(number, ("", str(number))): count for number, count in steps.items()}
        theirs = told_by_toll(asked, owner, lot)
        ours = {name: count for name, count in ours.items() if name[0] in file.gids}
        theirs = {name: count for name, count in theirs.items() if name[0] in file.gids}
        if ours != theirs:
            report.faults.append(
                f"the recall of {owner} {lot} has {len(theirs):,} lots by toll, and {len(ours):,} in the group"
            )
        report.recalls += 1
    base.rollback()


def steps_within(base: Connection, office: Office, start: int) -> dict[int, int]:
    """The lots that a lot went into by batches of the office's newest file alone, with their fewest steps."""
    steps, level, depth = {start: 0}, [start], 0
    newest = office.number, office.newest.number
    while level:
        depth += 1
        sql = f"SELECT dst, how, batch FROM {recalls.FUNCTION[FORWARD]}(%s::bigint[])"
        rows = [row for row in database.rows(base, sql, (level,)) if row[1] == "batch"]
        level = sorted({dst for dst, _, batch in rows if place_of(batch)[1:] == newest} - steps.keys())
        steps |= dict.fromkeys(level, depth)
    return steps


def told_by_toll(asked: Asked, owner: str, lot: str) -> dict[tuple[str, str], int]:
    """The lots of a recall of `toll`, with their fewest steps."""
    answer = asked.ask(["recall", owner, lot])
    if answer.status:
        raise Failure(f"toll recall {owner} {lot}: {(answer.error or answer.output).strip()}")
    rows = (line.split() for line in answer.output.splitlines()[1:])
    return {(row[1], row[2]): int(row[0]) for row in rows if row}


def digest(publish: Publisher, owner: str) -> list[tuple[int, str, int, str]]:
    """The heads of an owner's rows, computed of the office's files and its journal."""
    heads = own_heads(publish)
    return [(key[0], key[1], head.n, head.hash.hex()) for key, head in sorted(heads.items()) if key[2] == owner]
