"""A count of stock: the sheet on which it is written, and what a counted sheet says of the office.

A difference is recorded once, however often its sheet is imported: its key is made of all that its row says. What an
earlier count found of a lot lies with it, so whoever counts the lot may count that with it.
"""
import hashlib
import io
import os
from collections import Counter, defaultdict
from collections.abc import Callable, Iterable, Iterator, Mapping, Sequence
from dataclasses import dataclass, field
from enum import Enum
from typing import Any

from ...core import client
from ...core.context import Context
from ...core.failure import FAULT, Failure
from ...core.forms import name_fault
from ...core.grammar import LINES, Line
from ...core.table import as_cell, as_formula, csv_of
from ...core.office import Answer
from ...model.measures import as_number
from ...model.rows import OF_COUNT, Base, LotId, lots_of, sublots_of
from ...model.schema import Kind
from ...model.years import earlier
from ...model.notes import Link, Reason
from ...model.kinds import Why
from ...model.register.meant import HAS_KEY, HAS_LOT
from .. import asking, making
from ..making import Desk
from .noting import check_days
from .cells import Cell, Table
from .reading import read_source
from .sheet import Asked, Finding, Record, Sheet
from .values import COUNTS

COLUMNS = ("owner", "lot", "sublot", "material", "measure", "disposition", "on_hand", "counted", "reason", "day")
BESIDE = ("material", "measure", "disposition")  # columns that are for who counts, and aren't read
NAMES = ("owner", "lot", "sublot", "material")
NUMBERS = ("on_hand", "counted", "day")
HELD = """
SELECT s.owner, s.lot, s.sublot FROM sublots AS s JOIN lots AS l USING (owner, lot)
WHERE s.amount > 0 AND (:owner IS NULL OR owner = :owner) AND (:material IS NULL OR l.material = :material)
"""
IS_FOUND = f"""
SELECT 1 FROM moves WHERE owner = ? AND mkey >= '{OF_COUNT}' AND mkey < '{OF_COUNT}Z' AND lot = ?
  AND kind = {Kind.RECEIVE:d}
"""
MOST_NAMES = 9  # lots of what was found of one lot
WIDTHS = {"reason": 40, "counted": 14}
Sublot = tuple[LotId, str]


class Outcome(Enum):
    """What came of a row, as the sums at the end name it."""

    SAME = "as on hand"
    THERE = "there already"
    DONE = "recorded"
    BLANK = "not counted"
    REFUSED = "refused"


@dataclass(frozen=True)
class Difference:
    """A row whose count isn't what was on hand: the line of `toll` that records it, and its reason."""

    record: Record
    line: Line
    words: list[str]
    note: Link | Reason
    apart: "Apart"

    def __str__(self) -> str:
        values, noted = self.record.values, self.record.noted
        where = f"{values['owner']} {values['lot']} {values['sublot']}"
        amount = int(self.words[self.line.values.index("AMOUNT")])
        into = f" into {self.words[self.line.values.index('LOT')]}" if self.line.name == "receive" else ""
        counted, on_hand = f"{int(noted['counted']):,} counted{self.apart}", f"{int(values['on_hand']):,} on hand"
        return f"row {self.record.row} ({where}: {counted}, {on_hand}: {self.line.name} {amount:,}{into})"


@dataclass
class Apart:
    """How much of what was counted in a sublot is what earlier counts found there; how much of such a find was counted
    with its lot; and the find in the sheet that moved since, if one did."""

    finds: int = 0
    elsewhere: int = 0
    moved: LotId | None = None

    def __str__(self) -> str:
        finds = f" with {self.finds:,} found before" if self.finds else ""
        return f"{finds}{f' besides {self.elsewhere:,} with its lot' if self.elsewhere else ''}"


@dataclass
class Count:
    """What a counted sheet says: how many rows had which outcome, the differences that are to be recorded, with what
    the journal notes beside each, and what is refused; and the fault that ended the recording, if one did."""

    outcomes: Counter[Outcome] = field(default_factory=Counter)
    differences: list[Difference] = field(default_factory=list)
    refused: list[Finding] = field(default_factory=list)
    left_out: list[Sublot] = field(default_factory=list)  # of the sheet's materials, what it hasn't
    beside: dict[int, dict[str, Any]] = field(default_factory=dict)  # by the numbers of rows
    remarks: list[Finding] = field(default_factory=list)
    is_wrong: bool = False  # the sheet as a whole
    fault: str = ""


def rows_to_count(base: Base, owner: str | None, material: str | None, day: int) -> list[dict[str, Any]]:
    """A row for each sublot that holds something, by owner, lot and sublot."""
    names = base.execute(HELD, {"owner": owner, "material": material}).fetchall()
    wanted = {(LotId(lot_owner, lot), sublot) for lot_owner, lot, sublot in names}
    lots = lots_of(base, {lot for lot, _ in wanted})
    held = sublots_of(base, lots)
    rows = []
    for lot, sublot in sorted(wanted):
        about = lots[lot].material, lots[lot].measure, lots[lot].disposition.word
        rows.append(dict(zip(COLUMNS, (*lot, sublot, *about, held[lot, sublot], None, None, day))))
    return rows


def as_csv(rows: Iterable[dict[str, Any]]) -> str:
    """The sheet as CSV: names are formulas of texts, which no spreadsheet takes for numbers."""
    cells = [[as_formula(row[name]) if name in NAMES else as_cell(row[name]) for name in COLUMNS] for row in rows]
    return csv_of([COLUMNS, *cells])


def as_workbook(rows: Iterable[dict[str, Any]]) -> bytes:
    """The sheet as .xlsx, all of whose cells are texts."""
    import openpyxl
    from openpyxl.cell import WriteOnlyCell

    book = openpyxl.Workbook(write_only=True)
    sheet = book.create_sheet("count")
    sheet.freeze_panes = "A2"
    for number, name in enumerate(COLUMNS):
        sheet.column_dimensions[chr(ord("A") + number)].width = WIDTHS.get(name, 18)
    sheet.append(COLUMNS)
    for row in rows:
        cells = []
        for name in COLUMNS:
            cell = WriteOnlyCell(sheet, "" if row[name] is None else str(row[name]))
            cell.number_format = "@"
            cells.append(cell)
        sheet.append(cells)
    file = io.BytesIO()
    book.save(file)
    return file.getvalue()


def read(context: Context, path: str, are_meant: bool, **given: Any) -> Count:
    """What a counted sheet of a file says, as options ask for it. `are_meant` says that days are, whatever they are."""
    source, sha256 = read_source(path, {**given, "ignored": (*given["ignored"], *BESIDE)}, COUNTS)
    origin = {"sheet": os.path.basename(path), "sheet_sha256": sha256}
    return count_of(context, source, are_meant, lambda record: {"row": record.row, **origin})


def of_rows(context: Context, rows: Sequence[Mapping[str, str]], are_meant: bool) -> Count:
    """What rows say that were counted at a screen, by the names of a sheet's columns; empty ones weren't counted."""
    columns = [*COUNTS.columns, *COUNTS.noted]
    cells = [[Cell(row.get(name, ""), is_text=True) for name in columns] for row in rows]
    header = [Cell(name, is_text=True) for name in columns]
    return count_of(context, Sheet(Table([*enumerate([header, *cells], 1)]), COUNTS, Asked()), are_meant)


def count_of(
    context: Context, source: Sheet, are_meant: bool, origin_of: Callable[[Record], dict[str, Any]] = lambda _: {}
) -> Count:
    """What counted rows say of the office; the journal notes where each came from."""
    office = context.office()
    if source.wrong:
        return Count(remarks=sorted([*source.wrong, *source.let]), is_wrong=True)
    if source.records:
        with earlier.tables_of(office) as bases:
            check_days(bases, context.settings.time_zone, source, are_meant, is_recorded)
    with making.desk(context) as desk:
        count = compare(desk, source)
        for each in count.differences:
            count.beside[each.record.row] = {**origin_of(each.record), **desk.all_members([each.note])}
    count.remarks = sorted(source.let)
    return count


def record(context: Context, count: Count) -> Iterator[tuple[Difference, Answer]]:
    """Gives the differences to `toll`, with what came of each; a fault ends that."""
    office, journal = context.office(), context.journal()
    with client.asker(office, len(count.differences)) as ask, journal.series():
        for each in count.differences:
            beside = count.beside[each.record.row]
            answer = asking.asked(context, office, each.line, each.words, journal, ask, **beside)
            if answer.status == FAULT:
                count.fault = answer.error.strip() or "toll ended without an answer"
                return
            count.outcomes[Outcome.REFUSED if answer.status else Outcome.DONE] += 1
            yield each, answer


def compare(desk: Desk, sheet: Sheet) -> Count:
    """What a counted sheet says of the office as it is now."""
    count, seen = Count(refused=list(sheet.refused)), set[Sublot]()
    lots = {LotId(record.values["owner"], record.values["lot"]) for record in sheet.records}
    known, held = lots_of(desk.base, lots), sublots_of(desk.base, lots)
    taken: set[LotId] = set()
    apart = counted_apart(desk, sheet.records)
    for record in sheet.records:
        place = place_of(record)
        fault = "it is in a row before this one, too" if place in seen else ""
        seen.add(place)
        fault = fault or ("" if place[0] in known else f"there is no lot {place[0]}")
        if fault:
            count.refused.append(Finding(record.row, sheet.places["lot"], fault, "lot"))
            continue
        try:
            result = of_row(desk, record, held.get(place, 0), known[place[0]].material, taken, apart[place])
        except Failure as failure:
            count.refused.append(Finding(record.row, sheet.places["counted"], failure.message, "counted"))
            continue
        if isinstance(result, Outcome):
            count.outcomes[result] += 1
        else:
            count.differences.append(result)
    count.left_out = left_out(desk.base, {(lot.id.owner, lot.material) for lot in known.values()}, seen)
    return count


def place_of(record: Record) -> Sublot:
    """The sublot of a row."""
    return LotId(record.values["owner"], record.values["lot"]), record.values["sublot"]


def counted_apart(desk: Desk, records: Iterable[Record]) -> dict[Sublot, Apart]:
    """What earlier counts found in each sublot, and was counted with its lot: as much as is counted beyond what is on
    hand there, and as the find's own row lacks or leaves blank, or as it has on hand where the sheet lacks its row."""
    rows, finds = {place_of(record): record for record in records}, finds_of(desk)
    held, apart = sublots_of(desk.base, {lot for lots in finds.values() for lot in lots}), defaultdict[Sublot, Apart](
        Apart
    )
    for (lot, sublot), record in rows.items():
        beyond = int(record.noted.get("counted", 0)) - int(record.values["on_hand"])
        places = sorted(((find, sublot) for find in finds.get(lot, [])), key=lambda place: place not in rows)
        for place in places if beyond > 0 else []:
            own, now = rows.get(place), held.get(place, 0)
            with_lot = min(beyond, max(0, (missing_in(own) if own else now) - apart[place].elsewhere))
            apart[lot, sublot].finds += with_lot
            apart[place].elsewhere += with_lot
            beyond -= with_lot
            if with_lot and own and now != int(own.values["on_hand"]) and not has_key(desk, own):
                apart[lot, sublot].moved = place[0]
    return apart


def has_key(desk: Desk, record: Record) -> bool:
    """Whether the difference of a row that was counted is recorded."""
    return "counted" in record.noted and desk.has(HAS_KEY, record.values["owner"], key_of(record))


def missing_in(record: Record) -> int:
    """How much of what a row has on hand isn't counted in it."""
    return int(record.values["on_hand"]) - int(record.noted.get("counted", 0))


def finds_of(desk: Desk) -> dict[LotId, list[LotId]]:
    """The lots into which counts received what they found of each lot, with what was found of these in turn."""
    direct = defaultdict[LotId, list[LotId]](list)
    for link in desk.register.links:
        if link.why == Why.CORRECTION and link.lot and desk.has(IS_FOUND, link.owner, link.lot):
            direct[link.contained].append(LotId(link.owner, link.lot))
    finds: dict[LotId, list[LotId]] = {}
    for lot in list(direct):
        finds[lot] = list(dict.fromkeys(direct[lot]))
        for find in finds[lot]:
            finds[lot] += [other for other in direct.get(find, []) if other not in (lot, *finds[lot])]
    return finds


def left_out(base: Base, materials: set[tuple[str, str]], seen: set[Sublot]) -> list[Sublot]:
    """The sublots of these materials that hold something and aren't in the sheet."""
    rows = [(LotId(*lot), sublot) for *lot, sublot in base.execute(HELD, {"owner": None, "material": None})]
    lots = lots_of(base, {lot for lot, _ in rows})
    return sorted(row for row in rows if (row[0].owner, lots[row[0]].material) in materials and row not in seen)


def of_row(
    desk: Desk, record: Record, now: int, material: str, taken: set[LotId], apart: Apart
) -> Outcome | Difference:
    """What a row says; fails if its sublot has moved since the sheet was made, or if it has no reason."""
    values, noted = record.values, record.noted
    if "counted" not in noted:
        return Outcome.BLANK
    if has_key(desk, record):
        return Outcome.THERE
    counted, on_hand = int(noted["counted"]) - apart.finds + apart.elsewhere, int(values["on_hand"])
    if apart.moved:
        raise Failure(f"{apart.moved}, which was found there, moved since the sheet was made: count it again")
    if counted in (on_hand, now):
        return Outcome.SAME
    if on_hand != now:
        raise Failure(f"{now:,} is on hand now, and {on_hand:,} was when the sheet was made: count it again")
    if "reason" not in noted:
        raise Failure(f"{counted:,} counted and {on_hand:,} on hand: a difference needs a reason")
    return difference_of(desk, record, key_of(record), material, taken, apart)


def is_recorded(base: Base, record: Record) -> bool:
    """Whether a row records nothing, or tables have its key."""
    if as_number(record.noted.get("counted", record.values["on_hand"])) == as_number(record.values["on_hand"]):
        return True
    return base.execute(HAS_KEY, (record.values["owner"], key_of(record))).fetchone() is not None


def key_of(record: Record) -> str:
    """The key by which a difference is recorded: the same one of the same row, however its numbers are written."""
    values = {**record.values, "counted": record.noted["counted"]}
    cells = [as_number(cell) if name in NUMBERS else cell for name, cell in values.items()]
    return f"{OF_COUNT}{hashlib.sha256(' '.join(cells).encode()).hexdigest()[:10].upper()}"


def difference_of(desk: Desk, record: Record, key: str, material: str, taken: set[LotId], apart: Apart) -> Difference:
    """How a difference is recorded: what is missing is scrapped; what was found is received into a new lot, which is
    linked to the counted one."""
    values, reason = record.values, record.noted["reason"]
    owner, lot, sublot, day = values["owner"], values["lot"], values["sublot"], values["day"]
    amount = int(record.noted["counted"]) - apart.finds + apart.elsewhere - int(values["on_hand"])
    if amount < 0:
        words = [owner, key, lot, sublot, str(-amount), day]
        return Difference(record, LINES["scrap"], words, Reason(owner, "scrap", reason, key=key), apart)
    new = new_lot(desk, LotId(owner, lot), key, taken)
    link = Link(owner, new, "", 0, owner, lot, Why.CORRECTION, None, reason)
    desk.require_link(link, is_new=True)
    return Difference(record, LINES["receive"], [owner, key, material, new, sublot, str(amount), day], link, apart)


def new_lot(desk: Desk, lot: LotId, key: str, taken: set[LotId]) -> str:
    """The name of the lot for what was found of another one: that with -C behind it, if it is free."""
    names = [f"{lot.name}-C", *(f"{lot.name}-C{number}" for number in range(2, MOST_NAMES + 1))]
    free = [
        name
        for name in names
        if not name_fault(name) and LotId(lot.owner, name) not in taken and not desk.has(HAS_LOT, lot.owner, name)
    ]
    name = free[0] if free else key
    taken.add(LotId(lot.owner, name))
    return name
