"""What is noted with the rows of a sheet of receipts, shipments or results, and which of their days can't be meant."""
from collections.abc import Callable, Sequence
from typing import Any

from ...core import snapshot
from ...core.context import Context
from ...core.failure import Failure
from ...core.table import counted
from ...model.doubtful_days import read_days
from ...model.measures import value_of
from ...model.rows import Base, LotId
from ...model.schema import Role
from ...model.years.earlier import lot_of
from .. import describing, doubts, expiry, making
from ...model.notes import GETS, SENDS, LotFacts, MovementFacts, Parties, ResultFacts, ResultId, party_fault
from ...model.kinds import Bound, split_sign
from .sheet import Finding, Record, Sheet
from .values import ACTUALS, RESULTS, SHIPMENTS
from ...model.register.standing import register_of

COLUMNS = {"to": GETS, "from": SENDS}  # whose values are parties, with what each does
Beside = dict[int, dict[str, Any]]  # what stands in the journal beside rows, by their numbers
LOTS = "SELECT lot FROM lots WHERE owner = ? AND material = ?"


def is_recorded(base: Base, record: Record) -> bool:
    """Whether tables have the key of a row, or its result."""
    return doubts.is_recorded(base, record.of_line)


def check_days(
    bases: Sequence[Base], zone: str, sheet: Sheet, are_meant: bool, has: Callable[[Base, Record], bool] = is_recorded
) -> None:
    """Refuses the rows of which days can't be meant, by the tables of the office's file and of its earlier ones, or
    only tells of them if they are. What is recorded already stays; its days were looked at then."""
    kept, days = [], read_days(bases, zone, (int(record.values["day"]) for record in sheet.records))
    for record in sheet.records:
        why = days.doubt(int(record.values["day"]), LotId(*lot_of(record.of_line)))
        if why and not any(has(base, record) for base in bases):
            words = f"{why}; {'taken' if are_meant else '--yes takes it'}"
            findings = sheet.let if are_meant else sheet.refused
            findings.append(Finding(record.row, sheet.places["day"], words, "day"))
            if not are_meant:
                continue
        kept.append(record)
    sheet.records = kept


def decimals_of(context: Context) -> dict[tuple[str, ...], int]:
    """The decimals of tests that have some, by owner, lot and test."""
    office = context.office()
    if not describing.has_measures(context.journal()):
        return {}
    with snapshot.opened(office) as base:
        noted = [(key, facts.decimals) for key, facts in register_of(context, base).tests.items() if facts.decimals]
        return {
            (owner, lot, test): decimals
            for (owner, material, test), decimals in noted
            for lot, in base.execute(LOTS, (owner, material))
        }


def notes_beside(context: Context, sheet: Sheet) -> Beside:
    """What stands in the journal beside each row of which something is noted. Rows are refused of which it can't be."""
    check_expiry(context, sheet)
    return beside_results(context, sheet) if sheet.kind == RESULTS else beside_movements(context, sheet)


def check_expiry(context: Context, sheet: Sheet) -> None:
    """Warns of rows that ship or consume a lot past its day, or refuses them, as the settings say."""
    settings = {SHIPMENTS.name: context.settings.expiry.ship, ACTUALS.name: context.settings.expiry.actual}
    setting = settings.get(sheet.kind.name)
    if setting is None or not describing.has_noted(context.journal(), LotFacts):
        return
    kept = []
    with making.desk(context) as desk:
        for record in sheet.records:
            try:
                warning = warning_of(desk, setting, record)
            except Failure as failure:
                sheet.refused.append(Finding(record.row, sheet.places["day"], failure.message, "day"))
                continue
            kept.append(record)
            sheet.let += [Finding(record.row, sheet.places["day"], warning, "day")] if warning else []
    sheet.records = kept


def warning_of(desk: making.Desk, setting: str, record: Record) -> str:
    """What is told of a row that ships or consumes a lot past its day; fails where the settings refuse it."""
    values = record.values
    if values.get("use", Role.CONSUMED.word) != Role.CONSUMED.word:
        return ""
    return expiry.warning(desk, setting, LotId(*lot_of(record.of_line)), record.of_line)


def beside_results(context: Context, sheet: Sheet) -> Beside:
    """The notes of results whose value is a bound. Values with decimals become those that `toll` has; rows are refused
    whose results can't be told from others."""
    has_bounds = any(split_sign(record.values["value"])[0] for record in sheet.records)
    if not has_bounds and not describing.has_measures(context.journal()):
        return {}
    read: list[tuple[Record, str, ResultFacts | None]] = []
    seen: dict[ResultId, Bound | None] = {}
    with making.desk(context) as desk:
        for record in sheet.records:
            try:
                read.append((record, *read_result(desk, record, seen)))
            except Failure as failure:
                sheet.refused.append(Finding(record.row, sheet.places["value"], failure.message, "value"))
        sheet.records = [record._replace(values={**record.values, "value": word}) for record, word, _ in read]
        sheet.remarks += remarks_on([(record, word) for record, word, _ in read if word != record.values["value"]])
        return {record.row: desk.members([facts]) for record, _, facts in read if facts}


def remarks_on(new: list[tuple[Record, str]]) -> list[str]:
    """How many values aren't given to `toll` as they stand in the sheet."""
    if not new:
        return []
    (first, word), count = new[0], counted(len(new), "values")
    how = "is given to toll as a whole number" if len(new) == 1 else "are given to toll as whole numbers"
    return [f"{count} {how}, such as {first.values['value']} as {word} (row {first.row})"]


def read_result(
    desk: making.Desk, record: Record, seen: dict[ResultId, Bound | None]
) -> tuple[str, ResultFacts | None]:
    """The value of a row as a word of `toll`, and what is noted of it. Fails if a row before it has another sign for
    the same value."""
    values = record.values
    names, text, day = (values["owner"], values["lot"], values["test"]), values["value"], int(values["day"])
    word, facts = describing.result_of(desk.base, desk.register, *names, text, day)
    bound = facts.bound if facts else None
    if seen.setdefault((*names, value_of(word), day), bound) != bound:
        raise Failure(f"{text} couldn't be told from the result of this value on day {day} in a row before it")
    return word, facts


def beside_movements(context: Context, sheet: Sheet) -> Beside:
    """The facts of receipts and shipments. Rows are refused in which a party isn't there, or can't do what it does
    there."""
    if not any(record.noted for record in sheet.records):
        return {}
    with making.desk(context) as desk:
        refuse_parties(sheet, desk.parties)
        return {record.row: desk.members([facts_in(record)]) for record in sheet.records if record.noted}


def refuse_parties(sheet: Sheet, parties: Parties) -> None:
    """Refuses the rows in which a party isn't there, or can't do what it does there."""
    findings = [
        Finding(record.row, sheet.places[column], fault, column)
        for record in sheet.records
        for column, task in COLUMNS.items()
        if (party := record.noted.get(column)) and (fault := party_fault(parties, record.values["owner"], party, task))
    ]
    rows = {finding.row for finding in findings}
    sheet.records = [record for record in sheet.records if record.row not in rows]
    sheet.refused += findings


def facts_in(record: Record) -> MovementFacts:
    """What is noted with a row."""
    party = record.noted.get("to", "") or record.noted.get("from", "")
    texts = {name: text for name, text in record.noted.items() if name not in COLUMNS}
    return MovementFacts(record.values["owner"], record.values["key"], party, **texts)
