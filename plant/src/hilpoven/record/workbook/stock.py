"""What a workbook says of opening stock: a receipt for each sublot, of which no trace is suspected to end there."""
import hashlib
from dataclasses import dataclass, field

from ...core.failure import Failure
from ...core.grammar import LINES
from ...model.notes import SENDS, LotFacts, Note, NotLinked, Party, facts_of, party_fault
from ...model.register.meant import HAS_KEY
from ...model.rows import OF_OPENING
from ...model.years import earlier
from .. import asking, describing
from ..sheets import noting
from ..sheets.importing import values_of
from ..sheets.sheet import Record
from .definitions import party_in
from .plan import Planner
from .reading import Part
from .tables import MATERIALS, PARTIES, STOCK

RECEIVE = LINES["receive"]
DAYS = ("made", "expires", "retest")  # the columns that say something of a lot
LotName = tuple[str, str]  # its owner and its name


@dataclass
class Lots:
    """What the rows of stock say of each lot: the first row of it, and its days."""

    first: dict[LotName, Record] = field(default_factory=dict)
    days: dict[LotName, dict[str, int]] = field(default_factory=dict)
    noted: set[LotName] = field(default_factory=set)  # whose days a row has noted


def key_of(owner: str, lot: str, sublot: str) -> str:
    """The key by which the opening stock of a sublot is received: a sublot has opening stock once."""
    return f"{OF_OPENING}{hashlib.sha256(' '.join((owner, lot, sublot)).encode()).hexdigest()[:10].upper()}"


def plan_stock(planner: Planner, zone: str, are_meant: bool) -> None:
    """Receives opening stock, with what is noted of receipts and lots."""
    check_days(planner, zone, are_meant)
    rows, lots, parties = list(planner.rows(STOCK)), Lots(), parties_of(planner)
    for part, record in rows:
        check_lot(planner, lots, part, record)
    for part, record in rows:
        owner, sender = record.values["owner"], record.noted.get("from", "")
        if sender and planner.is_clear((PARTIES.title, owner, sender)):
            if fault := party_fault(parties, owner, sender, SENDS):
                planner.fault(part, record, "from", fault)
        plan_row(planner, lots, part, record)


def check_days(planner: Planner, zone: str, are_meant: bool) -> None:
    """Gives the rows their keys, and notes those whose days can't be meant, unless somebody says that they are."""
    if part := planner.workbook.parts.get(STOCK.title):
        sheet = part.sheet
        for record in planner.workbook.records(STOCK):
            record.values["key"] = key_of(*(record.values[name] for name in STOCK.names))
        refused, let = len(sheet.refused), len(sheet.let)
        if STOCK.title not in planner.workbook.unclear:
            noting.check_days(planner.desk.bases, zone, sheet, are_meant)
        planner.plan.faults += [part.of(finding) for finding in sheet.refused[refused:]]
        planner.workbook.let += [part.of(finding) for finding in sheet.let[let:]]


def parties_of(planner: Planner) -> dict[tuple[str, str], Party]:
    """The parties of the office and of the workbook."""
    new = [party_in(record) for record in planner.workbook.records(PARTIES)]
    known = dict(planner.register.parties)
    return known | {(party.owner, party.party): party for party in new if (party.owner, party.party) not in known}


def check_lot(planner: Planner, lots: Lots, part: Part, record: Record) -> None:
    """Notes where a row says something else of its lot than one before it, or than the office."""
    name, material = (record.values["owner"], record.values["lot"]), record.values["material"]
    first = lots.first.setdefault(name, record)
    of_first, recorded = first.values["material"], planner.standing.lots.get(name, material)
    if of_first != material:
        planner.fault(part, record, "material", f"row {first.row} says that the lot is of {of_first}")
    elif recorded != material:
        planner.fault(part, record, "material", f"lot {name[1]} of {name[0]} is there already, of {recorded}")
    days = lots.days.setdefault(name, {})
    for column in DAYS:
        if text := record.noted.get(column):
            if days.setdefault(column, int(text)) != int(text):
                planner.fault(part, record, column, f"a row before it says {days[column]} of the lot")


def plan_row(planner: Planner, lots: Lots, part: Part, record: Record) -> None:
    """Receives the opening stock of a row, unless the office has it, and notes what is new."""
    values = record.values
    owner, key, noted = values["owner"], values["key"], record.noted
    movement = facts_of(owner, key, {**noted, "party": noted.get("from")})
    of_lot = note_of_lot(planner, lots, part, record)
    if is_known(planner, part, record):
        if planner.desk.has(HAS_KEY, owner, key):
            planner.plan.known_keys.append(f"{owner} {key}")
            known = planner.register.facts.get((owner, key))
            columns = {"party": "from"}
            planner.note(part, record, movement and planner.unsaid(part, record, known, movement, **columns))
        planner.note(part, record, of_lot)
    else:
        beside: list[Note] = [NotLinked(owner, key), *filter(None, (movement, of_lot))]
        words = values_of(RECEIVE, record).values()
        planner.step(part, record, "receive", words, [(MATERIALS.title, owner, values["material"])], notes=beside)


def note_of_lot(planner: Planner, lots: Lots, part: Part, record: Record) -> LotFacts | None:
    """The days of a row's lot that aren't noted yet, by the office or by a row before it."""
    name = record.values["owner"], record.values["lot"]
    owner, lot = name
    note, known = LotFacts(owner, lot, **lots.days.get(name, {})), planner.register.lots.get(name)
    if name in lots.noted:
        return None
    lots.noted.add(name)
    new = planner.unsaid(part, record, known, note)
    try:
        if new:
            describing.require_days(planner.register, new)
    except Failure as failure:
        planner.fault(part, record, "expires", failure.message)
    return new


def is_known(planner: Planner, part: Part, record: Record) -> bool:
    """Whether the office has the opening stock of a row: by its key, or because its sublot holds just as much. Notes
    where it has something else."""
    values, standing = record.values, planner.standing
    owner, lot = values["owner"], values["lot"]
    given, held = values_of(RECEIVE, record), standing.recorded.get(part.subject(values))
    if any(earlier.is_repeated(base, RECEIVE, given) for base in planner.desk.bases):
        return True
    if planner.desk.has(HAS_KEY, owner, values["key"]):
        words = f"it is there already with other values: hilpoven show key {owner} {values['key']}"
        planner.fault(part, record, "amount", words)
    elif held == values["amount"]:
        return True
    elif (owner, lot) in standing.lots and (owner, lot) not in standing.opened:
        words = f"lot {lot} of {owner} is there already, and not as opening stock: hilpoven show lot {owner} {lot}"
        planner.fault(part, record, "lot", words)
    elif held is not None:
        planner.fault(part, record, "sublot", f"it is there already with {held}, and not as opening stock")
    elif answer := asking.known_earlier(planner.desk.office, RECEIVE, list(given.values())):
        planner.fault(part, record, "lot", (answer.error or answer.output).strip())
    return False
