"""The papers of a recall case: the plant's, and a letter for each customer; and who answered what."""
from collections.abc import Iterable
from dataclasses import dataclass, field
from functools import cached_property
from typing import NamedTuple

from ...core.failure import printable
from ...core.journal.log import Journal
from ...core.settings import PlantFacts
from ...model.genealogy import Genealogy, Trace
from ...model.notes import CaseReply, OwnerFacts
from ...model.quality import owner_in_full
from ...model.register.cases import Case, starts_over_all
from ...model.register.drills import as_clock, as_moment
from ...model.register.noted import Noted
from ...model.residues import UNDECIDED, MayContain
from ...model.rows import BatchId, LotId, batches_of
from ..columns import columns
from ..sheets import Sheet, percent, table_of
from .certificate import sender_of
from .copies import Source
from .drill import FOUND
from .printing import Document
from .recall import HELD, LOTS, SHIPMENTS, Report, View, read_lots, read_report
from .recall_paper import may_contain, may_contain_in, running, sublots, totals
from .recipients import Recipients, received_of, returns_of, without_recipient

NOTHING = Trace({}, {})  # a recall of no lot
UNKNOWN = "(not noted)"  # in the place of a customer of whom nobody noted that it got something
UNNOTED = f"SELECT m.owner, r.lot, r.material, r.measure, sum(m.amount) {SHIPMENTS} AND m.party = '' GROUP BY 1, 2"


@dataclass
class Item:
    """What a customer got of a lot in how many shipments with which documents, what of it came back before the case
    began and since, and what it answered."""

    lot: LotId
    material: str
    measure: str
    shipments: int
    shipped: int
    documents: str = ""
    returned_before: int = 0
    returned_since: int = 0
    noted: Noted | None = None  # the last answer about it
    reply: CaseReply | None = None

    @property
    def answered_at(self) -> str:
        """When its customer answered about it last; empty if it didn't."""
        return as_moment(self.noted) if self.noted else ""

    @property
    def had(self) -> int:
        """What it had when the case began."""
        return max(0, self.shipped - self.returned_before)

    @property
    def back(self) -> int:
        """What came back since: as it was received, or as it says."""
        return max(self.returned_since, self.reply.back if self.reply else 0)

    @property
    def destroyed(self) -> int:
        """What it says it destroyed."""
        return self.reply.destroyed if self.reply else 0

    @property
    def gone(self) -> int:
        """What it says can't be found."""
        return self.reply.gone if self.reply else 0

    @property
    def open(self) -> int:
        """Of how much nothing is known yet."""
        return max(0, self.had - self.back - self.destroyed - self.gone)


@dataclass
class Customer:
    """A customer of an owner that got some of what is recalled; without a name for what nobody noted."""

    owner: str
    party: str
    name: str = ""
    contact: str = ""
    phone: str = ""
    address: str = ""
    items: list[Item] = field(default_factory=list)
    answered: Noted | None = None

    @property
    def called(self) -> str:
        """What it is called in tables."""
        return self.party or UNKNOWN

    @property
    def answered_at(self) -> str:
        """When it answered last; empty if it didn't."""
        return as_moment(self.answered) if self.answered else ""


class Row(NamedTuple):
    """A line of the table of answers."""

    customer: Customer
    item: Item


STATUS = columns(
    "owner noted_party noted_name:text answered:text lot material had:number back=came_back:number "
    "destroyed:number gone=not_to_be_found:number open:number measure=unit:text@beside",
    owner="customer.owner",
    noted_party="customer.called",
    noted_name="customer.name",
    answered="item.answered_at",
    lot="item.lot.name",
    material="item.material",
    had="item.had",
    back="item.back",
    destroyed="item.destroyed",
    gone="item.gone",
    open="item.open",
    measure="item.measure",
)
CONTACTS = columns(
    "owner noted_party noted_name:text noted_contact:text noted_phone:text noted_address:text lots:number answered:text"
)
OF_LETTER = columns(
    "lot material shipments:number shipped:number returned=came_back:number had=you_have:number "
    "measure=unit:text@beside noted_documents:text",
    noted_documents="documents",
    lot="lot.name",
    returned="returned_before",
)
REPLIES = columns("time=UTC:text who:text owner noted_party lot what:text noted_reason=reason:text")


@dataclass
class CaseReport:
    """A case with all that it comes to now: the recall of its lots, the batches that aren't closed, and its
    customers."""

    case: Case
    source: Source
    view: View
    batches: list[BatchId]  # with which it begins

    @property
    def open_batches(self) -> list[BatchId]:
        """The batches that took some of it, or with which it begins, and that aren't closed."""
        concerned = [step.batch for step in self.view.steps]
        concerned += batches_of(self.source.base, self.batches).values()
        return sorted({batch.id for batch in concerned if not batch.is_closed})

    @cached_property
    def may_contain(self) -> list[MayContain]:
        """The batches that may contain residues of it, of which a person decides."""
        return may_contain_in(self.source, self.view.report, self.batches)

    @property
    def lots_on_hand(self) -> list[LotId]:
        """Its lots that are on hand."""
        return [lot.id for lot in self.view.lots if lot.on_hand]

    @cached_property
    def received(self) -> tuple[Recipients, Sheet]:
        """What each customer got of each lot, less what came back, and the table of what came back."""
        received = received_of(self.view)
        return received, returns_of(self.view, received, self.case.note.day)

    @cached_property
    def customers(self) -> list[Customer]:
        """Its customers, by owner and name; last, of each owner, one without a name for what nobody noted."""
        customers: dict[tuple[str, str], Customer] = {}
        (received, _), replies = self.received, self.case.replies
        for (owner, party, lot), got in received.items():
            _, _, name, contact, phone, address, _, material = got.about
            customer = customers.setdefault((owner, party), Customer(owner, party, name, contact, phone, address))
            measure, document_names = got.behind
            since = min(got.returned, got.returned_since)
            amounts = got.shipments, got.amount, document_names, got.returned - since, since
            reply: tuple[Noted | None, CaseReply | None] = (None, None)
            reply = replies.get((owner, party, lot.name)) or replies.get((owner, party, "")) or reply
            customer.items.append(Item(lot, material, measure, *amounts, *reply))
        for owner, name, material, measure, amount in self.source.base.execute(UNNOTED, {"reader": ""}):
            unknown = customers.setdefault((owner, ""), Customer(owner, ""))
            unknown.items.append(Item(LotId(owner, name), material, measure, 1, amount))
        for noted, note in self.case.answers:
            if (note.owner, note.party) in customers:
                customers[note.owner, note.party].answered = noted
        return [customers[key] for key in sorted(customers, key=lambda key: (key[0], key[1] == "", key[1]))]

    @property
    def rows(self) -> list[Row]:
        """The lines of the table of answers."""
        return [Row(customer, item) for customer in self.customers for item in customer.items]

    @property
    def is_done(self) -> bool:
        """Whether it is known of all what became of it, and all that is on hand is held, unless it is a drill."""
        return not any(row.item.open for row in self.rows) and (self.case.is_drill or not self.not_held)

    @property
    def not_held(self) -> int:
        """How many lots that are on hand aren't held."""
        return sum(lot.word != HELD for lot in self.view.lots if lot.on_hand)

    @property
    def has_unknown(self) -> bool:
        """Whether nobody noted who got some of it."""
        return any(not customer.party for customer in self.customers)

    @property
    def progress(self) -> dict[str, str]:
        """How many customers answered, and what was recovered of each unit, in percent."""
        reached = [customer for customer in self.customers if customer.answered]
        count = len(self.customers)
        facts = {"customers that answered": f"{len(reached):,} of {count:,}{share(len(reached), count)}"}
        for measure in sorted({row.item.measure for row in self.rows}):
            items = [row.item for row in self.rows if row.item.measure == measure]
            had, left = sum(item.had for item in items), sum(item.open for item in items)
            recovered = sum(item.back + item.destroyed for item in items)
            facts[f"recovered, {measure}"] = f"{recovered:,} of {had:,}{share(recovered, had)}"
            facts[f"accounted for, {measure}"] = f"{had - left:,} of {had:,}{share(had - left, had)}"
        return facts

    @property
    def facts(self) -> dict[str, str]:
        """What its paper and its status begin with."""
        case, on_hand = self.case, self.lots_on_hand
        closed = {"closed": f"{as_moment(case.closed)} by {printable(case.closed.who)}"} if case.closed else {}
        return {
            "case": f"{case.number}{', a drill' if case.is_drill else ''}",
            "from": case.note.origin,
            "reason": case.note.reason,
            "opened": f"{as_moment(case.opened)} by {printable(case.opened.who)}",
            **closed,
            "clock": as_clock(case.took),
            "lots": f"{len(self.view.lots):,}, of which {len(on_hand):,} are on hand "
            f"and {len(on_hand) - self.not_held:,} of these held",
            "batches that aren't closed": f"{len(self.open_batches):,}",
            **self.progress,
            **self.unclean,
        }

    @property
    def unclean(self) -> dict[str, str]:
        """How many batches may contain residues of it, if any does."""
        rows = self.may_contain
        undecided = sum(row.decision == UNDECIDED for row in rows)
        text = f"{len(rows):,}, of which {undecided:,} are not decided"
        return {"batches that may contain some": text} if rows else {}


def share(part: int, whole: int) -> str:
    """A part of a whole in percent, as a text behind it; of nothing there is none."""
    return f", {percent(part, whole)} %" if whole else ""


def read_case(source: Source, case: Case, journal: Journal, is_paper: bool = False) -> CaseReport:
    """A case as it is now; of its paper `toll` has to tell the same."""
    starts = starts_over_all(case, journal, source.newest.base, None if source.is_one else source.base)
    genealogy = Genealogy(source.base, source.register, is_plants=True)
    lots = list(dict.fromkeys([*starts.lots, *(lot for each in starts.batches for lot in genealogy.lots_of(each))]))
    if not lots:
        report = Report(
            source.base,
            LotId("", ""),
            genealogy,
            read_lots(source.base, NOTHING),
            [],
            "",
            len(source.files),
            source.register,
            NOTHING,
        )
    else:
        report = read_report(source, *lots, is_plants=True, is_paper=is_paper)
    return CaseReport(case, source, View(report), starts.batches)


def status(report: CaseReport) -> Sheet:
    """Who answered what."""
    return table_of("customers", STATUS, report.rows)


def contacts(customers: Iterable[Customer]) -> Sheet:
    """How customers are reached."""
    rows = [
        (each.owner, each.called, each.name, each.contact, each.phone, each.address, len(each.items), each.answered_at)
        for each in customers
    ]
    return Sheet("contacts", CONTACTS, rows)


def documents(source: Source, case: Case, journal: Journal, plant: PlantFacts) -> list[Document]:
    """The plant's paper of a case, and a letter for each customer."""
    report = read_case(source, case, journal, is_paper=True)
    letters = [letter(report, customer, plant) for customer in report.customers if customer.party]
    return [paper(report), *letters]


def paper(report: CaseReport) -> Document:
    """The plant's paper of a case."""
    case, view = report.case, report.view
    lots = view.select("found", FOUND, f"{LOTS} ORDER BY place", ["on_hand", "shipped"])
    customers = report.customers
    sheets = [running(view), sublots(view), totals(view), status(report), without_recipient(view), contacts(customers)]
    sheets += [replies(case), lots]
    if not view.is_noted:
        sheets = [sheet.without("noted") for sheet in sheets]
    _, returned = report.received
    beside = (returned, view.links, view.plant_links, may_contain(report.may_contain), view.corrections)
    sheets += [sheet for sheet in beside if sheet.rows]
    open_batches = [str(batch) for batch in report.open_batches]
    values = {"facts": report.facts, "is_drill": case.is_drill, "open_batches": open_batches}
    values |= {"is_noted": view.is_noted, "counts": view.counts}
    return Document("case", True, f"Recall case {case.number}", sheets, values, "plant")


def replies(case: Case) -> Sheet:
    """The answers, the oldest first."""
    rows = [
        (
            as_moment(noted),
            printable(noted.who),
            note.owner,
            note.party,
            note.lot,
            reply_text(note),
            note.reason or None,
        )
        for noted, note in case.answers
    ]
    return Sheet("replies", REPLIES, rows)


def reply_text(note: CaseReply) -> str:
    """What a customer answered, in words."""
    amounts = {"back": note.back, "destroyed": note.destroyed, "not to be found": note.gone}
    return ", ".join(f"{amount:,} {name}" for name, amount in amounts.items() if amount) or "it answered"


def letter(report: CaseReport, customer: Customer, plant: PlantFacts) -> Document:
    """The letter to a customer, which has its owner's rows alone."""
    case, register = report.case, report.source.register.of(customer.owner)
    owner = owner_in_full(register.owners.get(customer.owner) or OwnerFacts(customer.owner))
    to = {"to": customer.name or customer.party, "address": customer.address, "contact": customer.contact}
    facts = {**sender_of(plant), **owner, **{name: text for name, text in to.items() if text}, "case": case.number}
    sheet = table_of("lots", OF_LETTER, [item for item in customer.items])
    if not any(item.returned_before for item in customer.items):
        sheet = sheet.without("returned")
    title = f"Recall {case.number}"
    folder = f"letters/{customer.owner}/{customer.party}"  # a name may have hyphens, and no slash
    return Document(
        "letter", False, title, [sheet], {"facts": facts, "is_drill": case.is_drill}, folder, is_across=False
    )
