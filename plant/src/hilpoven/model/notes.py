"""The notes of the plant, and what each says.

Of several notes about a thing the last one that says something counts, member by member.
"""
import re
from collections.abc import Mapping
from dataclasses import dataclass, fields, replace
from typing import ClassVar, TypeVar

from .. import HOUSE
from ..core.days import format_day, format_month
from ..core.failure import REFUSED, Failure
from ..core.forms import listed
from .kinds import Bound
from .kinds import Role as Role
from .kinds import Spread
from .kinds import Why as Why
from .measures import as_measured
from .nearest import nearest
from .rows import BatchId, LotId

PERCENT = re.compile(r"([0-9]{1,3})(?:\.([0-9]))?")
MOST_ALLOWANCE = 1_000  # tenths of a percent


KINDS: dict[str, type["Note"]] = {}  # all kinds of notes, by the words that a journal has for them


@dataclass(frozen=True)
class Note:
    """What the plant notes for one owner."""

    KIND: ClassVar[str]
    # The table of a register that has those that stand; empty of a kind that is read as the journal has it.
    TABLE: ClassVar[str] = ""
    # What names the thing that a note is about, of a kind of which the last note counts.
    SUBJECT: ClassVar[tuple[str, ...]] = ()
    owner: str

    def __init_subclass__(cls) -> None:
        if "KIND" in vars(cls):
            KINDS[cls.KIND] = cls

    @property
    def subject(self) -> tuple[object, ...]:
        """What it is about, if the last note of that counts."""
        return tuple(getattr(self, name) for name in self.SUBJECT)

    @property
    def sentence(self) -> str:
        """What it says, in words."""
        raise NotImplementedError


def in_words(facts: Mapping[str, object]) -> str:
    """What a note says of a thing, by what each is called; what it doesn't say is left out."""
    return ", ".join(f"{name} {value}" for name, value in facts.items() if value)


ResultId = tuple[str, str, str, int, int]  # owner, lot, test, value and day: a result has no key


@dataclass(frozen=True)
class MovementFacts(Note):
    """What is known of a receipt or a shipment: the party that sent or gets it, the supplier's name of the lot, and the
    document that came or went with it."""

    KIND = "movement"
    TABLE = "movement_note"
    SUBJECT = ("owner", "key")
    key: str
    party: str = ""
    supplier_lot: str = ""
    document: str = ""

    @property
    def sentence(self) -> str:
        """Which movement, and what is known of it."""
        facts = {"party": self.party, "the supplier's lot": self.supplier_lot, "document": self.document}
        return f"movement {self.key} of {self.owner}: {in_words(facts)}"


@dataclass(frozen=True)
class OwnerFacts(Note):
    """The full name of an owner, its address, and its Global Location Number."""

    KIND = "owner"
    TABLE = "owner_note"
    SUBJECT = ("owner",)
    name: str = ""
    address: str = ""
    gln: str = ""

    @property
    def sentence(self) -> str:
        """Which owner, and what is known of it."""
        facts = {"name": self.name, "address": self.address, "GLN": self.gln}
        return f"owner {self.owner}: {in_words(facts)}"


@dataclass(frozen=True)
class MaterialFacts(Note):
    """The full name of a material, its Global Trade Item Number, the code of its unit, and its allergens."""

    KIND = "material"
    TABLE = "material_note"
    SUBJECT = ("owner", "material")
    material: str
    name: str = ""
    gtin: str = ""
    unit_code: str = ""
    allergens: tuple[str, ...] = ()

    @property
    def sentence(self) -> str:
        """Which material, and what is known of it."""
        facts = {"name": self.name, "GTIN": self.gtin, "unit code": self.unit_code}
        facts |= {"allergens": ", ".join(self.allergens)}
        return f"material {self.material} of {self.owner}: {in_words(facts)}"


@dataclass(frozen=True)
class RecipeFacts(Note):
    """How much of a recipe's materials may be lost by the contract, in tenths of a percent, and which of its products
    is the main one."""

    KIND = "recipe"
    TABLE = "recipe_note"
    SUBJECT = ("owner", "recipe")
    recipe: str
    allowance: int = 0
    product: str = ""

    @property
    def sentence(self) -> str:
        """Which recipe, and what is known of it."""
        allowance = percent_of(self.allowance) if self.allowance else ""
        return (
            f"recipe {self.recipe} of {self.owner}: {in_words({'allowance': allowance, 'main product': self.product})}"
        )


def percent_of(tenths: int) -> str:
    """Tenths of a percent as people read them."""
    return f"{tenths // 10}.{tenths % 10} %"


def tenths_in(text: str) -> int:
    """How many tenths of a percent a text says, such as 1.5; 0 if it says none from 0.1 to 100."""
    match = PERCENT.fullmatch(text)
    tenths = int(match[1]) * 10 + int(match[2] or 0) if match else 0
    return tenths if tenths <= MOST_ALLOWANCE else 0


@dataclass(frozen=True)
class TestFacts(Note):
    """The full name of a test of a material, the unit of its values, how many decimals they have, and the method."""

    KIND = "test"
    TABLE = "test_note"
    SUBJECT = ("owner", "material", "test")
    material: str
    test: str
    name: str = ""
    unit: str = ""
    decimals: int = 0  # `toll` has 702 of 7.02 with two decimals
    method: str = ""

    @property
    def sentence(self) -> str:
        """Which test, and what is known of it."""
        facts = {"name": self.name, "unit": self.unit, "decimals": self.decimals, "method": self.method}
        return f"test {self.test} of {self.owner} {self.material}: {in_words(facts)}"


@dataclass(frozen=True)
class LotFacts(Note):
    """The days on which a lot was made, expires, and is to be tested again, as YYMMDD."""

    KIND = "lot"
    TABLE = "lot_note"
    SUBJECT = ("owner", "lot")
    lot: str
    made: int | None = None
    expires: int | None = None
    retest: int | None = None

    @property
    def days(self) -> dict[str, str]:
        """The days that are noted, as people read them, by what each is."""
        days = {"made": self.made, "expires": self.expires, "retest": self.retest}
        return {name: format_day(day) for name, day in days.items() if day}

    @property
    def sentence(self) -> str:
        """Which lot, and its days."""
        return f"lot {LotId(self.owner, self.lot)}: {in_words(self.days)}"


@dataclass(frozen=True)
class ResultFacts(Note):
    """The value of a result is a bound: what was measured is below or above it. Results of a lot's test with the same
    value and day aren't told apart."""

    KIND = "result"
    TABLE = "result_note"
    SUBJECT = ("owner", "lot", "test", "value", "day")
    lot: str
    test: str
    value: int
    day: int
    bound: Bound

    @property
    def id(self) -> ResultId:
        """Which result it is about."""
        return self.owner, self.lot, self.test, self.value, self.day

    @property
    def sentence(self) -> str:
        """Which result, and what it means."""
        result = f"{as_measured(self.value)} of test {self.test} of lot {LotId(self.owner, self.lot)}"
        return f"result {result} on day {format_day(self.day)}: what was measured is {self.bound} it"


Facts = TypeVar("Facts", bound=Note)


def joined(before: Facts | None, later: Facts) -> Facts:
    """The facts of a thing with those of an earlier note, for what the later one doesn't say."""
    if before is None:
        return later
    unsaid = {member.name: getattr(before, member.name) for member in fields(later) if not getattr(later, member.name)}
    return replace(later, **unsaid)


@dataclass(frozen=True)
class Link(Note):
    """A lot of the owner, or each lot that a batch of it makes, contains some of another lot, which is the owner's or
    the plant's."""

    KIND = "link"
    TABLE = "link_note"
    lot: str  # empty where a batch stands for its lots
    order: str
    batch: int
    of_owner: str
    of_lot: str
    why: Why
    amount: int | None = None  # in the measure of the lot that is contained; `None` if it isn't known
    reason: str = ""

    @property
    def container(self) -> LotId | BatchId:
        """What contains it: a lot, or a batch that stands for its lots."""
        return LotId(self.owner, self.lot) if self.lot else BatchId(self.owner, self.order, self.batch)

    @property
    def contained(self) -> LotId:
        """The lot that is contained."""
        return LotId(self.of_owner, self.of_lot)

    @property
    def sentence(self) -> str:
        """What contains some of what, and why."""
        kind = "lot" if self.lot else "batch"
        amount = "some" if self.amount is None else f"{self.amount:,}"
        why = f"{self.why}: {self.reason}" if self.reason else self.why
        return f"{kind} {self.container} contains {amount} of lot {self.contained} ({why})"


@dataclass(frozen=True)
class PlantLink(Note):
    """A lot of an owner, or each lot that a batch of it makes, contains some of a lot of any owner, or of what a batch
    took and made. The plant alone sees both ends."""

    KIND = "plant-link"
    TABLE = "plant_link_note"
    of_owner: str
    spread: Spread
    day: int  # on which it was noted
    lot: str = ""  # empty where a batch stands for its lots
    order: str = ""
    batch: int = 0
    of_lot: str = ""  # empty where a batch stands for what it took and made
    of_order: str = ""
    of_batch: int = 0
    amount: int | None = None  # in the measure of the lot that is contained; `None` if it isn't known
    reason: str = ""
    tells: bool = False  # whether the owner sees that its lot contains material of another one, and the day

    @property
    def container(self) -> LotId | BatchId:
        """What contains it: a lot, or a batch that stands for its lots."""
        return LotId(self.owner, self.lot) if self.lot else BatchId(self.owner, self.order, self.batch)

    @property
    def contained(self) -> LotId | BatchId:
        """What is contained: some of a lot, or of what a batch took and made."""
        return (
            LotId(self.of_owner, self.of_lot) if self.of_lot else BatchId(self.of_owner, self.of_order, self.of_batch)
        )

    @property
    def sentence(self) -> str:
        """What contains some of what, why, and whether its owner is told."""
        kinds = ["lot" if isinstance(end, LotId) else "batch" for end in (self.container, self.contained)]
        amount = "some" if self.amount is None else f"{self.amount:,}"
        why = f"{self.spread}{because(self.reason)}"
        telling = f", {self.owner} is told" if self.tells else ""
        return f"{kinds[0]} {self.container} contains {amount} of {kinds[1]} {self.contained} ({why}){telling}"


@dataclass(frozen=True)
class UnitFacts(Note):
    """The full name of a unit. Notes of units are the plant's, HOUSE's."""

    KIND = "unit"
    TABLE = "unit_note"
    SUBJECT = ("unit",)
    unit: str
    name: str = ""

    @property
    def sentence(self) -> str:
        """Which unit, and its full name."""
        return f"unit {self.unit}: {in_words({'name': self.name})}"


@dataclass(frozen=True)
class Cleaned(Note):
    """A unit was cleaned, behind the last batch that had held it: its owner, order and number in the file of the note;
    an empty order where that file had none yet."""

    KIND = "cleaned"
    unit: str
    how: str
    checked: str = ""
    of_owner: str = HOUSE
    order: str = ""
    batch: int = 0

    @property
    def behind(self) -> BatchId | None:
        """The last batch that had held the unit; `None` if the file of the note had none."""
        return BatchId(self.of_owner, self.order, self.batch) if self.order else None

    @property
    def sentence(self) -> str:
        """Which unit, and how."""
        checked = f", checked: {self.checked}" if self.checked else ""
        return f"unit {self.unit} was cleaned: {self.how}{checked}"


@dataclass(frozen=True)
class NoResidue(Note):
    """A batch contains nothing of what its unit held before, as a person decided."""

    KIND = "no-residue"
    SUBJECT = ("owner", "order", "batch")
    order: str
    batch: int
    reason: str

    @property
    def of(self) -> BatchId:
        """The batch."""
        return BatchId(self.owner, self.order, self.batch)

    @property
    def sentence(self) -> str:
        """Which batch, and why."""
        return f"batch {self.of} contains nothing of what its unit held before{because(self.reason)}"


@dataclass(frozen=True)
class Party(Note):
    """A customer, a supplier or a carrier of an owner. The last note of a name counts, member by member; it may empty
    some."""

    KIND = "party"
    TABLE = "party_note"
    SUBJECT = ("owner", "party")
    party: str
    name: str = ""
    address: str = ""
    contact: str = ""
    phone: str = ""
    roles: tuple[Role, ...] = ()
    emptied: tuple[str, ...] = ()  # members that are empty from now on
    gln: str = ""

    @property
    def sentence(self) -> str:
        """Who it is, and how it is reached."""
        facts = [self.name, *self.roles, self.address, self.contact, self.phone]
        facts += [f"GLN {self.gln}"] if self.gln else []
        facts += [f"no {name}" for name in self.emptied]
        return f"party {self.party} of {self.owner}: {', '.join(filter(None, facts))}"

    def over(self, before: "Party | None") -> "Party":
        """The party with what an earlier note says of it, for what this one doesn't say."""
        return replace(joined(before, self), emptied=(), **dict.fromkeys(self.emptied, ""))


@dataclass(frozen=True)
class NotLinked(Note):
    """A receipt looks as if a trace ended there, and doesn't."""

    KIND = "not-linked"
    TABLE = "unlinked_note"
    key: str

    @property
    def sentence(self) -> str:
        """Which receipt."""
        return f"receipt {self.key} of {self.owner} contains no lot that was here before"


@dataclass(frozen=True)
class Corrects(Note):
    """What a receipt or a scrap recorded corrects what another movement did."""

    KIND = "corrects"
    TABLE = "corrects_note"
    SUBJECT = ("owner", "key")
    key: str
    of_owner: str
    of_key: str

    @property
    def sentence(self) -> str:
        """Which one corrects which."""
        return f"{self.key} of {self.owner} corrects {self.of_key} of {self.of_owner}"


@dataclass(frozen=True)
class CorrectionAsked(Note):
    """A movement was typed wrongly, by whoever notes it: how much of which lot was meant, and which party. It holds
    once another person signs it."""

    KIND = "correction"
    key: str
    lot: str
    amount_meant: int
    day: int
    reason: str
    party: str = ""
    sublot: str = ""

    @property
    def sentence(self) -> str:
        """What was meant by which movement."""
        meant = meant_in_words(self.amount_meant, self.lot, self.party)
        return f"correction of {self.key} of {self.owner} to {meant}, not signed by itself{because(self.reason)}"


@dataclass(frozen=True)
class Corrected(Note):
    """A movement was typed wrongly: how much of which lot it recorded, what was meant, who corrected that on which day,
    and who signed it. Other movements set the stock right, of which `Corrects` says so."""

    KIND = "corrected"
    TABLE = "corrected_note"
    key: str
    lot_owner: str
    lot_before: str
    amount_before: int
    lot: str
    amount_meant: int
    day: int
    corrector: str
    reason: str
    party_before: str = ""
    party: str = ""
    signer: str = ""
    of: str = ""  # the note by which it was asked for, if another person signed it

    @property
    def sentence(self) -> str:
        """Which movement recorded what by mistake, and what was meant."""
        before = meant_in_words(self.amount_before, self.lot_before, self.party_before)
        meant = meant_in_words(self.amount_meant, self.lot, self.party)
        return f"{self.key} of {self.owner} recorded {before} for {meant}, {self.by}{because(self.reason)}"

    @property
    def by(self) -> str:
        """When it was corrected, by whom, and who signed that."""
        return mistake_text(self.day, self.corrector, self.signer)


def meant_in_words(amount: int, lot: str, party: str) -> str:
    """How much of which lot was meant, and which party."""
    return f"{amount:,} of {lot}{f' to {party}' if party else ''}"


def mistake_text(day: int, corrector: str = "", signer: str = "") -> str:
    """What is said of a line that was recorded by mistake: when it was corrected, and to the plant by whom."""
    by = f" by {corrector}" if corrector else ""
    return f"recorded by mistake, corrected on {format_day(day)}{by}{f', signed by {signer}' if signer else ''}"


@dataclass(frozen=True)
class Withdrawal(Note):
    """A note doesn't hold, for a reason."""

    KIND = "withdrawal"
    TABLE = "withdrawal_note"
    of: str  # the name of the note
    reason: str

    @property
    def sentence(self) -> str:
        """Which note, and why."""
        return f"note {self.of} of {self.owner} doesn't hold: {self.reason}"


@dataclass(frozen=True)
class RowsLost(Note):
    """A restore put a file in place that hasn't the rows that these notes mean: they stand for no later rows of the
    same names. The last one counts."""

    KIND = "rows-lost"
    lost: tuple[str, ...] = ()  # the names of the notes

    @property
    def sentence(self) -> str:
        """How many, and which first."""
        others = f" and {len(self.lost) - FIRST_LOST:,} more" if len(self.lost) > FIRST_LOST else ""
        return f"rows lost by a restore: those of {', '.join(self.lost[:FIRST_LOST]) or 'no note'}{others}"


@dataclass(frozen=True)
class DrillStart(Note):
    """A drill begins: what became of a lot is to be found, as in a recall."""

    KIND = "drill-start"
    lot: str

    @property
    def sentence(self) -> str:
        """Over which lot."""
        return f"a drill over lot {LotId(self.owner, self.lot)} begins"


@dataclass(frozen=True)
class DrillEnd(Note):
    """A drill ends."""

    KIND = "drill-end"
    of: str  # the name of the note with which it began

    @property
    def sentence(self) -> str:
        """Which drill."""
        return f"the drill {self.of} ends"


@dataclass(frozen=True)
class CaseOpened(Note):
    """A recall case begins, by its number: from what, on which day, and why. A drill is one that says so."""

    KIND = "case-open"
    case: str
    origin: str
    day: int
    reason: str
    drill: int = 0  # 1 if it is a drill

    @property
    def sentence(self) -> str:
        """Which one, and from what it begins."""
        kind = "drill" if self.drill else "case"
        return f"recall {kind} {self.case} begins, from {self.origin}{because(self.reason)}"


@dataclass(frozen=True)
class CaseStart(Note):
    """A recall case begins with a lot, or with what a batch makes."""

    KIND = "case-start"
    case: str
    lot: str = ""
    order: str = ""
    batch: int = 0

    @property
    def start(self) -> LotId | BatchId:
        """With what it begins: a lot, or a batch that stands for its lots."""
        return LotId(self.owner, self.lot) if self.lot else BatchId(self.owner, self.order, self.batch)

    @property
    def sentence(self) -> str:
        """Which one, and with what."""
        return f"recall case {self.case} begins with {'lot' if self.lot else 'batch'} {self.start}"


@dataclass(frozen=True)
class CaseReply(Note):
    """A customer answered in a recall case: how much of a lot it sent or brought back, destroyed, and can't find. The
    last answer about a lot counts; one about no lot says only that it answered."""

    KIND = "case-reply"
    SUBJECT = ("owner", "case", "party", "lot")
    case: str
    party: str
    lot: str = ""
    back: int = 0
    destroyed: int = 0
    gone: int = 0
    reason: str = ""

    @property
    def sentence(self) -> str:
        """Who answered, and what."""
        amounts = {"back": self.back, "destroyed": self.destroyed, "not to be found": self.gone}
        text = ", ".join(f"{amount:,} {name}" for name, amount in amounts.items() if amount) or "nothing of it yet"
        of_lot = f" of lot {self.lot}: {text}" if self.lot else ""
        return f"{self.party} of {self.owner} answered in recall case {self.case}{of_lot}{because(self.reason)}"


@dataclass(frozen=True)
class CaseClosed(Note):
    """A recall case ends."""

    KIND = "case-close"
    case: str
    reason: str = ""

    @property
    def sentence(self) -> str:
        """Which one, and why."""
        return f"recall case {self.case} ends{because(self.reason)}"


@dataclass(frozen=True)
class Judgement(Note):
    """What the plant's quality says of a lot, on a day. The last one counts, and none is withdrawn: another one
    follows. One that belongs to no command of `toll` is of a lot whose material has no test of the plant's own."""

    TABLE = "judgement_note"
    lot: str
    day: int
    reason: str = ""

    @property
    def lot_id(self) -> LotId:
        """The lot."""
        return LotId(self.owner, self.lot)


@dataclass(frozen=True)
class Signed(Judgement):
    """A lot is signed: it may go."""

    KIND = "signed"

    @property
    def sentence(self) -> str:
        """Which lot, when and why."""
        return f"lot {self.lot_id} is signed by the plant on {format_day(self.day)}{because(self.reason)}"


@dataclass(frozen=True)
class Held(Judgement):
    """A lot is held: it stays, until it is signed again."""

    KIND = "held"

    @property
    def sentence(self) -> str:
        """Which lot, when and why."""
        return f"lot {self.lot_id} is held by the plant on {format_day(self.day)}{because(self.reason)}"


@dataclass(frozen=True)
class Reason(Note):
    """Why a command was given that changed a lot, an order, a batch, or what a key recorded."""

    KIND = "reason"
    TABLE = "reason_note"
    command: str
    reason: str
    lot: str = ""
    key: str = ""
    order: str = ""
    batch: int = 0

    @property
    def about(self) -> str:
        """The command with what it was about."""
        name = self.key or self.lot or (f"{self.order}/{self.batch}" if self.batch else self.order)
        return f"{self.command} {name}"

    @property
    def sentence(self) -> str:
        """Which command, and why."""
        return f"{self.about} of {self.owner}{because(self.reason)}"


def because(reason: str) -> str:
    """A reason behind what was done for it; nothing where there is none."""
    return f": {reason}" if reason else ""


FIRST_LOST = 5  # notes that are named where many lost their rows


Cell = str | int | None
Terms = tuple[str, str, int]  # a recipe, its main product, and what of its materials may be lost: tenths of a percent
Place = tuple[int, str, int]  # a batch: the number of its file among all of the office, its order there, its number
Table = tuple[str, tuple[str, ...], tuple[tuple[Cell, ...], ...]]  # its name, its columns, and its rows


@dataclass(frozen=True)
class Settled(Note):
    """The settlement of a month is closed, by its number."""

    KIND = "settlement"
    month: int  # YYMM
    number: str
    tables: tuple[Table, ...]
    recipes: tuple[Terms, ...] = ()
    batches: tuple[Place, ...] = ()

    @property
    def sentence(self) -> str:
        """Which one, and of how many batches."""
        count = f"{len(self.batches):,} {'batch' if len(self.batches) == 1 else 'batches'}"
        return f"settlement {self.number} of {self.owner} is closed: {format_month(self.month)}, {count}"

    def table(self, name: str) -> list[dict[str, Cell]]:
        """The rows of a table of it, by the names of their columns; none if it has no such table."""
        return [dict(zip(columns, row)) for table, columns, rows in self.tables if table == name for row in rows]


Parties = Mapping[tuple[str, str], Party]  # by owner and name
MEMBERS = ("party", "supplier_lot", "document")  # of a movement's facts


@dataclass(frozen=True)
class Task:
    """What a party does in a movement: the role that it needs, and what is said of a party that hasn't it."""

    role: Role
    otherwise: str


GETS = Task(Role.CUSTOMER, "it gets no shipment")
SENDS = Task(Role.SUPPLIER, "it sends nothing but returns")
RETURNS = Task(Role.CUSTOMER, "it returns nothing")


def party_fault(parties: Parties, owner: str, name: str, task: Task) -> str:
    """Why a party can't do this; empty if it can."""
    party = parties.get((owner, name))
    if party is None:
        return f"there is no party {name} of {owner}"
    if task.role in party.roles:
        return ""
    roles = listed([f"a {role}" for role in party.roles])
    return f"{name} of {owner} is {roles}, and no {task.role}: {task.otherwise}"


def require_party(parties: Parties, owner: str, name: str, task: Task) -> None:
    """Fails if a party can't do this, with the nearest names of those that can."""
    if fault := party_fault(parties, owner, name, task):
        names = [party.party for party in parties.values() if party.owner == owner and task.role in party.roles]
        has = parties[owner, name].roles if (owner, name) in parties else ()
        roles = " ".join(f"--role {role}" for role in (*has, task.role))
        adds = f"`hilpoven party add {owner} {name} --name .. {roles}` notes it as one."
        raise Failure(fault, REFUSED, f"{nearest(name, names, f'{task.role}s of {owner}')}\n{adds}")


def facts_of(owner: str, key: str, given: Mapping[str, str | None]) -> MovementFacts | None:
    """What is given of a movement; `None` if nothing is."""
    members = {member: str(given[member]) for member in MEMBERS if given.get(member)}
    return MovementFacts(owner, key, **members) if members else None
