"""What the plant notes beside what `toll` records: links, facts, corrections, parties and descriptions, and how a note
is withdrawn. Each is looked at, and is a line of the journal unless it stands already."""
from collections.abc import Sequence
from dataclasses import replace
from typing import Any, NamedTuple

from .. import HOUSE
from ..core import roles
from ..core.context import Context
from ..core.failure import REFUSED, WRONG_USE, Failure
from ..core.forms import listed
from ..core.grammar import LINES
from ..core.table import Row, Value, counted
from ..model.quality import facts_of_test
from ..model.measures import limits_text
from ..model.nearest import nearest
from ..model.notes import (
    CorrectionAsked,
    Corrects,
    Judgement,
    Link,
    LotFacts,
    MaterialFacts,
    MovementFacts,
    NotLinked,
    Note,
    OwnerFacts,
    Party,
    PlantLink,
    Reason,
    RecipeFacts,
    RowsLost,
    Settled,
    TestFacts,
    UnitFacts,
    Withdrawal,
    joined,
    percent_of,
)
from ..model.register.standing import Status, closings_in, statuses
from ..model.genealogy import suspects
from ..model.register.tables import storable, subject_of
from ..model.rows import BatchId, LotId, require_owner, require_unit
from . import describing, making
from .making import Desk

OF_A_LINE = 1_000  # notes that a line of the journal gets
COLUMNS = ["note", "time", "who", "owner", "what", "stands"]
PARTY_COLUMNS = ["owner", "party", "name", "roles", "contact", "phone", "address"]
NOTED_BY = {  # by which command the notes of a kind are made, where it isn't of the role of `note withdraw`
    **{kind: f"describe {kind}" for kind in ("owner", "material", "recipe", "test", "lot", "unit")},
    "party": "party add",
    "drill-start": "drill start",
    "drill-end": "drill end",
    "settlement": "settle",
    "case-open": "case open",
    "case-start": "case open",
    "case-reply": "case reply",
    "case-close": "case close",
}


class Recorded(NamedTuple):
    """What became of a note: its name, and whether it stood before."""

    name: str
    is_known: bool = False

    def __str__(self) -> str:
        return f"noted already as {self.name}" if self.is_known else f"noted {self.name}"


def record(desk: Desk, words: list[str], note: Note) -> Recorded:
    """Adds a note to the journal unless it stands already."""
    known = desk.standing(note)
    return Recorded(known, is_known=True) if known else Recorded(desk.record(words, note))


def link(context: Context, note: Link) -> Recorded:
    """Notes that a lot, or what a batch makes, contains some of a lot."""
    batch = [] if note.lot else ["--batch", note.order, str(note.batch)]
    words = [note.owner, *([note.lot] if note.lot else []), note.of_lot, *batch, "--why", note.why.value]
    words += ["--of-owner", note.of_owner] if note.of_owner != note.owner else []
    words += [] if note.amount is None else ["--amount", str(note.amount)]
    words += ["--reason", note.reason] if note.reason else []
    with making.desk(context) as desk:
        desk.require_link(note)
        return record(desk, ["link", *words], note)


def plant_link(context: Context, note: PlantLink) -> Recorded:
    """Notes a link that the plant alone sees, unless one stands that says the same of another day."""
    words = ["link", note.owner, *words_of_end(note.container, ""), *words_of_end(note.contained, "of-")]
    words += ["--of-owner", note.of_owner, "--why", note.spread.value, *(["--tell"] if note.tells else [])]
    words += [] if note.amount is None else ["--amount", str(note.amount)]
    words += ["--reason", note.reason] if note.reason else []
    with making.desk(context) as desk:
        desk.require_plant_link(note)
        for status in statuses(desk.notes, PlantLink, owner=note.owner, fault=""):
            known = status.note
            if isinstance(known, PlantLink) and replace(known, day=note.day) == note:
                note = known
        return record(desk, words, note)


def words_of_end(end: LotId | BatchId, which: str) -> list[str]:
    """The words that name one end of a link: those of a batch stand behind an option."""
    return [end.name] if isinstance(end, LotId) else [f"--{which}batch", end.order, str(end.number)]


def withdraw(context: Context, name: str, reason: str) -> Recorded:
    """Notes that a note doesn't hold, and others that say the same."""
    if not reason.strip():
        raise Failure("--reason is empty", WRONG_USE)
    with making.desk(context) as desk:
        status = next(iter(statuses(desk.notes, name=storable(name))), None)
        if status is None or status.note is None:
            names = [known for known, in desk.notes.rows("SELECT name FROM note WHERE fault IS NOT NULL ORDER BY id")]
            raise Failure(f"there is no note {name}", REFUSED, nearest(name, names, "notes"))
        if status.fault and not status.is_lost:
            raise Failure(f"note {name} doesn't stand: {status.fault}", REFUSED)
        changed = changed_by(desk, status.note)
        if maker := maker_of(changed):
            roles.require(context, maker, f"note withdraw of what `{maker}` notes")
        if isinstance(changed, Judgement):
            advice = "`hilpoven sign` or `hilpoven hold` says what holds now"
            raise Failure(f"note {name} is a signature or a hold, which nobody withdraws", REFUSED, advice)
        require_no_correction(desk, status)
        if isinstance(status.note, RowsLost):
            raise Failure(f"note {name} is what a restore noted, which nobody withdraws", REFUSED)
        require_last_closing(desk, status.note, changed)
        same = [
            other.noted.name
            for other in statuses(desk.notes, subject=subject_of(status.note), fault="")
            if other.note == status.note and other.noted.name != name
        ]
        notes = [Withdrawal(status.note.owner, of, reason) for of in (name, *same)]
        return Recorded(desk.record(["note", "withdraw", name, "--reason", reason], *notes))


def require_no_correction(desk: Desk, status: Status) -> None:
    """Fails if `correct` made a note: of what was meant, of what sets the stock right, or a link by which no recall
    loses a line. What only was asked for may be withdrawn."""
    noted, note = status.noted, status.note
    if noted.is_own:
        is_made = noted.words[:1] == ("correct",) and not isinstance(note, CorrectionAsked)
    else:
        is_by_void = isinstance(note, Link) and noted.words[:1] == ("void",)
        is_made = is_by_void or bool(statuses(desk.notes, Corrects, line=noted.line, is_own=0))
    if is_made:
        advice = "`hilpoven correct` says what was meant then"
        raise Failure(f"note {noted.name} is of a correction, which nobody withdraws", REFUSED, advice)


def maker_of(note: Note) -> str:
    """The command that makes such a note; empty where it is of the role of `note withdraw`."""
    if isinstance(note, Reason):
        return note.command if note.command in LINES else "do"
    return NOTED_BY.get(note.KIND, "")


def changed_by(desk: Desk, note: Note) -> Note:
    """The note that holds or doesn't by another one: itself, or what a withdrawal, of a withdrawal or not, is about in
    the end. Fails where that isn't there."""
    passed = set[str]()
    while isinstance(note, Withdrawal):
        named = next((status.note for status in statuses(desk.notes, name=note.of) if note.of not in passed), None)
        passed.add(note.of)
        if named is None:
            raise Failure(f"there is no note {note.of}, which was withdrawn", REFUSED)
        note = named
    return note


def require_last_closing(desk: Desk, note: Note, changed: Note) -> None:
    """Fails if a note is a closed settlement and not the last one of its owner, or is about one that was taken back."""
    if not isinstance(changed, Settled):
        return
    if isinstance(note, Withdrawal):
        advice = "`hilpoven settle` closes the month again, with another number"
        raise Failure("a settlement that was taken back stays so", REFUSED, advice)
    last = closings_in(statuses(desk.notes, Settled), changed.owner)[-1].settled
    if changed != last:
        raise Failure(f"settlement {changed.number} isn't the last one of {changed.owner}: {last.number} is", REFUSED)


def not_linked(context: Context, owner: str, keys: Sequence[str], until: int | None) -> str:
    """Notes that receipts contain no lot that was here before: those of keys, or all that look so until a day; what
    became of them, in words."""
    with making.desk(context) as desk:
        require_owner(desk.base, owner)
        if until is not None:
            own = (each for each in suspects(desk.base, desk.register) if each.owner == owner)
            keys = [each.key for each in own if each.day <= until]
        for key in keys:
            desk.require_receipt(owner, key)
        notes = [NotLinked(owner, key) for key in dict.fromkeys(keys)]
        words = ["note", "not-linked", owner]

        def named(part: Sequence[NotLinked]) -> list[str]:
            return [*words, *(["--until", str(until)] if until is not None else [note.key for note in part])]

        if len(notes) == 1:
            return str(record(desk, named(notes), notes[0]))
        new = [note for note in notes if desk.standing(note) is None]
        for at in range(0, len(new), OF_A_LINE):
            desk.record(named(new[at : at + OF_A_LINE]), *new[at : at + OF_A_LINE])
        return f"{counted(len(new), 'receipts')} noted, {len(notes) - len(new):,} noted already"


def corrects(context: Context, note: Corrects) -> Recorded:
    """Notes that a receipt or a scrap is a correction, and of which movement."""
    with making.desk(context) as desk:
        making.require_correction(desk, note)
        other = ["--of-owner", note.of_owner] if note.of_owner != note.owner else []
        return record(desk, ["note", "corrects", note.owner, note.key, note.of_key, *other], note)


def movement(context: Context, facts: MovementFacts, is_to: bool, is_from: bool) -> Recorded:
    """Notes what is known later of a receipt or a shipment; whether its party got it, or sent it."""
    with making.desk(context) as desk:
        desk.require_facts(facts, is_to, is_from)
        texts = {"--to" if is_to else "--from": facts.party, "--supplier-lot": facts.supplier_lot}
        texts["--document"] = facts.document
        words = [word for option, text in texts.items() if text for word in (option, text)]
        return record(desk, ["note", "movement", facts.owner, facts.key, *words], facts)


def notes_of(context: Context, owner: str | None) -> list[Row]:
    """What the plant noted, of one owner or of all, in the order in which it was noted."""
    rows: list[Row] = []
    with making.desk(context) as desk:
        if owner:
            require_owner(desk.base, owner)
        for status in statuses(desk.notes):
            noted, note, fault = status.noted, status.note, status.fault
            note_owner, sentence = (note.owner, note.sentence) if note else ("", f"a note that {fault}")
            if owner in (None, note_owner):
                stands = f"no: {fault}" if fault else "yes"
                rows.append((noted.name, noted.time, noted.who, note_owner, sentence, stands))
    return rows


# Parties


def add_party(context: Context, note: Party) -> Recorded:
    """Notes a party of an owner, which may be new, or what is new of it."""
    with making.desk(context) as desk:
        require_owner(desk.base, note.owner)
        if (note.owner, note.party) not in desk.parties:
            missing = [option for option, value in (("--name", note.name), ("--role", note.roles)) if not value]
            if missing:
                raise Failure(f"{note.party} is new: party add needs {listed(missing)} of it", WRONG_USE)
        elif note == Party(note.owner, note.party):
            raise Failure("party add: nothing is given to note", WRONG_USE, "such as --phone TEXT")
        return record(desk, ["party", "add", note.owner, note.party], note)


def parties_of(context: Context, owner: str | None) -> list[Row]:
    """The parties of one owner or of all."""
    with making.desk(context) as desk:
        if owner:
            require_owner(desk.base, owner)
        parties = [party for _, party in sorted(desk.parties.items()) if owner in (None, party.owner)]
    return [
        (party.owner, party.party, party.name, ", ".join(party.roles), party.contact, party.phone, party.address)
        for party in parties
    ]


# Descriptions


class Described(NamedTuple):
    """What became of a description: the note, or without one what is noted of the thing, and what is told besides."""

    title: str
    facts: dict[str, Value]
    recorded: Recorded | None
    remark: str = ""

    @property
    def none(self) -> list[str]:
        """What is told where nothing is noted."""
        return [] if self.facts else ["Nothing is noted of it."]


def described(
    desk: Desk, words: Sequence[str], note: Note, given: dict[str, Any], title: str, **facts: Value
) -> Described:
    """Notes what is given of a thing, if anything is."""
    options = [
        word
        for name, value in given.items()
        if value is not None
        for word in (
            words_of_each(name, value) if isinstance(value, tuple) else (f"--{name.replace('_', '-')}", str(value))
        )
    ]
    recorded = record(desk, ["describe", *words, *options], note) if options else None
    return Described(title, {name: value for name, value in facts.items() if value}, recorded)


def words_of_each(name: str, values: Sequence[str]) -> list[str]:
    """The words of an option that is given several times."""
    return [word for value in values for word in (f"--{name.removesuffix('s')}", value)]


def members_of(given: dict[str, Any]) -> dict[str, Any]:
    """The members of a note that are given."""
    return {name: value for name, value in given.items() if value is not None}


def describe_owner(context: Context, owner: str, **given: str | None) -> Described:
    """Notes the full name, the address and the Global Location Number of an owner."""
    with making.desk(context) as desk:
        require_owner(desk.base, owner)
        facts, note = desk.register.owners.get(owner) or OwnerFacts(owner), OwnerFacts(owner, **members_of(given))
        known = {"name": facts.name, "address": facts.address, "GLN": facts.gln}
        return described(desk, ["owner", owner], note, given, f"owner {owner}", **known)


def describe_material(context: Context, owner: str, material: str, **given: Any) -> Described:
    """Notes the full name of a material, its Global Trade Item Number, the code of its unit, and its allergens."""
    given["allergens"] = tuple(sorted(set(given["allergens"]))) or None
    with making.desk(context) as desk:
        describing.require_material(desk.base, owner, material)
        facts = desk.register.materials.get((owner, material)) or MaterialFacts(owner, material)
        note, title = MaterialFacts(owner, material, **members_of(given)), f"material {material} of {owner}"
        known: dict[str, Value] = {"name": facts.name, "GTIN": facts.gtin, "unit code": facts.unit_code}
        known |= {"allergens": ", ".join(facts.allergens)}
        return described(desk, ["material", owner, material], note, given, title, **known)


def describe_unit(context: Context, unit: str, **given: str | None) -> Described:
    """Notes the full name of a unit."""
    with making.desk(context) as desk:
        require_unit(desk.base, unit)
        facts, note = desk.register.units.get(unit) or UnitFacts(HOUSE, unit), UnitFacts(
            HOUSE, unit, **members_of(given)
        )
        return described(desk, ["unit", unit], note, given, f"unit {unit}", name=facts.name)


def describe_recipe(context: Context, owner: str, recipe: str, **given: Any) -> Described:
    """Notes how much of a recipe's materials may be lost, and which of its products is the main one."""
    with making.desk(context) as desk:
        describing.require_recipe(desk.base, owner, recipe)
        if given.get("product"):
            describing.require_product(desk.base, owner, recipe, given["product"])
        facts = desk.register.recipes.get((owner, recipe)) or RecipeFacts(owner, recipe)
        note, title = RecipeFacts(owner, recipe, **members_of(given)), f"recipe {recipe} of {owner}"
        allowance = percent_of(facts.allowance) if facts.allowance else None
        known: dict[str, Value] = {"allowance": allowance, "product": facts.product}
        return described(desk, ["recipe", owner, recipe], note, given, title, **known)


def describe_test(
    context: Context, owner: str, material: str, test: str, results_too: bool = False, **given: Any
) -> Described:
    """Notes the full name of a test of a material, its unit, its method and its decimals, which the results that are
    there may have too."""
    names = owner, material, test
    with making.desk(context) as desk:
        limits = describing.limits_of(desk.base, *names)
        note, earlier = TestFacts(*names, **members_of(given)), facts_of_test(desk.register, *names)
        describing.require_decimals(desk.base, desk.register, note, results_too)
        facts = joined(earlier, note)
        text, words = limits_text(limits, facts.decimals), ["test", *names, *(["--results-too"] if results_too else [])]
        known = {name: getattr(facts, name) for name in ("name", "unit", "decimals", "method")} | {"limits": text}
        done = described(desk, words, note, given, f"test {test} of {owner} {material}", **known)
        count = len(describing.values_of(desk.base, *names))
    if facts.decimals == earlier.decimals:
        return done
    also = f", and {counted(count, 'results')} so too" if count else ""
    return done._replace(remark=f"The limits are read as {text}{also}; toll has {limits_text(limits)}.")


def describe_lot(context: Context, owner: str, lot: str, **given: int | None) -> Described:
    """Notes the days on which a lot was made, expires, and is to be tested again."""
    with making.desk(context) as desk:
        desk.require_lot(LotId(owner, lot))
        note = LotFacts(owner, lot, **members_of(given))
        describing.require_days(desk.register, note)
        facts = desk.register.lots.get((owner, lot)) or LotFacts(owner, lot)
        return described(desk, ["lot", owner, lot], note, given, f"lot {lot} of {owner}", **facts.days)
