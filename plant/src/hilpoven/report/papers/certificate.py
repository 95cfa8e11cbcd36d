"""Papers for an owner's customers: the certificate of a lot, of analysis if it was tested, else of release; and the
delivery note of shipments."""
import datetime
from collections.abc import Collection, Sequence
from typing import Any, NamedTuple

from ...core.days import day_of, format_day
from ...core.failure import REFUSED, Failure
from ...core.settings import PlantFacts
from ...model import quality
from ...model.nearest import nearest
from ...model.notes import OwnerFacts
from ...model.quality import DescribedLot, describe_lot, in_full, owner_in_full
from ...model.rows import Lot, LotId, require_lot, require_owner
from ...model.schema import Disposition
from ...record.expiry import past_day
from ..columns import Sql, columns, measured
from ..sheets import select, table_of
from .agreement import check_lots
from .copies import Source
from .letterhead import letterhead_of, number_of
from .printing import Document

HEADS = columns("day:day key lot sublot material amount=shipped:number measure=unit:text@beside")
SHIPMENTS = """
SELECT mkey, lot_owner, lot, sublot, of_material, amount, measure, day, party, document, name, address, contact, phone
FROM shipment WHERE owner = ? ORDER BY rowid
"""


class Shipment(NamedTuple):
    """A shipment, and as far as they are noted its party, its document, and how the party is reached."""

    key: str
    lot_owner: str
    lot: str
    sublot: str
    material: str
    amount: int
    measure: str
    day: int
    party: str
    document: str
    name: str
    address: str
    contact: str
    phone: str

    @property
    def noted(self) -> dict[str, str]:
        """Its recipient and its document, as far as they are noted."""
        noted = {
            "recipient": self.name or self.party,
            "address": self.address,
            "contact": self.contact,
            "phone": self.phone,
            "document": self.document,
        }
        return {name: text for name, text in noted.items() if text}


def require_shipments(source: Source, owner: str, keys: Collection[str], lot: LotId | None = None) -> list[Shipment]:
    """Shipments of an owner, or of one of its lots; fails if one isn't there."""
    rows = [Shipment(*row) for row in source.base.execute(SHIPMENTS, (owner,))]
    shipments = {row.key: row for row in rows if lot in (None, (row.lot_owner, row.lot))}
    for key in keys:
        if key not in shipments:
            subject = str(lot) if lot else owner
            advice = nearest(key, list(shipments), f"shipments of {subject}")
            raise Failure(f"there is no shipment {key} of {subject}", REFUSED, advice)
    return [shipments[key] for key in keys]


def of_certificate(source: Source, lot: LotId, key: str) -> tuple[dict[str, str], bool]:
    """A shipment of a lot as a certificate names it, and whether any of it is noted by the plant."""
    (shipment,) = require_shipments(source, lot.owner, [key], lot)
    shown = {name: text for name, text in shipment.noted.items() if name in ("recipient", "address", "document")}
    amount = f"{shipment.amount:,} {shipment.measure}"
    return {"shipped": amount, "on": format_day(shipment.day), **shown}, bool(shown)


def delivery_note(source: Source, owner: str, keys: Sequence[str], plant: PlantFacts) -> list[Document]:
    """The delivery note of shipments of an owner, which all go to one recipient and have one document. The plant sends
    them for the owner."""
    require_owner(source.base, owner)
    first, *others = all_shipments = require_shipments(source, owner, dict.fromkeys(keys))
    for other in others:
        require_same(first, other)
    check_lots(source, {LotId(each.lot_owner, each.lot) for each in all_shipments})
    owner_noted = source.register.of(owner).owners.get(owner) or OwnerFacts(owner)
    facts = {**sender_of(plant), **owner_in_full(owner_noted), **first.noted}
    values: dict[str, Any] = {"facts": facts, "is_noted": bool(first.noted)}
    title = f"Delivery note {first.document}".strip()
    sheet = table_of("shipments", HEADS, all_shipments)
    return [Document("delivery", False, title, [sheet], values, is_across=False)]


def sender_of(plant: PlantFacts) -> dict[str, str]:
    """The plant, which sends what is shipped; nothing if the settings don't say who it is."""
    sender = ", ".join(filter(None, [plant.name, plant.address]))
    return {"sender": sender} if sender else {}


def require_same(first: Shipment, other: Shipment) -> None:
    """Fails if two shipments don't go to the same recipient with the same document."""
    for detail, is_same in (("recipient", first.party == other.party), ("document", first.document == other.document)):
        if not is_same:
            raise Failure(
                f"{other.key} hasn't the {detail} of {first.key}, so they have no delivery note together", REFUSED
            )


OF_TEST: dict[str, Sql] = {
    "low": measured("t.low"),
    "high": measured("t.high"),
    "value": measured("t.value", sign="t.sign"),
    "noted_unit": "t.unit",
    "verdict": "CASE t.passes WHEN 1 THEN 'pass' WHEN 0 THEN 'does not pass' ELSE 'no result' END",
}
TESTS = columns(
    "t.test low=from:number high=to:number value=result:number noted_unit=unit:text@beside? t.day:day verdict:text",
    **OF_TEST,
)
SPECIFIED = columns(
    "t.test noted_name=full_name:text@beneath? noted_method=method:text? low=limits_from:number high=to:number "
    "value=result:number noted_unit=unit:text@beside? t.day:day verdict:text",
    noted_name="t.name",
    noted_method="t.method",
    **OF_TEST,
)
OF_LOT = "FROM lot_test AS t WHERE t.owner = ? AND t.lot = ? AND NOT t.is_plants ORDER BY t.test"


def documents(
    source: Source, asked: LotId, plant: PlantFacts, today: datetime.date, shipment: str = ""
) -> list[Document]:
    """The certificate of a lot, for one of its shipments if that is named by its key. One of a lot that isn't released,
    is held, or is past its day says so on top of each page. It has a number if the settings say who the plant is."""
    lot = require_lot(source.base, asked)
    check_lots(source, [asked])
    described = describe_lot(source.base, source.register.of(asked.owner), lot)
    facts = facts_of(lot, described)
    status = quality.statuses(source.base, source.register, asked).get(asked)
    if status:
        facts[quality.COLUMN] = status.text
    is_noted = False
    if shipment:
        shipped, is_noted = of_certificate(source, asked, shipment)
        facts |= shipped
    tests, letterhead = select(source.base, "tests", SPECIFIED, OF_LOT, asked), letterhead_of(plant)
    title = f"{kind_of(described)}: {asked.name}"
    is_held, past = status is not None and status.state == quality.QualityState.HELD, past_day(
        described.lot, day_of(today)
    )
    says: dict[str, Any] = {
        "facts": facts,
        "disposition": lot.disposition.word,
        "is_held": is_held,
        "past": past,
        "stamp": stamp_of(lot, is_held, past),
        "letterhead": letterhead,
        "approver": plant.approver,
    }
    number = (
        number_of(f"{asked.owner}-{asked.name}", [title, says, list(map(tests.texts, tests.rows))])
        if letterhead
        else ""
    )
    is_described = bool(described.texts) or tests.is_as_measured
    values = {**says, "number": number, "is_noted": is_noted, "is_described": is_described, "asked": lot}
    return [Document("certificate", False, title, [tests], values, is_across=False)]


def stamp_of(lot: Lot, is_held: bool, past: str) -> str:
    """Why a lot isn't to be used, in a word or two; empty if it may be."""
    if is_held:
        return quality.QualityState.HELD.value
    if lot.disposition != Disposition.RELEASED:
        return "not released"
    return "past its day" if past else ""


def kind_of(described: DescribedLot) -> str:
    """What a certificate is: one without a result is no analysis."""
    return (
        "Certificate of analysis"
        if any(test.value is not None for test in described.tests)
        else "Certificate of release"
    )


def facts_of(lot: Lot, described: DescribedLot) -> dict[str, str]:
    """What the certificate begins with: names, in full if they are noted, and days."""
    origin = lot.origin if lot.origin == "receipts" else f"batch {lot.origin}"
    return {
        "material": in_full(described.material.name, lot.material),
        "lot": lot.id.name,
        **owner_in_full(described.owner),
        "comes from": origin,
        **described.days,
    }
