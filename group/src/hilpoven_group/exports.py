"""What happened to the lots of a recall, in the forms of others: EPCIS 2.0 (JSON-LD) and the sortable spreadsheet of
FSMA 204.

A row of an office has a day and no time: `eventTime` is the beginning of that day in UTC, and `eventID`, a hash of the
rows, tells events apart. A voided actual is in no event.
"""
import hashlib
import json
from collections import defaultdict
from collections.abc import Mapping, Sequence
from dataclasses import dataclass
from datetime import datetime, timezone
from typing import Any, NamedTuple
from urllib.parse import quote

from hilpoven import HOUSE
from hilpoven.core import gs1
from hilpoven.core.days import date_of
from hilpoven.core.failure import WRONG_USE, Failure
from hilpoven.core.table import csv_of, as_cell
from hilpoven.model.genealogy import BACK
from hilpoven.model.notes import MaterialFacts, Note, OwnerFacts, Party, joined
from hilpoven.model.register.noted import from_json
from hilpoven.model.schema import Kind

from . import database, recalls, settings
from .database import Connection
from .numbers import FIRST_HOUSE, place_of

# Unit codes of UN/ECE Recommendation 20 where none is noted, by measures of materials in small letters.
UNITS = {"kg": "KGM", "g": "GRM", "mg": "MGM", "t": "TNE", "l": "LTR", "liter": "LTR", "litre": "LTR", "ml": "MLT"}
UNITS |= {"pcs": "H87", "piece": "H87", "pieces": "H87"}
GS1 = "https://id.gs1.org"
CONTEXT = "https://ref.gs1.org/standards/epcis/2.0.0/epcis-context.jsonld"
STEPS = {
    Kind.RECEIVE: ("receiving", "OBSERVE", "in_progress"),
    Kind.SHIP: ("shipping", "OBSERVE", "in_transit"),
    Kind.SCRAP: ("destroying", "DELETE", "destroyed"),
}
TRACKED = {
    Kind.RECEIVE: "receiving",
    Kind.SHIP: "shipping",
    Kind.CONSUMED: "transformation: food used",
    Kind.PRODUCED: "transformation: food produced",
}
FSMA_COLUMNS = (
    *("event", "traceability lot code", "source of the code", "product", "GTIN", "quantity", "unit", "location", "GLN"),
    *("other party", "other GLN", "date", "reference document", "lot here"),
)
EVENTS = """
SELECT office, gln, gid, mkey, kind, lot_id, amount, day, batch_id, segment, ord, number, party, supplier_lot, document,
  other_gln FROM hg.events_of(%s::bigint[], %s)
"""
Json = dict[str, Any]


class Happened(NamedTuple):
    """A movement of a lot that stands."""

    office: str
    gln: str
    gid: int
    key: str
    kind: int
    lot: int
    amount: int
    day: int
    batch: int
    segment: int
    order: str
    number: int
    party: str
    supplier_lot: str
    document: str
    other_gln: str


class Lot(NamedTuple):
    """What a lot is called."""

    office: str
    owner: str
    name: str
    material: str
    measure: str


def read(base: Connection, starts: list[int], way: str, uri: str) -> "Export":
    """What happened to the lots of a recall."""
    if not uri:
        raise Failure(
            "nothing says how the names of lots begin", WRONG_USE, f'uri = "https://.." in {settings.PATH} says it'
        )
    ids = sorted({lot for start in starts for lot in recalls.trace(base, start, way).steps})
    rows = [Happened(*row) for row in database.rows(base, EVENTS, (ids, way == BACK))]
    all_ids = sorted({*ids, *(row.lot for row in rows)})
    sql = "SELECT lot_id, office, owner, lot, material, measure FROM hg.lots_of(%s::bigint[])"
    lots = {row[0]: Lot(*row[1:]) for row in database.rows(base, sql, (all_ids,))}
    return Export(rows, lots, uri.rstrip("/"), described(base, all_ids))


# Notes by an office's number, a company, a kind, and what names the thing there.
Described = Mapping[tuple[object, ...], Note]


def described(base: Connection, lots: list[int]) -> Described:
    """What plants noted of the owners of lots and of themselves, and of materials and parties: of several notes of a
    thing the last one that says a member counts."""
    places = set(map(place_of, lots))
    gids = sorted({place.gid for place in places} | {FIRST_HOUSE + place.office for place in places})
    facts: dict[tuple[object, ...], Note] = {}
    for office, gid, value in database.rows(base, "SELECT office, gid, value FROM hg.descriptions(%s)", (gids,)):
        if note := from_json(json.loads(value)):
            key = (office, gid, note.KIND, *note.subject)
            before = facts.get(key)
            if isinstance(note, Party) and isinstance(before, Party):
                facts[key] = note.over(before)
            else:
                facts[key] = joined(before, note)
    return facts


@dataclass(frozen=True)
class Export:
    """Movements of the lots of a recall, what these lots are called, and what is noted of all that they name."""

    rows: Sequence[Happened]
    lots: dict[int, Lot]
    uri: str
    described: Described

    def name(self, *parts: object) -> str:
        """The URI of a thing."""
        return "/".join([self.uri, *(quote(str(part), safe="") for part in parts)])

    def quantity(self, lot: int, amount: int) -> Json:
        """How much of a lot, with the unit code of its measure if that has one."""
        unit = self.material(lot).unit_code or UNITS.get(self.lots[lot].measure.lower())
        return {"epcClass": self.lot(lot), "quantity": amount, **({"uom": unit} if unit else {})}

    def lot(self, lot: int) -> str:
        """The URI of a lot: by the GTIN of its material, if that has one."""
        of, gtin = self.lots[lot], self.material(lot).gtin
        return f"{GS1}/01/{gtin:0>14}/10/{of.name}" if gtin else self.name(of.office, "lot", of.owner, of.name)

    def material(self, lot: int) -> MaterialFacts:
        """What is noted of the material of a lot."""
        of, place = self.lots[lot], place_of(lot)
        note = self.described.get((place.office, place.gid, MaterialFacts.KIND, of.owner, of.material))
        return note if isinstance(note, MaterialFacts) else MaterialFacts(of.owner, of.material)

    def gln(self, row: Happened) -> str:
        """The GLN of an office, which is the plant's own where the group has none; empty if there is none."""
        office = place_of(row.lot).office
        return row.gln or self.owner_gln(office, FIRST_HOUSE + office, HOUSE)

    def owner_gln(self, office: int, gid: int, owner: str) -> str:
        """The GLN that an office noted of an owner; empty if there is none."""
        note = self.described.get((office, gid, OwnerFacts.KIND, owner))
        return note.gln if isinstance(note, OwnerFacts) else ""

    def party_gln(self, row: Happened) -> str:
        """The GLN of a party: that of its office, if it is one of the group; empty if there is none."""
        place = place_of(row.lot)
        note = self.described.get((place.office, row.gid, Party.KIND, self.lots[row.lot].owner, row.party))
        return row.other_gln or (note.gln if isinstance(note, Party) else "")

    def event(self, kind: str, rows: Sequence[Happened], **members: Any) -> Json:
        """An event of rows of one office."""
        identity = hashlib.sha256(json.dumps(sorted(rows)).encode()).hexdigest()
        day = date_of(max(row.day for row in rows))
        place = {"id": self.place(rows[0])}
        return {
            "type": kind,
            "eventID": f"ni:///sha-256;{identity}?ver=CBV2.0",
            "eventTime": f"{day or '1970-01-01'}T00:00:00.000+00:00",
            "eventTimeZoneOffset": "+00:00",
            "readPoint": place,
            "bizLocation": place,
            **members,
        }

    def place(self, row: Happened) -> str:
        """The URI of an office: by its GLN, if it has one."""
        gln = self.gln(row)
        return f"{GS1}/414/{gln}" if gln else self.name(row.office)

    def other(self, row: Happened) -> str:
        """The URI of a party: by its GLN, if it has one."""
        gln = self.party_gln(row)
        return f"{GS1}/417/{gln}" if gln else self.name(row.office, "party", row.party)

    def observed(self, row: Happened) -> Json:
        """The event of a receipt, a shipment or a scrap."""
        step, action, disposition = STEPS[Kind(row.kind)]
        own_end, other_end = ("destination", "source") if row.kind == Kind.RECEIVE else ("source", "destination")
        extras: Json = {}
        if row.document and not gs1.SSCC.fault(row.document):
            extras["epcList"] = [f"{GS1}/00/{row.document}"]  # the pallet
        elif row.document:
            document = self.name(row.office, "document", row.document)
            extras["bizTransactionList"] = [{"type": "desadv", "bizTransaction": document}]
        if gln := self.owner_gln(place_of(row.lot).office, row.gid, self.lots[row.lot].owner):
            extras[f"{own_end}List"] = [{"type": "owning_party", own_end: f"{GS1}/417/{gln}"}]
        if row.party:
            extras[f"{other_end}List"] = [{"type": "possessing_party", other_end: self.other(row)}]
        if row.supplier_lot:
            extras["hilpoven:supplierLot"] = row.supplier_lot
        quantities = [self.quantity(row.lot, row.amount)]
        named = {"action": action, "bizStep": step, "disposition": disposition, "quantityList": quantities}
        return self.event("ObjectEvent", [row], **named, **extras)

    def transformations(self, rows: Sequence[Happened]) -> list[Json]:
        """The events of a batch: one for each last segment of products, with what was consumed up to it, so that none
        says more than the office. What an earlier one has consumed is named without its amount."""
        last: dict[int, int] = defaultdict(int)
        for row in rows:
            if row.kind == Kind.PRODUCED:
                last[row.lot] = max(last[row.lot], row.segment)
        events, done = [], set[str]()
        for end in sorted(set(last.values())):
            inputs = [row for row in rows if row.kind == Kind.CONSUMED and row.segment <= end]
            outputs = [row for row in rows if row.kind == Kind.PRODUCED and last[row.lot] == end]
            new = [row for row in inputs if row.key not in done]
            used = [self.quantity(*pair) for pair in totals(new).items()]
            again = {row.lot for row in inputs} - {row.lot for row in new}
            used += [{"epcClass": self.lot(lot)} for lot in sorted(again)]
            done |= {row.key for row in inputs}
            named = {
                "bizStep": "commissioning",
                "transformationID": self.name(rows[0].office, "batch", rows[0].gid, rows[0].order, rows[0].number),
            }
            lists = {"inputQuantityList": used} if used else {}
            products = [self.quantity(*pair) for pair in totals(outputs).items()]
            events.append(
                self.event("TransformationEvent", [*inputs, *outputs], **named, **lists, outputQuantityList=products)
            )
        return events

    def epcis(self) -> str:
        """A document of EPCIS 2.0."""
        batches: dict[int, list[Happened]] = defaultdict(list)
        for row in self.rows:
            if row.kind in (Kind.CONSUMED, Kind.PRODUCED):
                batches[row.batch].append(row)
        events = [self.observed(row) for row in self.rows if row.kind in STEPS]
        events += [event for rows in batches.values() for event in self.transformations(rows)]
        document = {
            "@context": [CONTEXT, {"hilpoven": f"{self.uri}/terms/"}],
            "type": "EPCISDocument",
            "schemaVersion": "2.0",
            "creationDate": datetime.now(timezone.utc).strftime("%Y-%m-%dT%H:%M:%SZ"),
            "epcisBody": {"eventList": events},
        }
        return json.dumps(document, indent=1) + "\n"

    def fsma(self) -> str:
        """The critical tracking events with their key data. A received lot keeps the lot code of its supplier."""
        codes = {row.lot: row for row in self.rows if row.kind == Kind.RECEIVE and row.supplier_lot}
        lines: list[Sequence[str | int | None]] = [FSMA_COLUMNS]
        for row in self.rows:
            if row.kind in TRACKED:
                lot, given = self.lots[row.lot], codes.get(row.lot)
                code, source = (given.supplier_lot, given.party) if given else (lot.name, lot.office)
                document = row.document or (f"batch {row.order}/{row.number}" if row.batch else row.key)
                day = date_of(row.day)
                cells: list[str | int] = [
                    TRACKED[Kind(row.kind)],
                    code,
                    source,
                    f"{lot.owner} {lot.material}",
                    self.material(row.lot).gtin,
                    row.amount,
                    lot.measure,
                ]
                cells += [row.office, self.gln(row), row.party, self.party_gln(row)]
                cells += [str(day or row.day), document, lot.name]
                lines.append(list(map(as_cell, cells)))
        return csv_of(lines)


def totals(rows: Sequence[Happened]) -> dict[int, int]:
    """How much of each lot."""
    amounts: dict[int, int] = defaultdict(int)
    for row in rows:
        amounts[row.lot] += row.amount
    return amounts
