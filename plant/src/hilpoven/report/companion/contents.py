"""What the companion of one owner says: all of it is the owner's own, and of HOUSE what papers tell."""
import sqlite3
from collections import Counter, defaultdict
from collections.abc import Iterator, Mapping
from dataclasses import dataclass
from operator import itemgetter
from typing import Any

from ... import HOUSE
from ...core.settings import PlantFacts
from ...model import views
from ...model.gauge import OF_OWNER
from ...model.genealogy import Genealogy
from ...model.register.standing import Register
from ...model.rows import Base, owners_of
from ...model.schema import IS_ACTUAL, STANDING, Disposition, Kind, Role, State
from .days import OwnDays

Value = dict[str, Any]


@dataclass(frozen=True)
class Subject:
    """An owner, the views over a copy, its own notes, and the days of its own orders."""

    owner: str
    base: Base
    register: Register
    days: OwnDays

    def rows(self, sql: str) -> sqlite3.Cursor:
        """The rows of a query whose only value is the owner."""
        return self.base.execute(sql, {"owner": self.owner})

    def members(self, sql: str) -> Iterator[Value]:
        """The same with their values by the names of the columns, as far as they say something."""
        rows = self.rows(sql)
        names = [name for name, *_ in rows.description]
        return (filled(**dict(zip(names, row))) for row in rows)


def filled(**members: Any) -> Value:
    """The members that say something: what isn't there, an empty text and an empty list are left out; 0 is a number."""
    return {name: value for name, value in members.items() if value not in (None, "", [])}


def subjects(base: Base, register: Register, owners: Mapping[str, OwnDays]) -> Iterator[Subject]:
    """Some owners, given with their days, each with what is its own of the notes."""
    views.over(base, register)
    for owner in owners_of(base):
        if owner in owners:
            yield Subject(owner, base, register.of(owner), owners[owner])


OWN = "SELECT material, measure, name FROM material WHERE owner = :owner ORDER BY material"
PARTIES = """
SELECT party, name AS description, address, contact, phone, roles FROM party WHERE owner = :owner ORDER BY party
"""
TESTS = """
SELECT material, test, low, high, name AS description, unit, method, nullif(decimals, 0) AS decimals FROM test
WHERE owner = :owner AND NOT is_plants ORDER BY material, test
"""
LINES = """
SELECT recipe, segment, role AS use, source AS owner, material, amount AS {} FROM requirements WHERE owner = :owner
ORDER BY recipe, segment, role, source, material
"""
PLACE = itemgetter("segment", "use", "owner", "material")  # of a line in its recipe
# The materials of HOUSE that the owner's recipes or movements name.
OF_HOUSE = f"""
SELECT owner, material, measure FROM materials WHERE owner = '{HOUSE}' AND material IN (
  SELECT material FROM requirements WHERE owner = :owner AND source = '{HOUSE}'
  UNION SELECT material FROM moves WHERE owner = :owner AND lot_owner = '{HOUSE}')
ORDER BY material
"""
RECIPES = "SELECT recipe, segments FROM recipes WHERE owner = :owner ORDER BY recipe"


def gauges(subject: Subject) -> list[Value]:
    """How many there are of all that has a limit, and the most that there may be."""
    counts = {
        kind: subject.base.execute(f"SELECT count(*) FROM {table} WHERE owner = ?", (subject.owner,)).fetchone()[0]
        for kind, (_, table) in OF_OWNER.items()
    }
    return [{"what": kind, "count": counts[kind], "most": most} for kind, (most, _) in OF_OWNER.items()]


def parties(subject: Subject) -> list[Value]:
    """Its customers, suppliers and carriers, as the plant noted them."""
    return [
        {name: value.split() if name == "roles" else value for name, value in party.items()}
        for party in subject.members(PARTIES)
    ]


def materials(subject: Subject) -> list[Value]:
    """Its own materials with their tests, and of HOUSE's those that it has to do with, by name alone."""
    tests: defaultdict[str, list[Value]] = defaultdict(list)
    for test in subject.members(TESTS):
        tests[test.pop("material")].append(test)
    own = [
        filled(owner=subject.owner, material=material, measure=measure, description=name, tests=tests.get(material))
        for material, measure, name in subject.rows(OWN)
    ]
    return [*own, *subject.members(OF_HOUSE)]


def lines_of(subject: Subject, called: str) -> dict[str, list[Value]]:
    """What one batch of each recipe consumes and produces, with what the amount is called."""
    lines: defaultdict[str, list[Value]] = defaultdict(list)
    for line in subject.members(LINES.format(called)):
        lines[line.pop("recipe")].append(line | {"use": Role(line["use"]).word})
    return lines


def recipes(subject: Subject) -> list[Value]:
    """Its recipes, with what one batch consumes and produces."""
    lines = lines_of(subject, "amount")
    return [
        {"recipe": recipe, "segments": segments, "lines": lines[recipe]} for recipe, segments in subject.rows(RECIPES)
    ]


ORDERS = """
SELECT ord AS [order], recipe, batches, iif(cancelled, 'cancelled', 'open') AS status FROM orders
WHERE owner = :owner ORDER BY ord
"""
BATCHES = """
SELECT b.ord, b.number, o.recipe, b.unit, b.state, b.closed
FROM batches AS b JOIN orders AS o USING (owner, ord) WHERE b.owner = :owner ORDER BY b.ord, b.number
"""
# The sums of standing actuals, and the lots that batches made.
ACTUALS = f"""
SELECT m.ord, m.number, m.segment, {Kind.sql('m.kind')}, m.lot_owner, m.material, sum(m.amount) FROM moves AS m
WHERE m.owner = :owner AND {IS_ACTUAL} AND {STANDING}
GROUP BY m.ord, m.number, m.segment, m.kind, m.lot_owner, m.material
"""
MADE = f"""
SELECT DISTINCT m.ord, m.number, m.lot FROM moves AS m
WHERE m.owner = :owner AND m.kind = {Kind.PRODUCED:d} AND {STANDING} ORDER BY m.lot
"""


def orders(subject: Subject) -> list[Value]:
    """Its orders, as `toll` replies them, with the days on which they were placed."""
    return [order | filled(placedOn=subject.days.placed(order["order"])) for order in subject.members(ORDERS)]


def batches(subject: Subject) -> list[Value]:
    """Its batches, each with its days, what its recipe requires, what was recorded, and the lots that it made."""
    recorded = {tuple(actual): amount for *actual, amount in subject.rows(ACTUALS)}
    produced: defaultdict[tuple[str, int], list[str]] = defaultdict(list)
    for order, number, lot in subject.rows(MADE):
        produced[order, number].append(lot)
    required, values = lines_of(subject, "required"), []
    rows = subject.rows(BATCHES).fetchall()
    counts = Counter(order for order, *_ in rows)
    for order, number, recipe, unit, state, is_closed in rows:
        batch = {"order": order, "batch": number, "unit": unit, "state": State(state).word}
        batch |= filled(openedOn=subject.days.opened(order, number, counts[order]))
        if is_closed:
            batch |= filled(closed=True, closedOn=subject.days.closed(order, number))
        batch["lines"] = [
            {**line, "actual": recorded.get((order, number, *PLACE(line)), 0)} for line in required[recipe]
        ]
        batch["lots"] = produced[order, number]
        values.append(batch)
    return values


LOTS = """
SELECT l.lot, l.material, l.ord, l.number, l.disposition, l.on_hand, l.made, l.expires, l.retest,
  q.state, q.day, q.reason
FROM lot AS l JOIN quality AS q USING (owner, lot) WHERE l.owner = :owner ORDER BY l.lot
"""
# The tests because of which quarantined lots can't be released.
OPEN_TESTS = f"""
SELECT t.lot, t.test, t.low, t.high, t.value, t.is_plants, q.reason
FROM lot_test AS t JOIN quality AS q USING (owner, lot)
WHERE t.owner = :owner AND t.disposition = {Disposition.QUARANTINED:d} AND t.passes IS NOT 1
ORDER BY t.lot, t.test
"""
# The results whose value is a bound. Of several notes of one the last counts.
BOUNDS = """
SELECT lot, test, value, day, bound, max(note) FROM register.result_note WHERE owner = :owner
GROUP BY lot, test, value, day ORDER BY lot, test, value, day
"""
DISPOSITIONS = {int(code): code.word for code in Disposition}


def foreign_material(subject: Subject) -> dict[str, list[Value]]:
    """Its lots that contain material of another owner, as far as the plant tells it, each with the days on which that
    was noted."""
    notices = subject.register.notices
    genealogy, days = Genealogy(subject.base), defaultdict[str, list[Value]](list)
    for notice in notices:
        for lot in genealogy.lots_of(notice.container):
            if (day := {"day": notice.day}) not in days[lot.name]:
                days[lot.name].append(day)
    return days


def lots(subject: Subject) -> list[Value]:
    """Its lots, by name."""
    foreign = foreign_material(subject)
    faults, bounds, values = defaultdict[str, list[Value]](list), defaultdict[str, list[Value]](list), list[Value]()
    for lot, *test in subject.rows(OPEN_TESTS):
        faults[lot].append(fault_of(*test))
    for lot, test, value, day, bound, _ in subject.rows(BOUNDS):
        bounds[lot].append({"test": test, "value": value, "day": day, "bound": bound})
    for lot, material, order, number, code, amount, made, expires, retest, state, day, reason in subject.rows(LOTS):
        disposition = DISPOSITIONS.get(code) or Disposition(code).word
        member = {"lot": lot, "material": material, "disposition": disposition, "amount": amount}
        if order:
            member |= {"order": order, "batch": number}
        member |= filled(made=made, expires=expires, retest=retest)
        if state == "signed":
            member["signed"] = {"day": day}
        if state == "held":
            member["held"] = filled(day=day, text=reason)
        if code == Disposition.QUARANTINED:
            why = faults.get(lot)
            member["release"] = {"possible": False, "why": why} if why else {"possible": True}
        values.append(member | filled(bounds=bounds.get(lot), foreign=foreign.get(lot)))
    return values


def fault_of(test: str, low: int, high: int, value: int | None, is_plants: int, text: str | None) -> Value:
    """Why a test, of which this is the latest value, lets a lot not be released. The plant's own one isn't named: its
    result is a signature or a hold."""
    if is_plants:
        return {"reason": "unsigned"} if value is None else filled(reason="plant-hold", text=text)
    if value is None:
        return {"test": test, "reason": "missing"}
    reason, limit = ("below", low) if value < low else ("above", high)
    return {"test": test, "reason": reason, "value": value, "limit": limit}


NAMES = {Kind.RECEIVE: "receipt", Kind.SPLIT: "split", Kind.SHIP: "shipment", Kind.SCRAP: "scrap"}
# In the order in which they were recorded, which is that of the table: what is sorted are its numbers alone. Only
# receipts and actuals name their material. A kind and a use are written as words.
MOVES = f"""
SELECT m.mkey AS key, m.kind, m.day, m.lot, m.lot_owner AS lotOwner, m.sublot, m.amount,
  coalesce(nullif(m.material, ''), m.of_material) AS material, m.ord AS [order],
  iif(m.ord = '', NULL, m.number) AS batch, iif(m.ord = '', NULL, m.segment) AS segment,
  iif(m.ord = '', NULL, m.kind) AS use, m.target AS toSublot, iif(m.kind = {Kind.SHIP:d}, m.party, '') AS [to],
  iif(m.kind = {Kind.SHIP:d}, '', m.party) AS [from], m.supplier_lot AS supplierLot, m.document,
  iif(m.is_void, 'yes', '') AS voided
FROM movement AS m WHERE m.rowid IN (SELECT rowid FROM moves WHERE owner = :owner) ORDER BY m.rowid
"""


def movements(subject: Subject) -> list[Value]:
    """Its movements, in the order in which they were recorded, with the parties and documents that were noted. Members
    that a kind doesn't have are left out."""
    values, kinds = [], {int(kind): kind for kind in Kind}
    for move in subject.members(MOVES):
        kind = kinds.get(move["kind"]) or Kind(move["kind"])
        move["kind"] = NAMES.get(kind, "actual")
        if "use" in move:
            move["use"] = kind.word
        if "voided" in move:
            move["voided"] = True
        values.append(move)
    return values


LINKS = """
SELECT owner, lot, ord, number, of_owner, of_lot, why, amount, reason, measure FROM link WHERE owner = :owner
ORDER BY note, place
"""
REASONS = """
SELECT command, lot, mkey AS key, ord AS [order], nullif(number, 0) AS batch, reason AS text FROM reason
WHERE owner = :owner ORDER BY note
"""


def links(subject: Subject) -> list[Value]:
    """What the plant noted of which lots contain which: of the owner's lots and batches, some of its own and of HOUSE's
    lots."""
    return [
        {
            "from": {"owner": of_owner, "lot": of_lot},
            "to": filled(owner=owner, lot=lot, order=order, batch=batch or None),
            "why": why,
            **filled(amount=amount, text=reason),
            **({} if amount is None else {"measure": measure}),
        }
        for owner, lot, order, batch, of_owner, of_lot, why, amount, reason, measure in subject.rows(LINKS)
    ]


def reasons(subject: Subject) -> list[Value]:
    """Why the plant gave commands about its lots, orders, batches and movements, each once, as they were noted."""
    return [*subject.members(REASONS)]


VERSION = 1  # of the form: members may be added to it; what gets another meaning gets another number


def contents_of(subject: Subject, plant: PlantFacts) -> Value:
    """All that the companion of an owner says but since when it is so."""
    contact = filled(name=plant.name, address=plant.address, contact=plant.contact)
    return {
        "version": VERSION,
        "owner": subject.owner,
        **({"plant": contact} if contact else {}),
        "full": gauges(subject),
        "parties": parties(subject),
        "materials": materials(subject),
        "recipes": recipes(subject),
        "orders": orders(subject),
        "batches": batches(subject),
        "lots": lots(subject),
        "movements": movements(subject),
        "links": links(subject),
        "reasons": reasons(subject),
    }
