"""One thing with all about it, as `hilpoven show` prints it."""
import json
from collections.abc import Mapping, Sequence
from dataclasses import dataclass, field
from itertools import groupby
from operator import itemgetter

from .. import HOUSE
from ..core.days import format_day
from ..core.table import with_texts
from ..core.failure import REFUSED, Failure
from ..core.forms import BATCH
from ..core.table import Row, Value, formatted
from ..model import views
from ..model.gauge import OF_OWNER
from ..model.nearest import nearest
from ..model.register.standing import Register
from ..model.rows import Base, BatchId, LotId, require_owner, row_of
from ..model.schema import (
    BATCH_NAME,
    CHANGE,
    CLOSED,
    IS_ACTUAL,
    IS_INCOMING,
    IS_OUTGOING,
    LIMITS,
    ON_HAND,
    ORIGIN,
    REQUIREMENTS,
    VOID,
    Disposition,
    Kind,
    Role,
    State,
)
from ..model.unit_order import Cleaning, Place, Turn, UnitOrder
from .columns import Column, columns, measured
from .lists import LISTINGS
from .noted import ABOUT_LOT, IN_BATCH, IN_LOT, SHOWN, documents_named, links
from .sheets import Sheet, select

NOTED = "noted by the plant"
NOTHING_NOTED = Register()


@dataclass
class Overview:
    """What is shown of a thing: a title, facts, tables, and remarks at the end; of a fact for which people read
    another word than programs, that word."""

    title: str
    facts: dict[str, Value] = field(default_factory=dict)
    words: dict[str, str] = field(default_factory=dict)
    tables: dict[str, tuple[list[str], Sequence[Row]]] = field(default_factory=dict)
    remarks: list[str] = field(default_factory=list)

    def add(self, sheet: Sheet, is_wanted_empty: bool = True) -> Sequence[Row]:
        """Adds a table; its rows."""
        if sheet.rows or is_wanted_empty:
            self.tables[sheet.name] = [name.replace("_", " ") for name in sheet.names], sheet.rows
        return sheet.rows

    def as_json(self) -> str:
        """The same for a program."""
        texts = {name: with_texts(*table) for name, table in self.tables.items()}
        tables = {
            name: [dict(zip([column.replace("_", " ") for column in heads], row)) for row in rows]
            for name, (heads, rows) in texts.items()
        }
        return json.dumps({"title": self.title, **self.facts, **tables, "remarks": self.remarks}, indent=2)


def of_list(base: Base, name: str, where: str, words: tuple[str, str]) -> dict[str, Value]:
    """A row of a list without notes, by the names of its columns; fails if there is none, with the nearest names."""
    sql, column = f"SELECT * FROM ({LISTINGS[name].sql()}) WHERE {where}", {"orders": "ord"}.get(name, name[:-1])
    row = row_of(base, sql, words, name[:-1], f"SELECT {column} FROM {name} WHERE owner = ?")
    return dict(zip(LISTINGS[name].columns, row))


SUBLOTS = columns("sublot amount:number")
LOTS = LISTINGS["lots"]
# The movements of a lot, with what came in, what left, and what was left then.
LEDGER = [
    *columns(
        "m.owner=of key kind:text m.sublot m.target=to batch m.day:day in:number out:number moved:number void:text "
        "balance:number",
        key="m.mkey",
        kind=Kind.sql("m.kind"),
        batch=BATCH_NAME,
        **{"in": f"CASE WHEN {IS_INCOMING} THEN m.amount END", "out": f"CASE WHEN {IS_OUTGOING} THEN m.amount END"},
        moved=f"CASE m.kind WHEN {Kind.SPLIT:d} THEN m.amount END",
        void=VOID,
        balance=f"sum({CHANGE}) OVER (ORDER BY m.rowid)",
    ),
    *LISTINGS["moves"].noted,
]
# The tests of a lot with limits and latest results as measured, all of its results, and who has what was shipped.
TESTS = columns(
    "test low:number high:number latest:number day:day results:number limits:text noted_unit:text?",
    low=measured("low"),
    high=measured("high"),
    latest=measured("value", sign="sign"),
    limits=LIMITS,
    noted_unit="unit",
)
RESULTS = columns("test value=result:number day:day", value=measured("value", sign="sign"))
OF_LOT = "FROM {} WHERE owner = ? AND lot = ? AND is_plants IS NOT 1 ORDER BY test"
LEDGER_OF_LOT = "FROM movement AS m WHERE m.lot_owner = ? AND m.lot = ? ORDER BY m.rowid"
RECIPIENTS = """
SELECT party, name, contact, phone, amount, document FROM shipment WHERE lot_owner = ? AND lot = ?
ORDER BY 1, 2, 3, 4, rowid
"""
HOLDERS = columns("party name contact phone shipments:number amount:number documents")
REJECTED = f"""
SELECT DISTINCT k.of_owner, k.of_lot FROM link AS k JOIN lots AS l ON l.owner = k.of_owner AND l.lot = k.of_lot
WHERE l.disposition = {Disposition.REJECTED:d} AND {IN_LOT} ORDER BY 1, 2
"""
MADE_BY = f"""
SELECT b.ord || '/' || b.number || ', recipe ' || recipe || ', unit ' || unit || ', ' || {State.sql('state')} || ', '
  || {CLOSED} FROM batch AS b JOIN lots AS l USING (owner, ord, number) WHERE l.owner = ? AND l.lot = ?
"""


def lot(base: Base, owner: str, name: str, register: Register = NOTHING_NOTED) -> Overview:
    """A lot: its batch, its tests with limits and results, what is missing for its release, its sublots, its ledger
    and who has what was shipped."""
    require_owner(base, owner)
    asked, views_of_all = LotId(owner, name), views.over(base, register)
    facts = of_list(base, "lots", "owner = ? AND lot = ?", asked)
    noted = select(views_of_all, "", LOTS.noted, f"FROM {LOTS.noted_source} WHERE l.owner = ? AND l.lot = ?", asked)
    days = dict(zip(noted.names, noted.rows[0]))
    overview = Overview(f"lot {name} of {owner}", {key.replace("_", " "): facts[key] for key in list(facts)[2:]})
    quality = days.pop("quality", None)
    overview.facts |= {key.replace("_", " "): format_day(int(day)) for key, day in days.items() if day}
    overview.facts |= {"batch": batch for batch, in base.execute(MADE_BY, asked)}
    overview.facts |= {"quality": quality} if quality else {}
    tests, results = select(base, "tests", TESTS, OF_LOT.format("lot_test"), asked), results_of(base, asked)
    for sheet in (tests, results) if len(results.rows) > len(tests.rows) else (tests,):
        overview.add(sheet)
    overview.add(select(base, "sublots", SUBLOTS, "FROM sublots WHERE owner = ? AND lot = ? ORDER BY sublot", asked))
    overview.add(select(base, "ledger", LEDGER, LEDGER_OF_LOT, asked))
    overview.add(Sheet("who has it", HOLDERS, recipients(base, asked)), False)
    words = {"owner": owner, "lot": name}
    overview.add(links(base, ABOUT_LOT, words, NOTED, SHOWN), False)
    overview.remarks = release_of(owner, name, str(facts["disposition"]), tests_of(base, asked))
    rejected = (LotId(*row) for row in base.execute(REJECTED, words))
    overview.remarks += [f"It contains some of lot {each}, which is rejected." for each in rejected]
    return overview


def tests_of(base: Base, lot: LotId) -> Sequence[Row]:
    """All tests of a lot, and whether each is the plant's own."""
    heads = [*TESTS[:-1], *columns("is_plants:number")]
    return select(base, "", heads, "FROM lot_test WHERE owner = ? AND lot = ? ORDER BY test", lot).rows


def results_of(base: Base, lot: LotId) -> Sheet:
    """All results of a lot, as measured, without those of the plant's own test."""
    return select(base, "results", RESULTS, f"{OF_LOT.format('result')}, number", lot)


def recipients(base: Base, lot: LotId) -> list[Row]:
    """Who has what was shipped of a lot, as the plant noted it; a row without a party is of what nobody is known to
    have."""
    rows: list[Row] = []
    for party, moves in groupby(base.execute(RECIPIENTS, lot), itemgetter(0, 1, 2, 3)):
        amounts, documents = zip(*(move[4:] for move in moves))
        rows.append((*party, len(amounts), sum(amounts), documents_named(documents)))
    return rows


def release_of(owner: str, name: str, disposition: str, tests: Sequence[Row]) -> list[str]:
    """What is missing for the release of a lot, or how it is released."""
    if disposition != "quarantined":
        return [f"It is {disposition}{' for good' if disposition == 'rejected' else ''}."]
    missing = [
        "  the plant's signature"
        if is_plants
        else f"  {test}: no result yet; the limits are {formatted(low)} to {formatted(high)}"
        if limits == "missing"
        else f"  {test}: the latest result, {formatted(latest)}, is out of {formatted(low)} to {formatted(high)}"
        for test, low, high, latest, _, _, limits, is_plants in tests
        if limits != "within"
    ]
    if missing:
        return ["Missing for its release:", *missing]
    how = f": `hilpoven release {name}`" if owner == HOUSE else f", which {owner} gives over HTTP"
    return [f"Nothing is missing for its release{how}."]


REQUIRED = columns("segment use owner material required actual")
ACTUALS = columns(
    "key m.segment use m.material m.lot_owner m.lot m.sublot m.amount m.day void",
    key="m.mkey",
    use=Kind.sql("m.kind"),
    void=VOID,
)
BATCHES = columns("batch unit state closed", batch="number", state=State.sql("state"), closed=CLOSED)
RECIPE = columns("segment use owner material amount", use=Role.sql("role"), owner="source")
THIS_BATCH = "owner = ? AND ord = ? AND number = CAST(? AS INTEGER)"
OF_RECIPE = "FROM requirements WHERE owner = ? AND recipe = ? ORDER BY segment, role, source, material"
OF_BATCH = f"FROM moves AS m WHERE m.owner = ? AND m.ord = ? AND m.number = ? AND {IS_ACTUAL} ORDER BY m.rowid"


def batch(base: Base, owner: str, order: str, number: str, register: Register = NOTHING_NOTED) -> Overview:
    """A batch: its unit and state, what its recipe requires against what was recorded, and each actual."""
    if fault := BATCH.fault(number):
        raise Failure(f"BATCH: `{number}` {fault}", REFUSED)
    of_order, orders = "SELECT recipe FROM orders WHERE owner = ? AND ord = ?", "SELECT ord FROM orders WHERE owner = ?"
    (recipe,) = row_of(base, of_order, (owner, order), "order", orders)
    sql = f"SELECT unit, {State.sql('state')}, {CLOSED} FROM batches AS b WHERE {THIS_BATCH}"
    names = "SELECT number FROM batches WHERE owner = ? AND ord = ?"
    unit, state, closed = row_of(base, sql, (owner, order, number), "batch", names)
    facts = {"recipe": recipe, "unit": unit, "state": state, "closed": closed}
    overview = Overview(f"batch {order}/{number} of {owner}", facts, {"closed": "yes" if closed == "closed" else "no"})
    words = {"owner": owner, "order": order, "batch": int(number), "recipe": recipe}
    rows = overview.add(select(base, "requirements", REQUIRED, f"FROM ({REQUIREMENTS})", words))
    overview.add(select(base, "actuals", ACTUALS, OF_BATCH, BatchId(owner, order, int(number))))
    overview.add(links(views.over(base, register), IN_BATCH, words, NOTED, SHOWN), False)
    overview.remarks = [
        f"{use} of {source} {material} in segment {segment}: {formatted(actual)} of {formatted(required)} is recorded."
        for segment, use, source, material, required, actual in rows
        if actual != required
    ]
    return overview


def order(base: Base, owner: str, name: str) -> Overview:
    """An order: its recipe with what that requires, and its batches."""
    facts = of_list(base, "orders", "owner = ? AND [order] = ?", (owner, name))
    shown = {"ordered" if key == "batches" else key: facts[key] for key in list(facts)[2:]}
    overview = Overview(f"order {name} of {owner}", shown)
    behind = "FROM batches AS b WHERE owner = ? AND ord = ? ORDER BY number"
    overview.add(select(base, "batches", BATCHES, behind, (owner, name)))
    overview.add(select(base, "recipe for each batch", RECIPE, OF_RECIPE, (owner, facts["recipe"])))
    return overview


RUN_BY_UNIT = columns(
    "owner order batch state closed", order="ord", batch="number", state=State.sql("state"), closed=CLOSED
)


TURNS = ["file", "time", "owner", "order", "batch", "state", "cleaned", "checked", "who"]


def turn_row(turn: Turn, opened: Mapping[Place, str]) -> Row:
    """The row of a batch or a cleaning in the order on a unit."""
    if isinstance(turn, Cleaning):
        cleaned, noted = turn.cleaned, turn.noted
        return "", noted.time[:19].replace("T", " "), "", "", None, "", cleaned.how, cleaned.checked, noted.who
    state = turn.state.word if not turn.is_closed else "closed"
    return turn.file, opened.get(turn.place, ""), *turn.batch, state, "", "", ""


def unit(base: Base, name: str, register: Register = NOTHING_NOTED, order: UnitOrder | None = None) -> Overview:
    """A unit: the batch that it runs, and those that it ran; and the order over all files with the cleanings between,
    the newest first, where there are any, or earlier files."""
    overview = unit_of_file(base, name)
    if name in register.units:
        overview.facts["name"] = register.units[name].name
    turns = order.turns.get(name, []) if order else []
    if order and (order.files > 1 or any(isinstance(turn, Cleaning) for turn in turns)):
        overview.tables["order over all files"] = TURNS, [turn_row(turn, order.opened) for turn in reversed(turns)]
    return overview


def unit_of_file(base: Base, name: str) -> Overview:
    """A unit: the batch that it runs, and those that it ran, in a file alone."""
    row_of(base, "SELECT unit FROM units WHERE unit = ?", (name,), "unit", "SELECT unit FROM units")
    overview = Overview(f"unit {name}")
    behind = "FROM batches AS b WHERE unit = ? ORDER BY b.closed DESC, rowid DESC"
    rows = overview.add(select(base, "batches", RUN_BY_UNIT, behind, (name,)))
    running = [f"{owner} {order}/{number}, {state}" for owner, order, number, state, closed in rows if closed == "open"]
    overview.facts["runs"] = running[0] if running else "nothing"
    return overview


MOVEMENT = columns(
    "kind m.lot_owner m.lot m.sublot m.target material m.amount m.measure m.day batch segment void noted_party "
    "noted_supplier_lot noted_document",
    kind=Kind.sql("m.kind"),
    material="m.of_material",
    batch=BATCH_NAME,
    segment="nullif(m.segment, 0)",
    void=VOID,
    noted_party="m.party",
    noted_supplier_lot="m.supplier_lot",
    noted_document="m.document",
)


def movement(base: Base, owner: str, key: str, register: Register = NOTHING_NOTED) -> Overview:
    """What was recorded with a key: the movement, with what the plant noted of it."""
    require_owner(base, owner)
    behind = "FROM movement AS m WHERE m.owner = ? AND m.mkey = ? AND m.measure IS NOT NULL"
    sheet = select(views.over(base, register), "", MOVEMENT, behind, (owner, key))
    if not sheet.rows:
        names = [str(name) for name, in base.execute("SELECT mkey FROM moves WHERE owner = ?", (owner,))]
        raise Failure(f"there is no movement {key} of {owner}", REFUSED, nearest(key, names, f"movements of {owner}"))
    facts = {name: value for name, value in zip(sheet.names, sheet.rows[0]) if value not in (None, "")}
    overview = Overview(f"movement {key} of {owner}", {name.replace("_", " "): facts[name] for name in facts})
    overview.remarks = [
        f"`hilpoven journal --word {key}` shows who recorded it and when.",
        f"`hilpoven show lot {facts['lot_owner']} {facts['lot']}` shows its lot.",
    ]
    return overview


DISPOSITIONS = columns("disposition lots", disposition=Disposition.sql("l.disposition"), lots="count(*)")
MATERIALS = columns("k.material k.measure lots on_hand", lots="count(l.lot)", on_hand=f"coalesce(sum({ON_HAND}), 0)")
PARTIES = columns("party name roles contact phone", roles="replace(roles, ' ', ', ')")
OF_OWNERS_LOTS = "FROM lots AS l WHERE l.owner = ? GROUP BY l.disposition ORDER BY l.disposition"
OF_MATERIALS = (
    "FROM materials AS k LEFT JOIN lots AS l USING (owner, material) WHERE k.owner = ? GROUP BY k.material ORDER BY 1"
)


def part_of(base: Base, title: str, listing: str, names: str, words: dict[str, str], only_open: bool = False) -> Sheet:
    """Some columns of a list, of one owner."""
    heads: list[Column] = [column for column in LISTINGS[listing].heads if column.name in names.split()]
    behind = LISTINGS[listing].behind(LISTINGS[listing].source, ["owner"], only_open)
    return select(base, title, heads, behind, words)


def owner(base: Base, name: str, register: Register = NOTHING_NOTED) -> Overview:
    """An owner: how much it has, its materials, its recipes, and what is open; never its key."""
    require_owner(base, name)
    words = {"owner": name}
    overview = Overview(f"owner {name}")
    for kind, (_, table) in OF_OWNER.items():
        ((overview.facts[kind],),) = base.execute(f"SELECT count(*) FROM {table} WHERE owner = :owner", words)
    overview.add(select(base, "lots by disposition", DISPOSITIONS, OF_OWNERS_LOTS, (name,)))
    overview.add(select(base, "materials by name", MATERIALS, OF_MATERIALS, (name,)))
    overview.add(part_of(base, "recipes by name", "recipes", "recipe segments requirements orders", words))
    overview.add(part_of(base, "open orders", "orders", "order recipe batches opened closed", words, True))
    overview.add(part_of(base, "open batches", "batches", "order batch unit state", words, True))
    parties, behind = (
        "customers, suppliers and carriers, noted by the plant",
        "FROM party WHERE owner = ? ORDER BY party",
    )
    overview.add(select(views.over(base, register), parties, PARTIES, behind, (name,)), False)
    overview.remarks = ["HOUSE is the plant, and has no key."] if name == HOUSE else []
    return overview


ORDERS = columns("order batches opened closed status", order="[order]")


def recipe(base: Base, owner: str, name: str) -> Overview:
    """A recipe: what each segment consumes and produces, and the orders that name it."""
    require_owner(base, owner)
    sql = "SELECT segments FROM recipes WHERE owner = ? AND recipe = ?"
    (segments,) = row_of(base, sql, (owner, name), "recipe", "SELECT recipe FROM recipes WHERE owner = ?")
    overview = Overview(f"recipe {name} of {owner}", {"segments": segments})
    overview.add(select(base, "requirements", RECIPE, OF_RECIPE, (owner, name)))
    behind = f"FROM ({LISTINGS['orders'].sql(['owner'])}) WHERE recipe = :recipe"
    orders = overview.add(select(base, "orders", ORDERS, behind, {"owner": owner, "recipe": name}))
    overview.remarks = [
        "An order names it, so it gets no more requirements."
        if orders
        else "No order names it yet, so it can get more requirements."
    ]
    return overview


LIMITS_OF_TESTS = columns("test low high")
USES = columns("owner recipe segment use amount", use=Role.sql("role"))
HELD = columns(
    "l.lot disposition origin on_hand", disposition=Disposition.sql("l.disposition"), origin=ORIGIN, on_hand=ON_HAND
)


def material(base: Base, owner: str, name: str) -> Overview:
    """A material: its tests with limits, the recipes that use it, and its lots that are on hand."""
    require_owner(base, owner)
    sql, words = "SELECT measure FROM materials WHERE owner = ? AND material = ?", (owner, name)
    (measure,) = row_of(base, sql, words, "material", "SELECT material FROM materials WHERE owner = ?")
    overview = Overview(f"material {name} of {owner}", {"measure": measure})
    tests = "FROM tests WHERE owner = ? AND material = ? ORDER BY test"
    overview.add(select(base, "tests", LIMITS_OF_TESTS, tests, words))
    uses = "FROM requirements WHERE source = ? AND material = ? ORDER BY owner, recipe, segment, role"
    overview.add(select(base, "recipes", USES, uses, words))
    lots = select(
        base, "lots on hand", HELD, "FROM lots AS l WHERE l.owner = ? AND l.material = ? ORDER BY l.lot", words
    )
    held = overview.add(Sheet(lots.name, HELD, [row for row in lots.rows if row[-1]]))
    overview.facts |= {"lots": len(lots.rows), "on hand": sum(int(row[-1] or 0) for row in held)}
    overview.remarks = ["A lot is of it, so it gets no more tests."] if lots.rows else []
    return overview
