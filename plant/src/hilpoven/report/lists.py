"""The office's tables, as `list` shows them: what is asked of the copy, and which rows each option leaves."""
from collections.abc import Iterable
from typing import NamedTuple

from ..model.schema import CLOSED, LATEST, ON_HAND, ORIGIN, STANDING, VOID, Disposition, Kind, Role, State, quality_text
from .columns import Column, columns, measured

ORDERS = """
SELECT o.*, count(b.number) AS opened, coalesce(sum(b.closed), 0) AS closed,
  CASE WHEN o.cancelled THEN 'cancelled' WHEN coalesce(sum(b.closed), 0) = o.batches THEN 'done' ELSE 'open'
  END AS status
FROM orders AS o LEFT JOIN batches AS b USING (owner, ord) GROUP BY o.owner, o.ord
"""


class Filter(NamedTuple):
    """An option that leaves those rows of a list in which a column compares so with a value."""

    column: str
    about: str
    operator: str = "="


# The options by their names, which are also those of the parameters of a query.
FILTERS: dict[str, Filter] = {
    "owner": Filter("owner", "Only this owner; HOUSE is the plant."),
    "lot": Filter("lot", "Only lots with this name."),
    "key": Filter("key", "Only movements with this key."),
    "material": Filter("material", "Only this material."),
    "order": Filter("order", "Only this order."),
    "kind": Filter("kind", "Only movements of this kind."),
    "unit": Filter("unit", "Only this unit."),
    "since": Filter("day", "From this day on, as a number or a date: 261127 or 2026-11-27.", ">="),
}


class Listing(NamedTuple):
    """A table as it is listed: its columns, where they come from, and in which order; and where its rows come from with
    what is noted of them, and the columns of that, some in the place of others."""

    about: str
    heads: list[Column]
    source: str
    order: str
    is_open: str = ""  # SQL: the rows that `--open` leaves
    open_about: str = ""
    tests: dict[str, str] = {}  # SQL: the rows that options leave which aren't of a column alone
    status: str = ""  # the column that tells why `--open` leaves a row out
    noted_source: str = ""  # of views
    noted: list[Column] = []

    @property
    def columns(self) -> dict[str, str]:
        """The SQL of each column, by its name."""
        return {column.name: column.sql[0] for column in self.heads}

    @property
    def with_notes(self) -> list[Column]:
        """Its columns with those of what is noted."""
        return list({column.name: column for column in [*self.heads, *self.noted]}.values())

    @property
    def whose_lot(self) -> str:
        """The column that has the owner of a lot."""
        return "lot_owner" if "lot_owner" in self.columns else "owner"

    @property
    def filters(self) -> dict[str, str]:
        """The options with a value that this list has, and the owner of a scanned lot, each with the SQL of the rows
        that it leaves."""
        of_columns = {
            name: f"{self.columns[condition.column]} {condition.operator} :{name}"
            for name, condition in FILTERS.items()
            if condition.column in self.columns
        }
        of_scanned = {"lot_owner": f"{self.columns.get(self.whose_lot)} = :lot_owner"}
        return {**of_columns, **self.tests, **of_scanned}

    def sql(self, asked: Iterable[str] = (), only_open: bool = False) -> str:
        """The query with these of its filters, whose names are parameters."""
        names = ", ".join(f'{sql} AS "{name}"' for name, sql in self.columns.items())
        return f"SELECT {names} {self.behind(self.source, asked, only_open)}"

    def behind(self, source: str, asked: Iterable[str], only_open: bool, also: Iterable[str] = ()) -> str:
        """SQL behind the columns: where rows come from, which of them, and their order."""
        tests = [*(self.filters[name] for name in asked), *([self.is_open] if only_open else []), *also]
        where = " AND ".join(f"({test})" for test in tests)
        return f"FROM {source} {f'WHERE {where} ' if where else ''}ORDER BY {self.order}"


LISTINGS: dict[str, Listing] = {
    "owners": Listing(
        "owners, with how many materials, orders and lots each has, and never their keys",
        columns(
            "o.owner materials:number orders:number lots:number",
            materials="(SELECT count(*) FROM materials AS m WHERE m.owner = o.owner)",
            orders="(SELECT count(*) FROM orders AS r WHERE r.owner = o.owner)",
            lots="(SELECT count(*) FROM lots AS l WHERE l.owner = o.owner)",
        ),
        "(SELECT owner FROM owners UNION SELECT 'HOUSE') AS o",
        "1",
        noted_source="owner AS o",
        noted=columns("noted_name:text?noted noted_address:text?noted", noted_name="o.name", noted_address="o.address"),
    ),
    "units": Listing(
        "units, with the batch that each runs",
        columns(
            "u.unit b.owner order batch:number state:text", order="b.ord", batch="b.number", state=State.sql("b.state")
        ),
        "units AS u LEFT JOIN batches AS b ON b.unit = u.unit AND b.closed = 0",
        "1",
        "b.owner IS NOT NULL",
        "units that run a batch",
    ),
    "materials": Listing(
        "materials with their measures",
        columns("owner material measure:text"),
        "materials",
        "1, 2",
        noted_source="material",
        noted=columns("noted_name:text?noted", noted_name="name"),
    ),
    "tests": Listing(
        "tests of materials with their limits; of a lot's material with --lot",
        columns("owner material test low:number high:number"),
        "tests AS t",
        "1, 2, 3",
        tests={"lot": "(t.owner, t.material) IN (SELECT owner, material FROM lots WHERE lot = :lot)"},
        noted_source="test AS t",
        noted=columns(
            "low:number high:number noted_name:text?noted noted_unit:text?noted noted_method:text?noted",
            low=measured("low"),
            high=measured("high"),
            noted_name="name",
            noted_unit="unit",
            noted_method="method",
        ),
    ),
    "recipes": Listing(
        "recipes, with how many requirements and orders each has",
        columns(
            "r.owner r.recipe r.segments:number requirements:number orders:number",
            requirements="(SELECT count(*) FROM requirements AS q WHERE q.owner = r.owner AND q.recipe = r.recipe)",
            orders="(SELECT count(*) FROM orders AS o WHERE o.owner = r.owner AND o.recipe = r.recipe)",
        ),
        "recipes AS r",
        "1, 2",
    ),
    "requirements": Listing(
        "what each segment of a recipe consumes and produces",
        columns("owner recipe segment:number use:text source material amount:number", use=Role.sql("role")),
        "requirements",
        "owner, recipe, segment, role, source, material",
    ),
    "orders": Listing(
        "orders, with how many batches were opened and closed",
        columns("owner order recipe batches:number opened:number closed:number status:text", order="ord"),
        f"({ORDERS})",
        "1, 2",
        "status = 'open'",
        "orders that are neither cancelled nor done",
        status="status",
    ),
    "batches": Listing(
        "batches with their units and states",
        columns(
            "owner order batch:number unit state:text closed:text",
            order="ord",
            batch="number",
            state=State.sql("state"),
            closed=CLOSED,
        ),
        "batches AS b",
        "1, 2, 3",
        "closed = 0",
        "batches that aren't closed",
        status="closed",
    ),
    "lots": Listing(
        "lots with their material, disposition and what of each is on hand",
        columns(
            "l.owner l.lot l.material m.measure:text disposition:text origin on_hand:number",
            disposition=Disposition.sql("l.disposition"),
            origin=ORIGIN,
            on_hand=ON_HAND,
        ),
        "lots AS l JOIN materials AS m USING (owner, material)",
        "1, 2",
        f"l.disposition = {Disposition.QUARANTINED:d}",
        "lots that are quarantined",
        status="disposition",
        noted_source="lot AS l JOIN materials AS m USING (owner, material) "
        "JOIN quality AS q ON q.owner = l.owner AND q.lot = l.lot",
        noted=columns(
            "noted_made:text?noted noted_expires:text?noted noted_retest:text?noted quality:text?",
            noted_made="l.made",
            noted_expires="l.expires",
            noted_retest="l.retest",
            quality=("q.state", "q.day", "q.reason", quality_text),
        ),
    ),
    "sublots": Listing(
        "sublots with what each holds",
        columns(
            "s.owner s.lot s.sublot l.material disposition:text s.amount:number m.measure:text",
            disposition=Disposition.sql("l.disposition"),
        ),
        "sublots AS s JOIN lots AS l USING (owner, lot) JOIN materials AS m USING (owner, material)",
        "1, 2, 3",
        "s.amount > 0",
        "sublots that hold something",
    ),
    "moves": Listing(
        "movements with their keys, in the order in which they were recorded",
        columns(
            "m.owner key kind:text m.lot_owner m.lot m.sublot m.target m.material order batch:number segment:number "
            "m.amount:number m.day:day void:text",
            key="m.mkey",
            kind=Kind.sql("m.kind"),
            order="m.ord",
            batch="nullif(m.number, 0)",
            segment="nullif(m.segment, 0)",
            void=VOID,
        ),
        "moves AS m",
        "m.rowid",
        STANDING,
        "movements that are not voided",
        tests={"material": "(m.lot_owner, m.lot) IN (SELECT owner, lot FROM lots WHERE material = :material)"},
        noted_source="movement AS m",
        noted=columns(
            "noted_party:text?noted noted_supplier_lot:text?noted noted_document:text?noted",
            noted_party="m.party",
            noted_supplier_lot="m.supplier_lot",
            noted_document="m.document",
        ),
    ),
    "results": Listing(
        "results of tests, in the order in which they were recorded",
        columns("owner lot test number:number value:number day:day"),
        "results AS r",
        "rowid",
        LATEST,
        "the latest result of each test",
        noted_source="result AS r",
        noted=columns("value:number noted_unit:text?noted", value=measured("value", sign="sign"), noted_unit="unit"),
    ),
    "voids": Listing(
        "voided actuals",
        columns(
            "v.owner key kind:text m.lot_owner m.lot m.sublot order batch:number m.amount:number m.day:day",
            key="v.mkey",
            kind=Kind.sql("m.kind"),
            order="m.ord",
            batch="m.number",
        ),
        "voids AS v JOIN moves AS m USING (owner, mkey)",
        "v.rowid",
    ),
}
