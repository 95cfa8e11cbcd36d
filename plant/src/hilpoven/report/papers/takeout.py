"""All that the office has of one owner, as tables that it can take along."""
from datetime import date

from ... import HOUSE
from ...core.failure import REFUSED, Failure
from ...model.answers import OrderLine, rows_of
from ...model.register.standing import Register
from ...model.rows import Base, require_owner
from .. import noted
from ..columns import columns
from ..listing import read
from ..lists import LISTINGS
from ..sheets import Sheet, select
from .agreement import agree_on_all, check_owner, check_results
from .copies import Source
from .printing import Document

TABLES = (  # the lists, in the order in which one leads to the next
    *("materials", "tests", "recipes", "requirements", "orders", "batches"),
    *("lots", "sublots", "moves", "results", "voids"),
)
PARTIES = columns("party name:text roles:text contact:text phone:text address:text", roles="replace(roles, ' ', ', ')")
JUDGED = columns("lot what:text day:day reason:text", **{"what": ("is_held", noted.word_of)})
OF_OWNER = """
FROM register.judgement_note AS j WHERE owner = :owner
ORDER BY (SELECT min(x.note) FROM register.judgement_note AS x WHERE x.owner = j.owner AND x.lot = j.lot), note
"""
RECIPES = columns("recipe allowance:text product")
CONTENTS = columns("file:text rows:number what:text")


def documents(source: Source, owner: str, when: date) -> list[Document]:
    """The tables of an owner on a day, with a page that lists them."""
    require_owner(source.base, owner)
    if owner == HOUSE:
        raise Failure(f"{HOUSE} is the plant itself: a backup has all of it", REFUSED)
    check(source, owner)
    register = source.register.of(owner)
    tables = (table_of(source, owner, name) for name in TABLES)
    sheets = [sheet for sheet in (*tables, *notes_of(source, register, owner)) if sheet.rows]
    files = [(f"{sheet.name}.csv", len(sheet.rows), ABOUT[sheet.name]) for sheet in sheets]
    values = {"owner": owner, "facts": {"owner": owner, **facts_of(register, owner)}}
    contents = [*sheets, Sheet("contents", CONTENTS, files)]
    return [Document("takeout", False, f"All of {owner}, {when}", contents, values, is_across=False)]


def facts_of(register: Register, owner: str) -> dict[str, str]:
    """The full name and the address of the owner, as far as they are noted."""
    facts = register.owners.get(owner)
    return {"name": facts.name, "address": facts.address} if facts else {}


def check(source: Source, owner: str) -> None:
    """Fails if the movements of the owner's lots don't leave what is on hand, or if `toll` tells other orders, another
    stock or other results."""
    lots = check_owner(source, owner)
    if not source.has_owner(owner):
        return
    check_results(source, owner, [lot for lot in lots if source.newest_has(lot)])
    answered = rows_of(OrderLine, source.newest.answer("orders", owner))
    sql = "SELECT ord, recipe, batches, iif(cancelled, 'cancelled', 'open') FROM orders WHERE owner = ?"
    agree_on_all(
        {line.order: (line.recipe, line.batches, line.status) for line in answered},
        {name: tuple(row) for name, *row in source.newest.base.execute(sql, (owner,))},
    )


def table_of(source: Source, owner: str, name: str) -> Sheet:
    """A list of the owner's rows, with what is noted of them and without the owner's name. Without the plant's own
    tests: an owner gets what the plant says of lots."""
    also = ["is_plants IS NOT 1"] if name in ("tests", "results") else []
    sheet = read(source.base, name, {"owner": owner}, also=also)
    return Sheet(name, sheet.columns[1:], [tuple(row[1:]) for row in sheet.rows])


def notes_of(source: Source, register: Register, owner: str) -> list[Sheet]:
    """What the plant noted of the owner."""
    base, words = source.base, {"owner": owner}
    allowances = [
        (name, f"{facts.allowance / 10:.1f}" if facts.allowance else None, facts.product or None)
        for (_, name), facts in sorted(register.recipes.items())
    ]
    return [
        select(base, "parties", PARTIES, "FROM party WHERE owner = :owner ORDER BY party", words),
        Sheet("allowances", RECIPES, allowances),
        noted.links(base, "k.owner = :owner", words),
        judgements(base, owner),
        noted.reasons(base, "r.owner = :owner", words),
    ]


def judgements(base: Base, owner: str) -> Sheet:
    """The signatures and holds of an owner's lots, lot by lot."""
    return select(base, "judged", JUDGED, OF_OWNER, {"owner": owner})


ABOUT = {
    **{name: LISTINGS[name].about.partition(";")[0] for name in TABLES},
    "parties": "customers, suppliers and carriers, as the plant noted them",
    "allowances": "percent of a recipe's materials that may be lost by the contract, as the plant noted it",
    "links": "lots that contain others without an actual, as the plant noted it",
    "judged": "signatures and holds of lots by the plant",
    "reasons": "why commands were given, as the plant noted it",
}
