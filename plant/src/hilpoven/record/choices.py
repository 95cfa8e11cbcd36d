"""Which names a value of a line may have in an office, by the values that stand before it."""
from collections import defaultdict
from dataclasses import dataclass, field

from .. import HOUSE
from ..model import nearest
from ..core.failure import printable
from ..core.grammar import MOVEMENTS, Line
from ..model.schema import ON_HAND, STANDING, Disposition, Role, State
from ..model.rows import Base


NEW = {  # names that a line gives to what isn't there yet
    ("owner-add", "OWNER"),
    ("unit-add", "UNIT"),
    ("material-add", "MATERIAL"),
    ("test-add", "TEST"),
    ("recipe-add", "RECIPE"),
    ("order", "ORDER"),
    *((line, "KEY") for line in MOVEMENTS),
}
MAY_BE_NEW = {("receive", "LOT"), ("receive", "SUBLOT"), ("split", "TARGET")}
KIND_OF = {"SOURCE": "OWNER", "LOT-OWNER": "OWNER", "TARGET": "SUBLOT"}  # called another name than what they are
ALL_NAMES = {value: (called, sql) for value, called, sql in nearest.NAMES.values()}  # of a value: all that there are

BATCHES = "batches AS b JOIN orders AS o USING (owner, ord)"
OPEN = f"FROM {BATCHES} WHERE b.owner = :owner AND b.closed = 0"
OPEN_ORDERS = f"SELECT DISTINCT b.ord, o.recipe {OPEN}"
OPEN_BATCHES = f"SELECT b.number, b.unit || ', ' || {State.sql('b.state')} {OPEN} AND b.ord = :order"
AT_WORK = f"AND b.state <> {State.IDLE:d}"
UNOPENED_ORDERS = """
SELECT o.ord, o.recipe || ', ' || count(b.number) || ' of ' || o.batches || ' opened'
FROM orders AS o LEFT JOIN batches AS b USING (owner, ord) WHERE o.owner = :owner AND o.cancelled = 0
GROUP BY o.ord HAVING count(b.number) < o.batches
"""
UNBEGUN_ORDERS = """
SELECT o.ord, o.recipe FROM orders AS o WHERE o.owner = :owner AND o.cancelled = 0
AND NOT EXISTS (SELECT 1 FROM batches AS b WHERE b.owner = o.owner AND b.ord = o.ord)
"""
REQUIRED = """
FROM requirements AS q JOIN orders AS o USING (owner, recipe) WHERE o.owner = :owner AND o.ord = :order
"""
OF_SEGMENT = f"{REQUIRED} AND q.segment = CAST(:segment AS INTEGER)"
OF_USE = f"{OF_SEGMENT} AND {Role.sql('q.role')} = :use"
LOTS = f"""
SELECT l.lot, l.material || ', ' || {Disposition.sql('l.disposition')} || ', ' || {ON_HAND} || ' ' || m.measure
FROM lots AS l JOIN materials AS m USING (owner, material) WHERE l.owner = :names_owner
"""
ON_HAND_NOW = f"AND {ON_HAND} > 0"
RELEASED, QUARANTINED = (
    f"AND l.disposition = {disposition:d}" for disposition in (Disposition.RELEASED, Disposition.QUARANTINED)
)
NOT_REJECTED = f"AND l.disposition <> {Disposition.REJECTED:d}"
SUBLOTS = """
SELECT s.sublot, s.amount || ' ' || m.measure
FROM sublots AS s JOIN lots AS l USING (owner, lot) JOIN materials AS m USING (owner, material)
WHERE s.owner = :names_owner AND s.lot = :lot
"""
MATERIALS = "SELECT material, measure FROM materials WHERE owner = :names_owner"
FREE_UNITS = """
SELECT unit, '' FROM units AS u WHERE NOT EXISTS (SELECT 1 FROM batches AS b WHERE b.unit = u.unit AND b.closed = 0)
"""
RECIPES = "SELECT recipe, '' FROM recipes AS r WHERE owner = :names_owner"
UNORDERED = "AND NOT EXISTS (SELECT 1 FROM orders AS o WHERE o.owner = r.owner AND o.recipe = r.recipe)"
SOURCES = f"SELECT :owner, '' UNION SELECT '{HOUSE}', '' WHERE :use = '{Role.CONSUMED.word}'"
LOTS_OF_ACTUAL = f"""{LOTS} AND l.material = :material AND CASE :use
  WHEN '{Role.CONSUMED.word}' THEN 1 {RELEASED} {ON_HAND_NOW}
  ELSE 1 {QUARANTINED} AND l.ord = :order AND l.number = CAST(:batch AS INTEGER) END
"""
LIMITS = """
SELECT t.test, t.low, t.high
FROM tests AS t JOIN lots AS l USING (owner, material) WHERE l.owner = :names_owner AND l.lot = :lot
"""
TESTS = f"SELECT test, '' FROM ({LIMITS})"
OPEN_ACTUALS = f"""
SELECT m.mkey, m.ord || '/' || m.number || ', ' || m.lot || ', ' || m.amount
FROM moves AS m JOIN batches AS b USING (owner, ord, number)
WHERE m.owner = :names_owner AND b.closed = 0 AND {STANDING}
"""
# What fits a value of a line, with what there is to know of each; of other values it is all names.
FITTING: dict[tuple[str, str], str] = {
    ("order", "RECIPE"): RECIPES,
    ("require", "RECIPE"): f"{RECIPES} {UNORDERED}",
    ("require", "SOURCE"): SOURCES,
    **{(line, "MATERIAL"): MATERIALS for line in ("require", "test-add", "receive")},
    ("cancel", "ORDER"): UNBEGUN_ORDERS,
    ("open", "ORDER"): UNOPENED_ORDERS,
    ("open", "UNIT"): FREE_UNITS,
    **{(line, "ORDER"): OPEN_ORDERS for line in ("do", "close")},
    **{(line, "BATCH"): OPEN_BATCHES for line in ("do", "close")},
    ("actual", "ORDER"): f"{OPEN_ORDERS} {AT_WORK}",
    ("actual", "BATCH"): f"{OPEN_BATCHES} {AT_WORK}",
    ("actual", "SEGMENT"): f"SELECT DISTINCT q.segment, '' {REQUIRED}",
    ("actual", "USE"): f"SELECT DISTINCT {Role.sql('q.role')}, '' {OF_SEGMENT}",
    ("actual", "MATERIAL"): f"SELECT DISTINCT q.material, '' {OF_USE}",
    ("actual", "LOT-OWNER"): f"SELECT DISTINCT q.source, '' {OF_USE} AND q.material = :material",
    ("actual", "LOT"): LOTS_OF_ACTUAL,
    ("actual", "SUBLOT"): f"{SUBLOTS} AND (s.amount > 0 OR :use <> '{Role.CONSUMED.word}')",
    ("receive", "LOT"): f"{LOTS} {QUARANTINED} AND l.ord = '' AND l.material = :material",
    ("receive", "SUBLOT"): SUBLOTS,
    ("split", "TARGET"): f"{SUBLOTS} AND s.sublot <> :sublot",
    ("ship", "LOT"): f"{LOTS} {RELEASED} {ON_HAND_NOW}",
    **{(line, "LOT"): f"{LOTS} {ON_HAND_NOW}" for line in ("split", "scrap")},
    **{(line, "SUBLOT"): f"{SUBLOTS} AND s.amount > 0" for line in ("split", "ship", "scrap")},
    ("release", "LOT"): f"{LOTS} {QUARANTINED}",
    **{(line, "LOT"): f"{LOTS} {NOT_REJECTED}" for line in ("reject", "result")},
    ("result", "TEST"): TESTS,
    ("void", "KEY"): OPEN_ACTUALS,
}
PLACES = "SELECT DISTINCT sublot FROM sublots ORDER BY sublot"
LIMITS_OF_TEST = f"SELECT low, high FROM ({LIMITS}) WHERE test = :test"
KEYS = "SELECT mkey FROM moves WHERE owner = :owner"
HOLDS = "SELECT s.amount FROM sublots AS s WHERE s.owner = :names_owner AND s.lot = :lot AND s.sublot = :sublot"
TAKING = MOVEMENTS - {"receive"}
LOT_OR_SUBLOT = {"LOT", "SUBLOT"}


@dataclass(frozen=True)
class Choice:
    """A name that a value may have, and what there is to know of it."""

    name: str
    about: str = ""


@dataclass(frozen=True)
class Place:
    """A value of a line, with the values that stand before it. The plant's own test isn't suggested."""

    line: Line
    value: str
    before: dict[str, str] = field(default_factory=dict)
    plants_test: str = ""

    @property
    def kind(self) -> str:
        """The value of which this is another name: a target is a sublot."""
        return KIND_OF.get(self.value, self.value)

    @property
    def is_new(self) -> bool:
        """Whether the line gives this name to what isn't there yet."""
        return (self.line.name, self.value) in NEW

    @property
    def may_be_new(self) -> bool:
        """Whether the name may be that of something that isn't there yet."""
        is_produced = self.line.name == "actual" and self.before.get("USE") == Role.PRODUCED.word
        return self.is_new or (self.line.name, self.value) in MAY_BE_NEW or is_produced and self.value in LOT_OR_SUBLOT

    @property
    def is_of_recipe(self) -> bool:
        """Whether it is the material of an actual, whose owner isn't known before it."""
        return (self.line.name, self.value) == ("actual", "MATERIAL")

    @property
    def words(self) -> dict[str, str]:
        """The values before it as parameters of the queries; what isn't given is empty."""
        given = {name.lower().replace("-", "_"): word for name, word in self.before.items()}
        owner = given.get("owner", "" if "OWNER" in self.line.values else HOUSE)
        names_owner = nearest.owner_of_names(f"Unknown{self.kind.capitalize()}", {**self.before, "OWNER": owner})
        return defaultdict(str, {**given, "owner": owner, "names_owner": names_owner})

    def fitting(self, base: Base) -> list[Choice]:
        """The names that fit, in their order; none if the line gives a new one."""
        return [choice for choice in self.known(base) if self.kind != "TEST" or choice.name != self.plants_test]

    def known(self, base: Base) -> list[Choice]:
        """The names that fit, and the plant's own test where it does."""
        sql = FITTING.get((self.line.name, self.value))
        if sql is None:
            return [] if self.is_new else [Choice(name) for name in self.names(base)]
        choices = (Choice(printable(str(name)), printable(about)) for name, about in base.execute(sql, self.words))
        return sorted(choices, key=lambda choice: (int(choice.name) if choice.name.isdecimal() else 0, choice.name))

    def names(self, base: Base) -> list[str]:
        """All names of its kind that there are; of the material of an actual those that the recipe has."""
        if self.is_of_recipe:
            return [choice.name for choice in self.fitting(base)]
        if self.kind not in ALL_NAMES:
            return []
        return sorted(printable(name) for name, in base.execute(ALL_NAMES[self.kind][1], self.words))

    def suggested(self, base: Base) -> list[str]:
        """The names that are completed: those that fit, and of a sublot that may be new all places of the plant."""
        names = [choice.name for choice in self.fitting(base)]
        return names + [place for place in self.places(base) if place not in names]

    def places(self, base: Base) -> list[str]:
        """The names of all sublots, if this is that of one that may be new: a bay or a tank has many lots."""
        is_place = self.may_be_new and self.kind == "SUBLOT"
        return [printable(name) for name, in base.execute(PLACES)] if is_place else []

    def is_unheard(self, base: Base, word: str) -> bool:
        """Whether a name that may be new is one: nothing of its kind has it, and of a sublot no other lot's either."""
        return self.may_be_new and not self.is_new and word not in (self.places(base) or self.names(base))

    def unknown(self, base: Base, word: str) -> str:
        """What is told of a word that is to be one of these names and is none; empty otherwise."""
        if self.may_be_new or self.kind not in ALL_NAMES or word in (names := self.names(base)):
            return ""
        called = "materials of the recipe" if self.is_of_recipe else ALL_NAMES[self.kind][0].format(**self.words)
        return f"isn't there. {nearest.nearest(word, names, called)}"

    def taken(self, base: Base, word: str) -> str:
        """What is told of a word that is to be a new name and is there already; empty otherwise."""
        if not self.is_new:
            return ""
        names = self.names(base) if self.value != "KEY" else [key for key, in base.execute(KEYS, self.words)]
        return "is there already" if word in names else ""

    def limits(self, base: Base) -> tuple[int, int] | None:
        """The limits of a test of which this is a value; `None` if it is none, or they aren't known."""
        is_value = (self.line.name, self.value) == ("result", "VALUE")
        row = base.execute(LIMITS_OF_TEST, self.words).fetchone() if is_value else None
        return (int(row[0]), int(row[1])) if row else None

    def most(self, base: Base) -> int | None:
        """The greatest amount that can be taken from the sublot; `None` if the line takes none."""
        is_taken = self.before.get("USE", Role.CONSUMED.word) == Role.CONSUMED.word
        if self.value != "AMOUNT" or self.line.name not in TAKING or not is_taken:
            return None
        row = base.execute(HOLDS, Place(self.line, "SUBLOT", self.before).words).fetchone()
        return int(row[0]) if row else None
