"""What an office has of what a workbook says: its rows, and what is noted of them."""
from dataclasses import dataclass, field
from typing import Any

from ... import HOUSE
from ...model.register.standing import Register
from ...model.rows import OF_OPENING, Base
from ...model.schema import Role
from .reading import Thing
from .tables import MATERIALS, OWNERS, PARTIES, RECIPES, REQUIREMENTS, STOCK, TESTS, UNITS

ROWS = {  # the things of each table, with what is recorded of each
    OWNERS.title: "SELECT owner, '' FROM owners",
    UNITS.title: "SELECT unit, '' FROM units",
    MATERIALS.title: "SELECT owner, material, measure FROM materials",
    RECIPES.title: "SELECT owner, recipe, CAST(segments AS TEXT) FROM recipes",
    REQUIREMENTS.title: f"""
SELECT owner, recipe, CAST(segment AS TEXT), {Role.sql('role')}, source, material, CAST(amount AS TEXT)
FROM requirements""",
    STOCK.title: "SELECT owner, lot, sublot, CAST(amount AS TEXT) FROM sublots",
}
LOTS = "SELECT owner, lot, material FROM lots"
LIMITS = "SELECT owner, material, test, low, high FROM tests"
OPENED = f"SELECT DISTINCT lot_owner, lot FROM moves WHERE mkey GLOB '{OF_OPENING}*'"


@dataclass
class Standing:
    """What an office has: what is recorded of each thing, the materials of lots, the limits of tests, the lots with
    opening stock of a workbook, and what is noted."""

    recorded: dict[Thing, str]
    lots: dict[tuple[str, str], str]
    limits: dict[tuple[str, str, str], tuple[int, int]]
    opened: set[tuple[str, str]]
    register: Register
    used: set[tuple[str, str]] = field(default_factory=set)  # the materials that have a lot

    def __post_init__(self) -> None:
        self.used = {(owner, material) for (owner, _), material in self.lots.items()}

    def has(self, subject: Thing) -> bool:
        """Whether the office has a thing."""
        if subject[0] == TESTS.title:
            return subject[1:] in self.limits
        return subject in self.recorded


def standing_in(base: Base, register: Register) -> Standing:
    """What an office has, of whose file these are the tables."""
    recorded: dict[Thing, str] = {(OWNERS.title, HOUSE): ""}
    for title, sql in ROWS.items():
        recorded.update({(title, *names): value for *names, value in base.execute(sql)})
    recorded.update({(PARTIES.title, *names): "" for names in register.parties})
    lots: dict[Any, str] = {(owner, lot): material for owner, lot, material in base.execute(LOTS)}
    limits: dict[Any, tuple[int, int]] = {tuple(names): (low, high) for *names, low, high in base.execute(LIMITS)}
    return Standing(recorded, lots, limits, set(base.execute(OPENED)), register)
