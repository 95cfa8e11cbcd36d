"""The tables of a workbook, in the order in which they are given: their columns, and what each is for."""
from dataclasses import dataclass
from functools import cached_property

from ..sheets.cells import Cell
from ..sheets.values import KINDS, Kind, Reading, of_dates, of_days, of_names, of_numbers, of_texts, of_uses
from .readings import of_limits, of_measures, of_percents, of_roles

WORKBOOK = "workbook"
IMPORTED = (*KINDS, WORKBOOK)  # what `hilpoven import` takes
REMARK = "#"  # what the first text of a row begins with that is none of the table


@dataclass(frozen=True)
class Column:
    """A column of a table: its name, how its values are read, whether each row has one, and what it is for."""

    name: str
    reading: Reading
    is_needed: bool
    about: str


@dataclass(frozen=True)
class Table:
    """A table of a workbook: the name of its sheet, its columns, those that name the thing of a row, and the columns
    whose values name a thing of another table: by its title and by all columns that name it there."""

    title: str
    columns: tuple[Column, ...]
    names: tuple[str, ...]
    refers: tuple[tuple[str, tuple[str, ...]], ...] = ()

    @cached_property
    def kind(self) -> Kind:
        """What its sheet holds."""
        needed = {column.name: column.reading for column in self.columns if column.is_needed}
        others = {column.name: column.reading for column in self.columns if not column.is_needed}
        return Kind(self.title.lower(), needed, others)


def needed(name: str, reading: Reading, about: str) -> Column:
    """A column of which each row has a value."""
    return Column(name, reading, True, about)


def optional(name: str, reading: Reading, about: str) -> Column:
    """A column of which a row may have none."""
    return Column(name, reading, False, about)


OWNER = needed("owner", of_names, "an owner, or HOUSE")
MATERIAL = needed("material", of_names, "the material")
OF_OWNER = ("Owners", ("owner",))
OF_MATERIAL = ("Materials", ("owner", "material"))
OWNERS = Table(
    "Owners",
    (
        needed("owner", of_names, "its name in capitals; HOUSE is the plant"),
        optional("name", of_texts, "its full name"),
        optional("address", of_texts, "in one line"),
    ),
    ("owner",),
)
UNITS = Table("Units", (needed("unit", of_names, "a unit that runs one batch at a time"),), ("unit",))
MATERIALS = Table(
    "Materials",
    (
        OWNER,
        MATERIAL,
        needed("measure", of_measures, "of its amounts, such as kg"),
        optional("name", of_texts, "its full name"),
    ),
    ("owner", "material"),
    (OF_OWNER,),
)
TESTS = Table(
    "Tests",
    (
        OWNER,
        MATERIAL,
        needed("test", of_names, "the test"),
        needed("low", of_limits, "the lower limit, such as 6.50"),
        needed("high", of_limits, "the upper limit"),
        optional("decimals", of_numbers, "of its values: 1 to 9"),
        optional("unit", of_texts, "of its values, such as pH"),
        optional("method", of_texts, "by which it is measured"),
        optional("name", of_texts, "its full name"),
    ),
    ("owner", "material", "test"),
    (OF_OWNER, OF_MATERIAL),
)
RECIPES = Table(
    "Recipes",
    (
        OWNER,
        needed("recipe", of_names, "the recipe"),
        needed("segments", of_numbers, "how many it has"),
        optional("allowance", of_percents, "percent that may be lost, such as 1.5"),
        optional("product", of_names, "its main product"),
    ),
    ("owner", "recipe"),
    (OF_OWNER,),
)
REQUIREMENTS = Table(
    "Requirements",
    (
        OWNER,
        needed("recipe", of_names, "a recipe"),
        needed("segment", of_numbers, "its number in the recipe"),
        needed("use", of_uses, "consumed or produced"),
        needed("source", of_names, "whose the material is: the owner, or HOUSE"),
        MATERIAL,
        needed("amount", of_numbers, "a whole number of its measure"),
    ),
    ("owner", "recipe", "segment", "use", "source", "material"),
    (OF_OWNER, ("Recipes", ("owner", "recipe")), ("Materials", ("source", "material"))),
)
PARTIES = Table(
    "Parties",
    (
        OWNER,
        needed("party", of_names, "a short name in capitals"),
        needed("name", of_texts, "its full name"),
        needed("roles", of_roles, "customer, supplier, carrier: one or several"),
        optional("contact", of_texts, "who is told of a recall"),
        optional("phone", of_texts, "at any hour"),
        optional("address", of_texts, "in one line"),
    ),
    ("owner", "party"),
    (OF_OWNER,),
)
STOCK = Table(
    "Stock",
    (
        OWNER,
        MATERIAL,
        needed("lot", of_names, "a lot that is here today"),
        needed("sublot", of_names, "where it is"),
        needed("amount", of_numbers, "a whole number of the measure"),
        needed("day", of_days, "on which it came, as 261127"),
        optional("from", of_names, "the party that sent it"),
        optional("supplier_lot", of_texts, "the supplier's name of the lot"),
        optional("document", of_texts, "that came with it"),
        optional("made", of_dates, "the day on which it was made"),
        optional("expires", of_dates, "the last day of its use"),
        optional("retest", of_dates, "the last day without another test"),
    ),
    ("owner", "lot", "sublot"),
    (OF_OWNER, OF_MATERIAL),
)
TABLES = {table.title: table for table in (OWNERS, UNITS, MATERIALS, TESTS, RECIPES, REQUIREMENTS, PARTIES, STOCK)}


def is_remark(cells: list[Cell]) -> bool:
    """Whether a row is a remark."""
    return next((cell.text for cell in cells if not cell.is_empty()), "").lstrip().startswith(REMARK)
