"""Cleanings of units, what is decided of residues, and what is looked at before a batch is opened on a unit that has to
be clean. `toll` knows no cleaning: whoever may call it directly opens the batch all the same."""
from collections.abc import Callable, Mapping, Sequence
from dataclasses import dataclass
from typing import Any

from .. import HOUSE
from ..core import snapshot
from ..core.context import Context
from ..core.failure import REFUSED, Failure
from ..core.forms import listed
from ..core.settings import ANY_UNIT, REFUSE, Clean
from ..model import unit_order
from ..model.notes import Cleaned, NoResidue
from ..model.register.keeping import OfficeFile, files_of
from ..model.register.standing import Register, register_of
from ..model.rows import Base, BatchId, require_unit
from ..model.unit_order import Holding, Material, UnitOrder
from . import making
from .noting import Recorded, record

RECIPE = "SELECT recipe FROM orders WHERE owner = ? AND ord = ?"
MOST_NAMED = 4  # batches that are named where a unit isn't clean


def clean(context: Context, unit: str, how: str, checked: str) -> Recorded:
    """Notes that a unit was cleaned, behind the last batch on it, which has to be closed."""
    with making.desk(context) as desk:
        require_unit(desk.base, unit)
        last = unit_order.last_on(desk.base, unit)
        if last and not last[1]:
            advice = f"`hilpoven close {' '.join(map(str, last[0]))}` frees it"
            raise Failure(f"{unit} runs batch {last[0]}, and is cleaned behind it", REFUSED, advice)
        behind: dict[str, Any] = {} if last is None else dict(zip(("of_owner", "order", "batch"), last[0]))
        words = ["clean", unit, "--how", how, *(["--checked", checked] if checked else [])]
        return Recorded(desk.record(words, Cleaned(HOUSE, unit, how, checked, **behind)))


def no_residue(context: Context, batch: BatchId, reason: str) -> Recorded:
    """Notes that a batch contains nothing of what its unit held before."""
    with making.desk(context) as desk:
        desk.require_batch(batch)
        words = ["note", "no-residue", batch.owner, batch.order, str(batch.number), "--reason", reason]
        return record(desk, words, NoResidue(batch.owner, batch.order, batch.number, reason))


@dataclass(frozen=True)
class Next:
    """The batch that is to be opened: its order's owner and recipe."""

    owner: str
    recipe: str


@dataclass(frozen=True)
class Soiling:
    """What is known of the next batch and of those that held its unit since it was cleaned. What each of them made and
    took is in its own file: the newest may have another recipe and another batch of these names, or none."""

    files: Sequence[OfficeFile]
    order: UnitOrder
    register: Register
    next: Next
    since: list[Holding]

    def by_owners(self) -> list[str]:
        """The other owners that had it."""
        return sorted({holding.batch.owner for holding in self.since} - {self.next.owner})

    def by_materials(self) -> list[str]:
        """The products that were made on it, and aren't the next batch's."""
        before = {
            product
            for held in self.since
            for product in unit_order.products_of(self.base_of(held), held.batch.owner, held.recipe)
        }
        own = unit_order.products_of(self.newest, self.next.owner, self.next.recipe)
        return sorted(" ".join(product) for product in before - own)

    def by_allergens(self) -> list[str]:
        """The allergens that it held, and that the next batch hasn't."""
        before = {
            material
            for held in self.since
            for material in unit_order.materials_in(self.base_of(held), held, self.order.added.get(held.place, ()))
        }
        own = unit_order.materials_of(self.newest, self.next.owner, self.next.recipe)
        return sorted(self.allergens(before) - self.allergens(own))

    def by_anything(self) -> list[str]:
        """All batches that had it."""
        return list(dict.fromkeys(str(holding.batch) for holding in self.since))

    @property
    def newest(self) -> Base:
        """The tables of the newest file, which has the next batch's order."""
        return self.files[-1].base

    def base_of(self, holding: Holding) -> Base:
        """The tables of the file in which a batch held the unit."""
        return self.files[holding.place.file - 1].base

    def allergens(self, materials: set[Material]) -> set[str]:
        """The allergens of materials."""
        noted = self.register.materials
        return {allergen for name in materials if name in noted for allergen in noted[name].allergens}


# What each rule of the settings compares, and how that is called.
RULES: dict[str, tuple[Callable[[Soiling], list[str]], str]] = {
    "always": (Soiling.by_anything, "each batch"),
    "owners": (Soiling.by_owners, "batches of two owners"),
    "materials": (Soiling.by_materials, "batches of other products"),
    "allergens": (Soiling.by_allergens, "allergens"),
}


def rules_of(settings: Clean, unit: str) -> list[str]:
    """The rules that the settings have for a unit."""
    return [rule for rule in RULES if {unit, ANY_UNIT} & set(getattr(settings, rule))]


def require_clean(context: Context, values: Mapping[str, str], takes_unclean: bool) -> None:
    """Fails if a batch is about to be opened on a unit that has to be clean before, by the settings, and nobody says
    that it is meant; where they refuse it, nobody may say so."""
    settings = context.settings.clean
    rules = rules_of(settings, values["UNIT"])
    if not rules or not (why := why_unclean(context, values, rules)):
        return
    advice = f"`hilpoven clean {values['UNIT']} --how TEXT` notes that it was cleaned"
    if settings.open == REFUSE:
        raise Failure(f"{why}; nothing is done", REFUSED, advice)
    if not takes_unclean:
        context.require_meant("unit", why, f"{advice}\nif it is meant: --yes takes it", "Open it all the same?")


def why_unclean(context: Context, values: Mapping[str, str], rules: list[str]) -> str:
    """Why a unit isn't clean enough for the next batch of an order, with what was there last; empty if it is, if it
    runs a batch, or if there is no such order: then `toll` refuses."""
    owner, order, unit = values["OWNER"], values["ORDER"], values["UNIT"]
    with snapshot.opened(context.office_to_read()) as base:
        recipe, last = base.execute(RECIPE, (owner, order)).fetchone(), unit_order.last_on(base, unit)
        if recipe is None or last and not last[1]:
            return ""
        with files_of(context.journal(), base) as files:
            units = unit_order.read_over(context.journal(), files)
            since = units.since_cleaning(unit)
            soiling = Soiling(files, units, register_of(context, base), Next(owner, str(recipe[0])), since)
            for rule in rules:
                compare, between = RULES[rule]
                if soiled := compare(soiling):
                    by = listed([*soiled[:MOST_NAMED], *(["others"] if soiled[MOST_NAMED:] else [])])
                    last_held = f"it held {by}, {since[-1]} last, and wasn't cleaned"
                    return f"{unit} has to be clean between {between}: {last_held}"
    return ""
