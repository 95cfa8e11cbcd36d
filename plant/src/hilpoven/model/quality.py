"""What is known of lots: full names, days and tests with values as measured, and what the plant's quality says of each.

Of a lot whose material has the test of the plant's own, quality's word is its latest result, which `toll` enforces; of
another one, a note alone.
"""
import json
from dataclasses import dataclass
from typing import NamedTuple

from ..core.table import shown
from . import views
from .notes import LotFacts, MaterialFacts, OwnerFacts, TestFacts
from .register.standing import Register
from .rows import Base, Lot, LotId
from .schema import quality_text
from .schema import QualityState as QualityState
from .views import LIMIT as LIMIT

COLUMN = "quality"  # of a list, and the name of a fact
IS_PLANTS = f"t.test = :test AND t.low = {LIMIT} AND t.high = {LIMIT}"
THESE = "SELECT value ->> 0, value ->> 1 FROM json_each(?)"  # lots, of JSON
HAS_TEST = f"SELECT 1 FROM tests AS t WHERE t.owner = :owner AND t.material = :material AND {IS_PLANTS}"


@dataclass(frozen=True)
class Status:
    """What the plant's quality says of a lot, since which day, and why; and whether that is a note alone."""

    state: QualityState
    day: int = 0
    reason: str = ""
    is_note_alone: bool = False

    @property
    def text(self) -> str:
        """It in words, as lists and papers show it."""
        return quality_text(self.state.name.lower(), self.day, self.reason) or ""


def statuses(base: Base, register: Register, *lots: LotId) -> dict[LotId, Status]:
    """What the plant's quality says of each lot of which it says anything, or of these lots."""
    where = f"AND (owner, lot) IN ({THESE})" if lots else ""
    sql = f"SELECT owner, lot, state, day, reason, is_alone FROM quality WHERE state IS NOT NULL {where}"
    words = (json.dumps(lots),) if lots else ()
    return {
        LotId(owner, name): Status(QualityState[state.upper()], day, reason, bool(is_alone))
        for owner, name, state, day, reason, is_alone in views.over(base, register).execute(sql, words).fetchall()
    }


def text_of(base: Base, register: Register, lot: LotId) -> str:
    """What is shown of a lot; empty if the plant's quality says nothing of it."""
    status = statuses(base, register, lot).get(lot)
    return status.text if status else ""


RETEST = "to be tested again"  # as papers call the day


class DescribedTest(NamedTuple):
    """A test of a lot: what is noted of it, its limits and its latest result as they were measured, and whether that is
    within the limits; `None` where there is none."""

    name: str
    full_name: str
    method: str
    low: int | None
    high: int | None
    value: int | None
    unit: str
    day: int | None
    passes: int | None


# The tests of a lot without the plant's own.
TESTS = """
SELECT test, name, method, low, high, value, unit, day, passes, decimals, sign FROM lot_test
WHERE owner = ? AND lot = ? AND NOT is_plants ORDER BY test
"""


def tests_of(base: Base, register: Register, lot: LotId) -> list[DescribedTest]:
    """The tests of a lot with its latest results, without the plant's own, which is shown as a signature or a hold, and
    never as a number."""
    tests, rows = list[DescribedTest](), views.over(base, register).execute(TESTS, lot)
    for name, full_name, method, low, high, value, unit, day, passes, decimals, sign in rows:
        low, high, result = shown(low, decimals), shown(high, decimals), shown(value, decimals, sign)
        tests.append(DescribedTest(name, full_name, method, low, high, result, unit, day, passes))
    return tests


@dataclass(frozen=True)
class DescribedLot:
    """A lot with what is noted of it, of its owner, of its material and of its tests."""

    owner: OwnerFacts
    material: MaterialFacts
    lot: LotFacts
    tests: list[DescribedTest]

    @property
    def days(self) -> dict[str, str]:
        """Its days, by what each is; what isn't noted is left out."""
        return {RETEST if name == "retest" else name: day for name, day in self.lot.days.items()}

    @property
    def texts(self) -> dict[str, str]:
        """Full names and days, by what each is; what isn't noted is left out."""
        names = {"owner": self.owner.name, "address": self.owner.address, "material": self.material.name}
        return {**{name: text for name, text in names.items() if text}, **self.days}


def in_full(full_name: str, name: str) -> str:
    """A full name with the short one behind it, by which everything else names it."""
    return f"{full_name} ({name})" if full_name else name


def owner_in_full(owner: OwnerFacts) -> dict[str, str]:
    """An owner's full name and address, as far as they are noted, by what papers call them."""
    address = {"owner's address": owner.address} if owner.address else {}
    return {"owner": in_full(owner.name, owner.owner), **address}


def facts_of_test(register: Register, owner: str, material: str, test: str) -> TestFacts:
    """What is noted of a test; a test without a note has no decimals."""
    return register.tests.get((owner, material, test)) or TestFacts(owner, material, test)


def describe_lot(base: Base, register: Register, lot: Lot) -> DescribedLot:
    """A lot with all that certificates and lists say of it, without the plant's own test. An owner's paper gives the
    owner's own notes."""
    owner, material = lot.id.owner, lot.material
    return DescribedLot(
        register.owners.get(owner) or OwnerFacts(owner),
        register.materials.get((owner, material)) or MaterialFacts(owner, material),
        register.lots.get(lot.id) or LotFacts(owner, lot.id.name),
        tests_of(base, register, lot.id),
    )
