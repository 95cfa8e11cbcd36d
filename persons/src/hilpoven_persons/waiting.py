"""What waits for an owner's people: lots to release, lots whose tests failed, and lots that the plant holds."""
import enum
from collections.abc import Collection, Iterator
from dataclasses import dataclass
from typing import Any

from hilpoven.core.context import Context
from hilpoven.model.register.standing import register_of
from hilpoven.model.schema import Disposition
from hilpoven.report.companion.contents import lots, subjects
from hilpoven.report.companion.days import Known, OwnDays
from hilpoven.report.papers import copies

FAILED = ("below", "above")  # why a test lets a lot not be released, of those that have a value


class Kind(enum.StrEnum):
    """Why a lot waits, in the order in which mail tells it."""

    RELEASE = "release"
    FAILED = "failed"
    HELD = "held"


@dataclass(frozen=True)
class Item:
    """A lot that waits: why; of a failed test its name and whether it is below or above its limit; of a held lot since
    when, and why, as the plant noted it."""

    kind: Kind
    lot: str
    material: str
    test: str = ""
    limit: str = ""
    day: int = 0
    text: str = ""

    @property
    def mark(self) -> str:
        """By what it is known that it was told."""
        return " ".join([self.kind, self.lot, self.test, self.limit, str(self.day)])


def items_of(lot: dict[str, Any]) -> Iterator[Item]:
    """What waits of a lot, which is as its owner's companion has it."""
    if not lot["amount"]:
        return
    name, material = lot["lot"], lot["material"]
    if held := lot.get("held"):
        yield Item(Kind.HELD, name, material, day=held["day"], text=held.get("text", ""))
    if lot["disposition"] != Disposition.QUARANTINED.word:
        return
    release = lot["release"]
    if release["possible"] and not held:
        yield Item(Kind.RELEASE, name, material)
    for why in release.get("why", []):
        if why["reason"] in FAILED:
            yield Item(Kind.FAILED, name, material, why["test"], why["reason"])


def waiting_for(context: Context, owners: Collection[str]) -> dict[str, list[Item]]:
    """What waits for each of these owners, of its own rows alone; an owner that the office doesn't have isn't there."""
    without_days = {owner: OwnDays(Known()) for owner in owners}  # no mail says when something was ordered
    with copies.tables(context.office_to_read()) as base:
        register = register_of(context, base)
        return {
            subject.owner: [item for lot in lots(subject) for item in items_of(lot)]
            for subject in subjects(base, register, without_days)
        }
