"""What a note may say in a word, and receipts that look by their names as if they were of what was here before."""
import re
from collections.abc import Callable
from enum import StrEnum


class Why(StrEnum):
    """Why a lot contains some of another one without an actual of it."""

    REWORK = "rework"
    RETURN = "return"
    USE = "use"
    CORRECTION = "correction"
    MISRECORDED = "misrecorded"


class Spread(StrEnum):
    """Why a lot contains some of another one that may be another owner's; the plant alone sees such links."""

    RESIDUE = "residue"
    RECOVERED = "recovered"
    TRANSFER = "transfer"
    MISRECORDED = "misrecorded"


LINKING = (*Why, *Spread)  # what `link` takes


class Role(StrEnum):
    """What a party is to an owner."""

    CUSTOMER = "customer"
    SUPPLIER = "supplier"
    CARRIER = "carrier"


class Emptied(StrEnum):
    """What a note may say to be empty of a party from now on."""

    ADDRESS = "address"
    CONTACT = "contact"
    PHONE = "phone"


class Bound(StrEnum):
    """Where the measured value is of a result whose value is a bound, as `<5` has it."""

    BELOW = "below"
    ABOVE = "above"

    @property
    def sign(self) -> str:
        """How it is written before the value."""
        return "<" if self is Bound.BELOW else ">"


BOUNDS = {bound.sign: bound for bound in Bound}


def split_sign(text: str) -> tuple[Bound | None, str]:
    """What a text says beside its number: `<5` is below 5."""
    return BOUNDS.get(text[:1]), text[1:].lstrip() if text[:1] in BOUNDS else text


# What stands behind the name of a lot in that of one that was made of it, and between hyphens in a key.
BEHIND = re.compile(r"(?P<front>.+?)(-?(R|RW|RT|RET|C|CORR)|-[2-9])")
CORRECTING = "CORR"
IN_KEY = {CORRECTING, "RET", "RETURN", "RW", "REWORK"}


def may_look_alike(lot: str, key: str) -> bool:
    """Whether the names of a receipt are those of a correction or a return, if such a lot is there."""
    return BEHIND.fullmatch(lot) is not None or is_telling(key)


def is_telling(key: str) -> bool:
    """Whether a key says that it is one of a correction or a return."""
    return not IN_KEY.isdisjoint(key.split("-"))


def looks_like(lot: str, key: str, has_lot: Callable[[str], bool]) -> str | None:
    """The lot of which a receipt looks like a correction or a return; empty where only its key looks so, and `None` if
    it doesn't, or if its lot is there already."""
    if has_lot(lot):
        return None
    match = BEHIND.fullmatch(lot)
    if match and has_lot(match["front"]):
        return match["front"]
    return "" if is_telling(key) else None
