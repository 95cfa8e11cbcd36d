"""The text of a label's QR code, such as `ACME/B-1/TOTE2`: in the place of LOT it stands for OWNER, LOT and SUBLOT."""
from collections.abc import Collection, Mapping, Sequence
from typing import NamedTuple

from .. import HOUSE
from .failure import WRONG_USE, Failure
from .forms import listed

MARK = "/"  # no name has it, and QR codes have it beside capitals and digits
MOST_SCANNED = 200  # letters; a label has 50 at most, and a cell of a sheet may have millions
OWNERS, LOTS = ("OF-OWNER", "LOT-OWNER", "OWNER"), ("OF-LOT", "LOT")  # the first that a command has is meant
Values = dict[str, str | None]  # of a command, by their names in their order; `None` if they are typed without a name


class ScannedSublot(NamedTuple):
    """A sublot, by its owner, its lot and its name."""

    owner: str
    lot: str
    sublot: str

    def __str__(self) -> str:
        return MARK.join(self)


def scanned_sublot(word: str | None) -> ScannedSublot | None:
    """The sublot that a word names which a scanner typed; `None` of any other word."""
    if not word or len(word) > MOST_SCANNED:
        return None
    parts = word.split(MARK)
    return ScannedSublot(*parts) if len(parts) == 3 and all(parts) else None


def filled(command: str, values: Mapping[str, str | None], words: Sequence[str]) -> tuple[Values, list[str]]:
    """The values of a command and its other words, once a scanned text in the place of LOT has filled OWNER and SUBLOT
    too. Both are left out beside it, or are the same: fails otherwise."""
    owner, lot = fillable(values)
    full, rest = dict(values), list(words)
    missing = missing_of(full)
    is_owner_left_out = len(rest) < len(missing)
    if lot in missing:
        place = missing.index(lot)
        places = range(max(0, place - (owner in missing)), min(place + 1, len(rest)))
        at = next((at for at in places if scanned_sublot(rest[at])), None)
        if at is None:
            return full, rest
        full[lot], is_owner_left_out = rest.pop(at), at < place
    text = scanned_sublot(full.get(lot))
    if text is None:
        return full, rest
    full[lot] = text.lot
    if owner in missing and is_owner_left_out:
        full[owner] = text.owner
    if "SUBLOT" in missing and len(rest) < len(missing_of(full)):
        full["SUBLOT"] = text.sublot
    require_same(command, text, owner, {**full, **dict(zip(missing_of(full), rest))})
    return full, rest


def unfolded(command: str, names: Sequence[str], words: Sequence[str]) -> list[str]:
    """The words of a command that has these values, once a scanned text in the place of LOT has filled the others."""
    full, rest = filled(command, dict.fromkeys(names), words)
    left = iter(rest)
    return [*(word for name in names if (word := full[name] or next(left, None)) is not None), *left]


def named_lot(command: str, owner: str | None, lot: str, names: tuple[str, str] = ("OWNER", "LOT")) -> tuple[str, str]:
    """A lot that is given by options of these names: its owner, which is empty if nothing says whose it is, and its
    name."""
    full, _ = filled(command, dict(zip(names, (owner, lot))), [])
    return full[names[0]] or "", full[names[1]] or ""


def about(names: Sequence[str]) -> str:
    """What the help of a command with these values says of scanned texts; nothing if it has no lot."""
    owner, lot = fillable(names)
    others = [name for name in (owner, "SUBLOT") if name in names]
    example = ScannedSublot("ACME", "B-1", "TOTE2") if owner else ScannedSublot(HOUSE, "W-101", "TANK")
    fills = f", and fills {listed(others)} too" if others else ""
    return f"A label's text, such as {example}, may stand in the place of {lot}{fills}." if lot else ""


def fillable(names: Collection[str]) -> tuple[str, str]:
    """The values of a command that have the owner and the name of the lot that may be scanned; empty if it has none."""
    owner, lot = (next((name for name in wanted if name in names), "") for wanted in (OWNERS, LOTS))
    return owner, lot


def missing_of(values: Values) -> list[str]:
    """The values that aren't there yet."""
    return [name for name, word in values.items() if word is None]


def require_same(command: str, text: ScannedSublot, owner: str, values: Values) -> None:
    """Fails if a command has another owner or another sublot than the scanned text beside it."""
    if not owner and text.owner != HOUSE:
        raise Failure(f"{command}: it is for lots of {HOUSE}, and {text} is a lot of {text.owner}", WRONG_USE)
    for name, right in ((owner, text.owner), ("SUBLOT", text.sublot)):
        if values.get(name) not in (None, right):
            why = f"{command}: {name} is {values[name]}, and in the scanned text {text} it is {right}"
            raise Failure(why, WRONG_USE, f"leave {name} out, or scan the label that is meant")
