"""How the values are read that a workbook has and a sheet of movements hasn't."""
import re

from ...core import forms
from ...core.forms import listed
from ...model.measures import MEASURED
from ...model.kinds import Role
from ...model.notes import tenths_in
from ..sheets.cells import Cell
from ..sheets.values import MINUS, Refused, Taken, is_shown, shows_all


def of_measures(cell: Cell) -> Taken:
    """The measure of a material's amounts."""
    if fault := forms.MEASURE.fault(cell.text):
        raise Refused(f"{cell.text!r} {fault}")
    return Taken(cell.text)


def of_limits(cell: Cell) -> Taken:
    """A limit of a test as it is measured; how many decimals it may have is said by another column."""
    text = require_shown(cell)
    if not MEASURED.fullmatch(text):
        raise Refused(f"{cell.text!r} is no number, such as 6.50")
    return Taken(text)


def of_percents(cell: Cell) -> Taken:
    """A part of a whole in percent, with one decimal at the most; its sign may stand behind it."""
    text = require_shown(cell)
    if not (tenths := tenths_in(text.removesuffix("%").removesuffix(" "))):
        raise Refused(f"{cell.text!r} is no percentage from 0.1 to 100, such as 1.5")
    return Taken(str(tenths))


def require_shown(cell: Cell) -> str:
    """The text of a number; refuses one that its sheet shows otherwise than it holds it."""
    text, shown = MINUS.sub("-", cell.text, 1), cell.shown and MINUS.sub("-", cell.shown, 1)
    if shown is not None and not (shows_all(text, cell.form) or is_shown(text, shown)):
        raise Refused(f"it is the number {cell.text}, shown as {cell.shown}")
    return text


def of_roles(cell: Cell) -> Taken:
    """What a party is to an owner: one word or several."""
    words = [word for word in re.split(r"[,;\s]+", cell.text.lower()) if word]
    if strange := next((word for word in words if word not in set(Role)), None):
        raise Refused(f"{strange!r} is none of {listed([*Role])}")
    return Taken(", ".join(role for role in Role if role in words))
