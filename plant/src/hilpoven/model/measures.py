"""Values of tests as they are measured, with decimals, and as `toll` has them, which are whole numbers."""
import re
from collections.abc import Iterable

from ..core.failure import WRONG_USE, Failure, printable
from ..core.forms import MOST_VALUE, Form
from ..core.table import GROUP as GROUP
from ..core.table import as_measured as as_measured
from ..core.table import counted

MOST_DECIMALS = 9
MOST_QUOTED = 40  # letters of a text that is no value
MEASURED = re.compile(r"(-|M)?([0-9]+)(?:\.([0-9]+))?")
NUMBER = re.compile(r"M?[0-9]+")
WITH_COMMA = re.compile(r"(-|M)?[0-9]+,[0-9]+")


def form_of(decimals: int) -> Form:
    """The form of a measured value with so many decimals."""
    return Form(limits_text((-MOST_VALUE, MOST_VALUE), decimals), lambda text: fault(text, decimals))


def fault(text: str, decimals: int) -> str:
    """What is wrong with a text as a measured value with so many decimals."""
    match = MEASURED.fullmatch(text)
    if match is None:
        why = "has a comma; decimals stand behind a point" if WITH_COMMA.fullmatch(text) else "is no number"
        return f"{why}, such as {as_measured(702, decimals)}"
    part = match[3] or ""
    if len(part) > decimals:
        return f"has {counted(len(part), 'decimals')}, and the test has {decimals or 'none'}"
    digits = digits_of(match, decimals)
    if len(digits) > len(str(MOST_VALUE)) or int(digits) > MOST_VALUE:
        return f"is out of what toll takes: {form_of(decimals).about}"
    return ""


def decimals_in(text: str) -> int:
    """How many decimals a measured value has, as far as a test may have so many; 0 of another text."""
    match = MEASURED.fullmatch(text)
    count = len(match[3]) if match and match[3] else 0
    return count if count <= MOST_DECIMALS else 0


def digits_of(match: re.Match[str], decimals: int) -> str:
    """The digits of the number that `toll` has of a measured one, without its sign."""
    return (match[2] + (match[3] or "").ljust(decimals, "0")).lstrip("0") or "0"


def whole_of(text: str, decimals: int = 0) -> int:
    """The value that `toll` has of a measured one: of 7.02 with two decimals it is 702. Fails if a text is none."""
    match, why = MEASURED.fullmatch(text), fault(text, decimals)
    if match is None or why:
        raise Failure(f"`{printable(text[:MOST_QUOTED])}` {why}", WRONG_USE)
    number = int(digits_of(match, decimals))
    return -number if match[1] else number


def limits_text(limits: Iterable[int], decimals: int = 0) -> str:
    """Limits as people read them."""
    return " to ".join(as_measured(limit, decimals, GROUP) for limit in limits)


def value_word(value: int) -> str:
    """A value as a word of `toll`: -5 is M5."""
    return f"M{-value}" if value < 0 else str(value)


def value_of(word: str) -> int:
    """The value that a word of `toll` says."""
    return int(word.replace("M", "-", 1))


def as_number(word: str) -> str:
    """An amount, a day or a value of `toll` as it stands in each sheet and line that says the same: `007` is 7. A word
    that is none stays as it is."""
    return value_word(value_of(word)) if NUMBER.fullmatch(word) else word
