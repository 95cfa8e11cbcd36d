"""A line of `toll` as a person gives it, at a terminal or on a screen: what may not be meant is asked about, a key that
is `next` is the next free one, and what the plant notes beside the line is made before `toll` gets it.

What is noticed on the way goes to `Context.tell`, and what isn't sure to `Context.ask`.
"""
from functools import partial
from typing import Any

from ..core.context import Context
from ..core.failure import WRONG_USE, Failure
from ..core.grammar import MOVEMENTS, NEXT, Line, faults, written
from ..core.settings import Clean
from ..model.kinds import Why, may_look_alike
from . import asking
from .asking import Beside, Given

TAKEN = ("refused 35 KeyConflict\n", "repeated\n")  # what toll answers if the key was free a moment ago
TRIES = 100
MEASURED = ("test-add", "result")  # whose values may have decimals
NOTED = {"receive", "ship", "actual", "scrap", "void", "reject", "cancel", "do", *MEASURED}  # may have notes beside
ADVICE = "if it is meant: --yes takes it"
Values = dict[str, str]  # of a line, by their names
Noted = dict[str, Any]  # what is given to be noted beside a line, by the names of the options in the table


def give(context: Context, line: Line, typed: list[str], noted: Noted | None = None, is_meant: bool = True) -> Given:
    """Gives a line to `toll`, with what is given to be noted beside it; `is_meant` says that its day is, whatever it
    is."""
    words, noted = typed, noted or {}
    if line.name == "open":
        require_clean(context, line, typed, bool(noted.pop("takes_unclean", False)))
    if line.name in MEASURED:
        from . import beside

        words, noted = beside.as_measured(context, line, words, noted)
    if not is_meant:
        require_day(context, line, words)
    make_beside = partial(beside_of, context, line, noted) if line.name in NOTED else None
    if not is_next_key(line, words):
        return asking.give(context, line, words, make_beside)
    words = with_key(line, typed, f"{context.settings.key_prefix}1")
    if faults(line, written(line, words)[0]):
        return asking.give(context, line, words, make_beside)
    from . import doubts

    for _ in range(TRIES):
        key = doubts.free_key(context, line, dict(zip(line.values, written(line, typed)[0])))
        given = asking.give(context, line, with_key(line, typed, key), make_beside)
        if given.answer.output not in TAKEN:
            break
        context.tell(f"KEY: {key} was taken meanwhile")
    return given


def require_clean(context: Context, line: Line, typed: list[str], takes_unclean: bool) -> None:
    """Fails if the unit of a batch has to be clean before, and isn't. Words that can't be read are told by others."""
    words = written(line, typed)[0]
    if context.settings.clean != Clean() and not faults(line, words):
        from . import cleaning

        cleaning.require_clean(context, dict(zip(line.values, words)), takes_unclean)


def is_next_key(line: Line, words: list[str]) -> bool:
    """Whether the key of a movement is to be the next free one."""
    return line.name in MOVEMENTS and words[line.values.index("KEY")] == NEXT


def with_key(line: Line, words: list[str], key: str) -> list[str]:
    """The words with a key in place of `next`."""
    return [key if name == "KEY" and word == NEXT else word for name, word in zip(line.values, words)]


def require_day(context: Context, line: Line, typed: list[str]) -> None:
    """Fails if the day of a line can't be meant, and nobody says that it is."""
    words = ["" if word == NEXT else word for word in written(line, typed)[0]]
    values = dict(zip(line.values, words))
    if faults(line, [word or "NEXT" for word in words]) or int(values["DAY"]) == context.day():
        return
    from . import doubts

    if why := doubts.of_day(context, values):
        context.require_meant("day", f"DAY: {why}", ADVICE)


def beside_of(context: Context, line: Line, noted: Noted, values: Values) -> Beside:
    """What stands in the journal beside a line, and what is told of it once it is accepted. What makes notes is
    imported where something may be noted."""
    if line.name == "receive":
        require_link(noted)
        is_needed = any(noted.values()) or may_look_alike(values["LOT"], values["KEY"])
    elif line.name == "ship":
        require_recipient(context, values, noted)
        is_needed = any(noted.values()) or context.may_have_notes
    elif line.name == "actual":
        is_needed = values["USE"] == "consumed" and context.may_have_notes
    else:
        is_needed = any(noted.values())
    if not is_needed:
        return Beside()
    from . import beside

    return beside.of_line(context, line, values, noted)


def require_link(noted: Noted) -> None:
    """Fails if a receipt is to be linked, and it isn't said why, or the other way round."""
    if noted.get("of_lot") and not noted.get("why"):
        raise Failure("--of needs --why", WRONG_USE, f"one of {', '.join(Why)}")
    if strange := [name for name in ("why", "of_owner", "reason") if noted.get(name) and not noted.get("of_lot")]:
        raise Failure(f"--{strange[0].replace('_', '-')} needs --of", WRONG_USE)


def require_recipient(context: Context, values: Values, noted: Noted) -> None:
    """Fails where the settings require a recipient of a shipment that isn't given."""
    if context.settings.require.recipient and not noted.get("party"):
        raise Failure(
            "ship: --to PARTY is missing, and the settings require each shipment's recipient",
            WRONG_USE,
            f"`hilpoven party list {values['OWNER']}` has the parties",
        )
