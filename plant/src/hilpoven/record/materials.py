"""A material with all its tests, in steps, of which those that are done are passed over."""
from collections.abc import Mapping, Sequence
from typing import NamedTuple

from ..core import snapshot
from ..core.context import Context
from ..core.failure import REFUSED, WRONG_USE, Failure
from ..core.grammar import LINES, Line, faults, written
from ..core.office import Answer
from ..model.quality import LIMIT, facts_of_test
from ..model.measures import limits_text, value_of
from ..model.register.standing import Register, register_of
from ..model.rows import Base, require_owner
from . import asking, beside, making
from .describing import LIMITS, MATERIAL

Test = tuple[str, str, str]  # its name and its limits, as they are typed


class Step(NamedTuple):
    """A command with its values, the decimals that are given beside those of a test, and whether it is done already."""

    line: Line
    words: list[str]
    decimals: int | None = None
    is_done: bool = False

    def __str__(self) -> str:
        return " ".join([self.line.name, *self.words])


def steps_of(
    context: Context, owner: str, material: str, measure: str, tests: Sequence[Test], decimals: Mapping[str, int]
) -> list[Step]:
    """The steps by which a material comes with these tests, and the plant's own; fails if one can't be given, or if
    what it adds is there with other values."""
    plants_test = context.settings.quality.test
    require_tests([name for name, _, _ in tests], list(decimals), plants_test)
    own = [(plants_test, str(LIMIT), str(LIMIT))] if plants_test else []
    with snapshot.opened(context.office()) as base:
        register = register_of(context, base)
        steps = [step_of(context, "material-add", [owner, material, measure])]
        for test in [*tests, *own]:
            noted = facts_of_test(register, owner, material, test[0]).decimals
            steps.append(step_of(context, "test-add", [owner, material, *test], decimals.get(test[0]), noted))
        require_owner(base, owner)
        return [step._replace(is_done=is_done(base, register, step)) for step in steps]


def require_tests(names: list[str], measured: list[str], plants_test: str) -> None:
    """Fails if the plant's own test is among the tests, or if decimals are given of what is no test among them."""
    if plants_test in names:
        raise Failure(f"--test {plants_test}: it is the test of the plant's own, which is added by itself", WRONG_USE)
    if strange := [name for name in measured if name not in names]:
        why = f"--decimals {strange[0]}: there is no --test {strange[0]} beside it"
        raise Failure(why, WRONG_USE, "a test that is there already gets decimals by `hilpoven describe test`")


def step_of(context: Context, name: str, typed: list[str], decimals: int | None = None, noted: int = 0) -> Step:
    """A command with its values, of which limits have the decimals that are given, or that are noted; fails if one
    can't be read."""
    line = LINES[name]
    words, notes = written(line, beside.with_limits(context, line, typed, decimals or noted))
    for note in notes:
        context.tell(note)
    if wrong := faults(line, words):
        raise Failure(f"{name} can't be asked so", WRONG_USE, "\n".join(wrong))
    return Step(line, words, decimals)


def is_done(base: Base, register: Register, step: Step) -> bool:
    """Whether a step is done already; fails if what it adds is there with other values."""
    owner, material, *rest = step.words
    if step.line.name == "material-add":
        row, names, value = base.execute(MATERIAL, (owner, material)).fetchone(), step.words[:2], rest[0]
        recorded = row and str(row[0])
    else:
        row, names = base.execute(LIMITS, step.words[:3]).fetchone(), step.words[:3]
        noted = facts_of_test(register, owner, material, rest[0]).decimals
        recorded = row and limits_text(row, noted)
        value = limits_text(map(value_of, rest[1:]), step.decimals or noted)
    if recorded and recorded != value:
        raise Failure(f"{' '.join(names)} is there already with {recorded}, and not with {value}", REFUSED)
    return bool(recorded)


def give(context: Context, step: Step) -> Answer:
    """Gives a step to `toll`, with what is noted beside it."""
    members = {}
    if step.decimals:
        with making.desk(context) as desk:
            values = dict(zip(step.line.values, step.words))
            members = desk.members([beside.test_facts(values, {"decimals": step.decimals})])
    return asking.asked(context, context.office(), step.line, step.words, **members)
