"""What is looked at before the plant describes something, or reads a value of a test as it was measured."""
from collections.abc import Mapping

from ..core.failure import REFUSED, Failure
from ..core.forms import MOST_VALUE, VALUE
from ..model.nearest import nearest
from ..core.journal.log import Journal
from ..model.quality import facts_of_test
from ..core.table import counted
from ..model.measures import GROUP, as_measured, decimals_in, limits_text, value_word, whole_of
from ..model.rows import HAS_RESULT, Base, LotId, require_lot, require_owner, row_of
from ..model.schema import Role
from ..model.register import lines
from ..model.register.file import Notes
from ..model.notes import LotFacts, Note, ResultFacts, ResultId, TestFacts, joined
from ..model.kinds import Bound, split_sign
from ..model.register.standing import Register

MATERIAL = "SELECT measure FROM materials WHERE owner = ? AND material = ?"
MATERIALS = "SELECT material FROM materials WHERE owner = ?"
RECIPE = "SELECT segments FROM recipes WHERE owner = ? AND recipe = ?"
RECIPES = "SELECT recipe FROM recipes WHERE owner = ?"
PRODUCTS = f"""
SELECT DISTINCT material FROM requirements WHERE owner = ? AND recipe = ? AND role = {Role.PRODUCED:d}
"""
LIMITS = "SELECT low, high FROM tests WHERE owner = ? AND material = ? AND test = ?"
TESTS = "SELECT test FROM tests WHERE owner = ? AND material = ?"
MATERIAL_OF = "SELECT material FROM lots WHERE owner = ? AND lot = ?"
NO_DAY = -1  # which no result has
VALUES = """
SELECT r.value FROM results AS r JOIN lots AS l USING (owner, lot)
WHERE r.owner = ? AND l.material = ? AND r.test = ? ORDER BY r.rowid
"""


def has_noted(journal: Journal, *kinds: type[Note]) -> bool:
    """Whether a journal has a note of one of these kinds, whether it stands or not."""
    if not lines.may_have_notes(journal):
        return False
    names = [kind.KIND for kind in kinds]
    sql = f"SELECT 1 FROM note WHERE kind IN ({', '.join('?' * len(names))}) LIMIT 1"
    return bool(Notes(journal).rows(sql, tuple(names)))


def has_measures(journal: Journal) -> bool:
    """Whether something is noted of the values of tests or results."""
    return has_noted(journal, TestFacts, ResultFacts)


def require_material(base: Base, owner: str, material: str) -> None:
    """Fails if there is no such material."""
    require_owner(base, owner)
    row_of(base, MATERIAL, (owner, material), "material", MATERIALS)


def require_recipe(base: Base, owner: str, recipe: str) -> None:
    """Fails if there is no such recipe."""
    require_owner(base, owner)
    row_of(base, RECIPE, (owner, recipe), "recipe", RECIPES)


def require_product(base: Base, owner: str, recipe: str, material: str) -> None:
    """Fails if a recipe doesn't make a material."""
    products = [name for name, in base.execute(PRODUCTS, (owner, recipe))]
    if material not in products:
        advice = nearest(material, products, f"products of {recipe}")
        raise Failure(f"recipe {recipe} of {owner} makes no {material}", REFUSED, advice)


def limits_of(base: Base, owner: str, material: str, test: str) -> tuple[int, int]:
    """The limits of a test; fails if there is none."""
    require_material(base, owner, material)
    low, high = row_of(base, LIMITS, (owner, material, test), "test", TESTS)
    assert isinstance(low, int) and isinstance(high, int)
    return low, high


def values_of(base: Base, owner: str, material: str, test: str) -> list[int]:
    """The values of all results of a test."""
    return [value for value, in base.execute(VALUES, (owner, material, test))]


def require_decimals(base: Base, register: Register, note: TestFacts, has_meant: bool) -> None:
    """Fails if a test has other decimals already, so that a limit or a result of it would be read differently; or
    results without decimals, unless it is said that these are meant so."""
    names = note.owner, note.material, note.test
    noted = facts_of_test(register, *names).decimals
    if note.decimals in (0, noted):
        return
    if not noted:
        return require_meant(base, note, has_meant)
    values = [*limits_of(base, *names), *values_of(base, *names)]
    if value := next(filter(None, values), 0):
        one, other = (as_measured(value, decimals, GROUP) for decimals in (noted, note.decimals))
        raise Failure(
            f"test {note.test} of {note.owner} {note.material} has values with {noted} decimals: {one} would be read "
            f"as {other}",
            REFUSED,
            "if they were noted wrongly: `hilpoven note withdraw` takes them back, and all values are whole numbers "
            "until others are noted",
        )


def require_meant(base: Base, note: TestFacts, has_meant: bool) -> None:
    """Fails if a test has results without decimals that would be read differently, unless it is said that these are
    meant so."""
    results = values_of(base, note.owner, note.material, note.test)
    if has_meant or not (value := next(filter(None, results), 0)):
        return
    one, other = (as_measured(value, decimals, GROUP) for decimals in (0, note.decimals))
    raise Failure(
        f"test {note.test} of {note.owner} {note.material} has {counted(len(results), 'results')} without decimals: "
        f"{one} would be read as {other}",
        REFUSED,
        f"if each of them was recorded so, {one} for {other}: --results-too\n"
        f"otherwise leave the test as it is, and add a material whose test has decimals from its first result on: "
        f"`hilpoven material new {note.owner} NAME MEASURE --test {note.test} LOW HIGH --decimals {note.test} "
        f"{note.decimals}`",
    )


def require_days(register: Register, note: LotFacts) -> None:
    """Fails if a lot would expire, or be tested again, before it was made."""
    facts = joined(register.lots.get((note.owner, note.lot)), note)
    for day, event in ((facts.expires, "expires"), (facts.retest, "is to be tested again")):
        if facts.made and day and day < facts.made:
            raise Failure(f"lot {LotId(note.owner, note.lot)} {event} on {day}, and was made on {facts.made}", REFUSED)


def test_of_lot(base: Base, register: Register, owner: str, lot: str, test: str) -> TestFacts | None:
    """What is noted of a test of a lot; `None` if there is no such lot or no such test."""
    row = base.execute(MATERIAL_OF, (owner, lot)).fetchone()
    if row is None or not base.execute(LIMITS, (owner, row[0], test)).fetchone():
        return None
    return facts_of_test(register, owner, row[0], test)


def decimals_of(base: Base, register: Register, values: Mapping[str, str]) -> int:
    """How many decimals are noted of a test, which is that of a lot or of a material; 0 if none are."""
    if "LOT" in values:
        facts = test_of_lot(base, register, values["OWNER"], values["LOT"], values["TEST"])
        return facts.decimals if facts else 0
    return facts_of_test(register, values["OWNER"], values["MATERIAL"], values["TEST"]).decimals


def require_test_of_lot(base: Base, register: Register, owner: str, lot: str, test: str) -> TestFacts:
    """What is noted of a test of a lot; fails if there is no such lot or no such test."""
    material = require_lot(base, LotId(owner, lot)).material
    limits_of(base, owner, material, test)
    return facts_of_test(register, owner, material, test)


def require_result(base: Base, register: Register, result: ResultId, bound: Bound | None, facts: TestFacts) -> None:
    """Fails if a result can't be told from another one, or if its bound doesn't say whether it is within the limits."""
    owner, lot, test, value, day = result
    noted = register.bounds.get(result)
    text = as_measured(value, facts.decimals, GROUP)
    if noted != bound and base.execute(HAS_RESULT, result).fetchone():
        recorded, new = (f"{limit.sign if limit else ''}{text}" for limit in (noted, bound))
        raise Failure(
            f"lot {LotId(owner, lot)} has the result {recorded} of {test} on day {day}: {new} couldn't be told from it",
            REFUSED,
            "if that is wrong: `hilpoven note list` has the note of it, and `hilpoven note withdraw` takes it back"
            if noted
            else "record what was measured again, on its own day",
        )
    if bound is None:
        return
    limits = limits_of(base, owner, facts.material, test)
    if is_doubtful(bound, value, *limits):
        raise Failure(
            f"toll would take {bound.sign}{text} of {test} for {text}, which is within its limits "
            f"{limits_text(limits, facts.decimals)}; what is {bound} {text} may be outside",
            REFUSED,
            "measure it with a method that reaches the limit, or record a value outside the limits",
        )


def is_doubtful(bound: Bound, value: int, low: int, high: int) -> bool:
    """Whether a bound is within limits that the measured value may be outside of. Below a limit of 0 nothing is
    measured of what has a value above it, and no value is beyond the least and the greatest."""
    if not low <= value <= high:
        return False
    if bound is Bound.BELOW:
        return low != -MOST_VALUE and not low == 0 < value
    return high != MOST_VALUE


def result_of(
    base: Base, register: Register, owner: str, lot: str, test: str, text: str, day: int
) -> tuple[str, ResultFacts | None]:
    """The word that `toll` gets of a value of a result, and what is noted beside it. Fails if the value was measured
    and can't be read, or can't be told from another result; what `toll` can be asked as it is, stays."""
    facts, (bound, number) = test_of_lot(base, register, owner, lot, test), split_sign(text)
    is_plain = bound is None and not (facts and facts.decimals)
    if is_plain and is_whole(text) == (facts is None):
        return text, None
    facts = facts or require_test_of_lot(base, register, owner, lot, test)
    value = whole_of(number, facts.decimals)
    require_result(base, register, (owner, lot, test, value, day), bound, facts)
    noted = ResultFacts(owner, lot, test, value, day, bound) if bound else None
    return text if is_plain else value_word(value), noted


def advice_on_decimals(base: Base, facts: TestFacts | None, number: str) -> str:
    """How decimals are noted of a test that has none, if a value has some; empty otherwise."""
    count = decimals_in(number)
    if facts is None or facts.decimals or not count:
        return ""
    owner, material, test = facts.owner, facts.material, facts.test
    limits = limits_of(base, owner, material, test)
    return (
        f"Test {test} of {owner} {material} has no decimals. If its limits {limits_text(limits)} mean "
        f"{limits_text(limits, count)}: `hilpoven describe test {owner} {material} {test} --decimals {count}`."
    )


def is_whole(text: str) -> bool:
    """Whether a text is a value as `toll` has it; people write -5 of M5."""
    return not VALUE.fault(f"M{text[1:]}" if text[:1] == "-" else text)
