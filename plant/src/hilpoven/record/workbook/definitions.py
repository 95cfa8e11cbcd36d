"""What a workbook says of owners, units, materials, tests, recipes, requirements and parties."""
from ... import HOUSE
from ...core.failure import Failure
from ...core.grammar import OWNER_ADD
from ...model.measures import MOST_DECIMALS, limits_text, value_word, whole_of
from ...model.kinds import Role
from ...model.notes import MaterialFacts, OwnerFacts, Party, RecipeFacts, TestFacts
from ...model.quality import LIMIT, facts_of_test
from .. import describing
from ..sheets.sheet import Record
from .plan import Planner
from .reading import Part, Thing
from .tables import MATERIALS, OWNERS, PARTIES, RECIPES, REQUIREMENTS, TESTS, UNITS

Limits = tuple[int, int]


def plan_owners(planner: Planner) -> None:
    """Adds owners, and notes their full names and addresses."""
    for part, record in planner.rows(OWNERS):
        owner = record.values["owner"]
        if not planner.standing.has(part.subject(record.values)):
            planner.step(part, record, OWNER_ADD, [owner])
        known, note = planner.register.owners.get(owner), OwnerFacts(owner, **record.noted)
        planner.note(part, record, planner.unsaid(part, record, known, note))


def plan_units(planner: Planner) -> None:
    """Adds units."""
    for part, record in planner.rows(UNITS):
        if not planner.standing.has(part.subject(record.values)):
            planner.step(part, record, "unit-add", record.values.values())


def plan_materials(planner: Planner) -> None:
    """Adds materials, each with the test by which the plant signs and holds its lots, and notes their full names."""
    for part, record in planner.rows(MATERIALS):
        owner, material, measure = record.values.values()
        planner.recorded(part, record, "material-add", "measure", [(OWNERS.title, owner)])
        known, note = planner.register.materials.get((owner, material)), MaterialFacts(
            owner, material, record.noted.get("name", "")
        )
        planner.note(part, record, planner.unsaid(part, record, known, note))
        plants = owner, material, planner.plants_test
        is_used = (owner, material) in planner.standing.used
        if planner.plants_test and not is_used and plants not in planner.standing.limits:
            words = [*plants, str(LIMIT), str(LIMIT)]
            planner.step(part, record, "test-add", words, [part.subject(record.values)], (TESTS.title, *plants))


def plan_tests(planner: Planner) -> None:
    """Adds tests with what is noted of each."""
    for part, record in planner.rows(TESTS):
        owner, material, test = (record.values[name] for name in TESTS.names)
        if test == planner.plants_test:
            planner.fault(part, record, "test", "it is the plant's own test, which each material gets by itself")
            continue
        known = facts_of_test(planner.register, owner, material, test)
        if note := facts_in(planner, part, record):
            limits = limits_of(planner, part, record, note.decimals or known.decimals)
            if limits and (owner, material, test) in planner.standing.limits:
                plan_known_test(planner, part, record, known, note, limits)
            elif limits:
                words = [owner, material, test, *map(value_word, limits)]
                beside = [new] if (new := planner.unsaid(part, record, known, note)) else []
                planner.step(part, record, "test-add", words, [(MATERIALS.title, owner, material)], notes=beside)


def facts_in(planner: Planner, part: Part, record: Record) -> TestFacts | None:
    """What a row notes of a test; nothing if its decimals can't be read."""
    noted = dict(record.noted)
    decimals = int(noted.pop("decimals", "0"))
    if "decimals" in record.noted and not 1 <= decimals <= MOST_DECIMALS:
        planner.fault(part, record, "decimals", f"{decimals} is no number from 1 to {MOST_DECIMALS}")
        return None
    owner, material, test = (record.values[name] for name in TESTS.names)
    return TestFacts(owner, material, test, decimals=decimals, **noted)


def limits_of(planner: Planner, part: Part, record: Record, decimals: int) -> Limits | None:
    """The limits of a row as `toll` has them; nothing if they are none."""
    limits = []
    for name in ("low", "high"):
        try:
            limits.append(whole_of(record.values[name], decimals))
        except Failure as failure:
            planner.fault(part, record, name, failure.message)
    if len(limits) < 2:
        return None
    low, high = limits
    if low > high:
        planner.fault(part, record, "low", f"{record.values['low']} is above the upper limit, {record.values['high']}")
        return None
    return low, high


def plan_known_test(
    planner: Planner, part: Part, record: Record, known: TestFacts, note: TestFacts, limits: Limits
) -> None:
    """Notes what is new of a test that the office has, if it has the limits of the row."""
    recorded = planner.standing.limits[note.owner, note.material, note.test]
    if recorded != limits:
        here, row = limits_text(recorded, known.decimals), limits_text(limits, note.decimals or known.decimals)
        planner.fault(part, record, "low", f"it is there already with {here}, and not with {row}")
        return
    new = planner.unsaid(part, record, known, note)
    try:
        if new:
            describing.require_decimals(planner.desk.base, planner.register, new, has_meant=False)
    except Failure as failure:
        planner.fault(part, record, "decimals", failure.message)
    planner.note(part, record, new)


def plan_recipes(planner: Planner) -> None:
    """Adds recipes, and notes what of their materials may be lost, and their main products."""
    for part, record in planner.rows(RECIPES):
        owner, recipe, _ = record.values.values()
        planner.recorded(part, record, "recipe-add", "segments", [(OWNERS.title, owner)])
        allowance, product = int(record.noted.get("allowance", "0")), record.noted.get("product", "")
        is_unclear = REQUIREMENTS.title in planner.workbook.unclear
        if product and not is_unclear and (owner, recipe, product) not in planner.produced:
            planner.fault(part, record, "product", f"no requirement says that {recipe} of {owner} produces {product}")
        known, note = planner.register.recipes.get((owner, recipe)), RecipeFacts(owner, recipe, allowance, product)
        planner.note(part, record, planner.unsaid(part, record, known, note))


def plan_requirements(planner: Planner) -> None:
    """Adds requirements."""
    for part, record in planner.rows(REQUIREMENTS):
        owner, recipe, source, material = (record.values[name] for name in ("owner", "recipe", "source", "material"))
        needs: list[Thing] = [(RECIPES.title, owner, recipe), (MATERIALS.title, source, material)]
        if source in (owner, HOUSE):
            planner.recorded(part, record, "require", "amount", needs)
        else:
            planner.fault(part, record, "source", f"{source} is neither {owner} nor {HOUSE}")


def plan_parties(planner: Planner) -> None:
    """Notes parties."""
    for part, record in planner.rows(PARTIES):
        owner, party = (record.values[name] for name in PARTIES.names)
        note = party_in(record)
        planner.note(part, record, planner.unsaid(part, record, planner.register.parties.get((owner, party)), note))


def party_in(record: Record) -> Party:
    """The party of a row."""
    values = record.values
    roles = tuple(Role(role) for role in values["roles"].split(", "))
    return Party(values["owner"], values["party"], values["name"], roles=roles, emptied=(), **record.noted)
