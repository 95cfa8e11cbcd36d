"""What the plant notes beside a line of `toll`, and how values of tests are given that were measured with decimals."""
from typing import Any

from .. import HOUSE
from ..core import scanned, snapshot
from ..core.context import Context, Question
from ..core.forms import DAY, NAME
from ..core.grammar import Line
from ..model.measures import decimals_in, value_word, whole_of
from ..model.notes import (
    GETS,
    RETURNS,
    SENDS,
    Link,
    LotFacts,
    MovementFacts,
    NotLinked,
    Note,
    Reason,
    Task,
    TestFacts,
    facts_of,
    require_party,
)
from ..model.kinds import Why, looks_like, split_sign
from ..model.register.meant import HAS_LOT
from ..model.register.standing import register_of
from ..model.rows import LotId
from . import describing, expiry, making
from .asking import Beside
from .making import Desk

NO = "no"
LIMITS = ("LOW", "HIGH")
# Members of a reason and the values that they have, where these aren't the key of a movement.
ABOUT = {"reject": {"lot": "LOT"}, "cancel": {"order": "ORDER"}, "do": {"order": "ORDER", "batch": "BATCH"}}
Values = dict[str, str]  # of a line, by their names
Noted = dict[str, Any]  # what is given to be noted, by the names of the options


def of_line(context: Context, line: Line, values: Values, noted: Noted) -> Beside:
    """What stands in the journal beside a line, and what is told of it once it is accepted."""
    takes = line.name in ("ship", "actual")
    if takes and not any(noted.values()) and not describing.has_noted(context.journal(), LotFacts):
        return Beside()
    with making.desk(context) as desk:
        if line.name == "receive":
            return of_receipt(context, desk, values, noted)
        if takes:
            facts = facts_of_movement(desk, values, noted, GETS) if line.name == "ship" else []
            settings, lot = context.settings.expiry, LotId(values.get("LOT-OWNER", values["OWNER"]), values["LOT"])
            setting = settings.ship if line.name == "ship" else settings.actual
            return Beside(desk.members(facts), expiry.warning(desk, setting, lot, values))
        if line.name == "test-add":
            return Beside(desk.members([test_facts(values, noted)]))
        return Beside(desk.members([noted["facts"]]) if line.name == "result" else of_reason(desk, line, values, noted))


def of_receipt(context: Context, desk: Desk, values: Values, noted: Noted) -> Beside:
    """The link that a receipt says, or that is answered, and where it came from; without a link, what is told of a
    receipt that looks as if it were of what was here before."""
    owner, lot = values["OWNER"], values["LOT"]
    if noted.get("of_lot"):
        of = scanned.named_lot("receive", noted.get("of_owner"), noted["of_lot"], ("OF-OWNER", "OF-LOT"))
        link = link_of(values, LotId(of[0] or owner, of[1]), noted["why"], noted.get("reason") or "")
        desk.require_link(link, is_new=True)
        return Beside(desk.members([link, *facts_of_movement(desk, values, noted, task_of(link))]))
    like = looks_like(lot, values["KEY"], lambda name: desk.has(HAS_LOT, owner, name))
    if like is not None and context.ask:
        note = answered(context, desk, values, like)
        return Beside(desk.members([note, *facts_of_movement(desk, values, noted, task_of(note))]))
    hint = "" if like is None else hint_of(values, like)
    return Beside(desk.members(facts_of_movement(desk, values, noted, SENDS)), hint)


def answered(context: Context, desk: Desk, values: Values, like: str) -> Note:
    """What the person answers to the question what a receipt contains."""
    owner, lot = values["OWNER"], values["LOT"]
    assert context.ask
    question = Question("of_lot", f"Which lot does {lot} contain some of ({NO}: none)?", (), NO)
    of_lot = like or context.ask(question)
    if of_lot == NO:
        return NotLinked(owner, values["KEY"])
    of = LotId(owner, of_lot)
    desk.require_link(link_of(values, of, Why.RETURN), is_new=True)
    why = context.ask(Question("why", f"Does {lot} contain some of {of}, and why?", (*Why, NO), NO))
    return NotLinked(owner, values["KEY"]) if why == NO else link_of(values, of, why)


def task_of(note: Note) -> Task:
    """What the party does that sends a receipt of which this is noted."""
    return RETURNS if isinstance(note, Link) and note.why == Why.RETURN else SENDS


def link_of(values: Values, of: LotId, why: str, reason: str = "") -> Link:
    """The link of the receipt's lot."""
    return Link(values["OWNER"], values["LOT"], "", 0, of.owner, of.name, Why(why), None, reason)


def hint_of(values: Values, like: str) -> str:
    """What is told of a receipt that looks as if it were of what was here before."""
    owner, lot, key = values["OWNER"], values["LOT"], values["KEY"]
    looks = f"{lot} looks like some of {like}" if like else f"{key} looks like the key of a return or a correction"
    return (
        f"{looks}, and no recall of that lot has it. If it contains some: "
        f"`hilpoven link {owner} {lot} {like or 'OF-LOT'} --why {'|'.join(Why)}`; "
        f"otherwise: `hilpoven note not-linked {owner} {key}`."
    )


def facts_of_movement(desk: Desk, values: Values, noted: Noted, task: Task) -> list[MovementFacts]:
    """What is noted of a movement; fails if its party can't do this there."""
    if noted.get("party"):
        require_party(desk.parties, values["OWNER"], noted["party"], task)
    facts = facts_of(values["OWNER"], values["KEY"], noted)
    return [facts] if facts else []


def of_reason(desk: Desk, line: Line, values: Values, noted: Noted) -> dict[str, Any]:
    """Why a command is given, with what it is about. A lot and an order without an owner are the plant's."""
    about: dict[str, Any] = {name: values[value] for name, value in ABOUT.get(line.name, {"key": "KEY"}).items()}
    about |= {"batch": int(about["batch"])} if "batch" in about else {}
    command = values.get("COMMAND", line.name)
    return desk.all_members([Reason(values.get("OWNER", HOUSE), command, noted["reason"], **about)])


def test_facts(values: Values, noted: Noted) -> TestFacts:
    """What is noted of a test that is added."""
    facts = {name: noted[name] for name in ("unit", "decimals", "method") if noted.get(name)}
    return TestFacts(values["OWNER"], values["MATERIAL"], values["TEST"], **facts)


def as_measured(context: Context, line: Line, words: list[str], noted: Noted) -> tuple[list[str], Noted]:
    """The words of a test or a result as `toll` has them, and what is to be noted beside it."""
    if line.name == "result":
        return read_result(context, line, words, noted)
    office, decimals = context.office(), noted.get("decimals")
    if not decimals and describing.has_measures(context.journal()):
        with snapshot.opened(office) as base:
            decimals = describing.decimals_of(base, register_of(context, base), dict(zip(line.values, words)))
    return with_limits(context, line, words, decimals or 0), noted


def with_limits(context: Context, line: Line, words: list[str], decimals: int) -> list[str]:
    """The words of a test with its limits as `toll` has them."""
    if not decimals:
        return words
    typed = dict(zip(line.values, words))
    return given_as(context, line, words, {name: value_word(whole_of(typed[name], decimals)) for name in LIMITS})


def given_as(context: Context, line: Line, words: list[str], read: Values) -> list[str]:
    """The words of a line with these words for some, which is told where they were typed otherwise."""
    given = [read.get(name, word) for name, word in zip(line.values, words)]
    for name, word, new in zip(line.values, words, given):
        if word != new:
            context.tell(f"{name}: {word} is given as {new}")
    return given


def read_result(context: Context, line: Line, words: list[str], noted: Noted) -> tuple[list[str], Noted]:
    """The value of a result with the decimals of its test, and what is noted of one that is a bound."""
    typed = dict(zip(line.values, words))
    office, (bound, number) = context.office(), split_sign(typed["VALUE"])
    if not bound and not decimals_in(number) and not describing.has_measures(context.journal()):
        return words, noted
    names = typed["OWNER"], typed["LOT"], typed["TEST"]
    if any(map(NAME.fault, names)):
        return words, noted
    day = describing.NO_DAY if DAY.fault(typed["DAY"]) else int(typed["DAY"])
    with snapshot.opened(office) as base:
        register = register_of(context, base)
        word, facts = describing.result_of(base, register, *names, typed["VALUE"], day)
        if advice := describing.advice_on_decimals(base, describing.test_of_lot(base, register, *names), number):
            context.tell(advice)
    return given_as(context, line, words, {"VALUE": word}), {**noted, "facts": facts}
