"""What a screen calls: the questions of a line with their choices, an answer that is checked, and the whole line in a person's name, where
what may not be meant is a question of its own."""
import os
import pwd

import pytest
from conftest import Plant
from hilpoven.core import settings as site
from hilpoven.core.context import NO, YES, Context, Unanswered, answered_by
from hilpoven.core.failure import Failure
from hilpoven.core.grammar import LINES, TO
from hilpoven.core.rights import Person
from hilpoven.record import asking, dialogue, giving, judging, noting, using
from hilpoven.model.kinds import Role, Why
from hilpoven.model.notes import Link, Party
from hilpoven.model.rows import BatchId, LotId

CLERK = 1  # the number of a user that each machine has


def screen(plant: Plant, answers: dict[str, str] | None = None, messages: list[str] | None = None, **settings: object) -> Context:
    """What a screen stands on, which has these answers, and what is told there."""
    lines = [] if messages is None else messages
    return Context(site.Settings(file=str(plant.db), toll=plant.program, **settings), person=Person(os.getuid(), login_number=CLERK),
                   tell=lines.append, ask=answered_by(answers or {}))


def words(line: str) -> tuple:
    """A line, and its words."""
    name, *values = line.split()
    return LINES[name], values


def test_the_questions_of_a_line_come_in_their_order_with_their_choices(at_work):
    with dialogue.opened(screen(at_work), LINES["scrap"], {}) as talk:
        asked = {}
        for answer in ("ACME", "S-1", "BAY1", "5", "103", "K9"):
            value, given = talk.next_value()
            asked[value] = talk.asked(value)
            assert given is None and talk.check(value, answer).is_taken
        assert talk.next_value() is None and talk.words == ["ACME", "K9", "S-1", "BAY1", "5", "103"]
    assert list(asked) == ["OWNER", "LOT", "SUBLOT", "AMOUNT", "DAY", "KEY"]
    assert asked["OWNER"].names == ["ACME", "BOLT", "HOUSE"] and asked["LOT"].choices[1].about.startswith("SALT, released, 4700 kg")
    assert (asked["SUBLOT"].default, asked["AMOUNT"].about, asked["KEY"].default) == ("BAY1", "1 to 4,700, which BAY1 holds", "next")


def test_an_answer_is_checked_and_nothing_is_recorded(at_work):
    before = at_work.content()
    with dialogue.opened(screen(at_work), LINES["ship"], {"OWNER": "ACME"}, beside={TO: None}) as talk:
        for value, word, fault in (("LOT", "S-2", "`S-2` isn't there. Nearest of the lots of ACME: S-1."), ("DAY", "x", "`x` has `x`"), ("KEY", "K6", "is there already")):
            talk.check("OWNER", "ACME")
            checked = talk.check(value, word)
            assert not checked.is_taken and fault in "\n".join(checked.lines) and value not in talk.values
        assert talk.check("LOT", "ACME/S-1/BAY1").is_taken and talk.values == {"OWNER": "ACME", "LOT": "S-1", "SUBLOT": "BAY1"}
        assert talk.doubt("KEY", "TOMORROW") == "KEY: TOMORROW has no digit" and not talk.doubt("KEY", "K9")
    assert at_work.content() == before and not at_work.lines()


def test_a_line_is_given_in_the_name_of_the_person(at_work):
    messages: list[str] = []
    context = screen(at_work, messages=messages)
    given = giving.give(context, *words("scrap ACME next S-1 BAY1 5 103"), {"reason": "torn bag"}, is_meant=False)
    assert given.answer.output == "accepted\n" and messages == ["KEY: next is K7"]
    asked = at_work.lines()[0]
    assert (asked["login"], asked["words"], asked["notes"][0]["reason"]) == (
        pwd.getpwuid(CLERK).pw_name, ["scrap", "ACME", "K7", "S-1", "BAY1", "5", "103"], "torn bag")
    refused = giving.give(context, *words("release W-102"))
    assert refused.answer.status == 1 and any("UnknownLot" in line for line in asking.remarks(context, LINES["release"], refused))


@pytest.mark.parametrize("line, name, doubt", [
    ("scrap ACME K9 S-1 BAY1 5 50", "day", "DAY: 50 is before the first day of lot ACME S-1, 101. Is it meant?"),
    ("split ACME next B-1 TOTE1 TOTE2 80 102", "key", "The same movement of ACME is recorded with key K6. Is this another one?")])
def test_what_may_not_be_meant_is_asked_before_anything_is_done(at_work, line, name, doubt):
    with pytest.raises(Unanswered) as stopped:
        giving.give(screen(at_work), *words(line), is_meant=False)
    question = stopped.value.question
    assert (question.name, question.text, question.choices, question.default) == (name, doubt, (YES, NO), NO)
    assert not at_work.lines()
    with pytest.raises(Exception, match="nothing is done"):
        giving.give(screen(at_work, {doubt: NO}), *words(line), is_meant=False)
    with pytest.raises(Unanswered):  # what was agreed to is this doubt and no other
        giving.give(screen(at_work, {doubt.replace("ACME", "BOLT"): YES}), *words(line), is_meant=False)
    assert giving.give(screen(at_work, {doubt: YES}), *words(line), is_meant=False).answer.output == "accepted\n"


def test_what_a_receipt_contains_is_asked_in_two_questions(at_work):
    line = words("receive ACME K9 BRINE B-1R BAY1 5 103")
    of, why = "Does B-1R contain some of ACME B-1, and why?", "return"
    with pytest.raises(Unanswered) as stopped:
        giving.give(screen(at_work), *line)
    assert stopped.value.question.text == of and stopped.value.question.choices == (*Why, "no")
    with pytest.raises(Unanswered):
        giving.give(screen(at_work, {of: "because"}), *line)
    assert giving.give(screen(at_work, {of: why}), *line).answer.output == "accepted\n"
    assert [entry["notes"][0]["why"] for entry in at_work.lines() if "notes" in entry] == [why]


def test_what_a_batch_uses_is_doubted_by_the_lot_and_the_batch(at_work):
    assert at_work.toll("receive", "ACME", "K20", "SALT", "S-20", "BAY7", 5, 101).status == 0
    use = (BatchId("ACME", "O-1", 1), LotId("ACME", "S-20"), "BAY7", "1", 103, None, "", False)
    with pytest.raises(Unanswered) as stopped:
        using.use(screen(at_work), *use)
    question = stopped.value.question.text
    assert question == "Lot ACME S-20 is not released. Is it meant?"
    assert using.use(screen(at_work, {question: YES}), *use).answer.output == "accepted\n"


def test_notes_and_signatures_are_values(at_work):
    context = screen(at_work)
    recorded = noting.link(context, Link("ACME", "B-1", "", 0, "ACME", "S-1", Why.USE, None, ""))
    assert not recorded.is_known and noting.link(context, Link("ACME", "B-1", "", 0, "ACME", "S-1", Why.USE, None, "")) == (recorded.name, True)
    assert [row[0] for row in noting.notes_of(context, "ACME")] == [recorded.name]
    held = judging.hold(context, LotId("ACME", "S-1"), "metal", 103)
    assert held.given is None and held.text.startswith("noted ")
    shown = noting.describe_owner(context, "ACME")
    assert (shown.recorded, shown.facts, shown.none) == (None, {}, ["Nothing is noted of it."])


@pytest.mark.parametrize("reason", ["one\ntwo", "\u202egnorw", "\x1b[2J", "x" * 201])
def test_a_text_that_is_no_line_is_noted_by_nobody(at_work, reason):
    with pytest.raises(Failure, match="^reason: "):
        giving.give(screen(at_work), *words("scrap ACME K9 S-1 BAY1 5 103"), {"reason": reason})
    with pytest.raises(Failure, match="^a note can't be so: "):
        noting.add_party(screen(at_work), Party("ACME", "../x", name="X", roles=(Role.CUSTOMER,)))
    assert not at_work.lines()
