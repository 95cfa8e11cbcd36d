"""What is noted of owners, materials, tests, lots and results: which notes count, and what is read of them."""
import json

import pytest
from conftest import Plant
from hilpoven.core import snapshot
from hilpoven.cli.caller import person
from hilpoven.core.context import Context
from hilpoven.core.settings import load
from hilpoven.core.journal.log import Journal
from hilpoven.core.table import formatted
from hilpoven.model.quality import describe_lot
from hilpoven.model.rows import LotId, require_lot
from hilpoven.model import notes as facts
from hilpoven.model.kinds import Bound
from hilpoven.model.notes import KINDS
from hilpoven.model.register.noted import from_json, to_json
from hilpoven.model.register import standing
from hilpoven.model.register.standing import standing_over_all
from hilpoven.model.years import history
from notes import cut_off, register_of

BRINE = ("ACME", "BRINE")
CLOSED = [("do", "ACME", "O-1", 1, "done"), ("close", "ACME", "O-1", 1)]


def note(plant: Plant, *notes: facts.Note, words: tuple[object, ...] = ("note",)) -> str:
    """Notes something, as a command does; the name of the first note."""
    journal = Journal(str(plant.journal), str(plant.db))
    return journal.note(journal.file, list(map(str, words)), notes=[to_json(fact) for fact in notes])


def beside(plant: Plant, words: str, *notes: facts.Note) -> None:
    """Notes something beside a line of `toll`, and gives it the line."""
    journal = Journal(str(plant.journal), str(plant.db))
    entry = journal.asked(journal.file, words.split(), notes=[to_json(fact) for fact in notes])
    journal.answered(entry, Context(load(), str(plant.db), person=person()).office().ask(words.split()))


def described(plant: Plant, lot: str, owner: str = "ACME"):
    """What papers and lists get of a lot."""
    context = Context(load(), str(plant.db), person=person())
    with snapshot.opened(context.office()) as base:
        return describe_lot(base, standing.register_of(context, base).of(owner), require_lot(base, LotId(owner, lot)))


def values(plant: Plant) -> dict[str, str]:
    """The latest value of each test of lot B-1, as measured."""
    return {test.name: formatted(test.value) for test in described(plant, "B-1").tests}


def bound(value: int, sign: Bound = Bound.BELOW, day: int = 103) -> facts.ResultFacts:
    """That a result of the PH of lot B-1 is a bound."""
    return facts.ResultFacts("ACME", "B-1", "PH", value, day, sign)


def test_the_last_note_of_a_thing_counts_member_by_member(settled):
    note(settled, facts.OwnerFacts("ACME", "Acme Foods Ltd", "1 Road"), facts.MaterialFacts(*BRINE, "Brine, 10 %"), facts.LotFacts("ACME", "B-1", made=261101, expires=271101))
    note(settled, facts.OwnerFacts("ACME", address="2 Road"), facts.TestFacts(*BRINE, "PH", unit="pH", decimals=2), facts.LotFacts("ACME", "B-1", retest=270501))
    note(settled, facts.TestFacts(*BRINE, "PH", method="ISO 10523"), facts.OwnerFacts("HOUSE", "The plant"))
    lot = described(settled, "B-1")
    assert (lot.owner, lot.material) == (facts.OwnerFacts("ACME", "Acme Foods Ltd", "2 Road"), facts.MaterialFacts(*BRINE, "Brine, 10 %"))
    assert lot.lot == facts.LotFacts("ACME", "B-1", 261101, 271101, 270501)
    assert [(test.name, test.full_name, test.unit, test.method) for test in lot.tests] == [("DENSITY", "", "", ""), ("PH", "", "pH", "ISO 10523")]
    assert [(test.name, *map(formatted, (test.low, test.high, test.value))) for test in lot.tests] == [("DENSITY", "1,100", "1,250", "1,180"), ("PH", "-0.05", "0.09", "")]


def test_without_notes_all_is_as_toll_has_it(settled):
    settled.lay("result ACME B-1 PH M5 103\n")
    lot = described(settled, "B-1")
    assert [(test.name, *map(formatted, (test.low, test.high, test.value))) for test in lot.tests] == [("DENSITY", "1,100", "1,250", "1,180"), ("PH", "-5", "9", "-5")]
    assert (lot.owner.name, lot.material.name, lot.lot.expires) == ("", "", None)


def test_an_owner_gets_its_own_facts_alone(settled):
    note(settled, *(facts.OwnerFacts(owner, owner.title()) for owner in ("ACME", "BOLT", "HOUSE")), facts.MaterialFacts("BOLT", "PIGMENT", "Red"), facts.LotFacts("BOLT", "P-1", expires=271101),
         facts.TestFacts("HOUSE", "WATER", "PH", decimals=1), facts.MaterialFacts("HOUSE", "WATER", "Soft water"))
    of_acme = register_of(settled).of("ACME")
    assert of_acme.owners == {"ACME": facts.OwnerFacts("ACME", "Acme")}
    assert not (of_acme.materials or of_acme.lots or of_acme.tests or of_acme.bounds)


def test_a_bound_is_shown_with_its_sign_while_it_stands(settled):
    note(settled, facts.TestFacts(*BRINE, "PH", decimals=2))
    beside(settled, "result ACME B-1 PH 5 103", bound(5))
    assert values(settled)["PH"] == "<0.05"
    beside(settled, "result ACME B-1 PH 7 104", bound(7, Bound.ABOVE, 104))
    assert values(settled)["PH"] == ">0.07"
    settled.lay("result ACME B-1 PH 5 105\n")
    assert values(settled)["PH"] == "0.05"


def test_a_bound_that_is_withdrawn_does_not_count(settled):
    beside(settled, "result ACME B-1 PH 5 103", bound(5))
    name = [line["id"] for line in settled.lines() if "notes" in line][-1]
    assert values(settled)["PH"] == "<5" and settled.run("note", "withdraw", name, "--reason", "it was 5").status == 0
    assert values(settled)["PH"] == "5"


def test_a_bound_of_a_refused_result_does_not_count(settled):
    beside(settled, "result ACME B-9 PH 5 103", facts.ResultFacts("ACME", "B-9", "PH", 5, 103, Bound.BELOW))
    assert register_of(settled).bounds == {} and "its command was refused" in settled.run("note", "list").out


@pytest.mark.parametrize("words, is_there", [("result ACME B-1 PH 5 103", True), ("result ACME B-1 PH 6 103", False), ("result ACME B-1 PH", False), ("result ACME B-1 PH ٥ 103", False),
                                             ("result ACME B-1 PH MM 103", False), ("result ACME B-1 PH 99999999999999999999 103", False)])
def test_a_bound_without_an_answer_counts_if_toll_has_the_result(settled, words, is_there):
    beside(settled, "result ACME B-1 PH 5 103")
    journal = Journal(str(settled.journal), str(settled.db))
    journal.asked(journal.file, words.split(), notes=[to_json(bound(5))])
    assert bool(register_of(settled).bounds) == is_there and settled.run("note", "list").status == 0


def test_a_bound_of_a_result_that_a_restore_lost_does_not_count(settled):
    settled.settle()
    assert settled.run("backup").status == 0
    backup = next((settled.folder / "backups").glob("*.db"))
    beside(settled, "result ACME B-1 PH 5 103", bound(5))
    assert register_of(settled).bounds
    assert settled.run("restore", backup.name).status == 0
    assert register_of(settled).bounds == {} and "its result isn't there" in settled.run("note", "list").out


def test_facts_of_a_test_that_is_added_count_if_toll_has_it_with_these_limits(settled):
    words = "test-add ACME SALT PURITY 9850 10000"
    beside(settled, words, facts.TestFacts("ACME", "SALT", "PURITY", decimals=2))
    assert "refused" in settled.run("note", "list").out and register_of(settled).tests == {}  # the material has lots
    settled.lay("material-add ACME SUGAR kg\n")
    beside(settled, words.replace("SALT", "SUGAR"), facts.TestFacts("ACME", "SUGAR", "PURITY", decimals=2))
    assert register_of(settled).tests["ACME", "SUGAR", "PURITY"].decimals == 2
    cut_off(settled)
    (settled.folder / "office.db.register").unlink()
    assert register_of(settled).tests["ACME", "SUGAR", "PURITY"].decimals == 2


def test_facts_go_on_over_a_carry_over_with_what_they_are_about(settled):
    note(settled, facts.OwnerFacts("ACME", "Acme Foods Ltd"), facts.MaterialFacts(*BRINE, "Brine"), facts.TestFacts(*BRINE, "PH", decimals=2),
         facts.LotFacts("ACME", "B-1", expires=271101), facts.LotFacts("ACME", "S-2", expires=270101))
    settled.lay("receive ACME K20 SALT S-2 BAY9 5 101\nscrap ACME K21 S-2 BAY9 5 101\n")
    note(settled, facts.LotFacts("ACME", "S-2", made=260101))
    beside(settled, "result ACME B-1 PH 5 103", bound(5))
    for words in (*CLOSED, ("carry-over", "--day", 261128)):
        assert settled.run(*words).status == 0, words
    lot = described(settled, "B-1")
    assert (lot.owner.name, lot.material.name, lot.lot.expires) == ("Acme Foods Ltd", "Brine", 271101) and values(settled)["PH"] == "<0.05"
    assert settled.toll("receive", "ACME", "K1", "SALT", "S-2", "BAY9", 7, 261201).out == "accepted\n"
    assert described(settled, "S-2").lot == facts.LotFacts("ACME", "S-2")  # another lot of this name
    context = Context(load(), str(settled.db), person=person())
    with history.opened(context.office()) as whole:
        over_all = standing_over_all(context.journal(), whole)
    assert {lot: (lot_facts.made, lot_facts.expires) for (_, lot), lot_facts in over_all.lots.items()} == {"B-1": (None, 271101), "S-2 (office-1.db)": (260101, 270101)}
    assert over_all.bounds == {("ACME", "B-1", "PH", 5, 103): Bound.BELOW}
    whole = json.loads(settled.run("years", "lot", "ACME", "B-1", "--json").out)
    assert [test["noted latest"] for test in whole["tests"]] == ["1180", "<0.05"] and whole["noted expires"] == "2027-11-01"


@pytest.mark.parametrize("value", [
    {"kind": "owner", "owner": "ACME", "name": "a\nb"}, {"kind": "owner", "owner": "ACME", "name": "x" * 201}, {"kind": "owner", "owner": "ACME", "name": 5}, {"kind": "owner", "name": "x"},
    {"kind": "owner", "owner": "ACME", "address": "\x1b[2J"}, {"kind": "material", "owner": "ACME", "name": "x"}, {"kind": "material", "owner": "ACME", "material": "brine"},
    {"kind": "test", "owner": "ACME", "material": "BRINE", "decimals": 2}, *({"kind": "test", "owner": "ACME", "material": "BRINE", "test": "PH", "decimals": decimals} for decimals in (-1, 10, True, "2", 2.0, 10**400)),
    {"kind": "test", "owner": "ACME", "material": "BRINE", "test": "PH", "unit": "\u202e"}, {"kind": "test", "owner": "ACME", "material": "BRINE", "test": "PH", "limits": 1},
    {"kind": "lot", "owner": "ACME", "expires": 271101}, {"kind": "lot", "owner": "ACME", "lot": "", "expires": 271101},
    *({"kind": "lot", "owner": "ACME", "lot": "B-1", "expires": date} for date in (271301, 101, 0, -1, True, "271101", 20271101, 10**400, [])),
    *({"kind": "result", "owner": "ACME", "lot": "B-1", "test": "PH", "day": 103, "bound": "below", **members} for members in ({}, {"value": True}, {"value": "5"}, {"value": 1_000_000_001}, {"value": 5.0})),
    *({"kind": "result", "owner": "ACME", "lot": "B-1", "test": "PH", "value": 5, **members} for members in ({"day": 103}, {"bound": "below"}, {"day": -1, "bound": "below"}, {"day": 103, "bound": "<"}, {"day": 103, "bound": ["below"]})),
    {"kind": "drill-start", "owner": "ACME"},
])
def test_what_no_command_notes_is_no_note(value):
    assert from_json(value) is None


@pytest.mark.parametrize("value", [bound(0), bound(-5, Bound.ABOVE, 0), facts.TestFacts(*BRINE, "PH"), facts.LotFacts("ACME", "B-1", 1_00_101), facts.OwnerFacts("ACME", "Łódź <b>&amp;")])
def test_a_note_is_read_as_it_was_written(value):
    assert from_json(to_json(value)) == value and KINDS[value.KIND] is type(value) and value.sentence.isprintable()
