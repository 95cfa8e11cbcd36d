"""What numbers in the tables stand for is what `toll` means by them, and what it prints is read whole."""
import contextlib
import re
import sqlite3

import pytest
from conftest import ROOT
from hilpoven.model import answers
from hilpoven.model.genealogy import Genealogy
from hilpoven.model.answers import RecallLine, TraceLine
from hilpoven.model.rows import LotId
from hilpoven.model.schema import ACTUAL_OF, INCOMING, OUTGOING, Disposition, Kind, Role, State


def test_each_kind_comes_in_goes_out_or_splits():
    assert {*INCOMING, *OUTGOING, Kind.SPLIT} == set(Kind) and len(INCOMING) + len(OUTGOING) + 1 == len(Kind)
    assert [ACTUAL_OF[role].word for role in Role] == [role.word for role in Role]


@pytest.mark.parametrize("code", [Kind, Role, State, Disposition])
def test_sql_says_the_word_of_each_number(code):
    with contextlib.closing(sqlite3.connect(":memory:")) as base:
        assert [base.execute(f"SELECT {code.sql(str(int(member)))}").fetchone()[0] for member in code] == [member.word for member in code]
        assert base.execute(f"SELECT {code.sql('99')}").fetchone() == (None,)


@pytest.mark.parametrize("damage", ["batches SET state = 99 WHERE closed = 0", "lots SET disposition = 99"])
def test_a_number_that_stands_for_nothing_is_damage(at_work, damage):
    with contextlib.closing(sqlite3.connect(at_work.db)) as base, base:
        base.execute(f"UPDATE {damage}")
    done = at_work.run("board")
    assert (done.status, done.out, done.err) == (3, "", "hilpoven: fault Damaged\n")


def test_states_have_the_numbers_that_toll_stores():
    text = (ROOT / "crates" / "toll_base" / "src" / "state.rt").read_text()
    names = re.search(r"pub enum State \{(.*?)\}", text, re.S)[1].replace(",", "").split()
    assert [name.lower() for name in names] == [state.word for state in State]


def test_lines_of_toll_are_read_whole():
    text = " steps owner            lot              disposition        on-hand        shipped\n     0 ACME             S-1              released               200              0\n"
    assert answers.recall_of(text) == [RecallLine(0, "ACME", "S-1", "released", 200, 0)]
    assert answers.rows_of(TraceLine, "1 HOUSE W-1\n") == [TraceLine(1, "HOUSE", "W-1")]
    assert answers.batch_of("batch running KETTLE open\n1 consumed ACME SALT 300 20\n") == (
        ("KETTLE", "running", "open"), [answers.RequirementLine(1, "consumed", "ACME", "SALT", 300, 20)])
    with pytest.raises(ValueError):
        answers.rows_of(TraceLine, "1 HOUSE W-1 more\n")


MOVES = [  # kind, lot, batch, segment: a lot that a batch consumes after it has produced another didn't go into that
    (Kind.CONSUMED, "A", 1, 1), (Kind.PRODUCED, "B", 1, 1), (Kind.CONSUMED, "C", 1, 2), (Kind.PRODUCED, "D", 1, 2), (Kind.CONSUMED, "B", 2, 1),
    (Kind.CONSUMED, "D", 2, 1), (Kind.PRODUCED, "E", 2, 1), (Kind.CONSUMED, "E", 3, 3), (Kind.PRODUCED, "A", 3, 3), (Kind.PRODUCED, "V", 3, 3)]


def test_a_trace_has_the_fewest_steps_round_a_ring_and_no_voided_actual():
    with contextlib.closing(sqlite3.connect(":memory:")) as base:
        base.execute("CREATE TABLE moves (owner, mkey, kind, lot_owner, lot, ord, number, segment, amount)")
        base.execute("CREATE TABLE voids (owner, mkey)")
        base.executemany("INSERT INTO moves VALUES ('O', ?, ?, 'O', ?, 'X', ?, ?, 1)",
                         [(f"K{at}", int(kind), lot, batch, segment) for at, (kind, lot, batch, segment) in enumerate(MOVES)])
        base.execute("INSERT INTO voids VALUES ('O', 'K9')")
        genealogy = Genealogy(base)
        forward, back = ({lot.name: steps for lot, steps in genealogy.trace(LotId("O", start), way).steps.items()} for start, way in (("A", "forward"), ("C", "back")))
    assert forward == {"A": 0, "B": 1, "D": 1, "E": 2} and list(forward) == ["A", "B", "D", "E"]
    assert back == {"C": 0}
    assert {lot.name for lot in genealogy.onward(LotId("O", "C"))} == {"D"} and genealogy.trace(LotId("O", "V"), "back").steps == {LotId("O", "V"): 0}
