"""What is given by the plant's command and what is given by `toll` come to the same: equal answers, equal tables."""
import shutil

import pytest
from conftest import Plant
from hilpoven.core.grammar import LINES
from hypothesis import given, settings, strategies
from hypothesis.strategies import SearchStrategy

OWNERS = ["ACME", "BOLT", "HOUSE", "NOBODY"]
POOL = {
    "OWNER": OWNERS, "SOURCE": OWNERS, "LOT-OWNER": OWNERS, "UNIT": ["KETTLE", "MIXER", "PRESS"], "MATERIAL": ["SALT", "BRINE", "WATER", "PIGMENT"],
    "TEST": ["DENSITY", "PH"], "RECIPE": ["BRINE-10", "R-2"], "ORDER": ["O-1", "C-1"], "LOT": ["S-1", "B-1", "W-101", "P-1", "B-2"],
    "SUBLOT": ["BAY1", "TOTE1", "TOTE2", "TANK"], "TARGET": ["TOTE2", "TOTE3", "BAY1"], "KEY": [f"K{number}" for number in range(1, 12)],
    "MEASURE": ["kg", "liter"], "AMOUNT": ["1", "80", "300", "980", "5000"], "DAY": ["101", "102"], "SEGMENT": ["1", "2", "3"], "SEGMENTS": ["1", "2"],
    "BATCH": ["1", "2"], "BATCHES": ["1", "3"], "VALUE": ["1180", "M5", "7", "M6"], "LOW": ["M5", "1"], "HIGH": ["9", "1250"],
    "USE": ["consumed", "produced"], "WAY": ["back", "forward"], "COMMAND": ["done", "start", "stop", "hold", "restart", "abort", "reset"],
}
WRONG = ["wh_2", "0", "99999999999", "Consumed", "A B", "x"]


def line(name: str) -> SearchStrategy[list[str]]:
    """A line of words that mostly mean something in the office at work."""
    def word(value: str) -> SearchStrategy[str]:
        pool = ["CARLKEY1", "short"] if (name, value) == ("owner-add", "KEY") else POOL[value]
        return strategies.integers(0, 19).flatmap(lambda chance: strategies.sampled_from(WRONG if chance == 0 else pool))
    return strategies.tuples(*map(word, LINES[name].values)).map(lambda words: [name, *words])


# What the day is made of: mostly what moves and makes.
NAMES = [*LINES, *["receive", "actual", "split", "ship", "scrap", "result", "do", "void"] * 2]
DAYS = strategies.lists(strategies.sampled_from(NAMES).flatmap(line), min_size=3, max_size=14)


def twin(laid: Plant, folder, name: str) -> Plant:
    """A copy of the office at work."""
    copy = Plant(laid.program, folder)
    copy.db = folder / f"{name}.db"
    for end in ("", "-wal"):
        if (laid.folder / f"office.db{end}").exists():
            shutil.copyfile(f"{laid.db}{end}", f"{copy.db}{end}")
    return copy


def run_day(laid: Plant, folder, day: list[list[str]]) -> None:
    """Gives a day to both, and compares."""
    mine, theirs = twin(laid, folder, "mine"), twin(laid, folder, "theirs")
    for words in day:
        done, wanted = mine.run(*words), theirs.toll(*words)
        assert (done.status, done.out) == (wanted.status, wanted.out), words
        assert wanted.err in done.err
    assert mine.content() == theirs.content()
    assert mine.rows("SELECT * FROM owners") == theirs.rows("SELECT * FROM owners")


@settings(max_examples=25)
@given(day=DAYS)
def test_a_day_comes_to_the_same(laid, tmp_path_factory, day):
    run_day(laid, tmp_path_factory.mktemp("day"), day)


@pytest.mark.long
@settings(max_examples=300)
@given(day=DAYS)
def test_three_hundred_days_come_to_the_same(laid, tmp_path_factory, day):
    run_day(laid, tmp_path_factory.mktemp("day"), day)


def test_a_day_beside_a_server_comes_to_the_same(laid, tmp_path):
    day = [["unit-add", "PRESS"], ["receive", "ACME", "K9", "SALT", "S-9", "BAY1", "5", "101"], ["scrap", "ACME", "K10", "S-9", "BAY1", "6", "101"],
           ["stock", "ACME"], ["recall", "HOUSE", "W-101"], ["do", "ACME", "O-1", "1", "hold"], ["batch", "ACME", "O-1", "1"]]
    mine, theirs = twin(laid, tmp_path, "mine"), twin(laid, tmp_path, "theirs")
    with mine.serve():
        for words in day:
            done, wanted = mine.run(*words), theirs.toll(*words)
            assert (done.status, done.out) == (wanted.status, wanted.out), words
    assert mine.content() == theirs.content()
