"""Companions over generated offices: each says what `toll` replies and what the plant noted of its owner, and nothing of others."""
import pytest
from companions import try_office

QUICK, MANY = range(3), range(3, 300)


@pytest.mark.parametrize("seed", QUICK)
def test_companions_say_what_is_there_and_nothing_of_others(program, tmp_path, seed):
    try_office(program, tmp_path / "office", seed)


@pytest.mark.long
@pytest.mark.parametrize("seed", MANY)
def test_300_companions_say_what_is_there_and_nothing_of_others(program, tmp_path, seed):
    try_office(program, tmp_path / "office", seed)
