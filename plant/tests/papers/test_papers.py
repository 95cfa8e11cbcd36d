"""Papers over generated offices: each figure is that of a query and of `toll`, and an owner's papers have nothing of others."""
import pytest
from looks import Papers
from offices import HOUSE, Filled, WithParties

QUICK, MANY = (2, 3), range(200)  # the second has batches of many lots
PAPERS_WITH_PARTIES = 300


def try_office(program, folder, seed: int, prints: bool, kind: type[Filled] = Filled) -> Papers:
    """Makes papers of all kinds over an office."""
    office = kind(program, folder, seed)
    papers, chance = Papers(office, prints), office.chance
    for owner in [HOUSE, *office.owners]:
        for lot in chance.sample(list(office.lots[owner]), 1 if owner in office.owners[1:] else 2):
            papers.recall(owner, lot)
        papers.certificate(owner, chance.choice(list(office.lots[owner])))
        papers.lot(owner, chance.choice(list(office.lots[owner])))
        papers.statement(owner, *chance.choice(((261107, 261126), (0, 9_999_999), (261119, 261119), (0, 261112))))
        papers.batch(owner, chance.choice(office.batches[owner]))
    return papers


@pytest.mark.parametrize("seed", QUICK)
def test_papers_tell_what_is_there_and_nothing_of_others(program, tmp_path, seed):
    try_office(program, tmp_path / "office", seed, prints=seed == 2)


@pytest.mark.long
@pytest.mark.parametrize("seed", MANY)
def test_papers_of_many_offices_tell_what_is_there_and_nothing_of_others(program, tmp_path, seed):
    try_office(program, tmp_path / "office", seed, prints=seed % 4 == 0)


@pytest.mark.parametrize("seed", [1, pytest.param(7, marks=pytest.mark.long)])
def test_papers_with_parties_name_no_others(program, tmp_path, seed):
    papers = try_office(program, tmp_path / "office", seed, prints=seed == 1, kind=WithParties)
    assert papers.office.facts and papers.recipients


@pytest.mark.long
def test_many_papers_with_parties_name_no_others(program, tmp_path):
    count, seed = 0, 1000
    while count < PAPERS_WITH_PARTIES:
        count += try_office(program, tmp_path / f"office{seed}", seed, prints=seed % 4 == 0, kind=WithParties).count
        seed += 1
