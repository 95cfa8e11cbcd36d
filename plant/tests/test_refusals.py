"""For each refusal a user reads what it means and what to look at."""
import pytest
from conftest import AT_WORK
from hilpoven.core import meanings

# How each refusal comes about in the office at work: lines that are accepted before, and the line that is refused.
WAYS = {
    "BadName": ([], "stock acme"),
    "BadAmount": ([], "scrap ACME K9 S-1 BAY1 0 101"),
    "UnknownOwner": ([], "stock NOBODY"),
    "OwnerExists": ([], "owner-add ACME ACMEKEY2"),
    "UnitExists": ([], "unit-add KETTLE"),
    "UnknownUnit": ([], "open ACME O-1 PRESS"),
    "UnitBusy": ([], "open ACME O-1 KETTLE"),
    "MaterialExists": ([], "material-add ACME SALT kg"),
    "UnknownMaterial": ([], "receive ACME K9 SUGAR S-9 BAY1 5 101"),
    "MaterialInUse": ([], "test-add ACME SALT PH 1 9"),
    "TestExists": ([], "test-add ACME BRINE PH 1 9"),
    "RecipeExists": ([], "recipe-add ACME BRINE-10 1"),
    "UnknownRecipe": ([], "order C-1 CLEANING 1"),
    "RecipeInUse": ([], "require ACME BRINE-10 2 consumed ACME SALT 5"),
    "BadSegment": ([], "actual K9 ACME O-1 1 3 consumed SALT ACME S-1 BAY1 5 101"),
    "RequirementExists": (["recipe-add ACME R-2 1", "require ACME R-2 1 consumed ACME SALT 5"], "require ACME R-2 1 consumed ACME SALT 6"),
    "OrderExists": (["recipe-add HOUSE CLEANING 1", "order C-1 CLEANING 1"], "order C-1 CLEANING 2"),
    "UnknownOrder": ([], "open ACME O-9 MIXER"),
    "OrderCancelled": (["recipe-add HOUSE CLEANING 1", "order C-1 CLEANING 1", "cancel C-1"], "cancel C-1"),
    "OrderStarted": (["recipe-add HOUSE CLEANING 1", "order C-1 CLEANING 1", "open HOUSE C-1 MIXER"], "cancel C-1"),
    "NoMoreBatches": (["recipe-add HOUSE CLEANING 1", "order C-1 CLEANING 1", "open HOUSE C-1 MIXER"], "open HOUSE C-1 MIXER"),
    "UnknownBatch": ([], "do ACME O-1 2 start"),
    "BadState": ([], "close ACME O-1 1"),
    "BatchClosed": (["do ACME O-1 1 done", "close ACME O-1 1"], "void ACME K2"),
    "BatchIdle": (["open ACME O-1 MIXER"], "actual K9 ACME O-1 2 1 consumed SALT ACME S-1 BAY1 5 101"),
    "NotInRecipe": ([], "actual K9 ACME O-1 1 2 consumed SALT ACME S-1 BAY1 5 101"),
    "UnknownLot": ([], "recall ACME S-9"),
    "UnknownSublot": ([], "scrap ACME K9 S-1 BAY9 5 101"),
    "WrongMaterial": ([], "receive ACME K9 BRINE S-1 BAY1 5 101"),
    "WrongOrigin": ([], "receive ACME K9 BRINE B-1 TOTE1 5 101"),
    "NotReleased": ([], "ship ACME K9 B-1 TOTE1 5 101"),
    "NotQuarantined": ([], "release W-101"),
    "NotEnough": ([], "scrap ACME K9 S-1 BAY1 99999 101"),
    "SameSublot": ([], "split ACME K9 S-1 BAY1 BAY1 5 101"),
    "KeyConflict": ([], "receive ACME K1 SALT S-1 BAY1 5001 101"),
    "TestsOpen": (["material-add HOUSE STEAM kg", "test-add HOUSE STEAM PH 1 9", "receive HOUSE K2 STEAM T-1 TANK 5 101"], "release T-1"),
    "UnknownTest": ([], "result ACME B-1 COLOUR 1 102"),
    "CrossOwner": ([], "actual K9 ACME O-1 1 1 consumed PIGMENT BOLT P-1 BAY2 5 101"),
    "LimitReached": ([f"unit-add U{number}" for number in range(198)], "unit-add ONE-MORE"),
    "UnknownKey": ([], "void ACME K1"),
    "Voided": (["void ACME K3"], "void ACME K3"),
    "Rejected": (["reject W-101"], "reject W-101"),
}


def test_each_refusal_has_its_way():
    assert list(WAYS) == list(meanings.table("refusals"))


@pytest.mark.parametrize("word", WAYS)
def test_a_user_reads_what_it_means_and_what_to_do(at_work, word):
    before, line = WAYS[word]
    if before:
        at_work.lay("\n".join(before))
    rows, answer = at_work.content(), at_work.toll(*line.split())
    refusal = meanings.table("refusals")[word]
    assert answer.out == f"refused {refusal['number']} {word}\n"
    done = at_work.run(*line.split())
    assert (done.status, done.out) == (1, answer.out) and at_work.content() == rows
    lines = [line.strip() for line in done.err.splitlines()]
    means = f"{word}: {meanings.meaning('refusals', word)}."
    assert means in lines and meanings.meaning("refusals", word) in refusal["means"]
    look = lines[lines.index(means) + 1]
    assert look and look.endswith(".") and "{" not in look


def test_an_office_at_work_is_laid(plant):
    assert plant.lay(AT_WORK).toll("orders", "ACME").out.startswith("O-1")
