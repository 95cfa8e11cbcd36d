"""What a batch uses besides its recipe: a lot that isn't released, is rejected or failed a test, and a closed batch, are told first."""
import json

import pytest
from conftest import Plant
from test_typing import typed

USE = "use ACME O-1 1 ACME S-9 BAY9 5 103".split()
# How the lot S-9 came to what is told of it.
DOUBTS = {
    "not released": ([], "lot ACME S-9 is not released"),
    "out of its limits": (["result ACME S-9 WET 12 103"], "the latest result of lot ACME S-9 is out of the limits of WET"),
    "rejected": (["> ACME POST /lots/S-9/reject"], "lot ACME S-9 is rejected"),
    "failed once it was released": (["result ACME S-9 WET 2 103", "> ACME POST /lots/S-9/release", "result ACME S-9 WET 12 104"], "is out of the limits of WET"),
    "a closed batch": (["result ACME S-9 WET 2 103", "> ACME POST /lots/S-9/release", "do ACME O-1 1 stop", "do ACME O-1 1 done", "close ACME O-1 1"], "batch ACME O-1/1 is closed"),
}


@pytest.fixture
def office(settled) -> Plant:
    """An office with a lot of a material that has a test."""
    return settled.lay("material-add ACME FLOUR kg\ntest-add ACME FLOUR WET 1 5\nreceive ACME K90 FLOUR S-9 BAY9 50 102\n")


@pytest.mark.parametrize("name", DOUBTS)
def test_what_may_not_be_meant_is_used_with_yes_alone(office, name):
    lines, why = DOUBTS[name]
    office.lay("".join(f"{line}\n" for line in lines))
    before, lines_before = office.content(), office.lines()
    done = office.run(*USE)
    assert done.status == 1 and done.out == "" and f"{why}; nothing is done\n  if it is meant: --yes takes it" in done.err, done
    assert office.content() == before and office.lines() == lines_before
    assert office.run(*USE, "--yes").out == "accepted\n"
    assert office.run(*USE).out == "repeated\n"  # of which nothing is told


def test_both_are_told_at_once_and_asked_about_at_a_terminal(office):
    office.lay("> ACME POST /lots/S-9/reject\ndo ACME O-1 1 stop\ndo ACME O-1 1 done\nclose ACME O-1 1\n")
    why = "batch ACME O-1/1 is closed; lot ACME S-9 is rejected"
    assert f"hilpoven: {why}; nothing is done" in office.run(*USE).err
    question = f"B{why[1:]}. Is it meant? [y/N] "
    status, text = typed(office, " ".join(USE), [(question.replace("rejected. ", "rejected. "), "")])
    assert status == 1 and text.splitlines()[-1] == "hilpoven: nothing is done"
    assert typed(office, " ".join(USE), [(question, "y")])[0] == 0


def test_a_released_lot_that_passed_its_tests_is_used_without_a_word(office):
    office.lay("result ACME S-9 WET 12 103\nresult ACME S-9 WET 2 103\n> ACME POST /lots/S-9/release\n")
    assert office.run(*USE) == (0, "accepted\n", "")


@pytest.mark.parametrize("amounts", [("5", "05"), ("5", "0000000005"), ("05", "5")])
def test_an_amount_is_used_once_however_it_is_typed(office, amounts):
    for amount, day, answer in ((amounts[0], "103", "accepted\n"), (amounts[1], "103", "repeated\n"), (amounts[0], "0103", "repeated\n")):
        assert office.run(*USE[:-2], amount, day, "--yes").out == answer
    assert office.rows("SELECT amount FROM moves WHERE lot = 'S-9' AND kind = 3") == [(5,)]


def test_the_key_of_what_was_used_before_stays(office):
    """That of an amount and a day without zeros in front."""
    assert office.run(*USE, "--yes").status == 0
    assert office.rows("SELECT mkey FROM moves WHERE lot = 'S-9' AND kind = 3") == [("USE-D7D3121961",)]


def test_a_released_lot_says_that_a_rejected_one_is_in_it(office):
    office.lay("result ACME B-1 PH 7 103\n> ACME POST /lots/B-1/release\n")
    for words in ([*USE, "--yes"], ["link", "ACME", "B-1", "S-1", "--why", "rework"]):
        assert office.run(*words).status == 0
    assert "which is rejected" not in office.run("show", "lot", "ACME", "B-1").out
    office.lay("> ACME POST /lots/S-9/reject\n")
    remarks = json.loads(office.run("show", "lot", "ACME", "B-1", "--json").out)["remarks"]
    assert remarks == ["It is released.", "It contains some of lot ACME S-9, which is rejected."]
    assert office.run("show", "lot", "ACME", "B-1").out.endswith("It is released.\nIt contains some of lot ACME S-9, which is rejected.\n")
    name = next(line["id"] for line in office.lines() if "notes" in line)
    assert office.run("note", "withdraw", name, "--reason", "it was another one").status == 0
    assert "which is rejected" not in office.run("show", "lot", "ACME", "B-1").out
