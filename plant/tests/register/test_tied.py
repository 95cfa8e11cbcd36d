"""A note is about the row that it meant: behind a restore it stands for no other row of the same name."""
import json
import os

import pytest
from conftest import copied
from hilpoven.model.register import file
from notes import links, noted, register_of

PARTIES = [("party", "add", "ACME", party, "--name", f"{party} Ltd", "--role", "customer") for party in ("NORD", "SUED")]
SHIPS = ("ship", "ACME", "--key", "next", "B-1", "TOTE1")


@pytest.fixture
def restoring(laid, plant, monkeypatch):
    """An office with a released lot and two customers, of which there is a backup; its settings name it."""
    office = copied(laid, plant).lay("result ACME B-1 PH 2 102\n> ACME POST /lots/B-1/release")
    monkeypatch.setenv("TOLL", office.program)
    office.settle()
    for words in PARTIES:
        assert office.run(*words).status == 0
    assert office.run("backup").status == 0
    return office


def back(office, number=0):
    """Restores a backup, the first one by default; what it told."""
    backup = sorted(path.name for path in (office.folder / "backups").glob("*.db"))[number]
    done = office.run("restore", backup)
    assert done.status == 0, done
    return done.out


def given(office, *words):
    """Gives a command, which is done."""
    done = office.run(*words)
    assert done.status == 0, done
    return done.out


def statuses(office):
    """What is told of each note: whether it stands, by its name."""
    return {row["note"]: row["stands"] for row in json.loads(office.run("note", "list", "--json").out)}


def test_a_lost_shipments_customer_is_not_named_for_the_next_one_of_its_key(restoring):
    """All values of the two shipments are the same, and the second one went to nobody that was noted."""
    given(restoring, *SHIPS, "100", "261104", "--to", "NORD")
    name = [line["id"] for line in restoring.lines() if line.get("words", [""])[0] == "ship"][0]
    assert f"notes that lost what they are about: 1\n  {name} movement K7 of ACME: party NORD\n" in back(restoring)
    given(restoring, *SHIPS, "100", "261104")
    assert register_of(restoring).facts == {} and "NORD" not in restoring.run("list", "moves", "--csv").out
    assert "NORD" not in restoring.run("show", "key", "ACME", "K7").out
    assert statuses(restoring)[name] == "no: its row was lost by a restore"
    assert name in given(restoring, "verify")


def test_a_note_of_its_own_is_about_the_row_that_it_meant(restoring):
    """The second shipment has another amount, so no restore needs to have noted what was lost."""
    given(restoring, *SHIPS, "100", "261104")
    noted(restoring, "note", "movement", "ACME", "K7", "--to", "NORD")
    line = restoring.lines()[-1]
    assert line["meant"] == [[["moves", "ACME", "K7", 2, "ACME", "B-1", "TOTE1", "", "", "", 0, 0, 100, 261104]]]
    back(restoring)
    lines = restoring.journal.read_bytes().splitlines(keepends=True)
    restoring.journal.write_bytes(b"".join(each for each in lines if b"rows-lost" not in each))  # as a kill leaves it
    os.unlink(file.path_of(str(restoring.db)))
    given(restoring, *SHIPS, "90", "261104")
    assert register_of(restoring).facts == {} and list(statuses(restoring).values())[-1] == "no: the row that it means isn't there"


def test_what_is_noted_again_stands_and_is_told_no_longer(restoring):
    given(restoring, *SHIPS, "100", "261104", "--to", "NORD")
    back(restoring)
    given(restoring, *SHIPS, "100", "261104", "--to", "NORD")
    assert [(key, facts.party) for key, facts in register_of(restoring).facts.items()] == [(("ACME", "K7"), "NORD")]
    assert "lost" not in given(restoring, "verify")


def test_a_link_of_a_batch_without_actuals_is_not_one_of_the_next_batch_of_its_name(restoring):
    given(restoring, "open", "ACME", "O-1", "MIXER")
    name = noted(restoring, "link", "ACME", "S-1", "--batch", "O-1", "2", "--why", "use")
    assert links(restoring) == [("ACME O-1/2", "ACME S-1")]
    assert name in back(restoring) and links(restoring) == []
    given(restoring, "open", "ACME", "O-1", "MIXER")
    assert links(restoring) == [] and statuses(restoring)[name] == "no: its row was lost by a restore"


def test_a_lots_days_and_limits_are_those_of_the_lot_that_was_meant(restoring):
    given(restoring, "receive", "ACME", "K20", "SALT", "S-9", "BAY1", "70", "261104")
    noted(restoring, "describe", "lot", "ACME", "S-9", "--expires", "270101")
    given(restoring, "material-add", "ACME", "ORE", "kg")
    given(restoring, "test-add", "ACME", "ORE", "IRON", "100", "200")
    noted(restoring, "describe", "test", "ACME", "ORE", "IRON", "--decimals", "2")
    back(restoring)
    given(restoring, "receive", "ACME", "K21", "SALT", "S-9", "BAY1", "60", "261105")
    given(restoring, "material-add", "ACME", "ORE", "kg")
    given(restoring, "test-add", "ACME", "ORE", "IRON", "1", "2")
    register = register_of(restoring)
    assert register.lots == {} and register.tests == {}
    assert "270101" not in restoring.run("list", "lots", "--csv").out


def test_a_hold_counts_again_once_its_lot_is_there_again_and_for_no_other_lot(restoring):
    received = ("receive", "ACME", "K20", "SALT", "S-9", "BAY1", "70", "261104")
    given(restoring, *received)
    given(restoring, "hold", "ACME", "S-9", "--reason", "metal in drum 7")
    back(restoring)
    given(restoring, *received)
    assert "held" in restoring.run("show", "lot", "ACME", "S-9").out
    back(restoring)
    given(restoring, "receive", "ACME", "K20", "SALT", "S-9", "BAY1", "71", "261104")
    assert "held" not in restoring.run("show", "lot", "ACME", "S-9").out


def test_a_link_of_a_lot_counts_again_once_the_lot_is_there_again_and_for_no_other_lot(restoring):
    """A recall that missed the lot would be worse."""
    received = ("receive", "ACME", "K20", "BRINE", "B-9", "BAY1", "70", "261104")
    given(restoring, *received)
    name = noted(restoring, "link", "ACME", "B-9", "B-1", "--why", "rework")
    assert name in back(restoring) and links(restoring) == []
    given(restoring, *received)
    assert links(restoring) == [("ACME B-9", "ACME B-1")]
    back(restoring)
    given(restoring, *received[:-1], "261105")
    assert links(restoring) == []


def test_a_void_leaves_what_was_noted_of_a_lot(restoring):
    """A void is a row of its own: the movement by which the lot is known stays."""
    given(restoring, *"actual K41 ACME O-1 1 2 produced BRINE ACME B-2 TOTE9 5 261104".split())
    name = noted(restoring, "link", "ACME", "B-2", "S-1", "--why", "rework")
    given(restoring, "void", "ACME", "K41", "--reason", "typed twice")
    assert statuses(restoring)[name] == "yes" and links(restoring) == [("ACME B-2", "ACME S-1")]


def test_a_reason_of_a_void_is_not_that_of_the_next_void_of_its_key(restoring):
    actual = ("actual", "K40", "ACME", "O-1", "1", "1", "consumed", "SALT", "ACME", "S-1", "BAY1")
    given(restoring, *actual, "5", "261104")
    given(restoring, "void", "ACME", "K40", "--reason", "typed twice")
    assert [reason.reason for reason in register_of(restoring).reasons] == ["typed twice"]
    back(restoring)
    given(restoring, *actual, "6", "261104")
    given(restoring, "void", "ACME", "K40")
    assert register_of(restoring).reasons == []


def test_the_file_of_another_branch_has_its_own_notes(restoring):
    """A newer backup comes back behind an older one: the shipment that was made in between is lost, and the first is back."""
    given(restoring, *SHIPS, "100", "261104", "--to", "NORD")
    assert restoring.run("backup").status == 0
    back(restoring)
    given(restoring, *SHIPS, "100", "261104", "--to", "SUED")
    back(restoring, 1)
    assert [facts.party for facts in register_of(restoring).facts.values()] == ["NORD"]
    back(restoring)
    given(restoring, *SHIPS, "100", "261104")
    noted(restoring, "note", "movement", "ACME", "K7", "--to", "SUED")
    back(restoring, 1)
    assert [facts.party for facts in register_of(restoring).facts.values()] == ["NORD"]


def test_lines_of_earlier_versions_are_read_by_their_names(restoring):
    given(restoring, *SHIPS, "100", "261104")
    noted(restoring, "note", "movement", "ACME", "K7", "--to", "NORD")
    lines = [{name: value for name, value in line.items() if name != "meant"} for line in restoring.lines()]
    restoring.journal.write_text("".join(json.dumps(line) + "\n" for line in lines))
    os.unlink(file.path_of(str(restoring.db)))
    assert [facts.party for facts in register_of(restoring).facts.values()] == ["NORD"]


@pytest.mark.parametrize("meant", [
    5, [], [5], [[5]], [[["moves"]]], [[["owners", "ACME"]]], [[["moves; DROP TABLE moves", "ACME", "K7"]]],
    [[["lots", "ACME", "B-1", "BRINE", "O-1", True]]], [[["lots", "ACME", ["B-1"], "BRINE", "O-1", 1]]], None, {"a": 1}])
def test_what_is_no_row_lets_a_note_not_stand(restoring, meant):
    given(restoring, *SHIPS, "100", "261104")
    name = noted(restoring, "note", "movement", "ACME", "K7", "--to", "NORD")
    lines = restoring.lines()
    lines[-1]["meant"] = meant
    restoring.journal.write_text("".join(json.dumps(line) + "\n" for line in lines))
    os.unlink(file.path_of(str(restoring.db)))
    assert register_of(restoring).facts == {} and statuses(restoring)[name] == "no: what it means can't be read"
    assert statuses(restoring)[name] == "no: what it means can't be read"  # by the register's file, too
    assert restoring.run("journal", "--no-site").status == 0


@pytest.mark.parametrize("values", [["BRINE", "O-1", 10**30], ["BRINE", "\ud800", 1], ["BRINE", "O-1", 2], ["' OR 1", "O-1", 1]])
def test_what_can_be_no_row_is_not_there(restoring, values):
    given(restoring, *SHIPS, "100", "261104")
    name = noted(restoring, "note", "movement", "ACME", "K7", "--to", "NORD")
    lines = restoring.lines()
    lines[-1]["meant"] = [[["lots", "ACME", "B-1", *values]]]
    restoring.journal.write_text("".join(json.dumps(line) + "\n" for line in lines))
    os.unlink(file.path_of(str(restoring.db)))
    assert register_of(restoring).facts == {} and statuses(restoring)[name] == "no: the row that it means isn't there"


def test_a_note_of_an_earlier_file_s_row_is_not_about_a_later_one_of_its_key(restoring):
    given(restoring, *SHIPS, "100", "261104")
    for line in ("do ACME O-1 1 done", "close ACME O-1 1"):
        given(restoring, *line.split())
    given(restoring, "carry-over", restoring.folder / "next.db", "--day", 261127)
    noted(restoring, "note", "movement", "ACME", "K7", "--to", "NORD")
    noted(restoring, "link", "ACME", "B-1", "S-1", "--why", "correction")
    assert restoring.lines()[-2]["after"] == "office-1.db"
    given(restoring, "ship", "ACME", "K7", "B-1", "TOTE1", "50", "261128")
    assert register_of(restoring).facts == {} and links(restoring) == [("ACME B-1", "ACME S-1")]
    assert [line for line in given(restoring, "years", "lot", "ACME", "B-1").splitlines() if "NORD" in line and "100" in line]


def test_what_a_restore_lost_is_not_withdrawn(restoring):
    given(restoring, *SHIPS, "100", "261104", "--to", "NORD")
    back(restoring)
    name = restoring.lines()[-1]["id"]
    assert restoring.lines()[-1]["notes"][0]["kind"] == "rows-lost"
    done = restoring.run("note", "withdraw", name, "--reason", "no")
    assert done.status == 1 and "which nobody withdraws" in done.err


def test_a_note_that_lost_its_row_may_be_withdrawn_and_is_told_no_longer(restoring):
    given(restoring, *SHIPS, "100", "261104", "--to", "NORD")
    name = [line["id"] for line in restoring.lines() if line.get("words", [""])[0] == "ship"][0]
    back(restoring)
    given(restoring, "note", "withdraw", name, "--reason", "never shipped")
    assert statuses(restoring)[name] == "no: withdrawn: never shipped" and name not in given(restoring, "verify")
