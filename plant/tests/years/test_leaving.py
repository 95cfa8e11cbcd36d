"""An owner that leaves: the office goes on in a new file without its rows, which the earlier file keeps for recalls."""
import pathlib
import sys

import pytest
from conftest import AT_WORK, Plant, copied

sys.path.insert(0, str(pathlib.Path(__file__).resolve().parent.parent / "papers"))
import figures  # noqa: E402
from offices import HOUSE, Filled  # noqa: E402

TABLES = ("owners", "materials", "tests", "recipes", "requirements", "orders", "batches", "lots", "sublots", "moves", "results", "voids")
DONE = """do ACME O-1 1 done
close ACME O-1 1
recipe-add BOLT R 1
require BOLT R 1 consumed HOUSE WATER 10
require BOLT R 1 produced BOLT PIGMENT 10
> BOLT POST /orders {"order":"O-1","recipe":"R","batches":1}
open BOLT O-1 MIXER
do BOLT O-1 1 start
actual K2 BOLT O-1 1 1 consumed WATER HOUSE W-101 TANK 10 103
actual K3 BOLT O-1 1 1 produced PIGMENT BOLT D-1 CAN1 10 103
do BOLT O-1 1 done
close BOLT O-1 1
> BOLT POST /lots/D-1/release
ship BOLT K4 D-1 CAN1 10 104
"""


@pytest.fixture(scope="module")
def done(program, tmp_path_factory) -> Plant:
    """An office of two owners, whose batches are closed."""
    return Plant(program, tmp_path_factory.mktemp("done")).lay(AT_WORK + DONE)


@pytest.fixture
def office(done, plant, monkeypatch) -> Plant:
    """A copy of it."""
    monkeypatch.setenv("TOLL", done.program)
    return copied(done, plant)


def has_left(plant: Plant, owner: str) -> bool:
    """Whether no row and no byte of the office's file is of an owner."""
    rows = [row for table in TABLES for row in plant.rows(f"SELECT 1 FROM {table} WHERE owner = '{owner}'")]
    return not rows and owner.encode() not in plant.db.read_bytes()


def lines_of(text: str) -> list[list[str]]:
    """The lots of a recall: steps, owner, lot, disposition, on hand and shipped, without what is between thousands."""
    return [line.replace(",", "").split()[:6] for line in text.splitlines()[1:]]


def test_an_owner_with_stock_or_an_order_that_waits_stays(office):
    office.lay('> BOLT POST /orders {"order":"O-2","recipe":"R","batches":1}')
    before = office.content()
    carried = office.run("carry-over", "--without", "BOLT")
    assert carried.status == 1 and carried.err.splitlines()[:2] == ["BOLT has 80 kg of P-1 BAY2: ship or scrap it", "order O-2 of BOLT waits: cancel it"]
    assert office.run("carry-over", "--without", "BOLT", "--plan").status == 1
    for owner, status in (("HOUSE", 2), ("NOBODY", 1), ("bolt", 2), ("\x1b[2J", 2)):
        carried = office.run("carry-over", "--without", owner)
        assert carried.status == status and "\x1b" not in carried.err, carried
    assert office.content() == before and not (office.folder / "office-1.db").exists()


def test_an_office_goes_on_without_an_owner(office):
    office.lay("scrap BOLT K9 P-1 BAY2 80 104")
    assert office.run("party", "add", "BOLT", "NORD", "--name", "Nord", "--role", "customer").status == 0
    recalled = office.toll("recall", "HOUSE", "W-101").out
    plan = office.run("carry-over", "--without", "BOLT", "--plan", "--day", 105)
    assert plan.status == 0 and "BOLT" not in plan.out
    carried = office.run("carry-over", "--without", "BOLT", "--day", 105)
    assert carried.status == 0 and "office.db is the new file" in carried.out, carried
    assert has_left(office, "BOLT") and not has_left(office, "ACME")
    assert office.run("verify").out.startswith("file: sound") and office.run("verify").status in (0, 1)
    assert [line["words"] for line in office.lines() if line.get("words", [""])[0] == "carry-over"] == [["carry-over", "next.db", "--day", "105", "--without", "BOLT"]]
    with office.serve() as server:
        assert server.ask("BOLT", "GET", "/orders")[0] == 403 and server.ask("ACME", "GET", "/orders")[0] == 200
    again = office.run("carry-over", "--without", "BOLT", "--day", 105)
    assert again.status == 0 and "nothing is left to do" in again.out and not (office.folder / "office-2.db").exists()
    # the recall over all files still reaches what the owner got
    assert lines_of(office.run("years", "recall", "HOUSE", "W-101").out) == lines_of(recalled)
    assert office.run("papers", "recall", "HOUSE", "W-101", office.folder / "recall", "--no-pdf").status == 0
    assert [row[:4] for row in figures.read_csv(office.folder / "recall" / "plant" / "lots.csv")] == [["0", "HOUSE", "W-101", "receipts"], ["1", "ACME", "B-1", "O-1/1"], ["1", "BOLT", "D-1", "O-1/1"]]
    assert figures.read_csv(office.folder / "recall" / "owners" / "BOLT" / "shipments.csv")[0][:3] == ["104", "K4", "D-1"]
    for words in (("statement", "HOUSE", "--from", 0, "--to", 999), ("statement", "BOLT", "--from", 0, "--to", 999), ("settlement", "BOLT", "--from", 0, "--to", 999), ("takeout", "BOLT"),
                  ("lot", "BOLT", "D-1"), ("lot", "HOUSE", "W-101"), ("batch", "BOLT", "O-1", 1)):
        assert office.run("papers", *words, office.folder / "-".join(map(str, words)), "--no-pdf").status == 0, words
    assert len(figures.read_csv(office.folder / "takeout-BOLT" / "moves.csv")) == 5
    for words in (("board",), ("status",), ("years", "statement", "HOUSE"), ("years", "lot", "BOLT", "D-1")):
        assert office.run(*words).status in (0, 1), words
    assert office.run("list", "lots", "--owner", "BOLT").status == 0


def test_an_owner_comes_back_as_another_one(office):
    office.lay("scrap BOLT K9 P-1 BAY2 80 104")
    assert office.run("carry-over", "--without", "BOLT", "--day", 105).status == 0
    office.lay("owner-add BOLT BOLTKEY1\nmaterial-add BOLT PIGMENT kg\ntest-add BOLT PIGMENT HUE 1 9\nreceive BOLT K9 PIGMENT P-9 BAY2 7 106")
    assert office.run("papers", "statement", "BOLT", "--from", 0, "--to", 999, office.folder / "made", "--no-pdf").status == 0
    assert {row[2]: row[10] for row in figures.read_csv(office.folder / "made" / "lots.csv")} == {"P-1": "0", "P-9": "7", "D-1": "0"}
    assert office.run("papers", "recall", "HOUSE", "W-101", office.folder / "recall", "--no-pdf").status == 0


def test_owners_leave_one_after_the_other(office):
    office.lay("owner-add CORA CORAKEY1\nscrap BOLT K9 P-1 BAY2 80 104")
    for number, owner in enumerate(("CORA", "BOLT"), 1):  # between which nothing is recorded
        assert "is the new file" in office.run("carry-over", "--without", owner, "--day", 105).out
        assert has_left(office, owner) and (office.folder / f"office-{number}.db").exists()
    assert "nothing is left to do" in office.run("carry-over", "--without", "BOLT", "--day", 105).out
    carried = office.run("carry-over", "--without", "CORA", "--day", 105)  # which left with an earlier one
    assert carried.status == 1 and "there is no owner CORA" in carried.err
    assert office.run("papers", "recall", "HOUSE", "W-101", office.folder / "recall", "--no-pdf").status == 0
    assert office.run("papers", "takeout", "BOLT", office.folder / "takeout", "--no-pdf").status == 0


def test_a_member_needs_the_role(office):
    office.settle()
    assert "there is no owner NOBODY" in office.as_member("carry-over", "--without", "NOBODY").err


def try_office(program, folder, seed: int) -> None:
    """An owner of an office that is filled by chance leaves: recalls over all files are those from before."""
    office = Filled(program, folder, seed)
    plant, leaves = office.plant, office.owners[0]
    for owner, order, number in plant.rows("SELECT owner, ord, number FROM batches WHERE closed = 0"):
        for word in ("done", "abort", "done"):
            office.tell("do", owner, order, number, word)
        office.tell("close", owner, order, number)
    for at, (lot, sublot, amount) in enumerate(plant.rows(f"SELECT lot, sublot, amount FROM sublots WHERE owner = '{leaves}' AND amount > 0")):
        assert plant.toll("scrap", leaves, f"LEAVES{at}", lot, sublot, amount, 261130).status == 0
    recalls = {lot: plant.toll("recall", HOUSE, lot).out for lot in office.lots[HOUSE]}
    statement = plant.rows("SELECT lot_owner, lot, kind, sum(amount), count(*) FROM moves GROUP BY 1, 2, 3")
    carried = plant.run("carry-over", "--without", leaves, "--day", 261130)
    assert carried.status == 0, carried
    assert has_left(plant, leaves) and plant.run("verify").out.startswith("file: sound")
    assert sorted(plant.rows("SELECT lot_owner, lot, kind, sum(amount), count(*) FROM moves GROUP BY 1, 2, 3", plant.folder / "office-1.db")) == sorted(statement)
    for lot, before in recalls.items():
        assert lines_of(plant.run("years", "recall", HOUSE, lot).out) == lines_of(before), lot
    for words in (("recall", HOUSE, next(iter(recalls))), ("statement", HOUSE, "--from", 0, "--to", 9_999_999), ("takeout", leaves), ("statement", leaves, "--from", 0, "--to", 9_999_999)):
        assert plant.run("papers", *words, plant.folder / f"{words[0]}-{words[1]}", "--no-pdf").status == 0, words


@pytest.mark.parametrize("seed", (2, 8))
def test_recalls_reach_an_owner_that_left(program, tmp_path, seed):
    try_office(program, tmp_path / "office", seed)


@pytest.mark.long
@pytest.mark.parametrize("seed", range(10, 40))
def test_recalls_of_30_offices_reach_an_owner_that_left(program, tmp_path, seed):
    try_office(program, tmp_path / "office", seed)
