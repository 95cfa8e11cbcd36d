"""A workbook makes the office that a plant types by hand, once: given again, or behind a stop, it goes on."""
import json
import shlex
import signal

import pytest
from books import DAY_ONE, TYPED, cell_of, copy_of, given, ods, state, xlsx
from conftest import Plant, called, copied
from hilpoven.core import settings as site
from hilpoven.core.journal.query import check
from hilpoven.record.workbook import giving
from killed import kill_at

COUNTS = """Owners: 3 accepted, 0 there already
Units: 2 accepted, 0 there already
Materials: 4 accepted, 0 there already
Tests: 3 accepted, 0 there already
Recipes: 1 accepted, 0 there already
Requirements: 3 accepted, 0 there already
Parties: 2 accepted, 0 there already
Stock: 4 accepted, 0 there already
"""
AGAIN = "".join(f"{title}: 0 accepted, {len(rows) - 1} there already\n" for title, rows in DAY_ONE.items())


@pytest.fixture(scope="session")
def typed(program, tmp_path_factory) -> Plant:
    """The office that a plant types by hand."""
    plant = Plant(program, tmp_path_factory.mktemp("typed"))
    assert plant.run("new", plant.db).status == 0
    with plant.serve():
        for line in filter(None, TYPED.splitlines()):
            done = plant.run(*shlex.split(line))
            assert done.status == 0, (line, done)
    return plant


def without_keys(plant: Plant) -> dict:
    """All rows, with receipts that are known by their sublots and not by their keys."""
    rows = plant.content()
    return {**rows, "moves": sorted((row[0], *row[2:]) for row in rows["moves"])}


LISTS = [("list", name, "--json") for name in ("owners", "units", "materials", "tests", "recipes", "requirements", "lots", "sublots")]
SHOWN = [*LISTS, ("party", "list", "--json"), ("show", "recipe", "ACME", "BRINE-10", "--json"), ("describe", "test", "ACME", "BRINE", "PH"), ("describe", "owner", "HOUSE")]


def assert_same(empty: Plant, typed: Plant) -> None:
    """Asserts that two offices have the same rows, and that the plant noted the same of them."""
    assert without_keys(empty) == without_keys(typed)
    for words in SHOWN:
        assert empty.run(*words) == typed.run(*words), words
    moves = [[{name: value for name, value in row.items() if name != "key"} for row in json.loads(plant.run("list", "moves", "--json").out)] for plant in (empty, typed)]
    assert sorted(map(str, moves[0])) == sorted(map(str, moves[1]))


def test_a_workbook_makes_the_office_that_is_typed_by_hand(empty, typed):
    done = given(empty, DAY_ONE)
    assert (done.status, done.out) == (0, COUNTS)
    assert done.err == "Nobody knows a key of ACME, BOLT: hilpoven owner key NAME --random makes one and shows it.\n"
    assert_same(empty, typed)
    assert empty.run("journal", "verify").status == empty.run("verify").status == 0


def test_it_is_the_same_as_ods_and_from_standard_input(empty, typed):
    path = ods(empty.folder / "book.ods", DAY_ONE)
    done = called("--db", empty.db, "import", "--what", "workbook", "-", stdin=path.read_bytes(), TOLL=empty.program)
    assert (done.status, done.out) == (0, COUNTS)
    assert_same(empty, typed)


def test_sheets_and_columns_stand_in_any_order_with_remarks_between(empty, typed):
    book = {title.lower(): [list(reversed([str(head).replace("_", " ").capitalize() for head in rows[0]])), ["# a remark", "x"], *(list(reversed(row)) for row in rows[1:])] for title, rows in reversed(DAY_ONE.items())}
    book["Notes of ours"] = [["whatever"]]
    assert given(empty, book, "--ignore", "notes of ours").out == COUNTS
    assert_same(empty, typed)


def test_given_again_nothing_is_doubled(empty):
    given(empty, DAY_ONE)
    before, lines = empty.content(), empty.lines()
    done = given(empty, DAY_ONE)
    assert (done.status, done.out, done.err) == (0, AGAIN, "")
    new = empty.lines()[len(lines):]
    assert empty.content() == before and len(new) == 1
    assert new[0]["event"] == "note" and sorted(new[0]["known"]) == sorted(f"{row[0]} {row[1]}" for row in before["moves"])


def test_a_workbook_beside_a_server_is_the_same(empty, typed):
    with empty.serve():
        assert given(empty, DAY_ONE).out == COUNTS
    assert_same(empty, typed)


def test_more_rows_are_given_alone(empty):
    given(empty, DAY_ONE)
    book = copy_of(DAY_ONE)
    book["Units"].append(["PRESS"])
    book["Materials"][1][3] = "Tap water"
    book["Stock"].append(["BOLT", "DYE", "D-1", "CAN", "7", "261101"])
    book["Stock"][4][10] = "271201"
    done = given(empty, book)
    assert done.status == 0 and done.err == ""
    assert [line for line in done.out.splitlines() if " 0 accepted" not in line] == ["Units: 1 accepted, 2 there already", "Materials: 1 accepted, 3 there already", "Stock: 2 accepted, 3 there already"]
    assert '"noted_name": "Tap water"' in empty.run("list", "materials", "--json").out
    assert '"noted_expires": 271201' in empty.run("list", "lots", "--lot", "W-1", "--json").out


@pytest.mark.parametrize("at", [0, 1, 2, 7, 10, 14, 15, 16, 18])
def test_behind_a_stop_it_goes_on(empty, typed, at, monkeypatch):
    done, is_done = [], giving.Giving.is_done

    def stopped(self, step, answer):
        done.append(step)
        if len(done) > at:
            raise SystemExit(128 + signal.SIGTERM)
        return is_done(self, step, answer)

    with monkeypatch.context() as patch:
        patch.setattr(giving.Giving, "is_done", stopped)
        first = given(empty, DAY_ONE)
    commands = 2 + 2 + 4 + 3 + 1 + 3 + 4
    if at < commands:
        assert first.status == 128 + signal.SIGTERM and f"ended by SIGTERM; it ended there, behind {at} command" in first.err and "isn't given twice" in first.err
    assert given(empty, DAY_ONE).status == 0
    assert_same(empty, typed)
    assert given(empty, DAY_ONE).out == AGAIN


@pytest.mark.parametrize("parts", [4, pytest.param(40, marks=pytest.mark.long)])
def test_behind_a_kill_it_goes_on(bare, empty, typed, parts, tmp_path):
    words = ["import", "--what", "workbook", xlsx(tmp_path / "book.xlsx", DAY_ONE)]
    (tmp_path / "whole").mkdir()
    steps = kill_at(copied(bare, Plant(empty.program, tmp_path / "whole")), 0, words)
    assert steps
    for part in range(1, parts):
        (tmp_path / str(part)).mkdir()
        plant = copied(bare, Plant(empty.program, tmp_path / str(part)))
        assert kill_at(plant, steps * part // parts, words) == 0
        assert given(plant, DAY_ONE).status == 0
        assert_same(plant, typed)
        assert given(plant, DAY_ONE).out == AGAIN and check(str(plant.journal)).wrong == []


def test_the_journal_says_by_which_cells_rows_came(empty):
    given(empty, DAY_ONE)
    asked = [line for line in empty.lines() if line["event"] == "asked" and line.get("table")]
    assert [(line["table"], line["row"]) for line in asked if line["words"][0] == "recipe-add"] == [("Recipes", 2)]
    assert {line["sheet"] for line in asked} == {"book.xlsx"} and len({line["sheet_sha256"] for line in asked}) == 1
    assert not any("KEY" in str(line) or "toll" in str(line.get("words")) for line in empty.lines() if line["event"] == "asked")
    assert [line["words"] for line in empty.lines() if line.get("words", [""])[0] == "owner-add"] == [["owner-add", "ACME", "********"], ["owner-add", "BOLT", "********"]]


def test_owners_get_keys_that_nobody_knows(empty):
    given(empty, DAY_ONE)
    keys = [key for key, in empty.rows("SELECT okey FROM owners")]
    assert len(set(keys)) == 2 and all(len(key) == 32 for key in keys)
    texts = [path.read_bytes() for path in empty.folder.iterdir() if path.is_file() and not path.name.startswith(("empty.db-wal", "looked")) and path != empty.db]
    assert not any(key.encode() in text for key in keys for text in texts)
    assert called("--db", empty.db, "owner", "key", "ACME", stdin="ACMEKEY1\n", TOLL=empty.program).status == 0
    with empty.serve() as server:
        assert server.ask("ACME", "GET", "/lots/S-1")[0] == 200


def test_no_trace_is_suspected_to_end_at_opening_stock(empty):
    given(empty, DAY_ONE)
    done = empty.run("status", "--all")
    assert "receipts of what" not in done.out and "receipt of what" not in done.out
    assert empty.run("receive", "ACME", "K1", "BRINE", "B-9", "BAY1", 5, 261103).status == 0
    assert "1 receipt of what batches make" in empty.run("status").out
    (key,) = empty.rows("SELECT mkey FROM moves WHERE lot = 'B-1'")[0]
    assert key.startswith("OPEN-") and f"receipt {key} of ACME contains no lot that was here before" in empty.run("note", "list", "ACME").out


def test_a_batch_uses_opening_stock(empty):
    given(empty, DAY_ONE)
    for line in ("release W-1", "for ACME release S-1 --by mail", "for ACME order O-1 BRINE-10 1 --by mail", "open ACME O-1 KETTLE", "do ACME O-1 1 start", "actual K2 ACME O-1 1 1 consumed SALT ACME S-1 BAY1 300 261103"):
        assert empty.run(*line.split()).status == 0, line
    assert given(empty, DAY_ONE).out == AGAIN


def test_check_gives_nothing(empty):
    before = state(empty)
    done = given(empty, DAY_ONE, "--check")
    assert (done.status, done.out) == (0, COUNTS.replace("accepted", "can be given")) and state(empty) == before


def test_the_plants_own_test_comes_with_each_material(empty):
    empty.settle()
    settings = site.load.__defaults__[0]
    settings.write_text(settings.read_text() + '[quality]\ntest = "QA"\n')
    path = xlsx(empty.folder / "book.xlsx", DAY_ONE)
    assert empty.run("import", "--what", "workbook", path).status == 0
    assert empty.rows("SELECT owner, material, low, high FROM tests WHERE test = 'QA' ORDER BY 1, 2") == [("ACME", "BRINE", 1, 1), ("ACME", "SALT", 1, 1), ("BOLT", "DYE", 1, 1), ("HOUSE", "WATER", 1, 1)]
    assert empty.run("import", "--what", "workbook", path).out == AGAIN
    done = given(empty, cell_of(DAY_ONE, "Tests!C3", "QA"))
    assert done.status == 1 and "Tests!C3: it is the plant's own test" in done.err


def test_a_workbook_whose_sheet_says_nothing_gives_nothing(empty):
    before = state(empty)
    assert given(empty, {"Owners": [["owner"]], "Units": []}).out == "no row is in any table\n" and state(empty) == before
