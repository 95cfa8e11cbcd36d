"""Kills of a carry-over at any step: one office that works is left, and the same command comes to the same."""
import pathlib
import shutil

import pytest
from conftest import Plant
from killed import kill_at, steps

WORDS = ["carry-over", "next.db", "--day", "261127"]
TOOLS = ("carried", "carried_moves")


@pytest.fixture(scope="session")
def closed(laid, program, tmp_path_factory) -> Plant:
    """An office whose batches are closed."""
    plant = put(laid, tmp_path_factory.mktemp("closed") / "office")
    for line in ("do ACME O-1 1 done", "close ACME O-1 1"):
        assert plant.toll(*line.split()).out == "accepted\n"
    return plant


def put(laid: Plant, folder: pathlib.Path) -> Plant:
    """A copy of an office, in a folder where nothing else is."""
    shutil.rmtree(folder, ignore_errors=True)
    folder.mkdir()
    for end in ("", "-wal"):
        if pathlib.Path(f"{laid.db}{end}").exists():
            shutil.copyfile(f"{laid.db}{end}", folder / f"office.db{end}")
    return Plant(laid.program, folder)


def office_rows(plant: Plant) -> dict:
    """The rows of the office's own tables."""
    return {table: rows for table, rows in plant.content().items() if table not in TOOLS}


def try_kills(closed: Plant, folder: pathlib.Path, kills: int) -> int:
    """Kills a carry-over at so many steps; how often it was killed."""
    before, done, ended = office_rows(closed), 0, set()
    plant = put(closed, folder)
    whole = kill_at(plant, 0, WORDS, "")
    after = office_rows(plant)
    assert whole and after != before
    for step in steps(whole, kills):
        plant = put(closed, folder)
        done += not kill_at(plant, step, WORDS, "")
        left = office_rows(plant)
        assert left in (before, after), step
        assert plant.toll("stock", "HOUSE").status == 0 and plant.run("verify").status == 0, step
        again = plant.run("carry-over", folder / "next.db", "--day", 261127)
        assert again.status == 0, (step, again)
        ended.add("nothing is left to do" if "nothing is left to do" in again.out else "begins anew" if "it begins anew" in again.err else "done")
        assert (left == after) == ("nothing is left to do" in again.out), step
        assert office_rows(plant) == after and plant.run("verify").status == 0, step
        files = [line.split(",")[0] for line in plant.run("years", "files", "--csv").out.splitlines()[1:]]
        assert files == ["office-1.db", "office.db"], step
        assert not (folder / "next.db").exists() and not (folder / "office-2.db").exists(), step
        assert plant.run("journal", "verify").status == 0 and "0 without an answer" in plant.run("journal", "verify").out, step
    print(sorted(ended))
    return done


def test_a_kill_leaves_one_office_that_works(closed, tmp_path):
    assert try_kills(closed, tmp_path / "office", 12) >= 10


@pytest.mark.long
def test_two_hundred_kills_leave_one_office_that_works(closed, tmp_path):
    assert try_kills(closed, tmp_path / "office", 200) >= 190
