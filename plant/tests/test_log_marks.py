"""Another FILE in the place of one whose log a killed server had marked in FILE.lock."""
import os

import pytest
from conftest import Plant


@pytest.fixture
def killed(at_work) -> Plant:
    """An office at work whose last command is in the log alone, which is marked."""
    (at_work.folder / "backups").mkdir()
    assert at_work.run("backup", at_work.folder / "backups").status == 0
    for line in ("do ACME O-1 1 done", "close ACME O-1 1"):
        assert at_work.toll(*line.split()).out == "accepted\n"
    with at_work.serve() as server:
        assert server.tell("unit-add", "PRESS").out == "accepted\n"
        server.process.kill()
        server.process.wait()
    assert os.path.getsize(f"{at_work.db}.lock") > 0
    return at_work


def is_open(plant: Plant) -> bool:
    """Whether commands and a server have the office."""
    with plant.serve() as server:
        return plant.toll("stock", "ACME").status == 0 and server.ask("ACME", "GET", "/stock")[0] == 200


def test_a_backup_that_is_put_back_is_no_loss(killed):
    backup = next((killed.folder / "backups").glob("*.db"))
    assert killed.run("restore", backup).status == 0
    assert killed.toll("stock", "ACME").status == 0 and is_open(killed)


def test_an_office_that_goes_on_in_a_new_file_lost_nothing(killed):
    assert killed.run("carry-over", killed.folder / "next.db", "--day", 261127).status == 0
    assert is_open(killed) and killed.toll("unit-add", "PRESS").status == 1
