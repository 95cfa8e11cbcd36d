"""A brief read of an office's file: it copies nothing, leaves nothing, and sees what a server wrote last."""
import contextlib
import os
import sqlite3

import pytest
from conftest import Plant
from hilpoven.core import snapshot
from hilpoven.core.failure import Failure
from hilpoven.core.office import Office


@pytest.fixture(autouse=True)
def of_a_user(monkeypatch: pytest.MonkeyPatch) -> None:
    """The office is that of a user, whoever runs the tests: of root's a copy is read."""
    monkeypatch.setattr(snapshot, "is_roots", lambda file: False)


def office_of(plant: Plant) -> Office:
    """The office, with little patience for its lock."""
    return Office(str(plant.db), plant.program, 0.2)


def files_of(plant: Plant) -> dict[str, tuple[int, int]]:
    """What a server tells changes of the file by: sizes and times of it and of its log."""
    return {path.name: (path.stat().st_size, path.stat().st_mtime_ns) for path in plant.folder.iterdir() if path.suffix in (".db", ".db-wal")}


def test_it_sees_the_last_command_and_writes_nothing(at_work):
    with at_work.serve() as server:
        for number in range(3):
            assert server.tell("receive", "BOLT", f"Z{number}", "PIGMENT", "P-1", "BAY2", 5, 102).out == "accepted\n"
            before = files_of(at_work), sorted(os.listdir(at_work.folder))
            with snapshot.read_briefly(office_of(at_work)) as base:
                assert base.execute("SELECT mkey FROM moves ORDER BY rowid DESC LIMIT 1").fetchone() == (f"Z{number}",)
                with pytest.raises(sqlite3.OperationalError, match="readonly"):
                    base.execute("DELETE FROM moves")
            assert (files_of(at_work), sorted(os.listdir(at_work.folder))) == before


def test_others_wait_meanwhile_and_it_waits_for_others(at_work):
    with snapshot.read_briefly(office_of(at_work)):
        with pytest.raises(Failure, match="somebody else has the lock"), snapshot.read_briefly(office_of(at_work)):
            pass
    with snapshot.read_briefly(office_of(at_work)) as base:
        assert base.execute("SELECT count(*) FROM moves").fetchone()[0]


def test_the_index_that_another_program_made_stays(at_work):
    with contextlib.closing(sqlite3.connect(at_work.db)) as other:
        other.execute("SELECT count(*) FROM moves").fetchone()
        assert (index := at_work.folder / "office.db-shm").exists()
        with snapshot.read_briefly(office_of(at_work)):
            pass
        assert index.exists()


@pytest.mark.parametrize("name", ["100%25.db", "a?mode=rw.db", "a#b.db"])
def test_a_file_of_any_name_is_the_one_that_is_read(at_work, name):
    at_work.db.rename(at_work.folder / name)
    (at_work.folder / "office.db-wal").rename(at_work.folder / f"{name}-wal")
    with snapshot.read_briefly(Office(str(at_work.folder / name), at_work.program, 1)) as base:
        assert base.execute("SELECT count(*) FROM moves").fetchone()[0]


def test_the_day_of_a_line_and_its_next_key_copy_nothing(at_work, monkeypatch):
    monkeypatch.setattr(snapshot, "copy", None)
    monkeypatch.setenv("TOLL", at_work.program)
    done = at_work.run("scrap", "ACME", "next", "S-1", "BAY1", 5, 103)
    assert (done.status, done.out) == (0, "accepted\n"), done
    assert "is before the first day of lot" in at_work.run("scrap", "ACME", "K77", "S-1", "BAY1", 5, 99).err


@pytest.mark.skipif(os.getuid() != 0, reason="only root has files of root's")
def test_a_server_of_roots_office_does_not_open_it_anew(at_work, monkeypatch):
    monkeypatch.undo()
    log = at_work.db.with_name("office.db-wal")
    with at_work.serve() as server:
        assert server.tell("receive", "BOLT", "Z1", "PIGMENT", "P-1", "BAY2", 5, 102).out == "accepted\n"
        before = log.stat().st_ctime_ns
        with snapshot.read_briefly(office_of(at_work)) as base:
            assert base.execute("SELECT mkey FROM moves ORDER BY rowid DESC LIMIT 1").fetchone() == ("Z1",)
        assert log.stat().st_ctime_ns == before
