"""`status`: is it well, how full is it, and what monitoring reads."""
import contextlib
import os
import re
import sqlite3
import sys
import time
import types

import pytest
from conftest import ROOT, Plant, copied, make_office, script
from hilpoven import OFFICE_VERSION, VERSION
from hilpoven.care import health
from hilpoven.model import gauge
from hilpoven.model.register.standing import Register
from hilpoven.model.genealogy import suspects

sys.path.append(str(ROOT))


def settings(plant: Plant, **values) -> None:
    """Has the settings say so."""
    lines = {"file": str(plant.db), **values}
    (plant.folder / "hilpoven.toml").write_text("".join(f"{name} = {value!r}\n".replace("'", '"') for name, value in lines.items()))


def test_a_new_office_is_well(at_work):
    done = at_work.run("status")
    assert done.status == 0 and f"file: {at_work.db} opens" in done.out and "server: none: each command opens the file itself" in done.out
    assert "ATTENTION" not in done.out and "NOT WELL" not in done.out


def test_a_server_is_seen_and_asked_nothing(at_work):
    with at_work.serve() as server:
        settings(at_work, port=server.port)
        done = at_work.run("status")
        assert done.status == 0 and f"answers at port {server.port}; takes the plant's commands (toll {VERSION}, office format {OFFICE_VERSION})" in done.out
    done = at_work.run("status")
    assert done.status == 3 and f"NOT WELL: the server at port {server.port} doesn't answer" in done.out


def test_a_file_that_cannot_be_read_is_not_well(at_work):
    done = at_work.run("status", db=at_work.folder / "absent.db")
    assert done.status == 3 and "NOT WELL: there is no file" in done.out
    done = at_work.run("status", "--prometheus", db=at_work.folder / "absent.db")
    assert done.status == 3 and "hilpoven_file_opens 0\n" in done.out


TABLES = ["meta", "owners", "units", "materials", "tests", "recipes", "requirements", "orders", "batches", "lots", "sublots", "moves", "results", "voids"]


@pytest.mark.parametrize("table", TABLES)
def test_a_damaged_table_is_not_well(at_work, table):
    pages = at_work.rows(f"SELECT rootpage FROM sqlite_master WHERE tbl_name = '{table}'")
    for page, in pages:
        folder = at_work.folder / f"page-{page}"
        folder.mkdir()
        damaged = copied(at_work, Plant(at_work.program, folder))
        with contextlib.closing(sqlite3.connect(damaged.db)) as base:
            base.execute("PRAGMA wal_checkpoint(TRUNCATE)")
        with open(damaged.db, "r+b") as file:
            file.seek((page - 1) * 4096)
            file.write(b"\xff" * 4096)
        done = damaged.run("status")
        assert done.status == 3 and "NOT WELL: " in done.out and " opens; " not in done.out, done
        done = damaged.run("status", "--prometheus")
        assert done.status == 3 and "hilpoven_file_opens 0\n" in done.out


def test_a_file_that_toll_does_not_open_is_not_well(at_work):
    failing = script(at_work.folder / "toll", "echo fault Disk >&2; exit 3")
    done = Plant(str(failing), at_work.folder).run("status")
    assert done.status == 3 and f"NOT WELL: toll doesn't open {at_work.db}: fault Disk" in done.out


def test_labels_are_quoted():
    assert health.labels(gauge.Gauge('A"\n\\', "lots", 1, 2)) == '{owner="A\\"\\\\n\\\\",of="lots"}'


def test_the_newest_backup_is_told_and_its_age(at_work):
    folder = at_work.folder / "backups"
    folder.mkdir()
    settings(at_work, backups=str(folder))
    done = at_work.run("status")
    assert done.status == 1 and f"ATTENTION: there is no backup in {folder}" in done.out
    at_work.run("backup")
    assert at_work.run("status").status == 0
    backup = next(folder.glob("*.db"))
    old = time.time() - 50 * 3600
    os.utime(backup, (old, old))
    done = at_work.run("status")
    assert done.status == 1 and "ATTENTION: the newest backup is 50 hours old" in done.out
    assert f"hilpoven_last_backup_timestamp_seconds {int(old)}\n" in at_work.run("status", "--prometheus").out


def test_what_is_nearly_full_is_told_first(at_work):
    at_work.lay("\n".join(f"unit-add U{number}" for number in range(160)))
    done = at_work.run("status")
    assert done.status == 1 and "ATTENTION: units: 162 of 200, 81 %" in done.out
    table = [line for line in done.out.splitlines() if "%" in line and "ATTENTION" not in line]
    assert table[0].split() == ["(plant)", "units", "162", "200", "81", "%"]


def test_metrics_are_read_by_prometheus(at_work):
    done = at_work.run("status", "--prometheus")
    for line in done.out.splitlines():
        assert re.fullmatch(r'# (HELP|TYPE) \S+ .+|\w+(\{(\w+="[^"]*",?)+\})? -?\d+', line), line
    rows = re.findall(r'hilpoven_rows\{owner="ACME",of="movements"\} (\d+)', done.out)
    assert rows == [str(at_work.rows("SELECT count(*) FROM moves WHERE owner = 'ACME'")[0][0])]
    assert 'hilpoven_rows_limit{owner="ACME",of="movements"} 20000\n' in done.out


def test_an_offices_own_settings_are_those_of_its_units(at_work):
    (at_work.folder / "acme.env").write_text(f"PORT=801\nFILE={at_work.db}\n#BACKUPS=/nowhere\nBACKUPS=\"{at_work.folder}\"\n")
    done = at_work.run("status", options=("--office", "acme", "--db", ""))
    assert f"file: {at_work.db} opens" in done.out and "NOT WELL: the server at port 801 doesn't answer" in done.out
    done = at_work.run("status", options=("--office", "bolt"))
    assert done.status == 2 and "there is no office bolt" in done.err and "there are: acme" in done.err


def test_settings_that_are_none_are_told(at_work):
    for text, why in (("nonsense = 1\n", "nonsense is no setting"), ("port = \"x\"\n", "port is to be a whole number"), ("file = \n", "hilpoven.toml")):
        (at_work.folder / "hilpoven.toml").write_text(text)
        done = at_work.run("status")
        assert done.status == 2 and why in done.err


@pytest.mark.long
def test_a_full_office_is_told_in_five_seconds_and_its_server_goes_on(program, tmp_path):
    from bench import offices

    plant = Plant(program, tmp_path)
    offices.at_the_limits(types.SimpleNamespace(plant=plant.toll, db=plant.db), gauge.OWNERS)
    with plant.serve() as server:
        server.ask("OWNER-01", "GET", "/orders")
        begun = time.monotonic()
        process = plant.begun("status")
        out, err = process.communicate()
        took = time.monotonic() - begun
        assert process.returncode == 1 and out.count("100 %") > 64, err
        server.ask("OWNER-01", "GET", "/orders")
        assert "opened anew" not in server.end()
    assert took < 5, took


def test_looking_for_suspects_reads_each_requirement_once(tmp_path):
    """Steps of SQLite's machine, for receipts of an owner with many recipes."""
    count = 1_000
    lots = [("ACME", f"L-{at:04}", "RAW", "", 0, 1) for at in range(count)]
    moves = [("ACME", f"K-{at:04}", 0, "ACME", f"L-{at:04}", "S", "", "RAW", "", 0, 0, 5, 261101) for at in range(count)]
    requirements = [("ACME", f"R-{at:04}", 1, 1, "ACME", f"M-{at:04}", 1) for at in range(count)]
    path, steps = make_office(tmp_path / "full.db", lots=lots, moves=moves, requirements=requirements), []
    with contextlib.closing(sqlite3.connect(path)) as base:
        base.set_progress_handler(lambda: steps.append(1), 100)
        assert suspects(base, Register()) == []
    assert 100 * len(steps) < 100 * count
