"""New offices, backups, what is put in place, and what is looked at."""
import contextlib
import dataclasses
import fcntl
import hashlib
import json
import os
import pathlib
import re
import shutil
import signal
import socket
import sqlite3
import subprocess
import time

import pytest
from conftest import PATIENCE, ROOT, Plant, change_log_at_rest, command, copied, environment, eventually
from hilpoven.care import backups
from hilpoven.core import settings as site
from hilpoven.core.grammar import LINES
from hilpoven.core.office import Office
from hilpoven.core.journal.log import Journal
from hilpoven.core.journal.query import check
from hilpoven.model import accepted


def test_new_makes_an_office_and_nothing_else_does(plant):
    assert plant.run("unit-add", "KETTLE").status == 2 and not plant.db.exists()
    done = plant.run("new", plant.db)
    assert done.status == 0 and plant.db.exists() and plant.db.stat().st_mode & 0o777 == 0o600
    assert plant.run("unit-add", "KETTLE").out == "accepted\n"
    assert [entry.get("words") for entry in plant.lines() if entry["event"] == "asked"] == [["new"], ["unit-add", "KETTLE"]]


def test_new_leaves_a_log_that_stands_alone(plant):
    (plant.folder / "office.db-wal").write_text("rows")
    assert plant.run("new", plant.db).status == 2 and not plant.db.exists()


def test_a_backup_is_the_office(at_work):
    folder = at_work.folder / "backups"
    folder.mkdir()
    done = at_work.run("backup", folder)
    assert done.status == 0
    backup = done.out.splitlines()[0]
    assert sorted(os.listdir(folder)) == [os.path.basename(backup), f"{os.path.basename(backup)}.journal"] and os.stat(backup).st_mode & 0o777 == 0o600
    assert at_work.content(backup) == at_work.content() and at_work.rows("SELECT * FROM owners", backup) == at_work.rows("SELECT * FROM owners")
    assert at_work.toll("stock", "ACME", db=backup).out == at_work.toll("stock", "ACME").out


def own(plant: Plant, stamp: str) -> str:
    """The name of a backup of an office, by its mark: the front of the hash of its journal's first line."""
    if not plant.journal.exists():
        assert plant.run("unit-add", "FIRST").status == 0
    return f"office-{hashlib.sha256(plant.journal.read_bytes().splitlines()[0]).hexdigest()[:8]}-{stamp}.db"


def test_the_newest_are_kept_and_others_are_let_be(at_work):
    folder = at_work.folder / "backups"
    folder.mkdir()
    others = ["office-x-20200101-000000.db", "other-20200101-000000.db", f"{own(at_work, '20200101-000000')}.txt", "office-01234567-20200101-000000.db",
              "office-20200101-000000.db", "office-01234567-20200101-000000.db.journal", "office-20200102-000000.db.journal"]
    for name in [*others, *(own(at_work, f"2020010{day}-000000") for day in "123")]:
        (folder / name).write_text("")
    backup = at_work.run("backup", folder, "--keep", "2").out.splitlines()[0]
    assert set(os.listdir(folder)) == {*others, own(at_work, "20200103-000000"), os.path.basename(backup), f"{os.path.basename(backup)}.journal"}


def test_the_last_of_each_day_is_kept(at_work):
    folder = at_work.folder / "backups"
    folder.mkdir()
    for moment in ("20200101-000000", "20200101-120000", "20200102-000000", "20200103-000000", "20200103-000001"):
        (folder / own(at_work, moment)).write_text("")
    at_work.run("backup", folder, "--keep", "1", "--days", "3")
    assert sorted(os.listdir(folder))[:2] == [own(at_work, "20200102-000000"), own(at_work, "20200103-000001")] and len(os.listdir(folder)) == 4


@pytest.mark.parametrize("name", ["an\noffice.db", "off%69ce.db", "office.db?x=1.db", "-n.db", ".db", "office"])
def test_names_of_all_kinds_are_backed_up(at_work, name):
    db = at_work.folder / name
    for end in ("", "-wal"):
        if os.path.exists(f"{at_work.db}{end}"):
            os.rename(f"{at_work.db}{end}", f"{db}{end}")
    folder = at_work.folder / "backups"
    folder.mkdir()
    assert at_work.run("backup", folder, db=db).status == 0
    backup, _ = sorted(os.listdir(folder))
    assert at_work.run("restore", folder / backup, db=db).status == 0


@pytest.mark.parametrize("number", [signal.SIGTERM, signal.SIGINT, signal.SIGHUP])
def test_a_signal_leaves_nothing(at_work, number):
    folder = at_work.folder / "backups"
    folder.mkdir()
    slow = at_work.folder / "toll"
    slow.write_text(f"#!/bin/sh\ntouch {at_work.folder}/looking; exec sleep 60\n")
    slow.chmod(0o700)
    at_work.program = str(slow)
    process = at_work.begun("backup", folder)
    assert eventually((at_work.folder / "looking").exists)
    process.send_signal(number)
    process.communicate(timeout=PATIENCE)
    assert process.returncode == 128 + number and os.listdir(folder) == []


def test_a_copy_that_toll_refuses_is_no_backup_and_removes_none(at_work):
    folder = at_work.folder / "backups"
    folder.mkdir()
    for day in "123":
        (folder / f"office-2020010{day}-000000.db").write_text("")
    refusing = at_work.folder / "toll"
    refusing.write_text("#!/bin/sh\necho fault Damaged >&2; exit 3\n")
    refusing.chmod(0o700)
    at_work.program = str(refusing)
    done = at_work.run("backup", folder, "--keep", "1")
    assert done.status == 3 and "fault Damaged" in done.err and len(os.listdir(folder)) == 3


def backed_up(plant: Plant) -> str:
    """A backup of the office."""
    (plant.folder / "backups").mkdir()
    return plant.run("backup", plant.folder / "backups").out.splitlines()[0]


def test_restore_puts_it_in_place_and_keeps_what_was_there(at_work):
    backup, saved = backed_up(at_work), at_work.content()
    at_work.lay("unit-add PRESS")
    changed = at_work.content()
    done = at_work.run("restore", backup)
    assert done.status == 0 and at_work.content() == saved and os.path.exists(backup)
    aside = done.out.split("what was there is in ")[1].strip()
    assert at_work.content(os.path.join(aside, "office.db")) == changed
    assert at_work.run("unit-add", "PRESS").out == "accepted\n"


def test_restore_stops_on_a_server(at_work):
    backup = backed_up(at_work)
    before = at_work.content()
    with at_work.serve() as server:
        done = at_work.run("restore", backup)
        assert done.status == 3 and "a server serves" in done.err and "systemctl stop toll" in done.err
        os.unlink(f"{at_work.db}.sock")
        assert server.ask("ACME", "GET", "/stock")[0] == 200
        done = at_work.run("restore", backup)
        assert done.status == 3 and "a server serves" in done.err

        def is_known_by_its_process() -> bool:
            """The server makes its socket anew when it notices who has gone, which may be between these two."""
            pathlib.Path(f"{at_work.db}.sock").unlink(missing_ok=True)
            done = at_work.run("restore", backup)
            assert done.status == 3
            return "is open in process" in done.err

        assert eventually(is_known_by_its_process)
    assert at_work.content() == before


def test_restore_looks_at_the_backup_first(at_work):
    backup, before = backed_up(at_work), at_work.content()
    cut = at_work.folder / "cut.db"
    cut.write_bytes(open(backup, "rb").read()[:5000])
    text = at_work.folder / "text.db"
    text.write_text("no office")
    other = at_work.folder / "other.db"
    with sqlite3.connect(other) as base:
        base.execute("CREATE TABLE t (a)")
    for path in (cut, text, other):
        assert at_work.run("restore", path).status == 3
    assert at_work.content() == before and at_work.db.exists()
    assert not list(at_work.folder.glob("*before-restore*"))


def test_restore_takes_the_log_of_a_backup_with_it(at_work):
    backup = backed_up(at_work)
    base = sqlite3.connect(backup)
    base.execute("PRAGMA wal_autocheckpoint = 0")
    base.execute("INSERT INTO units VALUES ('PRESS')")
    base.commit()
    assert at_work.run("restore", backup).status == 1
    assert at_work.run("restore", "--foreign", backup).status == 0
    base.close()
    assert ("PRESS",) in at_work.rows("SELECT unit FROM units")


def test_restore_works_where_the_file_is_gone(at_work):
    backup, saved = backed_up(at_work), at_work.content()
    os.unlink(at_work.db)
    assert at_work.run("restore", backup).status == 0 and at_work.content() == saved


def test_verify_finds_a_sublot_that_does_not_add_up(at_work):
    assert at_work.run("verify").status == 0
    with sqlite3.connect(at_work.db) as base:
        base.execute("UPDATE sublots SET amount = amount + 1 WHERE sublot = 'TANK'")
    done = at_work.run("verify")
    assert done.status == 3 and "sublot HOUSE W-101 TANK holds 9301, and its movements come to 9300" in done.out


@pytest.mark.parametrize("words, row", [
    ("unit-add PRESS", "units WHERE unit = 'PRESS'"),
    ("owner-add COLT COLTKEY1", "owners WHERE owner = 'COLT'"),
    ("material-add ACME SUGAR kg", "materials WHERE material = 'SUGAR'"),
    ("recipe-add ACME BRINE-20 1", "recipes WHERE recipe = 'BRINE-20'"),
])
def test_verify_finds_that_a_row_of_an_accepted_command_is_missing(at_work, words, row):
    assert at_work.run("unit-add", "OVEN").status == at_work.run(*words.split()).status == at_work.run("verify").status == 0
    with sqlite3.connect(at_work.db) as base:
        base.execute(f"DELETE FROM {row}")
    done = at_work.run("verify")
    assert done.status == 3 and "rows that the journal's accepted commands added are missing, first " + words.split()[0] in done.out


def test_verify_finds_that_a_recorded_movement_is_missing(at_work):
    assert at_work.run("receive", "HOUSE", "R-77", "WATER", "W-77", "TANK", "500", "261127").status == 0
    with sqlite3.connect(at_work.db) as base:
        for table in ("lots", "sublots", "moves"):
            base.execute(f"DELETE FROM {table} WHERE owner = 'HOUSE' AND lot = 'W-77'")
    done = at_work.run("verify")
    assert done.status == 3 and "are missing, first receive HOUSE R-77 of 20" in done.out


@pytest.mark.parametrize("line", sorted(accepted.ROWS))
def test_each_line_that_adds_a_row_is_looked_for(at_work, line):
    entries = [{"event": "asked", "id": "1", "time": "T", "words": [line, *LINES[line].values]}, {"event": "told", "of": "1", "answer": "accepted\n"}]
    rows = accepted.added_rows(entries)
    with contextlib.closing(sqlite3.connect(at_work.db)) as base:
        assert accepted.lacking(base, rows) == [f"1 of 1 rows that the journal's accepted commands added are missing, first {rows[0]} of T"]


def test_verify_asks_for_no_row_from_before_a_restore(at_work):
    backup = backed_up(at_work)
    assert at_work.run("unit-add", "PRESS").status == at_work.run("restore", backup).status == 0
    assert ("PRESS",) not in at_work.rows("SELECT unit FROM units") and at_work.run("verify").status == 0


@pytest.mark.parametrize("is_behind", [False, True])
def test_a_restore_that_failed_changes_nothing_of_what_verify_says(at_work, monkeypatch, is_behind):
    """Only one that failed behind the exchange of the file left rows behind."""
    backup = backed_up(at_work)
    for unit in ("PRESS", "OVEN", "TANK", "PUMP"):
        assert at_work.run("unit-add", unit).status == 0
    with contextlib.closing(sqlite3.connect(at_work.db)) as base, base:
        base.execute("DELETE FROM units WHERE unit = 'OVEN'")
    before = at_work.run("verify")
    assert before.status == 3 and "1 of 4 rows that the journal's accepted commands added are missing" in before.out

    def fail(*_: object) -> str:
        raise OSError(28, "No space left on device", str(at_work.db))
    with monkeypatch.context() as patch:
        patch.setattr(*((Office, "ask_patiently") if is_behind else (backups, "move_aside")), fail)
        with pytest.raises(OSError):
            at_work.run("restore", backup)
    assert "No space left" in at_work.lines()[-1]["error"]
    done = at_work.run("verify")
    assert done.out.splitlines()[0] == ("file: sound; sublots hold what movements come to; toll opens it" if is_behind else before.out.splitlines()[0])
    assert done.status == (0 if is_behind else 3)


def test_verify_finds_damage_and_a_changed_journal(at_work):
    at_work.run("unit-add", "PRESS")
    at_work.journal.write_text(at_work.journal.read_text().replace("PRESS", "OVEN"))
    done = at_work.run("verify")
    assert done.status == 1 and "doesn't follow" in done.out
    page = at_work.rows("SELECT rootpage FROM sqlite_master WHERE name = 'sublots'")[0][0]
    with open(at_work.db, "r+b") as file:
        file.seek((page - 1) * 4096)
        file.write(b"\xff" * 4096)
    done = at_work.run("verify")
    assert done.status == 3 and "file: " in done.out and "sound" not in done.out


# What owners were told as done, and is no longer there

def log_line(path: str, order: str = "-", status: int = 200, owner: str = "ACME", when: str = "") -> str:
    """A line of the site's log."""
    when = when or time.strftime("%Y-%m-%dT%H:%M:%S+00:00", time.gmtime())
    return f'192.0.2.7 "{owner}" [{when}] "POST {path} HTTP/1.1" {status} 65 0.004 {order}\n'


def ordered(plant: Plant, log, count: int) -> None:
    """Orders of an owner, which its server answers with 200 before it is killed; the site's log has them."""
    with plant.serve() as server:
        for number in range(count):
            assert server.ask("ACME", "POST", "/orders", f'{{"order":"P-{number}","recipe":"BRINE-10","batches":1}}')[0] == 200
            with open(log, "a") as lines:
                lines.write(log_line("/orders", f"P-{number}"))
        server.process.kill()


def test_verify_finds_orders_that_were_answered_and_went_with_a_changed_log(at_work):
    log = at_work.folder / "toll.log"
    at_work.settle(site_logs=[str(log)])
    ordered(at_work, log, 5)
    done = at_work.run("verify")
    assert done.status == 0 and "owners: 5 requests that the site's log has as done are compared" in done.out
    change_log_at_rest(at_work)
    refused = at_work.run("unit-add", "PRESS")
    assert refused.status == 3 and refused.err.startswith("fault Damaged\n"), refused
    (at_work.folder / f"{at_work.db.name}.lock").unlink()  # as the page of operations says, to go on with what is left
    assert at_work.run("unit-add", "PRESS").status == 0 and ("P-4",) not in at_work.rows("SELECT ord FROM orders")
    done = at_work.run("verify")
    assert done.status == 3 and "what owners did by 1 of 5 requests that the site's log has as done is missing: POST /orders P-4 of ACME at 20" in done.out


@pytest.mark.parametrize("path, sql", [
    ("/orders/O-2/cancel", "UPDATE orders SET cancelled = 0 WHERE ord = 'O-2'"), ("/lots/S-1/release", "UPDATE lots SET disposition = 0 WHERE lot = 'S-1'"),
    ("/lots/B-1/reject", "UPDATE lots SET disposition = 0 WHERE lot = 'B-1'"), ("/lots/B-1/reject", "DELETE FROM lots WHERE lot = 'B-1'")])
def test_verify_finds_that_a_request_of_an_owner_is_undone(at_work, path, sql):
    log = at_work.folder / "toll.log"
    at_work.settle(site_logs=[str(log)])
    with at_work.serve() as server:
        assert server.ask("ACME", "POST", "/orders", '{"order":"O-2","recipe":"BRINE-10","batches":1}')[0] == 200
        assert path == "/lots/S-1/release" or server.ask("ACME", "POST", path)[0] == 200
    log.write_text(log_line(path) + log_line("/orders/X-1/cancel", status=409) + log_line("/orders", "X-2", 403) + log_line("/orders"))
    assert at_work.run("verify").status == 0
    with contextlib.closing(sqlite3.connect(at_work.db)) as base, base:
        base.execute(sql)
    done = at_work.run("verify")
    assert done.status == 3 and (f"is missing: POST {path} of ACME at 20" in done.out or "its movements come to" in done.out)


def test_a_result_that_ended_a_release_undoes_nothing(at_work):
    log = at_work.folder / "toll.log"
    at_work.settle(site_logs=[str(log)])
    at_work.lay("result ACME B-1 PH 2 102\n> ACME POST /lots/B-1/release\nresult ACME B-1 PH 2000 103")
    log.write_text(log_line("/lots/B-1/release"))
    assert at_work.rows("SELECT disposition FROM lots WHERE lot = 'B-1'") == [(0,)] and at_work.run("verify").status == 0


def test_verify_asks_for_no_request_from_before_a_restore_and_for_none_that_proved_no_key(at_work):
    log = at_work.folder / "toll.log"
    at_work.settle(site_logs=[str(log)])
    backup = at_work.run("backup").out.splitlines()[0]
    ordered(at_work, log, 2)
    assert at_work.run("restore", backup).status == 0 and at_work.run("verify").status == 0
    other = at_work.folder / "unauthenticated-toll.log"
    other.write_text(log_line("/orders", "P-9", when="2099-01-01T00:00:00+00:00"))
    at_work.settle(site_logs=[str(other)])
    assert at_work.run("verify").status == 0
    at_work.settle(site_logs=[str(at_work.folder / "nowhere.log")])
    done = at_work.run("verify")
    assert done.status == 0 and "owners: what they did isn't compared: there is no log" in done.out


def test_what_a_kill_left_goes_with_the_next(at_work):
    left = at_work.folder / ".hilpoven.left"
    left.mkdir()
    (left / "copy.db").write_text("rows")
    at_work.run("list", "lots")
    assert left.exists()
    os.utime(left, (0, 0))
    at_work.run("list", "lots")
    assert not left.exists()


# What those who keep the backups can't lose or forge

def names_in(folder) -> list[str]:
    """The names of the backups in a folder."""
    return sorted(path.name for path in folder.glob("*.db"))


def test_a_new_backup_is_never_removed(at_work):
    at_work.settle()
    folder = at_work.folder / "backups"
    for name in (own(at_work, "20300101-000000"), own(at_work, "20310101-000000"), f"{own(at_work, '20200101-000000')}.journal"):
        (folder / name).write_text("")
    first = at_work.run("backup", "--keep", "1", folder).out.splitlines()[0]
    assert set(os.listdir(folder)) == {os.path.basename(first), f"{os.path.basename(first)}.journal"}
    second = at_work.run("backup", "--keep", "1", folder).out.splitlines()[0]
    assert names_in(folder) == [os.path.basename(second)] and second != first


def test_backups_are_removed_in_the_order_in_which_they_were_made(at_work, monkeypatch):
    folder = at_work.folder / "backups"
    at_work.settle(keep=2)
    names = []
    for year in (2026, 2031, 2025, 2024):
        monkeypatch.setattr(time, "time", lambda: (year - 1970) * 365.25 * 86400)
        names.append(os.path.basename(at_work.run("backup").out.splitlines()[0]))
    assert names_in(folder) == sorted(names[2:])
    assert {path.name for path in folder.iterdir()} == {*names[2:], *(f"{name}.journal" for name in names[2:])}
    monkeypatch.undo()
    assert [entry["words"] for entry in at_work.lines() if entry.get("words", [""])[0] == "prune"] == [["prune", names[0]], ["prune", names[1]]]


def test_a_backup_of_the_future_wants_attention(at_work, monkeypatch):
    at_work.settle()
    assert at_work.run("backup").status == 0
    assert at_work.run("status").status == 0
    (at_work.folder / "backups" / own(at_work, "20990101-000000")).write_text("")
    done = at_work.run("status")
    assert done.status == 1 and f"{own(at_work, '20990101-000000')} is dated in the future" in done.out


def second(plant: Plant, folder) -> Plant:
    """Another office, whose file has the same name, on the same folder of backups."""
    folder.mkdir()
    other = copied(plant, Plant(plant.program, folder))
    assert other.run("unit-add", "SECOND").status == 0
    return other


def test_offices_that_share_a_folder_have_their_own_backups(at_work, monkeypatch):
    at_work.settle(keep=1)
    folder = at_work.folder / "backups"
    other = second(at_work, at_work.folder / "other")
    first = at_work.run("backup").out.splitlines()[0]
    for _ in range(3):
        theirs = other.run("backup", folder, "--keep", "1").out.splitlines()[0]
        mine = at_work.run("backup", "--keep", "1").out.splitlines()[0]
    assert not os.path.exists(first) and set(names_in(folder)) == {os.path.basename(theirs), os.path.basename(mine)}
    assert f"backup: {mine}, " in at_work.run("status").out
    before = at_work.content()
    for done in (at_work.run("restore", theirs), at_work.as_member("restore", os.path.basename(theirs))):
        assert done.status == 1 and "is a backup of another office: its mark is" in done.err and at_work.content() == before
    os.unlink(mine)
    assert "there is no backup in" in at_work.run("status").out
    assert at_work.run("restore", "--foreign", theirs).status == 0 and ("SECOND",) in at_work.rows("SELECT unit FROM units")


def test_a_backup_of_an_earlier_version_is_listed_restored_and_removed_only_as_it_was_made(at_work):
    """Its name has no mark, so another office may have made one of the same name."""
    at_work.settle(keep=1)
    folder, name = at_work.folder / "backups", "office-20261101-000000.db"
    backup, content = at_work.run("backup").out.splitlines()[0], at_work.content()
    os.rename(backup, folder / name)
    os.rename(f"{backup}.journal", folder / f"{name}.journal")
    lines = at_work.journal.read_text().replace(os.path.basename(backup), name).splitlines()
    at_work.journal.write_text("")
    journal = Journal(str(at_work.journal), str(at_work.db))
    for line in map(json.loads, lines):
        journal.add({member: value for member, value in line.items() if member not in ("before", "time")})
    assert at_work.run("unit-add", "PRESS").status == 0 and f"backup: {folder / name}, " in at_work.run("status").out
    assert at_work.run("restore", name).status == 0 and at_work.content() == content
    kept = (folder / name).read_bytes()
    (folder / name).write_bytes(b"of another office")
    assert at_work.run("backup").status == 0 and name in names_in(folder)
    (folder / name).unlink()
    (folder / name).symlink_to(at_work.journal)
    assert at_work.run("backup").status == 0 and name in names_in(folder)
    (folder / name).unlink()
    (folder / name).write_bytes(kept)
    assert at_work.run("backup").status == 0 and name not in names_in(folder) and not (folder / f"{name}.journal").exists()


def test_two_backups_of_one_second_are_two(at_work, monkeypatch):
    at_work.settle()
    monkeypatch.setattr(time, "time", lambda: 1_800_000_000.0)
    assert len({at_work.run("backup").out.splitlines()[0] for _ in range(3)}) == 3 and len(names_in(at_work.folder / "backups")) == 3


def test_a_backup_waits_for_another_that_names_and_removes_in_its_folder(at_work):
    folder = at_work.folder / "backups"
    folder.mkdir(mode=0o700)
    descriptor = os.open(folder, os.O_RDONLY)
    fcntl.flock(descriptor, fcntl.LOCK_EX)
    process = at_work.begun("backup", folder)
    with pytest.raises(subprocess.TimeoutExpired):
        process.wait(5)
    assert names_in(folder) == []
    os.close(descriptor)
    out, err = process.communicate(timeout=60)
    assert process.returncode == 0 and names_in(folder) == [os.path.basename(out.splitlines()[0])], err


def test_the_journal_notes_each_backup_with_its_hash_and_lies_beside_it(at_work):
    at_work.settle()
    at_work.run("unit-add", "PRESS")
    backup = at_work.run("backup").out.splitlines()[0]
    entry = next(entry for entry in at_work.lines() if entry.get("words", [""])[0] == "backup")
    assert entry["backup"] == os.path.basename(backup) and entry["sha256"] == hashlib.sha256(open(backup, "rb").read()).hexdigest()
    kept = [json.loads(line) for line in open(f"{backup}.journal")]
    assert kept == at_work.lines()[:len(kept)] and kept[-1] == entry


def test_a_journal_that_is_gone_comes_back_with_a_backup(at_work):
    at_work.settle()
    at_work.run("unit-add", "PRESS")
    backup = at_work.run("backup").out.splitlines()[0]
    lines = at_work.lines()[:3]
    for path in at_work.folder.glob("office.db*"):
        path.unlink()
    assert at_work.run("restore", os.path.basename(backup)).status == 0
    assert at_work.lines()[:3] == lines and at_work.run("journal", "verify").status == 0
    assert at_work.run("unit-add", "OVEN").out == "accepted\n"


def changed(backup: str, path, sql: str) -> str:
    """A copy of a backup that was changed."""
    shutil.copyfile(backup, path)
    with contextlib.closing(sqlite3.connect(path)) as base, base:
        base.execute(sql)
    return str(path)


def test_restore_takes_what_this_journal_made(at_work):
    at_work.settle()
    backup = at_work.run("backup").out.splitlines()[0]
    before = at_work.content()
    other = changed(backup, at_work.folder / "changed.db", "UPDATE units SET unit = 'PRESS' WHERE unit = 'MIXER'")
    done = at_work.run("restore", other)
    assert done.status == 1 and "is no backup that" in done.err and "--foreign" in done.err and at_work.content() == before
    shutil.copyfile(other, backup)  # in the place of a backup
    assert at_work.run("restore", backup).status == 1 and at_work.as_member("restore", os.path.basename(backup)).status == 1
    assert at_work.content() == before
    assert at_work.run("restore", "--foreign", other).status == 0 and ("PRESS",) in at_work.rows("SELECT unit FROM units")
    entry = at_work.lines()[-2]
    assert entry["words"][:2] == ["restore", "--foreign"]
    assert entry["sha256"] == hashlib.sha256(open(other, "rb").read()).hexdigest()


def test_verify_compares_backups_with_what_the_journal_notes(at_work):
    at_work.settle()
    backup = at_work.run("backup").out.splitlines()[0]
    assert at_work.run("verify").status == 0 and "backups: 1 as the journal notes them" in at_work.run("verify").out
    with contextlib.closing(sqlite3.connect(backup)) as base, base:
        base.execute("UPDATE units SET unit = 'PRESS' WHERE unit = 'MIXER'")
    done = at_work.run("verify")
    assert done.status == 1 and f"backups: {backup} isn't the file that was made" in done.out


def test_restore_takes_nothing_whose_sums_are_wrong(at_work):
    at_work.settle()
    backup = at_work.run("backup").out.splitlines()[0]
    before = at_work.content()
    forged = changed(backup, at_work.folder / "forged.db", "UPDATE sublots SET amount = amount + 1000")
    done = at_work.run("restore", "--foreign", forged)
    assert done.status == 3 and "its movements come to" in done.err and at_work.content() == before


def test_restore_asks_the_port_too(at_work):
    at_work.settle()
    backup = at_work.run("backup").out.splitlines()[0]
    with socket.create_server(("127.0.0.1", 0)) as silent:
        at_work.settle(port=silent.getsockname()[1])
        done = at_work.run("restore", backup)
        assert done.status == 3 and "a server listens at the office's port" in done.err
    assert at_work.run("restore", backup).status == 0


def test_a_failed_restore_is_answered_in_the_journal(at_work, monkeypatch):
    at_work.settle()
    backup = at_work.run("backup").out.splitlines()[0]

    def fail(file: str) -> str:
        raise OSError(28, "No space left on device", file)
    monkeypatch.setattr(backups, "move_aside", fail)
    with pytest.raises(OSError):
        at_work.run("restore", backup)
    assert check(str(at_work.journal)).unanswered == [] and "No space left" in at_work.lines()[-1]["error"]


def test_a_full_disk_is_blamed_on_the_right_file(at_work):
    room = at_work.folder / "room"
    room.mkdir(mode=0o700)
    if subprocess.run(["mount", "-t", "tmpfs", "-o", "size=150k,mode=700", "none", room], capture_output=True).returncode:
        pytest.skip("nothing can be mounted here")
    try:
        done = command("--db", at_work.db, "backup", room, env=environment(TOLL=at_work.program))
        assert done.returncode == 3 and done.stderr.startswith(f"hilpoven: {room}/") and "No space left" in done.stderr, done.stderr
        backup, kept = backed_up(at_work), room / "office.db"
        shutil.copyfile(backup, at_work.folder / "kept.db")
        kept.write_text("")
        done = command("--db", kept, "restore", "--foreign", at_work.folder / "kept.db", env=environment(TOLL=at_work.program))
        assert done.returncode == 3 and done.stderr.startswith(f"hilpoven: {room}/") and "No space left" in done.stderr, done.stderr
        assert kept.read_text() == "" and check(f"{kept}.journal").unanswered == []
    finally:
        subprocess.run(["umount", room], check=True)


@pytest.mark.parametrize("line, why", [
    ("keep = 0", "keep is to be from 1"), ("days = -1", "days is to be from 0"), ("wait = true", "wait is to be a number"),
    ("site_logs = [1]", "site_logs is to be a list of texts"), ("port = 70000", "port is to be from 0 to 65,535"),
    ("backup_hours = 0", "backup_hours is to be from 1"), ("wait = -1", "wait is to be from 0"),
    ("keep = true", "keep is to be a whole number"), ("plant = 1", "plant is to be a table: [plant]"), ("[plant]\nphone = 'x'", "phone is no line of [plant]"),
    ("[plant]\nname = 5", "name is to be a text"), ('[plant]\nname = "a\\nb"', "name has a line end"), ('[plant]\naddress = "\\u001b[2J"', "address has U+001B"),
    (f"[plant]\ncontact = '{'x' * 201}'", "contact has 201 letters"), ("[plant]\nlogo = ['x']", "logo is to be a text")])
def test_settings_have_bounds(at_work, line, why):
    at_work.settle()
    with open(at_work.folder / "hilpoven.toml", "a") as file:
        file.write(f"{line}\n")
    done = at_work.run("backup")
    assert done.status == 2 and why in done.err and names_in(at_work.folder / "backups") == []


@pytest.mark.parametrize("line, why", [
    ("HOURS=0", "HOURS is to be from 1"), ("DAYS=x", "DAYS is to be a whole number"), ("PORT=70000", "PORT is to be from 0 to 65,535")])
def test_settings_of_an_office_have_bounds(at_work, line, why):
    (at_work.folder / "acme.env").write_text(f"FILE={at_work.db}\n{line}\n")
    done = at_work.run("stock", "ACME", options=("--office", "acme"))
    assert done.status == 2 and why in done.err


def test_each_setting_has_its_help_and_stands_on_the_page_of_settings():
    page = (ROOT / "docs" / "administration.md").read_text().partition("\n## Settings\n")[2].partition("\n## ")[0]
    for table in (site.Settings, *(field.type for field in dataclasses.fields(site.Settings) if dataclasses.is_dataclass(field.type))):
        for field in dataclasses.fields(table):
            if dataclasses.is_dataclass(field.type):
                assert f"`[{field.name}]`" in page or field.name == "require", field.name
            else:
                assert field.metadata["about"] and re.search(rf"`{field.name}(`| = )", page), field.name
                assert field.type not in (int, float) or field.metadata["least"] is not None, f"{field.name} has no bounds"


def test_the_settings_say_what_papers_say_of_the_plant(tmp_path):
    path = tmp_path / "hilpoven.toml"
    path.write_text('[plant]\nname = "Toll & Söhne"\naddress = "1 Kai"\ncontact = "qa@toll.example"\nlogo = "art/logo.png"\napprover = "Dr. Berg"\n')
    assert site.load(str(path)).plant == site.PlantFacts("Toll & Söhne", "1 Kai", "qa@toll.example", str(tmp_path / "art" / "logo.png"), "Dr. Berg")
    path.write_text("")
    assert site.load(str(path)).plant == site.PlantFacts()
