"""Days in companions: when orders were placed, and batches opened and closed, by the journal and the site's log."""
import datetime
import json
import os
import pathlib

import pytest
from hilpoven.core import settings as site
from hilpoven.core.days import day_of
from hilpoven.report.companion import days
from hilpoven.report.companion import folder as folders

TODAY = {day_of(datetime.date.today() + datetime.timedelta(shift)) for shift in (-1, 0, 1)}  # midnight may pass
LINE = '192.0.2.7 "{}" [{}] "POST {} HTTP/1.1" {} 70 0.010 {}\n'


@pytest.fixture
def folder(at_work) -> pathlib.Path:
    path = at_work.folder / "companions"
    path.mkdir(mode=0o700)
    return path


@pytest.fixture
def log(at_work, monkeypatch) -> pathlib.Path:
    """The site's log, which the settings name."""
    path = at_work.folder / "toll.log"
    site.load.__defaults__[0].write_text(f'time_zone = "UTC"\nsite_logs = [{json.dumps(str(path))}]\n')
    return path


def companion(plant, folder: pathlib.Path, owner: str = "ACME") -> dict:
    """An owner's companion, made now."""
    done = plant.run("companion", "--out", folder)
    assert (done.status, done.err) == (0, ""), done
    return json.loads((folder / f"{owner}.json").read_text())


def order_of(value: dict, name: str) -> dict:
    return next(order for order in value["orders"] if order["order"] == name)


def batches_of(value: dict, name: str) -> list[dict]:
    return [batch for batch in value["batches"] if batch["order"] == name]


def place(plant, order: str, batches: int = 2, owner: str = "ACME", recipe: str = "BRINE-10") -> None:
    body = json.dumps({"order": order, "recipe": recipe, "batches": batches}, separators=(",", ":"))
    plant.lay(f"> {owner} POST /orders {body}")


def run(plant, *words: object) -> None:
    done = plant.run(*words)
    assert done.status == 0, (words, done)


def test_a_batch_has_the_days_on_which_it_was_opened_and_closed(at_work, folder):
    place(at_work, "O-2")
    run(at_work, "unit-add", "PRESS")
    run(at_work, "open", "ACME", "O-2", "PRESS")
    (first,) = batches_of(companion(at_work, folder), "O-2")
    assert first["openedOn"] in TODAY and "closedOn" not in first and "closed" not in first
    run(at_work, "close", "ACME", "O-2", 1)
    run(at_work, "open", "ACME", "O-2", "PRESS")
    first, second = batches_of(companion(at_work, folder), "O-2")
    assert first["closedOn"] in TODAY and second["openedOn"] in TODAY and "closedOn" not in second
    assert [set(batch) & {"openedOn", "closedOn"} for batch in batches_of(companion(at_work, folder), "O-1")] == [set()]


def test_what_the_journal_does_not_have_has_no_day(at_work, folder):
    """A batch that was opened past it might be any of the order's."""
    place(at_work, "O-2")
    run(at_work, "unit-add", "PRESS")
    run(at_work, "unit-add", "MILL")
    at_work.toll("open", "ACME", "O-2", "PRESS")
    run(at_work, "open", "ACME", "O-2", "MILL")
    assert [batch.get("openedOn") for batch in batches_of(companion(at_work, folder), "O-2")] == [None, None]
    assert at_work.run("close", "ACME", "O-1", 1).status == 1
    assert "closedOn" not in batches_of(companion(at_work, folder), "O-1")[0]


def test_a_later_run_reads_on_and_says_the_same_as_one_that_reads_all(at_work, folder, tmp_path, monkeypatch):
    place(at_work, "O-2", 3)
    steps = [("unit-add", "PRESS"), *[("open", "ACME", "O-2", "PRESS"), ("close", "ACME", "O-2", 1)], ("open", "ACME", "O-2", "PRESS")]
    noted, note = [], days.Days.note
    monkeypatch.setattr(days.Days, "note", lambda own, entry: noted.append(entry) or note(own, entry))
    counts, whole = 0, 0
    for number, step in enumerate(steps):
        run(at_work, *step)
        value = companion(at_work, folder)
        counts += len(noted)
        noted.clear()
        (anew := tmp_path / f"anew{number}").mkdir(mode=0o700)
        assert value | {"made": ""} == companion(at_work, anew) | {"made": ""}
        whole = len(noted)
        noted.clear()
    assert counts == whole == 6


def test_the_sites_log_has_when_orders_were_placed(at_work, folder, log):
    place(at_work, "O-2")
    log.write_text(
        LINE.format("ACME", "2026-11-02T23:30:00+00:00", "/orders", 200, "O-2")
        + LINE.format("ACME", "2026-11-05T10:00:00+00:00", "/orders", 200, "O-2")
        + LINE.format("ACME", "2026-10-01T10:00:00+00:00", "/orders", 409, "O-2")
        + LINE.format("ACME", "2026-10-01T10:00:00+00:00", "/orders/O-2/cancel", 200, "-")
        + LINE.format("BOLT", "2026-10-01T10:00:00+00:00", "/orders", 200, "O-2")
        + LINE.format("ACME", "2026-10-01T10:00:00+00:00", "/orders", 403, "O-2")
    )
    assert order_of(companion(at_work, folder), "O-2")["placedOn"] == 261102
    assert "placedOn" not in order_of(companion(at_work, folder), "O-1")
    site.load.__defaults__[0].write_text(f'time_zone = "Asia/Tokyo"\nsite_logs = [{json.dumps(str(log))}]\n')
    assert order_of(companion(at_work, folder), "O-2")["placedOn"] == 261103


def test_a_line_that_comes_behind_its_order_is_still_read(at_work, folder, log):
    place(at_work, "O-2")
    log.write_text("")
    assert "placedOn" not in order_of(companion(at_work, folder), "O-2")
    log.write_text(LINE.format("ACME", "2026-11-02T09:30:00+00:00", "/orders", 200, "O-2"))
    at_work.toll("unit-add", "PRESS")
    assert order_of(companion(at_work, folder), "O-2")["placedOn"] == 261102


@pytest.mark.parametrize("state", ["missing", "a folder", "no log"])
def test_a_log_that_cannot_be_read_says_nothing_and_stops_nothing(at_work, folder, log, state):
    place(at_work, "O-2")
    if state == "a folder":
        log.mkdir()
    if state == "no log":
        log.write_bytes(os.urandom(5000) + b'"POST /orders' + os.urandom(500) + b"\n")
    assert "placedOn" not in order_of(companion(at_work, folder), "O-2")


def test_no_day_of_another_owner_shows(at_work, folder, log):
    """Two owners have an order of one name."""
    at_work.lay('recipe-add BOLT R 1\nrequire BOLT R 1 produced BOLT PIGMENT 5')
    place(at_work, "SAME")
    place(at_work, "SAME", owner="BOLT", recipe="R")
    run(at_work, "unit-add", "PRESS")
    run(at_work, "open", "ACME", "SAME", "PRESS")
    run(at_work, "close", "ACME", "SAME", 1)
    at_work.lay("unit-add MILL\nopen BOLT SAME MILL\nclose BOLT SAME 1")
    log.write_text(LINE.format("ACME", "2026-11-02T09:30:00+00:00", "/orders", 200, "SAME"))
    value, other = companion(at_work, folder), companion(at_work, folder, "BOLT")
    assert order_of(value, "SAME")["placedOn"] == 261102 and batches_of(value, "SAME")[0]["closedOn"] in TODAY
    assert "placedOn" not in order_of(other, "SAME")
    assert set(batches_of(other, "SAME")[0]) & {"openedOn", "closedOn"} == set()


@pytest.mark.parametrize("mark", ["[[[", "[]", '{"days":5}', '{"days":{"asked":[1],"moves":[[1]]}}'])
def test_a_mark_that_says_anything_else_is_read_as_none(at_work, folder, mark):
    place(at_work, "O-2")
    run(at_work, "unit-add", "PRESS")
    run(at_work, "open", "ACME", "O-2", "PRESS")
    before = batches_of(companion(at_work, folder), "O-2")
    (folder / folders.MARK).write_text(mark)
    run(at_work, "unit-add", "MILL")
    assert batches_of(companion(at_work, folder), "O-2") == before


def test_days_before_the_file_was_begun_are_of_an_earlier_one():
    known = days.Known({"O-1": "2026-01-01T10:00:00.000Z"}, {"O-1": ["2026-01-02T10:00:00.000Z", "2026-02-02T10:00:00.000Z"]}, {"O-1": {"1": "2026-01-03T10:00:00.000Z"}})
    first, second = days.OwnDays(known), days.OwnDays(known, "", "2026-02-01T00:00:00.000Z")
    assert (first.placed("O-1"), first.opened("O-1", 2, 2), first.closed("O-1", 1)) == (260101, 260202, 260103)
    assert (second.placed("O-1"), second.opened("O-1", 1, 1), second.closed("O-1", 1)) == (None, 260202, None)
    assert (first.opened("O-1", 1, 3), first.placed("O-9"), days.OwnDays(days.Known({"O-1": "no moment"})).placed("O-1")) == (None, None, None)


def entry(event: str, **members: object) -> dict:
    return {"before": "0" * 64, "time": "2026-01-01T10:00:00.000Z", "event": event, **members}


def test_behind_a_restore_nothing_before_it_counts(tmp_path):
    known, file, moved = days.Days(), tmp_path / "o.db", tmp_path / "moved.db"
    file.write_text("")
    for name, words, answer in (("a", ["open", "ACME", "O-1", "U"], "accepted\n"), ("b", ["restore", "x"], "restored\n"), ("c", ["close", "ACME", "O-1", "1"], "accepted\n"),
                                ("d", ["open", "ACME", "O-1", "U"], ""), ("e", ["close", "ACME", "O-1"], "accepted\n"), ("f", ["for", "ACME", "order", "O-5", "R", "1"], "accepted\n")):
        known.note(entry("asked", id=name, words=words, file=str(file)))
        known.note(entry("told", of=name, status=0 if answer else 1, answer=answer))
    own = known.of("ACME", str(file))
    assert (own.opened, list(own.closed), list(own.placed)) == ({}, ["O-1"], ["O-5"])
    assert known.of("BOLT", str(file)) == days.Known() == known.of("ACME", str(moved))
    known.note(entry("moved", **{"from": str(file), "file": str(moved)}))
    assert known.of("ACME", str(moved)) == own
