"""The command `companion`: when it writes which files, for whom they can be read, and what it leaves alone."""
import calendar
import contextlib
import json
import os
import pathlib
import sqlite3
import subprocess
import time

import pytest
from conftest import HILPOVEN, Plant, environment
from hilpoven.report.companion import folder as folders
from hilpoven.report.companion import making
from hilpoven.core import settings as site
from killed import kill_at

NOTES = (
    ("party", "add", "ACME", "NORD", "--name", "Nord Foods Ltd", "--role", "customer", "--phone", "+44 20"),
    ("describe", "test", "ACME", "BRINE", "PH", "--name", "Acidity", "--unit", "pH", "--decimals", "1", "--method", "ISO 1"),
    ("describe", "material", "ACME", "BRINE", "--name", "Brine, 10 %"), ("describe", "lot", "ACME", "B-1", "--made", "261101", "--expires", "271101"),
    ("receive", "ACME", "K7", "SALT", "S-2", "BAY1", 70, 261101, "--document", "D 1"), ("link", "ACME", "S-2", "W-101", "--of-owner", "HOUSE", "--why", "rework", "--amount", 5),
    ("void", "ACME", "K2", "--reason", "wrong lot"), ("result", "ACME", "B-1", "PH", 120, 103),
)


@pytest.fixture
def folder(at_work) -> pathlib.Path:
    """An empty folder for companions."""
    path = at_work.folder / "companions"
    path.mkdir(mode=0o700)
    return path


def refresh(plant: Plant, folder: pathlib.Path) -> str:
    """What the command tells: how many files it wrote, left and removed."""
    done = plant.run("companion", "--out", folder)
    assert (done.status, done.err) == (0, ""), done
    return done.out.split(": ")[1].rpartition(",")[0]


def companion_of(folder: pathlib.Path, owner: str = "ACME") -> dict:
    return json.loads((folder / f"{owner}.json").read_text())


def states(folder: pathlib.Path) -> dict[str, tuple]:
    """What tells whether files were written."""
    return {path.name: (path.stat().st_ino, path.stat().st_mtime_ns, path.read_bytes()) for path in folder.iterdir() if path.name != folders.MARK}


def test_each_owner_has_one_that_the_folders_group_reads(at_work, folder):
    assert refresh(at_work, folder) == "2 written, 0 as before, 0 removed"
    assert {path.name: path.stat().st_mode & 0o777 for path in folder.iterdir()} == {"ACME.json": 0o640, "BOLT.json": 0o640, folders.MARK: 0o600}
    assert [material["material"] for material in companion_of(folder, "BOLT")["materials"]] == ["PIGMENT"]
    assert not [path for path in folder.iterdir() if "KEY1" in path.read_text()]
    assert not [path for path in at_work.folder.iterdir() if path.name.startswith(".hilpoven.")]


def test_it_says_what_was_recorded_and_noted(at_work, folder):
    for words in NOTES:
        done = at_work.run(*words)
        assert done.status == 0, (words, done)
    refresh(at_work, folder)
    companion = companion_of(folder)
    brine, salt, water = companion["materials"]
    assert brine == {"owner": "ACME", "material": "BRINE", "measure": "kg", "description": "Brine, 10 %", "tests": [
        {"test": "DENSITY", "low": 1100, "high": 1250},
        {"test": "PH", "low": -5, "high": 9, "description": "Acidity", "unit": "pH", "method": "ISO 1", "decimals": 1}]}
    assert salt == {"owner": "ACME", "material": "SALT", "measure": "kg"} and water == {"owner": "HOUSE", "material": "WATER", "measure": "liter"}
    assert companion["recipes"] == [{"recipe": "BRINE-10", "segments": 2, "lines": [
        {"segment": 1, "use": "consumed", "owner": "ACME", "material": "SALT", "amount": 300},
        {"segment": 1, "use": "consumed", "owner": "HOUSE", "material": "WATER", "amount": 700},
        {"segment": 2, "use": "produced", "owner": "ACME", "material": "BRINE", "amount": 1000}]}]
    batch, = companion["batches"]
    assert (batch["state"], batch["unit"], batch["lots"], "closed" in batch) == ("running", "KETTLE", ["B-1"], False)
    assert [(line["required"], line["actual"]) for line in batch["lines"]] == [(300, 0), (700, 700), (1000, 980)]
    lot = companion["lots"][0]
    assert lot == {"lot": "B-1", "material": "BRINE", "disposition": "quarantined", "amount": 980, "order": "O-1", "batch": 1, "made": 261101, "expires": 271101,
                   "release": {"possible": False, "why": [{"test": "PH", "reason": "above", "value": 1200, "limit": 9}]}}
    moves = {move["key"]: move for move in companion["movements"]}
    assert list(moves) == ["K1", "K2", "K3", "K4", "K6", "K7"]
    assert moves["K2"] == {"key": "K2", "kind": "actual", "day": 101, "lot": "S-1", "lotOwner": "ACME", "sublot": "BAY1", "amount": 300, "material": "SALT", "order": "O-1", "batch": 1,
                           "segment": 1, "use": "consumed", "voided": True}
    assert moves["K6"]["toSublot"] == "TOTE2" and moves["K7"]["document"] == "D 1" and moves["K3"]["lotOwner"] == "HOUSE"
    assert companion["links"] == [{"from": {"owner": "HOUSE", "lot": "W-101"}, "to": {"owner": "ACME", "lot": "S-2"}, "why": "rework", "amount": 5, "measure": "liter"}]
    assert companion["parties"] == [{"party": "NORD", "description": "Nord Foods Ltd", "phone": "+44 20", "roles": ["customer"]}]
    assert companion["reasons"] == [{"command": "void", "key": "K2", "text": "wrong lot"}]
    assert "plant" not in companion and companion["version"] == 1 and companion["owner"] == "ACME"
    assert {row["what"]: (row["count"], row["most"]) for row in companion["full"]}["movements"] == (6, 20_000)
    assert companion_of(folder, "BOLT")["parties"] == companion_of(folder, "BOLT")["links"] == companion_of(folder, "BOLT")["reasons"] == []


PRINTED = ('a "wet" bag', "C:\\new\\t", "Größe – 漢字 \U0001f6a2", "</script>&amp;", "{}[]:,")  # what a note may say
WRITTEN = (*PRINTED, "two\tcolumns\nand a line", "\x01\x1f\x7f\u2028")  # what a file may have, though `toll` doesn't write it


def test_whatever_letters_a_text_has_each_file_is_plain_json(at_work, folder):
    for words in NOTES:
        assert at_work.run(*words).status == 0, words
    for number, text in enumerate(PRINTED):
        for words in (("receive", "ACME", f"K2{number}", "SALT", f"S-2{number}", "BAY1", 70, 261101, "--document", text, "--supplier-lot", text),
                      ("hold", "ACME", f"S-2{number}", "--reason", text)):
            done = at_work.run(*words)
            assert done.status == 0, done
    with contextlib.closing(sqlite3.connect(at_work.db)) as base, base:
        base.executemany("INSERT INTO moves VALUES ('ACME', ?, 4, 'ACME', 'B-1', ?, ?, ?, ?, 1, 1, 5, 101)", [(f"K3-{text}", *[text] * 4) for text in WRITTEN])
        base.executemany("INSERT INTO lots VALUES ('ACME', ?, ?, ?, 1, 0)", [(text, text, text) for text in WRITTEN])
        base.executemany("INSERT INTO tests VALUES ('ACME', ?, ?, 0, 9)", [(text, text) for text in WRITTEN])
        base.executemany("INSERT INTO results VALUES ('ACME', ?, ?, 1, 10, 101)", [(text, text) for text in WRITTEN[::2]])
    refresh(at_work, folder)
    text = (folder / "ACME.json").read_text()
    assert text == json.dumps(companion := json.loads(text), ensure_ascii=False, separators=(",", ":"))
    moves, lots = ({row[name]: row for row in companion[many]} for many, name in (("movements", "key"), ("lots", "lot")))
    for number, text in enumerate(PRINTED):
        assert (moves[f"K2{number}"]["document"], moves[f"K2{number}"]["supplierLot"], lots[f"S-2{number}"]["held"]["text"]) == (text, text, text)
    for number, text in enumerate(WRITTEN):
        assert [moves[f"K3-{text}"][name] for name in ("sublot", "toSublot", "material", "order")] == [lots[text][name] for name in ("lot", "lot", "material", "order")] == [text] * 4
        why = {"test": text, "reason": "above", "value": 10, "limit": 9} if number % 2 == 0 else {"test": text, "reason": "missing"}
        assert lots[text]["release"] == {"possible": False, "why": [why]}


def test_recipients_of_shipments_are_named(at_work, folder):
    at_work.run(*NOTES[0])
    assert at_work.run("ship", "ACME", "K9", "S-1", "BAY1", 5, 261105, "--to", "NORD", "--document", "LS 7").status == 0
    refresh(at_work, folder)
    assert {name: companion_of(folder)["movements"][-1][name] for name in ("kind", "to", "document")} == {"kind": "shipment", "to": "NORD", "document": "LS 7"}


@pytest.mark.parametrize("results, expected", [
    ([], {"possible": False, "why": [{"reason": "unsigned"}]}), ([1], {"possible": True}), ([1, 0], {"possible": False, "why": [{"reason": "plant-hold"}]}), ([0, 1], {"possible": True})])
def test_the_plants_own_test_is_a_signature_or_a_hold(at_work, folder, results, expected):
    site.load.__defaults__[0].write_text('[quality]\ntest = "QA"\npersons = 1\n')
    at_work.lay("material-add ACME GLUE kg\ntest-add ACME GLUE QA 1 1\nreceive ACME K9 GLUE G-1 BAY 5 101\n" + "".join(f"result ACME G-1 QA {result} 261101\n" for result in results))
    refresh(at_work, folder)
    lot = next(row for row in companion_of(folder)["lots"] if row["lot"] == "G-1")
    assert lot["release"] == expected and "tests" not in next(material for material in companion_of(folder)["materials"] if material["material"] == "GLUE")
    assert ("signed" in lot, "held" in lot) == (results[-1:] == [1], results[-1:] == [0])


def test_a_hold_by_the_plants_word_alone_stops_no_release(at_work, folder):
    at_work.lay("material-add ACME GLUE kg\nreceive ACME K9 GLUE G-1 BAY 5 101")
    assert at_work.run("hold", "ACME", "G-1", "--reason", "wet bag").status == 0
    refresh(at_work, folder)
    lot = next(row for row in companion_of(folder)["lots"] if row["lot"] == "G-1")
    assert lot["release"] == {"possible": True} and lot["held"]["text"] == "wet bag" and isinstance(lot["held"]["day"], int)


# When it writes

def test_nothing_is_written_where_nothing_changed(at_work, folder):
    refresh(at_work, folder)
    before, mark = states(folder), (folder / folders.MARK).stat()
    for _ in range(2):
        assert refresh(at_work, folder) == "0 written, 2 as before, 0 removed"
    assert states(folder) == before and (folder / folders.MARK).stat().st_ino == mark.st_ino


def test_nothing_is_copied_where_nothing_changed(at_work, folder, monkeypatch):
    refresh(at_work, folder)
    monkeypatch.setattr(making, "write", None)
    assert refresh(at_work, folder) == "0 written, 2 as before, 0 removed"


CHANGES = {
    "a command": (lambda plant: plant.toll("receive", "ACME", "K9", "SALT", "S-9", "BAY1", 5, 104), {"ACME"}),
    "a note": (lambda plant: plant.run("describe", "material", "BOLT", "PIGMENT", "--name", "Red"), {"BOLT"}),
    "of HOUSE": (lambda plant: plant.toll("receive", "HOUSE", "K9", "WATER", "W-9", "TANK", 5, 104), set()),
    "the settings": (lambda plant: site.load.__defaults__[0].write_text('[plant]\nname = "Works"\n'), {"ACME", "BOLT"}),
    "a new owner": (lambda plant: plant.toll("owner-add", "CARL", "CARLKEY1"), {"CARL"}),
    "a file that is gone": (lambda plant: (plant.folder / "companions" / "BOLT.json").unlink(), {"BOLT"}),
    "a file that another wrote": (lambda plant: ((plant.folder / "companions" / "BOLT.json").write_text("{}"), plant.toll("unit-add", "PRESS")), {"BOLT"}),
    "a mark that is none": (lambda plant: (plant.folder / "companions" / folders.MARK).write_text("[[["), set()),
}


@pytest.mark.parametrize("change", CHANGES)
def test_a_change_shows_in_the_files_that_it_changes_and_in_no_other(at_work, folder, change):
    """Otherwise an owner would see when others work."""
    refresh(at_work, folder)
    count = len(states(folder)) + (change == "a new owner")
    time.sleep(0.03)
    do, owners = CHANGES[change]
    do(at_work)
    before = states(folder)
    assert refresh(at_work, folder) == f"{len(owners)} written, {count - len(owners)} as before, 0 removed"
    after = states(folder)
    assert {name.removesuffix(".json") for name in after if after[name] != before.get(name)} == owners
    assert refresh(at_work, folder) == f"0 written, {count} as before, 0 removed"


STEPS = """
do ACME O-1 1 done
result ACME B-1 PH 7 103
> ACME POST /lots/B-1/release
void ACME K2
split ACME K8 B-1 TOTE1 TOTE3 5 103
scrap ACME K9 B-1 TOTE3 5 103
> ACME POST /orders {"order":"O-2","recipe":"BRINE-10","batches":1}
> ACME POST /orders/O-2/cancel
close ACME O-1 1
material-add ACME GLUE kg
test-add ACME GLUE PH 1 2
recipe-add ACME R 1
require ACME R 1 consumed ACME GLUE 3
> ACME POST /lots/S-1/reject
"""
NOTED = (("hold", "ACME", "B-1", "--reason", "wet"), ("sign", "ACME", "B-1"), ("party", "add", "ACME", "N", "--name", "N", "--role", "supplier"), ("note", "movement", "ACME", "K1", "--from", "N"),
         ("link", "ACME", "B-1", "S-1", "--why", "use"), ("describe", "lot", "ACME", "B-1", "--expires", "271127"), ("note", "not-linked", "ACME", "K1"))


@pytest.mark.parametrize("settings", ["", '[quality]\ntest = "QA"\n'])
def test_each_step_makes_the_files_of_its_owner_anew_and_no_other(at_work, folder, tmp_path, monkeypatch, settings):
    site.load.__defaults__[0].write_text(settings)
    refresh(at_work, folder)
    owners, contents_of = [], making.contents_of
    monkeypatch.setattr(making, "contents_of", lambda subject, plant: owners.append(subject.owner) or contents_of(subject, plant))
    steps = [*STEPS.strip().splitlines(), *(NOTED if settings else NOTED[2:])]
    for number, step in enumerate(steps):
        at_work.lay(step) if isinstance(step, str) else at_work.run(*step)
        time.sleep(0.03)
        refresh(at_work, folder)
        assert set(owners) <= {"ACME"}, step
        owners.clear()
        (anew := tmp_path / f"anew{number}").mkdir(mode=0o700)
        refresh(at_work, anew)
        assert {name: companion_of(folder, name) | {"made": ""} for name in ("ACME", "BOLT")} == {name: companion_of(anew, name) | {"made": ""} for name in ("ACME", "BOLT")}, step
        owners.clear()


def test_a_file_in_place_of_the_offices_makes_all_anew(at_work, folder, monkeypatch):
    refresh(at_work, folder)
    owners, contents_of = [], making.contents_of
    monkeypatch.setattr(making, "contents_of", lambda subject, plant: owners.append(subject.owner) or contents_of(subject, plant))
    for end in ("", "-wal"):
        path = pathlib.Path(f"{at_work.db}{end}")
        copy = path.with_name(f"copy{end}")
        copy.write_bytes(path.read_bytes())
        copy.replace(path)
    time.sleep(0.03)
    assert refresh(at_work, folder) == "0 written, 2 as before, 0 removed" and owners == ["ACME", "BOLT"]


def test_an_older_office_in_the_same_file_makes_all_anew(at_work, folder, tmp_path):
    """Each owner's new rows are read behind those that were read before, as long as the file has these."""
    paths = [pathlib.Path(f"{at_work.db}{end}") for end in ("", "-wal")]
    older = [path.read_bytes() for path in paths]
    at_work.toll("receive", "ACME", "K9", "SALT", "S-9", "BAY1", 5, 104)
    refresh(at_work, folder)
    for path, content in zip(paths, older):
        path.write_bytes(content)
    at_work.toll("receive", "BOLT", "K9", "PIGMENT", "P-1", "BAY2", 5, 104)
    time.sleep(0.03)
    assert refresh(at_work, folder) == "2 written, 0 as before, 0 removed"
    (anew := tmp_path / "anew").mkdir(mode=0o700)
    refresh(at_work, anew)
    assert {name: companion_of(folder, name) | {"made": ""} for name in ("ACME", "BOLT")} == {name: companion_of(anew, name) | {"made": ""} for name in ("ACME", "BOLT")}


def test_one_of_an_owner_that_is_gone_goes_and_nothing_else(at_work, folder):
    refresh(at_work, folder)
    for name in ("NOBODY.json", "lower.json", "README"):
        (folder / name).write_text("{}")
    at_work.toll("unit-add", "PRESS")
    assert refresh(at_work, folder) == "0 written, 2 as before, 1 removed"
    assert sorted(path.name for path in folder.iterdir()) == [folders.MARK, "ACME.json", "BOLT.json", "README", "lower.json"]


def test_each_version_has_another_second(at_work, folder):
    """The site tells versions apart by second and size."""
    seconds = []
    for number in range(4):
        at_work.toll("receive", "ACME", f"K9{number}", "SALT", "S-9", "BAY1", 1, 104)
        refresh(at_work, folder)
        seconds.append(int((folder / "ACME.json").stat().st_mtime))
    assert sorted(set(seconds)) == seconds


def test_made_is_since_when_it_says_so(at_work, folder):
    refresh(at_work, folder)
    first = companion_of(folder)["made"]
    assert abs(calendar.timegm(time.strptime(first, "%Y-%m-%dT%H:%M:%SZ")) - time.time()) < 60
    time.sleep(1.1)
    at_work.toll("receive", "BOLT", "K9", "PIGMENT", "P-1", "BAY2", 1, 104)
    refresh(at_work, folder)
    assert companion_of(folder)["made"] == first < companion_of(folder, "BOLT")["made"]


# Where it writes

@pytest.mark.parametrize("others", ["a.txt", "ACME.json", "office.db"])
def test_a_folder_of_something_else_is_left_alone(at_work, folder, others):
    (folder / others).write_text("mine")
    done = at_work.run("companion", "--out", folder)
    assert done.status == 2 and "has other files" in done.err and [path.name for path in folder.iterdir()] == [others]


def test_no_link_is_followed_and_no_pipe_is_waited_for(at_work, folder):
    refresh(at_work, folder)
    kept = at_work.folder / "kept"
    kept.write_text("kept")
    for name in ("ACME.json", "BOLT.json", folders.MARK):
        (folder / name).unlink()
        (folder / name).symlink_to(kept)
    os.mkfifo(folder / folders.MAKING)
    assert refresh(at_work, folder) == "2 written, 0 as before, 0 removed"
    assert kept.read_text() == "kept" and not any(path.is_symlink() for path in folder.iterdir())
    (folder / "ACME.json").unlink()
    os.mkfifo(folder / "ACME.json")
    assert refresh(at_work, folder) == "1 written, 1 as before, 0 removed"


@pytest.mark.parametrize("path, why", [("nowhere", "is no folder"), ("office.db", "is no folder"), ("", "no folder is named")])
def test_where_there_is_no_folder_it_is_told(at_work, path, why):
    done = at_work.run("companion", *(["--out", at_work.folder / path] if path else []))
    assert done.status == 2 and why in done.err


def test_a_folder_that_others_may_change_gets_nothing(reachable):
    folder = reachable.folder / "companions"
    folder.mkdir()
    folder.chmod(0o777)
    done = reachable.run("companion", "--out", folder)
    assert done.status == 3 and "others may change what is in" in done.err and not list(folder.iterdir())


def test_a_named_office_has_its_folder(at_work, monkeypatch, tmp_path):
    monkeypatch.setattr(site, "COMPANIONS", str(tmp_path / "cache"))
    at_work.settle(office="first")
    (tmp_path / "first.env").write_text(f"PORT=801\nFILE={at_work.db}\n")
    (tmp_path / "cache" / "first").mkdir(parents=True, mode=0o700)
    for done in (at_work.as_member("companion"), at_work.as_member("--office", "first", "companion")):
        assert done.status == 0 and done.out.endswith(f", in {tmp_path}/cache/first\n"), done
    done = at_work.as_member("companion", "--out", tmp_path / "cache" / "first")
    assert done.status == 2 and "companions go to the folder" in done.err


def test_an_office_that_is_away_leaves_all_as_it_was(at_work, folder):
    refresh(at_work, folder)
    before = states(folder)
    at_work.db.rename(at_work.folder / "away")
    done = at_work.run("companion", "--out", folder)
    assert done.status in (2, 3) and states(folder) == before


def test_two_runs_follow_each_other(at_work, folder):
    refresh(at_work, folder)
    descriptor = os.open(folder, os.O_RDONLY)
    import fcntl

    fcntl.flock(descriptor, fcntl.LOCK_EX)
    done = at_work.run("companion", "--out", folder, options=("--wait", "0.1"))
    assert done.status == 3 and "another run makes the companions" in done.err
    os.close(descriptor)
    assert refresh(at_work, folder) == "0 written, 2 as before, 0 removed"


def test_a_kill_leaves_each_file_whole(at_work, folder):
    """Killed at steps all over a run, each file is as before or new, and the next run makes all of it."""
    refresh(at_work, folder)
    old = states(folder)
    at_work.toll("receive", "ACME", "K9", "SALT", "S-9", "BAY1", 5, 104)
    words = ["companion", "--out", str(folder)]
    total = kill_at(Plant(at_work.program, at_work.folder), 10**9, words, "")
    new = {name: content for name, (_, _, content) in states(folder).items()}
    for step in range(1, total, max(1, total // 12)):
        for name, (_, _, content) in old.items():
            (folder / name).write_bytes(content)
        (folder / folders.MARK).write_text("{}")
        assert kill_at(Plant(at_work.program, at_work.folder), step, words, "") == 0
        for name, (_, _, content) in states(folder).items():
            assert name == folders.MAKING or content in (old[name][2], new[name]) or content[40:] == new[name][40:], (step, name)
    refresh(at_work, folder)
    assert companion_of(folder)["movements"][-1]["key"] == "K9" and folders.MAKING not in states(folder)


def test_a_full_disk_leaves_each_file_whole(at_work, folder):
    refresh(at_work, folder)
    before = states(folder)
    at_work.toll("receive", "ACME", "K9", "SALT", "S-9", "BAY1", 5, 104)
    code = "import resource, signal, os, sys; signal.signal(signal.SIGXFSZ, signal.SIG_IGN); resource.setrlimit(resource.RLIMIT_FSIZE, (1000, 1000)); os.execv(sys.argv[1], sys.argv[1:])"
    done = subprocess.run(["/usr/bin/python3", "-c", code, HILPOVEN, "--db", at_work.db, "companion", "--out", folder], capture_output=True, text=True, env=environment(TOLL=at_work.program))
    assert done.returncode == 3 and "Traceback" not in done.stderr and states(folder) == before
    assert refresh(at_work, folder) == "1 written, 1 as before, 0 removed"


# How old they are

def test_status_reports_companions_that_are_older_than_the_file(at_work, monkeypatch, tmp_path):
    monkeypatch.setattr(site, "COMPANIONS", str(tmp_path / "cache"))
    at_work.settle(office="first")
    (tmp_path / "first.env").write_text(f"PORT=0\nFILE={at_work.db}\n")
    folder = tmp_path / "cache" / "first"
    assert "companions: " not in at_work.as_member("status").out
    folder.mkdir(parents=True, mode=0o700)
    assert at_work.as_member("companion").status == 0
    assert f"companions: {folder}, looked after 0 minutes ago" in at_work.as_member("status").out
    an_hour_ago = time.time() - 3600
    os.utime(folder / folders.MARK, (an_hour_ago, an_hour_ago))
    assert "looked after 60 minutes ago" in (out := at_work.as_member("status").out) and "older than the file" not in out
    at_work.toll("unit-add", "PRESS")
    assert f"ATTENTION: the owners' companions in {folder} are older than the file: `systemctl status toll-companion@first.timer`" in at_work.as_member("status").out
    at_work.as_member("companion")
    assert "older than the file" not in at_work.as_member("status").out


