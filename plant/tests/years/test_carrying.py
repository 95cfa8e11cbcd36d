"""The office goes on in a new file: what is refused, what stays, what comes over, and what the earlier files are asked."""
import contextlib
import datetime
import os
import pathlib
import shutil
import sqlite3
import stat
import subprocess
import time

import pytest
from conftest import Plant
from hilpoven.core import private_server
from hilpoven.core.files import hash_of
from hilpoven.care.years import steps

READY = ("do ACME O-1 1 done", "close ACME O-1 1")


@pytest.fixture
def ready(at_work) -> Plant:
    """An office whose batches are closed."""
    for line in READY:
        assert at_work.toll(*line.split()).out == "accepted\n"
    return at_work


def carry(plant: Plant, *options: object):
    """Carries the office over."""
    return plant.run("carry-over", plant.folder / "next.db", "--day", 261127, *options)


def names(plant: Plant) -> list[str]:
    """The files of an office's folder, but for its lock and a server's socket."""
    return sorted(path.name for path in plant.folder.iterdir() if path.suffix not in (".lock", ".sock"))


def test_an_open_batch_is_told_and_nothing_is_touched(at_work):
    before, files = at_work.content(), names(at_work)
    done = carry(at_work)
    assert done.status == 1 and "batch O-1/1 of ACME is open, on KETTLE: close it first" in done.err
    assert at_work.content() == before and names(at_work) == files


def test_a_server_and_a_reader_are_told(ready):
    before = ready.content()
    with ready.serve():
        done = carry(ready)
        assert done.status == 3 and "a server serves" in done.err
    with contextlib.closing(sqlite3.connect(ready.db)) as other:
        other.execute("SELECT * FROM units").fetchone()
        reader = subprocess.Popen(["sqlite3", ready.db], stdin=subprocess.PIPE, stdout=subprocess.PIPE, text=True)
        reader.stdin.write("SELECT 1 FROM units LIMIT 1;\n")
        reader.stdin.flush()
        reader.stdout.readline()
        done = carry(ready)
        reader.communicate()
    assert done.status == 3 and f"is open in process {reader.pid} (sqlite3)" in done.err
    assert ready.content() == before


def test_a_file_that_verify_finds_wrong_stays(ready):
    with contextlib.closing(sqlite3.connect(ready.db)) as base, base:
        base.execute("UPDATE sublots SET amount = amount + 1 WHERE lot = 'S-1'")
    done = carry(ready)
    assert done.status == 1 and "verify: sublot ACME S-1 BAY1 holds" in done.err and not (ready.folder / "office-1.db").exists()


def test_a_journal_that_was_changed_is_told(ready):
    ready.run("unit-add", "PRESS")
    ready.journal.write_text(ready.journal.read_text().replace("PRESS", "PREST"))
    ready.run("unit-add", "PUMP")
    done = carry(ready)
    assert done.status == 1 and "verify: journal: line" in done.err
    ready.journal.rename(ready.folder / "kept.journal")
    assert carry(ready).status == 0


@pytest.mark.parametrize("name", ["elsewhere/next.db", "office.db", "office-1.db", "office-17.db"])
def test_a_new_file_elsewhere_or_of_an_earlier_file_s_name_is_a_wrong_use(ready, name):
    (ready.folder / "elsewhere").mkdir()
    assert ready.run("carry-over", ready.folder / name).status == 2
    assert carry(ready, "--day", "26-11-27").status == 2


def test_a_name_that_is_taken_is_told(ready):
    (ready.folder / "next.db").write_text("something else")
    done = carry(ready)
    assert done.status == 3 and "next.db is there already" in done.err
    assert (ready.folder / "next.db").read_text() == "something else"


def test_another_office_is_never_taken_for_what_was_left(ready):
    for end in ("", "-wal"):
        if pathlib.Path(f"{ready.db}{end}").exists():
            shutil.copyfile(f"{ready.db}{end}", ready.folder / f"other.db{end}")
    assert ready.run("carry-over", ready.folder / "next.db", db=ready.folder / "other.db").status == 0
    done = ready.run("carry-over", ready.folder / "other.db")
    assert done.status == 3 and "other.db is there already" in done.err
    assert carry(ready).status == 0 and ready.toll("receive", "ACME", "K9", "SALT", "S-9", "BAY1", "5", "103").out == "accepted\n"
    ready.db.rename(ready.folder / "moved.db")
    shutil.copyfile(ready.folder / "office-1.db", ready.db)
    pathlib.Path(f"{ready.db}-wal").rename(ready.folder / "moved.db-wal")
    done = ready.run("carry-over", ready.folder / "moved.db")
    assert done.status == 3 and "moved.db is there already" in done.err


def test_the_new_file_has_the_rights_of_the_old_one(ready):
    ready.db.chmod(0o640)
    assert carry(ready).status == 0 and stat.S_IMODE(ready.db.stat().st_mode) == 0o640


def test_a_plan_does_nothing(ready):
    before, files = ready.content(), names(ready)
    with ready.serve():
        done = carry(ready, "--plan")
    assert done.status == 0 and "keys C1-1 and so on" in done.out and ready.content() == before and names(ready) == files
    rows = [line.split() for line in done.out.splitlines()]
    assert ["ACME", "movements", "5", "3", "20,000", "0", "%"] in rows
    assert ["ACME", "O-1", "BRINE-10", "3", "1", "2"] in rows


def test_the_plan_of_an_office_at_work_tells_what_is_in_the_way(at_work):
    done = carry(at_work, "--plan")
    assert done.status == 1 and "O-1/1 of ACME is open" in done.err


def test_what_lies_in_the_plant_comes_over(ready):
    ready.lay("""
receive HOUSE K2 WATER W-102 TANK 50 102
reject W-102
receive ACME K7 SALT S-2 BAY1 1000000000 102
receive ACME K8 SALT S-2 BAY1 1000000000 102
result ACME B-1 PH M4 102
> ACME POST /lots/B-1/release
> ACME POST /orders {"order":"O-2","recipe":"BRINE-10","batches":1}
> ACME POST /orders {"order":"O-3","recipe":"BRINE-10","batches":1}
> ACME POST /orders/O-3/cancel
recipe-add HOUSE CLEAN 1
order C-1 CLEAN 1
cancel C-1
""")
    stock = {owner: ready.toll("stock", owner).out for owner in ("ACME", "BOLT", "HOUSE")}
    keys = ready.rows("SELECT * FROM owners ORDER BY owner")
    done = carry(ready)
    assert done.status == 0, done
    assert {owner: ready.toll("stock", owner).out for owner in stock} == stock
    assert ready.rows("SELECT * FROM owners ORDER BY owner") == keys
    assert ready.toll("orders", "ACME").out.split()[0::4] == ["O-2", "O-3"] and "cancelled" in ready.toll("orders", "ACME").out
    assert ready.rows("SELECT mkey, amount, day FROM moves WHERE lot = 'S-2' ORDER BY 1") == [("C1-4", 1_000_000_000, 261127), ("C1-5", 1_000_000_000, 261127)]
    with ready.serve() as server:
        assert server.ask("ACME", "POST", "/orders", '{"order":"O-2","recipe":"BRINE-10","batches":1}') == (200, {"batches": 1, "order": "O-2", "recipe": "BRINE-10", "status": "open"})
        assert server.ask("ACME", "GET", "/lots/B-1")[1]["disposition"] == "released"


@pytest.mark.parametrize("left_out, why", [
    ("results", "latest results differ: only the old file has ACME B-1 DENSITY 1180 102"), ("orders", "orders without a batch differ: only the old file has ACME O-2 BRINE-10 1 0"),
    ("dispositions", "toll tells another stock of HOUSE")])
def test_a_new_file_that_differs_is_removed(ready, monkeypatch, left_out, why):
    ready.lay('> ACME POST /orders {"order":"O-2","recipe":"BRINE-10","batches":1}')
    before, files = ready.content(), names(ready)
    monkeypatch.setattr(steps, left_out, lambda base: iter(()))
    done = carry(ready)
    assert done.status == 3 and why in done.err and "nothing was changed" in done.err
    assert ready.content() == before and names(ready) == [*files, "office.db.journal"] and ready.lines()[-1]["error"].startswith(why)
    assert not any(name.startswith(".hilpoven") for name in os.listdir(ready.folder))


def test_a_step_that_toll_refuses_is_told_without_a_key(ready, monkeypatch):
    monkeypatch.setattr(steps, "definitions", lambda base: [steps.lines(base, "owner-add", "SELECT owner, okey FROM owners UNION ALL SELECT 'HOUSE', 'ACMEKEY1'")])
    done = carry(ready)
    assert done.status == 3 and "toll answered refused 4 OwnerExists to owner-add HOUSE ********" in done.err and "KEY1" not in done.err


def test_the_earlier_file_is_read_only_and_both_tell_of_one_another(ready):
    carry(ready)
    earlier = ready.folder / "office-1.db"
    assert stat.S_IMODE(earlier.stat().st_mode) == 0o400 and names(ready) == ["office-1.db", "office.db", "office.db.journal"]
    (way, file, hashed, at), = ready.rows("SELECT * FROM carried")
    assert (way, file, hashed) == ("from", "office-1.db", hash_of(str(earlier)))
    (way, file, _, when), = ready.rows("SELECT * FROM carried", earlier)
    assert (way, file, when) == ("into", "office.db", at)
    assert ready.run("verify").status == 0
    assert ready.toll("unit-add", "PRESS").out == "accepted\n"


def test_an_earlier_file_that_was_changed_or_moved_away_is_told(ready):
    carry(ready)
    earlier = ready.folder / "office-1.db"
    earlier.chmod(0o600)
    with open(earlier, "r+b") as file:
        file.seek(60)  # the user version
        file.write(b"\1\2\3\4")
    done = ready.run("years", "recall", "ACME", "S-1")
    assert done.status == 3 and "isn't the file that was carried over" in done.err and not done.out
    assert "earlier files: office-1.db; the last was carried over at 20" in ready.run("status").out
    earlier.rename(ready.folder / "away")
    done = ready.run("status")
    assert done.status == 1 and "ATTENTION: the earlier file" in done.out and "office-1.db isn't there" in done.out
    done = ready.run("years", "recall", "ACME", "S-1")
    assert done.status == 3 and "office-1.db isn't there" in done.err


def test_what_was_just_carried_over_isn_t_again(ready):
    assert carry(ready).status == 0
    done = carry(ready)
    assert done.status == 0 and "nothing is left to do" in done.out and not (ready.folder / "office-2.db").exists()


def test_no_key_stands_on_a_command_line(ready, monkeypatch):
    begun = []
    begin = subprocess.Popen.__init__
    monkeypatch.setattr(subprocess.Popen, "__init__", lambda self, words, *rest, **options: begun.append(words) or begin(self, words, *rest, **options))
    assert carry(ready).status == 0
    assert begun and not any("KEY1" in str(call) for call in begun)
    assert "KEY1" not in ready.journal.read_text()


def test_a_server_goes_with_whoever_began_it(ready):
    script = f"import os, sys; sys.path.insert(0, {str(pathlib.Path(private_server.__file__).parents[2])!r}); from hilpoven.core.private_server import PrivateServer; " \
             f"print(PrivateServer({ready.program!r}, {str(ready.db)!r}).server.pid, flush=True); os.kill(os.getpid(), 9)"
    pid = int(subprocess.run(["/usr/bin/python3", "-c", script], capture_output=True, text=True).stdout)
    for _ in range(100):
        try:
            if "Z" in pathlib.Path(f"/proc/{pid}/stat").read_text().split()[2]:
                return
        except OSError:
            return
        time.sleep(0.1)
    raise AssertionError("the server is still there")


def test_a_restored_backup_isn_t_carried_over_a_later_file(ready):
    (ready.folder / "backups").mkdir()
    assert ready.run("backup", ready.folder / "backups").status == 0
    assert ready.toll("receive", "ACME", "K9", "SALT", "S-9", "BAY1", "5", "103").out == "accepted\n"
    assert carry(ready).status == 0
    assert ready.run("restore", next((ready.folder / "backups").glob("*.db"))).status == 0
    done = carry(ready)
    assert done.status == 3 and "office-1.db was carried over into office.db, and has moves that this doesn't have" in done.err
    assert (ready.folder / "office-1.db").exists()


def test_what_an_earlier_file_has_is_told_repeated_and_not_recorded(ready):
    carry(ready)
    before = ready.content()
    done = ready.run("receive", "BOLT", "K1", "PIGMENT", "P-1", "BAY2", 80, 101)
    assert (done.status, done.out) == (0, "repeated\n") and "K1 of BOLT is in the earlier file office-1.db" in done.err
    assert ready.content() == before
    assert ready.run("receive", "BOLT", "K1", "PIGMENT", "P-2", "BAY2", 80, 101).out == "accepted\n"


@pytest.mark.parametrize("words", ["split ACME K6 B-1 TOTE1 TOTE2 80 102", "ship ACME K7 S-1 BAY1 10 103", "scrap ACME K8 S-1 BAY1 10 103",
                                   "actual K4 ACME O-1 1 2 produced BRINE ACME B-1 TOTE1 980 101"])
def test_each_kind_of_movement_that_an_earlier_file_has_is_told_repeated(ready, words):
    ready.lay("ship ACME K7 S-1 BAY1 10 103\nscrap ACME K8 S-1 BAY1 10 103")
    assert ready.toll(*words.split()).out == "repeated\n" and carry(ready).status == 0
    assert ready.run(*words.split()).out == "repeated\n"


def test_an_actual_that_was_taken_back_stays_so(at_work):
    for line in ("actual K9 ACME O-1 1 1 consumed SALT ACME S-1 BAY1 3 103", "void ACME K9", "do ACME O-1 1 done", "close ACME O-1 1"):
        assert at_work.toll(*line.split()).out == "accepted\n"
    assert carry(at_work).status == 0
    assert at_work.run(*"actual K9 ACME O-1 1 1 consumed SALT ACME S-1 BAY1 3 103".split()).out == "refused 41 Voided\n"


def test_a_sheet_from_before_does_nothing_where_an_order_of_its_name_is_there_again(ready):
    sheet = ready.folder / "before.csv"
    sheet.write_text("key,owner,order,batch,segment,use,material,lot_owner,lot,sublot,amount,day\n"
                     "K2,ACME,O-1,1,1,consumed,SALT,ACME,S-1,BAY1,300,101\n"
                     "K3,ACME,O-1,1,1,consumed,WATER,HOUSE,W-101,TANK,701,101\n"
                     "K20,ACME,O-1,1,1,consumed,SALT,ACME,S-1,BAY1,7,101\n")
    carry(ready)
    done = ready.run("import", sheet)
    assert done.status == 1 and "1 there already, 2 refused" in done.out
    assert "accepted 0 repeated 0 refused 3" in ready.toll("import", sheet).out
    ready.lay('> ACME POST /orders {"order":"O-1","recipe":"BRINE-10","batches":3}\nopen ACME O-1 KETTLE\ndo ACME O-1 1 start')
    done = ready.run("import", sheet)
    assert done.status == 1 and "row 3 (ACME K3): refused 35 KeyConflict" in done.out and "1 accepted, 1 there already, 1 refused" in done.out
    assert ready.rows("SELECT mkey FROM moves WHERE ord = 'O-1'") == [("K20",)]
    assert ready.run("actual", "K2", "ACME", "O-1", 1, 1, "consumed", "SALT", "ACME", "S-1", "BAY1", 300, 101).out == "repeated\n"


def test_receipts_from_before_are_there_already(ready):
    sheet = ready.folder / "receipts.csv"
    sheet.write_text("owner,key,material,lot,sublot,amount,day\nBOLT,K1,PIGMENT,P-1,BAY2,80,101\nBOLT,K9,PIGMENT,P-1,BAY2,5,103\n")
    carry(ready)
    done = ready.run("import", "--what", "receipts", sheet)
    assert done.status == 0 and "1 accepted, 1 there already" in done.out
    assert ready.rows("SELECT amount FROM sublots WHERE lot = 'P-1'") == [(85,)]


@pytest.fixture
def behind(ready) -> Plant:
    """An office behind a seam, where the lot S-0 of salt and the lot B-0 of a batch stayed behind."""
    ready.lay("""
receive ACME K10 SALT S-0 BAY1 5 101
scrap ACME K11 S-0 BAY1 5 102
""")
    assert carry(ready).status == 0
    return ready


def test_a_lot_that_stayed_behind_takes_no_receipt_and_no_production(behind):
    done = behind.run("receive", "ACME", "K12", "SALT", "S-0", "BAY1", 5, 103)
    assert (done.status, done.out) == (1, "") and "lot S-0 of ACME stayed behind in office-1.db" in done.err
    behind.lay('> ACME POST /orders {"order":"O-2","recipe":"BRINE-10","batches":3}\nopen ACME O-2 KETTLE\ndo ACME O-2 1 start')
    sheet = behind.folder / "sheet.csv"
    sheet.write_text("key,owner,order,batch,segment,use,material,lot_owner,lot,sublot,amount,day\nK13,ACME,O-2,1,2,produced,BRINE,ACME,S-0,BAY1,300,101\n")
    done = behind.run("import", sheet)
    assert done.status == 1 and "refused by hilpoven: lot S-0 of ACME stayed behind in office-1.db" in done.out
    assert behind.rows("SELECT * FROM lots WHERE lot = 'S-0'") == []
    done = behind.run("result", "ACME", "S-0", "PH", 5, 103)
    assert done.out == "refused 27 UnknownLot\n" and "Lot S-0 of ACME is in office-1.db, and stayed behind with nothing on hand: hilpoven years lot ACME S-0" in done.err


def test_a_lot_of_a_batch_from_before_takes_no_receipt(behind):
    done = behind.run("receive", "ACME", "K12", "BRINE", "B-1", "TOTE1", 5, 103)
    assert done.status == 1 and "lot B-1 of ACME was made by batch O-1/1 (office-1.db)" in done.err
    assert behind.toll("unit-add", "PRESS").out == "accepted\n" and carry(behind).status == 0 and (behind.folder / "office-2.db").exists()
    done = behind.run("receive", "ACME", "K12", "BRINE", "B-1", "TOTE1", 5, 103)
    assert done.status == 1 and "lot B-1 of ACME was made by batch O-1/1 (office-1.db)" in done.err


def test_a_recall_is_over_all_files_and_a_trace_says_that_it_is_of_the_newest_alone(behind):
    done = behind.run("recall", "ACME", "S-1")
    assert done.out == f"{behind.toll('recall', 'ACME', 'S-1').out}over all files of the office:\n{behind.run('years', 'recall', 'ACME', 'S-1').out}" and "ATTENTION" not in done.err
    done = behind.run("trace", "ACME", "S-1", "forward")
    assert done.err.splitlines()[-2:] == ["  ATTENTION: this is of office.db alone, which came from office-1.db: what stayed there isn't in it.", "  Over all files: hilpoven years trace ACME S-1 forward"]
    done = behind.run("years", "recall", "ACME", "S-1", "--csv")
    assert done.out.splitlines() == ["steps,owner,lot,disposition,on_hand,shipped,came_in", "0,ACME,S-1,released,4700,0,office-1.db", "1,ACME,B-1,quarantined,980,0,office-1.db"]
    assert f"read office-1.db, sha256 {hash_of(str(behind.folder / 'office-1.db'))}, carried over " in done.err and "read office.db, sha256 " in done.err


def test_a_lot_whose_name_comes_again_is_told_apart(behind):
    """`toll` itself takes a receipt into a lot of a name that stayed behind: it is another lot, in every answer."""
    assert behind.toll("receive", "ACME", "K10", "SALT", "S-0", "BAY2", 70, 104).out == "accepted\n"
    behind.lay('> ACME POST /lots/S-0/release\n> ACME POST /orders {"order":"O-1","recipe":"BRINE-10","batches":3}\nopen ACME O-1 KETTLE\ndo ACME O-1 1 start')
    behind.lay("actual K4 ACME O-1 1 1 consumed SALT ACME S-0 BAY2 30 104\nactual K5 ACME O-1 1 2 produced BRINE ACME B-2 TOTE1 30 104\ndo ACME O-1 1 done\nclose ACME O-1 1")
    for _ in range(2):
        done = behind.run("years", "recall", "ACME", "S-0", "--csv")
        assert [line.split(",")[:6] for line in done.out.splitlines()[1:]] == [["0", "ACME", "S-0", "released", "40", "0"], ["1", "ACME", "B-2", "quarantined", "30", "0"]]
        assert "another lot of this name: S-0 (office-1.db)" in done.err
        done = behind.run("years", "recall", "ACME", "S-0", "--in", "office-1.db", "--csv")
        assert [line.split(",")[:6] for line in done.out.splitlines()[1:]] == [["0", "ACME", "S-0 (office-1.db)", "quarantined", "0", "0"]]
        assert "another lot of this name: S-0\n" in done.err
        back = behind.run("years", "trace", "ACME", "B-2", "back", "--csv").out.splitlines()[1:]
        assert back == ["0,ACME,B-2", "1,ACME,S-0"]
        card = behind.run("years", "lot", "ACME", "S-0", "--in", "office-1.db").out
        assert "lot S-0 (office-1.db) of ACME" in card and "K10 (office-1.db)" in card and "K11" in card
        ledger = behind.run("years", "lot", "ACME", "S-0").out
        assert "K10  " in ledger and "K11" not in ledger and "origin: receipts" in ledger
        assert "origin: O-1 (office-1.db)/1" in behind.run("years", "lot", "ACME", "B-1").out and "origin: O-1/1" in behind.run("years", "lot", "ACME", "B-2").out
        rows = [line.split(",") for line in behind.run("years", "statement", "ACME", "--csv").out.splitlines()]
        assert ["SALT", "S-0", "kg", "0", "70", "0", "30", "0", "0", "40"] in rows and ["SALT", "S-0 (office-1.db)", "kg", "0", "5", "0", "0", "5", "0", "0"] in rows
        assert carry(behind).status == 0


def test_unknown_lots_and_files_are_told(behind):
    assert "there is no lot S-7 of ACME in any file" in behind.run("years", "recall", "ACME", "S-7").err
    assert "there are: office-1.db, office.db" in behind.run("years", "trace", "ACME", "S-1", "back", "--in", "office-9.db").err
    done = behind.run("years", "files", "--csv")
    assert [line.split(",")[0::2] for line in done.out.splitlines()[1:]] == [["office-1.db", "9"], ["office.db", "0"]]


def test_an_office_of_one_file_is_asked_the_same(at_work):
    done = at_work.run("years", "recall", "ACME", "S-1", "--csv")
    assert done.out.splitlines()[1:] == ["0,ACME,S-1,released,4700,0,office.db", "1,ACME,B-1,quarantined,980,0,office.db"]


def test_a_limit_is_told_long_before(plant):
    today = datetime.date.today()
    plant.lay("owner-add ACME ACMEKEY1\nmaterial-add ACME SALT kg\nreceive ACME K0 SALT S-1 BAY1 5 101")
    with contextlib.closing(sqlite3.connect(plant.db)) as base, base:
        for back in range(60):
            day = int((today - datetime.timedelta(back)).strftime("%y%m%d"))
            base.executemany("INSERT INTO moves SELECT owner, ?, kind, lot_owner, lot, sublot, target, material, ord, number, segment, amount, ? FROM moves WHERE owner = 'ACME' AND mkey = 'K0'",
                             ((f"K{back}-{number}", day) for number in range(150)))
    done = plant.run("status")
    full = today + datetime.timedelta((20_000 - 9_001) * 60 // 9_000)
    assert done.status == 1 and f"ATTENTION: ACME movements: 9,001 of 20,000, 45 %; at this pace full by {full}" in done.out
    assert 'hilpoven_rows_full_timestamp_seconds{owner="ACME",of="movements"}' in plant.run("status", "--prometheus").out
    plant.toll("stock", "ACME")


@pytest.mark.parametrize("days, ships, is_told", [(27, False, False), (28, False, True), (60, True, False), (60, False, True)])
def test_the_pace_is_that_of_four_weeks_behind_the_opening_stock(plant, days, ships, is_told):
    """4,600 receipts came on the first day, 20 on each one since. If something was shipped 20 days ago for the first time, all before it was
    opening stock."""
    today = datetime.date.today()
    plant.lay("owner-add ACME ACMEKEY1\nmaterial-add ACME SALT kg\nreceive ACME K0 SALT S-1 BAY1 5 101")
    copied = "INSERT INTO moves SELECT owner, ?, ?, lot_owner, lot, sublot, target, material, ord, number, segment, amount, ? FROM moves WHERE owner = 'ACME' AND mkey = 'K0'"
    with contextlib.closing(sqlite3.connect(plant.db)) as base, base:
        for back in range(days + 1):
            day = int((today - datetime.timedelta(back)).strftime("%y%m%d"))
            base.executemany(copied, ((f"K{back}-{number}", 0, day) for number in range(4_600 if back == days else 20)))
        if ships:
            base.execute(copied, ("X1", 2, int((today - datetime.timedelta(20)).strftime("%y%m%d"))))
    left = 20_000 - 4_601 - 20 * days - ships
    full = today + datetime.timedelta(left // 20)
    assert (f"full by {full}" in plant.run("status").out or str(full) in plant.run("status").out) == is_told and ("full by" in plant.run("status").out) == is_told


def test_what_was_carried_over_says_nothing_of_the_pace(ready):
    assert carry(ready, "--day", os.popen("date +%y%m%d").read().strip()).status == 0
    assert "full by 2" not in ready.run("status").out
