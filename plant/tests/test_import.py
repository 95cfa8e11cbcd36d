"""Sheets go in whole but for the rows that can't, which are told by the sheet's rows; a second time only what is new."""
import contextlib
import hashlib
import json
import os
import re
import shutil
import signal
import sys
import threading
import types

import openpyxl
import pytest
from conftest import ROOT, Plant, copied, eventually, script
from hilpoven.core import client, server
from hilpoven.core.journal.query import check

sys.path.append(str(ROOT))
from bench import offices  # noqa: E402

HEADER = "key,owner,order,batch,segment,use,material,lot_owner,lot,sublot,amount,day\n"
CONSUMED = "ACME,O-1,1,1,consumed,SALT,ACME,S-1,BAY1"


def sheet(plant, text, name="sheet.csv"):
    path = plant.folder / name
    path.write_text(text)
    return path


def test_rows_that_cannot_go_in_are_told_by_their_rows(at_work):
    path = sheet(at_work, f"{HEADER}K20,{CONSUMED},1,102\n\nK21,{CONSUMED},999999,102\nK22,{CONSUMED},1.5,102\nK23,{CONSUMED},2,102\n")
    done = at_work.run("import", path)
    assert done.status == 1
    assert "row 4 (ACME K21): refused 33 NotEnough: the sublot holds less than the amount" in done.out
    assert "row 5, column K (amount)" in done.err and "1.5" in done.err
    assert done.out.splitlines()[-1] == "4 actuals: 2 accepted, 0 there already, 1 refused, 1 can't be read"
    done = at_work.run("import", path)
    assert done.status == 1 and done.out.splitlines()[-1] == "4 actuals: 0 accepted, 2 there already, 1 refused, 1 can't be read; nothing was new"


@pytest.mark.parametrize("amount", ["1.5", "1,50", "12.05"])
def test_no_fraction_is_cut_off(at_work, amount):
    path = sheet(at_work, f'{HEADER}K20,{CONSUMED},"{amount}",102\n')
    done = at_work.run("import", "--decimals", "amount", path)
    assert done.status == 1 and f"{amount!r} is no whole number of at most 10 digits" in done.err
    assert done.out == "1 actual: 0 accepted, 0 there already, 0 refused, 1 can't be read; nothing was new\n"
    assert at_work.rows("SELECT * FROM moves WHERE mkey = 'K20'") == []


def test_a_sheet_that_was_put_right_is_given_again(at_work):
    path = sheet(at_work, f"{HEADER}K20,{CONSUMED},1,102\nK21,{CONSUMED},999999,102\n")
    at_work.run("import", path)
    sheet(at_work, f"{HEADER}K20,{CONSUMED},1,102\nK21,{CONSUMED},9,102\n")
    done = at_work.run("import", path)
    assert (done.status, done.out) == (0, "2 actuals: 1 accepted, 1 there already, 0 refused, 0 can't be read\n")


def test_what_goes_in_is_what_toll_imports(at_work, laid, tmp_path):
    path = sheet(at_work, f"{HEADER}K20,{CONSUMED},1,102\nK21,{CONSUMED},2,102\nK20,{CONSUMED},1,102\n")
    at_work.run("import", path)
    mine = at_work.content()
    at_work.db.unlink()
    (at_work.folder / "office.db-wal").unlink(missing_ok=True)
    for end in ("", "-wal"):
        if (laid.folder / f"office.db{end}").exists():
            shutil.copyfile(f"{laid.db}{end}", f"{at_work.db}{end}")
    at_work.toll("import", path)
    assert at_work.content() == mine


@pytest.mark.parametrize("change, why", [
    ("key,owner\n", "the header lacks"),
    ("", "there is no header"),
    (HEADER, "there is no row under the header"),
    (HEADER.replace("day", "day,remark") + f"K20,{CONSUMED},1,102,x\n", "'remark' is none of the twelve columns"),
])
def test_a_sheet_that_is_none_gives_nothing(at_work, change, why):
    before = at_work.content()
    done = at_work.run("import", sheet(at_work, change))
    assert done.status in (1, 2) and why in done.err and "nothing of it was given" in done.err and at_work.content() == before


def test_columns_are_ignored_and_the_header_stands_below_a_title(at_work):
    path = sheet(at_work, f"Monday;;\n\n{HEADER.strip().replace(',', ';')};Remark\n" + f"k20,{CONSUMED},1,102,all well\n".replace(",", ";"))
    assert "there is no header" in at_work.run("import", path).err
    done = at_work.run("import", path, "--header-row", "3", "--ignore", "Remark")
    assert "row 4, column A (key): 'k20' has lower-case letters; --capitals takes it as K20" in done.err and done.status == 1
    done = at_work.run("import", path, "--header-row", "3", "--ignore", "Remark", "--capitals")
    assert done.status == 0 and done.out.startswith("1 actual: 1 accepted")
    assert at_work.rows("SELECT amount FROM moves WHERE mkey = 'K20'") == [(1,)]


def workbook(plant, hidden=()):
    book = openpyxl.Workbook()
    rows = [HEADER.strip().split(","), f"K20,{CONSUMED},1,102".split(","), f"K21,{CONSUMED},2,102".split(",")]
    for row in rows:
        book.active.append([int(cell) if cell.isdecimal() and at in (3, 4, 10, 11) else cell for at, cell in enumerate(row)])
    for number in hidden:
        book.active.row_dimensions[number].hidden = True
    path = plant.folder / "sheet.xlsx"
    book.save(path)
    return path


def test_hidden_rows_are_refused_unless_they_are_asked_for(at_work):
    path, before = workbook(at_work, hidden=[3]), at_work.content()
    done = at_work.run("import", path)
    assert done.status == 1 and "row 3: it is hidden; --hidden takes it" in done.err and at_work.content() == before
    assert at_work.run("import", path, "--hidden").out.startswith("2 actuals: 2 accepted")


def test_a_workbook_goes_in_by_standard_input(at_work):
    path = workbook(at_work)
    with open(path, "rb") as file:
        process = at_work.begun("import", "-", stdin=file)
        out, err = process.communicate(timeout=60)
    assert (process.returncode, out, err) == (0, "2 actuals: 2 accepted, 0 there already, 0 refused, 0 can't be read\n", "")


def test_check_gives_nothing(at_work):
    path, before = sheet(at_work, f"{HEADER}K20,{CONSUMED},1,102\nK21,{CONSUMED},x,102\n"), at_work.content()
    done = at_work.run("import", path, "--check")
    assert done.out == "1 row can be given, 1 can't be read\n" and done.status == 1 and at_work.content() == before and not at_work.journal.exists()


def test_receipts_go_in_once(at_work):
    path = sheet(at_work, "Owner,Key,Material,Lot,Sublot,Amount,Day\nACME,K30,SALT,S-30,BAY1,5,102\nACME,K31,SUGAR,S-31,BAY1,5,102\nBOLT,K32,PIGMENT,P-32,BAY1,7,102\n")
    done = at_work.run("import", "--what", "receipts", path)
    assert done.out == ("row 3 (ACME K31): refused 9 UnknownMaterial: the owner, or the source of a requirement, has no material of this name\n"
                        "3 receipts: 2 accepted, 0 there already, 1 refused, 0 can't be read\n") and done.status == 1
    assert at_work.run("import", "--what", "receipts", path).out.endswith("0 accepted, 2 there already, 1 refused, 0 can't be read; nothing was new\n")


def test_results_that_stand_with_value_and_day_are_there_already(at_work):
    path = sheet(at_work, "owner,lot,test,value,day\nACME,B-1,PH,-5,102\nACME,B-1,DENSITY,1180,102\nACME,B-1,PH,-5,102\nACME,B-1,PH,7,103\nACME,B-1,COLOUR,7,103\n")
    done = at_work.run("import", "--what", "results", path)
    assert done.out.endswith("5 results: 2 accepted, 2 there already, 1 refused, 0 can't be read\n") and "row 6 (ACME B-1 COLOUR): refused 37 UnknownTest" in done.out
    assert at_work.rows("SELECT value, day FROM results WHERE test = 'PH' ORDER BY number") == [(-5, 102), (7, 103)]
    assert at_work.run("import", "--what", "results", path).out.endswith("0 accepted, 4 there already, 1 refused, 0 can't be read; nothing was new\n")


def test_the_journal_has_each_key_of_a_sheet(at_work):
    path = sheet(at_work, f"{HEADER}K20,{CONSUMED},1,102\nK21,{CONSUMED},2,102\n", "monday.csv")
    at_work.run("import", path)
    asked, answered = at_work.lines()
    assert asked["words"] == ["import", "monday.csv"] and asked["keys"] == ["ACME K20", "ACME K21"] and len(asked["sha256"]) == len(asked["sheet_sha256"]) == 64
    assert answered["answer"].endswith("accepted 2 repeated 0 refused 0 bad 0 fault 0\n")
    assert json.loads(at_work.run("journal", "--json").out)[0]["answer"] == "accepted 2 repeated 0 refused 0 bad 0 fault 0"


def test_a_fault_is_told_and_the_rest_is_given_again(at_work):
    path = sheet(at_work, f"{HEADER}K20,{CONSUMED},1,102\n")
    failing = at_work.folder / "toll"
    failing.write_text("#!/bin/sh\necho fault Disk >&2; exit 3\n")
    failing.chmod(0o700)
    program, at_work.program = at_work.program, str(failing)
    done = at_work.run("import", path)
    assert done.status == 3 and "fault Disk" in done.err and "Import the sheet again" in done.err
    at_work.program = program
    assert at_work.run("import", path).out.startswith("1 actual: 1 accepted")


@pytest.mark.parametrize("kind, rows", [("actuals", f"{HEADER}K20,{CONSUMED},1,102\n"), ("receipts", "owner,key,material,lot,sublot,amount,day\nACME,K30,SALT,S-30,BAY1,5,102\n"),
                                        ("results", "owner,lot,test,value,day\nACME,B-1,PH,7,103\n")])
def test_a_program_that_a_signal_ends_is_reported_with_what_is_recorded(at_work, kind, rows):
    path = sheet(at_work, rows)
    program, at_work.program = at_work.program, str(script(at_work.folder / "toll", f"{at_work.program} \"$@\" > /dev/null 2>&1; kill -9 $$"))
    done = at_work.run("import", "--what", kind, path)
    assert done.status == 3 and "toll ended without an answer: 1 row got no answer, and 1 of them is recorded." in done.err, done
    at_work.program = program
    assert "1 there already" in at_work.run("import", "--what", kind, path).out


def test_a_signal_ends_an_import_with_what_is_recorded(at_work):
    """The first receipts are recorded, and the third never comes to an answer."""
    path = sheet(at_work, "owner,key,material,lot,sublot,amount,day\n" + "".join(f"ACME,K{n},SALT,S-{n},BAY1,5,102\n" for n in range(30, 40)))
    waiting = script(at_work.folder / "toll", f'case "$*" in *K32*) touch {at_work.folder}/reached; sleep 60;; *) exec {at_work.program} "$@";; esac')
    process = Plant(str(waiting), at_work.folder).begun("import", "--what", "receipts", path, start_new_session=True)
    assert eventually((at_work.folder / "reached").exists)
    os.killpg(process.pid, signal.SIGINT)
    out, err = process.communicate(timeout=60)
    assert process.returncode == 130 and out == "10 receipts: 2 accepted, 0 there already, 0 refused, 0 can't be read\n"
    assert err == "ended by SIGINT: 8 rows got no answer, and 0 of them are recorded. Import the sheet again: what stands is told as there already\n"


# Many lines go to the socket of a server: the file's own, or one that is begun for them

def receipts(plant, count, first=0):
    """A sheet of receipts, of which one in ten is refused."""
    rows = (f"ACME,K{n},{'SUGAR' if n % 10 == 9 else 'SALT'},S-{n},BAY1,5,102\n" for n in range(first, first + count))
    return sheet(plant, "owner,key,material,lot,sublot,amount,day\n" + "".join(rows))


def noted(plant):
    """What the journal has, without times, hashes and names of entries."""
    return [{name: value for name, value in line.items() if name not in ("before", "time", "id", "of", "file")} for line in plant.lines()]


@pytest.mark.parametrize("is_served", [False, True])
def test_many_lines_are_answered_and_noted_as_one_by_one(at_work, laid, tmp_path, monkeypatch, is_served):
    (tmp_path / "one").mkdir()
    one = copied(laid, Plant(laid.program, tmp_path / "one"))
    with at_work.serve() if is_served else contextlib.nullcontext():
        done = at_work.run("import", "--what", "receipts", receipts(at_work, 40, 100))
        again = at_work.run("import", "--what", "receipts", receipts(at_work, 40, 100))
    monkeypatch.setattr(client, "MANY", 1_000)
    assert done == one.run("import", "--what", "receipts", receipts(one, 40, 100)) and done.out.endswith("36 accepted, 0 there already, 4 refused, 0 can't be read\n")
    assert again == one.run("import", "--what", "receipts", receipts(one, 40, 100))
    assert noted(at_work) == noted(one) and at_work.content() == one.content()
    asked = [entry["id"] for entry in at_work.lines() if entry["event"] == "asked"]
    assert asked == [entry["of"] for entry in at_work.lines() if entry["event"] == "told"] and len(asked) == 44
    (known,) = [entry for entry in at_work.lines() if entry["event"] == "note"]  # what is there already is given once
    assert known["words"] == ["import", "sheet.csv"] and len(known["known"]) == 36 and known["sheet_sha256"]
    assert check(str(at_work.journal)).wrong == [] and (is_served or not list(at_work.folder.glob("*.sock")))


@pytest.fixture
def begun_servers(monkeypatch):
    """The servers that are begun for sheets."""
    servers, listens = [], client.listens
    monkeypatch.setattr(client, "listens", lambda process, patience: servers.append(process) or listens(process, patience))
    return servers


def at_call(monkeypatch, number, do):
    """Has something done before a line is given to a server's socket."""
    calls, ask = [], client.PlantSocket.ask

    def asked(self, words):
        calls.append(words)
        if len(calls) == number:
            do()
        return ask(self, words)
    monkeypatch.setattr(client.PlantSocket, "ask", asked)


def test_a_server_that_was_begun_goes_with_its_sheet(at_work, begun_servers):
    assert at_work.run("import", "--what", "receipts", receipts(at_work, 19, 100)).status == 1 and not begun_servers
    assert at_work.run("import", "--what", "receipts", receipts(at_work, 20, 200)).status == 1
    assert [begun_server.returncode for begun_server in begun_servers] == [-signal.SIGKILL] and not list(at_work.folder.glob("*.sock"))


def test_lines_go_on_one_by_one_where_the_server_of_the_file_ends(at_work, begun_servers, monkeypatch):
    with at_work.serve() as server:
        at_call(monkeypatch, 10, server.end)
        done = at_work.run("import", "--what", "receipts", receipts(at_work, 30, 100))
    assert done.out.endswith("27 accepted, 0 there already, 3 refused, 0 can't be read\n") and not begun_servers


def test_lines_go_one_by_one_where_no_server_begins(at_work, begun_servers):
    program = at_work.program
    at_work.program = str(script(at_work.folder / "toll", f'case "$*" in *" serve "*) exit 3;; *) exec {program} "$@";; esac'))
    done = at_work.run("import", "--what", "receipts", receipts(at_work, 20, 100))
    assert done.out.endswith("18 accepted, 0 there already, 2 refused, 0 can't be read\n") and [begun_server.returncode for begun_server in begun_servers] == [3]


def test_a_server_of_another_build_is_left_to_toll(at_work, begun_servers, monkeypatch):
    monkeypatch.setattr(client, "GREETING", "toll 0.9, office format 2")
    with at_work.serve():
        done = at_work.run("import", "--what", "receipts", receipts(at_work, 20, 100))
    assert done.out.endswith("18 accepted, 0 there already, 2 refused, 0 can't be read\n") and not begun_servers


@pytest.mark.parametrize("is_served, fault", [(False, "toll ended without an answer"), (True, "fault Lost")])
def test_a_server_that_is_killed_within_a_line_is_reported(at_work, begun_servers, monkeypatch, is_served, fault):
    """It is stopped, takes the line, and is killed before it answers."""
    frame = client.read_frame
    with at_work.serve() if is_served else contextlib.nullcontext() as running:
        def stop():
            process = running.process if is_served else begun_servers[0]

            def read_frame(peer, most):
                if most > client.MOST_GREETING:
                    process.kill()
                content = frame(peer, most)
                if most == client.MOST_GREETING and process.poll() is None:
                    process.send_signal(signal.SIGSTOP)
                return content
            monkeypatch.setattr(client, "read_frame", read_frame)
        at_call(monkeypatch, 10, stop)
        done = at_work.run("import", "--what", "receipts", receipts(at_work, 30, 100))
    assert done.status == 3 and done.out.endswith("9 accepted, 0 there already, 0 refused, 0 can't be read\n"), done
    assert done.err.startswith(f"{fault}: 21 rows got no answer, and 0 of them are recorded. Import the sheet again"), done
    assert [entry["event"] for entry in at_work.lines()] == ["asked", "told"] * 10 and at_work.lines()[-1]["status"] == 3


def test_a_signal_ends_a_long_sheet_with_what_is_recorded(at_work):
    process = at_work.begun("import", "--what", "receipts", receipts(at_work, 4_000, 100), start_new_session=True)
    assert eventually(lambda: len(at_work.lines()) > 200)
    os.killpg(process.pid, signal.SIGINT)
    out, err = process.communicate(timeout=60)
    accepted = int(re.search(r"([\d,]+) accepted", out)[1].replace(",", ""))
    without, recorded = (int(number.replace(",", "")) for number in re.search(r"SIGINT: ([\d,]+) rows got no answer, and ([\d,]+) of them", err).groups())
    assert process.returncode == 130 and 80 <= accepted < 3_600 and recorded in (0, 1) and without > 300
    assert len(at_work.rows("SELECT 1 FROM moves WHERE length(mkey) > 2")) == accepted + recorded
    assert len(check(str(at_work.journal)).unanswered) <= 1 and not list(at_work.folder.glob("*.sock"))


def test_a_server_that_was_begun_goes_with_a_command_that_is_killed(at_work):
    process = at_work.begun("import", "--what", "receipts", receipts(at_work, 4_000, 100))
    assert eventually(lambda: len(at_work.lines()) > 100)
    process.kill()
    process.communicate()
    assert eventually(lambda: at_work.toll("stock", "ACME").status == 0 and not server.greeting(str(at_work.db)))


def test_the_hash_is_of_the_bytes_that_were_read(at_work):
    """A writer swaps the sheet all the time: what is noted is the hash of the sheet whose amount was recorded."""
    path, ends = at_work.folder / "sheet.csv", threading.Event()
    texts: dict[int, str] = {}

    def swap():
        while not ends.is_set():
            for text in texts.values():
                other = at_work.folder / "other.csv"
                other.write_text(text)
                os.replace(other, path)

    for race in range(25):
        texts = {amount: f"{HEADER}K{100 + race},{CONSUMED},{amount},102\n" for amount in (1, 2)}
        path.write_text(texts[1])
        ends.clear()
        writer = threading.Thread(target=swap)
        writer.start()
        try:
            assert at_work.run("import", path).status == 0
        finally:
            ends.set()
            writer.join()
        (amount,), = at_work.rows(f"SELECT amount FROM moves WHERE mkey = 'K{100 + race}'")
        noted = [entry["sheet_sha256"] for entry in at_work.lines() if "sheet_sha256" in entry][-1]
        assert noted == hashlib.sha256(texts[amount].encode()).hexdigest(), race


def test_seventeen_thousand_actuals_go_in_but_for_three(program, tmp_path):
    plant = Plant(program, tmp_path)
    offices.with_raw_lots(types.SimpleNamespace(plant=plant.toll, db=plant.db), 100)
    lines = list(offices.records(17_000))
    bad = {5_000: (",R-", ",Z-"), 9_002: (",R-", ",r-"), 16_500: (",101\n", ",x\n")}
    for row, (old, new) in bad.items():
        assert old in lines[row - 1], lines[row - 1]
        lines[row - 1] = lines[row - 1].replace(old, new)
    path = sheet(plant, "".join(lines))
    before = sum(os.times()[:4])
    done = plant.run("import", path)
    seconds = sum(os.times()[:4]) - before  # of processors, with those of `toll`
    text = done.out + done.err
    assert done.out.splitlines()[-1] == "17,000 actuals: 16,997 accepted, 0 there already, 1 refused, 2 can't be read" and done.status == 1
    assert "row 5000 (OWNER-01 " in done.out and "row 9002, column I (lot)" in text and "row 16500, column L (day)" in text
    again = plant.run("import", path)
    assert again.out.splitlines()[-1] == "17,000 actuals: 0 accepted, 16,997 there already, 1 refused, 2 can't be read; nothing was new"
    assert seconds < 60


@pytest.mark.parametrize("again", [("007", "103"), ("7", "0103"), ("0000000007", "103"), ("7", "103")])
def test_a_result_is_there_already_however_its_numbers_are_written(at_work, again):
    rows = [("PH", "007", "103"), ("DENSITY", "01200", "103"), ("PH", "-5", "103"), ("PH", "M005", "104")]
    sheet = "owner,lot,test,value,day\n" + "".join(f"ACME,B-1,{','.join(row)}\n" for row in rows)
    assert at_work.run("import", "--what", "results", "-", stdin=sheet).out.startswith("4 results: 4 accepted")
    assert at_work.run("import", "--what", "results", "-", stdin=sheet).out.startswith("4 results: 0 accepted, 4 there already")
    other = f"owner,lot,test,value,day\nACME,B-1,PH,{','.join(again)}\nACME,B-1,DENSITY,1200,103\nACME,B-1,PH,M5,103\nACME,B-1,PH,-005,104\n"
    assert at_work.run("import", "--what", "results", "-", stdin=other).out.startswith("4 results: 0 accepted, 4 there already")
    twice = "owner,lot,test,value,day\nACME,B-1,PH,8,105\nACME,B-1,PH,08,105\n"
    assert at_work.run("import", "--what", "results", "-", stdin=twice).out.startswith("2 results: 1 accepted, 1 there already")
    assert at_work.rows("SELECT test, value, day FROM results WHERE lot = 'B-1' AND day > 102 ORDER BY day, value") == [("PH", -5, 103), ("PH", 7, 103), ("DENSITY", 1200, 103), ("PH", -5, 104), ("PH", 8, 105)]


def test_what_is_there_already_is_found_without_toll(at_work, tmp_path, monkeypatch):
    assert at_work.toll("void", "ACME", "K3").status == 0
    rows = ["K2,ACME,O-1,1,1,consumed,SALT,ACME,S-1,BAY1,300,101", "K3,ACME,O-1,1,1,consumed,WATER,HOUSE,W-101,TANK,700,101", "K4,ACME,O-1,1,2,produced,BRINE,ACME,B-1,TOTE1,979,101"]
    header = "key,owner,order,batch,segment,use,material,lot_owner,lot,sublot,amount,day"
    done = at_work.run("import", sheet(at_work, "\n".join([header, *rows]) + "\n"))
    assert (done.status, done.out.splitlines()) == (1, [
        "row 3 (ACME K3): refused 41 Voided: the actual was taken back",
        "row 4 (ACME K4): refused 35 KeyConflict: the owner has a movement with this key, and something in it differs",
        "3 actuals: 0 accepted, 1 there already, 2 refused, 0 can't be read; nothing was new"]), done
    monkeypatch.setattr(at_work, "program", str(script(tmp_path / "toll", "exit 9")))
    done = at_work.run("import", sheet(at_work, "\n".join([header, rows[0]]) + "\n"))
    assert (done.status, done.out) == (0, "1 actual: 0 accepted, 1 there already, 0 refused, 0 can't be read; nothing was new\n"), done
