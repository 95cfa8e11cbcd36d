"""Nobody signs alone what it recorded: a result of the plant's own test comes from `sign` and `hold`, whatever sheets, words and other
processes do meanwhile, and no row of a sheet takes of a lot behind its hold."""
import subprocess

import pytest
from conftest import HILPOVEN, PATIENCE, Plant, eventually, forked, script
from hilpoven.core import settings as site
from hilpoven.cli import caller

RESULTS = "owner,lot,test,value,day\n"
SHIPMENTS = "owner,key,lot,sublot,amount,day\n"
ACTUALS = "key,owner,order,batch,segment,use,material,lot_owner,lot,sublot,amount,day\n"


@pytest.fixture
def by(monkeypatch):
    """The command of an office within this process, given by a login."""
    monkeypatch.setattr(caller, "login_number", lambda: caller.NOBODY)

    def run(plant, login, *words, **options):
        with pytest.MonkeyPatch.context() as patch:
            patch.setenv("SUDO_USER", login)
            return plant.run(*words, **options)

    return run


@pytest.fixture
def office(settled, by) -> Plant:
    """An office whose settings name the plant's own test, with a lot P-8 that cora recorded and that passed its tests."""
    site.load.__defaults__[0].write_text(f'file = "{settled.db}"\n[quality]\ntest = "QA"\n')
    for words in ("material new ACME PASTE kg --test PH -5 9", "receive ACME K8 PASTE P-8 BAY1 50 103", "result ACME P-8 PH 7 103"):
        assert by(settled, "cora", *words.split()).status == 0
    return settled


def signatures(plant):
    """The lots that have results of the plant's own test, with these."""
    return plant.rows("SELECT lot, value FROM results WHERE test = 'QA' ORDER BY rowid")


def begun(plant, login, *words, program=None, stdin=subprocess.DEVNULL) -> subprocess.Popen:
    """The command as a process of its own, given by a login."""
    child = forked("--db", plant.db, *words, TOLL=str(program or plant.program), SUDO_USER=login)
    return subprocess.Popen([HILPOVEN], stdin=stdin, stdout=subprocess.PIPE, stderr=subprocess.PIPE, text=True, preexec_fn=child)


def ended(process) -> tuple[int, str]:
    """How a process ended, and what it told."""
    out, err = process.communicate(timeout=PATIENCE)
    return process.returncode, out + err


def waiting_at(plant, words):
    """A program in place of `toll` that waits at these words, until there is a file `go`; then there is a file `reached`."""
    reached, go = plant.folder / "reached", plant.folder / "go"
    return script(plant.folder / "slow-toll", f'''case "$*" in *"{words}"*) touch {reached}; while ! test -e {go}; do sleep 0.02; done ;; esac
exec {plant.program} "$@"'''), reached, go


def doing_at(plant, words, login, *command):
    """A program in place of `toll` that has a login give another command of `hilpoven` before these words."""
    given = " ".join(map(str, command))
    return script(plant.folder / "busy-toll", f'''case "$*" in *"{words}"*) SUDO_USER={login} TOLL={plant.program} HILPOVEN_SETTINGS={site.load.__defaults__[0]} \\
  {HILPOVEN} --db {plant.db} {given} > {plant.folder}/between 2>&1 < /dev/null ;; esac
exec {plant.program} "$@"''')


# A result of the plant's own test by words and sheets

def test_no_sheet_signs_a_lot_that_comes_while_it_is_read(office, by):
    busy = doing_at(office, "result ACME P-8 PH 5 104", "anna", "receive ACME K20 PASTE P-9 BAY1 5 103")
    sheet = office.folder / "sheet.csv"
    sheet.write_text(RESULTS + "ACME,P-9,QA,1,103\nACME,P-8,PH,5,104\nACME,P-9,PH,7,103\nACME,P-9,QA,1,104\nACME,P-9,QA,1,104\n")
    status, text = ended(begun(office, "anna", "import", "--what", "results", sheet, program=busy))
    assert (office.folder / "between").read_text() == "accepted\n"
    assert signatures(office) == [] and status == 1 and text.count("QA): refused by hilpoven: QA is the test by which the plant signs and holds") == 3, text
    assert "2 accepted, 0 there already, 3 refused" in text
    assert "anna recorded results or movements of lot ACME P-9" in by(office, "anna", "sign", "ACME", "P-9").err
    with office.serve() as server:
        assert server.ask("ACME", "POST", "/lots/P-9/release")[1]["error"] == "TestsOpen"


def test_no_sheet_of_many_rows_signs_one_by_the_server_that_it_begins(office, by):
    """From 20 rows on they go to a server's socket. The receipt comes while the sheet waits, as it does for a lock."""
    rows = "".join(f"ACME,P-8,PH,{number % 9},{1000 + number}\n" for number in range(400))
    process = begun(office, "anna", "import", "--what", "results", "-", stdin=subprocess.PIPE)
    process.stdin.write(RESULTS + "ACME,P-9,QA,1,103\n" + rows + "ACME,P-9,PH,7,103\n" + "ACME,P-9,QA,1,103\n" * 5)
    process.stdin.close()
    process.stdin = None
    assert eventually(lambda: len(office.lines()) > 20)
    assert by(office, "anna", "receive", "ACME", "K20", "PASTE", "P-9", "BAY1", 5, 103).out == "accepted\n"
    status, text = ended(process)
    assert status == 1 and signatures(office) == [] and "401 accepted, 0 there already, 6 refused" in text, text


@pytest.mark.parametrize("words", ["P-99 QA 1 103", "P-99 QA 0 103", "P-8 QA 01 103", "P-8 QA M1 103", "P-8 QA 1x 103", "P-8 QA 1 1030000000", "S-1 QA 1 103"])
def test_no_words_record_one_of_any_lot(office, words):
    rows = office.rows("SELECT * FROM results")
    done = office.run("result", "ACME", *words.split())
    assert done.status == 1 and done.out == "" and "hilpoven sign ACME" in done.err, done
    assert office.rows("SELECT * FROM results") == rows
    assert office.run("result", "--test", "QA", "--owner", "ACME", *[word for word in words.split() if word != "QA"]).out == ""


@pytest.mark.parametrize("test", ["qa", "Qa", "QA ", " QA", "QA\t", "QA\n", "'QA", '="QA"', "ＱＡ", "QA\u200b", "QА"])
def test_no_other_spelling_is_the_plants_test(office, test):
    """The last letter of the last one is Cyrillic."""
    office.run("result", "ACME", "P-8", test, 1, 103)
    quoted = test.replace('"', '""')
    office.run("import", "--what", "results", "-", stdin=f'{RESULTS}ACME,P-8,"{quoted}",1,103\nACME,P-99,"{quoted}",1,103\n')
    assert signatures(office) == [] and office.rows("SELECT DISTINCT test FROM results WHERE lot = 'P-8'") == [("PH",)]


def test_another_test_of_its_name_is_recorded_when_its_lot_is_there(office):
    sheet = RESULTS + "ACME,G-1,QA,3,103\n"
    for words in ("material-add ACME GLUE kg", "test-add ACME GLUE QA 1 5"):
        assert office.run(*words.split()).status == 0
    assert "row 2 (ACME G-1 QA): refused by hilpoven" in office.run("import", "--what", "results", "-", stdin=sheet).out
    assert office.run("receive", "ACME", "K30", "GLUE", "G-1", "BAY1", 5, 103).status == 0
    assert "1 accepted" in office.run("import", "--what", "results", "-", stdin=sheet).out
    assert signatures(office) == [("G-1", 3)]


# What is looked at, and what is recorded of it

def test_nothing_is_recorded_between_the_look_at_a_lot_and_its_signature(office, by):
    slow, reached, go = waiting_at(office, "result ACME P-8 QA 1")
    signing = begun(office, "bert", "sign", "ACME", "P-8", "--day", 103, program=slow)
    assert eventually(reached.exists)
    others = [begun(office, "cora", *words.split()) for words in ("result ACME P-8 PH 99 104", "scrap ACME K21 P-8 BAY1 1 104", "sign ACME P-8")]
    with pytest.raises(subprocess.TimeoutExpired):
        others[0].wait(1.5)
    assert office.rows("SELECT test, value FROM results WHERE lot = 'P-8'") == [("PH", 7)] and all(other.poll() is None for other in others)
    go.touch()
    assert ended(signing) == (0, "accepted\n")
    assert [ended(other)[0] for other in others] == [0, 0, 0]  # the signature is there already
    assert office.rows("SELECT test, value FROM results WHERE lot = 'P-8' ORDER BY rowid") == [("PH", 7), ("QA", 1), ("PH", 99)]


def test_a_signature_waits_for_what_is_being_recorded_and_sees_it(office, by):
    slow, reached, go = waiting_at(office, "result ACME P-8 PH 99")
    recording = begun(office, "cora", "result", "ACME", "P-8", "PH", 99, 104, program=slow)
    assert eventually(reached.exists)
    signing = begun(office, "bert", "sign", "ACME", "P-8")
    with pytest.raises(subprocess.TimeoutExpired):
        signing.wait(1.5)
    go.touch()
    assert ended(recording) == (0, "accepted\n")
    status, text = ended(signing)
    assert status == 1 and "no result within the limits of PH" in text and signatures(office) == []


def test_a_sheet_of_actuals_that_is_on_its_way_counts_for_its_login(office, by):
    slow, reached, go = waiting_at(office, " import ")
    sheet = office.folder / "actuals.csv"
    sheet.write_text(ACTUALS + "K20,ACME,O-1,1,2,produced,BRINE,ACME,B-1,TOTE1,5,103\n")
    assert by(office, "cora", "result", "ACME", "B-1", "PH", 7, 103).status == 0
    recording = begun(office, "anna", "import", sheet, program=slow)
    assert eventually(reached.exists)
    signing = begun(office, "anna", "sign", "ACME", "B-1")
    with pytest.raises(subprocess.TimeoutExpired):
        signing.wait(1.5)
    go.touch()
    assert ended(recording)[0] == 0
    assert "anna recorded results or movements of lot ACME B-1" in ended(signing)[1]


def test_who_can_t_wait_is_told_and_records_nothing(office, by):
    slow, reached, go = waiting_at(office, "result ACME P-8 QA 1")
    signing = begun(office, "bert", "sign", "ACME", "P-8", program=slow)
    assert eventually(reached.exists)
    done = office.run("--wait", 0.2, "result", "ACME", "P-8", "PH", 8, 104)
    assert done.status == 3 and done.out == "" and "a lot is being signed or held" in done.err
    go.touch()
    assert ended(signing)[0] == 0 and office.rows("SELECT value FROM results WHERE test = 'PH' AND lot = 'P-8'") == [(7,)]


def test_a_hold_isn_t_stopped_by_a_sheet_that_stands_still(office, by):
    slow, reached, go = waiting_at(office, "result ACME P-8 PH 5 104")
    recording = begun(office, "anna", "result", "ACME", "P-8", "PH", 5, 104, program=slow)
    assert eventually(reached.exists)
    done = by(office, "bert", "--wait", 0.2, "sign", "ACME", "P-8")
    assert done.status == 3 and f"it is held by process {recording.pid} (" in done.err
    done = by(office, "bert", "--wait", 0.2, "hold", "ACME", "P-8", "--reason", "metal")
    assert done.out == "accepted\n" and "What they began may come behind it: `hilpoven show lot ACME P-8`" in done.err
    assert by(office, "bert", "--wait", 0.2, "hold", "ACME", "S-1", "--reason", "wet").out.startswith("noted ")
    go.touch()
    assert ended(recording) == (0, "accepted\n") and signatures(office) == [("P-8", 0)]


# Holds that are a note alone

@pytest.fixture
def released(office) -> Plant:
    """The same, with much of a lot whose material hasn't the plant's test."""
    assert office.run("receive", "ACME", "K50", "SALT", "S-5", "BAY5", 100_000, 103).status == 0
    return office.lay("> ACME POST /lots/S-5/release\n")


@pytest.mark.parametrize("count", [12, 300])
def test_no_shipment_of_a_sheet_goes_out_behind_a_hold(released, by, count):
    sheet, before = SHIPMENTS + "".join(f"ACME,K{1000 + number},S-5,BAY5,1,103\n" for number in range(count)), len(released.lines())
    process = begun(released, "anna", "import", "--what", "shipments", "-", stdin=subprocess.PIPE, program=paced(released, count))
    process.stdin.write(sheet)
    process.stdin.close()
    process.stdin = None
    assert eventually(lambda: len(released.lines()) > before + 6)
    assert by(released, "bert", "hold", "ACME", "S-5", "--reason", "wet").out.startswith("noted ")
    gone = released.rows("SELECT count(*) FROM moves WHERE lot = 'S-5' AND kind = 2")
    status, text = ended(process)
    assert released.rows("SELECT count(*) FROM moves WHERE lot = 'S-5' AND kind = 2") == gone and 0 < gone[0][0] < count
    assert status == 1 and f"{gone[0][0]} accepted, 0 there already, {count - gone[0][0]} refused" in text, text
    again = by(released, "anna", "import", "--what", "shipments", "-", stdin=sheet)
    assert f"0 accepted, {gone[0][0]} there already, {count - gone[0][0]} refused" in again.out
    assert by(released, "bert", "sign", "ACME", "S-5").status == 0
    assert f"{count - gone[0][0]} accepted, {gone[0][0]} there already" in by(released, "anna", "import", "--what", "shipments", "-", stdin=sheet).out


def paced(plant, count):
    """The program; of a short sheet, which asks it for each row, one that takes a while."""
    return plant.program if count >= 20 else script(plant.folder / "paced-toll", f'sleep 0.3\nexec {plant.program} "$@"')


def test_a_row_goes_again_once_its_lot_is_signed(released, by):
    assert by(released, "bert", "hold", "ACME", "S-5", "--reason", "wet").status == 0
    busy = doing_at(released, "ship ACME K30 W-9", "bert", "sign ACME S-5")
    sheet = released.folder / "sheet.csv"
    sheet.write_text(SHIPMENTS + "ACME,K29,S-5,BAY5,1,103\nACME,K30,W-9,BAY5,1,103\nACME,K31,S-5,BAY5,1,103\n")
    process = begun(released, "anna", "import", "--what", "shipments", sheet, program=busy)
    text = ended(process)[1]
    assert released.rows("SELECT mkey FROM moves WHERE lot = 'S-5' AND kind = 2") == [], text


def test_no_part_of_a_sheet_of_actuals_goes_out_behind_a_hold(released, by):
    slow, reached, go = waiting_at(released, " import ")
    sheet = released.folder / "actuals.csv"
    sheet.write_text(ACTUALS + "".join(f"K{1000 + number},ACME,O-1,1,1,consumed,SALT,ACME,S-5,BAY5,1,103\n" for number in range(1200)))
    recording = begun(released, "anna", "import", sheet, program=slow)
    assert eventually(reached.exists)  # the first part is on its way
    holding = begun(released, "bert", "hold", "ACME", "S-5", "--reason", "wet")
    with pytest.raises(subprocess.TimeoutExpired):
        holding.wait(1.5)
    go.touch()
    assert ended(holding)[0] == 0
    gone, = released.rows("SELECT count(*) FROM moves WHERE lot = 'S-5' AND kind = 4")
    status, text = ended(recording)
    assert released.rows("SELECT count(*) FROM moves WHERE lot = 'S-5' AND kind = 4") == [gone] and 0 < gone[0] <= 500, text
    assert text.count("refused by hilpoven: lot S-5 of ACME is held: wet") == 700


def test_a_batch_uses_nothing_that_is_held_meanwhile(released, by):
    assert by(released, "bert", "hold", "ACME", "S-5", "--reason", "wet").status == 0
    for words in (["use", "ACME", "O-1", 1, "ACME", "S-5", "BAY5", 5, 103], ["use", "ACME", "O-1", 1, "ACME", "S-5", "BAY5", 5, 103, "--yes"]):
        done = released.run(*words)
        assert done.status == 1 and done.out == "" and "lot ACME S-5 is held: wet" in done.err, done
