"""The plant signs and holds lots: `toll` stops a lot that is held, the same person signs nothing that it recorded, and nothing of it
is shown as a test with a number."""
import csv
import io
import json

import pytest
from hilpoven.core import settings as site
from hilpoven.core.journal import log
from hilpoven.cli import caller
from hilpoven.model.register.noted import from_json
from notes import cut_off

QUALITY = '[quality]\ntest = "QA"\n'
PASTE = ("material", "new", "ACME", "PASTE", "kg", "--test", "PH", "-5", "9")
ACTUALS = "key,owner,order,batch,segment,use,material,lot_owner,lot,sublot,amount,day\n"
SHIPMENTS = "owner,key,lot,sublot,amount,day\n"


def settle(plant, text=QUALITY):
    """Has the settings say this besides."""
    plant.settle()
    path = site.load.__defaults__[0]
    path.write_text(path.read_text() + text)


@pytest.fixture
def by(monkeypatch):
    """The command of an office, given by a login; it is root's otherwise."""
    monkeypatch.setattr(caller, "login_number", lambda: caller.NOBODY)

    def run(plant, login, *words, **options):
        with pytest.MonkeyPatch.context() as patch:
            patch.setenv("SUDO_USER", login)
            return plant.run(*words, **options)

    return run


@pytest.fixture
def office(settled, by):
    """An office whose settings name the plant's own test, with a lot of a new material that anna recorded."""
    settle(settled)
    for words in (PASTE, ("receive", "ACME", "K8", "PASTE", "P-8", "BAY1", 50, 103), ("result", "ACME", "P-8", "PH", 7, 103)):
        assert by(settled, "anna", *words).status == 0
    return settled


def rows(plant, *words):
    """The rows of a list, by their columns."""
    return list(csv.DictReader(io.StringIO(plant.run("list", *words, "--csv").out)))


def quality_of(plant, lot):
    """What the list of lots has of a lot."""
    return next(row.get("quality", "") for row in rows(plant, "lots") if row["lot"] == lot)


def test_a_released_lot_is_stopped_by_one_command_without_a_false_result(office, by):
    assert by(office, "bert", "sign", "ACME", "P-8", "--day", 103).out == "accepted\n"
    with office.serve() as server:
        assert server.ask("ACME", "POST", "/lots/P-8/release")[0] == 200
        assert office.run("ship", "ACME", "K9", "P-8", "BAY1", 5, 103).out == "accepted\n"
        assert by(office, "bert", "hold", "ACME", "P-8", "--reason", "metal in drum 7", "--day", 104).out == "accepted\n"
        assert office.toll("ship", "ACME", "K10", "P-8", "BAY1", 5, 103).out == "refused 31 NotReleased\n"
        assert server.ask("ACME", "POST", "/lots/P-8/release")[1]["error"] == "TestsOpen"
        assert office.rows("SELECT test, value FROM results WHERE lot = 'P-8'") == [("PH", 7), ("QA", 1), ("QA", 0)]
        assert quality_of(office, "P-8") == "held: metal in drum 7"
        assert by(office, "bert", "sign", "ACME", "P-8", "--day", 105, "--reason", "drum 7 is gone").out == "accepted\n"
        assert office.run("ship", "ACME", "K10", "P-8", "BAY1", 5, 103).out == "refused 31 NotReleased\n"
        assert server.ask("ACME", "POST", "/lots/P-8/release")[0] == 200
        assert office.run("ship", "ACME", "K10", "P-8", "BAY1", 5, 103).out == "accepted\n"
    assert quality_of(office, "P-8") == "signed by the plant on 105"
    assert by(office, "anna", "sign", "ACME", "P-8").out == "lot ACME P-8 is signed by the plant on 105 already\n"


RECORDS = {
    "a receipt": ["receive ACME K20 PASTE P-9 BAY1 5 103"], "a split": ["split ACME K21 P-9 BAY1 BAY2 1 103"],
    "scrap": ["scrap ACME K21 P-9 BAY1 1 103"], "a result": ["result ACME P-9 PH 8 103"],
}


@pytest.mark.parametrize("name", RECORDS)
def test_a_login_signs_nothing_that_it_recorded_in_words(office, by, name):
    for words in ("receive ACME K20 PASTE P-9 BAY1 5 103", "result ACME P-9 PH 7 103"):
        assert by(office, "cora", *words.split()).status == 0
    for words in RECORDS[name]:
        assert by(office, "anna", *words.split()).status == 0
    done = by(office, "anna", "sign", "ACME", "P-9")
    assert done.status == 1 and done.out == "" and "anna recorded results or movements of lot ACME P-9" in done.err
    assert office.rows("SELECT * FROM results WHERE test = 'QA'") == []
    assert by(office, "bert", "sign", "ACME", "P-9").out == "accepted\n"


@pytest.mark.parametrize("kind, sheet", [
    ("receipts", "owner,key,material,lot,sublot,amount,day\nACME,K20,PASTE,P-9,BAY1,5,103\n"), ("results", "owner,lot,test,value,day\nACME,P-9,PH,8,103\n"),
    ("shipments", SHIPMENTS + "ACME,K21,P-9,BAY1,1,103\n")])
def test_a_login_signs_nothing_that_it_recorded_by_a_sheet(office, by, kind, sheet):
    settle(office, '[quality]\ntest = "QA"\npersons = 2\n')
    for words in ("receive ACME K20 PASTE P-9 BAY1 5 103", "result ACME P-9 PH 7 103"):
        assert by(office, "cora", *words.split()).status == 0
    if kind == "shipments":
        assert by(office, "bert", "sign", "ACME", "P-9").status == 0
        office.lay("> ACME POST /lots/P-9/release\n")
    assert by(office, "anna", "import", "--what", kind, "-", stdin=sheet).status == 0
    assert by(office, "bert", "hold", "ACME", "P-9", "--reason", "look").status == 0
    assert by(office, "anna", "sign", "ACME", "P-9").status == 1
    assert by(office, "bert", "sign", "ACME", "P-9").status == 0


def test_actuals_of_a_sheet_and_voids_count_too(office, by):
    sheet = ACTUALS + "K20,ACME,O-1,1,2,produced,BRINE,ACME,B-1,TOTE1,5,103\n"
    assert by(office, "anna", "import", "-", stdin=sheet).status == 0
    assert by(office, "cora", "void", "ACME", "K20").status == 0
    assert by(office, "cora", "result", "ACME", "B-1", "PH", 7, 103).status == 0
    assert [by(office, who, "sign", "ACME", "B-1").status for who in ("anna", "cora", "bert")] == [1, 1, 0]


def test_whoever_was_refused_recorded_nothing_and_the_settings_may_let_one_person_do_all(office, by):
    assert by(office, "bert", "result", "ACME", "P-8", "PH", "1x", 103).status == 1
    assert by(office, "bert", "scrap", "ACME", "K99", "P-8", "BAY1", 5000, 103).status == 1
    assert by(office, "bert", "sign", "ACME", "P-8").status == 0
    assert by(office, "bert", "hold", "ACME", "P-8", "--reason", "look").status == 0
    settle(office, '[quality]\ntest = "QA"\npersons = 1\n')
    assert by(office, "anna", "sign", "ACME", "P-8").out == "accepted\n"


def test_a_lot_is_signed_when_its_own_tests_are_passed(office, by):
    by(office, "anna", "receive", "ACME", "K20", "PASTE", "P-9", "BAY1", 5, 103)
    done = by(office, "bert", "sign", "ACME", "P-9")
    assert done.status == 1 and "lot ACME P-9 has no result within the limits of PH" in done.err
    assert by(office, "bert", "sign", "ACME", "P-0").status == 1 and by(office, "bert", "sign", "ACNE", "P-9").status == 1
    assert by(office, "bert", "sign", "ACME", "P-8", "--day", "1x").status == 2 and by(office, "bert", "hold", "ACME", "P-8").status == 2
    assert office.rows("SELECT * FROM results WHERE test = 'QA'") == []


def test_nobody_types_a_result_of_the_plants_own_test(office):
    lines = office.lines()
    done = office.run("result", "ACME", "P-8", "QA", 1, 103)
    assert done.status == 1 and done.out == "" and "`hilpoven sign ACME P-8`" in done.err
    done = office.run("import", "--what", "results", "-", stdin="owner,lot,test,value,day\nACME,P-8,QA,1,103\nACME,P-8,PH,8,103\n")
    assert done.status == 1 and "row 2 (ACME P-8 QA): refused by hilpoven" in done.out and "1 accepted, 0 there already, 1 refused" in done.out
    assert office.rows("SELECT value FROM results WHERE test = 'QA'") == [] and len(office.lines()) == len(lines) + 2
    for words in (["material-add", "ACME", "GLUE", "kg"], ["test-add", "ACME", "GLUE", "QA", 1, 5], ["receive", "ACME", "K30", "GLUE", "G-1", "BAY1", 5, 103]):
        assert office.run(*words).status == 0
    assert office.run("result", "ACME", "G-1", "QA", 3, 103).out == "accepted\n"


def test_a_lot_without_the_plants_test_is_held_by_a_note_which_hilpoven_goes_by(settled, by):
    assert settled.run("ship", "ACME", "K9", "S-1", "BAY1", 5, 103).out == "accepted\n"
    done = by(settled, "bert", "hold", "ACME", "S-1", "--reason", "wet", "--day", 103)
    assert done.status == 0 and done.out.startswith("noted ") and quality_of(settled, "S-1") == "held: wet"
    actual = ["ACME", "O-1", 1, 1, "consumed", "SALT", "ACME", "S-1", "BAY1", 5, 103]
    for words in (["ship", "ACME", "K10", "S-1", "BAY1", 5, 103], ["actual", "K11", *actual]):
        done = settled.run(*words)
        assert done == (1, "", "refused by hilpoven: lot S-1 of ACME is held: wet; `hilpoven sign ACME S-1` lets it go\n")
    assert settled.run("papers", "certificate", "ACME", "S-1", settled.folder / "held", "--no-pdf").status == 0
    page = (settled.folder / "held" / "certificate.html").read_text()
    assert "This lot is held: it is not to be used." in page and "This lot is released" not in page
    assert "lot ACME S-1 is held: wet" in settled.run("use", "ACME", "O-1", 1, "ACME", "S-1", "BAY1", 5, 103).err
    sheet = SHIPMENTS + "ACME,K9,S-1,BAY1,5,103\nACME,K10,S-1,BAY1,5,103\n"
    assert "1 there already, 1 refused" in settled.run("import", "--what", "shipments", "-", stdin=sheet).out
    sheet = ACTUALS + "K2,ACME,O-1,1,1,consumed,SALT,ACME,S-1,BAY1,300,101\nK12,ACME,O-1,1,1,consumed,SALT,ACME,S-1,BAY1,5,103\nK13,ACME,O-1,1,2,produced,BRINE,ACME,B-2,TOTE1,5,103\n"
    done = settled.run("import", "-", stdin=sheet)
    assert "row 3 (ACME K12): refused by hilpoven: lot S-1 of ACME is held: wet" in done.out and "1 accepted, 1 there already, 1 refused" in done.out
    assert settled.run("ship", "ACME", "K9", "S-1", "BAY1", 5, 103).out == "repeated\n"
    assert settled.run("split", "ACME", "K14", "S-1", "BAY1", "BAY2", 5, 103).status == settled.run("scrap", "ACME", "K15", "S-1", "BAY1", 5, 103).status == 0
    assert {key for key, in settled.rows("SELECT mkey FROM moves WHERE lot = 'S-1'")} == {"K1", "K2", "K9", "K14", "K15"}
    assert by(settled, "bert", "sign", "ACME", "S-1", "--day", 104).status == 0 and quality_of(settled, "S-1") == "signed by the plant on 104"
    assert settled.run("ship", "ACME", "K10", "S-1", "BAY1", 5, 103).out == "accepted\n"


def test_a_hold_is_withdrawn_by_nobody(settled, by):
    name = by(settled, "bert", "hold", "ACME", "S-1", "--reason", "wet").out.split()[1]
    assert "nobody withdraws" in settled.run("note", "withdraw", name, "--reason", "no").err
    note = {"kind": "withdrawal", "owner": "ACME", "of": name, "reason": "no"}
    log.Journal(str(settled.journal), str(settled.db)).note(str(settled.db), ["note", "withdraw"], notes=[note])
    assert settled.run("ship", "ACME", "K9", "S-1", "BAY1", 5, 103).status == 1 and quality_of(settled, "S-1") == "held: wet"


def test_a_note_of_a_result_counts_while_toll_has_the_result(office, by):
    assert by(office, "bert", "hold", "ACME", "P-8", "--reason", "wet", "--day", 104).status == 0
    cut_off(office)
    assert "yes" in office.run("note", "list", "ACME").out and quality_of(office, "P-8") == "held: wet"
    lines = office.journal.read_text().replace('"0", "104"', '"0", "105"')
    office.journal.write_text(lines)
    assert "no: its result isn't there" in office.run("note", "list", "ACME").out and quality_of(office, "P-8") == "held"


def test_a_note_of_a_refused_result_doesn_t_count(office, by):
    for words in (["material", "new", "HOUSE", "STEAM", "kg"], ["receive", "HOUSE", "K8", "STEAM", "T-1", "TANK", 5, 103], ["reject", "T-1", "--reason", "cold"]):
        assert by(office, "anna", *words).status == 0
    assert by(office, "bert", "hold", "HOUSE", "T-1", "--reason", "wet").out == "refused 42 Rejected\n"
    assert "no: its command was refused" in office.run("note", "list", "HOUSE").out


def test_a_held_lot_stays_held_in_the_next_file(office, by):
    assert by(office, "bert", "hold", "ACME", "P-8", "--reason", "metal", "--day", 104).status == 0
    assert by(office, "bert", "hold", "ACME", "S-1", "--reason", "wet", "--day", 104).status == 0
    office.lay("do ACME O-1 1 stop\ndo ACME O-1 1 done\nclose ACME O-1 1\n")
    done = office.run("carry-over", office.folder / "next.db", "--day", 261127)
    assert done.status == 0, done
    assert [quality_of(office, lot) for lot in ("P-8", "S-1")] == ["held: metal", "held: wet"]
    assert office.run("ship", "ACME", "K50", "S-1", "BAY1", 5, 103).status == 1
    assert by(office, "anna", "sign", "ACME", "P-8").status == 1 and by(office, "bert", "sign", "ACME", "P-8").status == 0


def test_nothing_of_it_is_shown_as_a_test_with_a_number(office, by):
    shown = office.run("show", "lot", "ACME", "P-8")
    assert "quality: not signed by the plant" in shown.out and "Missing for its release:\n  the plant's signature\n" in shown.out
    assert by(office, "bert", "sign", "ACME", "P-8", "--day", 260103).status == 0
    shown = json.loads(office.run("show", "lot", "ACME", "P-8", "--json").out)
    assert shown["quality"] == "signed by the plant on 2026-01-03" and [test["test"] for test in shown["tests"]] == ["PH"]
    for words in (["certificate", "ACME", "P-8"], ["lot", "ACME", "P-8"]):
        assert office.run("papers", *words, office.folder / words[0], "--no-pdf").status == 0
        page = (office.folder / words[0] / f"{words[0]}.html").read_text()
        assert "signed by the plant on 2026-01-03" in page and "QA" not in page and "PH" in page
    assert by(office, "bert", "hold", "ACME", "P-8", "--reason", "<metal>", "--day", 260104).status == 0
    assert office.run("papers", "lot", "ACME", "P-8", office.folder / "held", "--no-pdf").status == 0
    page = (office.folder / "held" / "lot.html").read_text()
    assert "held: &lt;metal&gt;" in page and "hold on 2026-01-04" in page
    board = office.run("board").out
    assert "ACME P-8" in board and "&lt;metal&gt;" in board and "QA" not in board


def test_reasons_are_kept_and_shown(settled, by):
    settled.lay("> ACME POST /orders {\"order\":\"O-2\",\"recipe\":\"BRINE-10\",\"batches\":1}\nrecipe-add HOUSE CLEAN 1\norder C-1 CLEAN 1\n")
    given = ["scrap ACME K20 B-1 TOTE1 5 103", "void ACME K2", "reject W-101", "do ACME O-1 1 abort", "cancel C-1"]
    for at, words in enumerate(given):
        assert settled.run(*words.split(), "--reason", f"why {at}").out == "accepted\n"
    assert settled.run("scrap", "ACME", "K21", "B-1", "TOTE1", 5000, 103, "--reason", "too much").status == 1
    assert settled.run("void", "ACME", "K3", "--reason", "").status == 2
    text = settled.run("note", "list").out
    assert all(f"why {at}" in text for at in range(5)) and "abort O-1/1 of ACME: why 3" in text
    for words, expected in ((["lot", "ACME", "B-1"], ["why 0"]), (["batch", "ACME", "O-1", "1"], ["why 1", "why 3"]), (["lot", "HOUSE", "W-101"], ["why 2"])):
        folder = settled.folder / "-".join(words)
        assert settled.run("papers", *words, folder, "--no-pdf").status == 0
        page = next(folder.rglob("*.html")).read_text()
        assert [f"why {at}" for at in range(5) if f"why {at}" in page] == expected and "too much" not in page
    assert not (settled.folder / "batch-ACME-O-1-1" / "links.csv").exists()


def test_a_material_with_all_its_tests_is_one_step(office, by):
    done = office.run(*PASTE)
    assert done.status == 0 and done.out.splitlines() == [
        "material-add ACME PASTE kg: there already", "test-add ACME PASTE PH M5 9: there already", "test-add ACME PASTE QA 1 1: there already"]
    lines = len(office.lines())
    for words, status in (([*PASTE[:3], "PASTE", "liter"], 1), ([*PASTE[:5], "--test", "PH", "-5", "8"], 1), ([*PASTE[:5], "--test", "QA", "0", "1"], 2),
                          ([*PASTE[:3], "paste", "kg"], 2), ([*PASTE[:5], "--test", "PH", "9", "-5"], 2), (["material", "new", "ACNE", "GLUE", "kg"], 1)):
        assert office.run(*words).status == status
    assert len(office.lines()) == lines
    done = office.run("material", "new", "ACME", "SALT", "kg")
    assert done.status == 1 and done.out == "material-add ACME SALT kg: there already\ntest-add ACME SALT QA 1 1: refused 10 MaterialInUse\n"


@pytest.mark.parametrize("value", [
    {"kind": "held", "owner": "ACME", "lot": "S-1", "day": 103, "reason": "a\nb"}, {"kind": "held", "owner": "ACME", "lot": "S-1", "day": -1, "reason": "a"},
    {"kind": "held", "owner": "ACME", "lot": "S-1", "day": True, "reason": "a"}, {"kind": "held", "owner": "ACME", "day": 103, "reason": "a"},
    {"kind": "signed", "owner": "ACME", "lot": "s-1", "day": 103}, {"kind": "signed", "owner": "ACME", "lot": "S-1", "day": 103, "key": "K1"},
    {"kind": "reason", "owner": "ACME", "command": "scrap", "reason": "a"}, {"kind": "reason", "owner": "ACME", "command": "\x1b[2J", "reason": "a", "key": "K1"},
    {"kind": "reason", "owner": "ACME", "command": ["do"], "reason": "a", "key": "K1"}, {"kind": "reason", "owner": "ACME", "command": "do", "reason": "a", "order": "O-1", "batch": 0.5}])
def test_what_no_command_notes_is_no_note(value):
    assert from_json(value) is None


@pytest.mark.parametrize("text, why", [("quality = 1\n", "quality is to be a table"), ("[quality]\ntest = 1\n", "test is to be a text"), ("[quality]\ntest = \"qa\"\n", "has lower-case letters"),
                                       ("[quality]\npersons = 3\n", "persons is to be from 1 to 2"), ("[quality]\nname = \"QA\"\n", "name is no line of [quality]")])
def test_wrong_settings_are_told(settled, text, why):
    settle(settled, text)
    done = settled.run("list", "lots")
    assert done.status == 2 and why in done.err
