"""A recall case from a supplier's lot over three files: found, held in one step with what couldn't be, letters without a byte of another owner, answers to
100 %."""
import csv
import io
import re

import pytest
from conftest import Plant
from hilpoven.cli import caller
from offices import HOUSE, WithParties

REASON = ("--reason", "metal, says the supplier")
SETUP = """
unit-add KETTLE
unit-add MIXER
material-add HOUSE WATER liter
recipe-add HOUSE RINSE 1
require HOUSE RINSE 1 consumed HOUSE WATER 10
"""
OF_OWNER = """
owner-add {0} {0}KEY1
material-add {0} SALT kg
material-add {0} BRINE kg
recipe-add {0} MAKE 1
require {0} MAKE 1 consumed {0} SALT 10
require {0} MAKE 1 consumed HOUSE WATER 10
require {0} MAKE 1 produced {0} BRINE 20
"""
OWNERS = ("ACME", "BOLT")


def batch(owner, order, unit, salt, water, product, first, closes=True):
    """The lines of a batch."""
    yield f'> {owner} POST /orders {{"order":"{order}","recipe":"MAKE","batches":1}}'
    yield f"open {owner} {order} {unit}"
    yield f"do {owner} {order} 1 start"
    yield f"actual K{first} {owner} {order} 1 1 consumed SALT {owner} {salt} BAY1 100 261127"
    yield f"actual K{first + 1} {owner} {order} 1 1 consumed WATER HOUSE {water} TANK 50 261127"
    yield f"actual K{first + 2} {owner} {order} 1 1 produced BRINE {owner} {product} TOTE1 200 261127"
    yield f"> {owner} POST /lots/{product}/release"
    yield from [f"do {owner} {order} 1 done", f"close {owner} {order} 1"] if closes else []


def ship(plant, owner, key, lot, amount, party):
    """Ships to a party."""
    assert plant.run("ship", owner, key, lot, "TOTE1", amount, 261127, "--to", party, "--document", f"DOC-{owner}-{key}").out == "accepted\n"


@pytest.fixture(scope="module")
def lived(program, tmp_path_factory):
    """An office of two owners over three files, in which a supplier's lot came as one of the plant's in the first file and as one of each owner later."""
    plant = Plant(program, tmp_path_factory.mktemp("case"))
    with pytest.MonkeyPatch.context() as patch:
        patch.setenv("TOLL", program)
        patch.setattr(caller, "login_number", lambda: caller.NOBODY)
        lines = [SETUP, *(OF_OWNER.format(owner) for owner in OWNERS)]
        plant.lay("\n".join(lines))
        assert plant.run("party", "add", "HOUSE", "SUPPLY", "--name", "Supply", "--role", "supplier").status == 0
        for owner in OWNERS:
            for party in (f"{owner}NORD", f"{owner}SUED"):
                words = ["--name", f"{party} Ltd <i>", "--phone", f"+44 {party}", "--contact", f"Ms {party}", "--role", "customer"]
                assert plant.run("party", "add", owner, party, *words).status == 0
        facts = ["--from", "SUPPLY", "--supplier-lot", "(TR-77, drum 3)"]
        assert plant.run("receive", "HOUSE", "K1", "WATER", "W-1", "TANK", 9000, 261127, *facts).out == "accepted\n"
        assert plant.run("receive", "HOUSE", "K2", "WATER", "W-2", "TANK", 9000, 261127, "--supplier-lot", "TR-770").out == "accepted\n"
        lines = ["release W-1", "release W-2"]
        for owner in OWNERS:
            lines += [f"receive {owner} K1 SALT S-1 BAY1 5000 261127", f"> {owner} POST /lots/S-1/release"]
            lines += batch(owner, "O-1", "KETTLE", "S-1", "W-1", "B-1", 10)
        plant.lay("\n".join(lines))
        for owner in OWNERS:
            ship(plant, owner, "K20", "B-1", 50, f"{owner}NORD")
        assert plant.run("scrap", "BOLT", "K90", "B-1", "TOTE1", 150, 261127).out == "accepted\n"  # nothing of it comes over
        for number in (2, 3):
            assert plant.run("carry-over", "--day", 261128).status == 0
            lines = []
            for owner in OWNERS:
                lines += batch(owner, f"O-{number}", "KETTLE" if owner == "ACME" else "MIXER", "S-1", "W-1" if number == 2 else "W-2", f"B-{number}", 10 + 10 * number, closes=number == 2)
            plant.lay("\n".join(lines))
            for owner in OWNERS:
                ship(plant, owner, f"K{20 + 30 * number}", f"B-{number}", 60 + number, f"{owner}{('NORD', 'SUED')[number % 2]}")
        lines = ["order C-1 RINSE 1"]
        plant.lay("\n".join(lines))
    return plant


@pytest.fixture
def office(lived, plant, monkeypatch):
    """The same for one test, whose journal is about its own file."""
    for path in lived.folder.glob("office*.db*"):
        if path.is_file() and path.suffix not in (".register", ".lock"):
            (plant.folder / path.name).write_bytes(path.read_bytes().replace(str(lived.db).encode(), str(plant.db).encode()) if path == lived.journal else path.read_bytes())
    monkeypatch.setenv("TOLL", plant.program)
    monkeypatch.setattr(caller, "login_number", lambda: caller.NOBODY)
    plant.settle()
    return plant


def rows(text):
    """The rows of CSV."""
    return list(csv.DictReader(io.StringIO(text)))


def status(plant, *words):
    """The table of answers, with its names as they are."""
    return [{name: cell.removeprefix('="').removesuffix('"') for name, cell in row.items()} for row in rows(plant.run("case", "status", "--csv", *words).out)]


def letters_in(target):
    """Of which owner and to which customer there are letters."""
    return sorted(path.parts[-3:-1] for path in target.glob("letters/*/*/letter.html"))


def test_a_case_from_a_supplier_s_lot_over_three_files_to_its_last_answer(office):
    done = office.run("case", "open", "--supplier-lot", "tr-77", *REASON)
    assert done.status == 0 and done.out.splitlines()[0].startswith("case C-1 began on ")
    assert done.out.splitlines()[1:] == ["  lot HOUSE W-1: receive K1, supplier's lot (TR-77, drum 3)"] * (len(done.out.splitlines()) - 1)
    shipped = {(row["owner"], row["noted_party"], row["lot"], row["had"]) for row in status(office)}
    assert shipped == {(owner, f"{owner}NORD", lot, had) for owner in OWNERS for lot, had in (("B-1", "50"), ("B-2", "62"))}
    # all that is on hand is held in one step; B-3 is made of another lot
    done = office.run("case", "hold")
    assert done.status == 0 and set(done.out.splitlines()) == {
        "held: 4", "  lot HOUSE W-1", "  lot ACME B-1", "  lot ACME B-2", "  lot BOLT B-2", "held or stopped before: 0", "could not be held: 0"}
    refused = office.run("ship", "ACME", "K99", "B-2", "TOTE1", 1, 261128)
    assert refused.status == 1 and "lot B-2 of ACME is held: recall case C-1" in refused.err
    assert "held: 0\nheld or stopped before: 4" in office.run("case", "hold").out
    # letters
    target = office.folder / "case"
    assert office.run("case", "paper", target, "--no-pdf").status == 0
    assert letters_in(target) == [("ACME", "ACMENORD"), ("BOLT", "BOLTNORD")]
    for owner, other in (OWNERS, OWNERS[::-1]):
        texts = "".join(path.read_text() for path in (target / "letters" / owner / f"{owner}NORD").iterdir())
        assert other not in texts and "TR-77" not in texts and "metal" not in texts and "W-1" not in texts and "<i>" not in texts
        assert all(word in texts for word in ("B-1", "B-2", f"DOC-{owner}-K20", "C-1", f"{owner}NORD Ltd &lt;i&gt;"))
    contacts = rows((target / "plant" / "contacts.csv").read_text())
    assert [row["noted_phone"] for row in contacts] == ['="+44 ACMENORD"', '="+44 BOLTNORD"']
    # answers, to 100 %
    assert "of which lot?" in office.run("case", "reply", "ACME", "ACMENORD", "--back", 5).err
    for owner in OWNERS:
        assert office.run("case", "reply", owner, f"{owner}NORD", "B-1", "--back", 20, "--destroyed", 30, "--reason", "Jane").status == 0
        assert "recovered, kg: 100 of 224, 44.6 %" in office.run("case", "status").out or owner == "ACME"
    assert office.run("case", "reply", "ACME", "ACMENORD", "B-1", "--back", 21, "--destroyed", 29).status == 0  # which counts
    done = office.run("case", "close")
    assert done.status == 1 and "not all of it is accounted for" in done.err
    assert "62 kg of B-2, and 63 are more" in office.run("case", "reply", "BOLT", "BOLTNORD", "B-2", "--destroyed", 60, "--gone", 3).err
    for owner in OWNERS:
        assert office.run("case", "reply", owner, f"{owner}NORD", "B-2", "--destroyed", 60, "--gone", 2).status == 0
    assert office.run("case", "paper", office.folder / "answers", "--no-pdf").status == 0
    answers = [(row["noted_party"], row["what"]) for row in rows((office.folder / "answers" / "plant" / "replies.csv").read_text())]
    assert answers[:1] + answers[-1:] == [('="ACMENORD"', '="20 back, 30 destroyed"'), ('="BOLTNORD"', '="60 destroyed, 2 not to be found"')] and len(answers) == 5, answers
    text = office.run("case", "status").out
    assert "customers that answered: 2 of 2, 100.0 %" in text and "accounted for, kg: 224 of 224, 100.0 %" in text and "recovered, kg: 220 of 224, 98.2 %" in text
    assert office.run("case", "close").status == 0 and re.search("^C-1 .* 20", office.run("case", "list").out, re.M)
    assert "is closed" in office.run("case", "hold", "--case", "C-1").err


def test_each_customer_has_a_letter_of_its_own_whatever_the_names_are(empty, monkeypatch):
    """Names have hyphens: A-B of C is none of A's B-C."""
    monkeypatch.setattr(caller, "login_number", lambda: caller.NOBODY)
    ends = (("A", "B-C"), ("A-B", "C"))
    for owner, party in ends:
        empty.lay(f"owner-add {owner} {owner.replace('-', '')}KEY12345\nmaterial-add {owner} SALT kg")
        assert empty.run("party", "add", owner, party, "--name", f"{party} Ltd", "--role", "customer").status == 0
        assert empty.run("receive", owner, "K1", "SALT", f"S-{owner}", "TOTE1", 90, 261127, "--yes").out == "accepted\n"
        assert empty.run("for", owner, "release", f"S-{owner}", "--by", "mail").status == 0
        ship(empty, owner, "K2", f"S-{owner}", 50, party)
    assert empty.run("case", "open", "A", "S-A", "--lot", "A-B", "S-A-B", *REASON).status == 0
    target = empty.folder / "case"
    assert empty.run("case", "paper", target, "--no-pdf").status == 0
    for owner, party in ends:
        text = (target / "letters" / owner / party / "letter.html").read_text()
        assert f"{party} Ltd" in text and f"DOC-{owner}-K2" in text, (owner, party)


def test_open_batches_are_stopped_and_what_can_t_be_is_named(office):
    assert office.run("case", "open", "ACME", "S-1", "--lot", "BOLT", "S-1", *REASON).status == 0
    assert office.run("open", "HOUSE", "C-1", "KETTLE").status == 1  # ACME's batch has it
    office.run("do", "ACME", "O-3", "1", "pause")
    assert office.run("do", "ACME", "O-3", "1", "done").out == "accepted\n"
    assert office.run("do", "ACME", "O-3", "1", "resume").out == "accepted\n"
    done = office.run("case", "hold")
    assert done.status == 0 and "  batch ACME O-3/1" in done.out and "  batch BOLT O-3/1" in done.out
    assert office.toll("batch", "ACME", "O-3", "1").out.split()[1] == "holding"


def test_a_batch_that_can_t_be_held_is_named(office):
    assert office.run("case", "open", "ACME", "S-1", *REASON).status == 0
    assert office.run("do", "ACME", "O-3", "1", "done").out == "accepted\n"  # it is complete
    lines = ['> ACME POST /orders {"order":"O-9","recipe":"MAKE","batches":1}']
    assert office.run("close", "ACME", "O-3", "1").out == "accepted\n"
    office.lay("\n".join([*lines, "open ACME O-9 KETTLE"]))
    assert office.run("link", "ACME", "S-1", "--batch", "O-9", "1", "--why", "use").status == 0
    done = office.run("case", "hold")
    assert done.status == 1 and "could not be held: 1\n  batch ACME O-9/1: it is idle" in done.out and "not all of it could be held" in done.err


def test_a_case_from_a_document_a_party_or_a_unit(office):
    for words, lots in ((["--document", "doc-bolt-k20"], {"BOLT B-1"}), (["--party", "ACME", "ACMENORD"], {"ACME B-1", "ACME B-2"}), (["--party", "HOUSE", "SUPPLY"], {"HOUSE W-1"}), (["--unit", "MIXER"], {"BOLT O-2/1", "BOLT O-3/1"}),
                        (["--unit", "MIXER", "--since", "2000-01-01", "--until", "2000-01-02"], set())):
        done = office.run("case", "open", *words, *REASON)
        assert {line.split(": ")[0].split(" ", 3)[3] for line in done.out.splitlines()[1:]} == lots, (words, done)
        assert done.status == (0 if lots else 1)


def test_a_return_counts_by_itself_and_not_twice(office):
    assert office.run("case", "open", "ACME", "B-2", *REASON).status == 0
    assert office.run("case", "reply", "ACME", "ACMENORD", "--back", 10).status == 0
    words = ["receive", "ACME", "K200", "BRINE", "B-2R", "BAY1", 10, site_day(office), "--of", "B-2", "--why", "return", "--from", "ACMENORD", "--yes"]
    assert office.run(*words).out == "accepted\n"
    row = next(row for row in status(office) if row["lot"] == "B-2")
    assert (row["had"], row["back"], row["open"]) == ("62", "10", "52")


def site_day(plant):
    """The day of the case."""
    return next(note["day"] for line in plant.lines() for note in line.get("notes", []) if note["kind"] == "case-open")


def test_a_case_ends_with_a_reason_where_something_is_on_hand_and_not_held(office):
    assert office.run("case", "open", "ACME", "B-1", *REASON).status == 0
    assert office.run("case", "reply", "ACME", "ACMENORD", "--destroyed", 50).status == 0
    done = office.run("case", "close")
    assert done.status == 1 and "lots: 1, of which 1 are on hand and 0 of these held" in done.err and "accounted for, kg: 50 of 50, 100.0 %" in done.err
    assert office.run("case", "hold").status == office.run("case", "close").status == 0
    assert office.run("case", "open", "ACME", "B-3", *REASON).status == 0
    assert office.run("case", "close", "--reason", "it was another lot").status == 0


def test_a_shipment_that_nobody_noted_isn_t_reached(office):
    assert office.run("ship", "ACME", "K300", "B-2", "TOTE1", 7, 261128).out == "accepted\n"
    assert office.run("case", "open", "ACME", "B-2", *REASON).status == 0
    assert ("ACME", "(not noted)", "7") in {(row["owner"], row["noted_party"], row["open"]) for row in status(office)}
    done = office.run("case", "status")
    assert "0 of 2" in done.out and "`hilpoven case paper` names the shipments whose customer nobody noted" in done.err


def test_a_drill_is_a_case_that_says_so_and_stops_nothing(office):
    done = office.run("case", "open", "W-1", "--drill", "--reason", "practice")
    assert done.out.startswith("drill C-1 began on ") and "`hilpoven case hold` shows what it would hold" in done.err
    before = office.content()
    done = office.run("case", "hold")
    assert done.status == 0 and "is a drill: nothing is held" in done.out and office.content() == before
    target = office.folder / "case"
    assert office.run("case", "paper", target, "--no-pdf").status == 0
    assert "This is a drill" in (target / "letters" / "ACME" / "ACMENORD" / "letter.html").read_text()


def test_which_case_is_meant_is_asked_where_several_are_open(office):
    assert "there is none" in office.run("case", "status").err
    for lot in ("B-1", "B-2"):
        assert office.run("case", "open", "ACME", lot, *REASON).status == 0
    assert "several are open: C-1, C-2" in office.run("case", "status").err
    assert office.run("case", "status", "--case", "C-2").status == 0 and "there is no case C-9" in office.run("case", "status", "--case", "C-9").err


@pytest.mark.parametrize("words, why", [
    ([], "nothing is given to begin with"), (["ACME", "X-1"], "there is no lot X-1"), (["B-1"], "say whose"), (["ACME", "B-1", "B-2"], "OWNER and LOT are all"), (["--supplier-lot", "TR"], "nothing is found"),
    (["--supplier-lot", "*"], "nothing is found"), (["--supplier-lot", "a\x1b[2J"], ""), (["--party", "ACME", "BOLTNORD"], "there is no party"), (["--unit", "PRESS"], "there is no unit"),
    (["--unit", "KETTLE", "--since", "yesterday"], "is no time"), (["ACME", "B-1", "--since", "2026-01-01"], "go with --unit")])
def test_what_begins_no_case_is_refused(office, words, why):
    lines = office.lines()
    done = office.run("case", "open", *words, *REASON)
    assert done.status in (1, 2) and why in done.err and office.lines() == lines, done


def test_a_recall_is_over_all_files_and_what_toll_says_comes_first(office):
    own, whole = office.toll("recall", "HOUSE", "W-1").out, office.run("years", "recall", "HOUSE", "W-1").out
    done = office.run("recall", "HOUSE", "W-1")
    assert done.status == 0 and done.out == f"{own}over all files of the office:\n{whole}" and "B-1" in done.out
    assert "ATTENTION" not in done.err and "read office-1.db" in done.err
    done = office.run("recall", "BOLT", "B-1")  # nothing of it came over
    assert done.status == 0 and done.out.startswith("refused 27 UnknownLot\nover all files of the office:\nsteps")
    done = office.run("recall", "BOLT", "X-9")
    assert done.status == 1 and "over all files" not in done.out


def test_the_paper_is_printed(office):
    pytest.importorskip("weasyprint")
    assert office.run("case", "open", "--supplier-lot", "TR-77", *REASON).status == 0
    target = office.folder / "case"
    assert office.run("case", "paper", target).status == 0
    assert all(path.read_bytes().startswith(b"%PDF-") for path in target.rglob("*.pdf")) and len(list(target.rglob("*.pdf"))) == 3


def try_letters(program, folder, seed):
    """Makes the letters of a case over a generated office, which begins with lots of each owner; how many there are."""
    office = WithParties(program, folder, seed)
    shipped = office.plant.rows("SELECT DISTINCT owner, lot FROM moves WHERE kind = 2 ORDER BY rowid")
    lots = [(HOUSE, office.chance.choice(list(office.lots[HOUSE]))), *office.chance.sample(shipped, min(6, len(shipped)))]
    words = [word for owner, lot in lots for word in ("--lot", owner, lot)]
    assert office.plant.run("case", "open", *words, *REASON).status == 0
    target = folder / "case"
    assert office.plant.run("case", "paper", target, "--no-pdf").status == 0
    letters = letters_in(target)
    for owner, party in letters:
        letter = target / "letters" / owner / party
        others = [other for other in [HOUSE, *office.owners] if other != owner]
        names = {*others, *(lot for other in others for lot in office.lots[other]), *(word for other in others for word in office.noted.get(other, ()))}
        texts = "".join(path.read_text() for path in letter.iterdir())
        assert not [name for name in names if name in texts], letter
        assert owner in texts and "metal" not in texts
    return len(letters)


@pytest.mark.parametrize("seed", (1, 7))
def test_letters_of_generated_offices_name_no_other_owner(program, tmp_path, monkeypatch, seed):
    monkeypatch.setenv("TOLL", program)
    assert try_letters(program, tmp_path / "office", seed)


@pytest.mark.long
@pytest.mark.parametrize("seed", range(100, 400))
def test_letters_of_three_hundred_generated_offices_name_no_other_owner(program, tmp_path, monkeypatch, seed):
    monkeypatch.setenv("TOLL", program)
    try_letters(program, tmp_path / "office", seed)
