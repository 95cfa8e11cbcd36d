"""A plant's week: what was reworked, returned and used besides is in recalls and traces, on paper, on the board and over a carry-over."""
import html
import pathlib

import figures
import pytest
from conftest import Plant, copied, script
from hilpoven.core.journal.log import Journal
from hilpoven.report.papers import printing
from hilpoven.cli.lines import OVER_ALL
from hilpoven.model.below import HEADING
from hilpoven.model.notes import Link, Why
from hilpoven.model.register.noted import to_json

BEGUN = """
owner-add ACME ACMEKEY1
owner-add BOLT BOLTKEY1
unit-add KETTLE
material-add HOUSE ANTIFOAM kg
material-add ACME RESIN kg
material-add ACME BU kg
test-add ACME BU PH 5 9
recipe-add ACME MAKE 1
require ACME MAKE 1 consumed ACME RESIN 900
require ACME MAKE 1 consumed ACME BU 900
require ACME MAKE 1 produced ACME BU 1000
receive HOUSE K1 ANTIFOAM AF-1 CAN 50 261101
receive ACME K1 RESIN C-1 BAY1 5000 261101
> ACME POST /lots/C-1/release
> ACME POST /orders {"order":"O-1","recipe":"MAKE","batches":5}
open ACME O-1 KETTLE
do ACME O-1 1 start
actual A1 ACME O-1 1 1 consumed RESIN ACME C-1 BAY1 900 261102
"""
MADE = """
actual A2 ACME O-1 1 1 produced BU ACME BU-1 T1 950 261102
result ACME BU-1 PH 7 261102
> ACME POST /lots/BU-1/release
do ACME O-1 1 done
close ACME O-1 1
ship ACME S1 BU-1 T1 650 261103
open ACME O-1 KETTLE
do ACME O-1 2 start
actual B1 ACME O-1 2 1 consumed RESIN ACME C-1 BAY1 900 261103
actual B2 ACME O-1 2 1 produced BU ACME BU-2 T2 940 261103
result ACME BU-2 PH 12 261103
do ACME O-1 2 done
close ACME O-1 2
scrap ACME X1 BU-2 T2 940 261104
"""
REWORKED = """
result ACME BU-2-RW PH 7 261104
> ACME POST /lots/BU-2-RW/release
open ACME O-1 KETTLE
do ACME O-1 3 start
actual C1 ACME O-1 3 1 consumed BU ACME BU-2-RW T2 940 261105
actual C2 ACME O-1 3 1 produced BU ACME BU-3 T3 950 261105
result ACME BU-3 PH 7 261105
> ACME POST /lots/BU-3/release
ship ACME S2 BU-3 T3 905 261106
"""
NOTES = [
    ("use", "ACME", "O-1", 1, "HOUSE", "AF-1", "CAN", 1, 261102, "--reason", "it foamed", "--yes"),
    ("receive", "ACME", "K9", "BU", "BU-2-RW", "T2", 940, 261104, "--of", "BU-2", "--why", "rework"),
    ("receive", "ACME", "K10", "BU", "BU-1R", "T4", 400, 261107, "--of", "BU-1", "--why", "return", "--reason", "drums leaked"),
]
ADDED = {  # what is below a recall or a trace
    ("recall", "ACME", "C-1"): ["2 ACME BU-1R quarantined 400 0 *", "2 ACME BU-2-RW released 0 0 *", "3 ACME BU-3 released 45 905 *"],
    ("recall", "HOUSE", "AF-1"): ["1 ACME BU-1 released 300 650 *", "2 ACME BU-1R quarantined 400 0 *"],
    ("recall", "ACME", "BU-2-RW"): [],
    ("trace", "ACME", "BU-3", "back"): ["2 ACME BU-2 *", "3 ACME C-1 *"],
    ("trace", "ACME", "BU-1R", "back"): ["1 ACME BU-1 *", "2 ACME C-1 *", "2 HOUSE AF-1 *"],
    ("trace", "ACME", "C-1", "forward"): ["2 ACME BU-1R *", "2 ACME BU-2-RW *", "3 ACME BU-3 *"],
}


@pytest.fixture(scope="session")
def laid_week(program, tmp_path_factory) -> Plant:
    """The office behind this week, which no test changes."""
    plant = Plant(program, tmp_path_factory.mktemp("week")).lay(BEGUN)
    for note, lines in zip(NOTES, (MADE, REWORKED, "")):
        done = plant.run(*note)
        assert done.status == 0 and "accepted" in done.out, done
        plant.lay(lines)
    return plant


@pytest.fixture
def week(laid_week, plant) -> Plant:
    """The office behind this week, with its journal, for one test."""
    text = laid_week.journal.read_text().replace(str(laid_week.folder), str(plant.folder))
    copied(laid_week, plant)
    assert rechained(plant.journal, text)
    return plant


def rechained(path: pathlib.Path, text: str) -> bool:
    """Writes a journal anew whose lines were changed: each has the hash of the one before it."""
    import hashlib
    import json

    lines, before = [], "0" * 64
    for entry in map(json.loads, text.splitlines()):
        line = json.dumps({**entry, "before": before})
        lines.append(line)
        before = hashlib.sha256(line.encode()).hexdigest()
    path.write_text("".join(f"{line}\n" for line in lines))
    path.chmod(0o600)
    return bool(lines)


def below(plant: Plant, words: tuple) -> list[str]:
    """The lines under what `toll` tells, whose text is first and unchanged."""
    done, toll = plant.run(*words), plant.toll(*words)
    assert done.status == toll.status == 0 and done.out.startswith(toll.out)
    lines = done.out.removeprefix(toll.out).partition(OVER_ALL)[0].splitlines()
    assert not lines or lines[0] == HEADING and "noted by the plant" in HEADING and len(lines) > 1
    assert len({len(line) for line in lines[1:]}) <= 1 and all(line.endswith(" *") for line in lines[1:])
    return [" ".join(line.split()) for line in lines[1:]]


@pytest.mark.parametrize("words", ADDED)
def test_links_add_lines_below_what_toll_tells(week, words):
    assert below(week, words) == ADDED[words]


def test_lines_that_links_add_are_in_the_columns_of_toll(week):
    head, *_, last = week.run("recall", "ACME", "C-1").out.splitlines()
    assert last[:head.index("shipped") + len("shipped")].split() == ["3", "ACME", "BU-3", "released", "45", "905"] and last[head.index("shipped") + len("shipped"):] == " *"


def test_a_member_is_told_the_same(week):
    week.settle()
    assert week.as_member("recall", "ACME", "C-1").out == week.run("recall", "ACME", "C-1").out


def test_a_link_that_is_withdrawn_adds_nothing(week):
    for line in week.run("note", "list", "ACME", "--csv").out.splitlines()[1:]:
        note = line.split(",")[0].strip('"=')
        assert week.run("note", "withdraw", note, "--reason", "it was another lot").status == 0
    for words in ADDED:
        assert week.run(*words).out == week.toll(*words).out
    assert "noted" not in week.run("years", "recall", "ACME", "C-1", "--csv").out
    assert week.run("papers", "recall", "ACME", "C-1", week.folder / "made", "--no-pdf").status == 0
    assert "oted" not in (week.folder / "made" / "plant" / "recall.html").read_text() and not list(week.folder.rglob("links.csv"))


def test_what_toll_tells_otherwise_than_the_tables_is_told(week):
    liar = Plant(str(script(week.folder / "liar", f"'{week.program}' \"$@\" | sed '$s/^ *1/     9/'")), week.folder)
    done = liar.run("recall", "ACME", "C-1")
    assert done.status == 1 and HEADING not in done.out and "toll tells other lots than the tables" in done.err


def years_rows(plant: Plant, *words: object) -> list[list[str]]:
    """The rows of a table over all files."""
    done = plant.run("years", *words, "--csv")
    assert done.status == 0, done
    return [[cell.strip('"=') for cell in line.split(",")] for line in done.out.splitlines()]


@pytest.mark.parametrize("is_carried", [False, True])
def test_over_all_files_links_add_what_they_add_in_one(week, is_carried):
    if is_carried:
        assert week.lay("do ACME O-1 3 done\nclose ACME O-1 3").run("carry-over", week.folder / "next.db", "--day", 261201).status == 0
    head, *rows = years_rows(week, "recall", "ACME", "C-1")
    assert head[-1] == "noted" and {row[2]: (row[0], row[5], row[-1]) for row in rows} == {
        "C-1": ("0", "0", ""), "BU-1": ("1", "650", ""), "BU-2": ("1", "0", ""), "BU-1R": ("2", "0", "*"), "BU-2-RW": ("2", "0", "*"), "BU-3": ("3", "905", "*")}
    _, *rows = years_rows(week, "trace", "ACME", "BU-1R", "back")
    assert [(row[0], row[2], row[3]) for row in rows] == [("0", "BU-1R", ""), ("1", "BU-1", "*"), ("2", "C-1", "*"), ("2", "AF-1", "*")]
    if is_carried:  # of the newest file alone there is what its lots say of each other, also those that were noted before
        assert below(week, ("recall", "ACME", "C-1")) == [] and below(week, ("recall", "ACME", "BU-1")) == ["1 ACME BU-1R quarantined 400 0 *"]
        assert below(week, ("recall", "HOUSE", "AF-1")) == ["1 ACME BU-1 released 300 0 *", "2 ACME BU-1R quarantined 400 0 *"]
    papers = week.folder / "made"
    assert week.run("papers", "recall", "HOUSE", "AF-1", papers, "--no-pdf").status == 0
    for folder in (papers / "plant", papers / "owners" / "ACME"):
        lots = figures.read_csv(folder / "lots.csv")
        assert [row for row in lots if "BU-1R" in row][0].count("*") == 1
        assert [row[-1] for row in figures.read_csv(folder / "links.csv")] == ["it foamed", "drums leaked"] and "Noted by the plant" in (folder / "recall.html").read_text()


def test_a_recall_on_paper_marks_what_links_add(week):
    papers = week.folder / "made"
    assert week.run("papers", "recall", "ACME", "C-1", papers, "--no-pdf").status == 0
    assert (papers / "plant" / "recall.txt").read_text() == week.run("recall", "ACME", "C-1").out
    assert sorted(path.name for path in (papers / "owners").iterdir()) == ["ACME"]
    for folder in (papers / "plant", papers / "owners" / "ACME"):
        rows = {name: figures.read_csv(folder / f"{name}.csv") for name in ("lots", "running", "shipments", "released", "batches", "sublots", "links")}
        marked = {name: sorted(cell for row in of for cell in row if cell.startswith(("BU-", "O-1")) and ":" not in cell and "*" in row) for name, of in rows.items()}
        assert marked == {"lots": ["BU-1R", "BU-2-RW", "BU-3", "O-1/3"], "running": ["O-1/3"], "shipments": ["BU-3"], "released": ["BU-3"],
                          "batches": ["O-1/3"], "sublots": ["BU-1R", "BU-3"], "links": []}
        assert [(row[-2]) for row in rows["links"]] == ["rework", "return"]
        page = html.unescape((folder / "recall.html").read_text())
        assert page.count("stroke-dasharray=\"5,2\"") > 2 and "BU-3 *" in page and "a dashed one was noted by the plant" in page


def test_an_open_batch_that_contains_a_lot_by_a_link_is_to_be_held(week):
    assert week.run("link", "ACME", "AF-1", "--of-owner", "HOUSE", "--batch", "O-1", 3, "--why", "use").status == 0
    papers = week.folder / "made"
    assert week.run("papers", "recall", "HOUSE", "AF-1", papers, "--no-pdf").status == 0
    assert figures.read_csv(papers / "plant" / "running.csv") == [["ACME", "O-1/3", "*", "KETTLE", "running", "HOUSE AF-1 *", "hilpoven do ACME O-1 3 hold"]]
    assert "which your batches consumed or your lots contain" in (papers / "owners" / "ACME" / "recall.html").read_text()
    assert "ACME O-1/3, also AF-1 *" in week.run("board").out


def test_many_links_with_long_reasons_stand_whole_on_paper(week, monkeypatch):
    monkeypatch.setattr(printing, "LONG", 20)  # WeasyPrint takes half a second for a row of so long a word
    journal = Journal(str(week.journal), str(week.db))
    for number in range(22):
        link = Link("ACME", "BU-3", "", 0, "ACME", "C-1", Why.REWORK, None, f"N{number} ąß <b>&= {'x' * 160}")
        journal.note(journal.file, ["link"], notes=[to_json(link)])
    assert week.run("papers", "recall", "ACME", "C-1", week.folder / "made").status == 0
    for folder in (week.folder / "made" / "plant", week.folder / "made" / "owners" / "ACME"):
        text = figures.text_of_pdf(folder / "recall.pdf")
        assert {f"N{number}" for number in range(22)} <= set(text.split()) and text.count("ąß") == 22 and text.count("x") >= 22 * 160
        assert figures.read_csv(folder / "links.csv")[-1][-1].startswith("N21 ąß <b>&= x")


def test_cards_records_statements_and_the_board_show_links(week):
    def folder_of(*words: object) -> pathlib.Path:
        folder = week.folder / "-".join(map(str, words))
        done = week.run("papers", *words, folder, "--no-pdf")
        assert done.status == 0, done
        return folder

    links = {words: [row[-2] for row in figures.read_csv(folder_of(*words) / "links.csv")] for words in (
        ("lot", "ACME", "BU-1"), ("lot", "HOUSE", "AF-1"), ("batch", "ACME", "O-1", 1), ("statement", "ACME", "--from", 261101, "--to", 261130))}
    assert list(links.values()) == [["use", "return"], ["use"], ["use"], ["use", "rework", "return"]]
    assert ["made of", "HOUSE", "AF-1", "*"] in figures.read_csv(week.folder / "lot-ACME-BU-1" / "beside.csv")
    assert not (folder_of("batch", "ACME", "O-1", 2) / "links.csv").exists()
    for words in (("show", "lot", "ACME", "BU-1"), ("show", "batch", "ACME", "O-1", 1), ("years", "lot", "ACME", "BU-1"), ("years", "statement", "ACME")):
        assert "noted by the plant\n" in week.run(*words).out and "it foamed" in week.run(*words).out, words
    board = week.run("board").out
    assert "return *" in board and "* noted by the plant" in board
