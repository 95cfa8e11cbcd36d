"""The files of papers have the names that docs/papers.md gives them."""
import pathlib
import re

from conftest import ROOT, Plant

PAGE = (ROOT / "docs" / "papers.md").read_text()
ROWS = re.findall(r"^- ([a-z ]+) \((\w+)\): ([\w ]+)(?:; ([\w ]+))?$", PAGE, re.M)
FILES = {name: (page, set(tables.split()), set(optional.split())) for name, page, tables, optional in ROWS}
WORDS = {
    "recall": "recall HOUSE W-101", "batch record": "batch ACME O-1 1", "certificate": "certificate ACME B-1", "delivery note": "delivery-note ACME K9", "lot card": "lot ACME S-1",
    "statement": "statement ACME --from 100 --to 9999999", "settlement": "settlement ACME --from 0 --to 9999999", "takeout": "takeout ACME"}
SHIPPED = "ship ACME K9 S-1 BAY1 5 105"
NOTES = ("party add ACME NORD --name Nord --role customer", "receive ACME K7 BRINE B-2 BAY1 70 105 --of B-1 --why return --document D-1", "ship ACME K8 S-1 BAY1 5 99 --to NORD --yes",
         "describe lot ACME B-1 --made 261101", "describe recipe ACME BRINE-10 --allowance 1", "hold ACME B-1 --reason wet", "link ACME B-1 S-1 --why rework --amount 5", "void ACME K2 --reason wrong",
         "result ACME B-1 PH 5 105", "use ACME O-1 1 HOUSE W-101 TANK 5 105", "correct ACME K7 --amount 60 --reason typed --day 105", "correct ACME K8 --amount 4 --reason typed --day 105",
         "link BOLT P-1 B-1 --of-owner ACME --why residue", "clean MIXER --how hot", "do ACME O-1 1 hold --reason pump",
         "do ACME O-1 1 done", "do ACME O-1 1 restart", "do ACME O-1 1 done", "do ACME O-1 1 done", "close ACME O-1 1", "open ACME O-1 KETTLE --yes")

TWO = """
material-add ACME PASTE kg
recipe-add ACME TWO 1
require ACME TWO 1 consumed ACME SALT 10
require ACME TWO 1 produced ACME BRINE 10
require ACME TWO 1 produced ACME PASTE 5
> ACME POST /orders {"order":"T-1","recipe":"TWO","batches":2}
"""
BATCH = """
open ACME T-1 MIXER
do ACME T-1 {0} start
actual KA{0} ACME T-1 {0} 1 produced BRINE ACME TB-{0} BAY1 10 250105
actual KB{0} ACME T-1 {0} 1 produced PASTE ACME TP-{0} BAY1 5 250105
do ACME T-1 {0} done
close ACME T-1 {0}
"""


def optional_tables(document: str, folder: pathlib.Path) -> set[str]:
    """The tables of a document that may be missing, and aren't. The others are always there."""
    page, tables, optional = FILES[document]
    names = {path.name for path in folder.iterdir()} - {"recall.txt"}
    present = {name.removesuffix(".csv") for name in names if name.endswith(".csv")}
    assert names == {f"{page}.html", *(f"{name}.csv" for name in present)} and tables <= present <= tables | optional, (document, names)
    if document != "recall":  # in which all owners have the same tables, once the plant noted parties
        assert all(len((folder / f"{name}.csv").read_text().splitlines()) > 1 for name in present & optional)
    return present & optional


def tables_of(plant: Plant, folder: str) -> dict[str, set[str]]:
    """The tables of each document but the drill's that may be missing, and aren't."""
    tables: dict[str, set[str]] = {}
    for document, words in WORDS.items():
        target = plant.folder / folder / document
        done = plant.run("papers", *words.split(), target, "--no-pdf")
        assert done.status == 0, done
        tables[document] = set().union(*(optional_tables(document, below) for below in ([target / "plant", *(target / "owners").iterdir()] if document == "recall" else [target])))
    return tables


def test_papers_have_the_files_that_the_page_names(at_work):
    (at_work.folder / "plain").mkdir()
    (at_work.folder / "noted").mkdir()
    plain = tables_of(at_work.lay(SHIPPED), "plain")
    for words in NOTES:
        done = at_work.run(*words.split())
        assert done.status == 0, (words, done)
    noted = tables_of(at_work, "noted")
    noted["settlement"] |= tables_of_closed(at_work)
    assert [document for document, tables in plain.items() if tables] == ["takeout"]
    assert noted == {document: FILES[document][2] for document in noted}


def tables_of_closed(plant: Plant) -> set[str]:
    """The tables that may be missing of a settlement that is closed behind another one, which was corrected since."""
    plant.lay(TWO + BATCH.format(1))
    assert plant.run("settle", "ACME", 2501, plant.folder / "first", "--no-pdf").status == 0
    plant.lay(BATCH.format(2))
    assert plant.run("receive", "ACME", "K41", "PASTE", "TP-1C", "BAY1", 2, 250106, "--of", "TP-1", "--why", "correction").status == 0
    assert plant.run("settle", "ACME", 2502, plant.folder / "second", "--no-pdf").status == 0
    return optional_tables("settlement", plant.folder / "second")


def test_a_drill_has_the_files_that_the_page_names(settled):
    assert settled.run("drill", "start", "ACME", "B-1").status == 0
    assert settled.run("drill", "end", settled.folder / "made", "--no-pdf").status == 0
    assert optional_tables("drill", settled.folder / "made") == set()
