"""Who has it: recalls, certificates, delivery notes and lot cards with what the plant noted, as they were looked at."""
import csv
import re
import shutil

import figures
import pytest
from test_papers_texts import SHIPPED, look_at_texts

SCRIPT = "<script>alert('x')</script> & \"Söhne\" {{ 1 }} %s"
NOTES = (
    ("party", "add", "ACME", "NORD", "--name", "Nord Foods Ltd", "--contact", "Jane Doe", "--phone", "+44 20 7946 0000", "--address", "12 Quay Street, Hull", "--role", "customer"),
    ("party", "add", "ACME", "SALINE", "--name", "Saline AG", "--role", "supplier"),
    ("party", "add", "HOUSE", "SPRING", "--name", "Spring Waters", "--role", "supplier"),
    ("ship", "ACME", "K8", "B-1", "TOTE1", 60, 261105, "--to", "NORD", "--document", "LS 4711"), ("ship", "ACME", "K9", "B-1", "TOTE1", 40, 261106, "--to", "NORD", "--document", "LS 4711"),
    ("receive", "ACME", "K10", "SALT", "S-2", "BAY1", 70, 261101, "--from", "SALINE", "--supplier-lot", "SAL/26/7", "--document", "D 1001"),
    ("receive", "HOUSE", "K10", "WATER", "W-102", "TANK", 70, 261101, "--from", "SPRING", "--document", "D 1002"),
)
PAPERS = {  # by what is made: the PDFs, each with its text
    "recall HOUSE W-101": {"plant/recall.pdf": "recall-with-recipients", "owners/ACME/recall.pdf": "recall-of-owner-with-recipients"},
    "certificate ACME B-1 --shipment K8": {"certificate.pdf": "certificate-of-shipment"}, "delivery-note ACME K8 --with K9": {"delivery.pdf": "delivery-note"},
    "lot ACME S-2": {"lot.pdf": "lot-with-supplier"}, "lot ACME B-1": {"lot.pdf": "lot-with-recipients"},
}


@pytest.fixture
def noted(at_work):
    """An office that shipped and received with notes, and shipped once without."""
    at_work.lay(SHIPPED)
    for words in NOTES:
        assert at_work.run(*words).status == 0, words
    return at_work


def folder_of(plant, *words):
    """The folder of a paper without a PDF."""
    folder = plant.folder / "made"
    done = plant.run("papers", *words, folder, "--no-pdf")
    assert (done.status, done.err) == (0, ""), done
    return folder


@pytest.mark.parametrize("words", PAPERS)
def test_a_paper_with_notes_reads_as_it_was_looked_at(noted, words):
    look_at_texts(noted, words, PAPERS[words])


def test_what_is_not_noted_is_told_first(noted):
    page = (folder_of(noted, "recall", "HOUSE", "W-101") / "plant" / "recall.html").read_text()
    order = [page.index(part) for part in ("Who has it", "Nobody noted who has 1 of 3 shipments", "hilpoven note movement ACME K7 --to PARTY", "Nord Foods Ltd", "What to do first")]
    assert order == sorted(order)
    assert noted.run("note", "movement", "ACME", "K7", "--to", "NORD").status == 0
    assert noted.run("papers", "recall", "HOUSE", "W-101", noted.folder / "again", "--no-pdf").status == 0
    page = (noted.folder / "again" / "plant" / "recall.html").read_text()
    assert "Nobody noted" not in page
    contact, = figures.read_csv(noted.folder / "again" / "plant" / "contacts.csv")
    assert contact == ["ACME", "NORD", "Nord Foods Ltd", "Jane Doe", "+44 20 7946 0000", "12 Quay Street, Hull", "3"]


def test_an_owner_has_its_own_parties_alone_and_the_plants_suppliers_stay_there(noted):
    assert noted.run("party", "add", "BOLT", "BOLTON", "--name", "Bolton Mills", "--role", "customer").status == 0
    folder = folder_of(noted, "recall", "HOUSE", "W-101")
    for file in (folder / "owners").rglob("*.*"):
        assert not re.search("SPRING|Spring Waters|BOLTON|Bolton Mills|D 1002", file.read_text()), file
    assert "SPRING" in (folder_of(noted_again(noted), "lot", "HOUSE", "W-102") / "lot.html").read_text()


def noted_again(plant):
    """The same office, whose paper is made anew."""
    shutil.rmtree(plant.folder / "made")
    return plant


def test_without_notes_a_paper_says_nothing_of_them(at_work):
    at_work.lay(SHIPPED)
    folder = folder_of(at_work, "recall", "HOUSE", "W-101")
    assert sorted(path.stem for path in (folder / "plant").glob("*.csv")) == ["batches", "flows", "lots", "released", "running", "shipments", "sublots", "sums"]
    for file in folder.rglob("*.*"):
        assert "noted" not in file.read_text() and "Who has it" not in file.read_text(), file


@pytest.mark.parametrize("text", [SCRIPT, "=cmd|'/C calc'!A0", "x" * 200, "Łódź 北京 שלום", "a,b;c\"d\"", "-1+1"])
def test_a_text_is_a_text_on_paper_and_in_tables(noted, text):
    assert noted.run("party", "add", "ACME", "NORD", "--name", text, "--address", text, "--contact", text, "--phone", text, "--role", "customer").status == 0
    assert noted.run("note", "movement", "ACME", "K8", "--document", text).status == 0
    is_read = text != SCRIPT and text.isascii()  # back from a PDF, letter by letter
    for number, words in enumerate((("recall", "HOUSE", "W-101"), ("certificate", "ACME", "B-1", "--shipment", "K8"), ("delivery-note", "ACME", "K8"), ("lot", "ACME", "B-1"))):
        folder, is_printed = noted.folder / f"made{number}", number == 2 or number == 0 and text.startswith("=")
        assert noted.run("papers", *words, folder, *(() if is_printed else ("--no-pdf",))).status == 0
        for file in folder.rglob("*.html"):
            assert "<script>alert" not in file.read_text() and " ".join(text.split()) in " ".join(figures.text_of_page(file).split()), file
        for file in folder.rglob("*.csv"):
            with open(file, newline="") as rows:
                cells = [cell for row in csv.reader(rows) for cell in row]
            assert not any(cell[:1] in ("=", "+", "-", "@") and not re.fullmatch(r'="[^"]*(""[^"]*)*"|-?[0-9]+', cell) for cell in cells), (file, cells)
    for file in noted.folder.glob("made*/**/*.pdf"):
        assert not is_read or text[:20] in figures.text_of_pdf(file), file
    page = noted.folder / "board.html"
    assert noted.run("board", "--out", page).status == 0 and text not in page.read_text()


def test_a_long_table_with_any_letters_is_whole_on_paper(noted):
    sheet = noted.folder / "shipments.csv"
    rows = [f"ACME,N{number},B-1,TOTE1,1,261107,NORD,{'Łódź ' if number % 2 else ''}L{number:03d} {'y' * 40}" for number in range(70)]
    sheet.write_text("\n".join(["owner,key,lot,sublot,amount,day,to,document", *rows]) + "\n")
    assert noted.run("import", "--what", "shipments", sheet).status == 0
    assert noted.run("papers", "recall", "HOUSE", "W-101", noted.folder / "made").status == 0
    text = figures.text_of_pdf(noted.folder / "made" / "plant" / "recall.pdf")
    assert all(f"L{number:03d}" in text for number in range(70)) and "Łódź" in text and "?" not in text


def test_a_delivery_note_is_for_one_recipient_and_one_document(noted):
    for words, why in ((("K7", "--with", "K8"), "K8 hasn't the recipient of K7"), (("K99",), "there is no shipment K99 of ACME"), (("K10",), "there is no shipment K10 of ACME")):
        done = noted.run("papers", "delivery-note", "ACME", *words, noted.folder / "made", "--no-pdf")
        assert done.status == 1 and why in done.err and not (noted.folder / "made").exists()
    done = noted.run("papers", "certificate", "ACME", "S-2", "--shipment", "K8", noted.folder / "made", "--no-pdf")
    assert done.status == 1 and "there is no shipment K8 of ACME S-2" in done.err
    page = (folder_of(noted, "delivery-note", "ACME", "K7") / "delivery.html").read_text()
    assert "recipient" not in page.lower().split("</style>")[1] and "K7" in page
