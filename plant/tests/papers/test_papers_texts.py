"""The texts of papers over one office are those that were looked at, and the board tells what is there."""
import os
import pathlib
import re
import textwrap

import figures
import pytest
from conftest import Plant
from lying import liar

GOLDEN = pathlib.Path(__file__).with_name("golden")
SHIPPED = """
result ACME B-1 PH 2 102
> ACME POST /lots/B-1/release
ship ACME K7 B-1 TOTE1 100 261104
"""
PAPERS = {  # by what is made: the PDFs, each with its text
    "recall HOUSE W-101": {"plant/recall.pdf": "recall", "owners/ACME/recall.pdf": "recall-of-owner"},
    "batch ACME O-1 1": {"batch.pdf": "batch"}, "certificate ACME B-1": {"certificate.pdf": "certificate"}, "certificate BOLT P-1": {"certificate.pdf": "not-released"},
    "lot ACME B-1": {"lot.pdf": "lot"}, "lot HOUSE W-101": {"lot.pdf": "lot-of-house"}, "statement ACME --from 101 --to 261104": {"statement.pdf": "statement"},
}


def text_of(file: pathlib.Path) -> str:
    """The text of a paper without when, by whom and of which file it was made."""
    text = " ".join(figures.text_of_pdf(file).split())
    text = re.sub(r"Issued on \d{4}-\d\d-\d\d", "Issued on DAY", text)
    text = re.sub(r"Made on .*?page (\d+ of \d+)( \w{64}, with toll [\d.]+)?", r"Page \1.", text)
    return "\n".join(textwrap.wrap(text, 120, break_on_hyphens=False)) + "\n"


def look_at_texts(plant: Plant, words: str, names: dict[str, str]) -> None:
    """Makes a paper, whose PDFs read as they were looked at."""
    done = plant.run("papers", *words.split(), plant.folder / "made")
    assert (done.status, done.err) == (0, "")
    for file, name in names.items():
        text, golden = text_of(plant.folder / "made" / file), GOLDEN / f"{name}.txt"
        if "HILPOVEN_GOLDEN" in os.environ:
            golden.write_text(text)
        assert text == golden.read_text()


@pytest.mark.parametrize("words", PAPERS)
def test_a_paper_reads_as_it_was_looked_at(at_work, words):
    look_at_texts(at_work.lay(SHIPPED), words, PAPERS[words])


def test_an_owner_whose_batch_made_nothing_yet_has_a_paper(at_work):
    at_work.lay("""material-add BOLT PAINT kg
recipe-add BOLT RED 1
require BOLT RED 1 consumed HOUSE WATER 200
require BOLT RED 1 produced BOLT PAINT 240
> BOLT POST /orders {"order":"O-7","recipe":"RED","batches":1}
open BOLT O-7 MIXER
do BOLT O-7 1 start
actual K9 BOLT O-7 1 1 consumed WATER HOUSE W-101 TANK 150 103""")
    assert at_work.run("papers", "recall", "HOUSE", "W-101", at_work.folder / "made", "--no-pdf").status == 0
    page = (at_work.folder / "made" / "owners" / "BOLT" / "recall.html").read_text()
    assert "Hold the batches that took some of it and aren't closed: 1." in page.replace("&#39;", "'") and "HOUSE W-101: 150 liter" in page
    assert "None of your lots has any of it." in page and "<svg" not in page and "ACME" not in page


def test_a_paper_is_a4_and_stands_by_itself(at_work):
    assert at_work.run("papers", "recall", "HOUSE", "W-101", at_work.folder / "made").status == 0
    for file in (at_work.folder / "made").rglob("*.pdf"):
        assert re.search(r"Page size: +841\.89 x 595\.2\d* pts \(A4\)", figures.metadata_of_pdf(file))
    for page in (at_work.folder / "made").rglob("*.html"):
        text = page.read_text().replace("http://www.w3.org/", "")
        assert not re.search(r"https?://|src=|@import|url\(", text), page


def test_the_board_tells_what_is_there(at_work):
    target = at_work.folder / "board.html"
    assert at_work.run("board", "--out", target).status == 0
    text = re.sub(r"\s+", " ", re.sub(r"<[^>]*>", " ", target.read_text().split("<body")[1].split("<script>")[0]))
    for part in ("1 of 2 run", "KETTLE running ACME O-1/1", "in 100 %", "out 98 %", "MIXER free", "ACME O-1 1 of 3 opened, BRINE-10", "ACME B-1 no PH yet", "BOLT P-1 for its release", "1 without result 1 to release", "1 free",
               "Nobody is at 80 %."):
        assert part in text, (part, text)
    assert 'http-equiv="refresh"' in target.read_text()


def test_the_board_keeps_the_rights_of_the_one_before(at_work):
    target = at_work.folder / "board.html"
    assert at_work.run("board", "--out", target).status == 0 and target.stat().st_mode & 0o777 == 0o600
    target.chmod(0o644)
    first = target.read_text()
    assert at_work.run("board", "--force", "--out", target).status == 0 and target.stat().st_mode & 0o777 == 0o644
    target.write_text(first)
    done = at_work.run("board", "--out", at_work.folder / "absent" / "board.html")
    assert done.status == 2 and len(done.err.splitlines()) == 1
    assert not list(at_work.folder.glob(".hilpoven.*"))


def test_a_board_that_cannot_be_made_leaves_the_old_one(at_work):
    target = at_work.folder / "board.html"
    target.write_text("old")
    program, at_work.program = at_work.program, liar(at_work.folder / "liar", at_work.program, "s/running/held/")
    done = at_work.run("board", "--force", "--out", target)
    at_work.program = program
    assert done.status == 1 and "batch ACME O-1/1: toll tells" in done.err and target.read_text() == "old"
