"""Papers at the limits of an office: in time, whole, and legible."""
import os
import re
import resource
import time

import figures
import pytest
from large import DESCENDANTS, long_name, with_amounts, with_descendants, with_owners

SECONDS = 10
MOST_PAGES = 40  # of a recall of 5,000 lots of which every 20th has another disposition


def made_in(plant, *words: object) -> tuple[float, float]:
    """Makes papers as a process of its own: the seconds of the clock that it took, and those of processors."""
    before, began = resource.getrusage(resource.RUSAGE_CHILDREN), time.monotonic()
    with plant.begun("papers", *words, plant.folder / "made") as process:
        assert process.communicate()[1] == "" and process.returncode == 0
    after = resource.getrusage(resource.RUSAGE_CHILDREN)
    return time.monotonic() - began, after.ru_utime + after.ru_stime - before.ru_utime - before.ru_stime


def lots_of(text: str) -> set[str]:
    """The lots that a text names, each of a range too."""
    ranges = re.findall(r"\b(L\d\d-)(\d\d\d)(?: to L\d\d-(\d\d\d))?\b", text)
    return {f"{front}{number:03d}" for front, first, last in ranges for number in range(int(first), int(last or first) + 1)}


@pytest.mark.long
def test_a_lot_with_5000_descendants_is_on_paper_in_ten_seconds(plant):
    clock, processors = made_in(with_descendants(plant), "recall", "ACME", "S-1")
    print(f"{clock:.1f} s by the clock, {processors:.1f} s of processors")
    assert clock < SECONDS or os.getloadavg()[0] > len(os.sched_getaffinity(0)) and processors < 1.5 * SECONDS
    for folder in (plant.folder / "made" / "plant", plant.folder / "made" / "owners" / "ACME"):
        assert len(figures.read_csv(folder / "lots.csv")) == DESCENDANTS + 1
        text = figures.text_of_pdf(folder / "recall.pdf")
        assert len(lots_of(text)) == DESCENDANTS and text.count("\f") <= MOST_PAGES
        assert f"{DESCENDANTS + 1:,}" in text


@pytest.mark.long
def test_64_owners_with_long_names_have_a_paper_each(plant):
    with_owners(plant)
    made_in(plant, "recall", "HOUSE", long_name("W-", 1))
    owners = sorted(path.name for path in (plant.folder / "made" / "owners").iterdir())
    assert owners == [long_name("OWNER-", number) for number in range(64)]
    for number, owner in enumerate(owners):
        folder = plant.folder / "made" / "owners" / owner
        text = figures.text_of_pdf(folder / "recall.pdf") + (folder / "recall.html").read_text() + figures.metadata_of_pdf(folder / "recall.pdf")
        assert set(re.findall(r"OWNER-\d+", text)) == {owner} and set(re.findall(r"LOT-\d+", text)) == {long_name("LOT-", number)}
    text = figures.text_of_pdf(plant.folder / "made" / "plant" / "recall.pdf")
    assert set(re.findall(r"\bLOT-\d+", text)) == {long_name("LOT-", number) for number in range(64)}
    assert plant.run("board", "--out", plant.folder / "board.html").status == 0


def test_the_largest_amounts_stand_whole(plant):
    owner, lot = long_name("OWNER-", 1), long_name("LOT-", 1)
    with_amounts(plant)
    for words, paper in ((("recall", owner, lot), "plant/recall.pdf"), (("statement", owner, "--from", 261101, "--to", 261101), "statement.pdf")):
        folder = plant.folder / words[0]
        done = plant.run("papers", *words, folder)
        assert (done.status, done.err) == (0, ""), done
        text = figures.text_of_pdf(folder / paper)
        assert "20,000,000,000,000" in text and owner in text and lot in text
