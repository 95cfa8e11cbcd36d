"""Papers of an office that was carried over are those of the same history in one file."""
import pathlib
import re
import tempfile
from random import Random

import pytest
import test_histories
from conftest import Plant
from histories import OWNERS
from hilpoven.core.office import Office
from hilpoven.model.years import history

EVERYBODY = ("HOUSE", *OWNERS)
OVER = re.compile(r'<p class="for">Over all \d files of the office, as `hilpoven years recall [^<]*</p>\n')
MADE = re.compile(rf"Made on [^<]*|{OVER.pattern}")  # what names the files


def papers_of(plant: Plant, db: pathlib.Path, *words: object) -> dict[str, str]:
    """What is in a paper's folder, but for when and of which files it was made."""
    with tempfile.TemporaryDirectory(dir=plant.folder) as folder:
        papers = pathlib.Path(folder) / "made"
        done = plant.run("papers", *words, papers, "--no-pdf", db=db)
        assert done.status == 0, (words, done)
        return {str(path.relative_to(papers)): MADE.sub("", path.read_text()) for path in papers.rglob("*") if path.is_file()}


def try_papers(program: str, seed: int, each: int) -> None:
    """Papers of lots, batches and owners of a history that was cut, and of the same in one file."""
    def compare(plant, one, served, cuts, called):
        random = Random(seed)
        with history.opened(Office(str(one), program, 10.0)) as whole:
            lots = whole.base.execute("SELECT owner, lot FROM lots ORDER BY rowid").fetchall()
            batches = whole.base.execute("SELECT owner, ord, number FROM batches ORDER BY rowid").fetchall()
        asked = [(word, *lot_id) for word in ("recall", "lot", "certificate") for lot_id in random.sample(lots, min(each, len(lots)))]
        asked += [("batch", *batch_id) for batch_id in random.sample(batches, min(each, len(batches)))]
        asked += [("statement", owner, "--from", first, "--to", last) for owner in EVERYBODY for first, last in ((0, 9_999_999), (260103, 260108))]
        for words in asked:
            papers = papers_of(plant, plant.db, *words)
            assert papers and papers == papers_of(plant, one, *words), words
        done = plant.run("papers", "recall", *lots[0], plant.folder / "told", "--no-pdf")
        page = (plant.folder / "told" / "plant" / "recall.html").read_text()
        with history.opened(Office(str(plant.db), program, 10.0)) as every:
            assert done.status == 0 and OVER.search(page) and all(f"office-{part.number}.db, sha256 {part.hash}" in page for part in every.parts[:-1])

    memory = "/dev/shm" if pathlib.Path("/dev/shm").is_dir() else None
    with pytest.MonkeyPatch.context() as patched, tempfile.TemporaryDirectory(dir=memory) as folder:
        patched.setattr(test_histories, "compare", compare)
        test_histories.try_history(Plant(program, pathlib.Path(folder)), Random(seed), 120, 2 + seed % 2)


@pytest.mark.parametrize("seed", [pytest.param(0, marks=pytest.mark.long), 1])
def test_papers_of_a_cut_history(program, seed):
    try_papers(program, seed, 3)


@pytest.mark.long
@pytest.mark.parametrize("seed", range(2, 32))
def test_papers_of_many_cut_histories(program, seed):
    try_papers(program, seed, 6)
