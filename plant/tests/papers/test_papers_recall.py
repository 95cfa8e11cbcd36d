"""What a recall's paper says of what to do at once, of lots that are held, and of who has what, less what came back."""
import csv
import pathlib
import shlex

import figures
import pytest
from conftest import AT_WORK, Plant
from hilpoven.report.papers import printing
from hilpoven.model import quality
from test_papers_texts import SHIPPED

RECALL = ("papers", "recall", "HOUSE", "W-101")
PLANTS_TEST = "[quality]\ntest = \"SIGNED\"\npersons = 1\n"
PH = "test-add ACME BRINE PH M5 9"


def folder_of(plant: Plant, name: str) -> pathlib.Path:
    """The folder of a recall's papers without PDF."""
    done = plant.run(*RECALL, plant.folder / name, "--no-pdf")
    assert (done.status, done.err) == (0, ""), done
    return plant.folder / name


def rows_of(file: pathlib.Path) -> list[dict[str, str]]:
    """The rows of a table beside a paper, by the heads."""
    with open(file, newline="") as lines:
        heads = next(csv.reader(lines))
    return [dict(zip(heads, row, strict=True)) for row in figures.read_csv(file)]


@pytest.fixture
def shipped(at_work) -> Plant:
    """An office that shipped some of a lot of which the rest is released and on hand, with a batch that runs."""
    return at_work.lay(SHIPPED)


def test_each_lot_has_the_command_that_stops_it_at_once_and_stands_as_held_then(shipped):
    folder = folder_of(shipped, "before") / "plant"
    page = (folder / "recall.html").read_text()
    assert "Hold what is released and still on hand: 2 lots." in page and "rejects it" not in page and "hilpoven reject" not in page
    to_do = {(row["owner"], row["lot"]): row["to_do"] for row in rows_of(folder / "released.csv")}
    assert to_do.keys() == {("HOUSE", "W-101"), ("ACME", "B-1")}
    for lot, command in to_do.items():
        assert shlex.split(command)[:4] == ["hilpoven", "hold", *lot] and command in page.replace("&#39;", "'")
        assert shipped.run(*shlex.split(command)[1:]).status == 0, command
    folder = folder_of(shipped, "after") / "plant"
    page = (folder / "recall.html").read_text()
    assert "Hold what is released" not in page and "All that is released and on hand is held." in page and "Held and on hand: 2 lots." in page
    assert {row["disposition"] for row in rows_of(folder / "sublots.csv")} == {row["disposition"] for row in rows_of(folder / "lots.csv")} == {"held (released)"}
    assert [(row["released"], row["held"]) for row in rows_of(folder / "sums.csv")] == [("0", "880"), ("0", "9300")]
    assert {row["to_do"] for row in rows_of(folder / "released.csv")} == {"held: recall of HOUSE W-101"}
    assert "✕ held (released)" in page and "✓ released</td>" not in page
    owners = (folder.parent / "owners" / "ACME" / "recall.html").read_text()
    assert "✕ held (released)" in owners and "hilpoven " not in owners.split("</style>")[1]


def test_a_batch_that_may_be_held_has_the_command_for_it(shipped):
    running, = rows_of(folder_of(shipped, "before") / "plant" / "running.csv")
    assert running["to_do"] == "hilpoven do ACME O-1 1 hold"
    assert shipped.run(*running["to_do"].split()[1:]).out == "accepted\n"
    held, = rows_of(folder_of(shipped, "after") / "plant" / "running.csv")
    assert (held["state"], held["to_do"]) == ("holding", "")
    assert "to_do" not in rows_of(shipped.folder / "after" / "owners" / "ACME" / "running.csv")[0]


@pytest.mark.parametrize("is_tested", (False, True), ids=("a note alone", "a result of the plant's own test"))
def test_a_lot_that_was_held_twice_shows_the_last_reason(plant, is_tested, monkeypatch):
    shipped = plant.lay(AT_WORK.replace(PH, f"{PH}\ntest-add ACME BRINE SIGNED 1 1") + "result ACME B-1 SIGNED 1 102" + SHIPPED if is_tested else AT_WORK + SHIPPED)
    if is_tested:
        shipped.settle()
        with open(shipped.folder / "hilpoven.toml", "a") as settings:
            settings.write(PLANTS_TEST)
    for reason in ("metal in drum 7", "glass in drum 9"):
        assert shipped.run("hold", "ACME", "B-1", "--reason", reason, "--day", 261106).status == 0
    folder, label, board = folder_of(shipped, "made"), shipped.folder / "label.html", shipped.folder / "board.html"
    monkeypatch.setattr(printing, "pdf_of", lambda text, tables=None: text.encode())
    assert shipped.run("labels", "ACME", "B-1", "--out", label).status == shipped.run("board", "--out", board).status == 0
    texts = {
        "recall": (folder / "plant" / "recall.html").read_text(), "board": board.read_text(), "list": shipped.run("list", "lots", "--owner", "ACME").out,
        **{paper: shown(shipped, paper) for paper in ("certificate", "lot")},
    }
    for paper, text in texts.items():
        assert "glass in drum 9" in text or paper == "recall" and is_tested and "held (quarantined)" in text, paper
        assert paper == "lot" or "metal in drum 7" not in text, paper
    with shipped.reading() as base:
        assert quality.LIMIT == 1 and base.execute("SELECT count(*) FROM results WHERE test = 'SIGNED'").fetchone() == (3 * is_tested,)


def shown(plant: Plant, paper: str) -> str:
    """The page of a paper of lot B-1, up to its tables."""
    assert plant.run("papers", paper, "ACME", "B-1", plant.folder / paper, "--no-pdf").status == 0
    return (plant.folder / paper / f"{paper}.html").read_text().partition("<h2>")[0]


PARTIES = (
    ("party", "add", "ACME", "NORD", "--name", "Nord Foods Ltd", "--role", "customer"), ("party", "add", "ACME", "SUED", "--name", "Sued Foods Ltd", "--role", "customer"),
    ("ship", "ACME", "S1", "B-1", "TOTE1", 60, 261105, "--to", "NORD", "--document", "LS 1"), ("ship", "ACME", "S2", "B-1", "TOTE1", 40, 261106, "--to", "NORD"),
    ("note", "movement", "ACME", "K7", "--to", "NORD"),
)


def accounts(folder: pathlib.Path) -> list[tuple[str, ...]]:
    """Who has what of which lot, by the table of recipients."""
    return [tuple(row.get(name, "") for name in ("noted_party", "lot", "shipments", "amount", "noted_returned", "noted_has")) for row in rows_of(folder / "plant" / "recipients.csv")]


def test_who_has_it_names_lots_and_is_net_of_what_came_back(shipped):
    for words in PARTIES:
        assert shipped.run(*words).status == 0, words
    folder = folder_of(shipped, "shipped")
    assert accounts(folder) == [("NORD", "B-1", "3", "200", "", "")] and not (folder / "plant" / "returned.csv").exists()
    assert shipped.run("receive", "ACME", "R1", "BRINE", "B-1-R", "TOTE9", 25, 261110, "--of", "B-1", "--why", "return").status == 0  # from the only one that has some
    assert accounts(folder_of(shipped, "returned")) == [("NORD", "B-1", "3", "200", "25", "175")]
    for words in (("ship", "ACME", "S3", "B-1", "TOTE1", 10, 261111, "--to", "SUED"), ("ship", "ACME", "S4", "B-1-R", "TOTE9", 5, 261111, "--to", "SUED")):
        assert shipped.lay("result ACME B-1-R DENSITY 1180 261110\nresult ACME B-1-R PH 2 261110\n> ACME POST /lots/B-1-R/release") if words[1:3] == ("ACME", "S4") else True
        assert shipped.run(*words).status == 0, words
    folder = folder_of(shipped, "unknown")  # two have some, and nobody noted which of them returned it
    assert accounts(folder) == [("NORD", "B-1", "3", "200", "0", "200"), ("SUED", "B-1", "1", "10", "0", "10"), ("SUED", "B-1-R", "1", "5", "0", "5")]
    returned, = rows_of(folder / "plant" / "returned.csv")
    assert (returned["key"], returned["of_lot"], returned["lot"], returned["amount"]) == ("R1", "B-1", "B-1-R", "25")
    assert returned["what"] == "not subtracted: hilpoven note movement ACME R1 --from PARTY"
    assert "hilpoven" not in rows_of(folder / "owners" / "ACME" / "returned.csv")[0]["what"]
    assert shipped.run("note", "movement", "ACME", "R1", "--from", "SUED").status == 0
    assert accounts(folder_of(shipped, "noted")) == [("NORD", "B-1", "3", "200", "0", "200"), ("SUED", "B-1", "1", "10", "25", "-15"), ("SUED", "B-1-R", "1", "5", "0", "5")]
    page = (shipped.folder / "noted" / "plant" / "recall.html").read_text()
    assert "What came back" in page and "subtracted from SUED" in page


def test_what_came_back_of_several_lots_is_told_and_not_guessed(shipped):
    for words in (*PARTIES, ("receive", "ACME", "R1", "BRINE", "MIX", "TOTE9", 25, 261110, "--of", "B-1", "--why", "return"), ("link", "ACME", "MIX", "S-1", "--why", "return")):
        assert shipped.run(*words).status == 0, words
    folder = folder_of(shipped, "made")
    assert accounts(folder)[0] == ("NORD", "B-1", "3", "200", "0", "200")
    assert {row["what"] for row in rows_of(folder / "plant" / "returned.csv")} == {"not subtracted: the notes don't say how much of it is of this lot"}
