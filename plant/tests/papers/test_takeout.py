"""What an owner takes along is all of its rows and of what the plant noted of it, and no word of another owner."""
import figures
import pytest
from hilpoven.core import settings as site
from looks import Papers
from offices import HOUSE, WithParties
from test_papers_links_apart import Linked

COUNTS = {
    "materials": "SELECT count(*) FROM materials WHERE owner = :owner", "tests": "SELECT count(*) FROM tests WHERE owner = :owner", "recipes": "SELECT count(*) FROM recipes WHERE owner = :owner",
    "requirements": "SELECT count(*) FROM requirements WHERE owner = :owner", "orders": "SELECT count(*) FROM orders WHERE owner = :owner",
    "batches": "SELECT count(*) FROM batches WHERE owner = :owner", "lots": "SELECT count(*) FROM lots WHERE owner = :owner", "sublots": "SELECT count(*) FROM sublots WHERE owner = :owner",
    "moves": "SELECT count(*) FROM moves WHERE owner = :owner", "results": "SELECT count(*) FROM results WHERE owner = :owner", "voids": "SELECT count(*) FROM voids WHERE owner = :owner",
}
MOVES = """
SELECT mkey, (SELECT value FROM json_each('["receive","split","ship","scrap","consumed","produced"]') WHERE key = kind), lot_owner, lot, sublot, target, material, ord, nullif(number, 0),
  nullif(segment, 0), amount, day FROM moves WHERE owner = :owner
"""


def look_at_takeout(papers: Papers, owner: str) -> None:
    """The tables of an owner have its rows, and nothing of others."""
    folder = papers.make("takeout", owner)
    for name, sql in COUNTS.items():
        (count,), = papers.rows(sql, owner=owner)
        file = folder / f"{name}.csv"
        assert (len(figures.read_csv(file)) if count else file.exists()) == count, (file, count)
    moves = [row[:12] for row in figures.read_csv(folder / "moves.csv")]
    assert sorted(moves) == sorted([["" if cell is None else str(cell) for cell in row] for row in papers.rows(MOVES, owner=owner)])
    stock = sorted((row[0], row[1], row[4]) for row in figures.read_csv(folder / "sublots.csv"))
    assert stock == sorted(tuple(map(str, row)) for row in papers.rows("SELECT lot, sublot, amount FROM sublots WHERE owner = :owner", owner=owner))
    assert {(row[0], int(row[1])) for row in figures.read_csv(folder / "contents.csv")} == {
        (file.name, len(figures.read_csv(file))) for file in folder.glob("*.csv") if file.stem != "contents"}


@pytest.mark.parametrize("seed", (1, 7))
def test_an_owner_takes_all_of_its_own_and_nothing_of_others(program, tmp_path, seed):
    office = WithParties(program, tmp_path / "office", seed)
    papers = Papers(office, prints=seed == 1)
    for owner in office.owners:
        look_at_takeout(papers, owner)
        folder = papers.make("takeout", owner)
        papers.look_for_others(folder, owner)
        words = set("".join(file.read_text() for file in folder.glob("*.csv")).replace('"', " ").replace("=", " ").replace(",", " ").split())
        for (facts_owner, _), facts in office.facts.items():
            assert facts_owner != owner or set(facts.values()) <= words
        assert {name for names in office.parties[owner].values() for name in names} <= words


def try_linked(program, folder, seed):
    """Takes out an office with links."""
    linked = Linked(program, folder / "office", seed, prints=False)
    for owner in linked.office.owners:
        look_at_takeout(linked.papers, owner)
        folder = linked.papers.make("takeout", owner)
        linked.look_for_others(folder, owner)
        own = {link.reason for link in linked.links if link.owner == owner}
        assert {row[-1] for row in figures.read_csv(folder / "links.csv")} == own if own else not (folder / "links.csv").exists()


@pytest.mark.parametrize("seed", (0, 2))
def test_links_are_the_owners_own(program, tmp_path, seed):
    try_linked(program, tmp_path, seed)


@pytest.mark.long
@pytest.mark.parametrize("seed", range(3, 60))
def test_60_offices_with_links_are_taken_out(program, tmp_path, seed):
    try_linked(program, tmp_path, seed)


def test_the_plants_own_test_is_what_the_plant_says_of_a_lot(settled):
    settled.settle()
    path = site.load.__defaults__[0]
    path.write_text(path.read_text() + '[quality]\ntest = "QA"\npersons = 1\n')
    for words in (("material", "new", "ACME", "PASTE", "kg", "--test", "PH", 1, 9), ("receive", "ACME", "K30", "PASTE", "P-1", "BAY1", 5, 103), ("result", "ACME", "P-1", "PH", 5, 103),
                  ("sign", "ACME", "P-1", "--day", 104), ("hold", "ACME", "P-1", "--reason", "metal in drum 7", "--day", 105)):
        assert settled.run(*words).status == 0, words
    folder = settled.folder / "made"
    assert settled.run("papers", "takeout", "ACME", folder, "--no-pdf").status == 0
    assert all("QA" not in file.read_text() for file in folder.iterdir())
    assert [row[:3] for row in figures.read_csv(folder / "judged.csv")] == [["P-1", "signature", "104"], ["P-1", "hold", "105"]]
    assert "held: metal in drum 7" in (folder / "lots.csv").read_text()


def test_a_member_gets_a_tar_and_the_plant_itself_is_no_owner(at_work):
    at_work.settle()
    assert at_work.as_member("papers", "takeout", "ACME", at_work.folder / "made").status == 2
    assert at_work.run("papers", "takeout", HOUSE, at_work.folder / "made", "--no-pdf").status == 1
    done = at_work.run("papers", "takeout", "ACNE", at_work.folder / "made", "--no-pdf")
    assert done.status == 1 and "Nearest of the owners: ACME" in done.err and not (at_work.folder / "made").exists()
    assert at_work.run("papers", "takeout", "BOLT", at_work.folder / "made", "--no-pdf").status == 0
    assert [line["words"] for line in at_work.lines() if line["event"] == "exported"][-1] == ["papers", "takeout-BOLT"]
