"""Links between owners: recalls of the plant are the closure over them, and no owner's paper, companion or page has a byte of the other end."""
import json
import pathlib
import random
import re
import sqlite3

import pytest
from closure import closure, linked_edges, reading, recorded_edges
from conftest import Plant, make_office
from hilpoven.cli.lines import OVER_ALL
from hilpoven.core.journal.log import Journal
from hilpoven.model.genealogy import Genealogy
from hilpoven.model.notes import Link, PlantLink, Spread, Why
from hilpoven.model.register import standing
from hilpoven.model.register.noted import to_json
from hilpoven.model.residues import may_contain
from hilpoven.model.rows import LotId
from hilpoven.model import unit_order

OWNERS = ("ACME", "BOLT", "CORK", "HOUSE")
OFFICES, IN_GATE = 300, 25
IN_BATCHES = "SELECT DISTINCT owner, ord, number, lot_owner, lot FROM moves WHERE kind IN (4, 5) AND (owner, mkey) NOT IN (SELECT owner, mkey FROM voids)"
OF_BOLT = """
do ACME O-1 1 done
close ACME O-1 1
material-add BOLT PASTE kg
recipe-add BOLT PASTES 1
require BOLT PASTES 1 consumed BOLT PIGMENT 10
require BOLT PASTES 1 produced BOLT PASTE 10
> BOLT POST /lots/P-1/release
> BOLT POST /orders {"order":"P-1","recipe":"PASTES","batches":9}
open BOLT P-1 KETTLE
do BOLT P-1 1 start
actual C1 BOLT P-1 1 1 consumed PIGMENT BOLT P-1 BAY2 5 103
actual M1 BOLT P-1 1 1 produced PASTE BOLT X-1 T1 5 103
actual M2 BOLT P-1 1 1 produced PASTE BOLT X-2 T1 5 103
do BOLT P-1 1 done
close BOLT P-1 1
"""
RESIDUE = ("link", "BOLT", "--batch", "P-1", 1, "--of-batch", "O-1", 1, "--of-owner", "ACME", "--why", "residue", "--amount", 7_654_321, "--reason", "SECRET-1")
SOLD = ("link", "BOLT", "P-1", "S-1", "--of-owner", "ACME", "--why", "transfer", "--reason", "SECRET-2")
OF_ACME = {"ACME", "S-1", "B-1", "O-1", "BRINE", "SALT", "BRINE-10", "7654321", "7,654,321", "SECRET-1", "SECRET-2", "K2", "K4"}


# Generated offices, whose tables are written as `toll` has them

class Generated:
    """Tables of an office by chance, with links within and between owners, and cleanings."""

    def __init__(self, folder: pathlib.Path, seed: int) -> None:
        self.random = chance = random.Random(seed)
        self.lots = [(owner, f"L{number}") for owner in OWNERS for number in range(chance.randint(2, 6))]
        self.batches = [(owner, "O-1", number) for owner in OWNERS for number in range(1, chance.randint(1, 5))]
        chance.shuffle(self.batches)
        self.units = [chance.choice(("KETTLE", "MIXER")) for _ in self.batches]
        moves, voids = [], []
        for owner, order, number in self.batches:
            own = [lot for lot in self.lots if lot[0] == owner]
            for at in range(chance.randint(0, 5)):
                kind = chance.choice((4, 5))
                lot = chance.choice(own if kind == 5 else own + [lot for lot in self.lots if lot[0] == "HOUSE"])
                moves.append((owner, f"M{number}X{at}", kind, *lot, "T", "", "M", order, number, chance.randint(1, 3), 5, 101))
                if chance.random() < 0.1:
                    voids.append((owner, f"M{number}X{at}"))
        self.file = make_office(
            folder / "office.db", owners=[(owner, f"{owner}KEY1") for owner in OWNERS if owner != "HOUSE"], units=[("KETTLE",), ("MIXER",)],
            materials=[(owner, "M", "kg") for owner in OWNERS], orders=[(owner, "O-1", "R", 9, 0) for owner in OWNERS],
            batches=[(*batch, unit, 11, 1) for batch, unit in zip(self.batches, self.units)],
            lots=[(owner, lot, "M", "", 0, 0) for owner, lot in self.lots], moves=moves, voids=voids)
        self.journal = Journal(str(self.file) + ".journal", str(self.file))
        self.links = [self.link() for _ in range(3)]
        self.plant_links = [self.plant_link() for _ in range(chance.randint(1, 5))]
        self.cleaned = {at for at in range(len(self.batches)) if chance.random() < 0.3}
        cleanings = [{"kind": "cleaned", "owner": "HOUSE", "unit": self.units[at], "how": "hot", "of_owner": self.batches[at][0], "order": "O-1", "batch": self.batches[at][2]} for at in sorted(self.cleaned)]
        for note in [*map(to_json, [*self.links, *self.plant_links]), *cleanings]:
            self.journal.note(self.journal.file, ["link"], notes=[note])

    def end(self) -> tuple:
        """A lot or a batch: owner, lot, order and number."""
        owner, name, *batch = self.random.choice([*self.lots, *self.batches])
        return (owner, "", name, batch[0]) if batch else (owner, name, "", 0)

    def link(self) -> Link:
        """A link within an owner, or of HOUSE's lot."""
        owner, lot, order, batch = self.end()
        of_owner, of_lot = self.random.choice([each for each in self.lots if each[0] in (owner, "HOUSE") and each != (owner, lot)])
        return Link(owner, lot, order, batch, of_owner, of_lot, self.random.choice(list(Why)))

    def plant_link(self) -> PlantLink:
        """A link between any two things."""
        owner, lot, order, batch = one = self.end()
        of_owner, of_lot, of_order, of_batch = self.random.choice([other for other in (self.end() for _ in range(50)) if other != one])
        return PlantLink(owner, of_owner, self.random.choice(list(Spread)), 261201, lot, order, batch, of_lot, of_order, of_batch)

    def edges(self, base: sqlite3.Connection) -> set[tuple]:
        """The pairs of lots of which the second contains some of the first."""
        rows = base.execute(IN_BATCHES).fetchall()
        in_batch = {(row[:3], row[3:]) for row in rows}
        produced = {(row[:3], row[3:]) for row in base.execute(f"{IN_BATCHES} AND kind = 5")}
        edges = recorded_edges(base) | linked_edges(base, self.links)
        for link in self.plant_links:
            sources = [(link.of_owner, link.of_lot)] if link.of_lot else [lot for batch, lot in in_batch if batch == (link.of_owner, link.of_order, link.of_batch)]
            targets = [(link.owner, link.lot)] if link.lot else [lot for batch, lot in produced if batch == (link.owner, link.order, link.batch)]
            edges |= {(source, target) for source in sources for target in targets}
        return edges

    def next_on_units(self, touched: set[tuple]) -> set[tuple]:
        """The batches that held a unit behind one of these, before it was cleaned."""
        following, is_soiled = set(), dict.fromkeys(self.units, False)
        for at, (batch, unit) in enumerate(zip(self.batches, self.units)):
            if batch in touched:
                is_soiled[unit] = True
            elif is_soiled[unit]:
                following.add(batch)
            if at in self.cleaned:
                is_soiled[unit] = False
        return following


def try_office(folder: pathlib.Path, seed: int) -> None:
    """Compares recalls and traces of each lot with the closure, with links between owners for the plant, and without them for an owner."""
    office = Generated(folder, seed)
    with reading(office.file) as base:
        order = unit_order.read_if_cleaned(office.journal, base)
        register = standing.read(office.journal, base)
        edges, own_edges = office.edges(base), recorded_edges(base) | linked_edges(base, office.links)
        in_batch = {(row[:3], row[3:]) for row in base.execute(IN_BATCHES)}
        of_plant, of_owners = Genealogy(base, register, is_plants=True), Genealogy(base, register)
        for lot in office.lots:
            start = LotId(*lot)
            for way in ("forward", "back"):
                trace = of_plant.trace(start, way)
                assert trace.steps == closure(edges, lot, way) and of_owners.trace(start, way).steps == closure(own_edges, lot, way)
                assert trace.recorded == closure(recorded_edges(base), lot, way) and trace.recorded.keys() <= trace.steps.keys()
            if order:
                reached = closure(edges, lot, "forward")
                touched = {batch for batch, each in in_batch if each in reached}
                links = [*office.links, *office.plant_links]
                for link in (link for link in links if not link.lot):
                    content = [(link.of_owner, link.of_lot)] if link.of_lot else [each for batch, each in in_batch if batch == (link.of_owner, link.of_order, link.of_batch)]
                    touched |= {(link.owner, link.order, link.batch)} if set(content) & reached.keys() else set()
                rows = may_contain(of_plant, of_plant.trace(start, "forward"), order, is_whole=False)
                assert {tuple(row.batch) for row in rows} == office.next_on_units(touched)


@pytest.mark.parametrize("seed", range(IN_GATE))
def test_recalls_are_the_closure_over_links_between_owners(tmp_path, seed):
    try_office(tmp_path, seed)


@pytest.mark.long
@pytest.mark.parametrize("seed", range(IN_GATE, OFFICES))
def test_300_offices_recall_the_closure_over_links_between_owners(tmp_path, seed):
    try_office(tmp_path, seed)


# What owners get

@pytest.fixture
def two(at_work) -> Plant:
    """An office with a batch of ACME's and then one of BOLT's on a unit."""
    return at_work.lay(OF_BOLT)


def texts(folder: pathlib.Path) -> dict[str, str]:
    """The files of a folder, without the time at which they were made."""
    return {str(path.relative_to(folder)): re.sub(r"Made on [^<]*UTC|\"made\":\s*\"[^\"]*\",?", "", path.read_text()) for path in sorted(folder.rglob("*")) if path.is_file()}


def all_of_bolt(plant: Plant, name: str) -> dict[str, str]:
    """All that BOLT gets: its part of recalls, papers, its companion; by what each is."""
    folder, companions = plant.folder / name, plant.folder / "companions"
    folder.mkdir()
    companions.mkdir(exist_ok=True)
    for at, words in enumerate((("recall", "BOLT", "P-1"), ("recall", "HOUSE", "W-101"), ("lot", "BOLT", "X-1"), ("lot", "BOLT", "P-1"), ("batch", "BOLT", "P-1", 1),
                                ("statement", "BOLT", "--from", 0, "--to", 9_999_999), ("takeout", "BOLT"), ("certificate", "BOLT", "X-1"), ("settlement", "BOLT", "--from", 0, "--to", 9_999_999))):
        done = plant.run("papers", *words, folder / str(at), "--no-pdf")
        assert done.status == 0, done
    assert plant.run("companion", "--out", companions).status == 0  # which is read again where something changed
    papers = {path: text for path, text in texts(folder).items() if "/plant/" not in f"/{path}" and "owners/ACME" not in path}
    return {**papers, "BOLT.json": texts(companions)["BOLT.json"]}


def test_an_owner_s_papers_and_companion_are_as_if_nothing_were_noted(two):
    before = all_of_bolt(two, "before")
    for words in (RESIDUE, SOLD):
        assert two.run(*words).out.startswith("noted ")
    assert all_of_bolt(two, "behind") == before
    assert two.run(*RESIDUE).out.startswith("noted already as ")


def test_an_owner_that_is_told_sees_that_its_lot_contains_another_s_material_and_no_more(two):
    before = all_of_bolt(two, "before")
    for words in (RESIDUE, SOLD):
        assert two.run(*words, "--tell").out.startswith("noted ")
    behind = all_of_bolt(two, "behind")
    assert {path.rpartition("/")[0] for path in behind.keys() - before.keys()} == {"1/owners/BOLT/X-1", "1/owners/BOLT/X-2"}  # of a recall of what ACME used
    for path, text in behind.items():
        words = set(re.findall(r"[A-Z0-9][A-Z0-9,-]*", text)) - set(re.findall(r"[A-Z0-9][A-Z0-9,-]*", before.get(path, "")))
        assert not words & OF_ACME and "residue" not in text and "transfer" not in text, (path, words)
    for path, lot in (("2/lot.html", "X-1"), ("3/lot.html", "P-1"), ("0/owners/BOLT/recall.html", "P-1"), ("1/owners/BOLT/X-2/recall.html", "X-2")):
        assert f"{lot} contains material of another owner, noted on 20" in behind[path]
    lots = {lot["lot"]: lot.get("foreign") for lot in json.loads(behind["BOLT.json"])["lots"]}
    assert lots.keys() == {"P-1", "X-1", "X-2"} and all([*row] == ["day"] for days in lots.values() for row in days), lots


def test_the_plant_sees_both_ends_and_an_owner_that_is_told_gets_a_paper_of_its_own_lots(two):
    toll = two.toll("recall", "ACME", "S-1").out
    assert two.run(*RESIDUE, "--tell").status == 0
    done = two.run("recall", "ACME", "S-1").out
    assert done.startswith(toll) and [line.split()[:3] for line in done.removeprefix(toll).splitlines()[1:]] == [["1", "BOLT", "X-1"], ["1", "BOLT", "X-2"]]
    assert [line.split()[:3] for line in two.run("years", "recall", "ACME", "S-1", "--csv").out.replace(",", " ").replace('"', "").splitlines()[2:]]
    assert "ACME" in two.run("trace", "BOLT", "X-1", "back").out
    papers = two.folder / "made"
    assert two.run("papers", "recall", "ACME", "S-1", papers, "--no-pdf").status == 0
    assert {str(path.relative_to(papers)) for path in papers.rglob("recall.html")} == {
        "plant/recall.html", "owners/ACME/recall.html", "owners/BOLT/X-1/recall.html", "owners/BOLT/X-2/recall.html"}
    assert "SECRET-1" in (papers / "plant" / "plant_links.csv").read_text() and "SECRET-1" in (papers / "plant" / "recall.html").read_text()
    for path, text in texts(papers / "owners").items():
        foreign = {"BOLT", "X-1", "X-2", "P-1", "PASTE", "SECRET-1"} if path.startswith("ACME") else OF_ACME
        assert not foreign & set(re.findall(r"[A-Z0-9][A-Z0-9,-]*", text)), path


REFUSED = {
    ("link", "BOLT", "X-1", "S-1", "--of-owner", "ACME", "--why", "use"): "contains lots of BOLT and of HOUSE alone, and none of ACME",
    ("link", "BOLT", "X-1", "S-9", "--of-owner", "ACME", "--why", "residue"): "there is no lot S-9 of ACME",
    ("link", "BOLT", "X-1", "--of-batch", "O-1", 7, "--of-owner", "ACME", "--why", "residue"): "there is no batch O-1/7 of ACME",
    ("link", "ACME", "B-1", "S-1", "--why", "transfer"): "a transfer link joins two owners",
    ("link", "BOLT", "X-1", "X-1", "--why", "residue"): "isn't linked to itself",
    ("link", "BOLT", "X-1", "W-101", "--of-owner", "HOUSE", "--why", "residue", "--tell"): "--tell is for the lots of an owner that contain another owner's material",
    ("link", "ACME", "B-1", "S-1", "--why", "rework", "--tell"): "--tell goes with --why residue",
    ("link", "ACME", "B-1", "--of-batch", "O-1", 1, "--why", "use"): "--of-batch goes with --why residue",
    ("link", "BOLT", "X-1", "S-1", "--of-owner", "NOBODY", "--why", "residue"): "there is no owner NOBODY",
    ("link", "BOLT", "X-1", "S-1", "--of-owner", "ACME", "--why", "residue", "--reason", "\x1b[2J"): "U+001B",
    ("link", "BOLT", "../X", "S-1", "--of-owner", "ACME", "--why", "residue"): "there is no lot ../X of BOLT",
}


@pytest.mark.parametrize("words", REFUSED, ids=[" ".join(map(ascii, words)) for words in REFUSED])
def test_a_link_of_what_isn_t_so_is_refused(two, words):
    done = two.run(*words)
    assert done.status in (1, 2) and done.out == "" and REFUSED[words] in done.err, done
    assert not [line for line in two.lines() if "notes" in line]


@pytest.mark.parametrize("value", [
    {"kind": "plant-link", "owner": "BOLT", "of_owner": "ACME", "spread": "theft", "day": 101, "lot": "X-1", "of_lot": "S-1"},
    {"kind": "plant-link", "owner": "BOLT", "of_owner": "ACME", "spread": "residue", "day": 101, "lot": "X-1"},
    {"kind": "plant-link", "owner": "BOLT", "of_owner": "ACME", "spread": "residue", "day": 101, "lot": "X-1", "of_lot": "S-1", "of_order": "O-1", "of_batch": 1},
    {"kind": "plant-link", "owner": "BOLT", "of_owner": "ACME", "spread": "residue", "day": 101, "lot": "X-1", "of_lot": "S-1", "tells": "yes"},
    {"kind": "plant-link", "owner": "BOLT", "of_owner": "BOLT", "spread": "residue", "day": 101, "lot": "X-1", "of_lot": "X-1"},
    {"kind": "cleaned", "owner": "HOUSE", "unit": "../x", "how": "hot"}, {"kind": "unit", "owner": "HOUSE", "unit": "a b", "name": "x"},
    {"kind": "material", "owner": "ACME", "material": "SALT", "allergens": ["MILK NUT"]}, {"kind": "material", "owner": "ACME", "material": "SALT", "allergens": "MILK"},
])
def test_a_forged_note_counts_for_nothing(two, value):
    journal = Journal(str(two.journal), str(two.db))
    before = two.run("recall", "ACME", "S-1").out
    journal.note(journal.file, ["link"], notes=[value])
    assert two.run("recall", "ACME", "S-1").out == before and "can't be read" in two.run("note", "list").out


def test_a_link_stays_with_its_lots_over_a_carry_over(two):
    for words in (RESIDUE, SOLD):
        assert two.run(*words, "--tell").status == 0
    two.lay("scrap ACME K90 B-1 TOTE1 900 103\nscrap ACME K91 B-1 TOTE2 80 103")
    before = [line.split(",")[:3] for line in two.run("years", "recall", "ACME", "S-1", "--csv").out.splitlines()]
    assert two.run("carry-over", two.folder / "next.db", "--day", 104).status == 0
    assert [line.split(",")[:3] for line in two.run("years", "recall", "ACME", "S-1", "--csv").out.splitlines()] == before
    done = two.run("recall", "ACME", "S-1").out.partition(OVER_ALL)[0].splitlines()
    assert [line.split()[:3] for line in done if line.endswith("*")] == [["1", "BOLT", "P-1"], ["1", "BOLT", "X-1"], ["1", "BOLT", "X-2"]]
    (two.folder / "companions").mkdir()
    assert two.run("companion", "--out", two.folder / "companions").status == 0
    lots = json.loads((two.folder / "companions" / "BOLT.json").read_text())["lots"]
    assert {lot["lot"] for lot in lots if lot.get("foreign")} == {"P-1", "X-1", "X-2"}
    assert two.run("papers", "recall", "ACME", "S-1", two.folder / "made", "--no-pdf").status == 0
    assert "NaN" not in (two.folder / "made" / "plant" / "recall.html").read_text() and two.run("verify").out.count("sound")
