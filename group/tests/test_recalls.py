"""A recall across offices is what sets in memory are, both ways, for the group and for each company; and what of it isn't sure is told."""
import contextlib
import csv
import io
import json
import os
import pathlib
import random
import shutil
import sqlite3
import subprocess
import sys

import pytest
from group_of_plants import OWNERS, RECEIVE, ROOT, SHIP, TOLL, Group, Plant, Sets
from hilpoven.core import private_server
from hilpoven.model.genealogy import BACK, FORWARD
from hilpoven_group import database, members, recalls
from hilpoven_group.numbers import place_of

sys.path.append(str(ROOT / "plant" / "tests" / "years"))
import histories  # noqa: E402

RECENT = 60  # of an owner's lots that a batch uses


class Works:
    """Plants in a ring that work at random, and send each other lots."""

    def __init__(self, group: Group, seed: int, plants: int = 3, batches: int = 12, owners: tuple[str, ...] = OWNERS) -> None:
        self.group, self.dice, self.batches, self.owners = group, random.Random(seed), batches, owners
        self.plants = [group.plant(f"P{at}", owners) for at in range(1, plants + 1)]
        self.parties: dict[tuple[str, str, str], str] = {}
        self.notes: dict[str, list[dict]] = {plant.name: [] for plant in self.plants}
        self.sent: dict[tuple[str, str], list[tuple[str, str]]] = {}
        with contextlib.closing(group.cluster.connect(group.name)) as base:
            for plant, other in zip(self.plants, self.plants[-1:] + self.plants[:-1]):
                for owner in owners:
                    members.add_party(base, plant.name, owner, "BEFORE", other.name)
                    self.parties[plant.name, owner, "BEFORE"] = other.name

    def note(self, plant: Plant, after: str, **note: str) -> None:
        """Notes something."""
        value = {name: text for name, text in note.items() if text}
        plant.note(value, after=after)
        self.notes[plant.name].append({**value, "after": after})

    def work(self, plant: Plant, other: Plant, file: str, after: str = "") -> None:
        """Batches of a file, receipts of what the other plant sent, and shipments."""
        dice = self.dice
        with plant.writing() as base:
            plant.receive(base, "HOUSE", f"W{file}", 10_000)
            for owner in self.owners:
                lots = [f"S{file}-{at}" for at in range(3)]
                for lot in lots:
                    plant.receive(base, owner, lot)
                for lot, document in self.sent.get((other.name, owner), [])[:4]:
                    how = dice.choice(("lot", "document", "both", "none"))
                    name = f"R{file}-{len(lots)}"
                    key = plant.receive(base, owner, name)
                    base.commit()
                    self.note(plant, after, kind="movement", owner=owner, key=key, party="BEFORE", supplier_lot=lot if how in ("lot", "both") else "",
                              document=document if how in ("document", "both") else "")
                    lots.append(name)
                for number in range(1, self.batches + 1):
                    used = {lot: dice.choice((1, 2)) for lot in dice.sample(lots[-RECENT:], min(len(lots), dice.choice((1, 2, 3))))}
                    if dice.random() < 0.3:
                        used["HOUSE", f"W{file}"] = 1
                    products = {f"B{file}-{number}-{at}": dice.choice((1, 2)) for at in range(dice.choice((1, 2)))}
                    plant.batch(base, owner, f"O{file}", number, used, products)
                    if dice.random() < 0.2:
                        plant.void(base, owner, dice.choice(base.execute("SELECT mkey FROM moves WHERE owner = ? AND number = ? AND ord = ? AND kind = 4", (owner, number, f"O{file}")).fetchall())[0])
                    lots += products
                    if dice.random() < 0.3:
                        lot, document = next(iter(products)), dice.choice(("", f"D{number}"))
                        key = plant.move(base, owner, SHIP, lot, 5)
                        base.commit()
                        self.note(plant, after, kind="movement", owner=owner, key=key, party="AFTER", document=document)
                        self.sent.setdefault((plant.name, owner), []).append((lot, document))
                base.commit()
                self.note(plant, after, kind="link", owner=owner, lot=lots[-1], of_owner=owner, of_lot=lots[0], why="rework")

    def happen(self) -> None:
        """Has all of it happen, in two rounds of which the first plant has one in an earlier file."""
        for round_name in ("X", "Y"):
            for at, plant in enumerate(self.plants):
                is_second = round_name == "Y" and at == 0
                if is_second:
                    plant.carry_over()
                self.work(plant, self.plants[at - 1], round_name if self.dice.random() < 0.8 or not is_second else "X", "office-1.db" if is_second else "")

    def all(self) -> Sets:
        """Has all of it happen, and publishes."""
        self.happen()
        for plant in self.plants:
            assert plant.publish() > 0 and plant.differences() == []
        return self.sets()

    def sets(self) -> Sets:
        """The same as sets in memory."""
        return Sets(self.plants, self.parties, self.notes)


def names_of(group: Group) -> dict[int, tuple[str, int, str, str]]:
    """What each lot is called: its plant, the file where it began, its owner and its name there, by its number."""
    offices = dict(group.rows("SELECT office, name FROM hg.offices"))
    rows = group.rows("SELECT lot_id, owner, lot FROM hg.lots WHERE NOT came ORDER BY lot_id")
    return {number: (offices[place_of(number).office], place_of(number).file, owner, lot) for number, owner, lot in rows}


def compare(group: Group, sets: Sets, base: object, owner: str = "") -> int:
    """Compares recalls of lots, of one owner's or of all, with sets; how many."""
    names, count = names_of(group), 0
    for number, name in names.items():
        if owner in ("", name[2]):
            for way in (FORWARD, BACK):
                traced = recalls.trace(base, number, way)
                assert {names[lot]: steps for lot, steps in traced.steps.items()} == sets.trace(name, way), (name, way)
                count += 1
    return count


@pytest.mark.parametrize("seed", [1])
def test_recalls_equal_sets(group, seed):
    recalls_equal_sets(group, seed)


@pytest.mark.long
@pytest.mark.parametrize("seed", range(2, 12))
def test_recalls_of_more_groups_equal_sets(group, seed):
    recalls_equal_sets(group, seed, plants=4, batches=25)


def recalls_equal_sets(group, seed, **size):
    """Compares recalls of a group that worked at random with sets."""
    sets = Works(group, seed, **size).all()
    across = [edge for edge in sets.edges if edge[0][0] != edge[1][0]]
    assert len(across) > 3
    with contextlib.closing(group.cluster.connect(group.name)) as base:
        assert compare(group, sets, base) > 100
    ((role,),) = group.rows("SELECT role FROM hg.companies WHERE name = 'ACME'")
    with contextlib.closing(group.cluster.connect(group.name, role)) as base:
        assert compare(group, sets, base, "ACME") > 50


# What of a recall isn't sure, and where it ends


@pytest.fixture
def pair(group) -> tuple[Plant, Plant]:
    """Two plants, of which the second receives from the first."""
    north, south = group.plant("NORTH"), group.plant("SOUTH")
    group.ok("group", "party", "SOUTH", "ACME", "NORTHCO", "NORTH")
    group.ok("group", "party", "NORTH", "ACME", "SOUTHCO", "SOUTH")
    with north.writing() as base:
        for lot in ("S-1", "S-2", "S-3"):
            north.receive(base, "ACME", lot)
        keys = [north.move(base, "ACME", SHIP, lot, 100) for lot in ("S-1", "S-2", "S-3")]
    for key in keys[:2]:
        north.note_movement("ACME", key, party="SOUTHCO", document="LS 1")
    north.note_movement("ACME", keys[2], party="SOUTHCO")
    with south.writing() as base:
        keys = [south.receive(base, "ACME", lot, 150) for lot in ("R-1", "R-2", "R-3")]
    south.note_movement("ACME", keys[0], party="NORTHCO", document="LS 1")  # which of two lots?
    south.note_movement("ACME", keys[1], party="NORTHCO", supplier_lot="S-1")
    south.note_movement("ACME", keys[2], party="NORTHCO", supplier_lot="S-9")
    assert north.publish() > 0 and south.publish() > 0
    return north, south


def test_an_ambiguous_match_follows_all_and_says_so(pair, group):
    rows = json.loads(group.ok("group", "recall", "NORTH", "ACME", "S-2", "--json").split("]\n")[0] + "]")
    assert [(row["lot"], row["by"]) for row in rows] == [("S-2", ""), ("R-1", "document (ambiguous: all are followed)")]
    back = json.loads(group.ok("group", "recall", "SOUTH", "ACME", "R-1", "back", "--json"))
    assert sorted(row["lot"] for row in back) == ["R-1", "S-1", "S-2"] and all("ambiguous" in row["by"] for row in back[1:])
    sure = json.loads(group.ok("group", "recall", "SOUTH", "ACME", "R-2", "back", "--json"))
    assert [(row["lot"], row["by"]) for row in sure] == [("R-2", ""), ("S-1", "supplier's lot")]


def test_a_recall_says_who_has_what_and_how_old_it_is(pair, group):
    recalled = group.run("group", "recall", "NORTH", "ACME", "S-1")
    assert "SOUTHCO" in recalled.stdout and "LS 1" in recalled.stdout and "SOUTH" in recalled.stdout
    assert "oldest: NORTH, as of" in recalled.stderr
    group.rows("UPDATE hg.looked SET at = at - interval '1 hour' WHERE office = 2 RETURNING 1")
    assert "oldest: SOUTH" in group.run("group", "recall", "NORTH", "ACME", "S-1").stderr
    group.plant("EAST")
    assert "oldest: EAST, which never published" in group.run("group", "ends").stderr


def test_ends_are_listed(pair, group):
    rows = json.loads(group.ok("group", "ends", "--json"))
    assert [(row["what"], row["lot"], row["amount"]) for row in rows] == [
        ("more received than shipped", "S-1", 50), ("received, and nobody shipped it", "R-3", 150), ("shipped, and nobody received it", "S-3", 100)]


def test_what_a_person_joins_is_followed(pair, group):
    assert group.run("group", "join", "NORTH", "ACME", "S-3", "SOUTH", "ACME", "R-3").exit_code == 2  # no reason
    group.ok("group", "join", "NORTH", "ACME", "S-3", "SOUTH", "ACME", "R-3", "--reason", "the driver had no paper")
    assert "declared" in group.ok("group", "recall", "NORTH", "ACME", "S-3")
    assert "declared" in group.ok("group", "recall", "SOUTH", "ACME", "R-3", "back")
    assert group.run("group", "join", "SOUTH", "ACME", "R-3", "NORTH", "ACME", "S-3", "--reason", "x").exit_code == 1
    assert [row["what"] for row in json.loads(group.ok("group", "ends", "--json"))] == ["more received than shipped"]
    assert group.run("group", "join", "NORTH", "ACME", "S-8", "SOUTH", "ACME", "R-3", "--reason", "x").exit_code == 1


def test_a_lot_of_two_files_is_told_apart(group):
    plant = group.plant("NORTH")
    with plant.writing() as base:
        plant.receive(base, "ACME", "S-1")
        plant.move(base, "ACME", SHIP, "S-1", 1_000)
    plant.carry_over()
    with plant.writing() as base:
        plant.keys["ACME"] = 50
        plant.receive(base, "ACME", "S-1", 7)
    plant.publish()
    rows = group.ok("group", "recall", "NORTH", "ACME", "S-1")
    assert "office-1.db" in rows and "office.db " in rows
    assert "office-1.db" not in group.ok("group", "recall", "NORTH", "ACME", "S-1", "--in", "office.db")
    assert group.run("group", "recall", "NORTH", "ACME", "S-1", "--in", "office-7.db").exit_code == 1


@pytest.mark.skipif(not TOLL, reason="needs the program, by TOLL")
def test_recalls_equal_those_of_toll(group, tmp_path):
    plant = group.plant("DAY", owners=("ACME", "BOLT"))
    plant.file.unlink()
    done = subprocess.run([ROOT / "demo" / "run", tmp_path / "day"], env={**os.environ, "TOLL": TOLL}, capture_output=True, text=True, cwd=tmp_path)
    assert done.returncode == 0, done.stderr
    for path in filter(pathlib.Path.is_file, pathlib.Path(tmp_path / "day").glob("office.db*")):
        shutil.copy(path, plant.file.parent)
    assert plant.publish() > 0
    verified = plant.run("publish", "verify", "--full")
    assert verified.exit_code == 0 and "the same" in verified.stdout and " 0 recalls" not in verified.stdout, (verified.stdout, verified.stderr)
    digest = json.loads(plant.run("publish", "digest", "ACME", "--json").stdout)
    ((role,),) = group.rows("SELECT role FROM hg.companies WHERE name = 'ACME'")
    with contextlib.closing(group.cluster.connect(group.name, role)) as base:
        shown = database.rows(base, "SELECT n, encode(head, 'hex') FROM hg.computed_heads(NULL) WHERE n > 0")
    assert sorted((row["rows"], row["head"]) for row in digest) == sorted(shown)
    group.rows("UPDATE hg.moves SET segment = segment + 5 WHERE kind = 4 RETURNING 1")
    assert "recall" in plant.run("publish", "verify", "--full").stdout
    assert RECEIVE == 0


# Offices that `toll` made, with files that were carried over


@pytest.mark.skipif(not TOLL, reason="needs the program, by TOLL")
@pytest.mark.parametrize("seed", [1, *(pytest.param(seed, marks=pytest.mark.long) for seed in range(2, 21))])
def test_recalls_equal_those_of_years(group, tmp_path, seed):
    plant = carried_over(group, tmp_path / "one.db", random.Random(seed), 40 if seed == 1 else 120)
    assert plant.publish() > 0 and plant.differences() == []
    files = sorted(path.name for path in plant.file.parent.glob("office*.db"))
    assert len(files) == 3
    lots = group.rows("SELECT l.owner, l.lot, f.name FROM hg.lots AS l JOIN hg.files AS f USING (office, file) WHERE NOT l.came ORDER BY l.lot_id")
    assert len(lots) > 20
    for owner, lot, file in lots:
        for way, words in ((FORWARD, ["recall", owner, lot]), (BACK, ["trace", owner, lot, "back"])):
            printed = group.ok("group", "recall", plant.name, owner, lot, way, "--in", file, "--json").partition("]\n")[0]  # without shipments
            over_years = list(csv.DictReader(io.StringIO(group.ok("years", *words, "--in", file, "--csv", office=plant))))
            ours = [{name: str(value) for name, value in row.items()} | {"came_in": row["file"]} for row in json.loads(printed + "]")]
            same = over_years[0].keys() - {"noted"}
            assert comparable(ours, same) == comparable(over_years, same), (owner, lot, file, way)


def comparable(rows: list[dict], columns: set[str]) -> list[list]:
    """These columns of rows, of which a lot that has another's name is called by its name alone."""
    return sorted([row[name].partition(" ")[0] if name == "lot" else row[name] for name in sorted(columns)] for row in rows)


def carried_over(group: Group, one: pathlib.Path, dice: random.Random, size: int) -> Plant:
    """An office of three files whose history grew at random over one, with names that come again, and links between its lots in each file."""
    plant = group.plant("YEARS")
    for path in plant.file.parent.iterdir():
        path.unlink()
    with private_server.opened(TOLL, str(one)) as served:
        growing = histories.Growing(served, dice, one)
        growing.grow(size, 2)
    parts = [[step for step in part if step != histories.CUT] for part in split_at(growing.steps, histories.CUT)]
    names = {lot: name for lot, (name, _) in histories.named_again(growing, parts, 0.7).items()}
    for number, part in enumerate(parts):
        if number:
            plant.run("carry-over", plant.file.with_name("next.db"), "--day", 260101)
        with private_server.opened(TOLL, str(plant.file)) as office:
            for step in part:
                assert histories.accepts(office, histories.renamed(step, names)), step
        link_some(plant, dice)
    return plant


def split_at(steps: list, cut: object) -> list[list]:
    """The steps between cuts."""
    at = [place for place, step in enumerate(steps) if step == cut]
    return [steps[first:last] for first, last in zip([0, *(place + 1 for place in at)], [*at, len(steps)])]


def link_some(plant: Plant, dice: random.Random) -> None:
    """Notes links between lots and batches of the newest file, some of them between owners."""
    with contextlib.closing(sqlite3.connect(plant.file)) as base:
        lots = base.execute("SELECT owner, lot FROM lots ORDER BY rowid").fetchall()
        batches = base.execute("SELECT owner, ord, number FROM batches ORDER BY rowid").fetchall()
    for _ in range(4):
        (owner, lot), (of_owner, of_lot), (of_batch, order, number) = dice.choice(lots), dice.choice(lots), dice.choice(batches)
        of = ["--of-batch", order, number, "--of-owner", of_batch] if dice.random() < 0.5 else [of_lot, "--of-owner", of_owner]
        plant.run("link", owner, lot, *of, "--why", dice.choice(("residue", "recovered", "transfer")))
