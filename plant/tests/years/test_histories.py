"""A history that was cut by carry-overs is told as it is over one file."""
import contextlib
import dataclasses
import pathlib
import shutil
import sqlite3
import tempfile
from collections.abc import Callable
from random import Random

import pytest
from conftest import Plant
from hilpoven.core import days, private_server
from hilpoven.core.office import Office
from hilpoven.core.private_server import PrivateServer
from hilpoven.report import overviews
from hilpoven.report.papers import statement
from hilpoven.model.genealogy import Genealogy
from hilpoven.model import views
from hilpoven.model.answers import recall_lines
from hilpoven.model.register.standing import Register
from hilpoven.model.rows import LotId
from hilpoven.model.years import history
from hilpoven.care.years.steps import Step
from hypothesis import HealthCheck, Phase, given, settings, strategies
from histories import CUT, KEYS, OWNERS, Growing, accepts, called_again, named_again, renamed

EVERYBODY = ("HOUSE", *OWNERS)
# Tables of all files together, and of the one file, in the order in which they were recorded where that is told.
TABLES = {
    "orders": "owner, ord, recipe, batches, cancelled", "batches": "owner, ord, number, unit, state, closed", "lots": "owner, lot, material, ord, number, disposition",
    "sublots": "owner, lot, sublot, amount", "moves": "owner, mkey, kind, lot_owner, lot, sublot, target, material, ord, number, segment, amount, day",
    "results": "owner, lot, test, number, value, day", "voids": "owner, mkey", "materials": "*", "tests": "*", "recipes": "*", "requirements": "*", "units": "*",
}
IN_ORDER = ("moves", "results", "voids")


def test_a_sample_of_cut_histories(program):
    try_histories(program, 4)


@pytest.mark.long
def test_three_hundred_cut_histories(program):
    try_histories(program, 300)


def test_a_sample_of_cut_histories_in_which_names_come_again(program):
    try_histories(program, 3, 0.7)


@pytest.mark.long
def test_a_hundred_cut_histories_in_which_names_come_again(program):
    try_histories(program, 100, 0.7)


def try_histories(program, examples, chance=0.0):
    """Tries so many generated histories, in memory where that is there."""
    @settings(max_examples=examples, phases=[Phase.generate], suppress_health_check=list(HealthCheck))
    @given(strategies.integers(0, 1 << 32), strategies.integers(40, 250), strategies.integers(2, 3))
    def run(seed, size, cuts):
        memory = "/dev/shm" if pathlib.Path("/dev/shm").is_dir() else None
        with tempfile.TemporaryDirectory(dir=memory) as folder:
            try_history(Plant(program, pathlib.Path(folder)), Random(seed), size, cuts, chance)
    run()


def try_history(plant: Plant, random: Random, size: int, cuts: int, chance: float = 0.0) -> None:
    """Grows a history over one file, gives it to another that is carried over on the way, and compares. By so much chance a lot that
    comes in the next file has there the name of one that stayed behind."""
    one = plant.folder / "one" / "one.db"
    one.parent.mkdir()
    with private_server.opened(plant.program, str(one)) as served:
        growing = Growing(served, random, one)
        growing.grow(size, cuts)
        parts = [list(part) for part in parts_of(growing.steps)]
        again = named_again(growing, parts, chance)
        names = {lot: name for lot, (name, _) in again.items()}
        given = [[renamed(step, names) for step in part] for part in parts]
        for number, part in enumerate(given):
            if number:
                carry_over(plant)
                nothing_acts_again(plant, [step for before in given[:number] for step in before])
            with private_server.opened(plant.program, str(plant.db)) as cut:
                for step in part:
                    assert accepts(cut, step), step
        compare(plant, one, served, cuts, called_again(again))


def parts_of(steps):
    """The steps between two moments."""
    part = []
    for step in steps:
        if step == CUT:
            yield part
            part = []
        else:
            part.append(step)
    yield part


def carry_over(plant: Plant) -> None:
    """Carries the office over: stock, dispositions, latest results and what a release is told are as before."""
    before = told_of_lots(plant, plant.db)
    done = plant.run("carry-over", plant.folder / "next.db", "--day", 260101)
    assert done.status == 0, done
    assert told_of_lots(plant, plant.db) == before


def told_of_lots(plant: Plant, db: pathlib.Path) -> dict:
    """What `toll` tells of all lots with something on hand, and of a release of each, over a copy."""
    copy = plant.folder / "copy" / "copy.db"
    shutil.rmtree(copy.parent, ignore_errors=True)
    copy.parent.mkdir()
    for end in ("", "-wal"):
        with contextlib.suppress(FileNotFoundError):
            shutil.copyfile(f"{db}{end}", f"{copy}{end}")
    lines_of = {}
    with private_server.opened(plant.program, str(copy)) as asked:
        for owner in EVERYBODY:
            lines_of[owner] = [line for line in asked.ask("stock", owner).output.splitlines() if line.split()[4] != "0"]
            for lot in sorted({line.split()[0] for line in lines_of[owner]}):
                lines_of[owner, lot] = told_of_lot(asked, owner, lot)
    return lines_of


def told_of_lot(asked: PrivateServer, owner: str, lot: str) -> object:
    """What a lot's owner is told of it, the latest results alone, and of its release."""
    if owner == "HOUSE":
        return asked.ask("release", lot)
    _, body = asked.request(owner, KEYS[owner], f"/lots/{lot}")
    latest = {result["test"]: (result["value"], result["day"]) for result in body["results"]}
    sublots = [(sublot["sublot"], sublot["amount"]) for sublot in body["sublots"] if sublot["amount"]]
    status, answer = asked.request(owner, KEYS[owner], f"/lots/{lot}/release", ())
    return body["disposition"], body["material"], latest, sublots, status, answer.get("error")


def nothing_acts_again(plant: Plant, steps: list[Step]) -> None:
    """A file of all actuals from before does nothing in the next file."""
    actuals = [step for step in steps if step.words[:1] == ("actual",)]
    if not actuals:
        return
    names = "key,owner,order,batch,segment,use,material,lot_owner,lot,sublot,amount,day"
    sheet = plant.folder / "before.csv"
    sheet.write_text("\n".join([names, *(",".join(actual.words[1:]) for actual in actuals)]) + "\n")
    before = plant.content()
    assert "accepted 0 repeated 0" in plant.toll("import", sheet).out
    assert plant.run("import", sheet).status in (0, 1)
    assert plant.content() == before


def compare(plant: Plant, one: pathlib.Path, served: PrivateServer, cuts: int, called: dict[str, str]) -> None:
    """All files together are told as the one file, where lots are called otherwise."""
    back = {lot: name for name, lot in called.items()}

    def same(rows):
        return [tuple(called.get(cell, cell) for cell in row) for row in rows]

    with history.opened(Office(str(plant.db), plant.program, 10.0)) as cut, history.opened(Office(str(one), plant.program, 10.0)) as whole:
        assert len(cut.parts) == cuts + 1 and whole.is_one
        compare_tables(cut.base, whole.base, whole.copy, same)
        for owner, lot in whole.base.execute("SELECT owner, lot FROM lots").fetchall():
            name = back.get(lot, lot)
            assert sorted(same(recalled(cut.base, owner, name))) == [typed(line.split()) for line in served.ask("recall", owner, lot).output.splitlines()[1:]]
            for way in ("back", "forward"):
                lines = map(str.split, served.ask("trace", owner, lot, way).output.splitlines())
                assert sorted(same(traced(cut.base, owner, name, way))) == [(int(steps), *words) for steps, *words in lines]
            overview, expected = overviews.lot(cut.base, owner, name), overviews.lot(whole.base, owner, lot)
            assert (overview.facts, overview.tables) == (expected.facts, expected.tables)
        compare_alone(plant, cut)
        for owner in EVERYBODY:
            for first, last in ((days.FIRST_DAY, days.LAST_DAY), (260103, 260108)):
                (lots, of_house), (expected, expected_of_house) = (stated_by_command(side.base, owner, first, last) for side in (cut, whole))
                assert sorted(same(lots)) == stated(whole.copy, owner, first, last) == expected
                assert sorted(same(of_house)) == sorted(expected_of_house)


def recalled(base: sqlite3.Connection, owner: str, lot: str) -> list[tuple]:
    """The lines of a recall by the tables."""
    return [dataclasses.astuple(line) for line in recall_lines(base, Genealogy(base).trace(LotId(owner, lot), "forward").steps)]


def traced(base: sqlite3.Connection, owner: str, lot: str, way: str) -> list[tuple]:
    """The lines of a trace by the tables."""
    return [(steps, *name) for name, steps in Genealogy(base).trace(LotId(owner, lot), way).steps.items()]


def stated_by_command(base: sqlite3.Connection, owner: str, first: int, last: int) -> tuple[list[tuple], list[tuple]]:
    """The lots of a statement and what is of HOUSE, where nothing is unexplained."""
    read = statement.read_statement(views.over(base, Register()), owner, first, last)
    assert not base.execute("SELECT 1 FROM temp.account WHERE unexplained").fetchone()
    return ([(material, lot, measure, *amounts[:-1]) for material, measure, lot, _, *amounts in read.lots.rows],
            [(material, lot, owner, *batch_of(batch), amount) for material, lot, batch, amount, _ in read.of_house.rows])


def batch_of(name: str) -> tuple[str, int]:
    """The order and the number of a batch by its name."""
    order, _, number = name.rpartition("/")
    return order, int(number)


def compare_alone(plant: Plant, cut: history.History) -> None:
    """What is asked of an owner is told of its rows and HOUSE's as it is told of all."""
    for owner in EVERYBODY:
        with history.opened(Office(str(plant.db), plant.program, 10.0), owner) as alone:
            of_one, of_all = (statement.read_statement(views.over(base, Register()), owner, 0, days.LAST_DAY) for base in (alone.base, cut.base))
            assert of_one == of_all
            for lot, in cut.base.execute("SELECT lot FROM lots WHERE owner = ?", (owner,)).fetchall():
                assert recalled(alone.base, owner, lot) == recalled(cut.base, owner, lot)
                assert traced(alone.base, owner, lot, "back") == traced(cut.base, owner, lot, "back")
                assert overviews.lot(alone.base, owner, lot) == overviews.lot(cut.base, owner, lot)


def typed(words: list[str]) -> tuple:
    """A line of `toll recall` as values."""
    return int(words[0]), *words[1:4], int(words[4]), int(words[5])


def compare_tables(history: sqlite3.Connection, whole: sqlite3.Connection, one: str, same: Callable) -> None:
    """The tables of all files together are those of the one file, and reading that alone changes nothing."""
    with contextlib.closing(sqlite3.connect(one)) as plain:
        for table, columns in TABLES.items():
            order = "rowid" if table in IN_ORDER else "1, 2, 3"
            if table == "units":
                order = "1"
            sql = f"SELECT {columns} FROM {table} ORDER BY {order}"
            expected = plain.execute(sql).fetchall()
            assert whole.execute(sql).fetchall() == expected, table
            rows = same(history.execute(sql).fetchall())
            assert (rows if order == "rowid" else sorted(rows)) == (expected if order == "rowid" else sorted(expected)), table


def stated(one: str, owner: str, first: int, last: int) -> list[tuple]:
    """The statement of an owner, added up movement by movement."""
    with contextlib.closing(sqlite3.connect(one)) as base:
        void = set(base.execute("SELECT owner, mkey FROM voids"))
        lots = {lot: (material, measure) for lot, material, measure in base.execute(
            "SELECT lot, material, measure FROM lots JOIN materials USING (owner, material) WHERE owner = ?", (owner,))}
        amounts = {lot: [0] * 7 for lot in lots}
        for move_owner, key, kind, lot, amount, day in base.execute("SELECT owner, mkey, kind, lot, amount, day FROM moves WHERE lot_owner = ?", (owner,)):
            if (move_owner, key) in void or kind == 1:
                continue
            sign = 1 if kind in (0, 5) else -1
            if day < first:
                amounts[lot][0] += sign * amount
            elif day <= last:
                amounts[lot][{0: 1, 5: 2, 4: 3, 3: 4, 2: 5}[kind]] += amount
            if day <= last:
                amounts[lot][6] += sign * amount
    return sorted((lots[lot][0], lot, lots[lot][1], *sums) for lot, sums in amounts.items() if any(sums))
