"""Settlements over generated offices are those of queries of their own: with rework, returns, voids, carry-overs and open batches."""
import json
import pathlib
import sqlite3
from collections.abc import Iterable

import figures
import pytest
import settled
from offices import HOUSE, Filled
from settled import STATES
from test_papers_links_apart import Linked

PERIODS = ((0, 9_999_999), (261107, 261126), (261119, 261119), (0, 261112), (261113, 999_998))
PARTS = ((0, 261111), (261112, 261119), (261120, 9_999_999))  # all days, each in one


class Worked(Filled):
    """An office in which lots came back or were reworked, and of which some go on in a second file."""

    def fill(self) -> None:
        """All of it."""
        self.linked: list[tuple] = []
        self.corrects: list[tuple[str, str, str, str]] = []
        self.allowances: dict[str, int] = {}
        self.files = [self.plant.db]
        super().fill()
        for owner in [HOUSE, *self.owners]:
            self.bring_back(owner, 1)
            self.correct(owner, 1)
            if self.chance.random() < 0.6:
                self.allowances[owner] = self.chance.choice((1, 15, 120, 1000))
                tenths = self.allowances[owner]
                assert self.plant.run("describe", "recipe", owner, "R", "--allowance", f"{tenths // 10}.{tenths % 10}").status == 0
        if self.chance.random() < 0.35:
            self.carry_over()
            with self.served():
                self.work(7)
                for owner in [HOUSE, *self.owners]:
                    self.bring_back(owner, 2)
                    self.correct(owner, 2)
                self.finish()

    def bring_back(self, owner: str, turn: int) -> None:
        """Some lots of the owner come back, or are received again for another reason."""
        for number in range(3):
            of, why = self.chance.choice(list(self.lots[owner])), self.chance.choice(("return", "rework", "correction", "use"))
            material, lot = self.lots[owner][of], self.name()
            done = self.plant.run("receive", owner, f"B{turn}X{number}", material, lot, "S0", self.chance.randint(10_000, 90_000), self.day(), "--of", of, "--why", why)
            if done.out == "accepted\n":
                self.lots[owner][lot] = material
                self.linked.append((owner, lot, "", 0, owner, of, why, None))

    def correct(self, owner: str, turn: int) -> None:
        """Some of the owner's entries are corrected, as `docs/hilpoven.md` says, by receipts and scraps; of some of these it is noted what
        they correct."""
        for number in range(6):
            of, amount = self.chance.choice(list(self.lots[owner])), self.chance.choice((10_000, 20_000, self.chance.randint(10_000, 30_000)))
            key, lot = f"A{turn}X{number}", self.name()
            if number < 4:
                done = self.plant.run("receive", owner, key, self.lots[owner][of], lot, "S0", amount, self.day(), "--of", of, "--why", "correction", "--yes")
                if done.out == "accepted\n":
                    self.lots[owner][lot] = self.lots[owner][of]
                    self.linked.append((owner, lot, "", 0, owner, of, "correction", None))
            else:
                key = f"{'CORR' if number == 4 else 'LOSS'}-{turn}X{number}"
                done = self.plant.run("scrap", owner, key, of, "S0", amount, self.day(), "--yes")
            moves = self.plant.rows(f"SELECT mkey FROM moves AS m JOIN lots AS l ON l.owner = m.lot_owner AND l.lot = m.lot WHERE m.owner = '{owner}' AND m.lot_owner = '{owner}' AND m.mkey <> '{key}'"
                                    f" AND l.material = '{self.lots[owner][of]}' AND (m.owner, m.mkey) NOT IN (SELECT owner, mkey FROM voids)"
                                    + (" AND (m.owner, m.mkey) NOT IN (SELECT owner, mkey FROM carried_moves)" if len(self.files) > 1 else ""))
            if done.out == "accepted\n" and moves and self.chance.random() < 0.4:
                self.note(owner, key, *self.chance.choice(moves))

    def note(self, owner: str, key: str, of_key: str) -> None:
        """It is noted which movement a receipt or a scrap corrects."""
        assert self.plant.run("note", "corrects", owner, key, of_key).status == 0
        self.corrects = [row for row in self.corrects if row[:2] != (owner, key)] + [(owner, key, owner, of_key)]

    def carry_over(self) -> None:
        """All batches are closed, and the office goes on in a new file."""
        for owner, order, number in self.plant.rows("SELECT owner, ord, number FROM batches WHERE closed = 0"):
            self.tell("do", owner, order, number, "done")
            self.tell("do", owner, order, number, "abort")
            self.tell("do", owner, order, number, "done")
            self.tell("close", owner, order, number)
        done = self.plant.run("carry-over", "--day", 261115)
        assert done.status == 0, done
        self.files = [self.plant.folder / "office-1.db", self.plant.db]
        self.batches = {owner: [] for owner in self.batches}


NOTED = ("used", "corrected", "reworked")  # columns that a table lacks if they have nothing, and then the recorded amount too


def as_rows(lines: list[dict], columns: Iterable[str], is_allowed: bool = True) -> list[dict[str, str]]:
    """Lines as a table has them, which lacks columns that nothing is in."""
    lacking = {name for name in NOTED if not any(line[name] for line in lines)}
    lacking |= {"recorded"} if len(lacking) == len(NOTED) else set()
    lacking |= set() if is_allowed else {"allowed", "above"}
    return sorted(({name: str(line[name]) for name in columns if name not in lacking} for line in lines), key=str)


def names_of(columns: str) -> list[str]:
    """The names of columns."""
    return columns.split()


RECIPES = names_of("recipe batches use source material standard recorded used corrected reworked actual measure share expected loss loss_share allowed above")
BY_PRODUCTS = names_of("recipe batches material standard recorded used corrected reworked actual measure share")
MEASURED = "(SELECT measure FROM materials x WHERE x.whose = :owner AND x.stuff = material)"


def terms_of(base: sqlite3.Connection, owner: str, allowance: int) -> list[tuple]:
    """The terms of an owner's recipe: the product of which most is required, the first of these by name."""
    sql = "SELECT material FROM requirements WHERE owner = ? AND recipe = 'R' AND role = 1 GROUP BY material ORDER BY sum(amount) DESC, material"
    return [("R", base.execute(sql, (owner,)).fetchone()[0], allowance)]


class Settlements(Linked):
    """The settlements of such an office."""

    def __init__(self, program: str, folder: pathlib.Path, seed: int, prints: bool) -> None:
        super().__init__(program, folder, seed, prints, Worked)
        noted = [(link.owner, link.lot, link.order, link.batch, link.of_owner, link.of_lot, link.why.value, link.amount) for link in self.links]
        self.all_links = [*self.office.linked, *noted]

    def make(self, owner: str, first: int, last: int) -> dict[str, list[dict[str, str]]]:
        """The tables of a settlement, which are those of the queries."""
        folder = self.papers.make("settlement", owner, "--from", first, "--to", last)
        tables = {path.stem: figures.read_table(path) for path in folder.glob("*.csv")}
        words = {"owner": owner, "first": first, "last": last, "states": json.dumps(STATES)}
        allowance = self.office.allowances.get(owner, 0)
        with settled.all_tables(self.office.files, self.all_links, owner, self.office.corrects) as base:
            chosen = base.execute("SELECT ord, number FROM run WHERE closed AND hi BETWEEN :first AND :last", words).fetchall()
            settled.choose(base, chosen, terms_of(base, owner, allowance))
            wanted = wanted_of(base, words, bool(allowance))
        for name, rows in wanted.items():
            assert sorted(tables.get(name, []), key=str) == rows, (folder, owner, first, last, name)
        self.papers.look_at_page(folder, "settlement", ("links",))
        if owner != HOUSE and len(self.office.files) == 1:
            self.look_for_others(folder, owner)
        return tables


def wanted_of(base: sqlite3.Connection, words: dict, is_allowed: bool) -> dict[str, list[dict[str, str]]]:
    """The tables of a settlement by queries."""
    lines = settled.lines_of(base.execute(settled.RECIPES, words).fetchall())
    mains = [line for line in lines if line["use"] == "consumed" or line["is_main"]]
    others = [line for line in lines if line not in mains]

    def rows_of(sql: str, columns: str) -> list[dict[str, str]]:
        cells = [[str(int(cell) if isinstance(cell, float) else cell) for cell in row] for row in base.execute(sql, words)]
        return sorted((dict(zip(names_of(columns), row)) for row in cells), key=str)

    return {
        "recipes": as_rows(mains, RECIPES, is_allowed and bool(lines)),
        "by_products": as_rows(others, BY_PRODUCTS),
        "batches": rows_of(settled.BATCHES, "batch recipe day use source material amount measure"),
        "going_on": rows_of(settled.GOING_ON, "batch recipe state use source material amount measure"),
        "products": rows_of(f"SELECT *, p - r, {MEASURED} FROM (SELECT material, is_what, sum AS p, again AS r FROM ({settled.MADE}))", "material product produced reworked made measure"),
        "received": rows_of(f"SELECT *, {MEASURED} FROM ({settled.RECEIVED})", "material received returned reworked used corrected delivered measure"),
    }


WEEK = """do ACME O-1 1 done
close ACME O-1 1
result ACME B-1 PH 5 103
> ACME POST /lots/B-1/release
recipe-add ACME REWORK 1
require ACME REWORK 1 consumed ACME BRINE 900
require ACME REWORK 1 produced ACME BRINE 890
> ACME POST /orders {"order":"RW-1","recipe":"REWORK","batches":1}
open ACME RW-1 MIXER
do ACME RW-1 1 start
actual K30 ACME RW-1 1 1 consumed BRINE ACME B-1 TOTE1 890 110
actual K31 ACME RW-1 1 1 produced BRINE ACME B-3 TOTE1 870 111
do ACME RW-1 1 done
close ACME RW-1 1
open ACME O-1 KETTLE
do ACME O-1 2 start
actual K40 ACME O-1 2 1 consumed SALT ACME S-1 BAY1 150 112
"""


def test_a_settlement_tells_losses_rework_and_returns(at_work):
    at_work.lay(WEEK)
    for words in (("receive", "ACME", "K50", "BRINE", "B-1R", "TOTE1", 40, 112, "--of", "B-1", "--why", "return"), ("describe", "recipe", "ACME", "BRINE-10", "--allowance", "1.5"),
                  ("use", "ACME", "RW-1", 1, "ACME", "B-1", "TOTE2", 10, 111, "--yes")):
        assert at_work.run(*words).status == 0, words
    assert at_work.run("papers", "settlement", "ACME", "--from", 101, "--to", 112, at_work.folder / "made", "--no-pdf").status == 0
    tables = {name: figures.read_csv(at_work.folder / "made" / f"{name}.csv") for name in ("recipes", "products", "received", "going_on", "links")}
    # 980 of 1,000 were made, for which 294 of 300 are required: 6 more were consumed, of which 1.5 % of 294 are allowed
    assert tables["recipes"][0] == ["BRINE-10", "1", "consumed", "ACME", "SALT", "300", "300", "0", "300", "kg", "100.0", "294", "6", "2.0", "4", "2"]
    assert tables["recipes"][1][3:] == ["HOUSE", "WATER", "700", "700", "0", "700", "liter", "100.0", "686", "14", "2.0", "10", "4"]
    assert tables["recipes"][2][2:] == ["produced", "ACME", "BRINE", "1000", "980", "0", "980", "kg", "98.0", "", "", "", "", ""]
    # 870 of 890 for 879.77 of 900: 890 by an actual and 10 used, less 880
    assert tables["recipes"][3] == ["REWORK", "1", "consumed", "ACME", "BRINE", "900", "890", "10", "900", "kg", "100.0", "880", "20", "2.3", "", ""]
    assert tables["products"] == [["BRINE", "main", "1850", "900", "950", "kg"]]  # 890 by an actual, and 10 used besides
    assert tables["received"] == [["BRINE", "40", "40", "0", "0", "0", "0", "kg"], ["SALT", "5000", "0", "0", "0", "0", "5000", "kg"]]
    assert tables["going_on"] == [["O-1/2", "BRINE-10", "running", "consumed", "ACME", "SALT", "150", "kg"]] and [row[7] for row in tables["links"]] == ["return", "use"]
    assert at_work.run("papers", "settlement", "ACME", "--from", 112, "--to", 111, "--no-pdf", at_work.folder / "other").status == 2
    assert at_work.run("papers", "settlement", "ACME", "--from", 104, "--to", 110, "--no-pdf", at_work.folder / "other").status == 0
    assert [row[0] for row in figures.read_csv(at_work.folder / "other" / "going_on.csv")] == ["RW-1/1"]  # closed on a later day


def try_office(program: str, folder: pathlib.Path, seed: int) -> int:
    """Makes settlements over an office; how many rows of settled batches there were. What all days have, their parts have."""
    settlements = Settlements(program, folder / "office", seed, prints=seed % 20 == 0)
    chance, count = settlements.random, 0
    for owner in [HOUSE, *settlements.office.owners]:
        count += len(settlements.make(owner, *chance.choice(PERIODS))["batches"])
    whole = settlements.make(owner, *PERIODS[0])["batches"]
    parts = [settlements.make(owner, *days)["batches"] for days in PARTS]
    assert sorted((row for part in parts for row in part), key=str) == sorted(whole, key=str)
    return count


@pytest.mark.parametrize("seed", [0, pytest.param(1, marks=pytest.mark.long), 5])
def test_settlements_are_those_of_queries(program, tmp_path, seed):
    try_office(program, tmp_path, seed)


@pytest.mark.long
@pytest.mark.parametrize("seed", range(2, 200))
def test_200_settlements_are_those_of_queries(program, tmp_path, seed):
    try_office(program, tmp_path, seed)
