"""Closed settlements over generated offices are those of queries of their own: with by-products, rework, corrections, late batches and carry-overs."""
import contextlib
import json
import pathlib
import re
import sqlite3
from collections import Counter

import figures
import pytest
import settled
from looks import Papers
from offices import HOUSE
from test_settlement import STATES, Worked, terms_of, wanted_of

MONTHS = (2503, 2504, 2505)
NO_DATES = (7, 999_999)
FIGURES = ("actual", "expected", "loss", "allowed", "above")
RECEIVED = ("received", "returned", "reworked", "used", "corrected", "delivered")
DOUBTED = re.compile(r"([A-Z0-9-]+) ([A-Z0-9-]+) \(of lot")


class Monthly(Worked):
    """An office whose months are closed one after the other, while batches go on and earlier ones are corrected. The file may change between two
    months."""

    def fill(self) -> None:
        """What there is before the first month."""
        self.linked, self.corrects, self.allowances, self.mains = [], [], {}, {}
        self.tell("unit-add", "U0")
        with self.served():
            for owner in self.owners:
                self.tell("owner-add", owner, f"{owner}KEY1")
            for owner in [HOUSE, *self.owners]:
                self.set_up(owner)
            for owner in [HOUSE, *self.owners]:
                self.add_recipe(owner)
            self.release()
        self.files = [self.plant.db]

    def day(self) -> int:
        """A day of these months mostly."""
        return self.chance.choice((250301, 250315, 250331, 250402, 250420, 250430, 250505, 250531, *NO_DATES))

    def go_on(self, turn: int) -> None:
        """A month: batches go on, some are closed, some lots come back, and some entries are corrected."""
        if turn and len(self.files) == 1 and self.chance.random() < 0.25:
            self.carry_over()
        with self.served():
            for round in range(2):
                self.work(10 * turn + round)
            self.finish()
        for owner in [HOUSE, *self.owners]:
            self.bring_back(owner, turn)
            self.correct(owner, turn)
            self.link(owner)
            self.describe(owner)

    def link(self, owner: str) -> None:
        """A batch got some of a lot, besides its actuals."""
        batches, lots = self.rows(f"SELECT ord, number FROM batches WHERE owner = '{owner}'"), list(self.lots[owner])
        for why in ("rework", "use", "rework"):
            order, of, amount = self.chance.choice(batches)[0], self.chance.choice(lots), self.chance.randint(1_000, 9_000)
            done = self.plant.run("link", owner, "--batch", order, 1, of, "--why", why, "--amount", amount)
            if done.status == 0 and not done.out.startswith("noted already"):
                self.linked.append((owner, "", order, 1, owner, of, why, amount))

    def describe(self, owner: str) -> None:
        """The contract says something else of the recipe from now on."""
        if self.chance.random() < 0.5:
            tenths, product = self.chance.choice((1, 15, 120)), self.chance.choice(self.materials[owner])
            if self.plant.run("describe", "recipe", owner, "R", "--allowance", f"{tenths // 10}.{tenths % 10}", "--product", product).status == 0:
                self.allowances[owner], self.mains[owner] = tenths, product

    def rows(self, sql: str) -> list[tuple]:
        """The rows of all files."""
        rows: list[tuple] = []
        for file in self.files:
            with contextlib.closing(sqlite3.connect(f"file:{file}?mode=ro", uri=True)) as base:
                rows += base.execute(sql).fetchall()
        return rows

    def explain(self, owner: str, key: str) -> None:
        """It is noted what a doubtful correction is of: some movement of the same material."""
        lots = {row[:2]: row[2] for row in self.rows("SELECT owner, lot, material FROM lots")}
        moves = self.rows("SELECT owner, mkey, kind, lot_owner, lot FROM moves AS m WHERE NOT EXISTS (SELECT 1 FROM voids AS v WHERE v.owner = m.owner AND v.mkey = m.mkey)")
        own, = [move for move in moves if move[:2] == (owner, key)]
        carried = set(self.plant.rows("SELECT owner, mkey FROM carried_moves")) if len(self.files) > 1 else set()
        others = [move for move in moves if move[:2] not in {own[:2], *carried} and move[3] == own[3] and lots[move[3:]] == lots[own[3:]]]
        of_owner, of_key = self.chance.choice(others)[:2]
        assert self.plant.run("note", "corrects", owner, key, of_key, "--of-owner", of_owner).status == 0
        self.corrects = [row for row in self.corrects if row[:2] != (owner, key)] + [(owner, key, of_owner, of_key)]


def number(text: str | None) -> int:
    """A cell as a number, 0 if it is empty."""
    return int(text or 0)


class Closed:
    """The closed settlements of an office: their tables, batches and terms, by owner."""

    def __init__(self, office: Monthly, prints: bool) -> None:
        self.office, self.papers = office, Papers(office, prints)
        self.tables: dict[str, list[tuple[str, dict[str, list[dict[str, str]]]]]] = {}
        self.batches: dict[str, list[list[tuple]]] = {}
        self.terms: dict[str, list[list[tuple]]] = {}
        self.folders: dict[tuple[str, int], pathlib.Path] = {}
        self.count = Counter[str]()

    def settle(self, owner: str, month: int) -> None:
        """Closes a month, once it is known what is corrected, and compares it with queries."""
        folder = self.office.plant.folder / f"closed-{owner}-{month}"
        words = ("settle", owner, month, folder, *(() if self.papers.prints else ("--no-pdf",)))
        while (done := self.office.plant.run(*words)).status == 1:
            for doubted in DOUBTED.findall(done.err):
                self.count["doubted"] += 1
                self.office.explain(*doubted)
        assert (done.status, done.err) == (0, ""), (words, done)
        tables = {path.stem: figures.read_table(path) for path in folder.glob("*.csv")}
        self.tables.setdefault(owner, []).append((f"{owner}-{month}-1", tables))
        self.folders[owner, month] = folder
        self.count += Counter({name: len(rows) for name, rows in tables.items()}) + Counter(late=len({row["batch"] for row in tables["batches"] if row.get("late")}))
        with settled.all_tables(self.office.files, self.office.linked, owner, self.office.corrects) as base:
            self.compare(base, owner, month, tables)
        self.papers.look_at_page(folder, "settlement", ("links",))
        if owner != HOUSE and len(self.office.files) == 1:
            self.papers.base.unlink(missing_ok=True)
            self.papers.look_for_others(folder, owner)

    def compare(self, base: sqlite3.Connection, owner: str, month: int, tables: dict[str, list[dict[str, str]]]) -> None:
        """A settlement has what queries give: of its batches, and, with what others told, of all."""
        first, last, before = month * 100 + 1, month * 100 + 31, [batch for batches in self.batches.get(owner, []) for batch in batches]
        words = {"owner": owner, "first": first, "last": last, "states": json.dumps(STATES)}
        due = base.execute("SELECT ord, number, hi FROM run WHERE closed AND (hi <= :last OR hi IN (7, 999999))", words).fetchall()
        new = [row[:2] for row in due if row[:2] not in before]
        terms = terms_of(base, owner, self.office.allowances.get(owner, 0))
        terms = [(recipe, self.office.mains.get(owner, main), allowance) for recipe, main, allowance in terms]
        settled.choose(base, new, terms, [*before, *new])
        wanted = wanted_of(base, words, bool(self.office.allowances.get(owner)))
        late = {f"{order}/{batch}" for order, batch, day in due if not first <= day <= last}
        assert {row["batch"] for row in tables["batches"] if row.get("late")} == late & {f"{order}/{batch}" for order, batch in new}
        tables["batches"] = [{name: cell for name, cell in row.items() if name != "late"} for row in tables["batches"]]
        for name in ("recipes", "by_products", "batches", "going_on"):
            assert sorted(tables.get(name, []), key=str) == wanted[name], (owner, month, name)
        self.batches.setdefault(owner, []).append(new)
        self.terms.setdefault(owner, []).append(terms)
        assert all(base.execute("SELECT count(*) FROM doubts WHERE owner = ? AND mkey = ?", (row["source"], row["key"])).fetchone()[0] for row in tables.get("corrections", []) if row["counts"].startswith("doubt"))
        self.compare_changes(base, owner, words)
        self.compare_sums(base, owner, words)

    def compare_changes(self, base: sqlite3.Connection, owner: str, words: dict) -> None:
        """What closed settlements told of the batches of each, with later changes, is what there is now."""
        for at, (name, tables) in enumerate(self.tables[owner]):
            settled.choose(base, self.batches[owner][at], self.terms[owner][at])
            later = [row for _, others in self.tables[owner] for row in others.get("changed", []) if row["settlement"] == name]
            reported: dict[tuple, Counter[str]] = {}
            for row in [*tables["recipes"], *tables.get("by_products", []), *later]:
                key = row["recipe"], row.get("use", "produced"), row.get("source", owner), row["material"]
                reported.setdefault(key, Counter()).update({figure: number(row.get(figure)) for figure in FIGURES})
            now = {(line["recipe"], line["use"], line["source"], line["material"]): {figure: number(line[figure]) for figure in FIGURES}
                   for line in settled.lines_of(base.execute(settled.RECIPES, words).fetchall())}
            assert {key: dict(sums) for key, sums in reported.items() if any(sums.values())} == {key: sums for key, sums in now.items() if any(sums.values())}, (owner, name)
            amounts = Counter[tuple]()
            changes = [row for _, others in self.tables[owner] for row in others.get("changed_batches", []) if row["settlement"] == name]
            for row in [*tables["batches"], *changes]:
                amounts[row["batch"], row["use"], row["source"], row["material"]] += int(row["amount"])
            rows = Counter({(row[0], *row[3:6]): row[6] for row in base.execute(settled.BATCHES, words)})
            assert {key: amount for key, amount in amounts.items() if amount} == {key: amount for key, amount in rows.items() if amount}, (owner, name)

    def compare_sums(self, base: sqlite3.Connection, owner: str, words: dict) -> None:
        """What all closed settlements tell to be made and received is what there is now."""
        sums, reported, received = Counter[tuple](), Counter[tuple](), Counter[tuple]()
        for at, (_, tables) in enumerate(self.tables[owner]):
            settled.choose(base, self.batches[owner][at], self.terms[owner][at])
            for material, kind, produced, again in base.execute(settled.MADE, words):
                sums.update({(material, kind, "produced"): produced, (material, kind, "reworked"): again})
            for row in tables["products"]:
                reported.update({(row["material"], row["product"], name): int(row[name]) for name in ("produced", "reworked")})
            for row in tables["received"]:
                received.update({(row["material"], name): int(row[name]) for name in RECEIVED})
        assert reported - Counter() == sums - Counter() and (-reported) - Counter() == (-sums) - Counter(), owner
        rows = base.execute(settled.RECEIVED, {**words, "first": 0}).fetchall()
        wanted = Counter({(row[0], name): int(cell) for row in rows for name, cell in zip(RECEIVED, row[1:])})
        assert {key: amount for key, amount in received.items() if amount} == {key: amount for key, amount in wanted.items() if amount}, owner


def try_office(program: str, folder: pathlib.Path, seed: int) -> Counter[str]:
    """Closes the months of an office, and prints them again; how many rows of each table there were."""
    office = Monthly(program, folder / "office", seed)
    closed = Closed(office, prints=seed % 20 == 0)
    for turn, month in enumerate(MONTHS, 1):
        office.go_on(turn)
        for owner in [HOUSE, *office.owners]:
            closed.settle(owner, month)
    for owner, month in office.chance.sample(sorted(closed.folders), 2):
        again = closed.papers.make("settlement", owner, "--month", month)
        first = closed.folders[owner, month]
        assert sorted(file.name for file in again.iterdir()) == sorted(file.name for file in first.iterdir())
        assert all(file.suffix == ".pdf" or file.read_bytes() == (first / file.name).read_bytes() for file in again.iterdir())
    for owner, batches in closed.batches.items():
        all_batches = [batch for part in batches for batch in part]
        assert len(all_batches) == len(set(all_batches))
    return closed.count


@pytest.mark.parametrize("seed", (0, 3, 7))
def test_closed_settlements_are_those_of_queries(program, tmp_path, seed):
    count = try_office(program, tmp_path, seed)
    assert count["batches"] and count["changed"] and count["corrections"] and count["by_products"] and count["late"], count


@pytest.mark.long
@pytest.mark.parametrize("seed", sorted({*range(200)} - {0, 3, 7}))
def test_200_closed_settlements_are_those_of_queries(program, tmp_path, seed):
    try_office(program, tmp_path, seed)
