"""A group in a database of the tests' cluster, with offices of `toll`'s tables that publish, and what a recall is by sets."""
import contextlib
import functools
import itertools
import json
import os
import pathlib
import re
import sqlite3
from collections import defaultdict
from collections.abc import Iterator
from dataclasses import dataclass, field
from typing import Any

from click.testing import CliRunner

from hilpoven.cli import hilpoven
from hilpoven.core import settings as site
from hilpoven.core.context import Context
from hilpoven.core.rights import Person
from hilpoven_group import database, members, publisher, settings, verifying

ROOT = pathlib.Path(__file__).resolve().parent.parent.parent
TOLL = os.environ.get("TOLL", "")
NUMBERS = itertools.count(1)
RECEIVE, SPLIT, SHIP, SCRAP, CONSUMED, PRODUCED = range(6)
OWNERS = ("ACME", "BOLT")


class Plant:
    """An office of a group: its file, written as `toll` writes it, and its journal."""

    def __init__(self, group: "Group", name: str, file: pathlib.Path) -> None:
        self.group, self.name, self.file = group, name, file
        self.keys: dict[str, int] = defaultdict(int)
        if not file.exists():
            make_tables(file)

    @contextlib.contextmanager
    def writing(self) -> Iterator[sqlite3.Connection]:
        """The tables, for rows of one transaction."""
        with contextlib.closing(sqlite3.connect(self.file)) as base, base:
            yield base

    def key(self, owner: str) -> str:
        """The next key of an owner."""
        self.keys[owner] += 1
        return f"K{self.keys[owner]}"

    def context(self) -> Context:
        """What a command stands on."""
        return Context(site.Settings(file=str(self.file), office=self.name, toll=TOLL), person=Person(os.getuid()))

    def settings(self) -> settings.Group:
        """How it publishes."""
        return settings.Group(database=self.group.database, plant=self.name, every=0.0, chunk=self.group.chunk)

    @contextlib.contextmanager
    def publisher(self) -> Iterator[publisher.Publisher]:
        """A publisher of it, which tells into a list."""
        lines: list[str] = []
        with publisher.publishing(self.context(), self.settings(), lines.append) as publish:
            publish.lines = lines
            yield publish

    def publish(self) -> int | None:
        """Publishes once; how much was sent."""
        with self.publisher() as publish:
            return publish.step()

    def run(self, *words: object) -> Any:
        """What the plant's command tells."""
        return self.group.run(*words, office=self)

    def differences(self) -> list[str]:
        """In what the group's rows differ from the office's, but for recalls, which `toll` alone can tell."""
        with self.publisher() as publish:
            assert publish.resume() == []
            return verifying.compared(publish).faults

    # What happens in the plant

    def owner(self, base: sqlite3.Connection, owner: str) -> None:
        """Adds an owner with materials."""
        if owner != "HOUSE":
            base.execute("INSERT INTO owners VALUES (?, 'SECRETKEY')", (owner,))
        base.executemany("INSERT INTO materials VALUES (?, ?, 'kg')", [(owner, name) for name in ("RAW", "END")])

    def lot(self, base: sqlite3.Connection, owner: str, lot: str, order: str = "", number: int = 0, disposition: int = 1) -> None:
        """Adds a lot, if it isn't there."""
        row = owner, lot, "END" if order else "RAW", order, number, disposition
        base.execute("INSERT OR IGNORE INTO lots VALUES (?, ?, ?, ?, ?, ?)", row)

    def move(self, base: sqlite3.Connection, owner: str, kind: int, lot: str, amount: int, *, lot_owner: str = "", sublot: str = "A", target: str = "",
             order: str = "", number: int = 0, segment: int = 0, key: str = "") -> str:
        """Records a movement; its key."""
        lot_owner, key = lot_owner or owner, key or self.key(owner)
        row = owner, key, kind, lot_owner, lot, sublot, target, "RAW", order, number, segment, amount, 261101
        base.execute("INSERT INTO moves VALUES (?, ?, ?, ?, ?, ?, ?, ?, ?, ?, ?, ?, ?)", row)
        self.hold(base, lot_owner, lot, sublot, amount if kind in (RECEIVE, PRODUCED) else -amount)
        if kind == SPLIT:
            self.hold(base, lot_owner, lot, target, amount)
        return key

    def hold(self, base: sqlite3.Connection, owner: str, lot: str, sublot: str, amount: int) -> None:
        """Changes what a sublot holds."""
        sql = "INSERT INTO sublots VALUES (?, ?, ?, ?) ON CONFLICT DO UPDATE SET amount = amount + excluded.amount"
        base.execute(sql, (owner, lot, sublot, amount))

    def receive(self, base: sqlite3.Connection, owner: str, lot: str, amount: int = 1_000) -> str:
        """Receives into a lot."""
        self.lot(base, owner, lot)
        return self.move(base, owner, RECEIVE, lot, amount)

    def batch(self, base: sqlite3.Connection, owner: str, order: str, number: int, consumed: dict, produced: dict) -> None:
        """A batch, with lots by their segments; a lot that is consumed may be HOUSE's, as ('HOUSE', LOT)."""
        base.execute("INSERT INTO batches VALUES (?, ?, ?, 'UNIT', 11, 1)", (owner, order, number))
        for lot, segment in consumed.items():
            lot_owner, name = lot if isinstance(lot, tuple) else (owner, lot)
            self.move(base, owner, CONSUMED, name, 1, lot_owner=lot_owner, order=order, number=number, segment=segment)
        for lot, segment in produced.items():
            self.lot(base, owner, lot, order, number)
            self.move(base, owner, PRODUCED, lot, 100, order=order, number=number, segment=segment)

    def void(self, base: sqlite3.Connection, owner: str, key: str) -> None:
        """Voids an actual."""
        base.execute("INSERT INTO voids VALUES (?, ?)", (owner, key))
        lot_owner, lot, sublot, kind, amount = base.execute("SELECT lot_owner, lot, sublot, kind, amount FROM moves WHERE owner = ? AND mkey = ?", (owner, key)).fetchone()
        self.hold(base, lot_owner, lot, sublot, amount if kind == CONSUMED else -amount)

    def note(self, *notes: dict, after: str = "") -> list[str]:
        """Has the journal have a line with notes; their names."""
        name = f"{next(NUMBERS):016x}"
        line = {"before": "", "id": name, "time": "2026-11-27T10:00:00Z", "event": "note", "file": str(self.file), "after": after, "user": "anna", "notes": list(notes)}
        with open(f"{self.file}.journal", "a") as journal:
            journal.write(json.dumps(line) + "\n")
        return [name if at == 1 else f"{name}.{at}" for at in range(1, len(notes) + 1)]

    def note_movement(self, owner: str, key: str, after: str = "", **facts: str) -> str:
        """Notes what is known of a movement."""
        return self.note({"kind": "movement", "owner": owner, "key": key, **facts}, after=after)[0]

    def note_link(self, owner: str, lot: str, of_lot: str, of_owner: str = "", after: str = "") -> str:
        """Notes that a lot contains some of another."""
        return self.note({"kind": "link", "owner": owner, "lot": lot, "of_owner": of_owner or owner, "of_lot": of_lot, "why": "rework"}, after=after)[0]

    def withdraw(self, owner: str, name: str, after: str = "") -> None:
        """Withdraws a note."""
        self.note({"kind": "withdrawal", "owner": owner, "of": name, "reason": "a mistake"}, after=after)

    def carry_over(self) -> None:
        """Begins a new file: lots with something in them come over, and other lots stay behind."""
        earlier = self.file.with_name(f"{self.file.stem}-1.db")
        with contextlib.closing(sqlite3.connect(self.file)) as base:
            base.execute("PRAGMA wal_checkpoint(TRUNCATE)")
            base.execute("PRAGMA journal_mode = delete")
            base.executescript(CARRIED)
            base.execute("INSERT INTO carried VALUES ('into', ?, '', '2026')", (self.file.name,))
            base.commit()
        self.file.rename(earlier)
        make_tables(self.file)
        import hashlib

        digest = hashlib.sha256(earlier.read_bytes()).hexdigest()
        with contextlib.closing(sqlite3.connect(earlier)) as old, self.writing() as base:
            base.executescript(CARRIED)
            base.execute("INSERT INTO carried VALUES ('from', ?, ?, '2026')", (earlier.name, digest))
            for table in ("owners", "materials"):
                for row in old.execute(f"SELECT * FROM {table}").fetchall():
                    base.execute(f"INSERT INTO {table} VALUES ({', '.join('?' * len(row))})", row)
            rows = old.execute("SELECT owner, lot, sublot, amount FROM sublots WHERE amount > 0 ORDER BY rowid").fetchall()
            for at, (owner, lot, sublot, amount) in enumerate(rows, 1):
                material, disposition = old.execute("SELECT material, disposition FROM lots WHERE owner = ? AND lot = ?", (owner, lot)).fetchone()
                base.execute("INSERT OR IGNORE INTO lots VALUES (?, ?, ?, '', 0, ?)", (owner, lot, material, disposition))
                key = self.move(base, owner, RECEIVE, lot, amount, sublot=sublot, key=f"C1-{at}")
                base.execute("INSERT INTO carried_moves VALUES (?, ?)", (owner, key))


CARRIED = """
CREATE TABLE carried (way TEXT NOT NULL, file TEXT NOT NULL, hash TEXT NOT NULL, at TEXT NOT NULL) STRICT;
CREATE TABLE carried_moves (owner TEXT NOT NULL, mkey TEXT NOT NULL, PRIMARY KEY (owner, mkey)) STRICT;
"""


def make_tables(path: pathlib.Path) -> None:
    """A file with the office's tables."""
    tables = re.findall(r'"(CREATE TABLE [^"]*)"', (ROOT / "crates" / "toll_sql" / "src" / "table_kind.rt").read_text())
    with contextlib.closing(sqlite3.connect(path)) as base, base:
        base.execute("PRAGMA journal_mode = wal")
        for table in tables:
            base.execute(table)
        base.execute("INSERT INTO meta VALUES ('toll', 2)")


@dataclass
class Group:
    """A group in a database, with its plants."""

    cluster: Any
    database: str
    folder: pathlib.Path
    name: str
    plants: dict[str, Plant] = field(default_factory=dict)
    chunk: int = 20_000
    uri: str = ""  # with which the names of exported lots begin

    def plant(self, name: str, owners: tuple[str, ...] = OWNERS) -> Plant:
        """An office of the group whose owners are companies of their names."""
        with contextlib.closing(self.cluster.connect(self.name)) as base:
            members.add_office(base, name, "")
        folder = self.folder / name
        folder.mkdir()
        plant = self.plants[name] = Plant(self, name, folder / "office.db")
        with plant.writing() as base:
            plant.owner(base, "HOUSE")
            for owner in owners:
                plant.owner(base, owner)
        with contextlib.closing(self.cluster.connect(self.name)) as base:
            for owner in owners:
                if not database.value(base, "SELECT 1 FROM hg.companies WHERE name = %s", (owner,)):
                    members.add_company(base, owner)
                members.add_member(base, name, owner, owner, 1)
        return plant

    def run(self, *words: object, office: Plant | None = None, stdin: str | None = None) -> Any:
        """What the plant's command tells, over an office or none."""
        before = ["--db", office.file] if office else []
        (self.folder / "group.toml").write_text(f'database = "{self.database} {"" if office else "user=admin"}"\nplant = "{office.name if office else ""}"\nuri = "{self.uri}"\n')
        done = CliRunner(mix_stderr=False, env={"TOLL": TOLL}).invoke(hilpoven, list(map(str, [*before, *words])), input=stdin)
        if done.exception and not isinstance(done.exception, SystemExit):
            raise done.exception
        return done

    def ok(self, *words: object, office: Plant | None = None) -> str:
        """What the plant's command prints that does what it is told."""
        done = self.run(*words, office=office)
        assert done.exit_code == 0, (words, done.stdout, done.stderr)
        return done.stdout

    def rows(self, sql: str, user: str = "admin") -> list[tuple]:
        """Rows of the group's database."""
        with contextlib.closing(self.cluster.connect(self.name, user)) as base:
            return database.rows(base, sql)

    def content(self) -> dict[str, list[tuple]]:
        """All rows of offices, without times."""
        tables = [row[0] for row in self.rows("SELECT relname FROM pg_class WHERE relnamespace = 'hg'::regnamespace AND relkind = 'r'")]
        columns = "SELECT string_agg(attname, ', ' ORDER BY attnum) FROM pg_attribute WHERE attrelid = 'hg.{}'::regclass AND attnum > 0 AND attname NOT IN ('at', 'seen')"
        named = {table: self.rows(columns.format(table))[0][0] for table in tables if table != "looked"}
        return {table: sorted(self.rows(f"SELECT {names} FROM hg.{table}"), key=repr) for table, names in named.items()}


@contextlib.contextmanager
def new_group(cluster: Any, folder: pathlib.Path, monkeypatch: Any) -> Iterator[Group]:
    """A group without offices."""
    name = f"group{os.getpid()}_{next(NUMBERS)}"
    with contextlib.closing(cluster.connect()) as base:
        if not database.value(base, "SELECT 1 FROM pg_database WHERE datname = %s", (template := f"template{os.getpid()}",)):
            database.run(base, f"CREATE DATABASE {template}")
            with contextlib.closing(cluster.connect(template)) as empty:
                members.init(empty)
        database.run(base, f"CREATE DATABASE {name} TEMPLATE {template}")
    monkeypatch.setattr(settings.load, "__defaults__", (str(folder / "group.toml"),))
    monkeypatch.setattr(site.load, "__defaults__", (str(folder / "hilpoven.toml"), *site.load.__defaults__[1:]))
    monkeypatch.setattr(site, "OFFICES", str(folder))
    new = Group(cluster, cluster.database(name), folder, name)
    with contextlib.closing(cluster.connect(name)) as base:
        members.grant_database(base)
    try:
        yield new
    finally:
        with contextlib.closing(cluster.connect()) as base:
            database.run(base, f"DROP DATABASE {name} WITH (FORCE)")


# What a recall is: sets in memory, of the offices' files alone


class Sets:
    """All lots of a group's plants by (plant, file, owner, lot), and which went into which."""

    def __init__(self, plants: list[Plant], parties: dict[tuple[str, str, str], str], notes: dict[str, list[dict]]) -> None:
        self.edges: set[tuple] = set()
        shipped: dict[tuple, set] = defaultdict(set)
        documents: dict[tuple, set] = defaultdict(set)
        receipts: list[tuple] = []
        for plant in plants:
            self.add(plant, notes.get(plant.name, []), shipped, documents, receipts)
        for plant, owner, lot, fact in receipts:
            other = parties.get((plant, owner, fact.get("party", "")))
            if other and fact.get("supplier_lot"):
                self.edges |= {(source, lot) for source in shipped[other, owner, fact["supplier_lot"]]}
            if other and fact.get("document"):
                self.edges |= {(source, lot) for source in documents[other, owner, fact["document"]] if fact.get("supplier_lot", "") in ("", source[3])}

    def add(self, plant: Plant, notes: list[dict], shipped: dict, documents: dict, receipts: list) -> None:
        """Adds a plant."""
        files = sorted(plant.file.parent.glob("office*.db"), key=lambda path: (path == plant.file, path.name))
        begins: dict[tuple[str, str], tuple] = {}
        for at, path in enumerate(files, 1):
            with contextlib.closing(sqlite3.connect(path)) as base:
                has = base.execute("SELECT 1 FROM sqlite_master WHERE name = 'carried_moves'").fetchone()
                came = set(base.execute("SELECT owner, mkey FROM carried_moves")) if has else set()
                over = {row[:2] for row in base.execute("SELECT lot_owner, lot, owner, mkey FROM moves") if row[2:] in came}
                lots = {}
                for owner, lot in base.execute("SELECT owner, lot FROM lots"):
                    lots[owner, lot] = begins.get((owner, lot)) if (owner, lot) in over else (plant.name, at, owner, lot)
                begins = lots
                after = files[at - 2].name if at > 1 else ""
                own = [note for note in notes if note["after"] == after]
                facts: dict[tuple, dict] = defaultdict(dict)
                for note in own:
                    if note["kind"] == "movement":
                        facts[note["owner"], note["key"]] |= {name: value for name, value in note.items() if value}
                    else:
                        self.edges.add((lots[note["of_owner"], note["of_lot"]], lots[note["owner"], note["lot"]]))
                voided = set(base.execute("SELECT owner, mkey FROM voids"))
                batches: dict[tuple, list] = defaultdict(list)
                for owner, key, kind, lot_owner, lot, order, number, segment in base.execute("SELECT owner, mkey, kind, lot_owner, lot, ord, number, segment FROM moves"):
                    id, fact = lots[lot_owner, lot], facts.get((owner, key), {})
                    if (owner, key) in voided:
                        continue
                    if kind in (CONSUMED, PRODUCED):
                        batches[owner, order, number].append((kind, segment, id))
                    if kind == SHIP:
                        shipped[plant.name, owner, lot].add(id)
                        if fact.get("document"):
                            documents[plant.name, owner, fact["document"]].add(id)
                    if kind == RECEIVE and (owner, key) not in came and fact:
                        receipts.append((plant.name, owner, id, fact))
                for rows in batches.values():
                    self.edges |= {(used, product) for kind, first, used in rows if kind == CONSUMED for other, last, product in rows if other == PRODUCED and first <= last}

    def trace(self, start: tuple, way: str) -> dict[tuple, int]:
        """The lots of a recall with their fewest steps."""
        near, steps, level = self.near(way), {start: 0}, {start}
        while level:
            level = {other for lot in level for other in near.get(lot, ())} - steps.keys()
            steps |= dict.fromkeys(level, max(steps.values()) + 1)
        return steps

    @functools.cache
    def near(self, way: str) -> dict[tuple, set]:
        """The lots that each lot went into, or was made of."""
        near: dict[tuple, set] = defaultdict(set)
        for src, dst in self.edges:
            near[src if way == "forward" else dst].add(dst if way == "forward" else src)
        return near
