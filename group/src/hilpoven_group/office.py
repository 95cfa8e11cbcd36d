"""An office as the rows that it publishes: its files in order, each with the numbers that its lots and batches have in
the group, and the rows of each table in the order in which they were recorded."""
import sqlite3
from collections import defaultdict
from collections.abc import Iterator, Mapping
from dataclasses import dataclass, field
from typing import Any

from hilpoven.core.failure import REFUSED, Failure
from hilpoven.model.years import chain

from .numbers import number_of
from .tables import NOTES, TABLES

Base = sqlite3.Connection
Member = tuple[str, int, int]  # an owner, from which file on, and which company it is
Row = tuple[int, str, tuple[Any, ...]]  # its place in the table, whose it is, and its values in the group's columns
# What is read of FILE, behind the place and the owner of a row; what is computed of it comes before it in the group.
READ = {
    "a": "material, measure",
    "l": "owner, lot, material, ord, number",
    "m": "mkey, kind, lot_owner, lot, sublot, target, material, ord, number, segment, amount, day",
    "v": "mkey",
    "r": "lot, test, number, value, day",
}
# All dispositions as one text, a letter a lot in the order in which they came: reading and comparing it takes a tenth
# of what so many rows take.
DISPOSITIONS = "SELECT coalesce(group_concat(disposition, ''), '') FROM (SELECT disposition FROM lots ORDER BY rowid)"
OVER = "SELECT DISTINCT m.lot_owner, m.lot FROM carried_moves AS c JOIN moves AS m USING (owner, mkey)"


@dataclass
class OfficeFile:
    """A file of an office: its number from 1 on, its name, its tables, and which company each owner is there."""

    office: int
    number: int
    name: str
    base: Base
    gids: Mapping[str, int]
    before: "OfficeFile | None" = None
    lots: dict[tuple[str, str], int] = field(default_factory=dict)
    order: list[tuple[int, int]] = field(default_factory=list)  # whose each lot is and its number, 0 of no company's
    dispositions: str = ""  # of these, as they were read last
    batches: dict[tuple[str, str, int], int] = field(default_factory=dict)
    over: set[tuple[str, str]] = field(default_factory=set)  # the lots that came over from the earlier file
    came: set[tuple[str, str]] = field(default_factory=set)  # the movements by which they did
    counts: dict[tuple[str, str], int] = field(default_factory=lambda: defaultdict(int))
    places: dict[str, int] = field(default_factory=lambda: defaultdict(int))

    def learn(self, base: Base | None = None) -> None:
        """Numbers the lots and batches that are new, of the tables as they are now."""
        self.base = base or self.base
        if self.before and not self.over and chain.came_from(self.base):
            self.over = set(self.base.execute(OVER))
            self.came = set(self.base.execute("SELECT owner, mkey FROM carried_moves"))
        for owner, lot in self.new("lots", "owner, lot"):
            n = self.count("lots", owner)
            earlier = self.before.lots.get((owner, lot)) if self.before and (owner, lot) in self.over else None
            if owner in self.gids:
                self.lots[owner, lot] = earlier or number_of(self.gids[owner], self.office, self.number, n)
            self.order.append((self.gids.get(owner, 0), self.lots.get((owner, lot), 0)))
        for owner, order, number in self.new("batches", "owner, ord, number"):
            n = self.count("batches", owner)
            if owner in self.gids:
                batch = owner, order, number
                self.batches[batch] = number_of(self.gids[owner], self.office, self.number, n)

    def changed_dispositions(self) -> dict[tuple[Any, ...], tuple[Any, ...]]:
        """The dispositions of lots that aren't as they were read last."""
        before, (now,) = self.dispositions, self.base.execute(DISPOSITIONS).fetchone()
        if before == now:
            return {}
        self.dispositions = now
        places = (at for at, pair in enumerate(zip(before.ljust(len(now)), now)) if pair[0] != pair[1])
        return {self.order[at]: (int(now[at]),) for at in places if self.order[at][1]}

    def new(self, table: str, columns: str) -> Iterator[tuple[Any, ...]]:
        """The rows of a table behind those that were read."""
        sql = f"SELECT rowid, {columns} FROM {table} WHERE rowid > ? ORDER BY rowid"
        for place, *row in self.base.execute(sql, (self.places[table],)):
            self.places[table] = place
            yield tuple(row)

    def count(self, table: str, owner: str) -> int:
        """Which of its owner's rows of a table this one is."""
        self.counts[table, owner] += 1
        return self.counts[table, owner]

    def rows(self, mark: str, place: int = 0, most: int = -1) -> Iterator[Row]:
        """The rows of a table of FILE behind a place, of owners that are companies of the group."""
        table = TABLES[mark].name
        sql = f"SELECT rowid, owner, {READ[mark]} FROM {table} WHERE rowid > ? ORDER BY rowid LIMIT ?"
        for rowid, owner, *row in self.base.execute(sql, (place, most)):
            yield rowid, owner, self.numbered(mark, owner, tuple(row)) if owner in self.gids else ()

    def numbered(self, mark: str, owner: str, row: tuple[Any, ...]) -> tuple[Any, ...]:
        """A row with what is computed of it before it."""
        if mark == "l":
            return self.lots[row[0], row[1]], (row[0], row[1]) in self.over, *row
        if mark == "m":
            batch = self.batches[owner, row[7], row[8]] if row[7] else 0
            return self.lots[row[2], row[3]], batch, (owner, row[0]) in self.came, *row
        if mark == "r":
            return self.lots[owner, row[0]], *row
        return row


@dataclass
class Office:
    """An office of a group: its number and name there, and its files, the oldest first."""

    number: int
    name: str
    files: list[OfficeFile]
    dispositions: dict[tuple[Any, ...], tuple[Any, ...]] = field(default_factory=dict)

    def read_dispositions(self) -> None:
        """Has the disposition of each lot be that of the newest file that has it."""
        for file in [self.newest] if self.dispositions else self.files:
            self.dispositions |= file.changed_dispositions()

    @property
    def newest(self) -> OfficeFile:
        """The file that is in use."""
        return self.files[-1]

    def lot(self, file: int, owner: str, lot: str) -> int | None:
        """The number of a lot of a file."""
        return self.files[file - 1].lots.get((owner, lot))


def gids_of(members: list[Member], file: int) -> dict[str, int]:
    """Which company each owner of a file is: that of the last row that began with it or before. Fails if two owners are
    one company, whose rows couldn't be told apart."""
    gids: dict[str, int] = {}
    for owner, _, gid in sorted((row for row in members if row[1] <= file), key=lambda row: row[1]):
        gids[owner] = gid
    if len(set(gids.values())) < len(gids):
        twice = sorted(owner for owner, gid in gids.items() if list(gids.values()).count(gid) > 1)
        raise Failure(f"{' and '.join(twice)} are one company in file {file}", REFUSED, "`group member add` says so")
    return gids


def opened(number: int, name: str, file: str, newest: Base, members: list[Member]) -> Office:
    """An office with its earlier files, which have to be as they were carried over."""
    parts = chain.earlier_files(file, chain.came_from(newest))
    chain.require_unchanged(parts)
    files: list[OfficeFile] = []
    names = [*(part.name for part in parts), file.rpartition("/")[2]]
    for at, called in enumerate(names, 1):
        base = newest if at == len(names) else sqlite3.connect(chain.address_of(parts[at - 1].path), uri=True)
        files.append(OfficeFile(number, at, called, base, gids_of(members, at), files[-1] if files else None))
        files[-1].learn()
    return Office(number, name, files)


MARKS = [mark for mark in TABLES if mark != NOTES]
