"""Three files of one office, in each of which every owner has all that it may have: 5,000 lots and 20,000 movements. A supplier's lot of the plant's came in the
first one; some batches of each owner took it, and lots that it went into came over into the next file. SQL writes the rows as `toll` and a carry-over write them."""
import contextlib
import os
import sqlite3
from collections.abc import Iterator
from dataclasses import dataclass

from conftest import ROOT, Plant, site
from hilpoven.care.years import exchanging
from hilpoven.core import files
from hilpoven.core.journal.log import Journal
from hilpoven.model.kinds import Role
from hilpoven.model.notes import MovementFacts, Note, Party
from hilpoven.model.register.meant import RowReader
from hilpoven.model.register.noted import to_json
from hilpoven.model.years import chain

SUPPLIERS_LOT, DAY, RAW, TESTED, SHIPMENTS, OTHER = "TR-77", 101, 100, 4_672, 3, "W-2"
FIRST = {1: 40, 2: 20, 3: 10}  # the batch of each file that takes of the supplier's lot, or of a lot that it went into
STATES = ("1, 0", "0, 0", "11, 1")  # running, idle, and closed
PLANTS_TEST = "QA"


def offices():
    """The generator of full offices."""
    import sys

    if str(ROOT) not in sys.path:
        sys.path.insert(0, str(ROOT))
    from bench import offices as generator

    return generator


@dataclass
class File:
    """A file of the office by its number, and what came over into it: owner, lot and amount."""

    number: int
    carried: list[tuple[str, str, int]]

    def named(self, name: str) -> str:
        """A name of this file alone."""
        return name if name in ("W-1", OTHER) else f"{name[0]}{self.number}{name[1:]}"

    def concerned(self) -> list[str]:
        """The lots of an owner that the supplier's lot went into in this file."""
        batches = [FIRST[self.number]]
        for batch in batches:
            batches += [after for after in (2 * batch, 2 * batch + 1) if after <= 95]
        return [self.named(offices().product(batch, place)) for batch in batches for place in (0, 1)]

    def moves(self, owner: str) -> Iterator[tuple]:
        """The rows of an owner's movements."""
        generator, first, place = offices(), FIRST[self.number], 0
        own = [lot for holder, lot, _ in self.carried if holder == owner]
        for _, key, kind, lot_owner, lot, sublot, target, material, order, *rest in generator.Genealogy(20_000, raw=RAW, tested=TESTED).moves(owner):
            lot, order = self.named(lot), order and self.named(order)
            if (order, rest[0], kind) == (self.named(generator.batch_name(first)[0]), generator.batch_name(first)[1], 4) and not place:
                lot_owner, lot, material, place = (owner, own[0], "PRODUCT", 1) if own else ("HOUSE", "W-1", "WATER", 1)
            elif lot_owner == "HOUSE":
                lot = OTHER
            material = material if material in ("RAW", "PRODUCT", "WATER") else material
            yield owner, self.named(key), kind, lot_owner, lot, sublot, target, material, order, *rest
        for number, lot in enumerate(self.concerned()[:SHIPMENTS]):
            yield owner, self.named(f"S{number:05}"), 2, owner, lot, "S1", "", "", "", 0, 0, 1_000, DAY

    def receipts(self) -> Iterator[tuple]:
        """The rows by which stock came over, or in the first file came at all; in each file the plant gets more water."""
        for place, (owner, lot, amount) in enumerate(self.carried):
            material = "WATER" if owner == "HOUSE" else "PRODUCT"
            yield owner, f"X{self.number}{place:05}", 0, owner, lot, "S1", "", material, "", 0, 0, amount, DAY
        if self.number == 1:
            yield "HOUSE", "K1", 0, "HOUSE", "W-1", "S1", "", "WATER", "", 0, 0, 1_000_000_000, DAY
            yield "HOUSE", "K2", 0, "HOUSE", OTHER, "S1", "", "WATER", "", 0, 0, 1_000_000_000, DAY

    def fill(self, plant: Plant, owners: list[str]) -> None:
        """Makes the tables."""
        generator = offices()
        assert plant.toll("unit-add", "U-001").out == "accepted\n"
        full = generator.FULL.replace("'T-01000'", f"'T{self.number}-00900'").replace("-9, 9 FROM owners, n;", "-9, 9 FROM owners, n WHERE i < 2000;")
        with contextlib.closing(sqlite3.connect(plant.db)) as base, base:
            base.execute("PRAGMA synchronous = OFF")
            base.executemany("INSERT INTO owners VALUES (?, ?)", [(owner, generator.KEY) for owner in owners])
            base.executescript(generator.DEFINITIONS)
            base.execute("BEGIN")
            base.executemany(generator.MOVE, self.receipts())
            for owner in owners:
                base.executemany(generator.MOVE, self.moves(owner))
            base.executescript(generator.DERIVED)
            base.executescript(full)
            for number, owner in enumerate(owners):
                if number % 2:
                    base.execute(f"INSERT INTO tests VALUES (?, 'PRODUCT', '{PLANTS_TEST}', 1, 1)", (owner,))
                    base.execute(f"INSERT INTO results SELECT owner, lot, '{PLANTS_TEST}', 1, 1, {DAY} FROM lots WHERE owner = ? AND material = 'PRODUCT'", (owner,))
                if self.number == len(FIRST):
                    order, batch = generator.batch_name(87)
                    base.execute("INSERT INTO units VALUES (?)", (f"U-{number + 2:03}",))
                    state = dict(zip(("state", "closed"), STATES[number % 3].split(", ")))
                    base.execute("UPDATE batches SET unit = ?, state = ?, closed = ? WHERE (owner, ord, number) = (?, ?, ?)",
                                 (f"U-{number + 2:03}", *state.values(), owner, self.named(order), batch))

    def notes(self, owners: list[str]) -> Iterator[Note]:
        """What is noted in this file: who got what, and whose lot the plant's is."""
        if self.number == 1:
            yield MovementFacts("HOUSE", "K1", "", SUPPLIERS_LOT)
            for owner in owners:
                yield from (Party(owner, f"PARTY{place}", f"{owner} Customer {place}", roles=(Role.CUSTOMER,)) for place in range(2))
        for owner in owners:
            yield from (MovementFacts(owner, self.named(f"S{number:05}"), f"PARTY{number % 2}", "", f"DOC-{owner}-{self.number}-{number}") for number in range(SHIPMENTS))


def on_hand(plant: Plant, lots: list[tuple[str, str]]) -> list[tuple[str, str, int]]:
    """What is on hand of lots."""
    with contextlib.closing(sqlite3.connect(plant.db)) as base:
        sql = "SELECT owner, lot, amount FROM sublots WHERE (owner, lot) = (?, ?)"
        return [base.execute(sql, lot).fetchone() for lot in lots]


def make(plant: Plant, count: int) -> list[str]:
    """Makes the office with so many owners; their names."""
    owners, carried, after = [offices().owner_name(place) for place in range(count)], [], ""
    journal = Journal(str(plant.journal), str(plant.db))
    for number in FIRST:
        file = File(number, carried)
        file.fill(plant, owners)
        if after:
            moves = [row[:2] for row in file.receipts()]
            exchanging.mark(str(plant.db), chain.Carried(chain.FROM, after, files.hash_of(str(plant.folder / after)), f"2026-11-0{number}T00:00:00Z"), moves)
        with contextlib.closing(sqlite3.connect(plant.db)) as base:
            notes = list(file.notes(owners))
            meant = [RowReader([base]).rows(note) for note in notes]
        journal.note(str(plant.db), ["note"], notes=[to_json(note) for note in notes], meant=meant, **({"after": after} if after else {}))
        if number == len(FIRST):
            break
        lots = [("HOUSE", "W-1"), ("HOUSE", OTHER)]
        for owner in owners:
            lots += [(owner, lot) for lot in file.concerned()] + [(owner, lot) for holder, lot, _ in carried if holder == owner]
        carried, after = on_hand(plant, lots), f"office-{number}.db"
        exchanging.settle_in_place(str(plant.db))
        os.rename(plant.db, plant.folder / after)
    plant.settle()
    path = site.load.__defaults__[0]
    path.write_text(f'{path.read_text()}[quality]\ntest = "{PLANTS_TEST}"\n')
    return owners
