"""A week in which some movements are typed wrongly and corrected, and a model of what was meant, written apart: lists of movements and sums."""
import csv
import io
import re
from collections import Counter
from dataclasses import dataclass
from random import Random

from conftest import Plant

SETUP = """
owner-add ACME ACMEKEY1
unit-add KETTLE
material-add HOUSE WATER liter
material-add ACME RAW kg
material-add ACME MID kg
recipe-add ACME MAKE 1
require ACME MAKE 1 consumed ACME RAW 100
require ACME MAKE 1 consumed HOUSE WATER 100
require ACME MAKE 1 produced ACME MID 100
"""
SIGN = {"receive": 1, "produced": 1, "ship": -1, "scrap": -1, "consumed": -1, "split": 0}
MATERIAL = {"S": "RAW", "W": "WATER", "B": "MID"}
PARTIES = ("NORD", "SUED")
DAY = "261127"


@dataclass
class Meant:
    """A movement as it was meant."""

    owner: str
    key: str
    kind: str
    lot_owner: str
    lot: str
    sublot: str
    amount: int
    target: str = ""
    party: str = ""
    batch: int = 0


def root_of(lot: str) -> str:
    """The lot in whose pile a lot lies: by its name alone."""
    while match := re.fullmatch(r"(.+)-C[2-9]?", lot):
        lot = match[1]
    return lot


class Week:
    """A week of an office, and the model of it."""

    def __init__(self, plant: Plant, random: Random) -> None:
        self.plant, self.random, self.count = plant, random, 0
        self.moves: list[Meant] = []
        self.closed: set[int] = set()

    def key(self) -> str:
        """A key that nothing has."""
        self.count += 1
        return f"K{self.count}"

    def put(self, *values: object, **others: object) -> Meant:
        """A movement of the model."""
        meant = Meant(*values, **others)
        self.moves.append(meant)
        return meant

    def live(self) -> None:
        """The week, as it is typed: all of it is accepted."""
        plant, random, lines = self.plant, self.random, [SETUP]
        for number in range(1, 4):
            for owner, lot in (("ACME", f"S-{number}"), ("HOUSE", f"W-{number}")):
                move = self.put(owner, self.key(), "receive", owner, lot, random.choice(("BAY1", "BAY2")), random.randint(3_000, 9_000))
                lines.append(f"receive {owner} {move.key} {MATERIAL[lot[0]]} {lot} {move.sublot} {move.amount} {DAY}")
                if number < 3 or random.random() < 0.5:  # a lot that isn't released takes receipts
                    lines.append(f"release {lot}" if owner == "HOUSE" else f"> ACME POST /lots/{lot}/release")
        lines.append('> ACME POST /orders {"order":"O-1","recipe":"MAKE","batches":3}')
        for batch in (1, 2, 3):
            lines += ["open ACME O-1 KETTLE", f"do ACME O-1 {batch} start"]
            for lot in random.sample(("S-1", "S-2"), random.randint(1, 2)) + random.sample(("W-1", "W-2"), 1):
                owner = "HOUSE" if lot[0] == "W" else "ACME"
                sublot = next(move.sublot for move in self.moves if move.lot == lot)
                move = self.put("ACME", self.key(), "consumed", owner, lot, sublot, random.randint(20, 500), batch=batch)
                lines.append(f"actual {move.key} ACME O-1 {batch} 1 consumed {MATERIAL[lot[0]]} {owner} {lot} {sublot} {move.amount} {DAY}")
            for _ in range(random.randint(1, 2)):
                lot = f"B-{1 + sum(each.kind == 'produced' for each in self.moves)}"
                move = self.put("ACME", self.key(), "produced", "ACME", lot, "TOTE1", random.randint(1_000, 3_000), batch=batch)
                lines.append(f"actual {move.key} ACME O-1 {batch} 1 produced MID ACME {lot} TOTE1 {move.amount} {DAY}")
                if random.random() < 0.8:
                    lines.append(f"> ACME POST /lots/{lot}/release")
                    self.closed.add(-int(lot[2:]))  # released
            if batch < 3 or random.random() < 0.3:
                lines += [f"do ACME O-1 {batch} done", f"close ACME O-1 {batch}"]
                self.closed.add(batch)
        plant.lay("\n".join(lines))
        for party in PARTIES:
            assert plant.run("party", "add", "ACME", party, "--name", party, "--role", "customer").status == 0
        products = [move for move in self.moves if move.kind == "produced"]
        for move in random.sample(products, min(3, len(products))):
            if -int(move.lot[2:]) in self.closed:
                shipped = self.put("ACME", self.key(), "ship", "ACME", move.lot, "TOTE1", random.randint(50, 300), party=random.choice(PARTIES))
                self.give("ship", "ACME", shipped.key, shipped.lot, "TOTE1", shipped.amount, DAY, "--to", shipped.party)
        for move in random.sample(products, 1):
            scrapped = self.put("ACME", self.key(), "scrap", "ACME", move.lot, "TOTE1", random.randint(10, 90))
            self.give("scrap", "ACME", scrapped.key, scrapped.lot, "TOTE1", scrapped.amount, DAY)
            split = self.put("ACME", self.key(), "split", "ACME", move.lot, "TOTE1", random.randint(10, 90), target="TOTE2")
            self.give("split", "ACME", split.key, split.lot, "TOTE1", "TOTE2", split.amount, DAY)

    def give(self, *words: object) -> None:
        """Gives a line, which is accepted."""
        done = self.plant.run(*words, "--yes")
        assert done.out == "accepted\n", (words, done)

    @property
    def piles(self) -> Counter[tuple[str, str, str]]:
        """What a person counts, by owner, lot and sublot."""
        piles: Counter[tuple[str, str, str]] = Counter()
        for move in self.moves:
            piles[move.lot_owner, move.lot, move.sublot] += SIGN[move.kind] * move.amount
            if move.kind == "split":
                piles[move.lot_owner, move.lot, move.sublot] -= move.amount
                piles[move.lot_owner, move.lot, move.target] += move.amount
        return piles

    def correct(self) -> bool:
        """Something was typed wrongly; whether the office takes what was meant."""
        move = self.random.choice(self.moves)
        amount, lot, party, sublot = move.amount, move.lot, move.party, move.sublot
        ways = ["amount"] * 2 + (["party"] if move.kind == "ship" else []) + (["lot"] * 2 if move.kind != "split" else [])
        way = self.random.choice(ways)
        if way == "amount":
            amount = self.random.choice([move.amount // 10, move.amount + self.random.randint(1, 400), self.random.randint(1, 600), 0])
        elif way == "party":
            party = next(name for name in PARTIES if name != move.party)
        else:
            others = sorted({(each.lot, each.sublot) for each in self.moves if each.lot_owner == move.lot_owner and each.lot[0] == move.lot[0] and each.lot != move.lot})
            if not others:
                return False
            lot, place = self.random.choice(others)
            sublot = move.sublot if SIGN[move.kind] > 0 else place
        if (amount, lot, party) == (move.amount, move.lot, move.party):
            return False
        options = {"--amount": amount if amount != move.amount else None, "--lot": lot if lot != move.lot else None, "--to": party if party != move.party else None,
                   "--sublot": sublot if sublot != move.sublot else None}
        given = [word for name, value in options.items() if value is not None for word in (name, str(value))]
        done = self.plant.run("correct", move.owner, move.key, *given, "--reason", "typed wrongly", "--day", DAY)
        if done.status:
            assert done.status == 1 and not done.out, (move, given, done)
            return False
        if again := re.search(r"^actual (\S+) ", done.out, re.M):
            move.key = again[1]
        move.amount, move.lot, move.party, move.sublot = amount, lot, party, sublot
        if "void " in done.out and not amount:
            self.moves.remove(move)
        return True

    def statement(self, owner: str) -> dict[str, Counter[str]]:
        """The statement of the model, by lot."""
        sums: dict[str, Counter[str]] = {}
        names = {"receive": "received", "ship": "shipped", "scrap": "scrapped"}
        for move in self.moves:
            if move.lot_owner == owner:
                of_lot = sums.setdefault(move.lot, Counter())
                of_lot[names.get(move.kind, move.kind)] += move.amount if move.kind != "split" else 0
                of_lot["closing"] += SIGN[move.kind] * move.amount
        return {lot: +of_lot for lot, of_lot in sums.items() if +of_lot}

    def statement_of_office(self, owner: str) -> dict[str, Counter[str]]:
        """That of the office, by the lots in whose piles its lots lie; no lot takes or gives anything by corrections in sum."""
        rows = csv.DictReader(io.StringIO(self.plant.run("years", "statement", owner, "--csv").out))
        sums: dict[str, Counter[str]] = {}
        for row in rows:
            of_lot = sums.setdefault(root_of(row["lot"]), Counter())
            for name in ("received", "produced", "consumed", "scrapped", "shipped", "corrected", "closing"):
                of_lot[name] += int(row.get(name, 0))
        assert not any(of_lot["corrected"] for of_lot in sums.values())
        return {lot: +of_lot for lot, of_lot in sums.items() if +of_lot}

    def edges(self) -> set[tuple[tuple[str, str], tuple[str, str]]]:
        """Which lots went into which, as it was meant."""
        return {((source.lot_owner, source.lot), (product.lot_owner, product.lot)) for source in self.moves for product in self.moves
                if source.kind == "consumed" and product.kind == "produced" and source.batch == product.batch and source.amount and product.amount}
