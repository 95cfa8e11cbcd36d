"""What is usual by what was recorded before: names and amounts that forms offer to be touched, and doubts about what is
typed otherwise, each with what was before. Where nothing was before, nothing is unusual."""
import contextlib
import re
from collections.abc import Iterator
from dataclasses import dataclass
from functools import cached_property
from typing import NamedTuple

from hilpoven.core.failure import Failure
from hilpoven.core.forms import name_fault
from hilpoven.core.table import shown as as_shown
from hilpoven.model.kinds import split_sign
from hilpoven.model.measures import whole_of
from hilpoven.model.rows import BatchId, LotId
from hilpoven.model.schema import STANDING, Kind

from .language import Reader
from .reading import Need, Reading

LATEST = 50  # movements, of which the amounts tell what is usual
FAR = 5  # times the greatest amount, or this part of the least one, is far off
MOST_AMOUNTS, MOST_PLACES = 3, 6  # that are offered
MOST_SHOWN = 4  # names that a doubt shows
OVER = 10  # percent more than a recipe requires

MOVES = f"""
SELECT m.key, m.amount FROM (
  SELECT m.rowid AS place, m.mkey AS key, m.amount FROM moves AS m
  JOIN lots AS l ON l.owner = m.lot_owner AND l.lot = m.lot
  WHERE m.owner = :owner AND m.kind = :kind AND m.lot_owner = :lot_owner AND l.material = :material AND {STANDING}
) AS m ORDER BY m.place DESC LIMIT {LATEST}
"""
PLACES = """
SELECT s.sublot FROM sublots AS s JOIN lots AS l USING (owner, lot) WHERE s.owner = ? AND l.material = ?
GROUP BY s.sublot ORDER BY max(l.rowid) DESC, s.sublot
"""
LOTS = "SELECT l.lot FROM lots AS l WHERE l.owner = ? AND l.material = ? AND (l.ord = '') = ? ORDER BY l.rowid DESC"
IS_LOT = "SELECT 1 FROM lots WHERE owner = ? AND lot = ?"
OF_BATCH = """
SELECT lot FROM lots WHERE owner = ? AND ord = ? AND number = ? AND material = ? ORDER BY rowid DESC
"""
LIMITS = "SELECT low, high, decimals FROM lot_test WHERE owner = ? AND lot = ? AND test = ?"
UNITS = (
    "SELECT DISTINCT b.unit FROM batches AS b JOIN orders AS o USING (owner, ord) WHERE b.owner = ? AND o.recipe = ?"
)
NUMBERED = re.compile(r"(.*?)([0-9]+)")


class Moved(NamedTuple):
    """A movement that was before: its key and its amount."""

    key: str
    amount: int


def stem_of(name: str) -> str:
    """What names of a series have alike: all but the digits."""
    return re.sub("[0-9]+", "#", name)


@dataclass(frozen=True)
class Usual:
    """What was before of a material: movements of a kind by an owner, its lots and its places."""

    reading: Reading
    reader: Reader
    kind: Kind
    owner: str
    lot_owner: str
    material: str

    @cached_property
    def moves(self) -> list[Moved]:
        """The latest movements, the last one first."""
        words = {"owner": self.owner, "kind": self.kind, "lot_owner": self.lot_owner, "material": self.material}
        return [Moved(*row) for row in self.reading.base.execute(MOVES, words)]

    @property
    def amounts(self) -> list[int]:
        """The amounts of the latest movements that are offered, each once."""
        return list(dict.fromkeys(move.amount for move in self.moves))[:MOST_AMOUNTS]

    @cached_property
    def places(self) -> list[str]:
        """The places where some of it lies or lay, those of its latest lots first."""
        return [str(name) for name, in self.reading.base.execute(PLACES, (self.lot_owner, self.material))]

    @property
    def offered_places(self) -> list[str]:
        """The places of its latest lots, which are offered."""
        return self.places[:MOST_PLACES]

    @cached_property
    def lots(self) -> list[str]:
        """The lots that were received, or made, the last one first."""
        words = self.lot_owner, self.material, self.kind == Kind.RECEIVE
        return [str(name) for name, in self.reading.base.execute(LOTS, words)]

    @property
    def next_lot(self) -> list[str]:
        """The name behind that of the last lot, if it ends with a number; no lot has it yet."""
        match = NUMBERED.fullmatch(self.lots[0]) if self.lots else None
        if match is None:
            return []
        name = f"{match[1]}{int(match[2]) + 1:0{len(match[2])}}"
        return [] if name_fault(name) or self.is_lot(name) else [name]

    def made_by(self, batch: BatchId) -> list[str]:
        """The lots of it that a batch made, the last one first."""
        return [str(name) for name, in self.reading.base.execute(OF_BATCH, (*batch, self.material))]

    def is_lot(self, name: str) -> bool:
        """Whether a lot has a name."""
        return self.reading.base.execute(IS_LOT, (self.lot_owner, name)).fetchone() is not None

    # Doubts

    def of_lot(self, name: str) -> Iterator[str]:
        """Whether a new lot is named as no lot of the material is."""
        if self.lots and not self.is_lot(name) and stem_of(name) not in set(map(stem_of, self.lots)):
            yield self.reader.text(
                "Lot %(lot)s: no lot of %(material)s has such a name; the last one is %(last)s.",
                lot=name,
                material=self.material,
                last=self.lots[0],
            )

    def of_batch(self, batch: BatchId, name: str) -> Iterator[str]:
        """Whether a batch made another lot of it, or none is named so."""
        if (lots := self.made_by(batch)) and name not in lots:
            yield self.reader.text("Lot %(lot)s: this batch made %(lots)s.", lot=name, lots=listed(lots))
        else:
            yield from self.of_lot(name)

    def of_place(self, name: str) -> Iterator[str]:
        """Whether nothing of the material ever lay at a place."""
        if self.places and name not in self.places:
            yield self.reader.text(
                "Place %(place)s: nothing of %(material)s ever lay there, but at %(places)s.",
                place=name,
                material=self.material,
                places=listed(self.places),
            )

    def of_amount(self, word: str) -> Iterator[str]:
        """Whether an amount is far off those before."""
        amounts = [move.amount for move in self.moves]
        if not amounts or not word.isdecimal():
            return
        least, most = min(amounts), max(amounts)
        if not least <= int(word) * FAR or int(word) > most * FAR:
            before = [self.reader.number(amount) for amount in dict.fromkeys((least, most))]
            yield self.reader.text(
                "Amount %(amount)s: before it was %(before)s.",
                amount=self.reader.number(int(word)),
                before=" – ".join(before),
            )

    def of_party(self, party: str) -> Iterator[str]:
        """Whether a party never delivered or got any of the material, and others did."""
        facts = self.reading.register.facts
        before = {fact.party for move in self.moves if (fact := facts.get((self.owner, move.key))) and fact.party}
        if party and before and party not in before:
            yield self.reader.text(
                "%(party)s: before, %(material)s was of %(parties)s.",
                party=party,
                material=self.material,
                parties=listed(sorted(before)),
            )


def listed(names: list[str]) -> str:
    """Some names in a line."""
    return ", ".join(names[:MOST_SHOWN]) + (", …" if names[MOST_SHOWN:] else "")


def of_need(reader: Reader, need: Need, word: str) -> Iterator[str]:
    """Whether an amount is more than a recipe requires."""
    if word.isdecimal() and (need.actual + int(word)) * 100 > need.required * (100 + OVER):
        yield reader.text(
            "Amount %(amount)s: with it %(sum)s are recorded, and the recipe has %(required)s.",
            amount=reader.number(int(word)),
            sum=reader.number(need.actual + int(word)),
            required=reader.number(need.required),
        )


def of_unit(reading: Reading, reader: Reader, owner: str, recipe: str, unit: str) -> Iterator[str]:
    """Whether a recipe never ran on a unit, and did on others."""
    before = sorted(str(name) for name, in reading.base.execute(UNITS, (owner, recipe)))
    if before and unit not in before:
        template = "%(recipe)s never ran on %(unit)s, but on %(units)s."
        yield reader.text(template, recipe=recipe, unit=unit, units=listed(before))


def of_result(reading: Reading, reader: Reader, lot: LotId, test: str, word: str) -> Iterator[str]:
    """Whether a result is out of its limits."""
    row = reading.base.execute(LIMITS, (*lot, test)).fetchone()
    if row is None:
        return
    low, high, decimals = row
    with contextlib.suppress(Failure):
        if not low <= whole_of(split_sign(word)[1], decimals) <= high:
            limits = {
                name: reader.test_value(as_shown(limit, decimals)) for name, limit in (("low", low), ("high", high))
            }
            yield reader.text(
                "%(test)s %(value)s is out of its limits, %(low)s to %(high)s.", test=test, value=word, **limits
            )
