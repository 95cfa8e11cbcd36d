"""The 25 lines that `toll` takes: their names, their values in order, and what they are for."""
import re
from typing import NamedTuple

from . import forms
from .days import day_in
from .failure import printable
from .forms import Form

FORMS: dict[str, Form] = {
    "OWNER": forms.NAME,
    "UNIT": forms.NAME,
    "MATERIAL": forms.NAME,
    "TEST": forms.NAME,
    "RECIPE": forms.NAME,
    "ORDER": forms.NAME,
    "LOT": forms.NAME,
    "SUBLOT": forms.NAME,
    "TARGET": forms.NAME,
    "SOURCE": forms.NAME,
    "LOT-OWNER": forms.NAME,
    "KEY": forms.NAME,
    "MEASURE": forms.MEASURE,
    "AMOUNT": forms.AMOUNT,
    "DAY": forms.DAY,
    "SEGMENT": forms.SEGMENT,
    "SEGMENTS": forms.SEGMENT,
    "BATCH": forms.BATCH,
    "BATCHES": forms.BATCH,
    "VALUE": forms.VALUE,
    "LOW": forms.VALUE,
    "HIGH": forms.VALUE,
    "USE": forms.USE,
    "WAY": forms.WAY,
    "COMMAND": forms.COMMAND,
}
TO = "TO"  # the customer of a shipment, which is asked for beside the values of the line
FORMS[TO] = forms.NAME
OWNER_ADD = "owner-add"
MOVEMENTS = {"receive", "split", "ship", "scrap", "actual"}  # the lines whose KEY is that of a new movement
NEXT = "next"  # in place of such a KEY: the next free one
QUESTIONS = {"orders", "stock", "batch", "trace", "recall"}


class Line(NamedTuple):
    """A command or a question of `toll`: its name, its values in order, what it does, and an example."""

    name: str
    values: tuple[str, ...]
    about: str
    example: str

    @property
    def is_question(self) -> bool:
        """Whether it changes nothing."""
        return self.name in QUESTIONS

    def form(self, value: str) -> Form:
        """The form of one of its values."""
        return forms.SECRET if self.name == OWNER_ADD and value == "KEY" else FORMS[value]

    def usage(self) -> str:
        """Its name and its values, as they are typed."""
        return " ".join([self.name, *self.values])


TABLE = """
owner-add OWNER KEY
  | adds an owner, who sends requests with this key. `owner add` keeps the key off the command line
  | owner-add ACME ACMEKEY1
unit-add UNIT | adds a unit, which runs one batch at a time | unit-add KETTLE
material-add OWNER MATERIAL MEASURE | adds a material with the measure of its amounts | material-add ACME SALT kg
test-add OWNER MATERIAL TEST LOW HIGH
  | adds a test: a lot of the material can be released only if its latest result is within these limits
  | test-add ACME BRINE DENSITY 1100 1250
recipe-add OWNER RECIPE SEGMENTS | adds a recipe with this number of segments | recipe-add ACME BRINE-10 1
require OWNER RECIPE SEGMENT USE SOURCE MATERIAL AMOUNT
  | adds a requirement: the segment consumes or produces this amount of SOURCE's material
  | require ACME BRINE-10 1 consumed HOUSE WATER 700
order ORDER RECIPE BATCHES | places an order of HOUSE; owners place theirs over HTTP | order C-1 CLEANING 1
cancel ORDER | cancels an order of HOUSE before its first batch is opened | cancel C-1
open OWNER ORDER UNIT | opens the next batch of an order on a unit; it is idle | open ACME O-1 KETTLE
do OWNER ORDER BATCH COMMAND | changes the state of a batch | do ACME O-1 1 start
close OWNER ORDER BATCH | closes a batch permanently and frees its unit | close ACME O-1 1
receive OWNER KEY MATERIAL LOT SUBLOT AMOUNT DAY
  | receives material into a sublot
  | receive ACME K1 SALT S-1 BAY1 500 261127
split OWNER KEY LOT SUBLOT TARGET AMOUNT DAY
  | moves an amount to another sublot of the lot
  | split ACME K6 B-1 TOTE1 TOTE2 480 261127
ship OWNER KEY LOT SUBLOT AMOUNT DAY | ships from a sublot of a released lot | ship ACME K7 B-1 TOTE2 480 261127
scrap OWNER KEY LOT SUBLOT AMOUNT DAY
  | scraps from a sublot, whatever its lot's disposition
  | scrap HOUSE K3 W-102 TANK 50 261127
result OWNER LOT TEST VALUE DAY | records a test result of a lot; write M5 for -5 | result ACME B-1 DENSITY 1180 261127
release LOT | releases a lot of HOUSE; owners release theirs over HTTP | release W-101
reject LOT | rejects a lot of HOUSE permanently | reject W-101
actual KEY OWNER ORDER BATCH SEGMENT USE MATERIAL LOT-OWNER LOT SUBLOT AMOUNT DAY
  | records what a segment of a batch consumed or produced
  | actual K2 ACME O-1 1 1 consumed SALT ACME S-1 BAY1 300 261127
void OWNER KEY | voids an actual while its batch is open | void ACME K2
orders OWNER | lists the owner's orders | orders ACME
stock OWNER | lists the owner's sublots, including empty ones | stock ACME
batch OWNER ORDER BATCH | shows a batch: its state, its requirements and its actual amounts | batch ACME O-1 1
trace OWNER LOT WAY | lists the lots that a lot was made of, or went into | trace ACME B-1 back
recall OWNER LOT | lists the lots that a lot went into, with the amounts on hand and shipped | recall HOUSE W-101
"""


def line_of(row: str) -> Line:
    """The line of a row of the table."""
    words, about, example = (" ".join(cell.split()) for cell in row.split("|"))
    name, *values = words.split()
    return Line(name, tuple(values), about, example)


LINES: dict[str, Line] = {line.name: line for line in map(line_of, re.split(r"\n(?=\S)", TABLE.strip()))}


def written(line: Line, words: list[str]) -> tuple[list[str], list[str]]:
    """The words as `toll` reads them, and a sentence for each that is written in another way than it was typed: a
    value below zero has `M` for its sign."""
    passed, notes = [], []
    for value, word in zip(line.values, words):
        if line.form(value) is forms.VALUE and word[:1] == "-" and word[1:].isascii() and word[1:].isdecimal():
            passed.append(f"M{word[1:]}")
            notes.append(f"{value}: {word} is given as M{word[1:]}")
        else:
            passed.append(word)
    return passed, notes


def in_capitals(line: Line, words: list[str]) -> tuple[list[str], list[str]]:
    """The words as a hand means them that types names in lower case, and a sentence for each that is read so."""
    meant, notes = [], []
    for value, word in zip(line.values, words):
        capitals = word.upper()
        is_name = line.form(value) is forms.NAME and word.isascii() and not forms.name_fault(capitals)
        if is_name and word != capitals and not (value == "KEY" and word == NEXT and line.name in MOVEMENTS):
            notes.append(f"{value}: {word} is read as {capitals}")
            meant.append(capitals)
        else:
            meant.append(word)
    return meant, notes


def in_days(line: Line, words: list[str]) -> tuple[list[str], list[str]]:
    """The words with the day in the place of a date that stands for one, and a sentence for each that is read so."""
    days = [date_as_day(word) if line.form(value) is forms.DAY else None for value, word in zip(line.values, words)]
    meant = [word if day is None else str(day) for word, day in zip(words, days)]
    notes = [f"{value}: {word} is {day}" for value, word, day in zip(line.values, words, days) if day is not None]
    return meant, notes


def date_as_day(word: str) -> int | None:
    """The day that stands for a date; `None` where a word is none."""
    if word.isdecimal():
        return None
    return day_in(word)


def faults(line: Line, words: list[str]) -> list[str]:
    """What is wrong with each word that can't be a value, by the value's name."""
    wrong = []
    for value, word in zip(line.values, words):
        form = line.form(value)
        fault = form.fault(word)
        if fault:
            called = "the key" if form is forms.SECRET else f"`{printable(word)}`"
            wrong.append(f"{value}: {called} {fault}")
    if not wrong and "LOW" in line.values:
        low, high = (int(words[line.values.index(bound)].replace("M", "-")) for bound in ("LOW", "HIGH"))
        if low > high:
            wrong.append(f"LOW: {low} is above HIGH, {high}")
    return wrong


def unsayable(words: list[str]) -> list[str]:
    """The words that `toll` takes for no value in any line: it can't be asked with them."""
    return [word for word in words if not word or word.startswith("-") or word == "help" or "\0" in word]
