"""A line that is asked value by value: which values are asked, in which order, with which choices, and what is wrong
with an answer, by the office's tables as they were read last."""
import sqlite3
from collections.abc import Iterator
from contextlib import ExitStack, contextmanager
from dataclasses import dataclass, field, replace
from typing import NamedTuple

from ..core import scanned, snapshot
from ..core.context import Context
from ..core.days import date_of
from ..core.failure import REFUSED, WRONG_USE, Failure, printable
from ..core.forms import MOST_TOLD, Form
from ..core.grammar import LINES, MOVEMENTS, NEXT, TO, Line, in_capitals, in_days, written
from ..core.table import formatted
from ..model.measures import form_of, limits_text, whole_of
from ..model.nearest import nearest
from ..model.kinds import split_sign
from ..model.notes import GETS, Parties, party_fault
from ..model.register.standing import Register, register_of
from ..model.rows import Base
from . import describing
from .choices import Choice, Place
from .stops import Stops

LATEST_DAY = "SELECT day FROM moves ORDER BY rowid DESC LIMIT 1"
MEASURED = {"VALUE", "LOW", "HIGH"}  # values of a test
Values = dict[str, str]


class Tables:
    """The office's tables as they were read last; none if they can't be read: `toll` checks what isn't checked here."""

    def __init__(self, context: Context, stack: ExitStack) -> None:
        self.context, self.office, self.stack = context, context.office(), stack
        self.base: Base | None = None
        self.noted: Register | None = None
        self.read()

    def read(self) -> None:
        """Reads them as they are now."""
        self.stack.close()
        self.base = self.noted = None
        try:
            self.base = self.stack.enter_context(snapshot.opened(self.office))
        except (Failure, sqlite3.Error):
            return

    @property
    def register(self) -> Register:
        """What the plant noted, which is read when it is needed, from tables that could be read."""
        assert self.base
        self.noted = self.noted or register_of(self.context, self.base)
        return self.noted


@dataclass(frozen=True)
class Asked:
    """What is asked for a value: the names that fit, what no answer stands for, and the limit of an amount or a test in
    words."""

    place: Place
    form: Form
    choices: list[Choice] = field(default_factory=list)
    default: str = ""
    limit: str = ""

    @property
    def names(self) -> list[str]:
        """The names of the choices."""
        return [choice.name for choice in self.choices]

    @property
    def about(self) -> str:
        """What is allowed, in words; empty where the choices are all."""
        is_closed = bool(self.choices) and not self.place.may_be_new
        return self.limit or ("" if is_closed else self.form.about.split(", with ")[0])

    def meant(self, typed: str) -> str:
        """The word that is meant by what was typed: without one, what no answer stands for."""
        return NEXT if self.default == NEXT and typed.lower() == NEXT else typed or self.default


class Checked(NamedTuple):
    """What came of an answer: whether it is taken, and what is told of it."""

    is_taken: bool
    lines: list[str]


class Dialogue:
    """A line that is being asked, with the values that are known."""

    def __init__(
        self,
        context: Context,
        line: Line,
        tables: Tables,
        decimals: int | None = None,
        given: dict[str, str | None] | None = None,
    ) -> None:
        self.context, self.line, self.tables = context, line, tables
        self.given_decimals = decimals
        self.values: Values = {}
        self.given = given or {}  # values that are still to be taken

    @property
    def order(self) -> list[str]:
        """The values in the order in which they are asked: the key, which is an owner's, is the last."""
        return sorted(self.line.values, key=lambda value: (value == "KEY", value != "OWNER"))

    @property
    def words(self) -> list[str]:
        """The values in the order of the line, which hasn't the customer of a shipment."""
        return [self.values[name] for name in LINES[self.line.name].values]

    def place(self, value: str) -> Place:
        """A value with those that are known."""
        return Place(self.line, value, self.values, self.context.settings.quality.test)

    def asked(self, value: str) -> Asked:
        """What is asked for a value."""
        place, form, base = self.place(value), self.form(value), self.tables.base
        listed = [Choice(word) for word in form.choices]
        if value == "DAY":
            return Asked(place, form, default=self.today())
        if self.is_new_key(value):
            return Asked(place, form, default=NEXT)
        if value == TO:
            return self.asked_customer(place)
        if base is None:
            return Asked(place, form, listed)
        choices = place.fitting(base) or listed
        if (self.line.name, value) == ("result", "TEST"):
            choices = [replace(choice, about=self.limits_of(base, choice.name)) for choice in choices]
        is_only = len(choices) == 1 and not place.may_be_new
        return Asked(place, form, choices, choices[0].name if is_only else "", self.limit(base, place))

    def completed(self, asked: Asked) -> list[str]:
        """The names that are completed while an answer is typed: the choices, and where a sublot may be new all places
        of the plant."""
        places = asked.place.places(self.tables.base) if self.tables.base else []
        return list(dict.fromkeys([*asked.names, *places]))

    def is_new_key(self, value: str) -> bool:
        """Whether a value is the key of a new movement."""
        return value == "KEY" and self.line.name in MOVEMENTS

    @property
    def needs_customer(self) -> bool:
        """Whether the settings require that a shipment names its customer."""
        return self.context.settings.require.recipient

    @property
    def called_customers(self) -> str:
        """What the owner's customers are called."""
        return f"customers of {self.values['OWNER']}"

    @property
    def parties(self) -> Parties:
        """The parties of all owners."""
        return self.tables.register.parties if self.tables.base else {}

    @property
    def customers(self) -> list[str]:
        """The owner's parties that get shipments."""
        own, parties = self.values["OWNER"], self.parties
        names = [name for owner, name in parties if owner == own]
        return sorted(name for name in names if not party_fault(parties, own, name, GETS))

    def asked_customer(self, place: Place) -> Asked:
        """What is asked for the customer of a shipment, which may be nobody unless the settings require one."""
        customers, parties = self.customers, self.parties
        choices = [Choice(name, parties[self.values["OWNER"], name].name) for name in customers]
        default = customers[0] if self.needs_customer and len(customers) == 1 else ""
        limit = "the customer" if self.needs_customer else "the customer; Enter alone for none"
        return Asked(place, self.form(TO), choices, default, limit)

    def asks_for_customer(self) -> bool:
        """Whether the customer of a shipment is asked for: not if the owner has none. Fails if one is required then,
        before more is asked."""
        if self.customers or self.tables.base is None:
            return bool(self.customers) or self.needs_customer
        if self.needs_customer:
            why = f"there are no {self.called_customers}, and the settings require each shipment's recipient"
            advice = f"`hilpoven party add {self.values['OWNER']} PARTY --name .. --role customer` adds one"
            raise Failure(f"{self.line.name}: {why}", REFUSED, advice)
        return False

    def form(self, value: str) -> Form:
        """The form of a value; where its test has decimals, that of what was measured."""
        decimals = self.decimals(value)
        return form_of(decimals) if decimals else self.line.form(value)

    def decimals(self, value: str) -> int:
        """How many decimals a value of a test has; 0 of any other value."""
        base = self.tables.base
        if value not in MEASURED:
            return 0
        if self.given_decimals or base is None:
            return self.given_decimals or 0
        return describing.decimals_of(base, self.tables.register, self.values)

    def today(self) -> str:
        """Today as a day, if the days of the office's movements are dates."""
        row = self.tables.base.execute(LATEST_DAY).fetchone() if self.tables.base else None
        return "" if row and not date_of(row[0]) else str(self.context.day())

    def limit(self, base: Base, place: Place) -> str:
        """Between which numbers a value is to be, if the office says so."""
        if (most := place.most(base)) is not None:
            return f"1 to {most:,}, which {self.values['SUBLOT']} holds"
        return self.limits_of(base, self.values["TEST"]) if place.value == "VALUE" else ""

    def limits_of(self, base: Base, test: str) -> str:
        """The limits of a test of the lot as they are measured; empty if they aren't known."""
        values = {**self.values, "TEST": test}
        limits = Place(self.line, "VALUE", values).limits(base)
        decimals = describing.decimals_of(base, self.tables.register, values) if limits else 0
        return f"limits {limits_text(limits, decimals)}" if limits else ""

    def doubt(self, value: str, word: str) -> str:
        """Why an answer may not be meant: a key without a digit may be one for another question, or be a mistyped
        `next`. Empty if it may be."""
        is_odd = self.is_new_key(value) and word != NEXT and not any(map(str.isdecimal, word))
        return f"KEY: {word.upper()} has no digit" if is_odd and not self.form(value).fault(word.upper()) else ""

    def check(self, value: str, word: str) -> Checked:
        """Takes a word for a value, or for the values that a scanned text fills, if it can be one."""
        before, lines = dict(self.values), list[str]()
        try:
            meant = self.filled(value, word)
        except Failure as failure:
            return Checked(False, [failure.message])
        for name, filling in meant.items():
            one = self.check_one(name, filling)
            lines += one.lines
            if not one.is_taken:
                self.values = before
                return Checked(False, lines)
        return Checked(True, lines)

    def filled(self, value: str, word: str) -> Values:
        """The values that a word stands for: a scanned text in the place of the lot or of its owner fills those of the
        three that aren't there yet. Fails if another one is."""
        owner, lot = scanned.fillable(self.line.values)
        text = scanned.scanned_sublot(word)
        if value not in (owner, lot) or not text:
            return {value: word}
        known = {
            name: self.values.get(name) or (self.given.get(name) or "").upper() or None for name in self.line.values
        }
        if known[lot] not in (None, text.lot):
            why = f"{self.line.name}: {lot} is {known[lot]}, and in the scanned text {text} it is {text.lot}"
            raise Failure(why, WRONG_USE)
        full, _ = scanned.filled(self.line.name, {**known, lot: word}, [])
        left = [name for name in (owner, lot, "SUBLOT") if name and name not in self.values]
        return {name: named for name in left if (named := full.get(name))}

    def check_one(self, value: str, word: str) -> Checked:
        """Takes a word for a value, if it can be one."""
        line = self.line._replace(values=(value,))
        (word,), in_lower_case = in_capitals(line, [word])
        (word,), as_dates = in_days(line, [word])
        if fault := self.fault(value, word):
            return Checked(False, [f"{value}: {fault}"])
        remark = self.remark(value, word)
        self.values[value] = word
        return Checked(True, [*in_lower_case, *as_dates, *([remark] if remark else [])])

    def fault(self, value: str, word: str) -> str:
        """What is told against a word; what isn't there is looked for once more in the tables as they are now."""
        if self.is_new_key(value) and word == NEXT or value == TO and not word and not self.needs_customer:
            return ""
        number = split_sign(word)[1] if value == "VALUE" else word
        typed = number if self.decimals(value) else written(self.line._replace(values=(value,)), [number])[0][0]
        if fault := self.form(value).fault(typed) if word else "is empty":
            return called(word, fault)
        if self.not_in_tables(value, word):
            self.tables.read()
        return self.not_in_tables(value, word)

    def not_in_tables(self, value: str, word: str) -> str:
        """What the tables say against a word."""
        place, base = self.place(value), self.tables.base
        if base is None:
            return ""
        most = place.most(base)
        if most is not None and int(word) > most:
            return called(word, f"is more than {self.values['SUBLOT']} holds: {formatted(most)}")
        if value == TO:
            fault = party_fault(self.parties, self.values["OWNER"], word, GETS)
            return f"{fault}. {nearest(word, self.customers, self.called_customers)}" if fault else ""
        if fault := place.unknown(base, word) or place.taken(base, word):
            return called(word, fault)
        return self.not_of_result(base, {**self.values, value: word}) if self.line.name == "result" else ""

    def not_of_result(self, base: Base, values: Values) -> str:
        """What is told against the test of a result that is the plant's own, against a bound that doesn't say whether
        the value is within the limits, and against a value that couldn't be told from another one of its day."""
        if values.get("TEST") == self.context.settings.quality.test:
            return self.context.once(Stops).why_no_result(values)
        if "VALUE" not in values:
            return ""
        names, day = (values["OWNER"], values["LOT"], values["TEST"]), int(values.get("DAY", describing.NO_DAY))
        try:
            describing.result_of(base, self.tables.register, *names, values["VALUE"], day)
        except Failure as failure:
            return failure.message
        return ""

    def remark(self, value: str, word: str) -> str:
        """What is told of a value that is taken, and may be mistyped: a new name, or one out of a test's limits."""
        place, base = self.place(value), self.tables.base
        if base is None:
            return ""
        if place.is_unheard(base, word):
            return f"{value}: {word} is new"
        limits = place.limits(base)
        is_out = limits and not limits[0] <= whole_of(split_sign(word)[1], self.decimals(value)) <= limits[1]
        return f"{value}: {word} is out of the limits" if is_out else ""

    def next_value(self) -> tuple[str, str | None] | None:
        """The next value that isn't known, with what is given for it; `None` if all are. The customer of a shipment is
        nobody where none is asked for."""
        value = next((name for name in self.order if name not in self.values), None)
        if value is None:
            return None
        word = self.given.pop(value, None)
        return value, "" if value == TO and word is None and not self.asks_for_customer() else word

    def forget(self, value: str) -> dict[str, str | None]:
        """Forgets a value, and those behind it, which are given: they are taken again if they fit the new one."""
        at = self.order.index(value)
        behind: dict[str, str | None] = {name: self.values.pop(name) for name in self.order[at:]}
        del behind[value]
        return behind


def called(word: str, fault: str) -> str:
    """What is told of a word that isn't taken; an empty one isn't told back."""
    return f"`{printable(word[:MOST_TOLD])}` {fault}" if word else fault


@contextmanager
def opened(
    context: Context,
    line: Line,
    given: dict[str, str | None],
    decimals: int | None = None,
    beside: dict[str, str | None] | None = None,
) -> Iterator[Dialogue]:
    """A line that is asked, with the values that are given. A test that is added may have decimals, and the customer of
    a shipment is asked for beside its values, if one may be given."""
    asked = line._replace(values=("OWNER", *(beside or {}), *(name for name in line.values if name != "OWNER")))
    with ExitStack() as stack:
        yield Dialogue(
            context, asked if beside else line, Tables(context, stack), decimals, {**given, **(beside or {})}
        )
