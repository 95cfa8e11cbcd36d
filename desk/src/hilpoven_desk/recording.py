"""What a form records: the calls that the subcommands make, in a person's name, and what came of them as a value."""
import contextlib
import enum
import errno
import hashlib
import os
import secrets
from collections.abc import Callable, Mapping
from contextlib import ExitStack
from dataclasses import dataclass, field, replace
from typing import Any, overload

from hilpoven.core import meanings, roles
from hilpoven.core.context import YES, Context, Question, Unanswered, answered_by
from hilpoven.core.days import day_of
from hilpoven.core.failure import FAULT, REFUSED, Failure
from hilpoven.core.grammar import LINES, MOVEMENTS, Line, faults, written
from hilpoven.core.office import Answer
from hilpoven.model.register.standing import Register
from hilpoven.model.rows import Base, LotId
from hilpoven.record import asking, giving, judging
from hilpoven.record.dialogue import Dialogue, Tables
from hilpoven.record.doubts import is_recorded

LETTERS = "23456789ABCDEFGHJKLMNPQRSTUVWXYZ"  # of a key: none that is read as another one
KEY_LETTERS = 6
OF_COMMANDS = "`hilpoven "  # in what is said to people who type commands
DISK_FULL = "The disk of the machine is full. Tell whoever looks after it."
NOT_NOTED = "The journal couldn't note what came of it. Tell whoever looks after the office."


class State(enum.Enum):
    """What came of a form."""

    ACCEPTED = "accepted"
    REPEATED = "repeated"  # it was recorded before
    REFUSED = "refused"
    DOUBT = "doubt"  # a question is to be answered before
    FAULTY = "faulty"  # a field is missing or wrong
    CHANGED = "changed"  # what the form showed is otherwise now
    FAULT = "fault"  # the office couldn't be asked, and nothing is recorded
    LOST = "lost"  # nobody knows whether it is recorded


@dataclass(frozen=True)
class Outcome:
    """What came of a form: its state, what is said of it, the word of the refusal, the line's words as they were given,
    the question that is to be answered, and what is wrong with fields, by the names of their values."""

    state: State
    lines: tuple[str, ...] = ()
    refusal: str = ""
    words: tuple[str, ...] = ()
    question: Question | None = None
    faults: Mapping[str, str] = field(default_factory=dict)

    @property
    def is_done(self) -> bool:
        """Whether it stands in the office."""
        return self.state in (State.ACCEPTED, State.REPEATED)


def new_key(context: Context) -> str:
    """A key for a form's movement that no other form has: the day and some letters. A form that is sent twice, also
    over a fault of the network or of this program, is repeated, and never recorded twice."""
    return f"{day_of(context.today)}-{''.join(secrets.choice(LETTERS) for _ in range(KEY_LETTERS))}"


def digest_of(*seen: object) -> str:
    """A short digest of what a form shows, by which it is known whether that is otherwise when the form comes."""
    return hashlib.sha256(repr(seen).encode()).hexdigest()[:20]


class ReadTables(Tables):
    """Tables that a request has read, for a line that is asked."""

    def __init__(self, context: Context, base: Base, register: Register) -> None:
        super().__init__(context, ExitStack())
        self.base, self.noted = base, register

    def read(self) -> None:
        """They are as they were read a moment ago."""


@dataclass(frozen=True)
class Entry:
    """A line that a form gives, by its name, with its values, what is noted beside it, and the answers to questions by
    their texts."""

    name: str
    values: Mapping[str, str]
    noted: Mapping[str, Any] = field(default_factory=dict)
    answers: Mapping[str, str] = field(default_factory=dict)

    @property
    def line(self) -> Line:
        """The line."""
        return LINES[self.name]

    @property
    def words(self) -> list[str]:
        """The words of the line."""
        return [self.values.get(value, "") for value in self.line.values]

    def is_known(self, base: Base) -> bool:
        """Whether its movement has this key already: then a form was sent again, and the office says what that is."""
        if self.name not in MOVEMENTS or faults(self.line, written(self.line, self.words)[0]):
            return False
        return is_recorded(base, dict(self.values))


def check(context: Context, entry: Entry, base: Base, register: Register) -> Outcome | None:
    """What is wrong with the fields of a line, by tables that were read a moment ago; `None` if nothing is."""

    def call() -> Outcome | None:
        roles.require(context, entry.name)
        wrong = {} if entry.is_known(base) else faults_of(context, entry, base, register)
        return Outcome(State.FAULTY, faults=wrong) if wrong else None

    return caught(context, call)


def doubt(entry: Entry, doubts: tuple[str, ...]) -> Outcome | None:
    """The question whether what is unusual is meant; `None` where nothing is, or the answer is that it is meant."""
    question = Question("unusual", " ".join(doubts))
    is_meant = not doubts or entry.answers.get(question.text) == YES
    return None if is_meant else Outcome(State.DOUBT, doubts, question=question)


def give(context: Context, entry: Entry) -> Outcome:
    """Gives a line in the name of the context's person, whose fields were looked at."""
    lines = list[str]()
    context.tell, context.ask = lines.append, answered_by(entry.answers)

    def call() -> Outcome:
        noted = {name: word for name, word in entry.noted.items() if word}
        is_meant = "DAY" not in entry.line.values  # otherwise a day that is unusual is asked about
        given = giving.give(context, entry.line, entry.words, noted, is_meant)
        return outcome_of(context, entry.line, given, lines)

    return caught(context, call)


def faults_of(context: Context, entry: Entry, base: Base, register: Register) -> dict[str, str]:
    """What is wrong with fields: those that are empty, and the first that names what isn't there."""
    wrong = {value: "" for value in entry.line.values if not entry.values.get(value)}
    talk, is_named = Dialogue(context, entry.line, ReadTables(context, base, register)), True
    for value in talk.order:
        word = entry.values.get(value, "")
        if not word:
            is_named = False
        elif is_named or value in ("AMOUNT", "DAY", "VALUE"):
            checked = talk.check(value, word)
            if not checked.is_taken:
                is_named = False
                wrong[value] = "\n".join(line.removeprefix(f"{value}: ") for line in checked.lines)
    return wrong


def judge(context: Context, judged: Callable[[], judging.Judged]) -> Outcome:
    """Signs or holds a lot in the name of the context's person."""
    lines = list[str]()
    context.tell = lines.append

    def call() -> Outcome:
        result = judged()
        if result.given:
            return outcome_of(context, LINES["result"], result.given, lines)
        state = State.REPEATED if result.text.endswith(" already") else State.ACCEPTED
        return Outcome(state, tuple(lines))

    return caught(context, call)


def outcome_of(context: Context, line: Line, given: asking.Given, lines: list[str]) -> Outcome:
    """What came of a line that was given."""
    answer, refusal = given.answer, meanings.refusal_in(given.answer.output)
    remarks = [
        *lines,
        *(text for remark in asking.remarks(context, line, given) for text in (remark or "").split("\n")),
    ]
    if answer.status == REFUSED and not refusal:
        remarks.insert(0, answer.error.strip())
    shown = tuple(text for text in remarks if text and OF_COMMANDS not in text and not is_about_key(text))
    return Outcome(state_of(answer), shown, refusal, (line.name, *given.words))


def is_about_key(line: str) -> bool:
    """Whether a line says only which key was taken, which the form has chosen."""
    return line.startswith("KEY: next is ")


def state_of(answer: Answer) -> State:
    """What an answer of the office says."""
    if answer.status == 0:
        return State.REPEATED if answer.output == "repeated\n" else State.ACCEPTED
    return State.REFUSED if answer.status == REFUSED else State.LOST if "Lost" in answer.error else State.FAULT


@overload
def caught(context: Context, call: Callable[[], Outcome]) -> Outcome:
    ...


@overload
def caught(context: Context, call: Callable[[], Outcome | None]) -> Outcome | None:
    ...


def caught(context: Context, call: Callable[[], Outcome | None]) -> Outcome | None:
    """What came of a call, also where it fails. A question that has no answer yet is a doubt. Where an answer couldn't
    be noted, the call was done all the same."""
    try:
        outcome = call()
        with contextlib.suppress(Failure):
            context.end()
            return outcome
        return replace(outcome, lines=(*outcome.lines, NOT_NOTED)) if outcome else None
    except Unanswered as unanswered:
        return Outcome(State.DOUBT, question=unanswered.question)
    except Failure as failure:
        return Outcome(State.FAULT if failure.exit_code == FAULT else State.REFUSED, lines_of(failure))


def lines_of(failure: Failure) -> tuple[str, ...]:
    """Why something can't be done, and what to do, for people who type no commands."""
    if failure.message.endswith(os.strerror(errno.ENOSPC)):
        return (DISK_FULL,)
    return (failure.message, *(line for line in failure.advice.split("\n") if line and OF_COMMANDS not in line))


def may(context: Context, word: str) -> bool:
    """Whether the context's person has the role of a command, so that its form is shown."""
    try:
        roles.require(context, word)
    except Failure:
        return False
    return True


def hold(context: Context, lot: LotId, reason: str) -> Outcome:
    """Holds a lot."""
    return judge(context, lambda: judging.hold(context, lot, reason, None))
