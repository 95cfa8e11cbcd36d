"""A workbook that was planned is given to an office: its commands and notes in their order, up to one that fails."""
import signal
from collections.abc import Callable, Iterator
from contextlib import contextmanager
from dataclasses import dataclass, field
from typing import Any

from ...care.keys import add_owner, random_key
from ...core import client
from ...core.context import Context
from ...core.failure import FAULT, REFUSED
from ...core.grammar import OWNER_ADD
from ...core.journal import log as journals
from ...core.office import Answer
from .. import asking
from ..making import Desk
from .plan import Plan, Step
from .planning import fault_of

OF_A_LINE = 1_000  # notes that a line of the journal gets


@dataclass
class Giving:
    """A plan on its way into an office, what the journal notes of its source, who hears of progress, and what ended
    it."""

    context: Context
    desk: Desk
    plan: Plan
    source: dict[str, Any]
    advance: Callable[[int], None]
    done: int = 0  # commands
    end: str = ""  # what ended it
    status: int = 0
    owners: list[str] = field(default_factory=list)  # that were added, with keys that nobody knows

    def run(self) -> None:
        """Gives the plan, until a refusal, a fault or a signal ends that."""
        definitions = [step for step in self.plan.steps if step.line.name != "receive"]
        stock = [step for step in self.plan.steps if step.line.name == "receive"]
        with ended_by_signal(self):
            self.note_known()
            if self.add_owners() and self.give(definitions):
                self.note()
                self.give(stock)

    def note_known(self) -> None:
        """Notes in the journal that movements were given again."""
        if keys := self.plan.known_keys:
            journal, words = self.context.journal(), ["import", self.source["sheet"]]
            journal.note(self.desk.office.file, words, **self.source, **{journals.KNOWN_KEYS: keys})

    def add_owners(self) -> bool:
        """Adds owners, each with a key that nobody knows; whether all were added."""
        for step in self.plan.steps:
            if step.line.name == OWNER_ADD:
                owner = step.words[0]
                if not self.is_done(step, add_owner(self.context, owner, random_key())):
                    return False
                self.owners.append(owner)
        return True

    def give(self, steps: list[Step]) -> bool:
        """Gives commands to `toll`; whether all were accepted."""
        left, office = [step for step in steps if step.line.name != OWNER_ADD], self.desk.office
        journal = self.context.journal()
        with client.asker(office, len(left)) as ask, journal.series():
            for step in left:
                beside = self.desk.all_members(step.notes) if step.notes else {}
                place: dict[str, Any] = {"table": step.part.table.title, "row": step.record.row}
                answer = asking.asked(
                    self.context, office, step.line, step.words, journal, ask, **self.source, **place, **beside
                )
                if not self.is_done(step, answer):
                    return False
        return True

    def is_done(self, step: Step, answer: Answer) -> bool:
        """Whether a command was accepted; notes what ended the giving where it wasn't."""
        if answer.status:
            self.status = FAULT if answer.status == FAULT else REFUSED
            text = (answer.output if answer.status == REFUSED else "") or answer.error or "toll ended without an answer"
            self.end = str(fault_of(step, text.strip()))
            return False
        self.done += 1
        self.advance(1)
        return True

    def note(self) -> None:
        """Notes what isn't beside a command, many notes in a line of the journal."""
        for at in range(0, len(self.plan.notes), OF_A_LINE):
            members = self.desk.all_members(self.plan.notes[at : at + OF_A_LINE])
            words = ["import", self.source["sheet"]]
            self.desk.journal.note(self.desk.office.file, words, **self.source, **members)


@contextmanager
def ended_by_signal(giving: Giving) -> Iterator[None]:
    """Has a signal that ends this process end the giving alone, of which it is still told how far it came."""
    try:
        yield
    except SystemExit as end:
        giving.status = int(end.code or 0)
        giving.end = f"ended by {signal.Signals(giving.status - 128).name}"
