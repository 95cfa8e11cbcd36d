"""What a command stands on: the settings, the office that it is for, who gives it, and how that person is asked."""
import functools
import os
from collections.abc import Callable, Mapping
from dataclasses import KW_ONLY, dataclass, field, replace
from datetime import date
from typing import Any, NamedTuple, TypeVar

from . import paths, rights, settings as site, timeline
from .days import day_of, today
from .failure import REFUSED, Failure
from .journal import log as journals
from .journal.log import Journal
from .rights import Person
from .office import SUPERSEDED, Office, require_file
from .settings import Settings

Known = TypeVar("Known")
YES, NO = "yes", "no"


class Question(NamedTuple):
    """What a person is asked before something is done: what it is about, its words, what may be answered, if it is one
    of some, and the answer that nothing stands for."""

    name: str
    text: str
    choices: tuple[str, ...] = (YES, NO)
    default: str = NO


Ask = Callable[[Question], str]


class Unanswered(Failure):
    """What has to be answered before something is done. Nothing is done until it is given again with the answer."""

    def __init__(self, question: Question) -> None:
        super().__init__(question.text, REFUSED)
        self.question = question


def answered_by(answers: Mapping[str, str]) -> Ask:
    """Asks a form, which has answers by the texts of their questions: what it doesn't answer yet, fails as such."""

    def ask(question: Question) -> str:
        answer = answers.get(question.text)
        if answer is None or question.choices and answer not in question.choices:
            raise Unanswered(question)
        return answer

    return ask


def silent(_: str) -> None:
    """Tells nobody."""


@dataclass
class Context:
    """The settings, and what the words before the command say of the office."""

    settings: Settings
    db: str = ""
    unnoted: list[Failure] = field(default_factory=list)  # why answers couldn't be noted
    _: KW_ONLY
    person: Person
    tell: Callable[[str], None] = silent  # what is noticed on the way
    ask: Ask | None = None  # what isn't sure; `None` where nobody can be asked
    known: dict[Any, Any] = field(default_factory=dict, init=False)  # what `once` made, by what makes it

    @functools.cached_property
    def file(self) -> str:
        """The office's file, without links on its way, which are looked at once."""
        named = self.db or self.settings.file
        if not named:
            raise site.unnamed_office()
        return os.path.realpath(named)

    @property
    def today(self) -> date:
        """The date that it is in the plant's time zone."""
        return today(self.settings.time_zone)

    def day(self, given: int | None = None) -> int:
        """A day that is given, or today."""
        return day_of(self.today) if given is None else given

    def office(self) -> Office:
        """The office, whose file is there, to be worked on with its owner's rights; fails if it is superseded."""
        rights.become_owner(self.file)
        if os.path.lexists(self.file + SUPERSEDED):
            timeline.require_latest(self.file)
        return self.office_to_read()

    def office_to_read(self) -> Office:
        """The office, whose file is there, of which copies are read."""
        require_file(self.file)
        return self.unseen_office()

    def unseen_office(self) -> Office:
        """The office, whose file may not be there. A member works on none in a folder that others may change."""
        if self.person.is_member:
            paths.private(os.path.dirname(self.file))
        settings = self.settings
        return Office(self.file, site.program(settings), settings.wait, settings.quality.test)

    def journal(self) -> Journal:
        """The office's journal."""
        return journals.Journal(
            journals.adopted(site.journal_of(self.settings, self.file), self.file),
            self.file,
            self.unnoted,
            self.tell,
            self.person.login,
        )

    @property
    def may_have_notes(self) -> bool:
        """Whether there is a journal or a register, so that the plant may have noted something."""
        return any(map(os.path.lexists, (site.journal_of(self.settings, self.file), f"{self.file}.register")))

    def once(self, make: "Callable[[Context], Known]") -> Known:
        """What something makes of this, which it does once."""
        if make not in self.known:
            self.known[make] = make(self)
        known: Known = self.known[make]
        return known

    def require_meant(self, name: str, doubt: str, advice: str, question: str = "Is it meant?") -> None:
        """Fails unless the person says that a thing is meant of which there is a doubt."""
        if self.ask is None:
            raise Failure(f"{doubt}; nothing is done", REFUSED, advice)
        if self.ask(Question(name, f"{doubt[0].upper()}{doubt[1:]}. {question}")) != YES:
            raise Failure("nothing is done", REFUSED)

    def office_to_export(self, *words: str, is_seldom: bool = True) -> Office:
        """The office, of which data is about to be handed out, which is noted. What a timer does every minute isn't."""
        office = self.office_to_read()
        if is_seldom or self.person.has_login:
            self.journal().exported(self.file, list(words))
        return office

    def end(self) -> None:
        """Fails where an answer couldn't be noted: it was given all the same."""
        if self.unnoted:
            raise self.unnoted.pop(0)

    def waiting(self, seconds: float | None) -> "Context":
        """The same, with another patience for a lock."""
        return self if seconds is None else replace(self, settings=replace(self.settings, wait=seconds))
