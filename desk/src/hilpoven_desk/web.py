"""What a request stands on: who asks in which language, the office as it is read, fields of forms, and answers."""
import contextlib
import re
import secrets
import threading
import time
from collections.abc import Callable, Iterator, Mapping
from dataclasses import dataclass, field
from typing import Any

import flask
from flask import g, request
from hilpoven.core import scanned
from hilpoven.core.context import Context
from hilpoven.core.delays import Delays, keys_of
from hilpoven.model import views
from hilpoven.model.register.standing import register_of
from hilpoven.model.rows import LotId
from werkzeug.datastructures import CombinedMultiDict, MultiDict
from werkzeug.wrappers import Response as BaseResponse

from .accounts import MOST_LOGIN, MOST_PASSWORD, Accounts, DeskPerson, Unavailable
from .language import Reader
from .making import Contexts, Made
from .reading import Reading
from .recording import Entry, Outcome, State, check, doubt, give, may, new_key
from .sessions import Fields, Session, Sessions
from .tables import KeptTables

Answer = BaseResponse | str | tuple[str, int]
Doubts = Callable[[Reading], Iterator[str]]  # about what is unusual
LANGUAGE_COOKIE = "desk-language"
CHOSEN = "_chosen"  # behind the name of a field: the choice beside it that is touched
MOST_TEXT, MOST_FIELDS = 400, 1_200  # letters of a field, and fields of a form: a count has five of a place
LEFT_OUT = {"token", "slip", "password", "asked", "answer", "seen"}  # fields that no form is filled in with again
WRONG_TAKES = 1.0  # seconds that a wrong password takes
MOST_CHECKS = 8  # passwords that are looked at, at once: other pages go on beside them
STATUS = {State.FAULTY: 422, State.FAULT: 503, State.LOST: 503}  # of an answer to a form that isn't done; else 409
BLANKS = re.compile(r"[ \u00a0\u2009\u202f]+")


@dataclass
class Desk:
    """The screens of an office: how a request works on it, whose accounts there are, and where browsers find it."""

    working: Contexts
    accounts: Accounts
    origin: str  # such as https://desk.example.com
    sessions: Sessions = field(default_factory=Sessions)
    delays: Delays = field(default_factory=Delays)
    tables: KeptTables = field(default_factory=KeptTables)
    checks: threading.Semaphore = field(default_factory=lambda: threading.BoundedSemaphore(MOST_CHECKS))

    def making(self, person: DeskPerson, kind: str, names: Mapping[str, Any]) -> Made:
        """A paper, or labels."""
        return self.working.make(person, kind, names)

    @property
    def is_secure(self) -> bool:
        """Whether browsers come over TLS."""
        return self.origin.startswith("https://")

    @property
    def host(self) -> str:
        """The host that browsers name."""
        return self.origin.partition("://")[2]

    @property
    def cookie(self) -> str:
        """The name of the session's cookie: that of no other host, where browsers come over TLS."""
        return "__Host-desk" if self.is_secure else "desk"


def desk() -> Desk:
    """The desk that this request is for."""
    served: Desk = flask.current_app.extensions["desk"]
    return served


def reader() -> Reader:
    """Who reads the answer."""
    current: Reader = g.reader
    return current


def text(name: str, /, **words: Any) -> str:
    """A text in the reader's language."""
    return reader().text(name, **words)


def person() -> DeskPerson:
    """Who asks."""
    current: DeskPerson = g.person
    return current


def session() -> Session:
    """The session of this request."""
    current: Session = g.session
    return current


@contextlib.contextmanager
def reading(context: Context | None = None) -> Iterator[Reading]:
    """The office as it is now, for the person who asks."""
    context = context or desk().working(person())
    with desk().tables.opened(context.office()) as base:
        register = register_of(context, base)
        yield Reading(context, views.over(base, register), register)


def allows(word: str) -> bool:
    """Whether the person has the role of a command."""
    if "context" not in g:
        g.context = desk().working(person())
    return may(g.context, word)


# Fields


def fields() -> CombinedMultiDict[str, str]:
    """The fields of a request, and behind them those of a form that a log-in kept for its page."""
    return CombinedMultiDict([request.values, g.kept])


def typed(name: str) -> str:
    """What was typed in a field, without blanks around it, or chosen beside it."""
    return (fields().get(name, "").strip() or fields().get(f"{name}{CHOSEN}", "").strip())[:MOST_TEXT]


def chosen_otherwise() -> dict[str, str]:
    """The fields in which another word is typed than what is chosen beside them."""
    names = [name.removesuffix(CHOSEN) for name in request.form if name.endswith(CHOSEN)]
    return {
        name.upper(): text("%(chosen)s is chosen, and %(typed)s is typed.", chosen=chosen, typed=typed(name))
        for name in names
        if (chosen := request.form.get(f"{name}{CHOSEN}", "").strip()[:MOST_TEXT]) not in ("", typed(name))
    }


def name_typed(name: str) -> str:
    """A name that was typed, in capitals."""
    return typed(name).upper()


def number_typed(name: str) -> str:
    """A whole number that was typed, without blanks between its thousands."""
    return BLANKS.sub("", typed(name))


def day_typed(context: Context, name: str = "day") -> str:
    """A day that was typed, as the office has it."""
    return reader().day_word(typed(name), context.today)


def values_of_form(**defaults: str) -> dict[str, str]:
    """What stands in the fields of a form: what it begins with, what a log-in kept of it, and what was sent."""
    given = {name: value.strip()[:MOST_TEXT] for name, value in fields().items() if name not in LEFT_OUT}
    return {**defaults, **given}


def fields_to_keep() -> Fields:
    """The fields of a form that came without a session, with which it is shown again; of a name there may be many."""
    sent = request.form.items(multi=True)
    return [(name, value[:MOST_TEXT]) for name, value in sent if name not in LEFT_OUT | {"login"}][:MOST_FIELDS]


def fields_kept() -> "MultiDict[str, str]":
    """The fields that a log-in kept for the page that is asked for, which has them once."""
    kept = g.session.kept.pop(request.path, []) if g.session and request.method == "GET" else []
    return MultiDict(kept)


def page_asked() -> str:
    """The page that is asked for. A form's address may have none: then it is the page on which the form stood."""
    rule = request.url_rule
    if rule is None or "GET" in (rule.methods or ()):
        return request.full_path
    return (request.referrer or "").removeprefix(desk().origin)


def answers_typed() -> dict[str, str]:
    """The answers to the questions that a form was asked, by their texts."""
    return dict(zip(request.form.getlist("asked"), map(str.strip, request.form.getlist("answer"))))


def label_in(word: str) -> tuple[LotId, str] | None:
    """The lot and the sublot that a label's text names; `None` if it is none."""
    label = scanned.scanned_sublot(word.upper())
    return (LotId(label.owner, label.lot), label.sublot) if label else None


def form_key(context: Context) -> str:
    """The key of a form: that which it carries, or a new one."""
    return name_typed("key") or new_key(context)


# What is done


@dataclass(frozen=True)
class Undo:
    """A form by which something is taken back at once."""

    action: str
    fields: Mapping[str, str]


@dataclass(frozen=True)
class Notice:
    """What the next page says was recorded: its text, what else was said, how it is corrected, and what takes it back
    at once."""

    state: State
    text: str
    lines: tuple[str, ...] = ()
    correction: str = ""
    undo: Undo | None = None


def once(do: Callable[[], Outcome]) -> Outcome:
    """What came of a form, which is done once however often it is sent in a session."""
    slip, current = request.form.get("slip", "")[:MOST_TEXT], session()
    with current.lock:
        if slip and slip in current.done:
            return current.done[slip]
        outcome = do()
        if slip and outcome.is_done:
            current.remember(slip, outcome)
        return outcome


def record(
    name: str,
    values: Mapping[str, str],
    noted: Mapping[str, Any] | None = None,
    seen: str = "",
    doubts: Doubts | None = None,
) -> Outcome:
    """Gives a line in the name of the person who asks. `seen` is the digest of what its form goes by now, which the
    form carries as it was shown; `doubts` are about what is unusual, which is asked before."""
    context = desk().working(person())
    entry = Entry(name, values, noted or {}, answers_typed())

    def do() -> Outcome:
        if seen and request.form.get("seen", "") != seen:
            return changed()
        if faults := chosen_otherwise():
            return Outcome(State.FAULTY, faults=faults)
        with reading(context) as office:
            stopped = check(context, entry, office.base, office.register)
            if not stopped and doubts and not entry.is_known(office.base):
                stopped = doubt(entry, tuple(doubts(office)))
        return stopped or give(context, entry)

    return once(do)


def changed() -> Outcome:
    """What comes of a form that showed what is otherwise now."""
    return Outcome(State.CHANGED)


def done(outcome: Outcome, summary: str, to: str, correction: str = "", undo: Undo | None = None) -> BaseResponse:
    """Goes on to a page, which says what was recorded."""
    session().tell(Notice(outcome.state, summary, outcome.lines, correction, undo))
    return flask.redirect(to, 303)


def page(template: str, outcome: Outcome | None = None, **values: Any) -> Answer:
    """A page, with what came of its form if that isn't done."""
    status = 200 if outcome is None or outcome.is_done else STATUS.get(outcome.state, 409)
    return flask.render_template(template, outcome=outcome, **values), status


def new_slip() -> str:
    """What tells a form that is sent twice from another one."""
    return secrets.token_urlsafe(12)


# Passwords


def password_fault(login: str, password: str) -> str:
    """Why a password isn't taken, in the reader's language; empty if it is. It doesn't say what is wrong, nor does the
    time tell it: the machine looks at no password of an account that isn't there, which is quick."""
    keys = keys_of(login, request.remote_addr or "")
    if (left := desk().delays.begin(keys)) > 0:
        return text("Too many wrong passwords. Try again in %(seconds)s seconds.", seconds=int(left) + 1)
    is_askable = bool(login and password) and "\0" not in login + password
    if not is_askable or len(login.encode()) > MOST_LOGIN or len(password.encode()) > MOST_PASSWORD:
        return text("The name or the password is wrong.")
    if not desk().checks.acquire(blocking=False):
        desk().delays.take_back(keys)
        return text("Too many log in at once. Try again in a moment.")
    begun = time.monotonic()
    try:
        if desk().accounts.has_password(login, password) and desk().accounts.person(login):
            desk().delays.take_back(keys)
            return ""
        time.sleep(max(0.0, begun + WRONG_TAKES - time.monotonic()))
        return text("The name or the password is wrong.")
    except Unavailable as unavailable:
        desk().delays.take_back(keys)
        flask.current_app.logger.error("passwords can't be checked: %s", unavailable)
        return text("Passwords can't be checked now. Tell whoever looks after this machine.")
    finally:
        desk().checks.release()
