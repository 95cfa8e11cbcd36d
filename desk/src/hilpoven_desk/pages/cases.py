"""Recall cases: opened from a recall, with what is held, who answered, and how it ends."""
import json
from dataclasses import replace
from typing import Any

import flask
from flask import url_for
from hilpoven.core.failure import WRONG_USE, Failure
from hilpoven.core.forms import name_fault
from hilpoven.model.register import cases
from hilpoven.model.register.cases import Case
from werkzeug.wrappers import Response

from ..recording import Outcome, State
from ..web import (
    Answer,
    chosen_otherwise,
    desk,
    done,
    name_typed,
    number_typed,
    once,
    page,
    person,
    reading,
    text,
    typed,
    values_of_form,
)
from .papers import at_most, sent

PAGE = flask.Blueprint("cases", __name__)
AMOUNTS = ("back", "destroyed", "gone")


@PAGE.get("/cases")
def all_cases() -> Answer:
    """All cases, the last one first."""
    with reading() as office:
        notes = office.register.opened
        rows: list[Case] = list(cases.cases_of(notes).values()) if notes else []
    return page("cases.html", cases=rows[::-1])


@PAGE.post("/case")
def opened() -> Answer | Response:
    """Opens a case from a lot, or from all that came with a supplier's lot or a document."""
    texts = [typed("came_with")] if typed("came_with") else []
    names = [] if texts else [name_typed("owner"), name_typed("lot")]
    origin: dict[str, Any] = {"names": names, "lots": [], "supplier_lots": texts, "documents": texts, "parties": []}
    origin |= dict.fromkeys(("unit", "since", "until"))
    outcome = step("open", {**origin, "is_drill": typed("drill") == "yes", "reason": typed("reason")})
    if not outcome.is_done:
        return page("failed.html", outcome, why=outcome.lines[0], advice=outcome.lines[1:])
    number = outcome.lines[0].split()[1]  # as it is printed: case C-1 began on ..
    summary = text("Case %(number)s opened", number=number)
    return done(replace(outcome, lines=()), summary, url_for("cases.case", number=number))


@PAGE.route("/case/<number>", methods=["GET", "POST"])
def case(number: str) -> Answer | Response:
    """A case: who had what, and what became of it."""
    if fault := name_fault(number):
        raise Failure(fault, WRONG_USE)
    outcome = None
    if flask.request.method == "POST":
        if typed("what") == "paper":
            return sent({"number": number}, "case")
        outcome, summary = FORMS.get(typed("what"), no_form)(number)
        if outcome.is_done:
            lines = outcome.lines if typed("what") == "hold" else ()
            return done(replace(outcome, lines=lines), summary, url_for("cases.case", number=number))
    status = asked("status", {"number": number})
    return page("case.html", outcome, number=number, values=values_of_form(), **status)


def no_form(number: str) -> tuple[Outcome, str]:
    """A form that isn't one of these."""
    flask.abort(400)


def hold(number: str) -> tuple[Outcome, str]:
    """Holds all that is on hand, and stops open batches."""
    return step("hold", {"number": number}), text("Case %(number)s: all that is on hand is held", number=number)


def reply(number: str) -> tuple[Outcome, str]:
    """Notes what a customer answered of a lot."""
    amounts = {name: number_typed(name) or "0" for name in AMOUNTS}
    if wrong := {name.upper(): "" for name, word in amounts.items() if not word.isdecimal() or len(word) > 16}:
        return Outcome(State.FAULTY, faults={**chosen_otherwise(), **wrong}), ""
    names = {"owner": name_typed("owner"), "party": name_typed("party"), "lot": name_typed("lot")}
    counted = {name: int(word) for name, word in amounts.items()}
    outcome = step("reply", {**names, **counted, "reason": typed("reason"), "number": number})
    return outcome, text("The answer of %(party)s is noted", party=names["party"])


def close(number: str) -> tuple[Outcome, str]:
    """Ends it."""
    return step("close", {"number": number, "reason": typed("reason")}), text("Case %(number)s closed", number=number)


FORMS = {"hold": hold, "reply": reply, "close": close}


def asked(word: str, names: dict[str, Any]) -> dict[str, Any]:
    """What a step of a case answers."""
    with at_most():
        answer: dict[str, Any] = json.loads(desk().making(person(), f"case-{word}", names).content)
    return answer


def step(word: str, names: dict[str, Any]) -> Outcome:
    """Does a step of a case, once however often its form is sent."""

    def do() -> Outcome:
        try:
            answer = asked(word, names)
        except Failure as failure:
            return Outcome(State.REFUSED, (failure.message,))
        lines = (*map(str.strip, answer["lines"]), *([answer["fault"]] if answer["fault"] else []))
        return Outcome(State.REFUSED if answer["fault"] else State.ACCEPTED, lines)

    return once(do)
