"""A lot: its state, its tests with results, signing and holding, moving and scrapping, and what was recorded of it."""
from collections.abc import Callable

import flask
from flask import request
from hilpoven import HOUSE
from hilpoven.core.context import Context
from hilpoven.model.register.standing import register_of
from hilpoven.model.rows import LotId
from hilpoven.model.schema import Kind
from hilpoven.record import judging
from hilpoven.record.making import Desk as NoteDesk
from werkzeug.wrappers import Response

from .. import recording
from ..reading import Card, Reading
from ..recording import Outcome, State
from ..usual import Usual, of_result
from ..web import Answer, changed, day_typed, desk, done, form_key, name_typed, number_typed, once, page
from ..web import password_fault, person, reader, reading, record, text, typed, values_of_form
from .receipts import shown_of
from .today import lot_page

PAGE = flask.Blueprint("lots", __name__)
Done = tuple[Outcome, str, str]  # what came of a form, what is summary of it, and how it is corrected


@PAGE.route("/lot/<owner>/<name>", methods=["GET", "POST"])
def lot(owner: str, name: str) -> Answer | Response:
    """A lot."""
    context, outcome, asked = desk().working(person()), None, LotId(owner, name)
    values = values_of_form(key=form_key(context), day=reader().day_in_field(context.day()))
    if request.method == "POST":
        with reading(context) as office:
            seen = office.card(asked).seen
        outcome, summary, correction = FORMS.get(typed("what"), no_form)(context, asked, seen)
        if outcome.is_done:
            return done(outcome, summary, lot_page(asked), correction)
    with reading(context) as office:
        card = office.card(asked)
        return page(
            "lot.html",
            outcome,
            values=values,
            sent_form=values.get("what", ""),
            card=card,
            moves=office.moves_of(asked),
            usual=usual_of(card),
            places=office.places,
            is_house=owner == HOUSE,
            plants_test=context.settings.quality.test,
        )


def no_form(context: Context, asked: LotId, seen: str) -> Done:
    """A form that isn't one of these."""
    flask.abort(400)


def result(context: Context, asked: LotId, seen: str) -> Done:
    """Records a result of a test."""
    value = reader().value_word(typed("value"))
    line = {
        "OWNER": asked.owner,
        "LOT": asked.name,
        "TEST": name_typed("test"),
        "VALUE": value,
        "DAY": day_typed(context),
    }
    summary = text("%(test)s of lot %(lot)s: %(value)s", test=line["TEST"], lot=asked.name, value=typed("value"))
    outcome = record(
        "result", line, seen=seen, doubts=lambda office: of_result(office, reader(), asked, line["TEST"], value)
    )
    return outcome, summary, text("Wrong? Record the right result: the latest one counts.")


def sign(context: Context, asked: LotId, seen: str) -> Done:
    """Signs a lot, which lifts a hold. The password is asked for again, and what the signer saw has to be so still,
    while nobody else records."""
    summary, correction = text("Lot %(lot)s signed", lot=asked.name), text("Wrong? Hold the lot.")
    if why := password_fault(person().login, request.form.get("password", "")):
        return Outcome(State.REFUSED, (why,)), summary, correction
    shown, reason = request.form.get("seen", ""), typed("reason")

    def require_seen(note_desk: NoteDesk) -> None:
        card = Reading(context, note_desk.base, register_of(context, note_desk.base)).card(asked)
        if card.seen != shown:
            raise SeenOtherwise

    def do() -> Outcome:
        try:
            return recording.judge(context, lambda: judging.sign(context, asked, reason, None, require_seen))
        except SeenOtherwise:
            return changed()

    return once(do), summary, correction


class SeenOtherwise(Exception):
    """What a form showed is otherwise now."""


def hold(context: Context, asked: LotId, seen: str) -> Done:
    """Holds a lot, with a reason."""
    summary, correction = text("Lot %(lot)s held", lot=asked.name), text(
        "Wrong? Whoever may sign lifts it by a signature."
    )
    reason = typed("reason")
    if not reason:
        return Outcome(State.FAULTY, faults={"REASON": ""}), summary, correction
    return once(lambda: recording.hold(context, asked, reason)), summary, correction


def split(context: Context, asked: LotId, seen: str) -> Done:
    """Moves some of a lot to another place."""
    line = {**taken(context, asked), "TARGET": name_typed("target")}
    summary = text("%(amount)s of lot %(lot)s moved from %(place)s to %(target)s", **shown_of(line))
    outcome = record("split", line, doubts=lambda office: usual_of(office.card(asked)).of_place(line["TARGET"]))
    return outcome, summary, text("Wrong? Move it back.")


def scrap(context: Context, asked: LotId, seen: str) -> Done:
    """Scraps some of a lot, with a reason."""
    line = taken(context, asked)
    summary = text("%(amount)s of lot %(lot)s scrapped from %(place)s", **shown_of(line))
    if not typed("reason"):
        return Outcome(State.FAULTY, faults={"REASON": ""}), summary, ""
    correction = text("Wrong? Receive it again, as a correction of this lot.")
    return record("scrap", line, {"reason": typed("reason")}), summary, correction


def usual_of(card: Card) -> Usual:
    """What earlier moves of a lot's material were like."""
    return Usual(card.reading, reader(), Kind.SPLIT, card.lot.id.owner, card.lot.id.owner, card.lot.material)


def taken(context: Context, asked: LotId) -> dict[str, str]:
    """The values of a line that takes from a sublot of a lot."""
    return {
        "OWNER": asked.owner,
        "KEY": name_typed("key"),
        "LOT": asked.name,
        "SUBLOT": name_typed("sublot"),
        "AMOUNT": number_typed("amount"),
        "DAY": day_typed(context),
    }


def release(context: Context, asked: LotId, seen: str) -> Done:
    """Releases a lot of the plant's own."""
    return record("release", {"LOT": asked.name}, seen=seen), text("Lot %(lot)s released", lot=asked.name), ""


def reject(context: Context, asked: LotId, seen: str) -> Done:
    """Rejects a lot of the plant's own, for good."""
    summary = text("Lot %(lot)s rejected", lot=asked.name)
    return record("reject", {"LOT": asked.name}, {"reason": typed("reason")}, seen=seen), summary, ""


FORMS: dict[str, Callable[[Context, LotId, str], Done]] = {
    "result": result,
    "sign": sign,
    "hold": hold,
    "split": split,
    "scrap": scrap,
    "release": release,
    "reject": reject,
}
