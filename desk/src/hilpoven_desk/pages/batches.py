"""A batch's card: its state, what it takes and makes by a scanned label or by hand, and what was recorded."""
from collections.abc import Iterator, Mapping

import flask
from flask import request
from hilpoven.model.rows import BatchId
from hilpoven.model.schema import Kind
from werkzeug.wrappers import Response

from .. import usual
from ..reading import Reading
from ..recording import Outcome, State
from ..usual import Usual
from ..web import Answer, Undo, day_typed, desk, done, form_key, label_in, name_typed, number_typed, page, person
from ..web import reader, reading, record, text, typed, values_of_form
from .receipts import shown_of
from .today import batch_page

PAGE = flask.Blueprint("batches", __name__)


@PAGE.route("/batch/<owner>/<order>/<int(max=99):number>", methods=["GET", "POST"])
def batch(owner: str, order: str, number: int) -> Answer | Response:
    """A batch."""
    context, outcome, name = desk().working(person()), None, BatchId(owner, order, number)
    values = values_of_form(key=form_key(context), day=reader().day_in_field(context.day()))
    if request.method == "POST":
        with reading(context) as office:
            seen = office.batch(name).seen
        outcome, summary, undo = FORMS.get(typed("what"), no_form)(name, seen)
        if outcome.is_done:
            correction = text("Wrong? Take it back, and record it again.") if undo else ""
            return done(outcome, summary, batch_page(name), correction, undo)
    with reading(context) as office:
        card = office.batch(name)
        scan = values.get("scan", "").upper()
        label = label_in(scan)
        lot = office.card(label[0]) if label else None
        return page(
            "batch.html",
            outcome,
            values=values,
            card=card,
            scan=scan,
            lot=lot,
            sublot=label[1] if label else "",
            need=card.need_of(lot) if lot else None,
            choices=[] if label or not scan else office.sublots_called(scan),
            command_text=command_text,
            places=office.places,
            usual={
                need.material: usual_of(office, name, need.material) for need in card.needs if need.use == "produced"
            },
        )


Done = tuple[Outcome, str, Undo | None]


def of_batch(name: BatchId) -> dict[str, str]:
    """The values of a line that name a batch."""
    return {"OWNER": name.owner, "ORDER": name.order, "BATCH": str(name.number)}


def no_form(name: BatchId, seen: str) -> Done:
    """A form that isn't one of these."""
    flask.abort(400)


def do(name: BatchId, seen: str) -> Done:
    """Changes the state."""
    line = {**of_batch(name), "COMMAND": typed("command")}
    outcome = record("do", line, {"reason": typed("reason")}, seen=seen)
    return outcome, text("Batch %(batch)s: %(command)s", batch=name.name, command=command_text(typed("command"))), None


def close(name: BatchId, seen: str) -> Done:
    """Closes it for good."""
    return record("close", of_batch(name), seen=seen), text("Batch %(batch)s closed", batch=name.name), None


def void(name: BatchId, seen: str) -> Done:
    """Takes an actual back."""
    line = {"OWNER": name.owner, "KEY": name_typed("key")}
    reason = typed("reason") or text("taken back at the screen")
    return record("void", line, {"reason": reason}), text("%(key)s taken back", key=line["KEY"]), None


def consume(name: BatchId, seen: str) -> Done:
    """Records what goes in, of a label."""
    label = label_in(typed("scan"))
    if label is None:
        return Outcome(State.FAULTY, faults={"LOT": ""}), "", None
    return actual(name, "consumed", {"LOT-OWNER": label[0].owner, "LOT": label[0].name, "SUBLOT": label[1]})


def produce(name: BatchId, seen: str) -> Done:
    """Records what comes out, into a lot of the batch's owner."""
    label = label_in(typed("lot"))
    lot = label[0].name if label else name_typed("lot")
    place = name_typed("sublot") or (label[1] if label else "")
    return actual(name, "produced", {"LOT-OWNER": name.owner, "LOT": lot, "SUBLOT": place})


def actual(name: BatchId, use: str, of_lot: Mapping[str, str]) -> Done:
    """Records an actual, which can be taken back while the batch is open."""
    line = {
        **of_batch(name),
        "KEY": name_typed("key"),
        "SEGMENT": typed("segment"),
        "USE": use,
        "MATERIAL": name_typed("material"),
        **of_lot,
        "AMOUNT": number_typed("amount"),
        "DAY": day_typed(desk().working(person())),
    }
    outcome = record("actual", line, doubts=lambda office: unusual(office, name, line))
    template = (
        "%(amount)s from %(lot)s, %(place)s, went in"
        if use == "consumed"
        else "%(amount)s came out into %(lot)s, %(place)s"
    )
    undo = Undo(batch_page(name), {"what": "void", "key": line["KEY"]}) if outcome.state == State.ACCEPTED else None
    return outcome, text(template, **shown_of(line)), undo


def usual_of(office: Reading, name: BatchId, material: str) -> Usual:
    """What earlier batches of an owner made of a material."""
    return Usual(office, reader(), Kind.PRODUCED, name.owner, name.owner, material)


def unusual(office: Reading, name: BatchId, line: Mapping[str, str]) -> Iterator[str]:
    """What of an actual is unusual."""
    names = line["SEGMENT"], line["USE"], line["LOT-OWNER"], line["MATERIAL"]
    for need in office.batch(name).needs:
        if (str(need.segment), need.use, need.owner, need.material) == names:
            yield from usual.of_need(reader(), need, line["AMOUNT"])
    if line["USE"] == "produced":
        earlier = usual_of(office, name, line["MATERIAL"])
        yield from earlier.of_batch(name, line["LOT"])
        yield from earlier.of_place(line["SUBLOT"])
        yield from earlier.of_amount(line["AMOUNT"])


def command_text(command: str) -> str:
    """A command of a batch in the reader's words."""
    texts = {
        "start": text("Start"),
        "hold": text("Hold"),
        "restart": text("Restart"),
        "pause": text("Pause"),
        "resume": text("Resume"),
        "stop": text("Stop"),
        "abort": text("Abort"),
        "reset": text("Reset"),
        "done": text("Done"),
    }
    return texts.get(command, command)


FORMS = {"do": do, "close": close, "void": void, "consume": consume, "produce": produce}
