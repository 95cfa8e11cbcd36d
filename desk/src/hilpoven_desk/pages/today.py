"""Today: what is open, held, expiring and waiting; and what a label or a name stands for."""
import flask
from flask import redirect, url_for
from hilpoven.model.rows import BatchId, LotId
from werkzeug.wrappers import Response

from ..reading import MOST
from ..recording import digest_of
from ..usual import of_unit
from ..web import Answer, done, label_in, name_typed, page, reader, reading, record, text, values_of_form

PAGE = flask.Blueprint("today", __name__)


@PAGE.get("/")
def today() -> Answer:
    """What needs somebody today."""
    with reading() as office:
        held = office.held()
        are_held = {row.lot.id for row in held}
        return page(
            "today.html",
            today=office.today,
            most=MOST,
            batches=office.batches(),
            held=held,
            expiring=office.expiring(),
            waiting=[row for row in office.waiting() if row.lot.id not in are_held],
            orders=office.orders(),
        )


@PAGE.get("/find")
def find() -> Answer | Response:
    """What a label or a name stands for, over all that stands now."""
    word = name_typed("q")
    if label := label_in(word):
        return redirect(url_for("lots.lot", owner=label[0].owner, name=label[0].name), 303)
    with reading() as office:
        lots = (office.lots_called(word) or office.lots_noted(word)) if word else []
        batches = office.batches_called(word) if word else []
        orders = office.orders(order=word) if word else []
        names = [lot_page(lot.id) for lot in lots] + [batch_page(batch.id) for batch in batches]
        if len(names) == 1 and not orders:
            return redirect(names[0], 303)
        return page("found.html", q=word, lots=lots, batches=batches, orders=orders, state=office.state)


def lot_page(lot: LotId) -> str:
    """The address of a lot's page."""
    return url_for("lots.lot", owner=lot.owner, name=lot.name)


def batch_page(batch: BatchId) -> str:
    """The address of a batch's page."""
    return url_for("batches.batch", owner=batch.owner, order=batch.order, number=batch.number)


@PAGE.route("/order/<owner>/<order>", methods=["GET", "POST"])
def order(owner: str, order: str) -> Answer | Response:
    """Opens the next batch of an order on a unit. Sent again behind the next batch it opens none: the form carries how
    many there were."""
    values, outcome = values_of_form(), None
    with reading() as office:
        rows = office.orders(owner, order)
        if not rows:
            flask.abort(404)
        row, units = rows[0], office.free_units
    seen = digest_of(row)
    if flask.request.method == "POST":
        unit = name_typed("unit")
        line = {"OWNER": owner, "ORDER": order, "UNIT": unit}
        outcome = record(
            "open", line, seen=seen, doubts=lambda office: of_unit(office, reader(), owner, row.recipe, unit)
        )
        if outcome.is_done:
            summary = text("Batch of %(owner)s %(order)s opened on %(unit)s", owner=owner, order=order, unit=unit)
            to = batch_page(BatchId(owner, order, row.opened + 1))
            return done(outcome, summary, to, text("Wrong? Close it before anything is recorded."))
    return page("order.html", outcome, row=row, units=units, seen=seen, values=values)
