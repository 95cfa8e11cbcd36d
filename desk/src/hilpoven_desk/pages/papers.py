"""Papers and labels to print: each is made when it is asked for, which the journal notes."""
import contextlib
import threading
from collections.abc import Iterator

import flask
from flask import request
from hilpoven.core.failure import WRONG_USE, Failure
from hilpoven.core.forms import name_fault
from hilpoven.model.rows import LotId
from hilpoven.report.papers.labels import SIZES
from werkzeug.wrappers import Response

from ..making import MOST_AT_ONCE, Made
from ..web import Answer, desk, page, person, reading, text, typed

PAGE = flask.Blueprint("papers", __name__)
AT_ONCE = threading.BoundedSemaphore(MOST_AT_ONCE)
OF_LOT = ("lot", "certificate", "recall")


@PAGE.route("/papers/lot/<owner>/<name>", methods=["GET", "POST"])
def lot(owner: str, name: str) -> Answer | Response:
    """The papers and the labels of a lot."""
    with reading() as office:
        card = office.card(LotId(owner, name))
        if request.method == "GET":
            return page("papers.html", card=card, sizes=list(SIZES), shipments=office.shipments_of(card.lot.id))
        sublots = list(card.sublots)
    kind = typed("what")
    if kind == "labels":
        chosen = [sublot for sublot in request.form.getlist("sublot") if sublot in sublots]
        size = typed("size") if typed("size") in SIZES else next(iter(SIZES))
        return sent({"owner": owner, "lot": name, "sublots": chosen, "size": size}, kind)
    if kind in OF_LOT:
        return sent({"owner": owner, "lot": name}, kind)
    if kind in ("delivery-note", "shipment") and not name_fault(typed("key")):
        if kind == "shipment":
            return sent({"owner": owner, "lot": name, "key": typed("key")}, "certificate")
        return sent({"owner": owner, "key": typed("key")}, kind)
    flask.abort(400)


@PAGE.post("/papers/batch/<owner>/<order>/<int(max=99):number>")
def batch(owner: str, order: str, number: int) -> Response:
    """The record of a batch."""
    return sent({"owner": owner, "order": order, "number": number}, "batch")


@contextlib.contextmanager
def at_most() -> Iterator[None]:
    """Waits until few others are made at once."""
    if not AT_ONCE.acquire(timeout=60):
        raise Failure(text("Other papers are being made. Try again in a minute."))
    try:
        yield
    finally:
        AT_ONCE.release()


def sent(names: dict[str, object], kind: str) -> Response:
    """The file that is made. Few are made at once, because each takes a processor for seconds."""
    if faults := [
        fault for word in names.values() if isinstance(word, str) and kind != "labels" and (fault := name_fault(word))
    ]:
        raise Failure(faults[0], WRONG_USE)
    with at_most():
        file: Made = desk().making(person(), kind, names)
    response = flask.make_response(file.content)
    response.headers["Content-Type"] = file.kind
    response.headers["Content-Disposition"] = f'attachment; filename="{file.name}"'
    return response
