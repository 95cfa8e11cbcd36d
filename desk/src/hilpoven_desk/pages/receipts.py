"""Receiving: whose it is and what first, then the rest."""
from collections.abc import Iterator, Mapping

import flask
from flask import url_for
from hilpoven.model.kinds import Role
from hilpoven.model.schema import Kind
from werkzeug.wrappers import Response

from ..reading import Reading
from ..usual import Usual
from ..web import Answer, day_typed, desk, done, form_key, label_in, name_typed, number_typed, page, person, reader
from ..web import reading, record, text, typed, values_of_form

PAGE = flask.Blueprint("receipts", __name__)


@PAGE.route("/receive", methods=["GET", "POST"])
def receive() -> Answer | Response:
    """A receipt."""
    context, outcome = desk().working(person()), None
    values = values_of_form(key=form_key(context), day=reader().day_in_field(context.day()))
    if flask.request.method == "POST":
        label = label_in(typed("lot"))
        line = {
            "OWNER": name_typed("owner"),
            "KEY": name_typed("key"),
            "MATERIAL": name_typed("material"),
            "LOT": label[0].name if label else name_typed("lot"),
            "SUBLOT": name_typed("sublot") or (label[1] if label else ""),
            "AMOUNT": number_typed("amount"),
            "DAY": day_typed(context),
        }
        noted = {name: typed(name) for name in ("party", "supplier_lot", "document")}
        outcome = record("receive", line, noted, doubts=lambda office: unusual(office, line, noted["party"]))
        if outcome.is_done:
            summary = text("%(amount)s of %(material)s received into lot %(lot)s at %(place)s", **shown_of(line))
            to = url_for("lots.lot", owner=line["OWNER"], name=line["LOT"])
            return done(outcome, summary, to, text("Wrong? Scrap what is too much, or receive what is missing."))
    with reading(context) as office:
        owner, material = values.get("owner", "").upper(), values.get("material", "").upper()
        is_owner = owner in office.owners
        return page(
            "receive.html",
            outcome,
            values={**values, "owner": owner if is_owner else "", "material": material},
            usual=usual_of(office, owner, material),
            owners=office.owners,
            materials=office.fitting("receive", "MATERIAL", owner=owner) if is_owner else [],
            lots=office.fitting("receive", "LOT", owner=owner, material=material) if is_owner else [],
            places=office.places,
            parties=office.parties(owner, Role.SUPPLIER) if is_owner else [],
        )


def usual_of(office: Reading, owner: str, material: str) -> Usual:
    """What earlier receipts of a material were like."""
    return Usual(office, reader(), Kind.RECEIVE, owner, owner, material)


def unusual(office: Reading, line: Mapping[str, str], party: str) -> Iterator[str]:
    """What of a receipt is unusual."""
    usual = usual_of(office, line["OWNER"], line["MATERIAL"])
    yield from usual.of_lot(line["LOT"])
    yield from usual.of_place(line["SUBLOT"])
    yield from usual.of_amount(line["AMOUNT"])
    yield from usual.of_party(party)


def shown_of(line: dict[str, str]) -> dict[str, str]:
    """The values of a line as a notice shows them."""
    amount = line.get("AMOUNT", "")
    return {
        "amount": reader().number(int(amount)) if amount.isdecimal() else amount,
        "material": line.get("MATERIAL", ""),
        "lot": line.get("LOT", ""),
        "place": line.get("SUBLOT", ""),
        "target": line.get("TARGET", ""),
    }
