"""Shipping: the label first, then to whom and how much. Nothing of it is filled in beforehand."""
from collections.abc import Iterator, Mapping

import flask
from flask import url_for
from hilpoven.model.kinds import Role
from hilpoven.model.rows import LotId
from hilpoven.model.schema import Kind
from werkzeug.wrappers import Response

from ..reading import Card, Reading
from ..usual import Usual
from ..web import Answer, day_typed, desk, done, form_key, label_in, name_typed, number_typed, page, person, reader
from ..web import reading, record, text, typed, values_of_form
from .receipts import shown_of

PAGE = flask.Blueprint("shipments", __name__)


@PAGE.route("/ship", methods=["GET", "POST"])
def ship() -> Answer | Response:
    """A shipment."""
    context, outcome = desk().working(person()), None
    values = values_of_form(key=form_key(context), day=reader().day_in_field(context.day()))
    scan = values.get("scan", "").upper()
    label = label_in(scan)
    if flask.request.method == "POST" and label:
        line = {
            "OWNER": label[0].owner,
            "KEY": name_typed("key"),
            "LOT": label[0].name,
            "SUBLOT": label[1],
            "AMOUNT": number_typed("amount"),
            "DAY": day_typed(context),
        }
        noted = {"party": name_typed("party"), "document": typed("document")}
        outcome = record("ship", line, noted, doubts=lambda office: unusual(office, line, noted["party"]))
        if outcome.is_done:
            summary = text(
                "%(amount)s of lot %(lot)s shipped to %(party)s", party=name_typed("party") or "?", **shown_of(line)
            )
            correction = text("Wrong? What comes back is received into a new lot, as a return.")
            return done(outcome, summary, url_for("shipments.ship"), correction)
    with reading(context) as office:
        card = office.card(label[0]) if label else None
        return page(
            "ship.html",
            outcome,
            values=values,
            scan=scan,
            card=card,
            amounts=amounts_of(usual_of(card), card.sublots.get(label[1], 0)) if label and card else [],
            sublot=label[1] if label else "",
            choices=[] if label or not scan else office.sublots_called(scan),
            parties=office.parties(label[0].owner, Role.CUSTOMER) if label else [],
            is_required=context.settings.require.recipient,
        )


def usual_of(card: Card) -> Usual:
    """What earlier shipments of a lot's material were like."""
    return Usual(card.reading, reader(), Kind.SHIP, card.lot.id.owner, card.lot.id.owner, card.lot.material)


def amounts_of(usual: Usual, on_hand: int) -> list[int]:
    """The amounts that are offered: usual ones that there are, and all."""
    return list(
        dict.fromkeys([*(amount for amount in usual.amounts if amount < on_hand), *([on_hand] if on_hand else [])])
    )


def unusual(office: Reading, line: Mapping[str, str], party: str) -> Iterator[str]:
    """What of a shipment is unusual."""
    usual = usual_of(office.card(LotId(line["OWNER"], line["LOT"])))
    yield from usual.of_party(party)
    yield from usual.of_amount(line["AMOUNT"])
