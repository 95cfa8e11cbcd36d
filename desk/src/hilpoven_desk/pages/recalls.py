"""Recalling: where a lot went, where that lies, and who has it."""
import flask
from hilpoven.model.rows import LotId

from ..web import Answer, desk, label_in, name_typed, page, person, reading, values_of_form

PAGE = flask.Blueprint("recalls", __name__)


@PAGE.get("/recall")
def recall() -> Answer:
    """Where a lot went. Who was shown it is noted, as of a paper."""
    word, context, values = name_typed("q"), desk().working(person()), values_of_form()
    label = label_in(word)
    with reading(context) as office:
        lots = office.lots_called(word) if word and not label else []
        noted = office.lots_noted(word) if word and not label and not lots else []
        lot = label[0] if label else lots[0].id if len(lots) == 1 else None
        if lot is None:
            return page(
                "recall.html", q=word, values=values, lots=lots, noted=noted, report=None, card=None, state=office.state
            )
        card, report = office.card(lot), office.recall(lot)
        context.office_to_export("desk", "recall", *lot)
        return page("recall.html", q=word, values=values, lots=[], noted=[], report=report, card=card, LotId=LotId)
