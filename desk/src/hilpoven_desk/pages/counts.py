"""Counting stock: what lies there is counted place by place, and differences are recorded with a reason."""
import flask
from flask import g, request
from hilpoven.core import meanings, roles
from hilpoven.core.failure import FAULT
from hilpoven.record.sheets import counting
from hilpoven.record.sheets.counting import Count, Difference, Outcome
from hilpoven.core.office import Answer as OfficeAnswer
from werkzeug.wrappers import Response

from ..web import Answer, BLANKS, desk, name_typed, person, reading, typed

PAGE = flask.Blueprint("counts", __name__)
COLUMNS = ("lot", "sublot", "on_hand", "counted", "reason")
MOST_ROWS = 200  # of a page
FIRST_ROW = 2  # of a sheet, behind its head


@PAGE.route("/count", methods=["GET", "POST"])
def count() -> Answer | Response:
    """What an owner has at a place, or of a material, to be counted; and what came of a count."""
    context, owner, place, material = (
        desk().working(person()),
        name_typed("owner"),
        name_typed("place"),
        name_typed("material"),
    )
    counted, recorded = None, list[tuple[Difference, OfficeAnswer, str]]()
    given = request.form if request.method == "POST" else g.kept
    rows = [row_of(owner, str(context.day()), cells) for cells in zip(*map(given.getlist, COLUMNS))]
    sent = {(row["lot"], row["sublot"]): row for row in rows}
    if request.method == "POST":
        roles.require(context, "count import")
        counted = counting.of_rows(context, rows, typed("meant") == "yes")
        if not counted.is_wrong:
            recorded = [(each, answer, meaning_of(answer)) for each, answer in counting.record(context, counted)]
            context.end()
            for each, answer, _ in recorded:
                if not answer.status:
                    sent.pop((each.record.values["lot"], each.record.values["sublot"]), None)
    with reading(context) as office:
        is_owner = owner in office.owners
        rows_there = office.stock(owner, place, material)[:MOST_ROWS] if is_owner else []
        template = flask.render_template(
            "count.html",
            owner=owner if is_owner else "",
            owners=office.owners,
            place=place,
            material=material,
            places=office.places,
            materials=office.fitting("receive", "MATERIAL", owner=owner) if is_owner else [],
            rows=rows_there,
            most=MOST_ROWS,
            counted=counted,
            recorded=recorded,
            sent=sent,
            faults=faults_of(counted, rows),
            same=counted.outcomes[Outcome.SAME] + counted.outcomes[Outcome.THERE] if counted else 0,
            is_open=is_open(counted),
        )
    return template, 200 if counted is None or not is_open(counted) else 409


def is_open(counted: Count | None) -> bool:
    """Whether something of a count isn't recorded."""
    return counted is not None and bool(counted.is_wrong or counted.refused or counted.fault)


def faults_of(counted: Count | None, rows: list[dict[str, str]]) -> dict[tuple[str, str], str]:
    """Why rows of a count are refused, by their lots and places."""
    refused = [(rows[each.row - FIRST_ROW], each.words) for each in (counted.refused if counted else [])]
    return {(row["lot"], row["sublot"]): words for row, words in refused}


def row_of(owner: str, day: str, cells: tuple[str, ...]) -> dict[str, str]:
    """A counted row as a sheet has it."""
    lot, sublot, on_hand, counted, reason = (cell.strip() for cell in cells)
    numbers = {"on_hand": BLANKS.sub("", on_hand), "counted": BLANKS.sub("", counted)}
    return {"owner": owner, "lot": lot, "sublot": sublot, **numbers, "reason": reason, "day": day}


def meaning_of(answer: OfficeAnswer) -> str:
    """What the office's answer means; empty if it is accepted."""
    if not answer.status:
        return ""
    word = meanings.refusal_in(answer.output)
    return meanings.meaning("refusals", word) if word else answer.error.strip() or str(FAULT)
