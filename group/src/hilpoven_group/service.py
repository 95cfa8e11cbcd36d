"""The question service: pages for the group's quality people and for companies.

It answers fixed questions, all of them GET. Each request has a login and its secret, by HTTP's Basic scheme, which a
proxy with TLS passes on; logins are the group's, and no owner's key of an office. The service looks a login up as the
role hg_service, which may do nothing else, and asks as the role of the login on a connection of its own, so nothing
that a question does reaches the rows of others.
"""
import json
import sys
from collections.abc import Callable, Mapping
from dataclasses import dataclass
from typing import Any, NamedTuple

from flask import Flask, Response, render_template_string, request

from hilpoven.core.failure import WRONG_USE, Failure, printable
from hilpoven.core.table import Row, formatted
from hilpoven.model.genealogy import BACK, FORWARD

from . import database, recalls
from .database import Connection
from .members import SERVICE
from .settings import PATH, Group
from .tables import TABLES

MOST_LETTERS = 64  # of a value
TIMEOUT = "30s"  # of a question
HEADERS = {
    "Cache-Control": "no-store",
    "Content-Security-Policy": "default-src 'none'; form-action 'self'; frame-ancestors 'none'; base-uri 'none'",
    "Referrer-Policy": "no-referrer",
    "X-Content-Type-Options": "nosniff",
}
HEADS = "SELECT file, tbl, owner, n, encode(head, 'hex') FROM hg.computed_heads(NULL) WHERE n > 0"
PAGE = """<!doctype html>
<html lang="en"><meta charset="utf-8"><title>{{ title }}</title>
<h1>{{ title }}</h1>
<nav><a href="/">recall</a> <a href="/ends">ends</a> <a href="/status">status</a> <a href="/heads">heads</a></nav>
{% if form %}<form action="/recall"><label>Office <input name="office" required></label>
<label>Owner <input name="owner" required></label> <label>Lot <input name="lot" required></label>
<select name="way"><option value="forward">what it went into</option><option value="back">what it was made of</option>
</select> <button>Recall</button></form>{% endif %}
{% for table in tables %}<h2>{{ table.title }}</h2>{% if table.rows %}<table>
<tr>{% for name in table.columns %}<th>{{ name }}</th>{% endfor %}</tr>
{% for row in table.rows %}<tr>{% for cell in row %}<td>{{ show(cell) }}</td>{% endfor %}</tr>
{% endfor %}</table>{% else %}<p>none</p>{% endif %}{% endfor %}
<p>{{ foot }}</p></html>
"""


class Shown(NamedTuple):
    """A table of an answer."""

    title: str
    columns: list[str]
    rows: list[Row]


@dataclass(frozen=True)
class Answer:
    """What a question gives: tables, and which office's rows are oldest."""

    title: str
    tables: list[Shown]
    foot: str


def recall(base: Connection, values: Mapping[str, str]) -> Answer:
    """The lots of a recall, and who got them."""
    way, tables = values.get("way") or FORWARD, list[Shown]()
    if way not in (FORWARD, BACK):
        raise Failure("way is forward or back", WRONG_USE)
    office, owner, lot = (values.get(name, "") for name in ("office", "owner", "lot"))
    for start in recalls.lots_named(base, office, owner, lot):
        traced = recalls.trace(base, start, way)
        tables.append(Shown(f"{office} {owner} {lot}", recalls.COLUMNS, recalls.lines(base, traced)))
        if way == FORWARD:
            tables.append(Shown("Shipments", recalls.SHIPMENT_COLUMNS, recalls.shipments(base, traced)))
    return Answer("Recall", tables, recalls.age_line(base))


def ends(base: Connection, _: Mapping[str, str]) -> Answer:
    """Where a recall may end too early."""
    return Answer("Ends", [Shown("Ends", recalls.END_COLUMNS, recalls.ends(base))], recalls.age_line(base))


def status(base: Connection, _: Mapping[str, str]) -> Answer:
    """How old each office's rows are."""
    return Answer("Status", [Shown("Offices", ["office", "as_of", "seconds"], recalls.ages(base))], "")


def heads(base: Connection, _: Mapping[str, str]) -> Answer:
    """The heads of the rows that whoever asks may see, computed of these rows."""
    rows: list[Row] = [(row[0], TABLES[row[1]].name, *row[2:]) for row in database.rows(base, HEADS)]
    return Answer("Heads", [Shown("Heads", ["file", "table", "owner", "rows", "head"], rows)], recalls.age_line(base))


QUESTIONS: dict[str, Callable[[Connection, Mapping[str, str]], Answer]] = {
    "recall": recall,
    "ends": ends,
    "status": status,
    "heads": heads,
}


def role_of(group: Group, login: str | None, secret: str | None) -> str | None:
    """As which role a login with a secret asks; `None` if there is none such."""
    if not login or not secret or not is_plain(login) or not is_plain(secret):
        return None
    with database.opened(group.database, SERVICE, is_read_only=True) as base:
        role: str | None = database.value(base, "SELECT hg.role_of(%s, %s)", (login, secret.encode()))
        return role


def is_plain(text: str) -> bool:
    """Whether a value of a request may be asked for."""
    return len(text) <= MOST_LETTERS and text.isprintable()


def application(group: Group) -> Flask:
    """The service over a group's database."""
    app = Flask(__name__, static_folder=None)

    def answered(name: str) -> Response:
        given = request.authorization
        role = role_of(group, given.username, given.password) if given and given.type == "basic" else None
        if role is None:
            return Response("a login of the group is needed\n", 401, {"WWW-Authenticate": 'Basic realm="group"'})
        values = request.args.to_dict()
        print(printable(f"{given.username if given else ''} {name} {values}"), file=sys.stderr, flush=True)
        if not all(map(is_plain, values.values())):
            return Response("a value is too long, or no text\n", 400)
        if name == "":
            return Response(page("Recall", Answer("Recall", [], ""), form=True), mimetype="text/html")
        with database.opened(group.database, role, is_read_only=True) as base:
            database.run(base, f"SET LOCAL statement_timeout = '{TIMEOUT}'")
            answer = QUESTIONS[name](base, values)
        if values.get("form") == "json":
            tables = {table.title: [dict(zip(table.columns, row)) for row in table.rows] for table in answer.tables}
            return Response(json.dumps({"tables": tables, "foot": answer.foot}), mimetype="application/json")
        return Response(page(answer.title, answer, form=name == "recall"), mimetype="text/html")

    for name in ("", *QUESTIONS):
        app.add_url_rule(f"/{name}", name or "home", answered, methods=["GET"], defaults={"name": name})

    @app.errorhandler(Failure)
    def failed(failure: Failure) -> Response:
        status = {WRONG_USE: 400, 1: 404}.get(failure.exit_code, 503)
        text = failure.message if status != 503 else "the group's database can't be asked"
        return Response(f"{printable(text)}\n", status, mimetype="text/plain")

    @app.after_request
    def closed(response: Response) -> Response:
        response.headers.update(HEADERS)
        return response

    return app


def page(title: str, answer: Answer, form: bool) -> str:
    """A page, in which each value is escaped."""
    words: dict[str, Any] = {"title": title, "tables": answer.tables, "foot": answer.foot, "form": form}
    return render_template_string(PAGE, show=formatted, **words)


def serve(group: Group) -> None:
    """Answers until a signal ends it."""
    import waitress

    if "user" in database.parsed(group.database):
        raise Failure(f"{PATH}: database names a user, and the service asks as many", WRONG_USE)
    waitress.serve(application(group), listen=group.listen, threads=8, ident=None, max_request_header_size=16_384)
