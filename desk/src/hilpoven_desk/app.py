"""The application: which request is answered, with which fields, and by which page."""
import hmac

import flask
from flask import g, request
from hilpoven.core.failure import FAULT, Failure
from werkzeug.exceptions import HTTPException

from .language import LANGUAGES, Reader, best
from .pages import ALL
from .pages.entrance import log_in_page
from .reading import HELD
from .recording import lines_of
from .web import LANGUAGE_COOKIE, Answer, Desk, allows, answers_typed, fields_kept, fields_to_keep, new_slip, page_asked
from .web import reader

MOST_BODY = 256 * 1_024  # bytes of a request
FORM = "application/x-www-form-urlencoded"  # what browsers send of these pages
POLICY = "; ".join(
    (
        "default-src 'none'",
        "script-src 'self'",
        "style-src 'self'",
        "img-src 'self'",
        "connect-src 'self'",
        "base-uri 'none'",
        "form-action 'self'",
        "frame-ancestors 'none'",
        "require-trusted-types-for 'script'",
        "trusted-types 'none'",
    )
)
FIELDS = {
    "Content-Security-Policy": POLICY,
    "X-Content-Type-Options": "nosniff",
    "Referrer-Policy": "same-origin",  # with `no-referrer` a browser says of no form where it comes from
    "Cross-Origin-Opener-Policy": "same-origin",
    "Cross-Origin-Resource-Policy": "same-origin",
    "Permissions-Policy": "camera=(), microphone=(), geolocation=()",
}
OPEN = {"static", "entrance.log_in", "entrance.choose_language"}  # what is answered without a session


def application(desk: Desk) -> flask.Flask:
    """The screens of a desk."""
    app = flask.Flask(__name__)
    app.extensions["desk"] = desk
    app.config.update(MAX_CONTENT_LENGTH=MOST_BODY)
    app.jinja_env.add_extension("jinja2.ext.i18n")
    app.jinja_env.install_gettext_callables(
        lambda name: reader().catalog.gettext(name),
        lambda one, many, count: reader().catalog.ngettext(one, many, count),
        newstyle=True,
    )
    app.jinja_env.trim_blocks = app.jinja_env.lstrip_blocks = True
    app.jinja_env.globals.update(
        LANGUAGES=LANGUAGES, HELD=HELD, allows=allows, answers_typed=answers_typed, slip=new_slip, reader=reader
    )
    app.before_request(begin)
    app.after_request(with_fields)
    app.register_error_handler(Failure, of_failure)
    app.register_error_handler(HTTPException, of_wrong_request)
    app.register_error_handler(Exception, of_fault)
    for page in ALL:
        app.register_blueprint(page)
    return app


def begin() -> Answer | None:
    """Finds out who asks, and stops what comes from elsewhere."""
    desk: Desk = flask.current_app.extensions["desk"]
    accepted = request.accept_languages.best_match(list(LANGUAGES))
    g.reader = Reader(best(request.cookies.get(LANGUAGE_COOKIE, ""), accepted))
    g.session = g.person = None
    if request.host != desk.host:
        return failed(g.reader.text("This isn't the address of the screens."), 421)
    if request.method == "POST" and request.headers.get("Origin", "") != desk.origin:
        return failed(g.reader.text("This form isn't from these screens. Open the page again."), 403)
    if request.method == "POST" and request.mimetype != FORM:
        return failed(g.reader.text("This can't be read."), 415)
    name = request.cookies.get(desk.cookie, "")
    if name and (session := desk.sessions.find(name)):
        g.person = desk.accounts.person(session.login)  # whoever left the group has no session from now on
        if g.person:
            g.session = session
        else:
            desk.sessions.end(name)
    g.kept = fields_kept()
    if request.endpoint in OPEN:
        return None
    if g.session is None:
        why = g.reader.text("You were logged out. What you typed is kept: log in, and send it again.")
        return log_in_page(why if request.method == "POST" else "", fields_to_keep(), page_asked())
    if request.method == "POST" and not hmac.compare_digest(token_sent(), g.session.token.encode()):
        return failed(g.reader.text("This form isn't from these screens. Open the page again."), 403)
    return None


def token_sent() -> bytes:
    """The token that a form carries."""
    return request.form.get("token", "").encode(errors="replace")


def with_fields(response: flask.Response) -> flask.Response:
    """An answer with the fields of each. Browsers keep no page, and ask each time whether a file is current."""
    for name, value in FIELDS.items():
        response.headers[name] = value
    response.headers["Cache-Control"] = "no-cache" if request.endpoint == "static" else "no-store"
    return response


def failed(why: str, status: int, *advice: str) -> Answer:
    """A page that says what can't be done."""
    return flask.render_template("failed.html", why=why, advice=advice), status


def of_failure(failure: Failure) -> Answer:
    """What can't be done."""
    why, *advice = lines_of(failure)
    return failed(why, 503 if failure.exit_code == FAULT else 409, *(line for line in advice if "`" not in line))


def of_wrong_request(error: HTTPException) -> Answer:
    """What isn't there, or isn't allowed."""
    texts = {
        404: reader().text("There is no such page."),
        405: reader().text("There is no such page."),
        413: reader().text("That is too much."),
    }
    return failed(texts.get(error.code or 0, reader().text("This can't be read.")), error.code or 500)


def of_fault(error: Exception) -> Answer:
    """A fault, of which the log has the text, and the page nothing."""
    flask.current_app.logger.error("a page failed", exc_info=error)
    why = "Something failed here. The page of the lot or the batch shows whether it was recorded."
    return failed(reader().text(why), 500)
