"""Logging in and out, and the language."""
import flask
from flask import redirect, request
from werkzeug.wrappers import Response

from ..language import LANGUAGES
from ..sessions import Fields
from ..web import LANGUAGE_COOKIE, MOST_TEXT, Answer, desk, password_fault

PAGE = flask.Blueprint("entrance", __name__)
KEPT = "kept."  # in front of the fields of a form that was sent without a session
START = "/"
YEAR = 31_536_000  # seconds


def log_in_page(why: str = "", kept: Fields | None = None, to: str = START) -> Answer:
    """The form to log in, with the fields of a form that isn't lost."""
    status = 401 if why else 200
    return flask.render_template("log_in.html", why=why, kept=kept or [], to=path_of(to), login=""), status


def path_of(word: str) -> str:
    """A path of these screens; the start where a word is none, or leads elsewhere."""
    is_own = word.startswith("/") and not word.startswith("//") and "\\" not in word and word.isprintable()
    return word.rstrip("?") if is_own and len(word) <= MOST_TEXT else START


@PAGE.route("/login", methods=["GET", "POST"])
def log_in() -> Answer | Response:
    """Logs a person in."""
    if request.method == "GET":
        return log_in_page(to=request.args.get("to", START))
    login, to = request.form.get("login", "").strip(), path_of(request.form.get("to", START))
    sent = request.form.items(multi=True)
    kept = [(name[len(KEPT) :], value[:MOST_TEXT]) for name, value in sent if name.startswith(KEPT)]
    if why := password_fault(login, request.form.get("password", "")):
        return flask.render_template("log_in.html", why=why, kept=kept, to=to, login=login[:MOST_TEXT]), 401
    desk().sessions.end(request.cookies.get(desk().cookie, ""))
    name, session = desk().sessions.begin(login)
    if kept:
        session.kept[to.partition("?")[0]] = kept
    response = redirect(to, 303)
    response.set_cookie(desk().cookie, name, secure=desk().is_secure, httponly=True, samesite="Strict", path="/")
    return response


@PAGE.post("/logout")
def log_out() -> Response:
    """Ends the session, and what the browser keeps of it."""
    desk().sessions.end(request.cookies.get(desk().cookie, ""))
    response = redirect("/login", 303)
    response.headers["Clear-Site-Data"] = '"cache", "storage"'
    response.delete_cookie(desk().cookie, secure=desk().is_secure, httponly=True, samesite="Strict", path="/")
    return response


@PAGE.post("/language")
def choose_language() -> Response:
    """Chooses the language of this browser, for a year."""
    response = redirect(path_of(request.form.get("to", START)), 303)
    named = request.form.get("language", "")
    if named in LANGUAGES:
        response.set_cookie(
            LANGUAGE_COOKIE, named, YEAR, secure=desk().is_secure, httponly=True, samesite="Strict", path="/"
        )
    return response
