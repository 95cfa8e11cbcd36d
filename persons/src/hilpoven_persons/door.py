"""Who comes in: nginx asks before each request of a person whose it is, and hands on the owner's key if it may be.

All requests come from nginx, at a socket that nobody else may open, with these fields: `toll-method` and `toll-path` of
what goes to the office, byte for byte; `toll-host` and `toll-address`; and of the browser's its cookie, `toll-token`,
`origin` and `sec-fetch-site`. Nothing else of a browser's comes.
"""
import hmac
import logging
import re
import secrets
import threading
from dataclasses import dataclass, field
from typing import Any

import flask
from flask import request
from hilpoven.core import sessions
from hilpoven.core.delays import Delays, keys_of
from hilpoven.core.failure import Failure
from hilpoven.core.forms import NAME_LETTERS, name_fault
from hilpoven.core.sessions import Sessions
from werkzeug.exceptions import HTTPException

from . import passwords
from .owner_keys import KeptKeys
from .people import KeptPersons, OwnersPerson, Role
from .taking import Busy, Limits, Make, paper_of

COOKIE = "__Host-person"
MOST_BODY = 4 * 1_024  # bytes of a request
MOST_CHECKS = 4  # passwords that are looked at, at once: each takes 32 MB
NAME = f"[{NAME_LETTERS}]+"
# What each role may ask, which those behind it may, too. What isn't here nobody may.
ALLOWED = {
    Role.READS: re.compile("GET /.*"),
    Role.ORDERS: re.compile(f"POST /orders(/{NAME}/cancel)?"),
    Role.RELEASES: re.compile(f"POST /lots/{NAME}/(release|reject)"),
}
BY_ITSELF = "/companion"  # what a page asks each minute, so that nobody need do anything
FROM_HERE = ("same-origin", "none")  # where a browser says that a request comes from: the page, or a typed address
Answer = flask.Response | tuple[dict[str, Any], int]


@dataclass
class Session(sessions.Session):
    """A person at a browser, and what the password was checked by: with another one the session is over."""

    secret: str = field(default="", repr=False)


@dataclass
class Door:
    """What stands before an office: its persons and its owners' keys, who is logged in, and who guesses."""

    persons: KeptPersons
    keys: KeptKeys
    sessions: Sessions[Session] = field(default_factory=lambda: Sessions(Session))
    delays: Delays = field(default_factory=Delays)
    checks: threading.Semaphore = field(default_factory=lambda: threading.BoundedSemaphore(MOST_CHECKS))
    nobodys: str = field(default_factory=lambda: passwords.secret_of(secrets.token_urlsafe()))

    def has_password(self, name: str, password: str) -> OwnersPerson | None:
        """The person of a name, if it has this password. A name that is nobody's takes as long."""
        person = self.persons.now().get(name)
        is_right = passwords.is_right(password, person.secret if person else self.nobodys)
        return person if is_right else None

    def begin(self, person: OwnersPerson) -> tuple[str, Session]:
        """A new session of a person, with its name."""
        name, session = self.sessions.begin(person.name)
        session.secret = person.secret
        return name, session

    def person_of(self, name: str, token: str, is_use: bool) -> OwnersPerson | None:
        """The person of a session, by its name and its token; `None` if the session is over, or the person removed."""
        session = self.sessions.find(name, is_use) if name else None
        if session is None or not hmac.compare_digest(token.encode(errors="replace"), session.token.encode()):
            return None
        person = self.persons.now().get(session.login)
        if person is None or not hmac.compare_digest(person.secret, session.secret):
            self.sessions.end(name)
            return None
        return person


def may(role: Role, method: str, path: str) -> bool:
    """Whether a role may ask this of the office."""
    return any(role >= least and form.fullmatch(f"{method} {path}") for least, form in ALLOWED.items())


def application(door: Door, make: Make) -> flask.Flask:
    """What answers nginx, with what makes papers."""
    limits = Limits()
    app = flask.Flask(__name__, static_folder=None)
    app.config.update(MAX_CONTENT_LENGTH=MOST_BODY)
    app.add_url_rule("/who", "who", lambda: who(door))
    app.add_url_rule("/log-in", "log_in", lambda: log_in(door), methods=["POST"])
    app.add_url_rule("/log-out", "log_out", lambda: log_out(door), methods=["POST"])
    app.register_error_handler(Failure, of_failure)
    app.register_error_handler(HTTPException, of_wrong_request)
    app.register_error_handler(Exception, of_fault)
    app.add_url_rule("/papers/<path:_>", "take", lambda _: take(make, limits))
    return app


def refused(error: str, status: int, **members: Any) -> Answer:
    """A reply that says in a word what is wrong."""
    return {"error": error, **members}, status


def is_from_here() -> bool:
    """Whether a request comes from the site's own page, as far as the browser says. One that may change something has
    to say so."""
    if request.headers.get("sec-fetch-site", FROM_HERE[0]) not in FROM_HERE:
        return False
    origin, host = request.headers.get("origin", ""), request.headers.get("toll-host", "")
    is_reading = request.headers.get("toll-method") == "GET"
    return origin == f"https://{host}" or is_reading and not origin


def who(door: Door) -> Answer:
    """Whose request it is: the owner, its key and the person in fields, which nginx hands on; or why it may not be."""
    method, path = (request.headers.get(name, "") for name in ("toll-method", "toll-path"))
    token, name = request.headers.get("toll-token", ""), request.cookies.get(COOKIE, "")
    person = door.person_of(name, token, is_use=path != BY_ITSELF)
    if person is None or not (key := door.keys.of(person.owner)):
        return refused("LogIn", 401)
    if not is_from_here() or not may(person.role, method, path):
        return refused("NotAllowed", 403)
    fields = {"toll-owner": person.owner, "toll-person": person.name, "toll-key": key}
    return flask.Response(status=204, headers=fields)


def take(make: Make, limits: Limits) -> Answer:
    """A paper of the owner that nginx names, which is that of the session or of the key."""
    owner, paper = request.headers.get("toll-owner", ""), paper_of(request.path)
    if name_fault(owner):
        return refused("NotAllowed", 403)
    if request.method != "GET":
        return refused("MethodNotAllowed", 405)
    try:
        with limits.held(owner):
            content = make(owner, paper) if paper else None
    except Busy:
        response = flask.jsonify({"error": "TooManyRequests"})
        response.headers["Retry-After"] = "5"
        response.status_code = 429
        return response
    if paper is None or content is None:
        return refused("NoPaper", 404)
    name = f'attachment; filename="{paper.file_name(owner)}"'
    return flask.Response(content, mimetype="application/pdf", headers={"Content-Disposition": name})


def log_in(door: Door) -> Answer:
    """Logs a person in: sets the cookie, and gives the token, the owner and what the person may do."""
    if not is_from_here():
        return refused("NotAllowed", 403)
    try:
        sent = request.get_json(force=True, silent=True)
    except RecursionError:  # of lists within lists
        sent = None
    name, password = (sent.get(each) for each in ("name", "password")) if isinstance(sent, dict) else (None, None)
    if not isinstance(name, str) or not isinstance(password, str):
        return refused("BadRequest", 400)
    tries = keys_of(name, request.headers.get("toll-address", ""))
    if (left := door.delays.begin(tries)) > 0:
        return refused("Wait", 429, seconds=int(left) + 1)
    if not door.checks.acquire(blocking=False):
        door.delays.take_back(tries)
        return refused("Unavailable", 503)
    try:
        person = door.has_password(name, password[: passwords.MOST + 1])
    except Failure:
        door.delays.take_back(tries)
        raise
    finally:
        door.checks.release()
    if person is None:
        return refused("Wrong", 401)
    door.delays.take_back(tries)
    if door.keys.of(person.owner) is None:
        return refused("Wrong", 401)
    door.sessions.end(request.cookies.get(COOKIE, ""))
    session_name, session = door.begin(person)
    value = {"owner": person.owner, "name": person.name, "role": person.role.word, "token": session.token}
    response = flask.jsonify(value)
    response.set_cookie(COOKIE, session_name, secure=True, httponly=True, samesite="Strict", path="/")
    return response


def log_out(door: Door) -> Answer:
    """Ends the session of this browser."""
    if not is_from_here():
        return refused("NotAllowed", 403)
    door.sessions.end(request.cookies.get(COOKIE, ""))
    response = flask.jsonify({})
    response.delete_cookie(COOKIE, secure=True, httponly=True, samesite="Strict", path="/")
    return response


def of_failure(failure: Failure) -> Answer:
    """What can't be done now, of which the log has the reason."""
    logging.getLogger(__name__).error("%s", failure.message)
    return refused("Unavailable", 503)


def of_wrong_request(error: HTTPException) -> Answer:
    """What isn't there, or can't be read."""
    known = {404: "NoRoute", 405: "MethodNotAllowed", 413: "TooLarge"}
    status = error.code if error.code in known else 400
    return refused(known.get(status, "BadRequest"), status)


def of_fault(error: Exception) -> Answer:
    """A fault, of which the log has the text, and the browser nothing."""
    logging.getLogger(__name__).error("a request failed", exc_info=error)
    return refused("Unavailable", 503)
