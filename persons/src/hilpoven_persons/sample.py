"""Persons at the page of the sample week of `hilpoven demo`, of each role, with passwords of this sample alone.

What nginx does at the site, which the sample hasn't, is done here: who asks is looked at by the same door.
"""
import contextlib
import json
import os
import secrets
from collections.abc import Callable, Iterator

import flask
from hilpoven.care.demo.site import JSON, KNOWN, OWNERS, Reply, Site, failure
from hilpoven.core import settings as site_settings
from hilpoven.core.context import Context
from hilpoven.core.rights import Person
from werkzeug.test import TestResponse

from . import passwords, people
from .door import application
from .people import OwnersPerson, Role
from .serving import door_of

PLACE = "/person"
OF_DOOR = ("/log-in", "/log-out")
COMPANION = "/companion"
OF_BROWSER = ("cookie", "toll-token", "origin", "sec-fetch-site")
OWNER = "ACME"
PERSONS = {"rita": Role.READS, "oscar": Role.ORDERS, "rosa": Role.RELEASES}
ADDRESS = "127.0.0.1"
OF_COOKIE = "Set-Cookie"


@contextlib.contextmanager
def shown(settings: str, site: Site) -> Iterator[list[str]]:
    """Lets persons log in at the page until the end of the block; what is told of them."""
    context = Context(site_settings.load(settings), person=Person(os.geteuid()))
    words = {name: secrets.token_hex(5) for name in PERSONS}
    with people.changed(context) as persons:
        for name, role in PERSONS.items():
            persons[name] = OwnersPerson(name, OWNER, role, passwords.secret_of(words[name]))
    site.persons = replies_of(site, application(door_of(context), lambda owner, paper: None))
    yield [
        f"hilpoven: persons of {OWNER}, who log in at the page by a name and a password of this sample:",
        *(f"  {name} {words[name]}   ({role.word})" for name, role in PERSONS.items()),
    ]


def replies_of(site: Site, door: flask.Flask) -> Callable[[str, str, dict[str, list[str]], bytes], Reply]:
    """What is replied to a request of a path behind `/person`, as nginx has it done."""

    def ask(path: str, method: str, fields: dict[str, str], body: bytes = b"") -> TestResponse:
        return door.test_client(use_cookies=False).open(path, method=method, headers=fields, data=body)

    def reply(method: str, target: str, fields: dict[str, list[str]], body: bytes) -> Reply:
        path = target.removeprefix(PLACE)
        if "?" in target or any(len(fields[name]) > 1 for name in fields):
            return failure(400, "BadRequest")
        sent = {name: fields[name][0] for name in (*OF_BROWSER, "host") if fields.get(name)}
        host = sent.pop("host", "")
        if sent.get("origin") == f"http://{host}":
            sent["origin"] = f"https://{host}"  # the sample has no TLS, which the door asks for
        sent |= {"toll-host": host, "toll-address": ADDRESS, "toll-method": method, "toll-path": path}
        if path in OF_DOOR:
            done = ask(path, method, sent, body)
            cookies = tuple((OF_COOKIE, value) for value in done.headers.getlist(OF_COOKIE))
            return Reply(done.status_code, JSON, done.data, cookies)
        who = ask("/who", "GET", sent)
        if who.status_code != 204:
            return Reply(who.status_code, JSON, json.dumps(who.get_json()).encode())
        own = {name: [who.headers[name]] for name in OWNERS}
        if path == COMPANION and COMPANION in site.owner_replies:
            return site.of_owner(method, path, own | {KNOWN: fields[KNOWN]})
        return site.of_office(method, path, own, body)

    return reply
