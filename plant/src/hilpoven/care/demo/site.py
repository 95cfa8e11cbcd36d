"""The owner's page and the interface at a port of 127.0.0.1, for a sample alone.

It has the fields that the site for owners sets, and none of what holds strangers up: TLS, limits, delays and logs.
"""
import http.client
import json
import os
from collections.abc import Callable
from dataclasses import dataclass, field
from http.server import BaseHTTPRequestHandler
from socketserver import ThreadingTCPServer
from typing import NamedTuple

from ...core import settings as site
from ...core.failure import WRONG_USE, Failure

PAGES = (f"{site.CHECKOUT}/page", f"{site.CHECKOUT}/toll/page", "/usr/share/toll/page")  # of a clone, or installed
CONTRACT = ("openapi.yaml", "http.md", "commands.md")  # beside the page, where it is installed
NO_PART_OF_THE_PAGE = ("tests", "package.json")
POLICY = "; ".join(
    (
        "default-src 'none'",
        "script-src 'self'",
        "style-src 'self'",
        "img-src 'self'",
        "connect-src 'self'",
        "base-uri 'none'",
        "form-action 'none'",
        "frame-ancestors 'none'",
        "require-trusted-types-for 'script'",
        "trusted-types 'none'",
    )
)
FIELDS = {
    "Content-Security-Policy": POLICY,
    "X-Content-Type-Options": "nosniff",
    "Referrer-Policy": "no-referrer",
    "Cross-Origin-Opener-Policy": "same-origin",
    "Cross-Origin-Resource-Policy": "same-origin",
}
PLAIN = "text/plain; charset=utf-8"
TYPES = {
    ".html": "text/html; charset=utf-8",
    ".css": "text/css; charset=utf-8",
    ".js": "application/javascript; charset=utf-8",
    ".svg": "image/svg+xml",
}
JSON = "application/json"
MOST_BODY = 4_096  # bytes, as at the site
PATIENCE = 60  # seconds for a reply of the office
SILENCE = 10  # seconds within which a client sends its request
OWNERS = ("toll-owner", "toll-key")  # the fields of an owner
KNOWN = "if-none-match"  # the field with the tag of what a client has
OF_PERSONS = ("cookie", "toll-token", "origin", "sec-fetch-site", "host")  # the fields of owners' people


class Reply(NamedTuple):
    """A reply to a client: its status, the type of its body, the body, and further fields."""

    status: int
    kind: str
    body: bytes
    fields: tuple[tuple[str, str], ...] = ()


def failure(status: int, word: str, *fields: tuple[str, str]) -> Reply:
    """A reply of the site's own, in the form of the office's."""
    return Reply(status, JSON, json.dumps({"error": word}, separators=(",", ":")).encode(), fields)


def redirect(status: int) -> Reply:
    """A reply that leads to the page."""
    return Reply(status, PLAIN, b"", (("Location", "/owner/"),))


def page_files() -> dict[str, str]:
    """The files of the page, by their paths at the site."""
    folder = next((candidate for candidate in PAGES if os.path.isfile(f"{candidate}/index.html")), "")
    if not folder:
        raise Failure("the owner's page isn't here", WRONG_USE, f"it is looked for in {', '.join(PAGES)}")
    files = {"/owner/": f"{folder}/index.html"}
    for parent, folders, names in os.walk(folder):
        folders[:] = [name for name in folders if name not in NO_PART_OF_THE_PAGE]
        below = os.path.relpath(parent, folder).removeprefix(".")
        shown = [name for name in names if name not in NO_PART_OF_THE_PAGE]
        files |= {"/".join(filter(None, ("/owner", below, name))): f"{parent}/{name}" for name in shown}
    documents = {f"/owner/{document}": f"{site.CHECKOUT}/docs/{document}" for document in CONTRACT}
    return {**{path: file for path, file in documents.items() if os.path.isfile(file)}, **files}


@dataclass
class Site:
    """What is answered: the page's files, the office's replies, and what else stands at a path of its own."""

    office: int  # the port of its server
    files: dict[str, str] = field(default_factory=page_files)
    # what else an owner gets whose key is right: by its name, and the tag of what it has
    owner_replies: dict[str, Callable[[str, str], Reply]] = field(default_factory=dict)
    # what owners' people get, where a package has them: by the method, the path, fields and the body
    persons: Callable[[str, str, dict[str, list[str]], bytes], Reply] | None = None

    def reply(self, method: str, target: str, fields: dict[str, list[str]], body: bytes) -> Reply:
        """The reply to a request."""
        path = target.partition("?")[0]
        if path in ("/", "/owner"):
            return redirect(302 if path == "/" else 301)
        if path == "/owner/settings.json":
            parts = {"persons": True} if self.persons else {}
            return Reply(200, JSON, json.dumps({"idle_minutes": 0} | parts).encode())
        if path.startswith("/owner/"):
            return self.file_at(path) if method in ("GET", "HEAD") else failure(405, "MethodNotAllowed")
        if self.persons and path.startswith("/person/"):
            return self.persons(method, target, fields, body)
        if path in self.owner_replies:
            return self.of_owner(method, path, fields)
        return self.of_office(method, target, fields, body)

    def of_owner(self, method: str, path: str, fields: dict[str, list[str]]) -> Reply:
        """What else an owner gets, if the office takes its key."""
        if method != "GET":
            return failure(405, "MethodNotAllowed", ("Allow", "GET"))
        known = self.of_office("GET", "/orders", fields, b"")
        owner, tags = fields[OWNERS[0]], fields[KNOWN]
        return known if known.status != 200 else self.owner_replies[path](owner[0].strip(), tags[0] if tags else "")

    def file_at(self, path: str) -> Reply:
        """A file of the page."""
        if path not in self.files:
            return failure(404, "NoRoute")
        with open(self.files[path], "rb") as file:
            return Reply(200, TYPES.get(os.path.splitext(self.files[path])[1], PLAIN), file.read())

    def of_office(self, method: str, target: str, fields: dict[str, list[str]], body: bytes) -> Reply:
        """What the office replies to a request, of which it gets the fields of an owner."""
        peer = http.client.HTTPConnection("127.0.0.1", self.office, timeout=PATIENCE)
        try:
            peer.putrequest(method, target, skip_accept_encoding=True)
            for name in OWNERS:
                for value in fields.get(name, []):
                    peer.putheader(name, value)
            peer.putheader("content-length", str(len(body)))
            peer.endheaders(body)
            reply = peer.getresponse()
            allowed = reply.getheader("allow")
            kind, headers = reply.getheader("content-type", PLAIN), (("Allow", allowed),) if allowed else ()
            return Reply(reply.status, kind, reply.read(), headers)
        except (http.client.InvalidURL, ValueError):
            return failure(400, "BadRequest")
        except (http.client.HTTPException, OSError):
            return failure(502, "Unavailable", ("Retry-After", "1"))
        finally:
            peer.close()


class Handler(BaseHTTPRequestHandler):
    """A client of the site."""

    server: "Listener"
    protocol_version = "HTTP/1.1"
    timeout = SILENCE

    def answer(self) -> None:
        """Reads a request, and sends its reply."""
        reply = self.reply()
        self.send_response(reply.status)
        fields = {**FIELDS, "Content-Type": reply.kind, "Content-Length": str(len(reply.body))}
        is_page = self.path.startswith("/owner/")
        for name, value in {**fields, "Cache-Control": "no-cache" if is_page else "no-store"}.items():
            self.send_header(name, value)
        for name, value in reply.fields:
            self.send_header(name, value)
        self.end_headers()
        if self.command != "HEAD":
            self.wfile.write(reply.body)

    do_GET = do_HEAD = do_POST = do_PUT = do_PATCH = do_DELETE = do_OPTIONS = answer

    def reply(self) -> Reply:
        """The reply to the request; one for another host, or whose body can't be read, ends the connection."""
        length = self.headers.get("Content-Length", "0")
        self.close_connection = True
        if self.headers.get("Host") not in self.server.hosts:
            return failure(421, "UnknownHost")
        if "Transfer-Encoding" in self.headers or not (length.isascii() and length.isdecimal()):
            return failure(400, "BadRequest")
        if int(length) > MOST_BODY:
            return failure(413, "TooLarge")
        body = self.rfile.read(int(length))
        self.close_connection = len(body) < int(length) or self.headers.get("Connection", "").lower() == "close"
        fields: dict[str, list[str]] = {name: self.headers.get_all(name, []) for name in (*OWNERS, KNOWN, *OF_PERSONS)}
        return self.server.site.reply(self.command, self.path, fields, body)

    def version_string(self) -> str:
        """What the site calls itself."""
        return "hilpoven"

    def log_message(self, format: str, *args: object) -> None:
        """Logs nothing."""


class Listener(ThreadingTCPServer):
    """The site at a port, each client in a thread of its own."""

    allow_reuse_address = daemon_threads = True
    request_queue_size = 128

    def __init__(self, site: Site, port: int, now_and_then: Callable[[], None]) -> None:
        try:
            super().__init__(("127.0.0.1", port), Handler)
        except OSError as error:
            raise Failure(
                f"nothing can listen at port {port}: {error.strerror}", WRONG_USE, "--port names another"
            ) from error
        self.site, self.port = site, self.socket.getsockname()[1]
        self.now_and_then = now_and_then
        self.hosts = {f"{name}:{self.port}" for name in ("127.0.0.1", "localhost")}

    def service_actions(self) -> None:
        """Does what is to be done now and then, in the thread that listens."""
        self.now_and_then()

    def handle_error(self, request: object, client_address: object) -> None:
        """Says nothing of a client that went away."""
