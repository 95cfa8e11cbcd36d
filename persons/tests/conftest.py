"""What the tests of persons share: an office of three owners with people, its server, the persons' service, and the real
nginx in front of them, which browsers ask."""
import contextlib
import itertools
import json
import os
import pathlib
import subprocess
import sys
import threading
from collections.abc import Iterator
from typing import Any, NamedTuple

import pytest

ROOT = pathlib.Path(__file__).resolve().parent.parent.parent
sys.path[:0] = [str(ROOT / path) for path in ("persons/src", "plant/src", "tools", "tools/tests", "")]
from hilpoven.core import settings as site_settings  # noqa: E402
from hilpoven.core.context import Context  # noqa: E402
from hilpoven.core.rights import Person  # noqa: E402
from hilpoven_persons import serving, taking  # noqa: E402
from site_client import Reply, ask  # noqa: E402
from try_page.site import Office, Proxy, free_port  # noqa: E402

TOLL = os.environ.get("TOLL", "")
HILPOVEN = ROOT / "plant" / "bin" / "hilpoven"
ADDRESSES = "set_real_ip_from 127.0.0.1; real_ip_header x-address;"
PATIENCE = 120  # seconds
PASSWORD = "word-of-{}-1"
OWNERS = ("ACME", "BOLT", "CARL")
OWNER = """owner-add {0} {0}KEY1
material-add {0} SALT-OF-{0} kg
receive {0} K1 SALT-OF-{0} LOT-OF-{0} BAY 500 261101
recipe-add {0} MIX-OF-{0} 1
require {0} MIX-OF-{0} 1 consumed {0} SALT-OF-{0} 1
require {0} MIX-OF-{0} 1 produced {0} SALT-OF-{0} 1"""
PEOPLE = {
    "rita": ("ACME", "reads"), "oscar": ("ACME", "orders"), "rosa": ("ACME", "releases"), "bo": ("BOLT", "releases"),
    "carla@carl.example": ("CARL", "reads"),
}


class Told(NamedTuple):
    """How a command ended, and what it printed."""

    status: int
    out: str
    err: str


def hilpoven(db: str, *words: str, stdin: str = "", **environment: str) -> Told:
    """What the plant's command tells."""
    done = subprocess.run(
        [HILPOVEN, "--db", db, *words], input=stdin, capture_output=True, text=True, timeout=PATIENCE, env={**os.environ, **environment}
    )
    return Told(done.returncode, done.stdout, done.stderr)


class Browser:
    """A browser at an address of its own, with the cookies that the site sets, and the page's token."""

    addresses = itertools.count(1)

    def __init__(self, site: "Site") -> None:
        self.site, self.cookie, self.token, self.set_cookie = site, "", "", ""
        number = next(self.addresses)
        self.address = f"198.51.{number // 250}.{number % 250 + 1}"

    def ask(self, path: str, method: str = "GET", body: Any = None, **fields: str | None) -> Reply:
        """What the site replies. Fields that aren't given are those that a browser on the page sends; `None` sends none."""
        usual = {"x-address": self.address, "cookie": self.cookie, "toll-token": self.token, "sec-fetch-site": "same-origin",
                 "origin": self.site.origin if method != "GET" else None, "host": self.site.host}
        named = {**usual, **{name.replace("_", "-"): value for name, value in fields.items()}}
        content = body if isinstance(body, bytes) or body is None else json.dumps(body).encode()
        reply = ask(self.site, path, method, content, fields={name: value for name, value in named.items() if value})
        self.site.replies.append(reply)
        return reply

    def log_in(self, name: str, password: str | None = None, **fields: str | None) -> Reply:
        """Logs a person in, and keeps the cookie and the token."""
        body = {"name": name, "password": PASSWORD.format(name) if password is None else password}
        reply = self.ask("/person/log-in", "POST", body, **fields)
        if reply.status == 200:
            self.set_cookie = reply.fields["set-cookie"]
            self.cookie, self.token = self.set_cookie.partition(";")[0], reply.value()["token"]
        return reply

    def status(self, path: str, method: str = "GET", body: Any = None, **fields: str | None) -> int:
        """The status of a reply."""
        return self.ask(path, method, body, **fields).status


class Site(contextlib.ExitStack):
    """An office of three owners with people, and its site."""

    def __init__(self, folder: pathlib.Path) -> None:
        super().__init__()
        try:
            self.begin(folder)
        except BaseException:
            self.close()
            raise

    def begin(self, folder: pathlib.Path) -> None:
        """Sets it up."""
        os.umask(0o077)
        self.folder, self.replies, self.shared = folder, list[Reply](), dict[str, Browser]()
        self.office = Office(TOLL, folder, free_port())
        for owner in OWNERS:
            self.office.do(OWNER.format(owner))
        self.office.start()
        self.callback(self.office.end)
        for name, (owner, role) in PEOPLE.items():
            self.run("person", "add", owner, name, "--role", role, stdin=PASSWORD.format(name))
        (folder / "companion").mkdir(mode=0o700)
        self.run("companion", "--out", str(folder / "companion"))
        self.proxy = self.enter_context(Proxy(folder, self.office.port, ADDRESSES, parts=["persons"]))
        self.port, self.host = self.proxy.port, f"localhost:{self.proxy.port}"
        self.origin = f"https://{self.host}"
        self.context = Context(site_settings.Settings(toll=TOLL), self.office.db, person=Person(os.getuid()))
        self.server: Any = None
        self.serve()
        self.callback(self.stop)

    def serve(self) -> None:
        """Begins the persons' service, with no session."""
        self.door = serving.door_of(self.context)
        self.server = serving.server_of(self.door, self.make, unix_socket=str(self.folder / "persons.sock"))
        self.thread = threading.Thread(target=self.answer)
        self.thread.start()

    def make(self, owner: str, paper: taking.Paper) -> bytes | None:
        """A paper."""
        return taking.made_for(self.context, owner, paper)

    def answer(self) -> None:
        """Answers until the service is ended, at a socket that is closed then."""
        with contextlib.suppress(OSError):
            self.server.run()

    def stop(self) -> None:
        """Ends it."""
        self.server.close()
        self.thread.join(PATIENCE)
        (self.folder / "persons.sock").unlink(missing_ok=True)

    def run(self, *words: str, stdin: str = "") -> str:
        """What the plant's command prints; it has to do it."""
        result = hilpoven(self.office.db, *words, stdin=stdin)
        assert result.status == 0, result
        return result.out

    def beside(self, end: str) -> pathlib.Path:
        """A file beside the office's."""
        return pathlib.Path(f"{self.office.db}.{end}")

    def browser(self, name: str = "") -> Browser:
        """A browser, in which a person is logged in."""
        browser = Browser(self)
        if name:
            assert browser.log_in(name).status == 200
        return browser

    def known(self, name: str) -> Browser:
        """A browser in which a person has been logged in, which tests share that end no session."""
        browser = self.shared.get(name)
        if browser is None or browser.status("/person/stock") != 200:
            browser = self.shared[name] = self.browser(name)
        return browser

    def log(self, name: str = "toll.log") -> list[str]:
        """The lines of one of the site's logs."""
        path = self.folder / name
        return path.read_text().splitlines() if path.exists() else []


@pytest.fixture(scope="session")
def site(tmp_path_factory: pytest.TempPathFactory) -> Iterator[Site]:
    """A site that the tests share; each has browsers of its own."""
    with Site(tmp_path_factory.mktemp("site")) as new:
        yield new
