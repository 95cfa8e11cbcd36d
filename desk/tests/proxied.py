"""The screens behind the real nginx, with TLS and by the shipped site, in a process of their own; and browsers without a window."""
import contextlib
import http.client
import os
import pathlib
import re
import shutil
import ssl
import subprocess
import sys
import time
import urllib.parse

import pytest
from conftest import PERSONS, ROOT, text_of

sys.path.append(str(ROOT))
from tests.harness import free_port  # noqa: E402

if not all(map(shutil.which, ("nginx", "openssl"))):
    pytest.skip("nginx is needed", allow_module_level=True)

HOST = "desk.example.com"
MAIN = """
user root; pid {folder}/nginx.pid; error_log {folder}/error.log; daemon off;
events {{ }}
http {{ include /etc/nginx/mime.types; client_body_temp_path {folder}/body; proxy_temp_path {folder}/proxy; {site} }}
"""
PATIENCE = 60  # seconds
# A process of its own that serves the screens of an office at a socket, with the sample's accounts, until it is killed.
SERVING = """
import sys
sys.path[:0] = [{desk!r}, {plant!r}]
from hilpoven_desk import accounts, serving
from hilpoven_desk.making import Contexts
from hilpoven_desk.web import Desk
serving.serve(Desk(Contexts(settings={settings!r}), accounts.SampleAccounts({persons!r}), {origin!r}), unix_socket={socket!r}, **serving.BEHIND_PROXY)
"""


class Place:
    """The screens in a process of their own behind nginx, both of which can be ended and begun again."""

    def __init__(self, office, folder) -> None:
        self.office = office
        self.folder, self.port = site_files(folder)
        self.origin = f"https://{HOST}:{self.port}"
        settings = str(office.folder / "hilpoven.toml")
        words = {"desk": str(ROOT / "desk" / "src"), "plant": str(ROOT / "plant" / "src"), "settings": settings, "persons": PERSONS}
        self.code = SERVING.format(**words, origin=self.origin, socket=str(self.folder / "socket"))
        self.begin_desk()
        self.begin_nginx()

    def begin_desk(self) -> None:
        """Begins the screens, and waits until they listen."""
        environment = {**os.environ, "TOLL": self.office.program}
        self.desk = subprocess.Popen([sys.executable, "-c", self.code], env=environment, stderr=open(self.folder / "desk.log", "ab"))

    def begin_nginx(self) -> None:
        """Begins nginx."""
        self.nginx = subprocess.Popen(["nginx", "-c", self.folder / "nginx.conf"], stderr=subprocess.DEVNULL)

    def end(self) -> None:
        """Ends both."""
        for process in (self.nginx, self.desk):
            process.terminate()
            process.wait()

    def log(self) -> str:
        """What the screens wrote of faults."""
        return (self.folder / "desk.log").read_text()


class Client:
    """A browser of a person over TLS, which keeps its cookie and, of its last page, what forms carry."""

    def __init__(self, place: Place, login: str = "", address: str = "127.0.0.1") -> None:
        self.place, self.address, self.cookie, self.status, self.page = place, address, "", 0, ""
        if login:
            self.until(200, "GET", "/login")
            self.ask("POST", "/login", {"login": login, "password": PERSONS[login][0]})
            assert self.status == 303, self.page

    def ask(self, method: str, path: str, fields: dict[str, str] | None = None, **headers: str) -> str:
        """The page that a request gets; the status is 0 where none comes."""
        context = ssl._create_unverified_context()
        body = urllib.parse.urlencode(fields) if fields is not None else None
        own = {"Host": HOST + f":{self.place.port}", "Origin": self.place.origin, "Content-Type": "application/x-www-form-urlencoded", **({"Cookie": self.cookie} if self.cookie else {}), **headers}
        self.status, self.page = 0, ""
        with contextlib.closing(http.client.HTTPSConnection("127.0.0.1", self.place.port, timeout=PATIENCE, source_address=(self.address, 0), context=context)) as peer, contextlib.suppress(OSError, http.client.HTTPException):
            peer.request(method, path, body, own)
            reply = peer.getresponse()
            self.page, self.status, self.location = reply.read().decode(), reply.status, reply.headers.get("Location", "")
            if cookie := re.match(r"(__Host-desk=[^;]+)", reply.headers.get("Set-Cookie", "")):
                self.cookie = cookie[1]
        return self.page

    def until(self, status: int, method: str, path: str, fields: dict[str, str] | None = None) -> str:
        """Asks until an answer has a status: what was ended begins again meanwhile."""
        end = time.monotonic() + PATIENCE
        while self.ask(method, path, fields) is None or self.status != status:
            assert time.monotonic() < end, (self.status, text_of(self.page) or self.page)
            time.sleep(0.05)
        return self.page

    def receipt(self, lot: str) -> dict[str, str]:
        """A filled-in form of a receipt, as the page gives it."""
        page = self.ask("GET", "/receive?owner=ACME&material=SALT").partition("data-draft")[2]
        hidden = dict(re.findall(r'<input type="hidden" name="([^"]+)" value="([^"]*)">', page))
        return {**hidden, "material": "SALT", "lot": lot, "sublot": "BAY1", "amount": "7000", "day": "103"}


@pytest.fixture
def place(office, tmp_path):
    """The screens of an office in a process of their own, behind nginx."""
    served = Place(office, tmp_path / "site")
    yield served
    served.end()
    assert "Traceback" not in served.log()


def site_files(folder: pathlib.Path) -> tuple[pathlib.Path, int]:
    """A folder with the shipped site for nginx, at a port of its own, which asks at `socket` there."""
    port = free_port()
    folder.mkdir()
    subprocess.run(["openssl", "req", "-x509", "-newkey", "ec", "-pkeyopt", "ec_paramgen_curve:prime256v1", "-nodes", "-days", "2", "-subj", f"/CN={HOST}", "-keyout", folder / "key", "-out", folder / "pem"],
                   check=True, capture_output=True)
    text = (ROOT / "packaging" / "desk" / "nginx.conf").read_text()
    for shipped, own in (("    listen [::]:443 ssl;\n", ""), ("443", str(port)), ("/etc/ssl/desk.example.com.pem", f"{folder}/pem"), ("/etc/ssl/private/desk.example.com.key", f"{folder}/key"),
                         ("/run/toll-desk/NAME/socket", f"{folder}/socket"), ("/var/log/nginx", str(folder))):
        assert shipped in text
        text = text.replace(shipped, own)
    (folder / "nginx.conf").write_text(MAIN.format(folder=folder, site=text))
    return folder, port
