"""What the tests of the screens share: an office at work, persons with roles, and browsers that carry cookies and tokens."""
import html
import importlib.util
import pathlib
import re
import sys
from collections.abc import Iterator

import pytest

ROOT = pathlib.Path(__file__).resolve().parent.parent.parent
sys.path[:0] = [str(ROOT / "desk" / "src")]
spec = importlib.util.spec_from_file_location("plants", ROOT / "plant" / "tests" / "conftest.py")
plants = importlib.util.module_from_spec(spec)
sys.modules["plants"] = plants
spec.loader.exec_module(plants)
from flask.testing import FlaskClient  # noqa: E402
from hilpoven.core import settings as site  # noqa: E402
from hilpoven_desk import accounts, web  # noqa: E402
from hilpoven_desk.app import application  # noqa: E402
from hilpoven_desk.making import Contexts  # noqa: E402
from hilpoven_desk.web import Desk  # noqa: E402

pytest_plugins = ["plants"]  # whose offices these are
ORIGIN = "https://desk.example.com"
HIDDEN = r'<input type="hidden" name="([^"]+)" value="([^"]*)">'
# Persons, each with a password and groups: of the role record, of quality, of both, of none, and of no group at all.
PERSONS = {
    "anna": ("anna's word", "Anna Arendt", frozenset({"hilpoven", "clerks"})),
    "quinn": ("quinn's word", "Quinn", frozenset({"hilpoven", "quality"})),
    "frida": ("frida's word", "Frida Foreman", frozenset({"hilpoven", "clerks", "quality"})),
    "nora": ("nora's word", "Nora", frozenset({"hilpoven"})),
    "zoe": ("zoe's word", "Zoe", frozenset({"users"})),
}
ROLES = {"record": ["clerks"], "quality": ["quality"], "master_data": ["masters"]}
# Parties, and a material with the plant's own test.
NOTED = (
    ("party", "add", "ACME", "NORD", "--name", "Nord Chemie AG", "--role", "customer", "--phone", "+49 40 1"),
    ("party", "add", "ACME", "SALINE", "--name", "Saline Süd", "--role", "supplier"),
)


class Browser:
    """A browser of somebody, which has cookies, and fills in the forms of pages."""

    def __init__(self, client: FlaskClient, desk: Desk) -> None:
        self.client, self.desk, self.status, self.page, self.at = client, desk, 0, "", ""

    def get(self, path: str, **fields: object) -> str:
        """The page of a path, behind redirections."""
        reply = self.client.get(path, base_url=ORIGIN, follow_redirects=True, **fields)
        self.status, self.page, self.at = reply.status_code, reply.text, path
        return self.page

    def send(self, path: str, *, follow: bool = True, origin: str = ORIGIN, **fields: object) -> str:
        """Sends a form as a browser does; fields that aren't given are those that the page hides."""
        headers = {"Referer": f"{ORIGIN}{self.at}"} | ({"Origin": origin} if origin else {})
        reply = self.client.post(path, base_url=ORIGIN, data=fields, headers=headers, follow_redirects=follow)
        self.status, self.page = reply.status_code, reply.text
        return self.page

    def form(self, kind: str = "", at: int = 0) -> dict[str, str]:
        """The hidden fields of a form of the page: the first behind the log-out, or that of a kind."""
        forms = re.findall(r'<form([^>]*method="post"[^>]*)>(.*?)</form>', self.page, re.S)
        shown = [form for head, form in forms if 'name="token"' in form and 'class="who"' not in head]
        for form in shown[at:]:
            hidden = {name: html.unescape(value) for name, value in re.findall(HIDDEN, form)}
            if hidden.get("what", "") == kind:
                return hidden
        raise AssertionError(f"the page has no form {kind!r}: {text_of(self.page)}")

    def fill(self, path: str, kind: str = "", **fields: object) -> str:
        """Sends the form of the page that is shown, with what is typed."""
        return self.send(path, **{**self.form(kind), **fields})

    def means(self, path: str, kind: str = "", **fields: object) -> str:
        """Sends the form of the page that is shown, and says of what is unusual that it is meant."""
        self.fill(path, kind, **fields)
        assert "This is unusual." in self.text, self.text
        return self.fill(path, kind, **fields, answer="yes")

    def log_in(self, login: str, password: str = "") -> str:
        """Logs somebody in."""
        return self.send("/login", login=login, password=password or PERSONS[login][0], to="/")

    def token(self) -> str:
        """The token that the forms of the page carry."""
        return re.search(r'name="token" value="([^"]+)"', self.page or self.get("/"))[1]

    def form_of_page(self) -> dict[str, str]:
        """What any form of the page carries: its token."""
        return {"token": self.token()}

    def hidden(self) -> dict[str, str]:
        """All hidden fields of the page's own forms."""
        return {name: html.unescape(value) for name, value in re.findall(HIDDEN, self.page.partition("<footer")[0])}

    def cookie(self):
        """The cookie of the session."""
        return next(cookie for cookie in self.client.cookie_jar if cookie.name == self.desk.cookie)

    @property
    def text(self) -> str:
        """What the page says."""
        return text_of(self.page)


def text_of(page: str) -> str:
    """What a page says, without its marks."""
    return " ".join(html.unescape(re.sub(r"<[^>]+>", " ", page.partition("<main id=\"main\" tabindex=\"-1\">")[2].partition("<footer")[0])).split())


@pytest.fixture(autouse=True)
def wrong_passwords_take_no_time(monkeypatch):
    """A wrong password takes a second otherwise."""
    monkeypatch.setattr(web, "WRONG_TAKES", 0.0)


@pytest.fixture
def office(at_work):
    """An office at work that has parties, whose settings have roles."""
    at_work.settle(roles=ROLES)
    settings = site.load.__defaults__[0]
    lines = settings.read_text().splitlines()
    plain = [line for line in lines if not line.startswith("roles")]
    tables = ["[roles]", *(f"{name} = {groups!r}".replace("'", '"') for name, groups in ROLES.items())]
    settings.write_text("\n".join([*plain, *tables]) + "\n")
    for words in NOTED:
        result = at_work.run(*words)
        assert result.status == 0, result
    return at_work


@pytest.fixture
def desk(office) -> Iterator[Desk]:
    """The screens of an office."""
    served = Desk(Contexts(settings=str(site.load.__defaults__[0])), accounts.SampleAccounts(PERSONS), ORIGIN)
    yield served
    served.tables.close()


@pytest.fixture
def browse(desk):
    """Opens a browser, and logs somebody in."""
    app = application(desk)

    def opened(login: str = "") -> Browser:
        browser = Browser(app.test_client(), desk)
        if login:
            browser.log_in(login)
            assert browser.status == 200, browser.text
        return browser

    return opened
