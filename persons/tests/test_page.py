"""The owner's page in Chromium, through the real nginx: a person logs in by name, may what its role allows, and is logged off
when it is removed. PICTURES names a folder for pictures."""
import os
import pathlib
import shutil
from collections.abc import Iterator

import pytest
from conftest import PASSWORD, Site

pytest.importorskip("selenium")
from selenium import webdriver  # noqa: E402
from selenium.webdriver.chrome.service import Service  # noqa: E402
from selenium.webdriver.common.by import By  # noqa: E402
from selenium.webdriver.support.ui import WebDriverWait  # noqa: E402

if not all(map(shutil.which, ("chromium", "chromedriver"))):
    pytest.skip("Chromium is needed", allow_module_level=True)
PATIENCE = 60  # seconds
PICTURES = os.environ.get("PICTURES", "")
ALIVE = """return fetch("/person/stock", {credentials: "same-origin"}).then(reply => reply.status)"""


class Window:
    """A window of Chromium at the owner's page."""

    def __init__(self, site: Site) -> None:
        options = webdriver.ChromeOptions()
        for word in ("--headless=new", "--no-sandbox", "--disable-dev-shm-usage", "--ignore-certificate-errors", "--lang=en", "--window-size=1100,800"):
            options.add_argument(word)
        options.binary_location = shutil.which("chromium") or ""
        self.driver = webdriver.Chrome(service=Service(shutil.which("chromedriver")), options=options)
        self.site = site

    def go(self, to: str = "") -> None:
        """Opens a view."""
        self.driver.get(f"{self.site.origin}/owner/{to}")

    def says(self, *texts: str) -> bool:
        """Whether the page comes to say all of these."""

        def has_texts(_: object) -> bool:
            text = self.driver.execute_script("return document.body ? document.body.innerText : ''")
            return all(each in text for each in texts)

        return bool(WebDriverWait(self.driver, PATIENCE).until(has_texts, f"{texts}"))

    def click(self, text: str) -> None:
        """Clicks the button with a text."""
        path = f'//button[normalize-space()="{text}"]'
        WebDriverWait(self.driver, PATIENCE).until(lambda driver: driver.find_elements(By.XPATH, path))
        self.driver.find_element(By.XPATH, path).click()

    def type(self, name: str, text: str) -> None:
        """Types into a field."""
        WebDriverWait(self.driver, PATIENCE).until(lambda driver: driver.find_elements(By.NAME, name))
        field = self.driver.find_element(By.NAME, name)
        field.clear()
        field.send_keys(text)

    def log_in(self, name: str, password: str) -> None:
        """Logs a person in."""
        self.type("person", name)
        self.type("password", password)
        self.click("Log in")

    def picture(self, name: str) -> None:
        """Saves a picture of it."""
        if PICTURES:
            (pathlib.Path(PICTURES) / f"{name}.png").write_bytes(self.driver.get_screenshot_as_png())


@pytest.fixture
def window(site: Site) -> Iterator[Window]:
    """A window, at the log-in."""
    opened = Window(site)
    try:
        opened.go()
        yield opened
    finally:
        opened.driver.quit()


def test_a_person_s_session_from_log_in_to_removal(site: Site, window: Window) -> None:
    site.office.do("receive ACME K-P1 SALT-OF-ACME P-1 BAY 5 261101\nreceive ACME K-P2 SALT-OF-ACME P-2 BAY 5 261101")
    site.run("person", "add", "ACME", "paula", "--role", "releases", stdin=PASSWORD.format("paula"))
    assert window.says("Name", "Password", "Log in with the owner's key")
    window.picture("log-in")
    window.log_in("paula", "wrong-password")
    assert window.says("The name or the password is wrong.")
    window.log_in("Paula", PASSWORD.format("paula"))
    assert window.says("paula, ACME", "P-1", "P-2")
    assert window.driver.execute_script("return document.cookie") == "" and "KEY1" not in window.driver.execute_script("return JSON.stringify(sessionStorage)")
    window.picture("home")
    window.driver.refresh()
    assert window.says("paula, ACME")
    window.go("#/lots/P-1")
    window.click("Release")
    assert window.says("Released: the plant may ship it")
    site.run("person", "role", "paula", "reads")
    window.go("#/lots/P-2")
    window.click("Release")
    assert window.says("Your role doesn't allow this.")
    window.picture("not-allowed")
    site.run("person", "remove", "paula")
    window.go("#/stock")
    assert window.says("Log in again.", "Password")
    window.picture("removed")


RELEASE, ORDER = {"Release", "Reject…", "Release many lots"}, {"Place the order", "Cancel ROLE-1"}
BUTTONS = "return [...document.querySelectorAll('button, nav a, main a')].map(each => each.textContent.trim())"


@pytest.mark.parametrize("name, may", [("rita", set()), ("oscar", ORDER), ("rosa", ORDER | RELEASE)])
def test_a_page_shows_what_a_role_may_and_nothing_else(site: Site, window: Window, name: str, may: set[str]) -> None:
    site.known("rosa").ask("/person/orders", "POST", {"order": "ROLE-1", "recipe": "MIX-OF-ACME", "batches": 1})
    site.office.do(f"receive ACME V-{name.upper()} SALT-OF-ACME V-{name.upper()} BAY 5 261101")

    def shown(view: str, *texts: str) -> set[str]:
        window.go(view)
        assert window.says(*texts)
        return (RELEASE | ORDER) & set(window.driver.execute_script(BUTTONS))

    window.log_in(name, PASSWORD.format(name))
    assert window.says(f"{name}, ACME")
    if "Cancel ROLE-1" in may:
        window.go("#/orders")
        WebDriverWait(window.driver, PATIENCE).until(lambda driver: "Cancel ROLE-1" in driver.execute_script(BUTTONS))
    else:
        assert shown("#/orders/ROLE-1", "The plant has opened no batch of it yet.") == set()
    buttons = shown("#/orders", "ROLE-1", "MIX-OF-ACME") | shown(f"#/lots/V-{name.upper()}", "In quarantine: nothing is shipped", "BAY") | shown("#/stock", "By material", "LOT-OF-ACME")
    window.picture(f"role-{name}")
    assert buttons - {"Cancel ROLE-1"} == may - {"Cancel ROLE-1"}
    window.go("#/release")
    assert window.says("Choose none") if RELEASE <= may else window.says("Your role doesn't allow this.")


def test_a_window_s_end_and_a_log_off_leave_nothing(site: Site, window: Window) -> None:
    window.log_in("rita", PASSWORD.format("rita"))
    assert window.says("rita, ACME")
    assert window.driver.execute_script(ALIVE) == 401  # the cookie without the window's token
    window.driver.switch_to.new_window("tab")
    window.go()
    assert window.says("Password", "Log in with the owner's key")
    window.driver.close()
    window.driver.switch_to.window(window.driver.window_handles[0])
    count = len(site.door.sessions.by_digest)
    window.click("Log off")
    assert window.says("Log in with the owner's key")
    WebDriverWait(window.driver, PATIENCE).until(lambda _: len(site.door.sessions.by_digest) < count)


def test_the_owner_s_key_goes_on(site: Site, window: Window) -> None:
    window.click("Log in with the owner's key")
    assert window.says("Key", "Log in with your name")
    window.picture("key")
    window.type("owner", "acme")
    window.type("key", "ACMEKEY1")
    window.click("Log in")
    assert window.says("ACME", "Stock", "Log off")


def test_papers_are_taken_as_files(site: Site, window: Window, tmp_path: pathlib.Path) -> None:
    window.driver.execute_cdp_cmd("Browser.setDownloadBehavior", {"behavior": "allow", "downloadPath": str(tmp_path)})
    window.log_in("rita", PASSWORD.format("rita"))
    assert window.says("Statement", "Receipts, uses, shipments")
    window.picture("statement")
    window.go("#/lots/LOT-OF-ACME")
    window.click("Certificate (PDF)")
    assert window.says("The paper is in your downloads.")
    window.picture("certificate")
    file = tmp_path / "ACME-certificate-LOT-OF-ACME.pdf"
    WebDriverWait(window.driver, PATIENCE).until(lambda _: file.exists())
    assert file.read_bytes().startswith(b"%PDF-")
    window.go("#/home")
    window.click("Statement (PDF)")
    assert window.says("The paper is in your downloads.")
    WebDriverWait(window.driver, PATIENCE).until(lambda _: list(tmp_path.glob("ACME-statement-*.pdf")))
