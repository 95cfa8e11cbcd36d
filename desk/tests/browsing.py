"""Real browsers at the screens behind the real nginx: what a person does at one, and what is measured of a page."""
import contextlib
import shutil
import socket
import subprocess
import threading

import pytest
from conftest import PERSONS
from hilpoven_desk import serving
from plants import eventually
from proxied import HOST, site_files

selenium = pytest.importorskip("selenium")
from selenium import webdriver  # noqa: E402
from selenium.common.exceptions import WebDriverException  # noqa: E402
from selenium.webdriver.chrome.service import Service  # noqa: E402
from selenium.webdriver.common.by import By  # noqa: E402
from selenium.webdriver.common.keys import Keys  # noqa: E402
from selenium.webdriver.support.ui import WebDriverWait  # noqa: E402

if not all(map(shutil.which, ("chromium", "chromedriver"))):
    pytest.skip("Chromium is needed", allow_module_level=True)

PATIENCE = 60  # seconds
LEAST = 44  # pixels of what is touched
# What the form of a button sends: its path, its fields, and the choices of each field that is chosen by touch.
SENDS = """
const button = document.querySelector(arguments[0]);
const form = button.form;
const fields = [...new FormData(form, button)];
const choices = {};
for (const each of form.querySelectorAll("input[type=radio]")) (choices[each.name] ??= []).push(each.value);
return [form.getAttribute("action") ?? location.pathname, fields, choices];
"""
# Targets that are smaller than a glove's, and texts whose contrast is below 4.5, of what is shown.
SMALL = """
return [...document.querySelectorAll("a, button, input:not([type=hidden]), select, summary")].filter((each) => {
  const box = (each.closest(".choice label") ?? each).getBoundingClientRect();
  return each.checkVisibility() && !each.matches(".skip") && box.width && (box.height < arguments[0] || box.width < arguments[0]);
}).map((each) => each.outerHTML.slice(0, 120));
"""
FAINT = """
const parse = (text) => text.match(/[\\d.]+/g).map(Number);
const light = ([r, g, b]) => [r, g, b].map((v) => (v /= 255) <= 0.04045 ? v / 12.92 : ((v + 0.055) / 1.055) ** 2.4).reduce((sum, v, at) => sum + v * [0.2126, 0.7152, 0.0722][at], 0);
const ground = (node) => { for (; node; node = node.parentElement) { const c = parse(getComputedStyle(node).backgroundColor); if (c.length < 4 || c[3] === 1) return c; } return [255, 255, 255]; };
return [...document.querySelectorAll("body *")].filter((each) => each.checkVisibility() && [...each.childNodes].some((node) => node.nodeType === 3 && node.textContent.trim()) && !each.closest("svg, .sr, .skip")).filter((each) => {
  const [one, two] = [light(parse(getComputedStyle(each).color)), light(ground(each))].sort((a, b) => b - a);
  return (one + 0.05) / (two + 0.05) < 4.5;
}).map((each) => each.outerHTML.slice(0, 120));
"""


def is_open(port: int) -> bool:
    """Whether somebody listens at a port."""
    with contextlib.suppress(OSError), socket.create_connection(("127.0.0.1", port)):
        return True
    return False


@pytest.fixture
def site(desk, tmp_path):
    """The address of the screens behind nginx, by the shipped site."""
    folder, port = site_files(tmp_path / "site")
    desk.origin = f"https://{HOST}:{port}"
    server = serving.server_of(desk, unix_socket=str(folder / "socket"), **serving.BEHIND_PROXY)
    threading.Thread(target=server.run, daemon=True).start()
    nginx = subprocess.Popen(["nginx", "-c", folder / "nginx.conf"], stderr=subprocess.DEVNULL)
    try:
        assert eventually(lambda: is_open(port))
        yield desk.origin
    finally:
        nginx.terminate()
        nginx.wait()
        server.close()


class Screen:
    """A real browser, and what a person does at it: how many keys and touches that took."""

    def __init__(self, origin: str, width: int = 1024, height: int = 768, is_dark: bool = False, has_script: bool = True) -> None:
        options = webdriver.ChromeOptions()
        for word in ("--headless=new", "--no-sandbox", "--disable-dev-shm-usage", "--ignore-certificate-errors", "--lang=en", f"--host-resolver-rules=MAP {HOST} 127.0.0.1"):
            options.add_argument(word)
        if not has_script:
            options.add_experimental_option("prefs", {"profile.managed_default_content_settings.javascript": 2})
        options.binary_location = shutil.which("chromium")
        self.driver = webdriver.Chrome(service=Service(shutil.which("chromedriver")), options=options)
        self.driver.execute_cdp_cmd("Emulation.setDeviceMetricsOverride", {"width": width, "height": height, "deviceScaleFactor": 1, "mobile": width < 600})
        self.driver.execute_cdp_cmd("Emulation.setEmulatedMedia", {"features": [{"name": "prefers-color-scheme", "value": "dark" if is_dark else "light"}]})
        self.origin, self.keys, self.touches = origin, 0, 0
        self.typed = dict[str, str]()  # by the names of fields, since a page was opened

    def open(self, path: str) -> None:
        """Opens an address."""
        self.typed = {}
        self.driver.get(f"{self.origin}{path}")

    def type(self, name: str, word: str, within: str = "") -> None:
        """Types a word into a field."""
        field = self.driver.find_element(By.CSS_SELECTOR, f"{within} [name={name}]")
        field.clear()
        field.send_keys(word)
        self.keys += len(word)
        self.typed[name] = word

    def scan(self, label: str) -> None:
        """A scanner types a label's text and Enter, where the focus is."""
        self.waits().until(lambda driver: driver.execute_script("return document.readyState === 'complete' && document.activeElement.matches('[data-scan]')"))
        self.driver.switch_to.active_element.send_keys(label, Keys.ENTER)

    def touch(self, css: str) -> None:
        """Touches something."""
        self.driver.find_element(By.CSS_SELECTOR, css).click()
        self.touches += 1

    def sends(self, button: str) -> tuple[str, list[list[str]], dict[str, list[str]]]:
        """What the form of a button sends when it is touched."""
        path, fields, choices = self.driver.execute_script(SENDS, button)
        return path, fields, choices

    def has(self, css: str) -> bool:
        """Whether the page has something."""
        return bool(self.driver.find_elements(By.CSS_SELECTOR, css))

    def shows(self, text: str, other: str = "") -> bool:
        """Waits until the page shows a text, or another one; whether it is the first."""
        def shown(driver) -> list[bool]:
            page = driver.find_element(By.TAG_NAME, "main").text
            return [text in page] if text in page or other and other in page else []

        return self.waits().until(shown, text)[0]

    def waits(self) -> WebDriverWait:
        """Waits for what comes to hold, also while one page takes the place of another, in which nothing can be read."""
        return WebDriverWait(self.driver, PATIENCE, ignored_exceptions=[WebDriverException])

    def log_in(self, login: str) -> None:
        """Logs somebody in."""
        self.open("/login")
        self.type("login", login)
        self.type("password", PERSONS[login][0])
        self.touch("main button.main")
        self.shows("Batches")


@pytest.fixture
def screens(site):
    """Opens browsers, which end at the end."""
    opened = []

    def screen(**how: object) -> Screen:
        opened.append(Screen(site, **how))
        return opened[-1]

    yield screen
    for each in opened:
        each.driver.quit()
