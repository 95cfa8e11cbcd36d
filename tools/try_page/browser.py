"""A headless Chromium, driven by Selenium, whose steps wait for what they need."""
import base64
import contextlib
import os
import pathlib
import signal
from collections.abc import Callable
from typing import Any

from selenium import webdriver
from selenium.common.exceptions import ElementClickInterceptedException, ElementNotInteractableException
from selenium.common.exceptions import NoSuchElementException, StaleElementReferenceException, TimeoutException
from selenium.common.exceptions import WebDriverException
from selenium.webdriver.chrome.service import Service
from selenium.webdriver.common.action_chains import ActionChains
from selenium.webdriver.common.keys import Keys
from selenium.webdriver.common.print_page_options import PrintOptions
from selenium.webdriver.support.wait import WebDriverWait

from .slow import Slowness

PATIENCE = 90  # seconds
SCRIPT_PATIENCE = 110  # seconds: to look at all of a long list takes a while, if the machine is busy
HERE = pathlib.Path(__file__).resolve().parent
READS, LOOKS = ((HERE / name).read_text() for name in ("reads.js", "looks.js"))
KEYS = {"tab": Keys.TAB, "enter": Keys.ENTER, "escape": Keys.ESCAPE, "space": Keys.SPACE, "shift": Keys.SHIFT}
# By these an element that was there is drawn anew, or can't be used yet.
MISSED = [StaleElementReferenceException, ElementClickInterceptedException, ElementNotInteractableException]
ARGUMENTS = """--headless=new --disable-gpu --disable-dev-shm-usage --hide-scrollbars --no-first-run --lang=en
    --disable-background-timer-throttling --disable-backgrounding-occluded-windows --disable-renderer-backgrounding"""


class Browser(webdriver.Chrome):  # type: ignore[misc]
    """A browser with one window at first. Elements are named by CSS, or by the text that they begin with within CSS."""

    def __init__(self, folder: pathlib.Path, size: tuple[int, int] = (1250, 900), slowness: Slowness | None = None):
        self.size, self.slowness, self.commands = size, slowness, 0
        options = webdriver.ChromeOptions()
        sandbox = ["--no-sandbox"] if os.geteuid() == 0 else []
        window = f"--window-size={size[0]},{size[1]}"
        for argument in (*ARGUMENTS.split(), f"--user-data-dir={folder}", window, *sandbox):
            options.add_argument(argument)
        options.accept_insecure_certs = True
        options.set_capability("goog:loggingPrefs", {"browser": "ALL"})
        # a session of its own, so that all of the browser's processes can be ended
        super().__init__(options=options, service=Service("chromedriver", popen_kw={"start_new_session": True}))
        self.set_script_timeout(SCRIPT_PATIENCE)
        self._slow_down()

    def execute(self, driver_command: str, params: Any = None) -> Any:
        self.commands += 1
        if self.slowness:
            self.slowness.pause(self.commands)
        return super().execute(driver_command, params)

    def _slow_down(self) -> None:
        if self.slowness:
            self.slowness.slow_down(self)

    def close_all(self) -> None:
        """Ends the browser and its driver, whatever state they are in."""
        driver = self.service.process
        with contextlib.suppress(OSError, WebDriverException):
            self.quit()
        with contextlib.suppress(ProcessLookupError):
            os.killpg(driver.pid, signal.SIGKILL)

    # What is there

    def js(self, script: str, *words: Any) -> Any:
        """What the body of a function gives, which has the names of reads.js."""
        return self.execute_script(f"{READS}\n{script}", *words)

    def value(self, expression: str, *words: Any) -> Any:
        return self.js(f"return {expression}", *words)

    def looks(self, expression: str) -> Any:
        """The same with the names of looks.js."""
        return self.execute_script(f"{LOOKS}\nreturn {expression}")

    def later(self, script: str, *words: Any) -> Any:
        """What a script gives to its last argument, a function."""
        return self.execute_async_script(f"{READS}\n{script}", *words)

    def until(self, holds: Callable[[], Any], condition: object, patience: float = PATIENCE) -> Any:
        """What `holds` gives, as soon as that is something."""
        try:
            return WebDriverWait(self, patience, 0.03, MISSED).until(lambda _: holds())
        except TimeoutException:
            raise TimeoutException(f"waited {patience} s for this: {condition}") from None

    def becomes(self, expression: str, wanted: object = True, *words: Any, patience: float = PATIENCE) -> None:
        """Waits until an expression has this value."""
        values: list[Any] = [None]

        def is_so() -> bool:
            values[0] = self.value(expression, *words)
            return bool(values[0] == wanted)

        try:
            self.until(is_so, "", patience)
        except TimeoutException:
            why = f"{expression} of {words} is {str(values[0])[:300]!r} after {patience} s, not {wanted!r}"
            raise TimeoutException(why) from None

    def find(self, css: str, text: str | None = None) -> Any:
        """The first element that is seen, of this text if one is given."""
        return self.until(lambda: self.seen(css, text), f"{css} {text or ''}")

    def seen(self, css: str, text: str | None = None) -> Any:
        return self.value("seen(...arguments)", css, text)

    def text(self, css: str = "main") -> str:
        return str(self.value("text(arguments[0])", css))

    def wait(self, text: str, css: str = "main") -> None:
        self.becomes("text(arguments[1]).includes(arguments[0])", True, text, css)

    def gone(self, css: str, text: str | None = None) -> None:
        self.becomes("seen(...arguments) === null", True, css, text)

    def heading(self, text: str) -> None:
        """Waits for the view of this heading; after back() and refresh(), for one that was drawn since."""
        self.becomes("heading()", text)

    # What is done

    def click(self, css: str, text: str | None = None, says: str = "") -> None:
        """Clicks an element, and waits for what the view says then."""
        self.until(lambda: self._click(self.find(css, text)), f"a click on {css} {text or ''}")
        if says:
            self.wait(says)

    def _click(self, element: Any) -> bool:
        """Whether a click came to the element."""
        self.js("aim(arguments[0])", element)
        try:
            element.click()
        finally:
            has_hit = bool(self.value("hasHit()"))
        return has_hit

    def click_by_script(self, css: str) -> None:
        """Clicks an element that may be behind a question, where no pointer comes to it."""
        self.until(lambda: self.js("arguments[0].click(); return true", self.find(css)), f"a script's click on {css}")

    def focus(self, css: str) -> None:
        """Gives an element the focus, wherever it is: also one out of sight."""
        self.becomes("one(arguments[0])?.focus() ?? focused()?.matches(arguments[0])", True, css)

    def into_sight(self, css: str, text: str | None = None) -> None:
        """Scrolls until an element, of this text if one is given, is in the middle."""
        self.becomes("intoSight(...arguments)", True, css, text)

    def type(self, css: str, text: str) -> None:
        def typed() -> bool:
            element = self.find(css)
            element.clear()
            element.send_keys(text)
            return bool(element.get_property("value") == text)

        self.until(typed, f"{css} has {text!r}")

    def choose(self, css: str, value: str) -> None:
        """Chooses this option of a select."""
        option = f"{css} option[value='{value}']"

        def chosen() -> bool:
            with contextlib.suppress(NoSuchElementException):
                self.find_element("css selector", option).click()
            return bool(self.value("one(arguments[0])?.value", css) == value)

        self.until(chosen, f"{option} is chosen")

    def press(self, *keys: str) -> None:
        """Presses keys one after another; "shift+tab" holds the first."""
        for key in keys:
            *held, last = (KEYS.get(name, name) for name in key.split("+"))
            actions = ActionChains(self, duration=0)
            for name in held:
                actions.key_down(name)
            actions.send_keys(last)
            for name in held:
                actions.key_up(name)
            actions.perform()

    def back(self) -> None:
        self.js("leaveView()")
        super().back()

    def refresh(self) -> None:
        self.js("leaveView()")
        super().refresh()

    # Windows

    def new_window(self) -> str:
        """Opens a window, and goes on in it."""
        self.switch_to.new_window("window")
        self.set_window_size(*self.size)
        self._slow_down()
        return str(self.current_window_handle)

    def close_window(self, then: str) -> None:
        self.close()
        self.switch_to.window(then)

    # What it looks like

    def devtools(self, command: str, **words: Any) -> Any:
        return self.execute_cdp_cmd(command, words)

    def phone(self, width: int) -> None:
        self.devtools("Emulation.setDeviceMetricsOverride", width=width, height=844, deviceScaleFactor=2, mobile=True)

    def colours(self, **features: str) -> None:
        """The colours that a person has set, such as forced_colors="active"; without any, the usual ones."""
        named = [{"name": name.replace("_", "-"), "value": value} for name, value in features.items()]
        self.devtools("Emulation.setEmulatedMedia", features=named)

    def shot(self, file: pathlib.Path, whole: bool) -> None:
        """A picture of what is seen, or of the whole page."""
        if not whole:
            self.get_screenshot_as_file(str(file))
            return
        size = self.devtools("Page.getLayoutMetrics")["cssContentSize"]
        clip = {"x": 0, "y": 0, "width": size["width"], "height": min(size["height"], 4000), "scale": 1}
        data = self.devtools("Page.captureScreenshot", format="png", captureBeyondViewport=True, clip=clip)["data"]
        file.write_bytes(base64.b64decode(data))

    def printed(self, file: pathlib.Path) -> bytes:
        """Prints the page. chromedriver waits ten seconds for that, so a busy machine may need another try."""
        sheet = PrintOptions()
        sheet.page_width, sheet.page_height = 21.0, 29.7
        wait = WebDriverWait(self, PATIENCE, 0.03, [TimeoutException])
        file.write_bytes(base64.b64decode(wait.until(lambda _: self.print_page(sheet))))
        return file.read_bytes()
