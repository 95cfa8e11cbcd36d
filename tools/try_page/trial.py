"""What all situations share: the browser, the office that is served, and what was wrong."""
import contextlib
import csv
import fnmatch
import io
import pathlib
import re
import shutil
from collections.abc import Iterator
from typing import Any

from .browser import HERE, Browser
from .companion import Companions
from .site import Office, Proxy, free_port
from .slow import Slowness

# The caption of each picture, by its name or a pattern of it, and whether it is of the window alone.
PICTURES = re.findall(r"^(\S+)( \(window\))?: (.*)", (HERE / "pictures.txt").read_text(), re.M)


class Trial:
    """A trial of the page, which goes from one situation to the next."""

    office: Office
    browser: Browser
    proxy: Proxy

    def __init__(self, program: str, folder: pathlib.Path, pictures: pathlib.Path | None) -> None:
        self.program, self.folder, self.pictures = program, folder, pictures
        self.situation, self.least, self.office_port = "", 21.0, free_port()
        self.wrong, self.shots = list[str](), dict[str, str]()
        self.companions = Companions(folder / "companion")
        self.open = contextlib.ExitStack()

    def begin(self, office: Office, slowness: Slowness | None) -> None:
        """Serves this office behind a proxy, and opens the browser; all ends with `open`."""
        self.office = office
        self.open.callback(lambda: self.office.end())
        office.start()
        self.proxy = self.open.enter_context(Proxy(self.folder, self.office_port))
        self.browser = Browser(self.folder / "profile", slowness=slowness)
        self.open.callback(self.browser.close_all)

    def new_office(self, lines: str = "") -> Office:
        office = Office(self.program, self.folder, self.office_port)
        office.do(lines)
        return office

    def serve(self, office: Office) -> None:
        """Serves this office in place of the one before."""
        self.office.end()
        self.office = office
        office.start()

    # What is expected

    def expect(self, holds: object, fault: str) -> None:
        if not holds:
            self.wrong.append(f"{self.situation}: {fault}")
            print("WRONG:", self.wrong[-1], flush=True)

    def same(self, value: object, wanted: object, subject: str) -> None:
        self.expect(value == wanted, f"{subject}: {str(value)[:600]!r}, not {wanted!r}")

    def now(self, expression: str, wanted: object = True) -> None:
        """What a script gives has to be this now."""
        self.same(self.browser.value(expression), wanted, expression)

    def has(self, *texts: str, css: str = "main") -> None:
        content = self.browser.text(css)
        for text in texts:
            self.expect(text in content, f"{css} doesn't say {text!r}: {content[:600]!r}")

    def lacks(self, *texts: str, css: str = "main") -> None:
        content = self.browser.text(css)
        for text in texts:
            self.expect(text not in content, f"{css} says {text!r}")

    def offers(self, css: str, text: str | None = None) -> None:
        self.expect(self.browser.seen(css, text), f"{css} {text or ''} isn't there")

    def withholds(self, css: str, text: str | None = None) -> None:
        self.expect(not self.browser.seen(css, text), f"{css} {text or ''} is there")

    def inspect(self) -> list[str]:
        """What is wrong with what is shown, whatever it is."""
        contrasts, others = self.browser.looks("[contrasts(), names().concat(widths(), heads(), targets())]")
        self.least = min(self.least, contrasts["least"])
        return [*contrasts["wrong"], *others]

    def keep(self, name: str) -> bool:
        """Notes a picture with its caption; whether it is of the whole page."""
        window, self.shots[name] = next(rest for kind, *rest in PICTURES if fnmatch.fnmatch(name, kind))
        return not window

    def shot(self, name: str) -> None:
        """Inspects what is shown, and keeps a picture, if pictures are wanted."""
        is_whole = self.keep(name)
        if self.pictures:
            self.browser.shot(self.pictures / f"{name}.png", is_whole)
        for fault in self.inspect():
            self.expect(False, f"{name}: {fault}")

    def pictured(self) -> Any:
        """The picture of a genealogy, as soon as it is drawn: its boxes and edges, and the marked lot."""
        return self.browser.until(lambda: self.browser.looks("pictured()"), "the genealogy is drawn")

    def boxes(self) -> int:
        return int(self.pictured()["boxes"])

    def check_drawing(self, lot: str) -> None:
        self.same(self.browser.looks("drawing()"), [], f"the genealogy of {lot}")

    def check_sight(self, lot: str, *wanted: str) -> None:
        """Looks whether these boxes of the picture are in sight, without moving it."""
        hidden = set(wanted) - set(self.browser.looks("inSight()"))
        self.same(sorted(hidden), [], f"the genealogy of {lot}, out of sight")

    def downloaded(self, key: str) -> tuple[list[dict[str, str]], str]:
        """The records of the file that a button gives, and the file's name."""
        folder = self.folder / "downloads"
        shutil.rmtree(folder, ignore_errors=True)
        folder.mkdir()
        self.browser.devtools("Browser.setDownloadBehavior", behavior="allow", downloadPath=str(folder))
        self.browser.click(f"button[data-key='{key}']")

        def whole() -> list[pathlib.Path]:
            files = list(folder.iterdir())
            return files if len(files) == 1 and files[0].suffix == ".csv" and files[0].stat().st_size else []

        (file,) = self.browser.until(whole, f"{key} gives a file")
        text = file.read_bytes().decode()
        self.same(text.count("\r\n"), text.count("\n"), f"the lines of {key} that end as RFC 4180 has it")
        return list(csv.DictReader(io.StringIO(text, newline=""), strict=True)), file.name

    def check_file(self, key: str, rows: list[str], *columns: str, first: int | None = None) -> None:
        """Looks whether a file has these rows, or begins with them; a text stands there as ="TEXT"."""

        def quoted(value: str) -> str:
            return value if value.isdecimal() or not value else f'="{value}"'

        records = [[record[name] for name in columns or record] for record in self.downloaded(key)[0][:first]]
        self.same(records, [[*map(quoted, row.split("|"))] for row in rows], f"the file {key}")

    # Ways through the page

    def enter(self, owner: str, key: str | None = None) -> None:
        """Logs in as an owner, whatever is shown now."""
        self.browser.get("about:blank")
        self.browser.get(self.proxy.address)
        self.fill_in(owner, key)

    def fill_in(self, owner: str, key: str | None = None) -> None:
        """Fills in the form to log in, and sends it; a key of its own leads to Home."""
        self.browser.heading("Log in")
        self.browser.type("input[name=owner]", owner)
        self.browser.type("input[name=key]", key or f"{owner}KEY1")
        self.browser.click("button", "Log in")

    def log_in(self, owner: str, key: str | None = None) -> None:
        self.fill_in(owner, key)
        self.browser.heading("Home")

    def back_to(self, heading: str) -> None:
        self.browser.back()
        self.browser.heading(heading)

    def reload(self, heading: str) -> None:
        self.browser.refresh()
        self.browser.heading(heading)

    def to_home_of(self, owner: str) -> None:
        """Logs in anew."""
        self.browser.get("about:blank")
        self.browser.get(self.proxy.address)
        if self.browser.value("keys()"):
            self.log_off()
        self.log_in(owner)

    def entered(self, owner: str = "ACME") -> Browser:
        """Logs in, if the window isn't this owner's already, and goes to the orders."""
        if self.browser.value("location.pathname") != "/owner/" or self.browser.text("#who .owner") != owner:
            self.to_home_of(owner)
        self.to("Orders")
        return self.browser

    def log_off(self) -> None:
        self.browser.click("#who button")
        self.browser.heading("Log in")

    def to(self, view: str) -> None:
        """Goes to a view of the menu."""
        self.follow("#nav a", view, view)

    def follow(self, css: str, text: str | None, heading: str) -> None:
        """Clicks what leads to the view of this heading, and waits for a view that was drawn since."""
        self.browser.find(css, text)
        self.browser.js("leaveViewBy(...arguments)", css, text)
        self.browser.click(css, text)
        self.browser.heading(heading)

    def show(self, address: str, heading: str) -> None:
        self.browser.get(self.proxy.address + address)
        self.browser.heading(heading)

    def to_lot(self, name: str, is_pictured: bool = True) -> None:
        self.to("Stock")
        self.follow("tbody a", name, f"Lot {name}")
        if is_pictured:
            self.pictured()

    def to_order(self, name: str) -> None:
        self.to("Orders")
        self.follow("tbody a", name, f"Order {name}")

    def read_again(self) -> None:
        self.browser.click("button", "Read again")

    def place(self, order: str, recipe: str = "FILL", batches: int = 1, says: str = "") -> None:
        """Fills in the form for a new order, sends it, and waits for what is said of it."""
        for name, value in (("order", order), ("recipe", recipe), ("batches", str(batches))):
            self.browser.type(f"input[name={name}]", value)
        self.browser.click("button", "Place the order")
        if says:
            self.browser.wait(says)

    def cancel(self, order: str, answer: str | None = "Cancel the order") -> None:
        """Clicks an order's Cancel, which comes when its row is in sight, and gives the answer."""
        self.browser.into_sight("tbody tr > :first-child", order)
        self.browser.click(f"button[data-key=cancel-{order}]")
        if answer:
            self.browser.click("dialog button", answer)

    @contextlib.contextmanager
    def slow(self, begins: str, milliseconds: int) -> Iterator[None]:
        """Meanwhile the document asks so much later for what begins so."""
        self.browser.js("delay(...arguments)", begins, milliseconds)
        try:
            yield
        finally:
            self.browser.js("window.fetch = window.withoutRest ?? window.fetch")

    @contextlib.contextmanager
    def in_each_document(self, script: str) -> Iterator[None]:
        """Meanwhile a script runs in each document before the page's own."""
        added = self.browser.devtools("Page.addScriptToEvaluateOnNewDocument", source=script)
        try:
            yield
        finally:
            self.browser.devtools("Page.removeScriptToEvaluateOnNewDocument", identifier=added["identifier"])
