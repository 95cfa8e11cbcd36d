"""Owners who are competitors, at one browser: each sees its own rows alone, also who logs in after another."""
import contextlib
import time

from .site import Proxy
from .trial import Trial
from .troubles import AWAY

# What stands on ACME's views: its name and key, lots, materials, orders and amounts.
OF_ACME = ("ACME", "B-1", "B-2", "BLEND", "BRINE", "DR-1", "S-1", "O-1", "O-LATE", "845", "990")
# The plant, as this site's settings name it.
PLANT = '{"name":"Hilltop Blending","contact":"+00 555 0100"}'


def windows(t: Trial) -> None:
    b = t.entered()
    t.place("O-TWO", says="Order O-TWO is placed")
    first = b.current_window_handle
    b.new_window()
    t.enter("ACME")
    b.heading("Home")
    t.to("Orders")
    t.cancel("O-TWO")
    b.wait("Order O-TWO is cancelled.")
    b.switch_to.window(first)
    t.cancel("O-TWO")
    b.wait("The order is cancelled already.")
    t.now("row('O-TWO').includes('cancelled')")
    t.shot("23-two-windows")
    b.new_window()
    t.enter("BOLT")
    b.heading("Home")
    t.to("Orders")
    b.wait("No orders yet.")
    t.shot("24-no-orders")
    b.switch_to.window(first)
    b.click("button.close")
    t.read_again()
    t.now("[text('#who .owner'), row('O-TWO') !== '']", ["ACME", True])
    for handle in b.window_handles:
        if handle != first:
            b.switch_to.window(handle)
            b.close_window(first)


def nothing_of_acme(t: Trial, when: str) -> None:
    content = t.browser.value("document.title + one('html').outerHTML + all('input').map(field => field.value)")
    t.same([name for name in OF_ACME if name in content], [], f"what can be seen {when}")


def leaving(t: Trial) -> None:
    """Nothing of an owner stays in the window for who logs in after it."""
    b = t.entered()
    t.to_lot("BL-1")
    t.log_off()
    nothing_of_acme(t, "after logging off")
    for _ in range(2):
        t.back_to("Log in")
        nothing_of_acme(t, "after going back")
    t.shot("40-left")
    t.log_in("BOLT")
    t.to("Orders")
    b.wait("No orders yet.")
    nothing_of_acme(t, "when another has logged in")
    b.js("location.hash = '#/lots/BL-1'")
    b.wait("You have no lot of this name")
    nothing_of_acme(t, "at an address of the other's")
    late_reply(t)
    kept_page(t)
    open_question(t)


def late_reply(t: Trial) -> None:
    """An order that was asked again and again when its owner left is given up, and nothing of it comes to the next."""
    b = t.entered()
    begun = time.monotonic()
    t.office.end()
    t.place("O-LATE")
    b.wait(AWAY, "#sign")
    b.click("#who button", "Log off", says="You logged off before the office had answered.")
    asked = time.monotonic() - begun
    t.shot("41-left-early")
    t.office.start()
    t.log_in("BOLT")
    t.to("Orders")
    b.wait("No orders yet.")
    # longer than any rest between two tries: the site asks for a second, and the page about doubles it, up to ten
    time.sleep(min(2 + 1.5 * asked, 12))
    t.now("[text('#who .owner'), text('#told') + text('#wrong') + text('#sign')]", ["BOLT", ""])
    nothing_of_acme(t, "after a late reply")
    t.same(t.office.ask("> ACME ACMEKEY1 GET /orders/O-LATE")[:4], "404 ", "what was given up")


def kept_page(t: Trial) -> None:
    """A page that the browser kept for going back, as it was, is brought back when another owner has entered."""
    b = t.entered()
    t.to_lot("BL-1")
    b.js("window.kept = true")
    b.get(f"{t.proxy.address}icon.svg")
    t.show("", "Home")
    b.click("#who button", "Log off")
    t.fill_in("BOLT")
    b.wait("BOLT", "#who")
    b.heading("Home")
    b.back()
    b.becomes("location.pathname", "/owner/icon.svg")
    b.back()
    b.wait("You have no lot of this name")
    nothing_of_acme(t, "on a page from before")
    kept = "kept as it was" if b.value("window.kept ?? false") else "read anew"
    print("leaving: a page from before was", kept, "by the browser", flush=True)
    # the same by the events that the browser sends, kept or not
    t.entered()
    t.to_lot("BL-1")
    b.js("dispatchEvent(new PageTransitionEvent('pagehide', {persisted: true}))")
    b.js("sessionStorage.setItem('hilpoven', JSON.stringify({owner: 'BOLT', key: 'BOLTKEY1', seen: Date.now()}))")
    nothing_of_acme(t, "on a page that is put aside")
    b.js("dispatchEvent(new PageTransitionEvent('pageshow', {persisted: true}))")
    b.wait("You have no lot of this name")
    nothing_of_acme(t, "on a page that was put aside")


def open_question(t: Trial) -> None:
    """A question is closed with its view: by going back, and if the key isn't taken any more."""
    b = t.entered()
    t.to_lot("BL-1")
    b.click("button", "Reject…")
    b.find("dialog")
    t.back_to("Stock")
    b.gone("dialog")
    # a trace that is read when the other office is there is refused, too: so the picture is waited for
    t.to_lot("BL-1")
    t.has("released", css="h1")
    b.click("button", "Reject…")
    b.find("dialog")
    small = t.office
    t.serve(t.new_office("owner-add ACME OTHERKEY1"))
    b.click_by_script("[data-key=again]")
    b.heading("Log in")
    b.gone("dialog")
    t.serve(small)


class Clock(contextlib.ExitStack):
    """The clock of a window's documents until this ends: it stands, and goes on by commands."""

    def __init__(self, t: Trial) -> None:
        super().__init__()
        self.t, self.time = t, 1_000_000_000_000
        self.goes_on_meanwhile(0)

    def goes_on(self, seconds: int) -> None:
        """So much time passes, also in the document that is shown."""
        self.goes_on_meanwhile(seconds)
        self.t.browser.js("window.now = arguments[0]", self.time)

    def goes_on_meanwhile(self, seconds: int) -> None:
        """So much time has passed when the next document is loaded."""
        self.close()
        self.time += seconds * 1000
        self.enter_context(self.t.in_each_document(f"window.now = {self.time}; Date.now = () => window.now"))


def idle(t: Trial) -> None:
    """A site that logs owners off after fifteen seconds without a key or a click."""
    b = t.entered()
    t.log_off()
    t.proxy.end()
    folder = t.folder / "idle"
    folder.mkdir()
    changes = [(r'"idle_minutes":\d+', f'"idle_minutes":0.25,"plant":{PLANT}')]
    try:
        with Proxy(folder, t.office_port, changes=changes, port=t.proxy.port), Clock(t) as clock:
            t.enter("ACME")
            b.heading("Home")
            t.to_lot("B-1", is_pictured=False)
            doing_nothing(t, clock)
            brought_back(t, clock)
    finally:
        t.proxy.start()
    t.entered()


def doing_nothing(t: Trial, clock: Clock) -> None:
    b = t.browser
    clock.goes_on(8)
    b.wait("are logged off within a minute", "#idle")
    t.shot("42-idle")
    b.press("shift")
    b.becomes("text('#idle')", "")
    clock.goes_on(14)
    b.wait("are logged off within a minute", "#idle")
    t.now("text('h1').startsWith('Lot B-1')")
    clock.goes_on(1)
    b.wait("You were logged off after 15 seconds without a key or a click.")
    b.heading("Log in")
    t.now("keys()", 0)
    t.now("['B-1', 'BRINE', '980'].filter(name => (document.title + document.body.innerText).includes(name))", [])
    t.has("Hilltop Blending", "+00 555 0100", css="#plant")
    t.shot("43-logged-off")


def brought_back(t: Trial, clock: Clock) -> None:
    """A window that is brought back later, as a browser does after it was closed."""
    b = t.browser
    b.type("input[name=key]", "ACMEKEY1")
    t.follow("button", "Log in", "Lot B-1")
    clock.goes_on_meanwhile(60)
    t.reload("Log in")
    b.wait("You were logged off after 15 seconds")
