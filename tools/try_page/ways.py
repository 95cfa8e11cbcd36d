"""Other ways to the page than a click: going back, keys, a phone's width, paper."""
import re
import shutil
import subprocess

from selenium.common.exceptions import NoSuchElementException

from .trial import Trial

FOLDED = 640  # px up to which forms are folded, as in style.css: 40rem


def history(t: Trial) -> None:
    b = t.entered()
    t.to("Stock")
    b.type("input[type=search]", "S-")
    b.click("button.sort", "On hand")
    b.becomes("cells(0).length > 0 && cells(0).every(name => name.startsWith('S-'))")
    listed = b.value("cells(0)")
    t.reload("Stock")
    t.now("cells(0)", listed)
    t.now("one('input[type=search]').value", "S-")
    t.follow("tbody a", "S-1", "Lot S-1")
    t.now("focused().tagName", "H1")
    t.pictured()
    t.follow(".genealogy a[data-id='ACME/B-1']", None, "Lot B-1")
    for heading in ("Lot S-1", "Stock"):
        t.back_to(heading)
    t.now("one('input[type=search]').value", "S-")
    t.reload("Stock")


def keyboard(t: Trial) -> None:
    """Work by keys alone: entering, placing an order, deciding on a lot, going along the picture."""
    b = t.browser
    b.get(t.proxy.address)
    if b.value("keys()"):
        t.log_off()
    b.heading("Log in")
    b.focus("input[name=owner]")
    b.press(*"ACME", "tab", *"ACMEKEY1", "enter")
    b.heading("Home")
    tab_to(t, "#nav a[href='#/orders']", "shift+tab")
    b.press("enter")
    b.heading("Orders")
    tab_to(t, "input[name=order]")
    b.press(*"O-KEYS", "tab", *"FILL", "tab", "tab", "enter")
    b.wait("Order O-KEYS is placed")
    tab_to(t, "#nav a[href='#/stock']", "shift+tab")
    t.shot("25-focus")
    b.press("enter")
    b.heading("Stock")
    tab_to(t, "tbody a[href='#/lots/S-5']")
    # meanwhile the picture is drawn after the rest of its view
    with t.slow("/trace/", 1500):
        b.press("enter")
        b.heading("Lot S-5")
        tab_to(t, "[data-key=release]")
        t.pictured()
        t.now("focused().dataset.key", "release")
    decide_by_keys(t)
    t.show("#/lots/BL-1", "Lot BL-1")
    t.pictured()
    tab_to(t, ".genealogy a[data-id='ACME/B-2']")
    t.shot("26-focus-in-the-picture")
    b.press("enter")
    b.heading("Lot B-2")
    b.press("shift+tab")
    t.now("focused() !== document.body")


def decide_by_keys(t: Trial) -> None:
    """Releases a lot; then begins to reject it, and thinks better of it."""
    b = t.browser
    tab_to(t, "[data-key=release]")
    b.press("space")
    b.wait("Lot S-5 is released.")
    tab_to(t, "[data-key=reject]")
    b.press("enter")
    b.find("dialog")
    t.now("focused().textContent", "No, keep it")
    b.press("tab", "tab", "tab")
    t.now("focused() === document.body || one('dialog').contains(focused())")
    b.press("escape")
    b.gone("dialog")
    t.now("focused().dataset.key", "reject")


def tab_to(t: Trial, css: str, key: str = "tab") -> None:
    """Presses tab until this has the focus."""
    for _ in range(120):
        if t.browser.value("focused().matches(arguments[0])", css):
            return
        t.browser.press(key)
    raise NoSuchElementException(f"{key} doesn't lead to {css}")


def phone(t: Trial) -> None:
    """A phone's width, and a small window's, at which nothing may be cut either."""
    b = t.entered()
    try:
        for width, name in ((390, "phone"), (660, "small-window")):
            b.phone(width)
            t.reload("Orders")
            if width <= FOLDED:
                folded(t, name)
            else:
                t.offers("input[name=order]")
            narrow(t, name)
    finally:
        b.devtools("Emulation.clearDeviceMetricsOverride")
        b.refresh()


def folded(t: Trial, name: str) -> None:
    """On a phone the form and the choices are folded, and one field sorts."""
    b = t.browser
    t.withholds("input[name=order]")
    b.click("summary", "New order")
    b.find("input[name=order]")
    t.shot(f"27-{name}-new-order")
    b.click("summary", "New order")
    t.to("Stock")
    t.withholds("select")
    t.withholds("button.sort")
    b.click("button", "Filter and sort")
    b.choose("select[name=sort]", "amount yes")
    b.becomes("isSorted(amounts().reverse())")
    t.shot(f"28-{name}-sorted")
    t.to("Home")
    t.shot(f"27-{name}-home")
    t.to("Orders")


def narrow(t: Trial, name: str) -> None:
    b = t.browser
    b.into_sight("tbody tr:last-child")
    b.find("button[data-key^=cancel]")
    t.shot(f"27-{name}-orders")
    t.to("Stock")
    t.shot(f"28-{name}-stock")
    t.follow("tbody a", "BL-1", "Lot BL-1")
    t.pictured()
    t.check_sight("BL-1", "ACME/BL-1")
    t.shot(f"29-{name}-lot")
    if b.looks("rest()") > 0:
        t.has("scroll it to see the rest", css=".tools")
        begins, is_at_end = b.looks("[begins('ACME/BL-1'), scrolled()]")
        t.expect(0 <= begins < 24 or is_at_end, f"{name}: {begins} px of the picture stand before the asked lot")
    t.to_order("O-1")
    b.wait("Batch 5")
    t.shot(f"30-{name}-order")
    t.to("Orders")


def print_sheets(t: Trial, name: str, fewest: int, most: int) -> None:
    """Prints the view, which takes so many sheets; with pdftoppm (poppler-utils) the first one is kept as a picture."""
    file = (t.pictures or t.folder) / f"{name}.pdf"
    printed = t.browser.printed(file)
    sheets = len(re.findall(rb"/Type /Page\b", printed))
    t.expect(printed.startswith(b"%PDF") and fewest <= sheets <= most, f"{name} has {sheets} sheets")
    is_drawn = shutil.which("pdftoppm")
    if t.pictures and is_drawn:
        t.keep(name)
        words = "pdftoppm -png -r 80 -f 1 -l 1 -singlefile".split()
        subprocess.run([*words, file, file.with_suffix("")], check=True)


def paper(t: Trial) -> None:
    b = t.entered()
    t.to_order("O-1")
    b.wait("Batch 5")
    print_sheets(t, "31-paper-order", 0, 2)
    t.to_lot("BL-1")
    print_sheets(t, "32-paper-lot", 0, 2)
    t.to("Stock")
    print_sheets(t, "33-paper-stock", 0, 2)
