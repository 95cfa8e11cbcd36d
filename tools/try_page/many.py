"""2,000 orders, 2,200 lots and a long genealogy: nothing of it may make the page stand still."""
import time
from collections.abc import Callable
from typing import Any

from . import offices
from .browser import HERE, PATIENCE
from .offices import BATCHES, LARGE_LOTS, ORDERS
from .trial import Trial
from .ways import print_sheets

FIRST_DRAW, LONGEST_TASK = 1000, 200  # milliseconds that a person waits for something to come up
IDLE = 55  # milliseconds that a page's script takes for SUM, if nothing else has the processor
SUM, TIMED, TYPED = (HERE / "times.js").read_text().split("// --\n")


def many(t: Trial) -> None:
    small = t.office
    small.end()
    t.office = t.new_office()
    offices.fill_large(t.office)
    b = t.entered()
    for view, other, rows, picture in (
        ("Orders", "Stock", ORDERS, "35-many-orders"),
        ("Stock", "Orders", LARGE_LOTS, "36-many-lots"),
    ):

        def draw() -> Any:
            t.to(other)
            return b.later(TIMED, f"#/{view.lower()}", rows)

        check_times(t, f"{rows} rows of {view}", draw, first=FIRST_DRAW, longest=LONGEST_TASK)
        t.shot(picture)
    check_times(t, f"a search among {LARGE_LOTS} lots", lambda: b.later(TYPED, "L-7"), longest=LONGEST_TASK)
    longest(t)
    far(t)
    folds(t)
    chain(t)
    batches(t)
    t.serve(small)


def check_times(t: Trial, subject: str, measured: Callable[[], Any], **bounds: int) -> None:
    """Measures until all is within its bounds, as a moment may be a bad one; what is slow by itself is so each time.
    The bounds are as much longer as the machine is slower now than an idle one. A slowed browser has none."""
    ends, is_in_time = time.monotonic() + PATIENCE, False
    while not is_in_time and time.monotonic() < ends:
        before = t.browser.js(SUM)
        milliseconds = measured()
        times = max(1, (before + t.browser.js(SUM)) / 2 / IDLE)
        slow = [name for name, bound in bounds.items() if milliseconds[name] >= bound * times]
        is_in_time = bool(t.browser.slowness) or not slow
    print(f"{subject}: {milliseconds} ms", flush=True)
    t.expect(is_in_time, f"{subject} take long, on a machine that is {times:.1f} times slower: {milliseconds}")


def longest(t: Trial) -> None:
    """The longest list that an owner can have, of 5,000 lots: all of them are in the document, found and printed."""
    b = t.browser
    b.devtools("Performance.enable", timeDomain="threadTicks")
    t.to("Orders")
    b.refresh()  # what was found in a document stays in its memory
    b.heading("Orders")
    b.js(OF_LOTS, LONGEST)
    try:
        check_shares(t)
        b.js("location.hash = '#/stock'")
        b.becomes("all('tbody tr').length", LONGEST)
        b.becomes("window.find('L-4321', false, false, true)")
        b.js("location.hash = '#/nowhere'")
        b.heading("There is no such page")
        b.js(OF_LOTS, PRINTED)
        b.js("location.hash = '#/stock'")
        b.becomes("all('tbody tr').length", PRINTED)
        print_sheets(t, "36-paper-longest", PRINTED // 60, PRINTED // 20)
    finally:
        b.refresh()
        b.heading("Stock")


def check_shares(t: Trial) -> None:
    """Measures by the processor time that a table takes which is nothing but its cells, until all is within its bounds.
    A processor that others share, or a slower one, takes as much longer for both."""
    ends, slow = time.monotonic() + PATIENCE, list(SHARES)
    while slow and time.monotonic() < ends:
        t.browser.js("location.hash = '#/nowhere'")
        t.browser.heading("There is no such page")
        plain = spent(t, PLAIN, LONGEST)
        t.browser.js("document.body.lastChild.remove()")
        milliseconds = {name: spent(t, *step) for name, step in STEPS.items()}
        slow = [name for name, share in SHARES.items() if milliseconds[name] >= share * plain]
    print(f"{LONGEST} rows, in processor time: {milliseconds} ms, and a plain table {plain} ms", flush=True)
    fault = f"{slow} of {LONGEST} rows take long: {milliseconds}, a plain table {plain}"
    t.expect(t.browser.slowness or not slow, fault)


def spent(t: Trial, script: str, rows: int, *words: str) -> int:
    """The milliseconds of processor time of the page until it has so many rows, and is at rest."""

    def total() -> float:
        metrics = t.browser.devtools("Performance.getMetrics")["metrics"]
        return float(next(each["value"] for each in metrics if each["name"] == "TaskDuration"))

    before = total()
    t.browser.later(f"const done = [...arguments].at(-1); {{ {script} }} {AT_REST}", *words, rows)
    return round((total() - before) * 1000)


LONGEST, PRINTED = 5000, 200
# The office's stock is one of so many lots, with names in turn; no such office is filled.
OF_LOTS = """const before = window.fetch, [count] = arguments;
const dispositions = ["released", "quarantined", "rejected"];
const lots = Array.from({ length: count }, (_, at) => ({
  lot: `L-${String(at).padStart(4, "0")}`, material: at % 3 ? "DRUM" : "SALT", measure: "kg", amount: at + 1,
  disposition: dispositions[at % 3],
}));
const given = { headers: { "content-type": "application/json" } }, stock = JSON.stringify({ lots });
window.fetch = async (path, ...rest) => path === "/stock" ? new Response(stock, given) : before(path, ...rest)"""
SEARCHED = """one('input[type=search]').value = arguments[0];
one('input[type=search]').dispatchEvent(new Event('input'))"""
# What is done with the list, how many rows it has then, and which words the script takes.
STEPS: dict[str, tuple[Any, ...]] = {
    "drawn": ("location.hash = '#/stock'", LONGEST),
    "searched": (SEARCHED, LONGEST // 5, "L-1"),
    "shown again": (SEARCHED, LONGEST, ""),
    "sorted": ("all('button.sort')[1].click()", LONGEST),
    "left": ("location.hash = '#/nowhere'", 0),
}
SHARES = {"drawn": 0.8, "searched": 0.25, "shown again": 0.4, "left": 0.2}  # of a plain table's time, at most
PLAIN = """const made = (name, inner) => {
  const element = document.createElement(name);
  element.append(...inner);
  return element;
};
const cells = at => ["lot", "material", "amount", "disposition"].map(name => made("td", [`${name} ${at}`]));
const row = (_, at) => made("tr", cells(at));
document.body.append(made("table", [made("tbody", Array.from({ length: 5000 }, row))]));"""
AT_REST = """const rows = [...arguments].at(-2);
const look = () => document.querySelectorAll("tbody tr").length === rows ? setTimeout(done, 200) : setTimeout(look, 20);
look();"""


def far(t: Trial) -> None:
    """A list that is scrolled far down is there again after going back."""
    b = t.browser
    top = scroll_far(t, LARGE_LOTS)
    b.until(lambda: b.js(CLICK_IN_SIGHT), "a lot in sight is clicked")
    b.becomes("text('h1').startsWith('Lot ')")
    t.back_to("Stock")
    b.becomes("Math.abs(scrollY - arguments[0]) < 100", True, top)
    t.to("Orders")
    b.click("button.sort", "Recipe")
    top = scroll_far(t, ORDERS)
    b.click(f"[data-key={b.until(lambda: b.value(IN_SIGHT), 'buttons are in sight')}]")
    b.click("dialog button", "Cancel the order")
    # the text of all of a long list takes long
    b.wait("is cancelled.", "#told")
    b.becomes("Math.abs(scrollY - arguments[0]) < 100", True, top)
    t.shot("36-far-down")


CLICK_IN_SIGHT = """const link = all('tbody a').find(each => each.getBoundingClientRect().top > 200);
link?.click(); return link !== undefined"""
# A button in the middle of the window: to click it moves nothing.
IN_SIGHT = """all('[data-key^=cancel]').find(button => {
    const {top, bottom} = button.getBoundingClientRect();
    return top > 200 && bottom < innerHeight - 200;
})?.dataset.key"""


def scroll_far(t: Trial, rows: int) -> Any:
    """Scrolls far down when all rows are drawn. Gives where the list stands when the window's history has that."""
    t.browser.becomes("all('tbody tr').length", rows)
    t.browser.js("scrollTo(0, 40000)")
    # rows that come into sight are laid out, and may move the list by some pixels
    kept = "history.state?.scroll === scrollY && scrollY"
    return t.browser.until(lambda: t.browser.value(kept), kept)


def folds(t: Trial) -> None:
    """2,190 lots, of which many are alike."""
    b = t.browser
    t.show("#/lots/S-1", "Lot S-1")
    begun = time.monotonic()
    picture = t.pictured()
    seconds = f"{time.monotonic() - begun:.1f} s"
    print(f"a genealogy of 2,190 lots: drawn after {seconds}, as the proxy lets it ask", flush=True)
    t.check_drawing("S-1")
    t.same(picture["boxes"], 3, "the boxes at first")
    t.expect("fold/forward" in str(picture["edges"]), f"no fold among {picture['edges']}")
    t.now("group().startsWith('14 DRUM')")
    t.shot("37-folded")
    b.click("[data-key=more-forward]")
    b.becomes("group().startsWith('44 DRUM')")
    b.click("[data-key=all]")
    b.becomes("group().startsWith('300 DRUM')")
    t.same(t.boxes(), 3, "the boxes of 300 lots that are alike")
    unfold(t, 300)
    t.check_sight("S-1 with 300 others", "ACME/S-1")
    b.into_sight(".picture")
    t.shot("37-unfolded")
    b.js("one('.picture').scrollTo(0, 0)")
    b.click("[data-key=asked]")
    t.check_sight("S-1, asked for again", "ACME/S-1")
    b.click("[data-key=refold]")
    b.becomes("group().startsWith('14 DRUM')")
    b.until(lambda: t.boxes() == 3, "fewer lots are shown")


def unfold(t: Trial, lots: int) -> None:
    """Unfolds a picture's only group until each of its lots has a box."""
    b = t.browser
    while b.seen(".genealogy .group"):
        before = t.boxes()
        # by a key: the box may be out of sight
        b.focus(".genealogy .group")
        b.press("enter")
        b.until(lambda: t.boxes() > before, "lots of the group are shown")
        if before < 60:
            t.check_drawing("S-1, unfolded")
    t.same(t.boxes(), lots + 2, f"the boxes of {lots} lots")


def chain(t: Trial) -> None:
    """A lot within a chain, made of four others: all four are in sight at first, and wholly unfolded too."""
    b = t.browser
    t.show("#/lots/C-16", "Lot C-16")
    before = t.boxes()
    made_of = ("ACME/C-16", "ACME/C-15", "ACME/SU-1", "ACME/Y-16", "HOUSE/W-1")
    t.check_drawing("C-16")
    print_sheets(t, "39-paper-C-16", 2, 4)  # with the table of 51 lots, since the picture is too wide for a sheet
    t.check_sight("C-16", *made_of, "ACME/C-17")
    t.has("C-15, SU-1, Y-16, W-1 (the plant's)", css=".direct")
    t.shot("38-folded-by-steps")
    b.click("[data-key=more-back]")
    b.until(lambda: t.boxes() > before, "a step more is shown")
    t.check_sight("C-16, a step further", *made_of)
    b.click("[data-key=all]")
    b.gone("[data-key=all]")
    t.check_drawing("C-16, wholly unfolded")
    t.check_sight("C-16, wholly unfolded", *made_of, "ACME/C-17")
    for source in ("ACME/SU-1", "HOUSE/W-1"):  # which each lot of the chain was made of
        t.now(f"all('.genealogy .box').filter(box => box.dataset.id === '{source}').length", 1)
    b.into_sight(".picture")
    t.shot("38-unfolded")


def batches(t: Trial) -> None:
    """With a companion, the 2,189 lots of eleven batches are eleven boxes, all in sight at once."""
    b = t.browser
    t.companions.write(t.office)
    try:
        t.show("#/lots/S-1", "Lot S-1")
        t.read_again()
        b.until(lambda: t.boxes() == BATCHES + 1, "each batch has a box")
        groups = [f"group/BIG/{number} | DRUM, quarantined" for number in range(1, BATCHES + 1)]
        t.check_drawing("S-1 by batches")
        t.check_sight("S-1 by batches", "ACME/S-1", *groups)
        print_sheets(t, "39-paper-S-1", 1, 3)  # without the table of 2,190 lots, which is folded
        t.shot("44-by-batches")
        b.focus(f"[data-id='{groups[0]}']")
        b.press("enter")
        b.until(lambda: t.boxes() == BATCHES + 1 + 30, "30 lots of a batch are shown")
        t.check_drawing("S-1, a batch unfolded")
        t.shot("44-a-batch-unfolded")
        b.click("[data-key=refold]")
        b.until(lambda: t.boxes() == BATCHES + 1, "the lots are folded again")
    finally:
        t.companions.clear()
