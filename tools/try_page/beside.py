"""What the page shows with a companion, by which the plant says more than the replies do, and without a valid one."""
import contextlib
import json
from collections.abc import Iterator
from typing import Any

from .browser import Browser
from .companion import Change, dated
from .owners import nothing_of_acme
from .trial import Trial
from .troubles import AWAY

REWORK: dict[str, Any] = {"from": {"owner": "ACME", "lot": "S-5"}, "to": {"owner": "ACME", "lot": "BL-1"}}
REWORK |= {"why": "rework", "text": "too thin"}
# Runs in each document before the page's own scripts: what the page does each minute, it does twice a second.
SOON = """{
    const set = window.setInterval;
    window.setInterval = (act, rest) => set(act, rest >= 60000 ? 500 : rest);
}"""


@contextlib.contextmanager
def companion_offered(t: Trial, change: Change = lambda value: None) -> Iterator[Browser]:
    """ACME is logged in, and the site has its companion meanwhile."""
    t.companions.write(t.office, change=change)
    try:
        t.to_home_of("ACME")
        yield t.browser
    finally:
        t.companions.clear()


def again(t: Trial, change: Change = lambda value: None) -> None:
    """The companion is written anew with this change, and the view is read again."""
    t.companions.write(t.office, change=change)
    t.read_again()


def needs(t: Trial, title: str) -> list[str]:
    """The rows of a part of Home, as soon as it is there."""
    t.browser.becomes("needs(arguments[0]) !== null", True, title)
    return list(t.browser.value("needs(arguments[0])", title))


def check_needs(t: Trial, title: str, *begins: str) -> None:
    """Looks whether a part of Home has rows that begin so."""
    rows = needs(t, title)
    missing = [words for words in begins if not any(row.startswith(words) for row in rows)]
    t.expect(not missing, f"{title} has no {missing}: {rows}")


def home(t: Trial) -> None:
    """What needs the owner, and what is new."""
    t.office.do(
        """receive ACME HOME1 BRINE B-80 TOTE1 100 105
        receive ACME HOME2 BRINE B-81 TOTE1 100 105
        result ACME B-81 DENSITY 900 105"""
    )
    with companion_offered(t) as b:
        check_needs(t, "Failed tests", "B-81 BRINE, 100 kg DENSITY is 900, below its limit of 1,100.")
        check_needs(t, "Lots that wait for the plant", "B-80 BRINE, 100 kg DENSITY has no result yet.")
        check_needs(t, "Lots to release", "S-3 SALT")
        rows = needs(t, "Batches held or aborted")
        states = [["O-1/2", "held"], ["O-1/4", "aborted"]]
        t.same([row.split()[:2] for row in rows], states, "batches that stand")
        t.expect("the stirrer stands" in rows[0], f"why a batch is held: {rows}")
        news = needs(t, "Received, made and shipped")
        t.expect(any("shipped to Northern Drums Ltd" in row for row in news), f"no shipment in {news}")
        t.has("Hilltop Blending", css="#plant")
        t.shot("50-home")
        b.click(".need .ways a", "30 days")
        b.becomes("location.hash === '#/home?days=30' && seen('.ways a[aria-current]', '30 days') !== null")
        t.follow(".need a", "B-81", "Lot B-81")
    # the same without a companion: what the office's replies have
    t.browser.get(f"{t.proxy.address}#/home")
    t.read_again()
    check_needs(t, "Lots in quarantine", "B-80")
    t.shot("50-home-without")


def limits(t: Trial) -> None:
    """A lot's limits, verdicts and reasons; and the office's own results, which decide."""
    t.office.do("receive ACME LIM1 BRINE B-90 TOTE1 100 101\nresult ACME B-90 DENSITY 1300 101")

    def held(value: dict[str, Any]) -> None:
        why = [{"reason": "plant-hold", "text": "mixed up with B-91"}, {"reason": "unsigned"}]
        row = next(row for row in value["lots"] if row["lot"] == "B-90")
        row.update(expires=dated(103), release={"possible": False, "why": why})

    with companion_offered(t) as b:
        t.show("#/lots/B-90", "Lot B-90")
        b.wait("DENSITY is 1,300, above its limit of 1,250.")
        t.has("1,100 to 1,250", "above its limit")
        t.now("one('[data-key=release]').disabled")
        t.pictured()
        t.shot("51-limits")
        t.office.do("result ACME B-90 DENSITY 1200 102")
        t.read_again()
        b.find("[data-key=release]:enabled")
        again(t, held)
        b.wait("The plant holds it: mixed up with B-91.")
        t.has("The plant's quality hasn't signed it yet.", "It expired on")
        t.now("one('[data-key=release]').disabled")
        t.pictured()
        t.shot("51-held")
        again(t)
        b.find("[data-key=release]:enabled")
        b.click("button", "Release", says="Lot B-90 is released.")
        t.pictured()
        # who has what was shipped
        t.to_lot("DR-1", is_pictured=False)
        b.wait("Northern Drums Ltd")
        t.pictured()
        t.check_file("csv-DR-1-shipments", ["NORTH|120"], "Recipient", "Amount")
        t.shot("52-shipments")


def tracing(t: Trial) -> None:
    """A lot of the plant is found by its name."""
    with companion_offered(t) as b:
        b.type("input[name=trace]", "w-101")
        b.press("enter")
        b.heading("Lot W-101 of the plant")
        t.back_to("Home")
        b.type("input[name=trace]", "NOPE")
        b.click("button", "Trace", says="You have no lot NOPE, and none of your batches consumed a lot NOPE")
        b.type("input[name=trace]", "W-1 1")
        b.click("button", "Trace")
        t.now("wrongField()", "trace")
        b.type("input[name=trace]", "BL-1")
        t.follow("button", "Trace", "Lot BL-1")
        t.to("Stock")
        b.type("input[type=search]", "W-101")
        b.wait("is a lot of the plant. It went into")
        t.shot("53-plants-lot-searched")
        t.follow(".beyond-list a", "W-101", "Lot W-101 of the plant")
        t.back_to("Stock")
        b.wait("is a lot of the plant. It went into")


def progress(t: Trial) -> None:
    """An order's batches with measures and the lots that they made."""
    with companion_offered(t) as b:
        t.to_order("O-1")
        b.wait("Batch 5")
        t.has("700 liter", "980 kg")
        t.shot("54-order")
        t.has("The plant noted: the stirrer stands")
        t.follow(".made a", "B-1", "Lot B-1")


def finished(t: Trial) -> None:
    """An order all of whose batches are closed stands apart, and its own view needs no companion for that."""

    def with_days(value: dict[str, Any]) -> None:
        value["orders"] = [{"order": "O-1", "placedOn": 261102}, {"order": "O-2", "placedOn": 261103}]
        for row in value["batches"]:
            row["openedOn"] = 261104
            row |= {"closedOn": 261105} if row.get("closed") else {}

    with companion_offered(t, with_days) as b:
        b.wait("Finished orders")
        t.follow(".facts a[href='#/orders?status=finished']", None, "Orders")
        t.now("[cells(0), cells(3)]", [["O-2"], ["finished"]])
        t.now("[4, 5, 6].map(at => cells(at)[0])", ["2026-11-03", "2026-11-04", "2026-11-05"])
        t.shot("58-finished")
        b.choose("select[name=status]", "open")
        b.becomes("cells(0).length > 0 && !cells(0).includes('O-2')")
        records, _ = t.downloaded("csv-orders")
        t.same({record["Status"] for record in records}, {'="open"'}, "the file of open orders")
        t.to("Orders")
        past = "all('tbody tr.past').map(row => row.cells[3].textContent)"
        b.becomes(f"cells(3).slice(-{past}.length).join() === {past}.join() && {past}[0]", "finished")
        t.to_order("O-1")
        b.wait("Opened on 2026-11-04. Closed on 2026-11-05.")
        t.has("Placed on\n2026-11-02", css=".facts")
        t.shot("58-days")
    t.read_again()
    t.to_order("O-2")
    b.wait("1 of 1")
    b.wait("finished", "h1")
    t.to_order("O-1")
    b.wait("5 of 6")
    t.has("open", css="h1")


def newcomer(t: Trial) -> None:
    """An owner who never ordered anything is offered the recipes that the plant defined."""
    t.office.do(
        """owner-add NEWCO NEWCOKEY1
        material-add NEWCO SYRUP kg
        receive NEWCO NEW1 SYRUP SY-1 BAY9 40 105
        recipe-add NEWCO SYRUP-1 1
        require NEWCO SYRUP-1 1 produced NEWCO SYRUP 10
        > NEWCO NEWCOKEY1 POST /lots/SY-1/release"""
    )
    b = t.entered("NEWCO")
    b.wait("No orders yet.")
    offered = "all('select[name=recipe] option').map(option => option.value)"
    t.now(offered, [])
    t.has("Ask the plant for the names of your recipes.")
    use = {"segment": 1, "use": "consumed", "owner": "NEWCO"}
    lines = [
        {**use, "material": "SYRUP", "amount": 30},
        {**use, "owner": "HOUSE", "material": "WATER", "amount": 70},
        {**use, "use": "produced", "material": "SYRUP", "amount": 10},
    ]
    recipe = {"recipe": "SYRUP-1", "segments": 1, "lines": lines}
    t.companions.write(t.office, "NEWCO", lambda value: value.update(recipes=[recipe]))
    try:
        t.read_again()
        b.becomes(offered, ["", "SYRUP-1"])
        t.lacks("Ask the plant")
        b.type("input[name=order]", "FIRST")
        b.choose("select[name=recipe]", "SYRUP-1")
        b.type("input[name=batches]", "3")
        b.becomes("all('.needs tbody tr').length", 2)
        needed = "all('.needs tbody tr').map(row => [...row.cells].map(cell => cell.innerText.trim()))"
        t.now(
            needed,
            [["SYRUP", "90 kg", "40 kg", "0 kg", "50 kg missing"], ["WATER the plant's", "210 liter", "", "", ""]],
        )
        t.has("It makes 30 kg SYRUP.")
        t.shot("59-newcomer")
        b.click("button", "Place the order", says="Order FIRST is placed: 3 × SYRUP-1.")
        b.becomes("[fields('order', 'recipe'), all('.needs tbody tr').length]", [["", ""], 0])
    finally:
        t.companions.clear()
    t.log_off()


def judged(t: Trial) -> None:
    """Results of the plant's own test are words."""
    t.office.do(
        """material-add ACME GLUE kg
        test-add ACME GLUE ADHESION 1 9
        test-add ACME GLUE QA 1 1
        receive ACME GLUE1 GLUE G-1 BAY1 100 101
        result ACME G-1 ADHESION 5 101
        result ACME G-1 QA 0 101
        result ACME G-1 QA 1 102"""
    )

    def without_own(value: dict[str, Any]) -> None:
        glue = next(row for row in value["materials"] if row["material"] == "GLUE")
        glue["tests"] = [test for test in glue["tests"] if test["test"] != "QA"]
        next(row for row in value["lots"] if row["lot"] == "G-1")["signed"] = {"day": dated(102)}

    with companion_offered(t, without_own):
        t.to_lot("G-1")
        own = "QA the plant's own test"
        wanted = [
            ["ADHESION", "5", "101", "passes", "counts"],
            [own, "", "101", "held by the plant", "earlier"],
            [own, "", "102", "signed by the plant", "counts"],
        ]
        t.now("rowsOf('Results')", wanted)
        records, _ = t.downloaded("csv-G-1-results")
        verdicts = [("0", '="held by the plant"'), ("1", '="signed by the plant"')]
        t.same([(record["Value"], record["Verdict"]) for record in records[1:]], verdicts, "the file of the results")
        t.has("The plant has recorded no shipment of this lot.")
        t.lacks("None was recorded")
        t.shot("60-judged")


def noted(t: Trial) -> None:
    """A link that the plant noted is drawn apart."""
    with companion_offered(t, lambda value: value["links"].append(REWORK)) as b:
        t.to_lot("BL-1", is_pictured=False)
        b.wait("rework of S-5 (too thin)")
        b.until(lambda: "ACME/S-5>ACME/BL-1" in t.pictured()["edges"], "the link is drawn")
        t.now("all('.edge.noted').map(edge => `${edge.dataset.from}>${edge.dataset.to}`)", ["ACME/S-5>ACME/BL-1"])
        t.check_drawing("BL-1 with a link")
        t.shot("55-noted")


def foreign(t: Trial) -> None:
    """What is no companion of this owner counts as none."""
    file = t.companions.folder / "ACME.json"
    with companion_offered(t) as b:
        b.wait("Failed tests")
        whole = file.read_text()
        value = json.loads(whole)
        others = [json.dumps(value | {"version": 2}), json.dumps(value | {"owner": "BOLT"})]
        for content in ("<html>Welcome", whole[:-5], *others, '{"error":"NoRoute"}'):
            t.companions.put("ACME", content)
            t.read_again()
            b.wait("Lots in quarantine")
            t.now("[text('#wrong'), text('#who .owner')]", ["", "ACME"])
            t.companions.put("ACME", whole)
            t.read_again()
            b.wait("Failed tests")


def newer(t: Trial) -> None:
    """The companion is asked for each minute, and one that comes late is shown when it is there."""
    b = t.browser
    with t.in_each_document(SOON), companion_offered(t):
        b.wait("Failed tests")
        t.companions.write(t.office, change=lambda value: value["batches"][0].update(state="held", closed=False))
        b.becomes("needs('Batches held or aborted')?.some(row => row.startsWith('O-1/1 held'))")
        t.to_lot("DR-2")
        t.companions.write(t.office)
        b.wait("The plant has recorded more since.")
        t.read_again()
        b.becomes("text('main').includes('The plant has recorded more')", False)
        t.log_off()
        with t.slow("/companion", 5000):
            t.log_in("ACME")
            b.wait("Failed tests")


def departed(t: Trial) -> None:
    """Nothing of an owner's companion stays for who logs in after it."""
    with companion_offered(t) as b:
        b.wait("Failed tests")
        t.to_lot("DR-1", is_pictured=False)
        b.wait("Northern Drums Ltd")
        t.pictured()
        t.log_off()
        nothing_of_acme(t, "after logging off with a companion")
        t.log_in("BOLT")
        b.wait("Lots in quarantine")
        nothing_of_acme(t, "when another has logged in, who has no companion")
        t.lacks("Northern", css="body")


def reachable(t: Trial) -> None:
    """If the office can't be reached, the page says whom to ask."""
    with companion_offered(t) as b:
        b.wait("Failed tests")
        t.office.end()
        b.click("#nav a", "Stock")
        b.wait(AWAY, "#sign")
        b.wait("If it stays so, ask Hilltop Blending: +00 555 0100.", "#sign")
        t.shot("56-whom-to-ask")
        t.office.start()
        b.heading("Stock")


def drafts(t: Trial) -> None:
    """A new order that is half typed stays, and an old notice goes when the next entry is checked."""
    b = t.entered()
    t.place("O-DRAFT", batches=2, says="Order O-DRAFT is placed")
    b.type("input[name=order]", "HALF")
    b.type("input[name=recipe]", "BRI")
    half = "one('h1') && fields('order', 'recipe')", ["HALF", "BRI"]
    t.read_again()
    b.becomes(*half)
    t.cancel("O-DRAFT")
    b.wait("Order O-DRAFT is cancelled.")
    t.now(*half)
    t.to("Stock")
    t.to("Orders")
    t.now(*half)
    b.click("button", "Place the order")
    b.wait("You have no recipe of this name.", "#wrong")
    b.type("input[name=order]", "A B")
    b.click("button", "Place the order")
    b.becomes("text('#wrong')", "")
    t.log_off()
    t.log_in("ACME")
    t.to("Orders")
    t.now("fields('order', 'recipe')", ["", ""])


VIEWS = [
    ("home", "#/home", "Home"),
    ("orders", "#/orders", "Orders"),
    ("order", "#/orders/O-1", "Order O-1"),
    ("stock", "#/stock?show=all", "Stock"),
    ("lot", "#/lots/BL-1", "Lot BL-1"),
    ("plants-lot", "#/plant/W-101", "Lot W-101 of the plant"),
]
DARK, FORCED = {"prefers_color_scheme": "dark"}, {"forced_colors": "active"}
# What tells the menu's items apart.
ITEMS = """all('#nav a').map(item => {
    const {borderBottomColor, color, textDecorationLine} = getComputedStyle(item);
    return [borderBottomColor, color, textDecorationLine].join();
})"""


def colours(t: Trial) -> None:
    """Each view in the dark, and with forced colours. Of the menu's items, one alone looks current."""
    with companion_offered(t, lambda value: value["links"].append(REWORK)) as b:
        try:
            for name, features in (("dark", DARK), ("forced", FORCED), ("forced-dark", FORCED | DARK)):
                b.colours(**features)
                for view, address, heading in VIEWS:
                    t.show(address, heading)
                    if view == "order":
                        b.wait("Batch 5")
                    if "lot" in view:
                        t.pictured()
                    t.shot(f"57-{name}-{view}")
                t.now(f"[{ITEMS}.length > 2, new Set({ITEMS}).size]", [True, 2])
        finally:
            b.colours()
