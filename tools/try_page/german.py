"""The page in German, at three widths and on paper: each text is German but for the office's own words."""
from typing import Any

from .beside import companion_offered
from .companion import dated
from .trial import Trial
from .ways import print_sheets

# Texts of the view that are a text of the page in English, whose German is another.
ENGLISH = """const done = [...arguments].at(-1);
import(new URL("texts/de.js", location.href)).then(({ DE }) => {
  const walker = document.createTreeWalker(document.body, NodeFilter.SHOW_TEXT);
  const english = [], kept = ["released", "quarantined", "rejected"];
  while (walker.nextNode()) {
    const text = walker.currentNode.data.trim();
    if (Object.hasOwn(DE.texts, text) && DE.texts[text] !== text && !kept.includes(text)) english.push(text);
  }
  const labels = [...document.querySelectorAll("[aria-label], [title]")].flatMap(each => [each.ariaLabel, each.title]);
  done([...english, ...labels.filter(text => text && Object.hasOwn(DE.texts, text) && DE.texts[text] !== text)]);
}, why => done([String(why)]));"""
VIEWS = [
    ("home", "#/home", "Übersicht"),
    ("orders", "#/orders", "Aufträge"),
    ("order", "#/orders/O-1", "Auftrag O-1"),
    ("stock", "#/stock?show=all", "Bestand"),
    ("material", "#/stock?by=material", "Bestand"),
    ("release", "#/release", "Chargen freigeben"),
    ("lot", "#/lots/BL-1", "Charge BL-1"),
    ("plants-lot", "#/plant/W-101", "Charge W-101 des Werks"),
    ("nowhere", "#/nowhere", "Diese Seite gibt es nicht"),
]
WIDTHS = {"wide": 1440, "middle": 1024, "phone": 390}


def german(t: Trial) -> None:
    t.office.do("receive ACME GER1 BRINE B-70 TOTE1 100 105\nresult ACME B-70 DENSITY 900 105")

    def with_recipe_and_days(value: dict[str, Any]) -> None:
        line = {"segment": 1, "use": "consumed", "owner": "ACME", "material": "SALT", "amount": 300}
        value["recipes"] = [{"recipe": "BRINE-10", "segments": 1, "lines": [line]}]
        value["orders"] = [{"order": "O-1", "placedOn": dated(101)}]
        row = next(row for row in value["lots"] if row["lot"] == "BL-1")
        row.update(held={"day": dated(103), "text": "wet bag"}, expires=dated(103))

    b = t.browser
    agent = b.value("navigator.userAgent")
    with companion_offered(t, with_recipe_and_days):
        t.log_off()
        b.devtools("Emulation.setUserAgentOverride", userAgent=agent, acceptLanguage="de-AT,de,en")
        try:
            b.refresh()
            b.heading("Anmelden")
            see(t, "log-in")
            b.type("input[name=owner]", "ACME")
            b.type("input[name=key]", "ACMEKEY9")
            b.click("button", "Anmelden")
            b.wait("Der Name oder der Schlüssel ist falsch.", "#wrong")
            b.type("input[name=key]", "ACMEKEY1")
            b.click("button", "Anmelden")
            b.heading("Übersicht")
            t.now("document.documentElement.lang", "de")
            for name, width in WIDTHS.items():
                b.phone(width)
                for view, address, heading in VIEWS if name != "middle" else VIEWS[4:7]:
                    t.show(address, heading)
                    if view == "order":
                        b.wait("Ansatz 5")
                    if "lot" in view:
                        t.pictured()
                    see(t, f"{name}-{view}")
            b.devtools("Emulation.clearDeviceMetricsOverride")
            words_and_numbers(t)
        finally:
            b.devtools("Emulation.clearDeviceMetricsOverride")
            b.devtools("Emulation.setUserAgentOverride", userAgent=agent, acceptLanguage="en")
    b.js("location.hash = '#/home'")
    b.refresh()
    b.heading("Home")


def see(t: Trial, name: str) -> None:
    t.shot(f"70-german-{name}")
    t.same(t.browser.later(ENGLISH), [], f"what {name} says in English")


def words_and_numbers(t: Trial) -> None:
    """Plurals, days and numbers, and what is told of what was done."""
    b = t.browser
    t.show("#/lots/B-70", "Charge B-70")
    b.wait("DENSITY ist 900, unter der Grenze von 1.100.")
    t.pictured()
    t.show("#/lots/BL-1", "Charge BL-1")
    t.pictured()
    t.expect(b.value(r"/Sie war haltbar bis \d\d\.\d\d\.\d{4}\./.test(text('main'))"), "a day in German")
    print_sheets(t, "71-paper-german-lot", 1, 3)
    t.show("#/orders", "Aufträge")
    b.type("input[name=order]", "O-DE")
    b.choose("select[name=recipe]", "BRINE-10")
    b.wait("Andere Aufträge brauchen vielleicht denselben Bestand.")
    b.click("button", "Auftrag erteilen", says="Auftrag O-DE ist erteilt: 1 × BRINE-10.")
    b.click("button[data-key=cancel-O-DE]")
    t.has("Ein stornierter Auftrag bleibt storniert.", css="dialog")
    see(t, "question")
    b.click("dialog button", "Auftrag stornieren", says="Auftrag O-DE ist storniert.")
    print_sheets(t, "71-paper-german-orders", 1, 2)
