"""A day of 40 entries at the screens takes half the keys of the terminal, though each touch counts as a key, too.

The day is done in a real browser by a scanner, by touch and by few keys. At the terminal it is the words that the journal has
of each entry, without the lot, its owner and its place where a label has them, and with `next` for a key; what stands in
front, such as `sudo -u toll hilpoven`, and the Enter behind it count as one key. So both are as short as can be.
"""
from dataclasses import dataclass
from datetime import timedelta

import pytest
import browsing
import mistakes
from conftest import ORIGIN, PERSONS
from hilpoven.core.days import day_of, today
from plants import AT_WORK, Plant

site, screens = browsing.site, browsing.screens  # fixtures

ENTRIES = 40
MEANT = "Is this meant?"  # what a page asks before something unusual is recorded


@dataclass
class Entered:
    """An entry: what was typed into the fields of its form, the words that the journal has of it, and what its form sent: its path,
    its fields, and the choices of each that is touched."""

    typed: dict[str, str]
    words: list[str]
    path: str
    fields: dict[str, str]
    choices: dict[str, list[str]]


@pytest.fixture
def at_work(program, plant) -> Plant:
    """An office at work whose days are of this week."""
    first = day_of(today() - timedelta(3))
    return plant.lay(AT_WORK.replace(" 101", f" {first}").replace(" 102", f" {first}"))


class Day:
    """A day of a foreman at a screen."""

    def __init__(self, screen, office) -> None:
        self.screen, self.office, self.entries, self.questions = screen, office, list[Entered](), 0

    def fill(self, within: str, shown: str, **typed: str) -> None:
        """Types into the fields of a form, or touches what is offered for them, records it, and waits for what the page says then."""
        for name in [*typed]:
            choice = f'{within} [name={name}_chosen][value="{typed[name]}"]'
            if self.screen.has(choice):
                self.screen.touch(choice)
                del typed[name]
            else:
                self.screen.type(name, typed[name], within)
        self.record(f"{within} button:not(.quiet)", shown, typed)

    def record(self, button: str, shown: str, typed: dict[str, str] | None = None) -> None:
        """Records a form by its button, and says of what is unusual that it is meant."""
        path, fields, choices = self.screen.sends(button)
        self.screen.touch(button)
        if not self.screen.shows(shown, MEANT):
            self.questions += 1
            self.screen.touch("button[name=answer]")
            self.screen.shows(shown)
        words = next(line["words"] for line in reversed(self.office.lines()) if line.get("words"))
        self.entries.append(Entered(typed or {}, words, path, dict(fields), choices))

    def receive(self, lot: str, place: str, amount: str) -> None:
        """A receipt."""
        self.screen.touch(".bar a[href='/receive']")
        self.screen.touch(".tiles a[href='?owner=ACME']")
        self.screen.touch(".tiles a[href$='material=SALT']")
        self.fill("form.card", f"of SALT received into lot {lot}", lot=lot, sublot=place, amount=amount)

    def batch(self, number: int) -> None:
        """A batch: what goes in by its labels, one of them by mistake, and what comes out."""
        self.screen.open("/order/ACME/O-1")
        self.screen.touch("input[value=MIXER]")
        self.record("form.card button.main", "opened on MIXER")
        self.record("input[value=start] + button", "running")
        for label, amount in (("ACME/S-1/BAY1", "100"), ("ACME/S-1/BAY1", "200"), ("HOUSE/W-101/TANK", "500"), ("HOUSE/W-101/TANK", "")):
            self.screen.scan(label)
            self.screen.shows("released")
            self.fill("form.take", "went in", **({"amount": amount} if amount else {}))
        self.record(".notice button", "taken back")
        self.screen.scan("HOUSE/W-101/TANK")
        self.screen.shows("released")
        self.fill("form.take", "went in")
        for place, amount in (("TOTE3", "500"), ("TOTE4", "480")):
            self.fill("section.span form[data-draft]", "came out into", lot=f"B-{number}", sublot=place, amount=amount)
        self.record("input[value=done] + button", "complete")
        self.record(".head form:has(input[value=close]) button", "closed")

    def lot(self, label: str) -> None:
        """Finds a lot by its label."""
        self.screen.open("/")
        self.screen.scan(label)
        self.screen.shows("Where it is")

    def result(self, test: str, value: str) -> None:
        """A result of the lot that is shown."""
        self.fill(f"form.inline:has(input[value={test}])", f"{test} of lot", value=value)

    def ship(self, label: str, amount: str) -> None:
        """A shipment."""
        self.screen.touch(".bar a[href='/ship']")
        self.screen.scan(label)
        self.screen.shows("Who gets it?")
        self.screen.touch("input[value=NORD]")
        self.fill("form.card", "shipped to NORD", amount=amount)

    def work(self) -> list[Entered]:
        """All of it: 40 entries."""
        for number in range(6):
            self.receive(f"S-1{number}", f"BAY{number + 2}", "500")
        for number in (2, 3):
            self.batch(number)
            self.lot(f"ACME/B-{number}/TOTE3")
            self.result("DENSITY", "1180")
        self.lot("ACME/B-1/TOTE1")
        self.result("PH", "7")
        self.screen.touch("details:has(form[data-draft^=scrap]) summary")
        self.screen.touch("form[data-draft^=scrap] input[value=TOTE2]")
        self.fill("form[data-draft^=scrap]", "scrapped from", amount="5", reason="sample")
        for place in ("BAY8", "BAY9"):
            self.screen.touch("details:has(form[data-draft^=split]) summary")
            self.screen.touch("form[data-draft^=split] input[value=TOTE1]")
            self.fill("form[data-draft^=split]", f"moved from TOTE1 to {place}", target=place, amount="20")
        self.lot("BOLT/P-1/BAY2")
        self.fill("form[data-draft^=hold]", "Lot P-1 held", reason="torn bag")
        self.fill("form:has(input[value=sign])", "Lot P-1 signed", password=PERSONS["frida"][0])
        with self.office.serve() as server:
            assert server.ask("ACME", "POST", "/lots/B-1/release")[0] == 200
        for amount in ("400", "100"):
            self.ship("ACME/B-1/TOTE1", amount)
        return self.entries


def typed_words(entry: Entered) -> list[str]:
    """What is typed of an entry at a terminal."""
    reason = ["--reason", f"'{entry.typed['reason']}'"] if "reason" in entry.typed else []
    return [entry.words[0], *mistakes.typed_at_terminal(entry).values(), *reason]


@pytest.mark.parametrize("width, height, is_dark", [(390, 844, True), pytest.param(1024, 768, False, marks=pytest.mark.long)])
def test_a_day_takes_half_the_keys(screens, office, width, height, is_dark):
    screen = screens(width=width, height=height, is_dark=is_dark)
    screen.log_in("frida")
    screen.keys = screen.touches = 0
    day = Day(screen, office)
    entries = day.work()
    assert len(entries) == ENTRIES
    keys = sum(len(" ".join(typed_words(entry))) + 1 for entry in entries)
    print(f"{ENTRIES} entries: screens {screen.keys} keys and {screen.touches} touches, {day.questions} questions; terminal {keys} keys")
    assert 2 * (screen.keys + screen.touches) <= keys


@pytest.mark.long
def test_a_day_makes_half_the_wrong_records(screens, office, desk, browse, tmp_path):
    morning, screen = mistakes.Saved(office, tmp_path / "morning"), screens()
    screen.log_in("frida")
    entries = Day(screen, office).work()
    desk.origin, counts = ORIGIN, []
    for count in (mistakes.at_screens, mistakes.at_terminal):
        morning.set_back()
        counts.append(count(browse("frida"), office, entries, tmp_path / "slips"))
    for name, counted in zip(("screens", "terminal"), counts):
        print(f"{name}: {sum(counted.values()):.0f} wrong records: {mistakes.listed(counted)}")
    assert 2 * sum(counts[0].values()) <= sum(counts[1].values())
