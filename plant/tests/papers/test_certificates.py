"""Certificates say what was noted and measured, by a reckoning of their own: names, days, methods, limits, values."""
import base64
import datetime
import html.parser
import pathlib
import random
import re
import string
import subprocess
from decimal import Decimal

import figures
import pytest
from conftest import Plant, site
from hilpoven.core.journal.log import Journal
from hilpoven.model import notes as facts
from hilpoven.model.kinds import Role
from hilpoven.model.notes import Party
from hilpoven.model.register.noted import to_json

OWNERS = ("ACME", "BOLT")
FEW, MANY = 12, 200  # certificates
DATES = {261101: "2026-11-01", 270228: "2027-02-28", 280229: "2028-02-29", 271231: "2027-12-31"}
PLANT = {"name": "Hill Tolling Ltd", "address": "Works Lane 5, Leeds", "contact": "quality@hill.example", "approver": "Anna Berg, Head of Quality"}
PIXEL = base64.b64decode("iVBORw0KGgoAAAANSUhEUgAAAAEAAAABCAYAAAAfFcSJAAAADUlEQVR42mNk+M9QDwADhgGAWjR9awAAAABJRU5ErkJggg==")
HOSTILE = ("<script>alert('x')</script> & {{ 1 }} %s", "x" * 200, "שלום עולם العربية", "url(http://x.example/)</style>")


class Page(html.parser.HTMLParser):
    """What stands on a certificate: its title, its facts, and the rows of its table."""

    def __init__(self, file: pathlib.Path) -> None:
        super().__init__()
        self.texts: dict[str, list[str]] = {name: [] for name in ("h1", "dt", "dd", "td", "tr")}
        self.rows: list[list[str]] = []
        self.inside = ""
        self.feed(file.read_text())
        self.title, self.facts = self.texts["h1"][0], dict(zip(self.texts["dt"], self.texts["dd"], strict=True))
        self.rows = [[" ".join(cell.split()) for cell in row] for row in self.rows if row]

    def handle_starttag(self, tag: str, attrs: object) -> None:
        if tag == "tr":
            self.rows.append([])
        if tag == "td":
            self.rows[-1].append("")
        if tag in self.texts:
            self.inside = tag
            self.texts[tag].append("")

    def handle_endtag(self, tag: str) -> None:
        self.inside = "" if tag in self.texts else self.inside

    def handle_data(self, data: str) -> None:
        if self.inside == "td":
            self.rows[-1][-1] += data
        elif self.inside:
            self.texts[self.inside][-1] += data


def note(plant: Plant, *notes: facts.Note) -> None:
    """Notes something, as commands do."""
    journal = Journal(str(plant.journal), str(plant.db))
    journal.note(journal.file, ["note"], notes=[to_json(fact) for fact in notes])


def as_word(value: int) -> str:
    """A value as a word of `toll`."""
    return str(value) if value >= 0 else f"M{-value}"


class Certified:
    """An office with lots of two owners, of which much is noted by chance, and what certificates of them are to say."""

    def __init__(self, plant: Plant, seed: int, count: int) -> None:
        self.plant, self.chance = plant, random.Random(seed)
        self.words: dict[str, set[str]] = {owner: set() for owner in OWNERS}
        self.wanted: dict[tuple[str, str, str], tuple[str, dict[str, str], list[list[str]], bool]] = {}  # by owner, lot and key of a shipment
        self.laid, self.results, self.bounds, self.releases, self.ships = [f"owner-add {owner} {owner}KEY1" for owner in OWNERS], [], [], [], []
        self.owners = {owner: facts.OwnerFacts(owner, self.text(owner), self.maybe(owner)) for owner in OWNERS}
        self.parties = {owner: Party(owner, "NORD", self.text(owner), self.maybe(owner), roles=(Role.CUSTOMER,)) for owner in OWNERS}
        self.notes = [*self.owners.values(), *self.parties.values()]
        for number in range(count):
            self.add_lot(self.chance.choice(OWNERS), number)
        plant.lay("\n".join([*self.laid, *self.results]))
        note(plant, *self.notes)
        for words in self.bounds:
            assert plant.run("result", *words).out == "accepted\n", words
        plant.lay("\n".join(self.releases))
        for words in self.ships:
            assert plant.run("ship", *words).out == "accepted\n", words

    def text(self, owner: str) -> str:
        """A text of an owner, of words that nothing else has."""
        words = ["".join(self.chance.choices(string.ascii_letters, k=9)) for _ in range(self.chance.randint(1, 3))]
        self.words[owner] |= set(words)
        return self.chance.choice((" ", ", ", " & ", " <b> ")).join(words)

    def maybe(self, owner: str) -> str:
        """Such a text, or none."""
        return self.text(owner) if self.chance.random() < 0.6 else ""

    def add_lot(self, owner: str, number: int) -> None:
        """A lot of a material of its own, with tests and results, and mostly a shipment of it."""
        material, lot, key = f"MAT{number}", f"LOT{number}", ""
        self.laid.append(f"material-add {owner} {material} kg")
        rows = [self.add_test(owner, material, lot, f"T{at}") for at in range(self.chance.choice((0, 1, 1, 2, 4)))]
        self.laid.append(f"receive {owner} R{number} {material} {lot} S1 90000 261101")
        is_released = all(row[-1] == "pass" for row in rows)
        name, days = self.maybe(owner), {event: self.chance.choice([*DATES, None]) for event in ("made", "expires", "retest")}
        self.notes += [facts.MaterialFacts(owner, material, name), facts.LotFacts(owner, lot, **days)]
        noted = self.owners[owner]
        wanted = {"material": f"{name} ({material})" if name else material, "lot": lot, "owner": f"{noted.name} ({owner})", "owner's address": noted.address, "comes from": "receipts",
                  **{word: DATES.get(days[event], "") for event, word in (("made", "made"), ("expires", "expires"), ("retest", "to be tested again"))}}
        self.releases += [f"> {owner} POST /lots/{lot}/release"] if is_released else []
        if is_released and self.chance.random() < 0.6:
            key, amount, document, party = f"K{number}", self.chance.randint(1, 90_000), self.text(owner), self.parties[owner]
            self.ships.append((owner, key, lot, "S1", amount, 261105, "--to", "NORD", "--document", document))
            wanted |= {"shipped": f"{amount:,} kg", "on": "2026-11-05", "recipient": party.name, "address": party.address, "document": document}
        title = f"Certificate of {'analysis' if any(row[-1] != 'no result' for row in rows) else 'release'}: {lot}"
        is_past = any(days[event] and days[event] < int(f"{datetime.date.today():%y%m%d}") for event in ("expires", "retest"))
        self.wanted[owner, lot, key] = title, {name: text for name, text in wanted.items() if text}, rows, is_released and not is_past

    def add_test(self, owner: str, material: str, lot: str, name: str) -> list[str]:
        """Adds a test, of which much is noted, and mostly a result of the lot. It gives the row of a certificate: the test, its full
        name, the method, the limits, the result, the unit, the day and the verdict."""
        decimals, low = self.chance.choice((0, 0, 1, 2, 3)), self.chance.choice((0, -70_000, 650))
        high, full_name, unit, method = low + self.chance.randint(1, 20_000), self.maybe(owner), self.maybe(owner), self.maybe(owner)
        self.laid.append(f"test-add {owner} {material} {name} {as_word(low)} {as_word(high)}")
        self.notes.append(facts.TestFacts(owner, material, name, full_name, unit, decimals, method))
        low_text, high_text, *values = (f"{Decimal(measured).scaleb(-decimals):,.{decimals}f}" for measured in (low, high, low, high, high + 1, (low + high) // 2))
        row = [name, full_name, method, low_text, high_text]
        if self.chance.random() < 0.2:
            return [*row, "", unit, "", "no result"]
        at = self.chance.choice((0, 1, 1, 2, 3, 3))
        is_bound = low == 0 and at in (1, 3) and high > 1 and self.chance.random() < 0.3
        if is_bound:
            self.bounds.append((owner, lot, name, f"<{values[at].replace(',', '')}", 261102))
        else:
            self.results.append(f"result {owner} {lot} {name} {as_word((low, high, high + 1, (low + high) // 2)[at])} 261102")
        return [*row, f"{'<' * is_bound}{values[at]}", unit, "2026-11-02", "does not pass" if at == 2 else "pass"]

    def look(self, number: int, asked: tuple[str, str, str]) -> None:
        """A certificate says what is wanted, and has nothing that is noted of another owner."""
        (owner, lot, key), folder = asked, self.plant.folder / f"made{number}"
        done = self.plant.run("papers", "certificate", owner, lot, *(("--shipment", key) if key else ()), folder, "--no-pdf")
        assert (done.status, done.err) == (0, ""), done
        title, wanted, rows, is_released = self.wanted[asked]
        page, has_methods = Page(folder / "certificate.html"), any(row[2] for row in rows)
        assert (page.title, page.facts) == (title, wanted)
        assert page.rows == [[f"{row[0]} {row[1]}".strip(), *([row[2]] if has_methods else []), *row[3:5], f"{row[5]} {row[6]}".strip(), *row[7:]] for row in rows]
        assert ("This lot is released" in (folder / "certificate.html").read_text()) == is_released
        others = {word for other, words in self.words.items() if other != owner for word in words}
        assert not any(word in file.read_text() for file in folder.iterdir() for word in others)


@pytest.mark.parametrize("seed, count", [(1, FEW), pytest.param(2, MANY, marks=pytest.mark.long)])
def test_certificates_say_what_was_noted_and_measured(plant, seed, count):
    office = Certified(plant, seed, count)
    for number, asked in enumerate(office.wanted):
        office.look(number, asked)
    assert len(office.wanted) == count


def settle(plant: Plant, **lines: str) -> None:
    """Has the settings say who the plant is."""
    plant.settle()
    with site.load.__defaults__[0].open("a") as file:
        file.write("[plant]\n" + "".join(f"{name} = '''{text}'''\n" for name, text in lines.items()))


def certificate(plant: Plant, name: str, *options: object) -> str:
    """The page of the certificate of lot B-1."""
    done = plant.run("papers", "certificate", "ACME", "B-1", *options, plant.folder / name)
    assert (done.status, done.err) == (0, ""), done
    return (plant.folder / name / "certificate.html").read_text()


def test_a_letterhead_and_a_number_are_on_paper_and_the_same_paper_has_the_same_number(at_work):
    (at_work.folder / "logo.png").write_bytes(PIXEL)
    settle(at_work, **PLANT, logo="logo.png")
    numbers = [re.search(r"No\. (ACME-B-1-[0-9A-F]{8})<", certificate(at_work, name, *options))[1] for name, *options in (("first",), ("again", "--no-pdf"))]
    assert numbers[0] == numbers[1]
    text = figures.text_of_pdf(at_work.folder / "first" / "certificate.pdf")
    assert all(part in " ".join(text.split()) for part in (*list(PLANT.values())[:3], f"No. {numbers[0]}", "page 1 of 1")) and "Approved by Anna Berg" in text
    assert b"/Subtype /Image" in (at_work.folder / "first" / "certificate.pdf").read_bytes()
    assert at_work.run("result", "ACME", "B-1", "PH", 3, 103).status == 0
    later = certificate(at_work, "later", "--no-pdf")
    settle(at_work, **{**PLANT, "name": "Hill Ltd"})
    numbers += [re.search(r"No\. (ACME-B-1-\w+)<", page)[1] for page in (later, certificate(at_work, "other", "--no-pdf"))]
    assert len(set(numbers)) == 3


@pytest.mark.parametrize("content, why", [(None, "No such file"), (b"<svg/>", "it is neither PNG nor JPEG"), (PIXEL + bytes(1 << 20), "it is larger than 1,048,576 bytes")], ids=("missing", "svg", "large"))
def test_a_logo_that_is_no_picture_is_not_used(at_work, content, why):
    if content is not None:
        (at_work.folder / "logo.png").write_bytes(content)
    settle(at_work, **PLANT, logo="logo.png")
    done = at_work.run("papers", "certificate", "ACME", "B-1", at_work.folder / "made", "--no-pdf")
    assert done.status == 2 and why in done.err and "name another file in the settings" in done.err and not (at_work.folder / "made").exists()


def test_texts_of_facts_are_texts_on_a_certificate(at_work):
    at_work.lay("result ACME B-1 PH 2 102\n> ACME POST /lots/B-1/release")
    for number, text in enumerate(HOSTILE):
        settle(at_work, **{name: text for name in PLANT})
        notes = (facts.OwnerFacts("ACME", text, text), facts.MaterialFacts("ACME", "BRINE", text), facts.TestFacts("ACME", "BRINE", "PH", text, text, 0, text), Party("ACME", "NORD", text, text, roles=(Role.CUSTOMER,)))
        note(at_work, *notes)
        assert at_work.run("ship", "ACME", f"K{20 + number}", "B-1", "TOTE1", 1, 261105, "--to", "NORD", "--document", text).status == 0
        page = certificate(at_work, f"made{number}", "--shipment", f"K{20 + number}", *(() if len(text) == 200 else ("--no-pdf",)))
        assert page.count("<script") == 0 and page.count("</style>") == 1 and html.unescape(page).count(text) == 13, text
        assert not re.search(r"(src|href)=", page)
    boxes = subprocess.run(["pdftotext", "-bbox", at_work.folder / "made1" / "certificate.pdf", "-"], capture_output=True, text=True, check=True).stdout
    words = re.findall(r'xMax="([0-9.]+)"[^>]*>([^<]*)</word>', boxes)
    assert "".join(word for _, word in words).count("x") >= 13 * 200 and max(float(edge) for edge, _ in words) < 560  # points: within the margin
