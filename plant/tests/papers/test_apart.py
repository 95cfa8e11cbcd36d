"""Generated offices over two files with links between owners, corrections and cleanings: what an owner gets, as papers, files, pages and replies, has no byte of another.

Names, texts and amounts of each owner are words that nothing else has. Papers are looked at as texts before they are printed, and one in ten offices prints them."""
import json
import os
import re
from collections.abc import Iterator

import figures
import pytest
from conftest import site
from hilpoven.cli import caller
from hilpoven.report.companion import folder as folder_of_companions
from looks import Papers
from offices import HOUSE, WithParties

IN_GATE, OFFICES = 1, 300
WHYS = ("residue", "recovered", "transfer", "misrecorded")
LINKS, CORRECTIONS, LATER, FIRST_AMOUNT = 6, 4, 261215, 7_000_000


class Whole(WithParties):
    """An office that was carried over once, with links between owners, corrections and cleanings of each file."""

    def __init__(self, program: str, folder, seed: int) -> None:
        self.links = 0
        self.ends: dict[str, set[str]] = {}  # lots of each owner at an end of a link between owners
        self.done: dict[str, int] = {}  # how many of each there are
        super().__init__(program, folder, seed)
        self.note_all()
        self.end_batches()
        self.run("carry-over", folder / "next.db", "--day", LATER)
        assert (folder / "office-1.db").exists()
        with self.served():
            for owner in [HOUSE, *self.owners]:
                self.open_batch(owner)
        self.note_all()

    def count_one(self, kind: str, *words: object) -> None:
        """Gives a command; how many were taken."""
        self.done[kind] = self.done.get(kind, 0) + (self.plant.run(*words).status == 0)

    def note_all(self) -> None:
        """Notes links, corrections and cleanings. What isn't so is refused."""
        lots = self.plant.rows("SELECT owner, lot FROM lots")
        batches = self.plant.rows("SELECT owner, ord, number FROM batches")
        for number in range(LINKS):
            (owner, lot), (of_owner, of_lot) = self.chance.sample(lots, 2)
            container, content, amount = [lot], [of_lot], FIRST_AMOUNT + self.links + number
            if batches and number % 3 == 1:
                owner, *batch = self.chance.choice(batches)
                container = ["--batch", *batch]
            if batches and number % 3 == 2:
                of_owner, *batch = self.chance.choice(batches)
                content = ["--of-batch", *batch]
            tell = ["--tell"] if owner not in (of_owner, HOUSE) and HOUSE != of_owner and number % 2 else []
            reason = self.word(HOUSE)
            self.count_one("link", "link", owner, *container, *content, "--of-owner", of_owner, "--why", self.chance.choice(WHYS), "--amount", amount, "--reason", reason, *tell)
            self.ends.setdefault(owner, set()).add(container[0]), self.ends.setdefault(of_owner, set()).add(content[0])
        self.links += LINKS
        moves = self.plant.rows("SELECT owner, mkey, amount FROM moves WHERE kind IN (0, 2, 4, 5)")
        for owner, key, amount in self.chance.sample(moves, min(CORRECTIONS, len(moves))):
            self.count_one("correct", "correct", owner, key, "--amount", amount // 10, "--reason", self.word(owner), "--day", LATER)
        for unit, in self.chance.sample(self.plant.rows("SELECT unit FROM units"), 2):
            self.count_one("clean", "clean", unit, "--how", self.word(HOUSE), "--checked", self.word(HOUSE))

    def end_batches(self) -> None:
        """All batches are closed, as a carry-over needs it."""
        with self.served():
            for owner, order, number in self.plant.rows("SELECT owner, ord, number FROM batches WHERE closed = 0"):
                self.tell("do", owner, order, number, "stop"), self.tell("do", owner, order, number, "done")
                assert self.tell("close", owner, order, number) == "accepted\n"


def gets(office: Whole, papers: Papers, owner: str) -> Iterator[tuple[str, str]]:
    """All that an owner gets, by where it stands."""
    lots = sorted(lot for lot, in office.plant.rows(f"SELECT lot FROM lots WHERE owner = '{owner}'"))
    at_ends = [lot for lot in lots if lot in office.ends.get(owner, ())]
    chosen = list(dict.fromkeys([*at_ends[:2], *office.chance.sample(lots, min(2, len(lots)))]))
    asked = [("statement", owner, "--from", 0, "--to", 9_999_999), *(("lot", owner, lot) for lot in chosen)]
    asked += [("batch", owner, order, 1) for order in office.batches[owner][:1]]
    for words in asked:
        folder = papers.make(*words)
        yield from texts_of(folder)
    house = [lot for lot, in office.plant.rows("SELECT DISTINCT lot FROM moves WHERE lot_owner = 'HOUSE' ORDER BY lot")]
    for lot_owner, lot in [*((owner, lot) for lot in chosen), *((HOUSE, lot) for lot in house[:1])]:
        folder = papers.make("recall", lot_owner, lot) / "owners" / owner
        yield from texts_of(folder) if folder.exists() else ()
    with office.plant.serve() as server:
        for path in ("/orders", "/lots", "/materials", *(f"/lots/{lot}" for lot in lots), *(f"/trace/{way}/{lot}" for way in ("forward", "back") for lot in chosen)):
            yield path, json.dumps(server.ask(owner, "GET", path))


def foreign(office: Whole, papers: Papers, owner: str) -> set[str]:
    """The words that an owner may not get: names of others over both files, what is noted of them, and amounts and reasons of links between owners."""
    def rows(sql: str) -> set[str]:
        files = (office.plant.db, office.plant.folder / "office-1.db")
        return {str(name) for file in files for name, in office.plant.rows(sql, file)}

    own = rows(f"SELECT unit FROM batches WHERE owner = '{owner}'") | rows(f"SELECT lot FROM moves WHERE owner = '{owner}' AND lot_owner = 'HOUSE'")
    others = rows(f"SELECT unit FROM batches WHERE owner <> '{owner}'") | papers.foreign(owner)
    return others - own | {str(FIRST_AMOUNT + number) for number in range(2 * LINKS)}


def texts_of(folder) -> Iterator[tuple[str, str]]:
    """The texts of all files below a folder."""
    for path in filter(os.path.isfile, folder.rglob("*")):
        yield str(path), path.read_bytes().decode(errors="replace")
        if path.suffix == ".pdf":
            yield str(path), figures.text_of_pdf(path) + figures.metadata_of_pdf(path)


def try_office(program: str, folder, seed: int) -> dict[str, int]:
    """Looks at all that the owners of an office get; how much was noted in it."""
    office = Whole(program, folder / "office", seed)
    papers = Papers(office, prints=seed % 10 == 0)
    (out := folder / "companions").mkdir(mode=0o755)
    office.plant.settle()
    path = site.load.__defaults__[0]
    path.write_text(path.read_text() + '[quality]\ntest = "QA"\n')
    assert office.plant.run("companion", "--out", out).status == 0
    for owner in office.owners:
        others = foreign(office, papers, owner)
        companion = out / folder_of_companions.name_of(owner)
        for place, text in [*gets(office, papers, owner), (str(companion), companion.read_text())]:
            strangers = others & set(re.findall(r"[A-Z0-9-]+", text.replace(",", "")))
            assert not strangers, (place, strangers)
            assert "office.db" not in text and "contains material of" not in text.replace("contains material of another owner", ""), place
    return office.done


@pytest.fixture
def tools(program, monkeypatch):
    """The program, for whoever is nobody in particular."""
    monkeypatch.setenv("TOLL", program)
    monkeypatch.setattr(caller, "login_number", lambda: caller.NOBODY)
    return program


@pytest.mark.parametrize("seed", range(1, 1 + IN_GATE))
def test_what_an_owner_gets_has_nothing_of_another_whatever_is_noted(tools, tmp_path, seed):
    done = try_office(tools, tmp_path, seed)
    assert all(done[kind] for kind in ("link", "correct", "clean")), done


@pytest.mark.long
@pytest.mark.parametrize("seed", range(1 + IN_GATE, 1 + OFFICES))
def test_of_300_offices_what_an_owner_gets_has_nothing_of_another(tools, tmp_path, seed):
    try_office(tools, tmp_path, seed)
