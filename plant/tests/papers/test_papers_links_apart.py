"""Recalls with links over generated offices: each paper has the lots of the closure and the reader's own notes, and nothing of others."""
import pathlib
import re
from random import Random

import figures
import pytest
from closure import closure, linked_edges, reading, recorded_edges
from hilpoven.core.journal.log import Journal
from hilpoven.model.notes import Link, Why
from hilpoven.model.register.noted import to_json
from looks import Papers
from offices import HOUSE, Filled

SEEDS = 40  # offices, with some nine papers of recalls each
LINKS = 12


class Linked:
    """An office with links of each owner, whose reasons are words that nothing else has."""

    def __init__(self, program: str, folder: pathlib.Path, seed: int, prints: bool, kind: type[Filled] = Filled) -> None:
        self.office = kind(program, folder, seed)
        self.papers, self.random = Papers(self.office, prints), Random(seed)
        self.links: list[Link] = []
        journal, lots = Journal(str(self.office.plant.journal), str(self.office.plant.db)), self.papers.rows("SELECT owner, lot FROM lots")
        batches = self.papers.rows("SELECT owner, ord, number FROM batches")
        after = {"after": "office-1.db"} if (self.office.plant.folder / "office-1.db").exists() else {}
        for number in range(LINKS):
            of_owner, of_lot = self.random.choice([lot for lot in lots if lot[0] == HOUSE] if number % 2 else lots)
            containers = [container for container in [*lots, *batches] if of_owner in (container[0], HOUSE) and container != (of_owner, of_lot)]
            owner, name, *batch = self.random.choice(containers)
            lot, order, batch_number = ("", name, batch[0]) if batch else (name, "", 0)
            amount = self.random.choice((None, 7_000_000 + number))
            link = Link(owner, lot, order, batch_number, of_owner, of_lot, self.random.choice(list(Why)), amount, f"REASON-{number}-{owner}")
            journal.note(journal.file, ["link"], notes=[to_json(link)], **after)
            self.links.append(link)
        with reading(self.office.plant.db) as base:
            self.edges = recorded_edges(base) | linked_edges(base, self.links)

    def foreign(self, owner: str) -> set[str]:
        """The words that an owner's papers may not have: names of others, and others' reasons and amounts."""
        own = [link for link in self.links if link.owner == owner]
        others = [link for link in self.links if link.owner != owner]
        named = {link.of_lot for link in own if link.of_owner == HOUSE}
        return (self.papers.foreign(owner) - named) | {link.reason for link in others} | {str(link.amount) for link in others if link.amount}

    def recall(self, owner: str, lot: str) -> int:
        """Looks at the papers of a recall; how many owners got one."""
        folder = self.papers.make("recall", owner, lot)
        expected = {lot_owner: {(str(steps), name) for (of_owner, name), steps in closure(self.edges, (owner, lot), "forward").items() if of_owner == lot_owner}
                    for lot_owner in [HOUSE, *self.office.owners]}
        rows = figures.read_csv(folder / "plant" / "lots.csv")
        assert {(row[0], row[1], row[2]) for row in rows} == {(steps, lot_owner, name) for lot_owner, lots in expected.items() for steps, name in lots}
        text = self.office.plant.toll("recall", owner, lot).out
        assert (folder / "plant" / "recall.txt").read_text().startswith(text)
        owners = sorted((folder / "owners").iterdir()) if (folder / "owners").exists() else []
        for owner_folder in owners:
            assert {(row[0], row[1]) for row in figures.read_csv(owner_folder / "lots.csv")} == expected[owner_folder.name]
            self.look_for_others(owner_folder, owner_folder.name)
            self.papers.look_at_page(owner_folder, "recall", ("flows",))
        return len(owners)

    def look_for_others(self, folder: pathlib.Path, owner: str) -> None:
        """No word of others is in an owner's folder, in no file and in no text of a PDF."""
        foreign = self.foreign(owner)
        for file in filter(pathlib.Path.is_file, folder.rglob("*")):
            texts = [file.read_bytes().decode(errors="replace")]
            if file.suffix == ".pdf":
                texts += [figures.text_of_pdf(file), figures.metadata_of_pdf(file)]
            for text in texts:
                assert not foreign & set(re.findall(r"[A-Z0-9-]+", text.replace(",", ""))), file

    def other_papers(self, owner: str) -> None:
        """Cards, records and statements of an owner have nothing of others either."""
        lot, order = self.random.choice(list(self.office.lots[owner])), self.random.choice(self.office.batches[owner])
        for words in (("lot", owner, lot), ("batch", owner, order, 1), ("statement", owner, "--from", 0, "--to", 9_999_999)):
            self.look_for_others(self.papers.make(*words), owner)


def try_office(program: str, folder: pathlib.Path, seed: int) -> None:
    """Makes papers of recalls and others over an office with links."""
    linked = Linked(program, folder / "office", seed, prints=seed % 10 == 0)
    contained = sorted({link.contained for link in linked.links}, key=str)
    house = [lot for lot in contained if lot.owner == HOUSE]
    for lot in [*linked.random.sample(house, min(len(house), 2)), linked.random.choice(contained)]:
        linked.recall(*lot)
    for owner in linked.office.owners[:2]:
        linked.other_papers(owner)


@pytest.mark.parametrize("seed", (0, 1, 2))
def test_papers_with_links_have_nothing_of_others(program, tmp_path, seed):
    try_office(program, tmp_path, seed)


@pytest.mark.long
@pytest.mark.parametrize("seed", range(3, SEEDS))
def test_300_papers_with_links_have_nothing_of_others(program, tmp_path, seed):
    try_office(program, tmp_path, seed)
