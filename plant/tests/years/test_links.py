"""A recall and a trace with links is the closure over recorded edges and links, over one file and over many; `toll`'s own is in it."""
import pathlib
import tempfile
from random import Random

import pytest
import test_histories
from closure import closure, linked_edges, reading, recorded_edges
from conftest import Plant
from histories import called_again
from hilpoven.core.office import Office
from hilpoven.core.private_server import PrivateServer
from hilpoven.core.journal.log import Journal
from hilpoven.model.genealogy import Genealogy
from hilpoven.model.rows import LotId
from hilpoven.model import below
from hilpoven.model.register.noted import AFTER
from hilpoven.model.notes import Link, Note, Why, Withdrawal
from hilpoven.model.register.noted import to_json
from hilpoven.model.register.standing import standing_over_all
from hilpoven.model.years import history

MOST_LOTS = 8  # of a history, of which traces are compared
WAYS = ("forward", "back")
Again = dict[str, tuple[str, int]]


def test_a_sample_of_histories_with_links(program):
    assert sum(try_history(program, seed) for seed in range(5))


@pytest.mark.long
@pytest.mark.parametrize("seed", range(5, 305))
def test_three_hundred_histories_with_links(program, seed):
    try_history(program, seed)


class Noted:
    """Links of a history that was cut, which the plant noted while each of the files was the newest, and of the same in one file."""

    def __init__(self, random: Random, plant: Plant, one: pathlib.Path, cuts: int, again: Again) -> None:
        self.random, self.again, self.links = random, again, list[Link]()  # by the names of the one file
        self.journal, self.journal_of_one = Journal(str(plant.journal), str(plant.db)), Journal(f"{one}.journal", str(one))
        self.names: list[tuple[list[tuple], list[tuple]]] = []  # lots and batches of each file
        for number in range(1, cuts + 2):
            with reading(plant.folder / f"office-{number}.db" if number <= cuts else plant.db) as base:
                self.names.append((base.execute("SELECT owner, lot FROM lots").fetchall(), base.execute("SELECT owner, ord, number FROM batches").fetchall()))
            self.note_links(number)

    def one_name(self, file: int, owner: str, lot: str) -> str:
        """What a lot is called in the one file, by the name that it has in a file, or else in the newest before that."""
        file = next(number for number in range(file, 0, -1) if (owner, lot) in self.names[number - 1][0])
        later = [(number, name) for name, (called, number) in self.again.items() if called == lot and number < file]
        return max(later)[1] if later else lot

    def note_links(self, file: int) -> None:
        """Notes some links between what there is when a file is the newest, and withdraws some of them."""
        lots = sorted({lot for of_file, _ in self.names for lot in of_file})
        batches = sorted({batch for _, of_file in self.names for batch in of_file})
        for _ in range(self.random.choice((0, 1, 3, 8))):
            of_owner, of_lot = self.random.choice(lots)
            containers = [container for container in [*lots, *batches] if of_owner in (container[0], "HOUSE") and container != (of_owner, of_lot)]
            if not containers:
                continue
            owner, name, *number = self.random.choice(containers)
            lot, order, batch = ("", name, number[0]) if number else (name, "", 0)
            why, is_withdrawn = self.random.choice(list(Why)), self.random.random() < 0.2
            link = Link(owner, lot, order, batch, of_owner, of_lot, why)
            self.note(self.journal, link, f"office-{file - 1}.db" if file > 1 else "", is_withdrawn)
            lot = lot and self.one_name(file, owner, lot)
            link = Link(owner, lot, order, batch, of_owner, self.one_name(file, of_owner, of_lot), why)
            self.note(self.journal_of_one, link, "", is_withdrawn)
            self.links += [] if is_withdrawn else [link]

    @staticmethod
    def note(journal: Journal, link: Link, after: str, is_withdrawn: bool) -> None:
        """Notes a link, which may be withdrawn."""
        def add(note: Note) -> str:
            return journal.note(journal.file, [note.KIND], notes=[to_json(note)], **({AFTER: after} if after else {}))

        name = add(link)
        if is_withdrawn:
            add(Withdrawal(link.owner, name, "it was wrong"))


def try_history(program: str, seed: int) -> int:
    """Grows a history, cuts it into files, notes links, and compares traces with the closure; how many lines links added."""
    counts = []

    def compare(plant: Plant, one: pathlib.Path, served: PrivateServer, cuts: int, again: Again) -> None:
        noted = Noted(Random(seed), plant, one, cuts, again)
        counts.append(compare_all(plant, one, served, noted))
        compare_newest(plant, one, noted, cuts + 1)

    memory = "/dev/shm" if pathlib.Path("/dev/shm").is_dir() else None
    with pytest.MonkeyPatch.context() as patched, tempfile.TemporaryDirectory(dir=memory) as folder:
        patched.setattr(test_histories, "compare", compare)
        patched.setattr(test_histories, "called_again", lambda again: again)
        random = Random(seed)
        size, cuts, chance = random.randint(40, 160), random.choice((0, 1, 2)), random.choice((0, 0.7))
        test_histories.try_history(Plant(program, pathlib.Path(folder)), random, size, cuts, chance)
    return sum(counts)


def compare_all(plant: Plant, one: pathlib.Path, served: PrivateServer, noted: Noted) -> int:
    """Over all files, and over the one file, traces are the closure, which has `toll`'s lines with no more steps."""
    called, count = called_again(noted.again), 0
    back = {lot: name for name, lot in called.items()}
    with reading(one) as base:
        recorded = recorded_edges(base)
        edges = recorded | linked_edges(base, noted.links)
        lots = base.execute("SELECT owner, lot FROM lots ORDER BY rowid").fetchall()
    with history.opened(Office(str(plant.db), plant.program, 10.0)) as cut, history.opened(Office(str(one), plant.program, 10.0)) as whole:
        of_cut = Genealogy(cut.base, standing_over_all(noted.journal, cut))
        of_one = Genealogy(whole.base, standing_over_all(noted.journal_of_one, whole))
        for lot in sorted({(link.of_owner, link.of_lot) for link in noted.links})[:MOST_LOTS // 2] + noted.random.sample(lots, min(len(lots), MOST_LOTS // 2)):
            for way in WAYS:
                expected, trace = closure(edges, lot, way), of_one.trace(LotId(*lot), way)
                assert trace.steps == expected and trace.recorded == closure(recorded, lot, way)
                words = served.ask("trace", *lot, way).output.split()
                assert trace.recorded == {(owner, name): int(steps) for steps, owner, name in zip(*[iter(words)] * 3)}
                assert all(trace.steps[reached] <= steps for reached, steps in trace.recorded.items())
                over_all = of_cut.trace(LotId(lot[0], back.get(lot[1], lot[1])), way)
                assert {(owner, called.get(name, name)): steps for (owner, name), steps in over_all.steps.items()} == expected
                count += len(trace.noted)
    return count


def compare_newest(plant: Plant, one: pathlib.Path, noted: Noted, file: int) -> None:
    """What is below `toll`'s answers over the newest file is what the links between its lots add."""
    with reading(plant.db) as base, reading(one) as whole:
        names = {(owner, noted.one_name(file, owner, lot)): (owner, lot) for owner, lot in noted.names[-1][0]}
        links = {tuple(names[end] for end in ends) for ends in linked_edges(whole, noted.links) if all(end in names for end in ends)}
        edges = recorded_edges(base) | links
    office = Office(str(plant.db), plant.program, 10.0)
    for lot in sorted({contained for contained, _ in links})[:MOST_LOTS // 2] + noted.names[-1][0][:2]:
        for words in (["recall", *lot], *(["trace", *lot, way] for way in WAYS)):
            answer = office.ask(words)
            lines = below.lines_below(office, noted.journal, words, answer)
            assert all(line.endswith(" *") for line in lines[1:])
            by_toll, by_links = ({tuple(cells[1:3]): int(cells[0]) for cells in map(str.split, text) if cells[0].isdecimal()} for text in (answer.output.splitlines(), lines[1:]))
            assert {**by_toll, **by_links} == closure(edges, lot, words[3] if words[3:] else "forward")
            assert all(by_toll.get(reached, steps + 1) > steps for reached, steps in by_links.items())
