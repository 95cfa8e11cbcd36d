"""Traces and recalls over 200 generated offices, held against chains of edges that are searched here alone.

An office is a script. Its two owners and HOUSE each have three batches of three segments, and six lots, two of them
received. The batches consume and produce these in any order, an owner's also lots of HOUSE; some actuals are voided. So
most lots are made of others, and many of themselves. After a third of the actuals, after all of them, and after the
voids, each lot is asked for: the plant's traces and its recall, and the owners' traces over HTTP. What was accepted
draws the edges.
"""
import importlib
import json
import random
import sys
from collections.abc import Callable
from typing import NamedTuple

from tests.harness import ROOT, Office

sys.path.append(str(ROOT / "plant" / "tests"))
closure = importlib.import_module("closure").closure  # the lots that end a chain of edges, each with its fewest steps

OFFICES = 200
HOUSE, OWNERS = "HOUSE", ("ACME", "BOLT")
ALL = (HOUSE, *OWNERS)
BATCHES = SEGMENTS = (1, 2, 3)
RECEIVED, MADE = ("L0", "L1"), ("L2", "L3", "L4", "L5")
LOTS = [(owner, name) for owner in ALL for name in (*RECEIVED, *MADE)]
WAYS = ("back", "forward")
ACTUALS = 30  # of an owner
MARK = "stock NOBODY"  # a line that no other's answer can be taken for
MARKED = "refused 3 UnknownOwner\n"
UNKNOWN = "refused 27 UnknownLot\n"
NOT_FOUND = '404 {"code":27,"error":"UnknownLot"}\n'

Lot = tuple[str, str]
Edges = set[tuple[Lot, Lot]]


class Actual(NamedTuple):
    """What a batch of an owner consumes or produces."""

    owner: str
    key: str
    batch: int
    segment: int
    use: str
    lot: Lot

    def line(self) -> str:
        amount = 1 if self.use == "consumed" else 100
        place = f"O {self.batch} {self.segment} {self.use} M {self.lot[0]} {self.lot[1]} S"
        return f"actual {self.key} {self.owner} {place} {amount} 1"


class Script:
    """The lines of an office, and what of it was recorded when each of its questions is asked."""

    def __init__(self, seed: int) -> None:
        self.chance = random.Random(seed)
        self.lines: list[str] = []
        self.actuals: dict[int, Actual] = {}  # by the number of the line
        self.voids: dict[int, Actual] = {}
        self.rounds: list[int] = []  # the number of the first line of each
        for owner in ALL:
            self.set_up(owner)
        self.laid = len(self.lines)  # so many lines are all accepted
        actuals = [actual for owner in ALL for actual in self.actuals_of(owner)]
        actuals.sort(key=lambda actual: self.chance.random() * (1 if actual.use == "consumed" else 0.6))
        third = len(actuals) // 3
        for group in (actuals[:third], actuals[third:]):
            for actual in group:
                self.record(actual)
            self.ask()
        for actual in self.chance.sample(actuals, len(actuals) // 5):
            self.voids[len(self.lines)] = actual
            self.lines.append(f"void {actual.owner} {actual.key}")
        self.ask()

    def set_up(self, owner: str) -> None:
        """An owner with its batches, which run, and the lots that it received."""
        is_house = owner == HOUSE
        self.lines += [] if is_house else [f"owner-add {owner} {owner}KEY1"]
        self.lines += [f"material-add {owner} M kg", f"recipe-add {owner} R {len(SEGMENTS)}"]
        for segment in SEGMENTS:
            sources = sorted({owner, HOUSE})
            self.lines += [f"require {owner} R {segment} consumed {source} M 1" for source in sources]
            self.lines += [f"require {owner} R {segment} produced {owner} M 1"]
        order = '{"order":"O","recipe":"R","batches":3}'
        self.lines += ["order O R 3" if is_house else f"> {owner} {owner}KEY1 POST /orders {order}"]
        for batch in BATCHES:
            unit = f"{owner}-{batch}"
            self.lines += [f"unit-add {unit}", f"open {owner} O {unit}", f"do {owner} O {batch} start"]
        for lot in RECEIVED:
            self.lines += [f"receive {owner} {lot} M {lot} S 1000 1", self.releasing((owner, lot))]

    @staticmethod
    def releasing(lot: Lot) -> str:
        owner, name = lot
        return f"release {name}" if owner == HOUSE else f"> {owner} {owner}KEY1 POST /lots/{name}/release"

    def actuals_of(self, owner: str) -> list[Actual]:
        """What an owner's batches consume and produce; a lot is of one batch."""
        actuals = []
        for number in range(ACTUALS):
            segment, name = self.chance.choice(SEGMENTS), self.chance.choice(MADE)
            if number % 3 == 0:
                batch = BATCHES[MADE.index(name) % len(BATCHES)]
                actual = Actual(owner, f"K{number}", batch, segment, "produced", (owner, name))
            else:
                lot = (self.chance.choice((owner, owner, HOUSE)), self.chance.choice((*MADE, *RECEIVED)))
                actual = Actual(owner, f"K{number}", self.chance.choice(BATCHES), segment, "consumed", lot)
            actuals.append(actual)
        return actuals

    def record(self, actual: Actual) -> None:
        """An actual, and the release of what it produced or consumes."""
        if actual.use == "consumed":
            self.lines.append(self.releasing(actual.lot))
        self.actuals[len(self.lines)] = actual
        self.lines.append(actual.line())

    def ask(self) -> None:
        """A round of questions for each lot."""
        self.rounds.append(len(self.lines))
        self.lines += round_of(set(), set())


def plant_answers(standing: set[Actual], known: set[Lot]) -> dict[str, str]:
    """The plant's questions with their answers, where these actuals stand and these lots are known."""
    edges = edges_of(standing)
    answers: dict[str, str] = {}
    for lot in LOTS:
        traces = {way: printed(closure(edges, lot, way)) if lot in known else UNKNOWN for way in WAYS}
        words = " ".join(lot)
        answers |= {f"trace {words} {way}": trace for way, trace in traces.items()}
        answers[f"recall {words}"] = traces["forward"]
    return answers


def owner_answers(owner: str, standing: set[Actual], known: set[Lot]) -> dict[str, str]:
    """An owner's questions with their answers: over its own batches alone."""
    own = {actual for actual in standing if actual.owner == owner}
    consumed = {actual.lot for actual in own if actual.use == "consumed"}
    asked = [(way, way, lot, lot in known) for lot in LOTS for way in WAYS if lot[0] == owner]
    asked += [("house", "forward", lot, lot in consumed) for lot in LOTS if lot[0] == HOUSE]
    answers, edges = {}, edges_of(own)
    for path, way, lot, is_known in asked:
        reply = replied(closure(edges, lot, way)) if is_known else NOT_FOUND
        answers[f"> {owner} {owner}KEY1 GET /trace/{path}/{lot[1]}"] = reply
    return answers


def round_of(standing: set[Actual], known: set[Lot]) -> dict[str, str]:
    """A round of questions, with their answers."""
    answers = plant_answers(standing, known)
    for owner in OWNERS:
        answers |= owner_answers(owner, standing, known)
    return answers


def edges_of(standing: set[Actual]) -> Edges:
    """What a batch consumes goes into what it produces in the same segment or a later one."""
    consumptions = [actual for actual in standing if actual.use == "consumed"]
    productions = [actual for actual in standing if actual.use == "produced"]
    return {
        (consumption.lot, production.lot)
        for consumption in consumptions
        for production in productions
        if (consumption.owner, consumption.batch) == (production.owner, production.batch)
        and consumption.segment <= production.segment
    }


def in_order(trace: dict[Lot, int]) -> list[tuple[int, str, str]]:
    return sorted((steps, *lot) for lot, steps in trace.items())


def printed(trace: dict[Lot, int]) -> str:
    """A trace as the plant's lines tell it."""
    return "".join(f"{steps:6} {owner:16} {lot}\n" for steps, owner, lot in in_order(trace))


def replied(trace: dict[Lot, int]) -> str:
    """A trace as the reply to an owner tells it."""
    lots = [{"lot": lot, "owner": owner, "steps": steps} for steps, owner, lot in in_order(trace)]
    return f'200 {json.dumps({"lots": lots}, separators=(",", ":"))}\n'


def without_amounts(answer: str) -> str:
    """A recall without its heading, and without what lies there and was shipped."""
    if not answer.startswith(" steps "):
        return answer
    return "".join(f"{line[:23]} {line[24:40].rstrip()}\n" for line in answer.splitlines()[1:])


def compare(office: Office, seed: int) -> int:
    """Compares all answers of an office, and tells how many lots the plant's traces have."""
    script, count = Script(seed), 0
    text = "".join(f"{line}\n{MARK}\n" for line in script.lines)
    *answers, rest = office.run(["script"], stdin=text.encode()).out.split(MARKED)
    assert (len(answers), rest) == (len(script.lines), "")
    assert all(answer == "accepted\n" or answer.startswith("200 ") for answer in answers[: script.laid]), seed
    accepted = [number for number, answer in enumerate(answers) if answer == "accepted\n"]
    for first in script.rounds:
        recorded = [script.actuals[number] for number in accepted if number < first and number in script.actuals]
        voided = {script.voids[number] for number in accepted if number < first and number in script.voids}
        known = {lot for lot in LOTS if lot[1] in RECEIVED}
        known |= {actual.lot for actual in recorded if actual.use == "produced"}
        for number, (question, wanted) in enumerate(round_of(set(recorded) - voided, known).items(), first):
            assert without_amounts(answers[number]) == wanted, (seed, number, question)
            count += wanted.count("\n") if question.startswith("trace ") else 0
    return count


def test_traces_and_recalls_are_the_chains_of_what_was_recorded(new: Callable[[], Office]) -> None:
    office = new()
    lots = sum(compare(office, seed) for seed in range(OFFICES))
    assert lots > 3 * 2 * len(LOTS) * 2 * OFFICES  # three rounds of two traces of each lot: most lead somewhere
