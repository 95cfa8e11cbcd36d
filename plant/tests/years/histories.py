"""Generated histories: what two owners and the plant record, with moments at which the office is carried over.

A history grows over one file: what that accepts is the history. It names no lot that was empty at a moment gone by, and no order
that was begun before it, as nothing can be recorded of these in the next file.
"""
import pathlib
from dataclasses import dataclass, field
from random import Random

from hilpoven.core.private_server import PrivateServer
from hilpoven.care.years.steps import Step

OWNERS = ("ACME", "BOLT")
KEYS = {owner: f"{owner}KEY1" for owner in OWNERS}
SUBLOTS = ("BAY1", "BAY2", "BAY3")
UNITS = ("KETTLE", "MIXER", "PRESS")
CUT = "cut"
SETUP = """
owner-add ACME ACMEKEY1
owner-add BOLT BOLTKEY1
unit-add KETTLE
unit-add MIXER
unit-add PRESS
material-add HOUSE WATER liter
material-add HOUSE SOFT liter
test-add HOUSE SOFT LIME M5 5
recipe-add HOUSE SOFTEN 1
require HOUSE SOFTEN 1 consumed HOUSE WATER 10
require HOUSE SOFTEN 1 produced HOUSE SOFT 10
""" + "".join(f"""
material-add {owner} RAW kg
material-add {owner} MID kg
material-add {owner} END kg
test-add {owner} END DENSITY 1100 1250
test-add {owner} END PH M5 9
recipe-add {owner} MAKE 3
require {owner} MAKE 1 consumed {owner} RAW 10
require {owner} MAKE 1 consumed HOUSE WATER 10
require {owner} MAKE 2 consumed HOUSE SOFT 10
require {owner} MAKE 2 consumed {owner} MID 10
require {owner} MAKE 3 consumed {owner} END 10
require {owner} MAKE 1 produced {owner} MID 10
require {owner} MAKE 2 produced {owner} MID 10
require {owner} MAKE 3 produced {owner} END 10
""" for owner in OWNERS)
TAKES = {"HOUSE": [("1", "HOUSE", "WATER")], **{owner: [("1", owner, "RAW"), ("1", "HOUSE", "WATER"), ("2", "HOUSE", "SOFT"), ("2", owner, "MID"), ("3", owner, "END")] for owner in OWNERS}}
MAKES = {"HOUSE": [("1", "SOFT")], **{owner: [("1", "MID"), ("2", "MID"), ("3", "END")] for owner in OWNERS}}
TESTS = {"SOFT": ("LIME",), "END": ("DENSITY", "PH")}
VALUES = {"LIME": ("M5", "0", "6"), "DENSITY": ("1100", "1180", "1300"), "PH": ("M5", "7", "10")}
RECIPES = {"HOUSE": "SOFTEN", "ACME": "MAKE", "BOLT": "MAKE"}


def accepts(server: PrivateServer, step: Step) -> bool:
    """Whether a step is accepted."""
    if step.owner:
        return server.request(step.owner, KEYS[step.owner], step.path, step.body)[0] == 200
    return server.ask(*step.words).output == "accepted\n"


@dataclass
class Growing:
    """A history that grows over one file."""

    server: PrivateServer
    random: Random
    path: pathlib.Path
    steps: list[Step | str] = field(default_factory=list)
    lots: dict[tuple[str, str], str] = field(default_factory=dict)  # with their materials
    orders: list[tuple[str, str]] = field(default_factory=list)
    sublots: dict[tuple[str, str], list[str]] = field(default_factory=dict)
    batches: list[tuple[str, str, str]] = field(default_factory=list)
    actuals: list[tuple[str, str]] = field(default_factory=list)
    stayed: list[list[tuple[str, str]]] = field(default_factory=list)  # the lots that stay behind at each moment
    count: int = 0
    day: int = 260101

    def say(self, *words: object) -> bool:
        """Gives the plant's words, which are of the history where they are accepted."""
        return self.take(Step(tuple(map(str, words))))

    def take(self, step: Step) -> bool:
        """Takes a step, which is of the history where it is accepted."""
        accepted = accepts(self.server, step)
        if accepted:
            self.steps.append(step)
        return accepted

    def name(self, letter: str) -> str:
        """A name that nothing has yet."""
        self.count += 1
        return f"{letter}-{self.count}"

    def some(self, choices: list) -> object:
        """One of a list."""
        return self.random.choice(choices)

    def amount(self) -> str:
        """An amount, small and large."""
        return str(self.random.choice((1, 2, 5, 10, 40)))

    def sublot(self, owner: str, lot: str) -> str:
        """A sublot of a lot, seldom one that it may not have."""
        sublots = self.sublots.get((owner, lot))
        return self.some(sublots) if sublots and self.random.random() < 0.9 else self.some(SUBLOTS)

    def came(self, owner: str, lot: str, material: str, sublot: str) -> None:
        """Something came into a sublot of a lot, which is mostly released then, where it may be."""
        self.lots[owner, lot] = material
        self.sublots.setdefault((owner, lot), []).append(sublot)
        if self.random.random() < 0.8:
            for test in TESTS.get(material, ()):
                self.say("result", owner, lot, test, VALUES[test][1], self.day)
            self.judge(owner, lot, "release")

    # what may happen

    def receive(self) -> None:
        """A lot comes, or more of one."""
        owner, material = self.some([("HOUSE", "WATER"), ("ACME", "RAW"), ("BOLT", "RAW"), ("ACME", "END")])
        lots = [lot for (lot_owner, lot), of in self.lots.items() if (lot_owner, of) == (owner, material)]
        lot = self.some(lots) if lots and self.random.random() < 0.4 else self.name("L")
        sublot, amount = self.some(SUBLOTS), self.some(["3", "100", "5000", "1000000000"])
        if self.say("receive", owner, self.name("K"), material, lot, sublot, amount, self.day):
            self.came(owner, lot, material, sublot)

    def judge(self, owner: str, lot: str, word: str) -> None:
        """A lot is released or rejected by whose it is."""
        self.take(Step((word, lot)) if owner == "HOUSE" else Step(owner=owner, path=f"/lots/{lot}/{word}"))

    def dispose(self) -> None:
        """A lot is released, now and then rejected."""
        if self.lots:
            self.judge(*self.some(list(self.lots)), "reject" if self.random.random() < 0.15 else "release")

    def test(self) -> None:
        """A result of a lot."""
        lots = [lot_id for lot_id, material in self.lots.items() if material in TESTS]
        if lots:
            owner, lot = self.some(lots)
            good = self.random.random() < 0.8
            for test in TESTS[self.lots[owner, lot]]:
                value = VALUES[test][self.random.randrange(2)] if good else self.some(VALUES[test])
                self.say("result", owner, lot, test, value, self.day)
            if good:
                self.judge(owner, lot, "release")

    def move(self) -> None:
        """A lot is split, shipped or scrapped."""
        if self.lots:
            owner, lot = self.some(list(self.lots))
            word, sublot = self.some(["split", "ship", "scrap"]), self.sublot(owner, lot)
            target = [self.some(SUBLOTS)] if word == "split" else []
            if self.say(word, owner, self.name("K"), lot, sublot, *target, self.amount(), self.day) and target:
                self.sublots[owner, lot] += target

    def empty(self) -> None:
        """All of a lot goes."""
        if self.lots:
            owner, lot = self.some([*[lot_id for lot_id in self.lots if self.lots[lot_id] not in ("WATER", "RAW")] * 3, *self.lots])
            for line in self.server.ask("stock", owner).output.splitlines():
                listed, sublot, *_, amount, _ = line.split()
                if listed == lot and amount != "0":
                    self.say(self.some(["scrap", "ship"]), owner, self.name("K"), lot, sublot, amount, self.day)

    def order(self) -> None:
        """An order is placed, now and then cancelled, and a batch of one is opened."""
        owner = self.some(["HOUSE", *OWNERS])
        name, batches = self.name("O"), self.random.randint(1, 3)
        placed = Step(("order", name, RECIPES[owner], str(batches))) if owner == "HOUSE" else Step(
            owner=owner, path="/orders", body={"order": name, "recipe": RECIPES[owner], "batches": batches})
        if self.take(placed):
            self.orders.append((owner, name))
        if self.random.random() < 0.15:
            self.take(Step(("cancel", name)) if owner == "HOUSE" else Step(owner=owner, path=f"/orders/{name}/cancel"))

    def open(self) -> None:
        """A batch is opened and started."""
        if self.orders:
            owner, order = self.some(self.orders)
            if self.say("open", owner, order, self.some(UNITS)):
                number = str(1 + sum(batch[:2] == (owner, order) for batch in self.batches))
                self.batches.append((owner, order, number))
                self.say("do", owner, order, number, "start")

    def work(self) -> None:
        """A batch consumes and produces."""
        if self.batches:
            owner, order, number = self.some(self.batches[-4:])
            for _ in range(self.random.randint(1, 6)):
                if self.random.random() < 0.55:
                    segment, lot_owner, material = self.some(TAKES[owner] + TAKES[owner][2:] * 2)
                    lots = [lot for (of, lot), made_of in self.lots.items() if (of, made_of) == (lot_owner, material)]
                    if lots:
                        self.actual(owner, order, number, segment, "consumed", material, lot_owner, self.some(lots))
                else:
                    segment, material = self.some(MAKES[owner])
                    lots = [lot for (of, lot), made_of in self.lots.items() if (of, made_of) == (owner, material)]
                    lot = self.some(lots) if lots and self.random.random() < 0.3 else self.name("L")
                    self.actual(owner, order, number, segment, "produced", material, owner, lot)

    def actual(self, owner: str, order: str, number: str, segment: str, use: str, material: str, lot_owner: str, lot: str) -> None:
        """What a batch consumed or produced."""
        key, is_made = self.name("K"), use == "produced"
        sublot = self.some(SUBLOTS) if is_made else self.sublot(lot_owner, lot)
        amount = self.some(["20", "300", "4000"]) if is_made else self.amount()
        if self.say("actual", key, owner, order, number, segment, use, material, lot_owner, lot, sublot, amount, self.day):
            self.actuals.append((owner, key))
            if is_made:
                self.came(owner, lot, material, sublot)

    def void(self) -> None:
        """An actual is taken back."""
        if self.actuals:
            self.say("void", *self.some(self.actuals[-6:]))

    def end(self) -> None:
        """A batch is ended and closed."""
        if self.batches:
            self.close(*self.some(self.batches[-4:]))

    def close(self, *batch: str) -> None:
        """Ends and closes a batch, whatever its state."""
        for word in ("done", "done", "stop", "done"):
            if not self.say("close", *batch):
                self.say("do", *batch, word)
            else:
                return
        self.say("close", *batch)

    def next_day(self) -> None:
        """A day is over."""
        self.day += 1

    def cut(self) -> None:
        """All batches are closed, and the office is carried over: what is empty or begun is named no more."""
        for batch in self.batches:
            self.close(*batch)
        lying = {(owner, line.split()[0]) for owner in ("HOUSE", *OWNERS) for line in self.server.ask("stock", owner).output.splitlines() if line.split()[4] != "0"}
        self.stayed.append([lot for lot in self.lots if lot not in lying])
        self.lots = {lot: material for lot, material in self.lots.items() if lot in lying}
        begun = {batch[:2] for batch in self.batches}
        self.orders = [order for order in self.orders if order not in begun]
        self.batches, self.actuals = [], []
        self.steps.append(CUT)
        self.begin()

    def begin(self) -> None:
        """What there is at the beginning, and in the next file: some material, and a batch of each."""
        for _ in range(4):
            self.receive()
        for _ in range(3):
            self.order()
            self.open()

    def grow(self, size: int, cuts: int) -> None:
        """Lets so many things happen, and so many moments come at which the office is carried over."""
        for line in filter(None, SETUP.splitlines()):
            assert self.say(*line.split()), line
        self.begin()
        acts = [self.receive] * 4 + [self.work] * 10 + [self.open] * 4 + [self.order, self.test, self.move] * 2 + [
            self.dispose, self.empty, self.void, self.end, self.next_day]
        at = set(self.random.sample(range(size // 5, size), cuts))
        for moment in range(size):
            self.some(acts)()
            if moment in at:
                self.cut()


def named_again(growing: Growing, parts: list[list[Step]], chance: float) -> dict[str, tuple[str, int]]:
    """For some lots that come in the next file the name of a lot of the same owner that stayed behind, and after how many moments."""
    again: dict[str, tuple[str, int]] = {}
    free: dict[str, list[tuple[str, int]]] = {}
    for number, part in enumerate(parts):
        for step in part:
            places = {"receive": (1, 4), "actual": (8, 9)}.get(step.words[0]) if step.words else None
            if not places or (step.words[0] == "actual" and step.words[6] != "produced"):
                continue
            owner, lot = step.words[places[0]], step.words[places[1]]
            is_new = not any(lot in earlier.words for before in parts[:number] for earlier in before)
            if number and is_new and lot not in again and free.get(owner) and growing.random.random() < chance:
                again[lot] = free[owner].pop()
        for owner, lot in growing.stayed[number] if number < len(growing.stayed) else ():
            free.setdefault(owner, []).append((again[lot][0] if lot in again else lot, number + 1))
    return again


def called_again(again: dict[str, tuple[str, int]]) -> dict[str, str]:
    """Of names by which lots are told over all files, those by which they stand in the one file."""
    names_again: dict[str, str] = {}
    for lot, (name, number) in again.items():
        names_again[f"{name} (office-{number}.db)"] = names_again.get(name, name)
        names_again[name] = lot
    return names_again


def renamed(step: Step, names: dict[str, str]) -> Step:
    """The same step with other names of lots."""
    return Step(tuple(names.get(word, word) for word in step.words), step.owner, "/".join(names.get(part, part) for part in step.path.split("/")), step.body)
