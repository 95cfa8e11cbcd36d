"""Offices that are filled by chance, of which papers are made."""
import contextlib
import pathlib
import random
import string
from collections.abc import Iterator

from conftest import Plant, Server

HOUSE = "HOUSE"
HEADER = "key,owner,order,batch,segment,use,material,lot_owner,lot,sublot,amount,day"
MEASURES = ("kg", "liter", "piece")
ROUNDS = 3


class Filled:
    """An office of one to four owners, with batches of two segments that stay open over several rounds."""

    def __init__(self, program: str, folder: pathlib.Path, seed: int) -> None:
        folder.mkdir(exist_ok=True)
        self.plant, self.chance = Plant(program, folder), random.Random(seed)
        self.lots_of_batch = 14 if seed % 10 == 3 else 2
        self.owners = [self.name() for _ in range(self.chance.randint(1, 4))]
        self.materials: dict[str, list[str]] = {}
        self.tests: dict[tuple[str, str], str] = {}
        self.lots: dict[str, dict[str, str]] = {}
        self.batches: dict[str, list[str]] = {}
        self.count = 0
        self.server: Server | None = None
        self.noted: dict[str, set[str]] = {}  # the words of what is noted of each owner
        self.fill()

    def name(self) -> str:
        """A name that nothing else has."""
        return "".join(self.chance.choices(string.ascii_uppercase, k=self.chance.choice((9, 10, 16))))

    def day(self) -> int:
        """A day: mostly a date, and now and then a number that is none."""
        return self.chance.choice((261101, 261107, 261112, 261119, 261126, 261130, 7, 999_999))

    @contextlib.contextmanager
    def served(self) -> Iterator[None]:
        """A server answers meanwhile, which takes a fraction of a process for each command."""
        with self.plant.serve() as self.server:
            yield
        self.server = None

    def tell(self, *words: object) -> str:
        """What a command is told; a refusal is part of the day."""
        done = self.server.tell(*words) if self.server else self.plant.toll(*words)
        assert done.status in (0, 1), (words, done)
        return done.out

    def ask(self, requests: list[tuple[str, str, str]]) -> None:
        """Asks the server: who, the path and the body of each."""
        assert self.server
        for owner, path, body in requests:
            self.server.ask(owner, "POST", path, body)

    def fill(self) -> None:
        """All of it."""
        self.tell("unit-add", "U0")
        with self.served():
            self.fill_served()

    def fill_served(self) -> None:
        """What owners and the plant do while a server answers."""
        for owner in self.owners:
            self.tell("owner-add", owner, f"{owner}KEY1")
        for owner in [HOUSE, *self.owners]:
            self.set_up(owner)
        for owner in [HOUSE, *self.owners]:
            self.add_recipe(owner)
        self.release()
        for turn in range(ROUNDS):
            self.work(turn)
        self.finish()

    def set_up(self, owner: str) -> None:
        """The materials of an owner, some with a test, and lots of them."""
        self.materials[owner] = [self.name(), self.name()]
        self.lots[owner], self.batches[owner] = {}, []
        for material in self.materials[owner]:
            self.tell("material-add", owner, material, self.chance.choice(MEASURES))
            if self.chance.random() < 0.5:
                self.tests[owner, material] = self.name()
                self.tell("test-add", owner, material, self.tests[owner, material], "M50", "150")
        for number in range(3):
            lot, material = self.name(), self.chance.choice(self.materials[owner])
            for part in range(self.chance.randint(1, 2)):
                self.tell("receive", owner, f"R{number}{part}", material, lot, f"S{part}", self.chance.randint(200_000, 900_000), self.day())
            self.lots[owner][lot] = material

    def add_recipe(self, owner: str) -> None:
        """A recipe of two segments, which takes the owner's materials and HOUSE's, and makes the owner's."""
        self.tell("recipe-add", owner, "R", 2)
        for segment in (1, 2):
            for source in sorted({owner, HOUSE}):
                for material in self.materials[source]:
                    self.tell("require", owner, "R", segment, "consumed", source, material, self.chance.randint(10_000, 90_000))
            for material in self.materials[owner]:
                self.tell("require", owner, "R", segment, "produced", owner, material, self.chance.randint(10_000, 900_000))

    def release(self) -> None:
        """Records results, and releases what can be released: the plant HOUSE's, and the owners theirs over HTTP."""
        for owner, lots in self.lots.items():
            for lot, material in lots.items():
                if (owner, material) in self.tests and self.chance.random() < 0.6:
                    self.tell("result", owner, lot, self.tests[owner, material], self.chance.choice(("M50", "M7", "0", "99", "150", "151")), self.day())
        for lot in self.lots[HOUSE]:
            self.tell("release", lot)
        self.ask([(owner, f"/lots/{lot}/release", "") for owner in self.owners for lot in self.lots[owner] if self.chance.random() < 0.8])

    def open_batch(self, owner: str) -> str:
        """A batch of the owner's: a new one, or one that is open still."""
        if self.batches[owner] and self.chance.random() < 0.4:
            return self.chance.choice(self.batches[owner])
        self.count += 1
        order, unit = f"O{self.count}X{self.name()}"[:16], f"U{self.count}X{self.name()}"[:16]
        self.tell("unit-add", unit)
        if owner == HOUSE:
            self.tell("order", order, "R", 2)
        else:
            self.ask([(owner, "/orders", f'{{"order":"{order}","recipe":"R","batches":2}}')])
        self.tell("open", owner, order, unit)
        self.tell("do", owner, order, 1, "start")
        self.batches[owner].append(order)
        return order

    def actuals_of(self, owner: str, order: str, turn: int) -> list[str]:
        """Records of a batch: what it takes of lots, and the lots that it makes."""
        given = [(lot_owner, lot, material) for lot_owner in sorted({owner, HOUSE}) for lot, material in self.lots[lot_owner].items()]
        records = []
        for number in range(self.chance.randint(2, 5)):
            lot_owner, lot, material = self.chance.choice(given)
            records.append(f"C{turn}X{number},{owner},{order},1,{self.chance.randint(1, 2)},consumed,{material},{lot_owner},{lot},S0,{self.chance.randint(10_000, 30_000)},{self.day()}")
        for number in range(self.lots_of_batch):
            lot, material = self.name(), self.chance.choice(self.materials[owner])
            self.lots[owner][lot] = material
            records.append(f"P{turn}X{number},{owner},{order},1,{self.chance.randint(1, 2)},produced,{material},{owner},{lot},S0,{self.chance.randint(100_000, 900_000)},{self.day()}")
        return records

    def work(self, turn: int) -> None:
        """A round: each owner's batch does something, some of it is taken back, lots are released, divided, shipped and scrapped."""
        records = [record for owner in [HOUSE, *self.owners] for record in self.actuals_of(owner, self.open_batch(owner), turn)]
        sheet = self.plant.folder / "actuals.csv"
        sheet.write_text("\n".join([HEADER, *records]) + "\n")
        done = self.plant.toll("import", sheet)
        assert done.status in (0, 1), done
        for record in self.chance.sample(records, len(records) // 5):
            key, owner = record.split(",")[:2]
            self.tell("void", owner, key)
        self.release()
        for owner in [HOUSE, *self.owners]:
            for number, (word, *target) in enumerate((("ship",), ("scrap",), ("split", "S1"), ("ship",))):
                lot = self.chance.choice(list(self.lots[owner]))
                self.tell(word, owner, f"M{turn}{number}", lot, "S0", *target, self.chance.randint(10_000, 50_000), self.day())

    def finish(self) -> None:
        """Some batches are closed, and some lots rejected."""
        for owner, orders in self.batches.items():
            for order in self.chance.sample(orders, len(orders) // 2):
                self.tell("do", owner, order, 1, "done")
                self.tell("close", owner, order, 1)
        self.tell("reject", self.chance.choice(list(self.lots[HOUSE])))
        self.ask([(owner, f"/lots/{self.chance.choice(list(self.lots[owner]))}/reject", "") for owner in self.owners])


class WithParties(Filled):
    """The same with parties of each owner and of HOUSE, and with what is noted of some receipts and shipments."""

    def fill(self) -> None:
        """All of it."""
        self.parties: dict[str, dict[str, list[str]]] = {}
        self.facts: dict[tuple[str, str], dict[str, str]] = {}  # by owner and key of the movement
        super().fill()
        for (owner, key), facts in self.facts.items():
            if self.plant.rows(f"SELECT 1 FROM moves WHERE owner = '{owner}' AND mkey = '{key}'") and self.chance.random() < 0.2:
                facts["document"] = self.word(owner)
                self.run("note", "movement", owner, key, "--document", facts["document"])

    def word(self, owner: str) -> str:
        """A word that is noted of an owner alone."""
        word = self.name()
        self.noted.setdefault(owner, set()).add(word)
        return word

    def run(self, *words: object) -> str:
        """What the plant's command tells; a refusal is part of the day."""
        done = self.plant.run(*words)
        assert done.status in (0, 1), (words, done)
        return done.out

    def set_up(self, owner: str) -> None:
        """The parties of an owner, before its materials."""
        self.parties[owner] = {role: [self.word(owner) for _ in range(2)] for role in ("customer", "supplier")}
        for role, names in self.parties[owner].items():
            for name in names:
                texts = [(option, f"{self.word(owner)} & <i>{self.word(owner)}") for option in ("--name", "--address", "--contact", "--phone") if option == "--name" or self.chance.random() < 0.7]
                self.run("party", "add", owner, name, "--role", role, *(word for pair in texts for word in pair))
        super().set_up(owner)

    def tell(self, *words: object) -> str:
        """What a command is told, in which some receipts and shipments have notes."""
        way = {"ship": ("--to", "customer"), "receive": ("--from", "supplier")}.get(str(words[0]))
        if way is None or self.chance.random() < 0.3:
            return super().tell(*words)
        owner, key = str(words[1]), str(words[2])
        facts = {"party": self.chance.choice(self.parties[owner][way[1]])}
        options = [way[0], facts["party"]]
        if self.chance.random() < 0.7:
            facts["document"] = self.word(owner)
            options += ["--document", f"{facts['document']}"]
        if words[0] == "receive":
            facts["supplier_lot"] = self.word(owner)
            options += ["--supplier-lot", facts["supplier_lot"]]
        done = self.run(*words, *options, "--yes")  # some of its days are no dates
        if done == "accepted\n":
            self.facts[owner, key] = facts
        return done
