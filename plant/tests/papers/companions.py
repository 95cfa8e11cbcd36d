"""Offices that are filled by chance, with notes of all kinds of each owner, and what their companions may say."""
import json
import pathlib
import re
import shutil
from typing import Any

from conftest import Plant
from hilpoven.core import settings as site
from hilpoven.core.journal.log import Journal
from hilpoven.model import views
from hilpoven.model.register import standing
from hilpoven.model.notes import LotFacts, MaterialFacts, MovementFacts, OwnerFacts, ResultFacts, TestFacts
from hilpoven.model.kinds import Bound, Role, Why
from hilpoven.model.notes import Note
from hilpoven.model.notes import Held, Link, NotLinked, Party, Reason, Signed, Withdrawal
from hilpoven.model.register.noted import from_json, to_json
from hilpoven.report.papers import takeout
from looks import FIGURE, Papers
from offices import HOUSE, Filled

PLANT = {"name": "Toll Works & Söhne", "address": "1 Quay", "contact": "Jane \"J\" Doe"}
QA = "QA"
DAYS = (261101, 270115, 280229)
KINDS = {0: "receipt", 1: "split", 2: "shipment", 3: "scrap", 4: "actual", 5: "actual"}


class Known(Filled):
    """An office of which the plant noted all that it can, in words that nothing else has. Some materials have the plant's own test."""

    def __init__(self, program: str, folder: pathlib.Path, seed: int) -> None:
        self.judged: set[tuple[str, str]] = set()  # materials with the plant's own test
        super().__init__(program, folder, seed)
        self.papers = Papers(self, False)
        self.note()
        lines = [f"[plant]\n{''.join(f'{name} = {json.dumps(text)}' + chr(10) for name, text in PLANT.items())}", f'[quality]\ntest = "{QA}"\npersons = 1\n']
        site.load.__defaults__[0].write_text("".join(lines))

    def rows(self, sql: str, **words: Any) -> list[tuple]:
        return self.papers.rows(sql, **words)

    def set_up(self, owner: str) -> None:
        """HOUSE has also what no owner's recipe names."""
        super().set_up(owner)
        if owner == HOUSE:
            material, lot = self.name(), self.name()
            self.noted.setdefault(HOUSE, set()).update((material, lot))
            super().tell("material-add", HOUSE, material, "kg")
            super().tell("receive", HOUSE, "R9", material, lot, "S0", self.chance.randint(200_000, 900_000), self.day())

    def tell(self, *words: object) -> str:
        """What a command is told; a material may get the plant's own test."""
        output = super().tell(*words)
        if words[0] == "material-add" and self.chance.random() < 0.4:
            self.judged.add((str(words[1]), str(words[2])))
            super().tell("test-add", words[1], words[2], QA, 1, 1)
        return output

    def release(self) -> None:
        """The plant signs and holds some lots by its own test before."""
        for owner, lots in self.lots.items():
            for lot, material in lots.items():
                if (owner, material) in self.judged and self.chance.random() < 0.5:
                    super().tell("result", owner, lot, QA, self.chance.choice((0, 1, 1)), self.day())
        super().release()

    def word(self, owner: str) -> str:
        """A text with words that are an owner's alone."""
        first, second = self.name(), self.name()
        self.noted.setdefault(owner, set()).update((first, second))
        return self.chance.choice((f"{first} {second}", f"{first} & <i>\"{second}\\", f"{first}, Łódź 北京 {second}"))

    def note(self) -> None:
        """Notes of all kinds, of HOUSE and of each owner."""
        journal = Journal(str(self.plant.journal), str(self.plant.db))
        for owner in [HOUSE, *self.owners]:
            notes = [*self.descriptions(owner), *self.of_lots(owner), *self.of_movements(owner), *self.links(owner)]
            name = journal.note(journal.file, ["describe"], notes=[to_json(note) for note in notes])
            withdrawn = self.chance.choice([number for number, note in enumerate(notes, 1) if isinstance(note, Link)])
            of = name if withdrawn == 1 else f"{name}.{withdrawn}"
            journal.note(journal.file, ["note"], notes=[to_json(Withdrawal(owner, of, self.word(owner)))])

    def descriptions(self, owner: str) -> list[Note]:
        """Full names of an owner, its parties, materials and tests."""
        self.parties = [self.name() for _ in range(3)]
        self.noted.setdefault(owner, set()).update(self.parties)
        notes: list[Note] = [OwnerFacts(owner, self.word(owner), self.word(owner))]
        notes += [Party(owner, party, *(self.word(owner) for _ in range(4)), roles=(Role.CUSTOMER, Role.SUPPLIER)) for party in self.parties]
        notes += [MaterialFacts(owner, material, self.word(owner)) for material in self.materials[owner]]
        tests = [(material, test) for (test_owner, material), test in self.tests.items() if test_owner == owner]
        return [*notes, *(TestFacts(owner, material, test, self.word(owner), self.word(owner), self.chance.randint(0, 2), self.word(owner)) for material, test in tests)]

    def of_lots(self, owner: str) -> list[Note]:
        """Days, holds, signatures and reasons of lots, and bounds of results."""
        notes: list[Note] = []
        for lot in self.chance.sample(list(self.lots[owner]), len(self.lots[owner]) // 2):
            kind = self.chance.choice((Held, Signed))
            notes += [LotFacts(owner, lot, *self.chance.choices((*DAYS, None), k=3)), kind(owner, lot, self.day(), self.word(owner)), Reason(owner, "reject", self.word(owner), lot=lot)]
        results = self.rows("SELECT lot, test, value, day FROM results WHERE owner = :owner AND test <> 'QA'", owner=owner)
        return notes + [ResultFacts(owner, *row, self.chance.choice(list(Bound))) for row in self.chance.sample(results, len(results) // 3)]

    def of_movements(self, owner: str) -> list[Note]:
        """Parties, documents and reasons of movements and orders."""
        moves = self.rows("SELECT mkey FROM moves WHERE owner = :owner AND kind IN (0, 2)", owner=owner)
        notes: list[Note] = [MovementFacts(owner, key, self.chance.choice(self.parties), self.word(owner), self.word(owner)) for key, in self.chance.sample(moves, len(moves) * 2 // 3)]
        notes += [NotLinked(owner, key) for key, in moves[:1]] + [Reason(owner, "void", self.word(owner), key=key) for key, in moves[:2]]
        return notes + [Reason(owner, "do", self.word(owner), order=order, batch=1) for order in self.batches[owner][:1]]

    def links(self, owner: str) -> list[Note]:
        """What lots and batches of an owner contain of its own lots and of HOUSE's."""
        notes: list[Note] = []
        for number in range(6):
            source_owner = self.chance.choice((owner, HOUSE))
            of, why, amount = self.chance.choice(list(self.lots[source_owner])), self.chance.choice(list(Why)), self.chance.choice((None, self.chance.randint(7_000_000, 7_999_999)))
            lot, order = self.chance.choice(list(self.lots[owner])), self.chance.choice(self.batches[owner])
            if number % 2 == 0 and (owner, lot) != (source_owner, of):
                notes.append(Link(owner, lot, "", 0, source_owner, of, why, amount, self.word(owner)))
            else:
                notes.append(Link(owner, "", order, 1, source_owner, of, why, amount, self.word(owner)))
        return notes

    def companions(self) -> dict[str, dict]:
        """The companions of all owners."""
        folder = self.plant.folder / "companions"
        folder.mkdir(mode=0o700, exist_ok=True)
        done = self.plant.run("companion", "--out", folder)
        assert (done.status, done.err) == (0, ""), done
        assert sorted(path.name for path in folder.iterdir() if path.suffix == ".json") == sorted(f"{owner}.json" for owner in self.owners)
        texts = {owner: (folder / f"{owner}.json").read_text() for owner in self.owners}
        values = {owner: json.loads(text) for owner, text in texts.items()}
        assert texts == {owner: json.dumps(value, ensure_ascii=False, separators=(",", ":")) for owner, value in values.items()}
        return values

    def look_for_others(self, owner: str, companion: dict) -> None:
        """No word of others is in an owner's companion, and no figure that isn't its own."""
        text = json.dumps(companion, ensure_ascii=False)
        named = {link["from"]["lot"] for link in companion["links"] if link["from"]["owner"] == HOUSE}
        own_links = [link for link in self.links_of(owner) if link.of_owner == HOUSE]
        assert named <= {link.of_lot for link in own_links}
        foreign = self.papers.foreign(owner) - named
        strangers = foreign & set(re.findall(r"[A-Z0-9-]+", text))
        assert not strangers, (owner, strangers)
        figures = {number for number in map(int, re.findall(r"\d+", text)) if number >= FIGURE}
        assert figures <= self.own_figures(owner), (owner, figures - self.own_figures(owner))

    def look_at_notes(self) -> None:
        """The notes of each owner are those of all that are its own."""
        with self.plant.reading() as base:
            register = standing.read(Journal(str(self.plant.journal), str(self.plant.db)), base)
            for owner in [HOUSE, *self.owners]:
                judged = [(note.lot, "hold" if isinstance(note, Held) else "signature", note.day, note.reason) for note in self.notes_of(owner, Held, Signed)]
                assert judged and list(map(tuple, takeout.judgements(views.over(base, register), owner).rows)) == judged
            for owner in self.owners:
                own = register.of(owner)
                assert own.links == [link for link in register.links if link.owner == owner]
                assert own.reasons == [reason for reason in register.reasons if reason.owner == owner]
                assert own.not_linked == {key for key in register.not_linked if key[0] == owner}
                for name in ("parties", "facts", "materials", "recipes", "tests", "lots", "bounds", "corrects"):
                    things = getattr(register, name)
                    assert getattr(own, name) == {key: notes for key, notes in things.items() if key[0] == owner}, (owner, name)
                    assert all(getattr(own, name).get(key) is None for key in things if key[0] != owner), (owner, name)

    def links_of(self, owner: str) -> list[Link]:
        """The links that the journal has of an owner, with those that were withdrawn."""
        return self.notes_of(owner, Link)

    def notes_of(self, owner: str, *kinds: type[Note]) -> list[Any]:
        """The notes of some kinds that the journal has of an owner."""
        notes = [from_json(value) for line in self.plant.lines() for value in line.get("notes", ())]
        return [note for note in notes if isinstance(note, kinds) and note.owner == owner]

    def own_figures(self, owner: str) -> set[int]:
        """The amounts of an owner's own rows and notes, their sums, and days."""
        standing = "(owner, mkey) NOT IN (SELECT owner, mkey FROM voids)"
        queries = (
            "SELECT amount FROM moves WHERE owner = :owner", "SELECT amount FROM requirements WHERE owner = :owner",
            "SELECT sum(amount) FROM sublots WHERE owner = :owner GROUP BY lot",
            f"SELECT sum(amount) FROM moves WHERE owner = :owner AND kind > 3 AND {standing} GROUP BY ord, number, segment, kind, lot_owner, material",
            "SELECT day FROM moves WHERE owner = :owner UNION SELECT day FROM results WHERE owner = :owner")
        figures = {number for sql in queries for number, in self.rows(sql, owner=owner)} | set(DAYS) | {20_000}
        figures |= {note["day"] for line in self.plant.lines() for note in line.get("notes", ()) if note["owner"] == owner and "day" in note}
        return figures | {link.amount for link in self.links_of(owner) if link.amount}

    def look_at_rows(self, owner: str, companion: dict) -> None:
        """What it says is what the tables have, by queries that are written for this alone."""
        moves = self.rows("SELECT mkey, kind, day, lot, lot_owner, sublot, amount, (SELECT material FROM lots AS l WHERE l.owner = lot_owner AND l.lot = m.lot), ord, number, segment, "
                          "target, (owner, mkey) IN (SELECT owner, mkey FROM voids) FROM moves AS m WHERE owner = :owner ORDER BY rowid", owner=owner)
        assert all(row[7] for row in moves)
        moves_said = [(movement["key"], movement["kind"], movement["day"], movement["lot"], movement["lotOwner"], movement["sublot"], movement["amount"], movement["material"], movement.get("order", ""), movement.get("batch", 0), movement.get("segment", 0),
                 movement.get("toSublot", ""), int(movement.get("voided", False))) for movement in companion["movements"]]
        assert moves_said == [(key, KINDS[kind], *rest) for key, kind, *rest in moves]
        assert [movement.get("use") for movement in companion["movements"]] == [{4: "consumed", 5: "produced"}.get(kind) for _, kind, *_ in moves]
        produced = self.rows("SELECT ord, number, lot FROM moves WHERE owner = :owner AND kind = 5 AND (owner, mkey) NOT IN (SELECT owner, mkey FROM voids) GROUP BY 1, 2, 3", owner=owner)
        assert {(batch["order"], batch["batch"], lot) for batch in companion["batches"] for lot in batch["lots"]} == set(produced)
        tests = self.rows("SELECT material, test, low, high FROM tests WHERE owner = :owner AND test <> 'QA'", owner=owner)
        own = [material for material in companion["materials"] if material["owner"] == owner]
        assert sorted((material["material"], test["test"], test["low"], test["high"]) for material in own for test in material.get("tests", ())) == sorted(tests)
        assert [material["material"] for material in own] == sorted(self.materials[owner]) and all("description" in material for material in own)
        assert {gauge["count"] for gauge in companion["full"] if gauge["what"] == "movements"} == {len(moves)}
        assert companion["plant"] == PLANT and companion["version"] == 1 and companion["owner"] == owner

    def look_at_replies(self, owner: str, companion: dict) -> None:
        """What it says is what `toll` replies, and a lot that can be released is released, on a copy of the office, and no other one."""
        copy = Plant(self.plant.program, self.plant.folder / "copy")
        copy.folder.mkdir(exist_ok=True)
        for end in ("", "-wal"):
            copy.db.with_name(copy.db.name + end).unlink(missing_ok=True)
            if (source := pathlib.Path(f"{self.plant.db}{end}")).exists():
                shutil.copyfile(source, f"{copy.db}{end}")
        with copy.serve() as server:
            assert server.ask(owner, "GET", "/orders") == (200, {"orders": companion["orders"]})
            stock = [{**{name: lot[name] for name in ("amount", "disposition", "lot", "material")}} for lot in companion["lots"]]
            assert [{name: field for name, field in lot.items() if name != "measure"} for lot in server.ask(owner, "GET", "/stock")[1]["lots"]] == stock
            for batch in companion["batches"]:
                reply = server.ask(owner, "GET", f"/batches/{batch['order']}/{batch['batch']}")[1]
                assert (reply["unit"], reply["state"], reply["closed"]) == (batch["unit"], batch["state"], batch.get("closed", False))
                assert reply["requirements"] == batch["lines"]
            for lot in companion["lots"]:
                reply, is_quarantined = server.ask(owner, "GET", f"/lots/{lot['lot']}")[1], lot["disposition"] == "quarantined"
                assert reply["origin"] == (f"{lot['order']}/{lot['batch']}" if "order" in lot else "receipts") and ("release" in lot) == is_quarantined
                if is_quarantined:
                    self.look_at_release(lot, reply)
                    status, answer = server.ask(owner, "POST", f"/lots/{lot['lot']}/release")
                    assert lot["release"]["possible"] == (status == 200) and (status == 200 or answer["error"] == "TestsOpen"), (lot, answer)

    def look_at_release(self, lot: dict, reply: dict) -> None:
        """The reasons are the tests without a result, or with one beyond its limits."""
        latest = {result["test"]: result["value"] for result in reply["results"]}
        for why in lot["release"].get("why", ()):
            value = latest.get(why.get("test", QA))
            match why["reason"]:
                case "missing" | "unsigned":
                    assert value is None
                case "plant-hold":
                    assert value == 0 and "held" in lot
                case "below":
                    assert value == why["value"] < why["limit"] == -50
                case "above":
                    assert value == why["value"] > why["limit"] == 150
                case other:
                    raise AssertionError(other)


def try_office(program: str, folder: pathlib.Path, seed: int) -> Known:
    """Looks at the companions of an office."""
    office = Known(program, folder, seed)
    office.look_at_notes()
    for owner, companion in office.companions().items():
        office.look_for_others(owner, companion)
        office.look_at_rows(owner, companion)
        office.look_at_replies(owner, companion)
    return office
