"""What is wrong with papers: held against queries, against `toll`, and against what their reader may know."""
import contextlib
import pathlib
import re
import sqlite3
from typing import Any

import figures
from offices import HOUSE, Filled

FIGURE = 10_000  # numbers from here on are figures: no other number of a page is so large


class Papers:
    """The papers of an office, made and looked at."""

    def __init__(self, office: Filled, prints: bool) -> None:
        self.office, self.plant, self.prints, self.count = office, office.plant, prints, 0
        self.recipients = 0  # that recalls named
        self.base = office.plant.folder / "looked-at.db"
        office.plant.rows("SELECT 1")  # the file is opened once before, so that it is as `toll` leaves it

    def make(self, *words: object) -> pathlib.Path:
        """The folder of a paper."""
        self.count += 1
        folder = self.plant.folder / f"papers{self.count}"
        done = self.plant.run("papers", *words, folder, *(() if self.prints else ("--no-pdf",)))
        assert (done.status, done.err) == (0, ""), (words, done)
        assert set(folder.rglob("*.pdf")) == {page.with_suffix(".pdf") for page in folder.rglob("*.html") if self.prints}
        return folder

    def pages(self, folder: pathlib.Path, paper: str) -> list[set[str]]:
        """The words of a paper's page, and of its PDF where it was printed."""
        pdf = folder / f"{paper}.pdf"
        return [figures.words_of_page(folder / f"{paper}.html"), *([figures.words_of_pdf(pdf)] if pdf.exists() else [])]

    def rows(self, sql: str, **words: Any) -> list[tuple]:
        """The rows of a query over the file."""
        if not self.base.exists():
            for end in ("", "-wal"):
                with contextlib.suppress(FileNotFoundError):
                    pathlib.Path(f"{self.base}{end}").write_bytes(pathlib.Path(f"{self.plant.db}{end}").read_bytes())
        with contextlib.closing(sqlite3.connect(self.base)) as base:
            return base.execute(sql, words).fetchall()

    def look_at_table(self, folder: pathlib.Path, name: str, wanted: list[tuple], columns: int = 99) -> None:
        """A table beside a paper has these rows, and the paper has what stands in them."""
        rows = [row[:columns] for row in figures.read_csv(folder / f"{name}.csv")]
        assert sorted(rows) == figures.as_texts(wanted), (folder, name)

    def look_at_page(self, folder: pathlib.Path, paper: str, without: tuple[str, ...] = ()) -> None:
        """Each figure and name of the tables is on the page and on the paper."""
        wanted = {word for path in folder.glob("*.csv") if path.stem not in without for word in figures.words_of_table(path)}
        for words in self.pages(folder, paper):
            assert wanted <= words, (folder, wanted - words)

    def look_for_figures(self, folder: pathlib.Path, paper: str, known: set[str]) -> None:
        """No figure is on a page that isn't in its tables, or known otherwise."""
        cells = {word for path in folder.glob("*.csv") for row in figures.read_csv(path) for cell in row for word in re.findall(r"\d+", cell)}
        for words in self.pages(folder, paper):
            numbers = {word for word in words if word.isdecimal() and int(word) >= FIGURE}
            assert numbers <= cells | known, (folder, numbers - cells - known)

    def foreign(self, owner: str) -> set[str]:
        """The names that an owner's papers may not have: those of others, and of HOUSE what the owner's batches had nothing to do with."""
        others = [other for other in self.office.owners if other != owner]
        touched = {lot for lot, in self.rows("SELECT lot FROM moves WHERE owner = :owner AND lot_owner = 'HOUSE'", owner=owner)}
        names = {*others, *(name for other in others for name in [*self.office.materials[other], *self.office.lots[other], *self.office.batches[other]])}
        names |= {lot for lot in self.office.lots[HOUSE] if lot not in touched} | set(self.office.batches[HOUSE])
        names |= {word for other, words in self.office.noted.items() if other != owner for word in words}
        names |= {test for (other, _), test in self.office.tests.items() if other != owner}
        names |= {unit for unit, in self.rows("SELECT unit FROM batches WHERE owner <> :owner EXCEPT SELECT unit FROM batches WHERE owner = :owner", owner=owner)}
        return names | {f"{other}KEY1" for other in self.office.owners}

    def look_for_others(self, folder: pathlib.Path, owner: str) -> None:
        """No name of others is in an owner's folder, in no file, in no text of a PDF and in nothing that is told of it."""
        foreign = self.foreign(owner)
        for file in filter(pathlib.Path.is_file, folder.rglob("*")):
            texts = [file.read_bytes().decode(errors="replace")]
            if file.suffix == ".pdf":
                texts += [figures.text_of_pdf(file), figures.metadata_of_pdf(file)]
            for text in texts:
                strangers = foreign & set(re.findall(r"[A-Z0-9-]+", text))
                assert not strangers, (file, strangers)
                assert "office.db" not in text, file

    def recall(self, owner: str, lot: str) -> None:
        """The papers of a recall."""
        folder, key = self.make("recall", owner, lot), {"owner": owner, "lot": lot}
        text = self.plant.toll("recall", owner, lot).out
        assert (folder / "plant" / "recall.txt").read_text() == text
        wanted = {name: self.rows(sql, **key) for name, sql in figures.RECALL.items()}
        lines = [line.split() for line in text.splitlines()[1:]]
        rows = [(str(row[0]), row[1], row[2], row[4], str(row[12]), str(row[10])) for row in wanted["lots"]]
        assert sorted(map(tuple, lines)) == sorted(rows) and all(row[13] == 0 for row in wanted["lots"])
        concerned = {row[1] for row in wanted["lots"]} | {flow[1] for flow in wanted["flows"]}
        owners = sorted(path.name for path in (folder / "owners").iterdir()) if (folder / "owners").exists() else []
        assert owners == sorted(concerned - {HOUSE})
        self.part_of_recall(folder / "plant", wanted)
        for reader in owners:
            self.part_of_recall(folder / "owners" / reader, wanted, reader)
            self.look_for_others(folder / "owners" / reader, reader)
            self.look_for_figures(folder / "owners" / reader, "recall", set())

    def part_of_recall(self, folder: pathlib.Path, wanted: dict[str, list[tuple]], owner: str = "") -> None:
        """The paper of one reader has the rows of that reader."""
        place = {"lots": 1, "sublots": 1, "shipments": 1, "flows": 1, "released": 0, "running": 0, "sums": 0}
        columns = {"released": 5, "running": 4, **({"shipments": 8} if self.office.noted else {})}
        for name, rows in wanted.items():
            if owner:
                rows = [row if name == "flows" else (*row[:place[name]], *row[place[name] + 1:]) for row in rows if row[place[name]] == owner]
            self.look_at_table(folder, name, rows, columns.get(name, 99) - bool(owner and name in columns))
        batches = {(flow[0], *([] if owner else [flow[1]]), flow[2], flow[3]) for flow in wanted["flows"] if not owner or flow[1] == owner}
        read = [tuple(row[:3 if owner else 4]) for row in figures.read_csv(folder / "batches.csv")]
        assert sorted(read) == sorted(tuple(map(str, batch)) for batch in batches)
        self.look_at_recipients(folder, wanted["shipments"], owner)
        self.look_at_page(folder, "recall", ("flows", "contacts"))

    def look_at_recipients(self, folder: pathlib.Path, shipments: list[tuple], owner: str) -> None:
        """Who has it is what was noted of each shipment, and without notes nobody is named."""
        if not self.office.noted:
            assert not (folder / "recipients.csv").exists() and "Who has it" not in (folder / "recall.html").read_text()
            return
        unknown, received = [], {}
        for day, shipper, key, lot, _, material, amount, measure in shipments:
            facts = self.office.facts.get((shipper, key), {})
            if owner in ("", shipper) and not facts:
                unknown.append((day, shipper, key, lot, material, amount, measure))
            elif owner in ("", shipper):
                sums = received.setdefault((shipper, facts["party"], lot, material, measure), [0, 0, set()])
                sums[0], sums[1] = sums[0] + 1, sums[1] + amount
                sums[2] |= {facts["document"]} if "document" in facts else set()
        first = 1 if owner else 0  # an owner's tables don't name it
        read = figures.read_csv(folder / "without_recipient.csv")
        assert sorted(row[:7 - first] for row in read) == figures.as_texts([(shipment[0], *shipment[1 + first:]) for shipment in unknown])
        read = [(*([owner] if owner else []), *row) for row in figures.read_csv(folder / "recipients.csv")]
        self.recipients += len(read)
        assert {(row[0], row[1], row[6], row[7], row[10]): [int(row[8]), int(row[9]), set(filter(None, row[11].split("; ")))] for row in read} == received
        contacts = figures.read_csv(folder / "contacts.csv")
        assert sorted((*([owner] if owner else []), *contact)[:2] for contact in contacts) == sorted({recipient[:2] for recipient in received})

    def batch(self, owner: str, order: str) -> None:
        """The record of a batch."""
        folder, key = self.make("batch", owner, order, 1), {"owner": owner, "order": order, "number": 1}
        for name, sql in figures.BATCH.items():
            self.look_at_table(folder, name, self.rows(sql, **key))
        lines = [line.split() for line in self.plant.toll("batch", owner, order, 1).out.splitlines()[1:]]
        assert sorted(lines) == sorted(row[:6] for row in figures.read_csv(folder / "requirements.csv"))
        self.look_at_paper(folder, "batch", owner)

    def certificate(self, owner: str, lot: str) -> None:
        """The certificate of a lot: it says that it isn't released unless it is."""
        folder = self.make("certificate", owner, lot)
        self.look_at_table(folder, "tests", self.rows(figures.TESTS, owner=owner, lot=lot))
        (disposition,), = self.rows("SELECT disposition FROM lots WHERE owner = :owner AND lot = :lot", owner=owner, lot=lot)
        for text in [(folder / "certificate.html").read_text(), *map(figures.text_of_pdf, folder.glob("*.pdf"))]:
            assert ("not released" in text, "This lot is released" in text) == (disposition != 1, disposition == 1)
        self.look_at_paper(folder, "certificate", owner)

    def lot(self, owner: str, lot: str) -> None:
        """The card of a lot."""
        folder, key = self.make("lot", owner, lot), {"owner": owner, "lot": lot}
        for name, sql in figures.LOT.items():
            self.look_at_table(folder, name, self.rows(sql, **key), 11)
        first, = [row for row in self.rows(figures.RECALL["lots"], **key) if row[0] == 0]
        beside = {way: {(line.split()[1], line.split()[2]) for line in self.plant.toll("trace", owner, lot, way).out.splitlines() if line.split()[0] == "1"} for way in ("back", "forward")}
        read = figures.read_csv(folder / "beside.csv")
        assert {(way, *lot_id) for way, lots in (("made of", beside["back"]), ("went into", beside["forward"])) for lot_id in lots} == set(map(tuple, read))
        assert [row[11] for row in figures.read_csv(folder / "ledger.csv")][-1:] == [str(first[12])]
        page = figures.words_of_page(folder / "lot.html")
        assert {str(figure) for figure in first[7:14]} <= page
        near = [(lot_owner, name) for lot_owner, name in {*beside["back"], *beside["forward"]} if owner in (lot_owner, HOUSE)]
        held = {str(sum(amount for _, amount in self.rows(figures.LOT["sublots"], owner=lot_owner, lot=name))) for lot_owner, name in near}
        self.look_at_paper(folder, "lot", owner, {str(figure) for figure in first[7:14]} | held)

    def statement(self, owner: str, first: int, last: int) -> None:
        """The statement of an owner."""
        folder, key = self.make("statement", owner, "--from", first, "--to", last), {"owner": owner, "first": first, "last": last}
        wanted = {name: self.rows(sql, **key) for name, sql in figures.STATEMENT.items()}
        wanted["lots"] = [row for row in wanted["lots"] if any(row[4:])]
        sums: dict[tuple, list[int]] = {}
        for row in wanted["lots"]:
            sums[row[:2]] = [a + b for a, b in zip(sums.get(row[:2], [0] * 8), row[4:])]
            assert row[4] + row[5] + row[6] - row[7] - row[8] - row[9] == row[10]
        wanted["sums"] = [(*head, *amounts) for head, amounts in sums.items()]
        for name, rows in wanted.items():
            self.look_at_table(folder, name, rows)
        if last == 9_999_999:
            stock = [line.split() for line in self.plant.toll("stock", owner).out.splitlines()]
            assert sum(int(line[4]) for line in stock) == sum(row[10] for row in wanted["lots"])
        self.look_at_paper(folder, "statement", owner, {str(first), str(last)})

    def look_at_paper(self, folder: pathlib.Path, paper: str, owner: str, known: set[str] = frozenset()) -> None:
        """A paper of one reader has what its tables have; an owner's has nothing of others."""
        self.look_at_page(folder, paper, ("beside",))
        if owner != HOUSE:
            self.look_for_others(folder, owner)
            self.look_for_figures(folder, paper, known)
