"""A sheet of actuals, receipts, shipments or results goes to `toll`, and what came of each row is reported by the
sheet's rows."""
import os
import signal
import sqlite3
import tempfile
import time
from collections import Counter
from collections.abc import Callable, Iterator
from contextlib import contextmanager
from dataclasses import dataclass, field
from functools import partial
from typing import Any

from .. import asking
from ..stops import Stops
from ...core import client, lock, meanings, scratch, snapshot
from ...core.context import Context
from ...core.failure import FAULT, REFUSED, Failure, printable
from ...core.grammar import LINES, Line
from ...core.office import Answer, Office
from ...core.journal import log as journals
from ...core.table import counted
from ...model.measures import value_of
from ...model.notes import ResultId
from ...model.years import earlier
from .noting import check_days, decimals_of, notes_beside
from .reading import read_source
from .sheet import Record, Sheet, text_of
from .values import ACTUALS, RECEIPTS, RESULTS, SHIPMENTS

ACTUAL = LINES["actual"]
MOST_BYTES = 1_048_576  # of a file that `toll` imports
FIRST, LEAST, MOST = 500, 100, 20_000  # records in one import of `toll`
QUICK, SLOW = 0.5, 3.0  # seconds: after a quicker one more records are given, after a slower one fewer
THERE = "there already"  # a result with the same value and day
GIVEN_BY = {ACTUALS.name: "actual", RECEIPTS.name: "receive", SHIPMENTS.name: "ship", RESULTS.name: "result"}  # lines
UNANSWERED = "toll ended without an answer"
REPEATED = "repeated"
NEW, OLD = "accepted", (REPEATED, THERE)


@dataclass
class Import:
    """A sheet on its way into an office: what the journal notes of its source and beside rows, who hears of progress,
    how many rows had which outcome, and the rows that didn't go in, with the reason."""

    context: Context
    office: Office
    sheet: Sheet
    source: dict[str, Any]
    beside: dict[int, dict[str, Any]] = field(default_factory=dict)
    known: set[int] = field(default_factory=set)  # rows that the file has already, which `toll` isn't asked about
    advance: Callable[[int], None] = lambda count: None
    counts: Counter[str] = field(default_factory=Counter)
    rows: list[tuple[int, str, str]] = field(default_factory=list)  # row, key or result, outcome
    answered: set[int] = field(default_factory=set)  # rows
    fault: str = ""
    signal: int = 0  # the exit status where a signal ended the import

    def run(self, advance: Callable[[int], None]) -> None:
        """Gives the sheet to `toll`, until a fault or a signal ends that: the report is printed all the same."""
        self.advance = advance
        with ended_by_signal(self):
            left = self.left_of_known()
            if self.sheet.kind == ACTUALS:
                self.give_actuals(left)
            else:
                self.give_lines(left)

    def left_of_known(self) -> list[Record]:
        """The records that the file doesn't have, or beside which something is noted. That the others were given again
        is a line of the journal."""
        known = [each for each in self.sheet.records if each.row in self.known and each.row not in self.beside]
        for record in known:
            self.note(record, REPEATED)
            self.advance(1)
        if known:
            words, keys = ["import", self.source["sheet"]], list(map(name_of, known))
            self.context.journal().note(self.office.file, words, **self.source, **{journals.KNOWN_KEYS: keys})
        return [record for record in self.sheet.records if record.row not in self.answered]

    def note(self, record: Record, outcome: str) -> None:
        """Notes what came of a row."""
        self.answered.add(record.row)
        self.counts[outcome if outcome == THERE else outcome.split()[0]] += 1
        if outcome != NEW and outcome not in OLD:
            self.rows.append((record.row, name_of(record), outcome))

    def has_fault(self, answer: Answer, last: str = "") -> bool:
        """Whether an answer is a fault, which ends the import."""
        if answer.status == FAULT:
            self.fault = answer.error.strip() or last or UNANSWERED
        return bool(self.fault)

    def give_actuals(self, records: list[Record]) -> None:
        """Gives actuals by `toll import`, in parts, each noted in the journal with its keys."""
        took = 0.0
        stops = self.context.once(Stops)
        if earlier.files_of(self.office):
            records = self.left_of(records, partial(earlier.answer, self.office, ACTUAL))
        with scratch.folder(tempfile.gettempdir()) as folder:
            for part in chunks(records, lambda: took):
                begun = time.monotonic()
                with lock.recording(self.office.file, self.office.wait):
                    left = self.left_of(part, stops.answer_to_actual) if stops.notes_alone().held else part
                    if left and not self.give_part(left, os.path.join(folder, "actuals.csv")):
                        return
                took = time.monotonic() - begun

    def left_of(self, records: list[Record], answered: Callable[[list[str]], Answer | None]) -> list[Record]:
        """The actuals that are left to be given; of those that are answered without `toll` the answer is noted."""
        left = []
        for record in records:
            answer = answered(list(values_of(ACTUAL, record).values()))
            if answer:
                self.note(record, (answer.output or answer.error).strip())
                self.advance(1)
            else:
                left.append(record)
        return left

    def give_part(self, part: list[Record], path: str) -> bool:
        """Gives a part of the actuals; whether all of it was answered."""
        text, journal = text_of(ACTUALS, part), self.context.journal()
        with open(path, "w") as file:
            file.write(text)
        digest, keys = journals.hash_of(text.encode()), list(map(name_of, part))
        entry = journal.asked(
            self.office.file, ["import", self.source["sheet"]], **self.source, sha256=digest, keys=keys
        )
        answer = self.office.ask_patiently(["import", path])
        journal.answered(entry, answer)
        outcomes = [match[1] for match in map(meanings.OUTCOME.fullmatch, answer.output.splitlines()) if match]
        for record, outcome in zip(part, outcomes):
            self.note(record, outcome)
        self.advance(len(part))
        is_cut = len(outcomes) < len(part)
        return not self.has_fault(answer._replace(status=FAULT) if is_cut else answer, (outcomes or [""])[-1])

    def give_lines(self, records: list[Record]) -> None:
        """Gives receipts, shipments or results line by line. A result with the value and day of one that stands isn't
        given."""
        line = LINES[GIVEN_BY[self.sheet.kind.name]]
        standing = standing_results(self.office) if self.sheet.kind == RESULTS else set()
        journal = self.context.journal()
        with client.asker(self.office, len(records)) as ask, journal.series():
            for record in records:
                words = list(values_of(line, record).values())
                if self.sheet.kind == RESULTS and result_of(record) in standing:
                    self.note(record, THERE)
                else:
                    beside = self.beside.get(record.row, {})
                    answer = asking.asked(
                        self.context, self.office, line, words, journal, ask, **self.source, row=record.row, **beside
                    )
                    if self.has_fault(answer):
                        return
                    self.note(record, (answer.output or answer.error).strip())
                    if self.sheet.kind == RESULTS and not answer.status:
                        standing.add(result_of(record))
                self.advance(1)

    @property
    def status(self) -> int:
        """The exit status."""
        return self.signal or (FAULT if self.fault else REFUSED if self.rows or self.sheet.refused else 0)

    def lines(self, kind: str) -> list[str]:
        """The rows that didn't go in, with the reason, then the sums."""
        lines = []
        for row, name, outcome in sorted(self.rows):
            refusal = meanings.refusal_in(outcome)
            means = f": {meanings.meaning('refusals', refusal)}" if refusal else ""
            lines.append(printable(f"row {row} ({name}): {outcome}{means}"))
        return [*lines, self.summary(kind)]

    def summary(self, kind: str) -> str:
        """What came of the sheet, in a line."""
        unread = len({refusal.row for refusal in self.sheet.refused})
        outcomes = [
            f"{self.counts[NEW]:,} accepted",
            f"{sum(self.counts[outcome] for outcome in OLD):,} there already",
            f"{self.counts['refused']:,} refused",
            f"{unread + self.counts['bad-record']:,} can't be read",
        ]
        new = "" if self.counts[NEW] or self.fault else "; nothing was new"
        return f"{counted(len(self.sheet.records) + unread, kind)}: {', '.join(outcomes)}{new}"

    def end(self) -> str:
        """What ended the import, if a fault did, and how many of the rows that got no answer the file has."""
        if not self.fault:
            return ""
        left = [record for record in self.sheet.records if record.row not in self.answered]
        try:
            count = self.recorded(left)
            stand = f"{count:,} of them {'is' if count == 1 else 'are'} recorded"
        except (Failure, sqlite3.Error) as error:
            stand = f"an unknown number of them are recorded ({error})"
        rows = f"{self.fault}: {counted(len(left), 'rows')} got no answer, and {stand}"
        return printable(f"{rows}. Import the sheet again: what stands is told as there already")

    def recorded(self, records: list[Record]) -> int:
        """How many of these records the file has, whatever was answered."""
        if self.sheet.kind == RESULTS:
            results = standing_results(self.office)
            return sum(result_of(record) in results for record in records)
        keys = standing_keys(self.office)
        return sum((record.values["owner"], record.values["key"]) in keys for record in records)


def read(context: Context, path: str, are_meant: bool, **given: Any) -> Import:
    """The sheet of a file, as options ask for it, with what is known of its rows in the office. `are_meant` says that
    days are, whatever they are."""
    office, required = context.office(), ["to"] if context.settings.require.recipient else []
    decimals = decimals_of(context) if given["what"] == RESULTS.name else None
    sheet, sha256 = read_source(path, {**given, "required": required, "decimals_of": decimals})
    source = {"sheet": os.path.basename(path), "sheet_sha256": sha256}
    read_sheet = Import(context, office, sheet, source, {} if sheet.wrong else notes_beside(context, sheet))
    if sheet.records and not sheet.wrong:
        with earlier.tables_of(office) as bases:
            check_days(bases, context.settings.time_zone, sheet, are_meant)
            read_sheet.known = known_rows(office, bases[0], sheet)
    return read_sheet


def name_of(record: Record) -> str:
    """By what a record is known: its owner's key, or of a result its lot and test."""
    values = record.values
    return f"{values['owner']} {values.get('key') or ' '.join([values['lot'], values['test']])}"


def chunks(records: list[Record], seconds: Callable[[], float]) -> Iterator[list[Record]]:
    """The records in parts that `toll` takes at once: as many as it does in about a second."""
    at, size = 0, FIRST
    while at < len(records):
        part = fitting(records[at : at + size])
        yield part
        at += len(part)
        if seconds() < QUICK:
            size = min(size * 2, MOST)
        elif seconds() > SLOW:
            size = max(size // 2, LEAST)


def fitting(records: list[Record]) -> list[Record]:
    """The first of these records that fit into a file that `toll` imports."""
    while len(text_of(ACTUALS, records)) > MOST_BYTES:
        records = records[: len(records) // 2]
    return records


def values_of(line: Line, record: Record) -> dict[str, str]:
    """The values of a record, by their names in its line."""
    values = record.of_line
    return {value: values[value] for value in line.values}


def known_rows(office: Office, base: sqlite3.Connection, sheet: Sheet) -> set[int]:
    """The rows of a sheet whose movements tables have with the same key and the same values. What earlier files answer
    goes first."""
    line, has_earlier = LINES[GIVEN_BY[sheet.kind.name]], bool(earlier.files_of(office))
    rows = [(record.row, values_of(line, record)) for record in sheet.records]
    known = [(row, values) for row, values in rows if earlier.is_repeated(base, line, values)]
    return {row for row, values in known if not (has_earlier and earlier.answer(office, line, list(values.values())))}


def result_of(record: Record) -> ResultId:
    """Which result a row is: its value and its day are numbers, however they are written."""
    values = record.values
    return values["owner"], values["lot"], values["test"], value_of(values["value"]), int(values["day"])


def standing_results(office: Office) -> set[ResultId]:
    """All results."""
    with snapshot.opened(office) as base:
        return set(base.execute("SELECT owner, lot, test, value, day FROM results"))


def standing_keys(office: Office) -> set[tuple[str, ...]]:
    """The owners and keys of all movements."""
    with snapshot.opened(office) as base:
        return {tuple(row) for row in base.execute("SELECT owner, mkey FROM moves")}


@contextmanager
def ended_by_signal(sheet: Import) -> Iterator[None]:
    """Has a signal that ends this process end the import alone, of which the report is still printed."""
    try:
        yield
    except SystemExit as end:
        sheet.signal = int(end.code or 0)
        sheet.fault = f"ended by {signal.Signals(sheet.signal - 128).name}"
